"""A folder of scripts, and what one of them may have for a map."""

from __future__ import annotations

import os
from dataclasses import dataclass
from itertools import count
from typing import Iterator, Optional, Tuple

from ._declarations import FILE_SCRIPT, FILE_STYLE_SHEET, NAMED_FILE, NAMED_INLINE, NAMED_LEAVES
from ._declarations import NAMED_NO_NAME, NAMED_NOTHING, NAMED_UNSAID, NOT_UTF8, REFUSED
from ._library import Error
from .links import as_bytes, data_url, file_kind, file_path, resolve, script_link, script_map, script_name
from .links import script_url

__all__ = ["MOST_SHOWN", "SOME_FOLDER", "Folder", "OutsideFolderError", "Script", "may_name_map", "of_named"]

# A folder that stands for that of a script where it has no URL, or the fault in the URL of its map is told.
SOME_FOLDER = "/the folder of the script/"

# How many bytes of a URL an error shows.
MOST_SHOWN = 200


class OutsideFolderError(Error):
    """A script that names what is no file of its folder as its map.

    `file` is the script, and `url` what it names, or the beginning of that.
    """

    __module__ = "smap"

    def __init__(self, file: str, url: str) -> None:
        super().__init__(REFUSED, f"{file} names a map that is no file of its folder: {url}")
        self.file, self.url = file, url

    def __reduce__(self) -> Tuple[type, Tuple[str, str]]:
        return type(self), (self.file, self.url)


@dataclass(frozen=True)
class Folder:
    """A folder of maps and scripts, and the beginning of the scripts' URLs, or of their paths."""

    key: str
    place: str
    # what the names of scripts in it have in common before their names below it, if there is that
    form: Optional[bytes]

    def name_of(self, script: str) -> Optional[str]:
        """The name of the script below the folder, if it is one of those."""
        if not script.startswith(self.key):
            return None
        name = script_name(as_bytes(self.key), as_bytes(script))
        return None if name is None else os.fsdecode(name)

    def name_alike(self, form: bytes) -> Optional[bytes]:
        """The same of any script whose name has this normal form."""
        if self.form is None or not form.startswith(self.form):
            return None
        return script_name(self.form, form)

    def has(self, name: str) -> bool:
        """Whether a script with this name may have a map: its file is there, or the map next to it."""
        return self.script(name) is not None or self.file(name + ".map") is not None

    def script(self, name: str) -> Optional[str]:
        """The file of the script, if there is one."""
        return self.file(name) if may_name_map(name) else None

    def file(self, name: str) -> Optional[str]:
        """The file with this name, if there is one."""
        file = os.path.join(self.place, name)
        if not os.path.isfile(file):
            return None
        # a link to a folder leads elsewhere
        parent = os.path.dirname(os.path.join(os.path.realpath(self.place), name))
        return file if os.path.realpath(parent) == parent else None


def may_name_map(name: str) -> bool:
    """Whether a file is a script or a style sheet, which may name a map."""
    return file_kind(os.fsencode(name)) in (FILE_SCRIPT, FILE_STYLE_SHEET)


@dataclass(frozen=True)
class Script:
    """A script of a folder, the last lines of its file, what it names as its map, one of NAMED_.., and the
    first of the maps that it may have.
    """

    folder: Folder
    name: str
    lines: bytes
    kind: int
    first: Optional[bytes]

    @classmethod
    def of(cls, folder: Folder, name: str, lines: bytes) -> Script:
        return cls(folder, name, lines, *script_map(as_bytes(folder.key), os.fsencode(name), lines))

    @property
    def file(self) -> str:
        return os.path.join(self.folder.place, self.name)

    @property
    def url(self) -> bytes:
        """What it names, as it stands there."""
        return script_link(self.lines, file_kind(os.fsencode(self.name)) == FILE_STYLE_SHEET) or b""

    @property
    def names_map(self) -> bool:
        """Whether the first map is the one that it names."""
        return self.kind in (NAMED_INLINE, NAMED_FILE)

    def maps(self) -> Iterator[bytes]:
        """The maps that it may have, the best first: each itself, or the name of its file."""
        found = self.first
        for tried in count(1):
            if found is None:
                return
            yield found
            _, found = script_map(as_bytes(self.folder.key), os.fsencode(self.name), self.lines, tried)

    def named_file(self, name: bytes) -> Optional[str]:
        """The file of the map that it names, where all links are followed; None if there is none."""
        file = os.path.join(self.folder.place, os.fsdecode(name))
        if not os.path.exists(file):
            return None
        file = os.path.realpath(file)
        if not file.startswith(os.path.join(os.path.realpath(self.folder.place), "")):
            raise self.outside()
        return file

    def fault(self) -> Optional[Error]:
        """Why it names neither a map nor a file of its folder, if it names something else."""
        if self.names_map or self.kind in (NAMED_UNSAID, NAMED_NOTHING):
            return None
        if self.kind != NAMED_NO_NAME:
            try:
                data_url(self.url)
                file_path(resolve(script_url(as_bytes(SOME_FOLDER), os.fsencode(self.name)), self.url))
            except Error as fault:
                if self.kind != NAMED_LEAVES or fault.code == NOT_UTF8:
                    return of_named(self.file, fault)
        return self.outside()

    def outside(self) -> OutsideFolderError:
        url = self.url
        shown = url[:MOST_SHOWN].decode("utf-8", "replace")
        return OutsideFolderError(self.file, shown + "..." * (len(url) > MOST_SHOWN))


def of_named(file: str, fault: Error) -> Error:
    """A fault of the library, which says what it is a fault of."""
    if isinstance(fault, OutsideFolderError):
        return fault
    return Error(fault.code, f"the map that {file} names: {fault}")

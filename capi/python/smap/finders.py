"""Where the map of a script is: what a store asks for each script that it hasn't got."""

from __future__ import annotations

import errno
import json
import os
import re
from bisect import bisect_right
from collections.abc import Mapping as AnyMapping
from functools import partial
from typing import Callable, Dict, Iterable, Iterator, List, NamedTuple, Optional, Tuple, Union

from ._declarations import FILE_MAP, NAMED_FILE, NAMED_INLINE, NAMED_NOTHING, NAMED_UNSAID, REFUSED
from ._library import Error
from .files import MOST_BYTES, from_end, read_file, too_large
from .links import as_bytes, file_kind, file_url, normal_form, resolve, script_url
from .scripts import SOME_FOLDER, Folder, OutsideFolderError, Script, may_name_map, of_named

__all__ = ["Finder", "Folders", "Found", "Lead", "LeadOf", "OutsideFolderError", "RepeatedError"]
__all__ += ["base_by_default", "lead_alone"]

# What is said of a folder without the URL of its scripts.
NO_PLACES = 'folders are given with the URLs of their scripts, as {"https://shop.example/": "dist/"}'

PathLike = Union[str, "os.PathLike[str]"]


class Found(NamedTuple):
    """A map that a finder found: its text, and its URL, against which its sources are resolved."""

    data: bytes
    base: str


# A finder gets the URL of a script, and returns its map, or the map's text alone, or None if there is none.
Finder = Callable[[str], Union[Found, bytes, None]]


class Lead(NamedTuple):
    """The map that a source names: what reads it, its file unless the source has it, and the source's text."""

    read: Callable[[], Found]
    file: Optional[str]
    text: bytes


# Gets the URL of a source and its content, and returns what it names as its map, if it names one.
LeadOf = Callable[[str, Optional[str]], Optional[Lead]]


class RepeatedError(Error):
    """A script for which several folders have a map. None of them is taken, since one would be wrong."""

    __module__ = "smap"

    def __init__(self, files: List[str]) -> None:
        super().__init__(REFUSED, "script repeated: " + " and ".join(files))
        self.files = files

    def __reduce__(self) -> Tuple[type, Tuple[List[str]]]:
        return type(self), (self.files,)


def _own_url(script: str) -> str:
    """The URL of a script, which may be named by a path."""
    return file_url(script) or script


def base_by_default(script: str) -> str:
    """The URL of a script's map unless one is given: the script's and `.map`."""
    return _own_url(script) + ".map"


class Folders:
    """Finds maps in files and folders, as smap-trace does: Folders({"https://h/m/": "dist/"}).

    For a key that ends in `/` or `\\`, the map of the script whose URL is the key with NAME behind it,
    percent-encoded unless the key is a path, is the one that the file NAME (.js, .mjs, .cjs, .css) in the
    folder or below it names in its last comment: one in the folder or below it, or in a data: URL. Where that
    can't be had, it is the file NAME.map next to it. Links to files are followed, links to folders
    aren't, and what a script names is read nowhere else than in the folder (`OutsideFolderError`, where there
    is no NAME.map). Any other key is a script
    itself, and its value the file of its map, or the script's, if that names a map in its own folder.

    Raises NotADirectoryError if there is no such folder, and ValueError if a folder's key lacks its `/`.
    A script for which several folders have a map is a `RepeatedError`; one that is a key is looked for in no
    folder. A map that has more than `map_bytes` bytes, or is no regular file, isn't read, but an OSError. Of
    a script no more is read than its end, a third more than `map_bytes` and 64 KiB at most.
    """

    def __init__(self, places: AnyMapping[str, PathLike], map_bytes: int = MOST_BYTES) -> None:
        if not isinstance(places, AnyMapping):
            raise TypeError(f"{NO_PLACES}, not {places!r}")
        if map_bytes < 0:
            raise ValueError("map_bytes is below 0")
        self._map_bytes = map_bytes
        self._files: Dict[str, str] = {}
        self._folders: List[Folder] = []
        self._forms: Optional[Tuple[Dict[bytes, str], Dict[bytes, Optional[str]]]] = None
        self._listed: Optional[List[Tuple[bytes, Beginnings]]] = None
        self._ids: Optional[Dict[str, str]] = None
        for key, place in places.items():
            self._add(key, os.fspath(place))

    def _add(self, key: str, place: str) -> None:
        is_folder = os.path.isdir(place)
        if key.endswith(("/", "\\")):
            if not is_folder:
                raise NotADirectoryError(errno.ENOTDIR, "no such folder", place)
            self._folders.append(Folder(key, place, _form(key)))
        elif is_folder:
            raise ValueError(f"{place} is a folder, so its URL ends in a slash: {key}/")
        else:
            self._files[key] = place

    def __call__(self, script: str) -> Optional[Found]:
        if script in self._files:
            return self._in_file(script, self._files[script])
        named = [(folder, folder.name_of(script)) for folder in self._folders]
        there: List[Tuple[str, Found]] = []
        fault: Optional[Exception] = None
        for folder, name in named:
            try:
                there += [] if name is None else self._in_folder(script, folder, name)
            except (Error, OSError) as error:
                fault = fault or error
        if len(there) > 1:
            raise RepeatedError([file for file, _ in there])
        if fault is not None and not there:
            raise fault
        return there[0][1] if there else None

    def _in_folder(self, script: str, folder: Folder, name: str) -> Iterator[Tuple[str, Found]]:
        """The map of the script with this name in a folder, if it has one, and the file that says so: of the
        maps that it may have the first that can be had.
        """
        it, fault = self._script_there(folder, name)
        is_named = it.names_map
        for found in it.maps():
            try:
                had = self._named(script, it, found) if is_named else self._beside(script, it, found)
            except FileNotFoundError:
                had = None  # it was removed meanwhile
            except (Error, OSError) as error:
                had, fault = None, fault or error
            if had is not None:
                yield had
                return
            is_named = False
        if fault is not None:
            raise fault

    def _script_there(self, folder: Folder, name: str) -> Tuple[Script, Optional[Exception]]:
        """A script of a folder, and why it names no map. One that isn't there, or can't be read, says nothing."""
        file = folder.script(name)
        fault: Optional[OSError] = None
        if file is not None:
            try:
                it = self._read_script(folder, name, file)
                return it, it.fault()
            except FileNotFoundError:
                pass  # it was removed meanwhile
            except OSError as error:
                fault = error
        return Script.of(folder, name, b""), fault

    def _read_script(self, folder: Folder, name: str, file: str) -> Script:
        """A script of a folder, with so many lines of its end as say what it names."""

        def ask(lines: bytes) -> Optional[Script]:
            script = Script.of(folder, name, lines)
            return None if script.kind == NAMED_UNSAID else script

        return from_end(file, ask, self._map_bytes) or Script.of(folder, name, b"")

    def _named(self, script: str, it: Script, found: bytes) -> Optional[Tuple[str, Found]]:
        """The map that a script names, if it is there, and the script's file."""
        if it.kind == NAMED_INLINE:
            if len(found) > self._map_bytes:
                raise too_large(self._map_bytes, it.file)
            return it.file, Found(found, _own_url(script))
        file = it.named_file(found)
        if file is None:
            return None
        try:
            return it.file, self._read(file, resolve(as_bytes(script), it.url).decode())
        except Error as fault:
            raise of_named(it.file, fault) from None

    def _beside(self, script: str, it: Script, found: bytes) -> Optional[Tuple[str, Found]]:
        """The map next to a script, if it is there, and its file."""
        file = it.folder.file(os.fsdecode(found))
        return None if file is None else (file, self._read(file, base_by_default(script)))

    def _read(self, file: str, base: str) -> Found:
        return Found(read_file(file, self._map_bytes), base)

    def _in_file(self, script: str, file: str) -> Found:
        """The map of a script whose file is given, or the script's, which may name its map."""
        place, name = os.path.split(file)
        if not may_name_map(name):
            return self._read(file, base_by_default(script))
        it = self._read_script(Folder(_own_folder(script), place, None), name, file)
        if it.kind in (NAMED_UNSAID, NAMED_NOTHING):
            return self._read(file, base_by_default(script))
        return self._had(script, it)

    def _had(self, script: str, it: Script) -> Found:
        """The map that a script names. Raises an error where that can't be had."""
        fault = it.fault()
        if fault is not None:
            raise fault
        found = self._named(script, it, it.first or b"")
        if found is None:
            raise FileNotFoundError(errno.ENOENT, "the map that it names is missing", it.file)
        return found[1]

    def leads(self, script: str) -> LeadOf:
        """What finds the maps of sources: of those of a script's map, and of the maps that these lead to. A
        source is looked at as a script in the folder of that one.
        """
        folder = self._folder_of(script)
        if folder is None:
            return lead_alone
        return partial(self._lead_of, folder)

    def _lead_of(self, folder: Folder, url: str, content: Optional[str]) -> Optional[Lead]:
        form = _form(url)
        found = None if form is None else folder.name_alike(form)
        if found is None:
            return lead_alone(url, content)
        name = os.fsdecode(found)
        file = folder.file(name)
        if content is not None:
            it = Script.of(folder, name, content.encode())
        elif file is not None:
            it = self._read_script(folder, name, file)
        else:
            return None
        return None if it.kind in (NAMED_UNSAID, NAMED_NOTHING) else self._lead(url, it, file, content)

    def _lead(self, url: str, it: Script, file: Optional[str], content: Optional[str]) -> Lead:
        """What a source names, which has a file in its folder, or a content, or both."""
        named = it.named_file(it.first or b"") if it.kind == NAMED_FILE else None
        text = it.lines
        if content is None and file is not None:
            text = read_file(file, self._map_bytes)
        elif named is not None and file is not None:
            if _normal(read_file(file, self._map_bytes)) != _normal(text):
                raise Error(REFUSED, f"its content in the map differs from {file}, which names {named}")
        return Lead(partial(self._had, url, it), named, text)

    def _folder_of(self, script: str) -> Optional[Folder]:
        """The folder of a script, which has its sources as well."""
        if script in self._files:
            key = _own_folder(script)
            return Folder(key, os.path.dirname(self._files[script]), _form(key))
        for folder in self._folders:
            name = folder.name_of(script)
            if name is not None and folder.has(name):
                return folder
        return None

    def meant_by(self, name: str) -> Optional[str]:
        """The script with a map that this name means, which has none itself: the first whose name is alike
        (`smap.alike`) and has the same query, or else no query; or else the only one that is alike.
        """
        text = as_bytes(name)
        bare = _without_query(text)
        by_form, by_bare_form = self._files_by_form()
        for spelled in (text, bare):
            script = by_form.get(normal_form(spelled, True)) or next(self._alike_below(spelled), None)
            if script is not None:
                return script
        return by_bare_form.get(normal_form(bare, True))

    def _files_by_form(self) -> Tuple[Dict[bytes, str], Dict[bytes, Optional[str]]]:
        """Of the scripts that have a file of their own the first of each normal form, with the query, and the
        only one of each form that names have without it.
        """
        if self._forms is None:
            by_form: Dict[bytes, str] = {}
            by_bare_form: Dict[bytes, Optional[str]] = {}
            for script in self._files:
                form = _form(script, True)
                if form is not None:
                    by_form.setdefault(form, script)
                    bare = normal_form(_without_query(as_bytes(script)), True)
                    by_bare_form[bare] = None if bare in by_bare_form else script
            self._forms = by_form, by_bare_form
        return self._forms

    def _alike_below(self, text: bytes) -> Iterator[str]:
        """The scripts below the folders to whose names this one is alike, and which may have a map."""
        form, whole = normal_form(text), normal_form(text, True)
        for folder in self._folders:
            found = folder.name_alike(form)
            if found is None:
                continue
            name, script = os.fsdecode(found), script_url(as_bytes(folder.key), found)
            if normal_form(script, True) == whole and folder.has(name):
                yield script.decode("utf-8", "surrogateescape")

    def named_in(self, text: bytes) -> Iterator[str]:
        """The scripts whose URLs stand anywhere in a text, which `anywhere` needs. Some may be no positions,
        or have no map.

        The folders are listed for it once; `forget` has them listed again.
        """
        if self._listed is None:
            listed = _by_folder(self._files)
            for folder in self._folders:
                listed.setdefault(folder.key.encode(), []).extend(_names(folder))
            self._listed = [(key, Beginnings(names)) for key, names in listed.items()]
        for key, names in self._listed:
            for name in _found_behind(key, names, text):
                yield (key + name).decode()

    def by_debug_id(self, debug_id: str) -> Optional[str]:
        """The script whose map has this debug id, the first of several; None where there is none.

        All maps are read for it once; `forget` has them read again.
        """
        if self._ids is None:
            ids: Dict[str, str] = {}
            for script in self._scripts():
                found = self._debug_id(script)
                if found is not None:
                    ids.setdefault(found.lower(), script)
            self._ids = ids
        return self._ids.get(debug_id.lower())

    def _scripts(self) -> Iterator[str]:
        """All scripts that may have a map."""
        yield from self._files
        for folder in self._folders:
            # a name of a map alone may be that of no script
            for name in sorted(_names(folder, None), key=lambda it: (not may_name_map(it.decode()), it)):
                yield folder.key + name.decode()

    def _debug_id(self, script: str) -> Optional[str]:
        """The debug id of the map of a script, if there is one."""
        try:
            found = self(script)
        except (Error, OSError):
            return None
        return None if found is None else debug_id_of(found.data)

    def forget(self) -> None:
        """Has the folders listed again when they are needed next, and the debug ids of maps read."""
        self._listed = self._ids = None

    def _places(self) -> Dict[str, str]:
        return {**self._files, **{folder.key: folder.place for folder in self._folders}}

    def __repr__(self) -> str:
        return f"Folders({self._places()!r}, map_bytes={self._map_bytes})"

    def __reduce__(self) -> Tuple[type, Tuple[Dict[str, str], int]]:
        return type(self), (self._places(), self._map_bytes)


def lead_alone(url: str, content: Optional[str]) -> Optional[Lead]:
    """What a source that is in no folder names as its map, if it names one: its content may hold that."""
    text, name = (content or "").encode(), os.path.basename(_without_query(as_bytes(url)))
    it = Script.of(Folder(SOME_FOLDER, "", None), os.fsdecode(name), text)
    if it.kind in (NAMED_UNSAID, NAMED_NOTHING):
        return None
    fault = it.fault()
    if fault is not None or it.kind == NAMED_FILE:
        raise fault or it.outside()
    return Lead(partial(Found, it.first or b"", _own_url(url)), None, text)


def _normal(text: bytes) -> bytes:
    """A text without what tools change: a byte order mark before it, and carriage returns."""
    return re.sub(rb"\A\xef\xbb\xbf|\r", b"", text)


def _form(name: str, with_query: bool = False) -> Optional[bytes]:
    """What all names of a script have in common; None where there is no UTF-8."""
    try:
        return normal_form(as_bytes(name), with_query)
    except Error:
        return None


def _without_query(name: bytes) -> bytes:
    """A name without its query and its fragment."""
    return re.split(rb"[?#]", name, maxsplit=1)[0]


def _own_folder(script: str) -> str:
    """The URL of the folder of a script."""
    try:
        return resolve(script, ".")
    except Error:
        return SOME_FOLDER


def _by_folder(scripts: Iterable[str]) -> Dict[bytes, List[bytes]]:
    """The names of scripts by the folders of their URLs, for each of which a text is searched once."""
    names: Dict[bytes, List[bytes]] = {}
    for script in scripts:
        url = script.encode("utf-8", "replace")
        cut = url.rfind(b"/") + 1 or len(url)
        names.setdefault(url[:cut], []).append(url[cut:])
    return names


def _fail(error: OSError) -> None:
    raise error


def _names(
    folder: Folder, onerror: Optional[Callable[[OSError], None]] = _fail
) -> Iterator[bytes]:
    """The rests of the URLs of all scripts in a folder that may have a map. A URL is UTF-8 without spaces."""
    key = folder.key.encode()
    for parent, _, files in os.walk(folder.place, onerror=onerror):
        below = os.path.relpath(parent, folder.place)
        for name in filter(None, map(_script_of, files)):
            path = os.path.normpath(os.path.join(below, name))
            rest = script_url(key, os.fsencode(path))[len(key) :]
            if not re.search(b"[ \n]", rest) and is_utf8(rest):
                yield rest


def _script_of(file: str) -> str:
    """The name of the script whose map may be in a file; empty for other files."""
    if file_kind(os.fsencode(file)) == FILE_MAP:
        return file[:-4]
    return file if may_name_map(file) else ""


def is_utf8(text: bytes) -> bool:
    """Whether bytes are UTF-8."""
    try:
        text.decode()
    except UnicodeDecodeError:
        return False
    return True


def debug_id_of(data: bytes) -> Optional[str]:
    """The debug id of a map: its member `debugId`, or `debug_id` where that is absent, if it is a string."""
    if b"debugId" not in data and b"debug_id" not in data:
        return None
    try:
        tree = json.loads(str(data.partition(b"\n")[2] if data.startswith(b")]}'") else data, "utf-8"))
    except (ValueError, RecursionError):
        return None
    found = tree.get("debugId", tree.get("debug_id")) if isinstance(tree, dict) else None
    return found if isinstance(found, str) else None


class Beginnings:
    """Names, of which those that a text begins with are found by one search, whatever their lengths."""

    def __init__(self, names: Iterable[bytes]) -> None:
        self._names = sorted(set(names))
        # for each name the number of the longest other one that it begins with, or -1
        self._within: List[int] = []
        for name in self._names:
            other = len(self._within) - 1
            while other >= 0 and not name.startswith(self._names[other]):
                other = self._within[other]
            self._within.append(other)
        self.longest = max(map(len, self._names), default=0)

    def __len__(self) -> int:
        return len(self._names)

    def of(self, text: bytes, found: Dict[bytes, None]) -> None:
        """Adds those that a text begins with to what is found.

        All of them begin the last name that isn't greater than the text, since what is sorted between a name
        and a text that begins with it begins with it too.
        """
        at = bisect_right(self._names, text) - 1
        while at >= 0 and not text.startswith(self._names[at]):
            at = self._within[at]
        while at >= 0 and self._names[at] not in found:
            found[self._names[at]] = None
            at = self._within[at]


def _found_behind(key: bytes, names: Beginnings, text: bytes) -> Dict[bytes, None]:
    """Those of the names that stand behind the key somewhere in the text."""
    found: Dict[bytes, None] = {}
    at = text.find(key)
    while at >= 0 and len(found) < len(names):
        start = at + len(key)
        names.of(text[start : start + names.longest], found)
        at = text.find(key, at + 1)
    return found

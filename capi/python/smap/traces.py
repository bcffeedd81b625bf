"""Stack traces, and the scripts by whose maps they are translated."""

from __future__ import annotations

from collections import Counter
from ctypes import byref
from dataclasses import dataclass
from typing import TYPE_CHECKING, AnyStr, Dict, Iterable, Optional, Tuple

from . import _declarations as declared
from ._declarations import CLOSED, OK
from ._library import Owner, TraceCounts, as_data, as_url, check, how_bits, lib, taken

if TYPE_CHECKING:
    from .maps import Map

__all__ = ["Frame", "Scripts", "frame", "named_scripts", "translate"]


@dataclass(frozen=True)
class Frame:
    """The frame that a line of a trace is: the script's URL, and a position, which counts from 1."""

    url: bytes
    line: int
    column: int


def frame(line: bytes) -> Optional[Frame]:
    """The frame that a line is, taken without its line feed, if it is one."""
    line, parts = as_data("a line", line), declared.FrameParts()
    if lib.smap_frame(line, len(line), byref(parts)) != OK:
        return None
    return Frame(line[parts.url_from : parts.url_from + parts.url_len], parts.line, parts.column)


def named_scripts(trace: bytes) -> Dict[bytes, int]:
    """The URLs that the frames of a trace name, in the order in which they first occur, and how many lines
    name each.

    The library finds the frame of each line; of equal lines only one is asked about.
    """
    return named_by(as_data("a trace", trace).split(b"\n"))


def named_by(lines: Iterable[bytes]) -> Dict[bytes, int]:
    """The same for some lines, without their line feeds."""
    named: Dict[bytes, int] = {}
    parts, call = declared.FrameParts(), lib.smap_frame
    at = byref(parts)
    for line, times in Counter(lines).items():
        if call(line, len(line), at) == OK:
            url = line[parts.url_from : parts.url_from + parts.url_len]
            named[url] = named.get(url, 0) + times
    return named


class Scripts(Owner):
    """Scripts, each a URL and a map, by which traces are translated. Maps may be closed once they are in.

    They can't be copied or pickled, which raises TypeError.
    """

    _free = lib.smap_close_scripts

    def __init__(self, scripts: Optional[Dict[str, Map]] = None) -> None:
        super().__init__(declared.Scripts())
        for url, script in (scripts or {}).items():
            self.add(url, script)

    def add(self, url: str, script: Map) -> None:
        """Adds a script. One of the same URL gets this map in place of its own."""
        name = as_url("the name of a script", url)
        # each thread has the map before it waits for the scripts, so that none waits for another in a circle
        with script._lock:
            check(self._call(lib.smap_add_script, name, len(name), byref(script._handle)))

    def translate(
        self,
        trace: bytes,
        hide: bool = False,
        *,
        anywhere: bool = False,
        ignore_query: bool = False,
        names: bool = False,
    ) -> Tuple[bytes, TraceCounts]:
        """A whole trace with its positions replaced by those in the sources, and the counts of its lines.

        The words are those of `smap.translate`.
        """
        trace, out, counts = as_data("a trace", trace), declared.Bytes(), TraceCounts()
        how = how_bits(hide, anywhere, ignore_query, names)
        code = self._call(lib.smap_translate, trace, len(trace), how, byref(out), byref(counts))
        if code == CLOSED:  # there are no scripts
            return trace, TraceCounts(trace.count(b"\n") + (trace[-1:] not in (b"", b"\n")), 0, 0)
        check(code)
        return taken(out), counts


def translate(
    trace: AnyStr,
    scripts: Dict[str, Map],
    hide: bool = False,
    *,
    anywhere: bool = False,
    ignore_query: bool = False,
    names: bool = False,
) -> AnyStr:
    """A whole trace with its positions replaced by those in the sources, by maps keyed by their script's URL.

    `hide` drops frames in ignored sources. Lines that are frames have a position; with `anywhere`, positions
    are found anywhere in a line. With `ignore_query`, a query and a fragment may follow the URL of a script.
    With `names`, frames get the names of functions, where these are sure.
    A str gives a str, bytes give bytes.
    """
    if isinstance(trace, str):
        data = trace.encode("utf-8", "surrogateescape")
        told = translate(data, scripts, hide, anywhere=anywhere, ignore_query=ignore_query, names=names)
        return told.decode("utf-8", "surrogateescape")
    with Scripts(scripts) as known:
        return known.translate(
            trace, hide, anywhere=anywhere, ignore_query=ignore_query, names=names
        )[0]

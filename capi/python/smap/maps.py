"""Source maps: reading, lookups, canonical forms."""

from __future__ import annotations

import os
from ctypes import Array, byref, c_bool, c_size_t, c_uint32, create_string_buffer
from dataclasses import dataclass
from typing import AnyStr, Callable, Dict, Iterable, Iterator, List, Optional, Tuple, Union

from . import _declarations as declared
from ._declarations import DROPPED, NONE, OK, RANGE
from ._library import LARGEST_SIZE, Counts, Error, Owner, are_position, as_data, as_url, as_words, bound_of
from ._library import check, how_bits, index_of, lib, limit_of, taken, written
from .files import read_file
from .links import file_url
from .traces import translate

__all__ = ["Map", "Mapping", "Source", "respell", "spell"]


@dataclass(frozen=True)
class Source:
    """A source: its URL and its text, where the map has them, and whether it is ignored."""

    url: Optional[str]
    content: Optional[str]
    is_ignored: bool


@dataclass(frozen=True)
class Mapping:
    """A generated position and where it comes from. `source` is None where it comes from nowhere."""

    line: int
    column: int
    source: Optional[int]
    source_line: int
    source_column: int
    is_ignored: bool
    has_name: bool
    url: Optional[str] = None
    name: Optional[str] = None


def respell(text: bytes) -> bytes:
    """A mappings text, sorted and as short as possible. Raises RefusedError."""
    text, out, fault = as_data("a mappings text", text), declared.Bytes(), declared.Fault()
    check(lib.smap_respell(text, len(text), byref(out), byref(fault)), fault)
    return taken(out)


def spell(numbers: Union[bytes, Iterable[int]]) -> bytes:
    """The mappings text of mappings, sorted and as short as possible.

    Each has six numbers, one after another and each from 0: the generated line and column, the source,
    its line and column, and the name. 4294967295 stands for none: the last four in a mapping without an
    original, the last one in one without a name. They are numbers of 32 bits in an `array("I")` or
    another buffer, bytes with four for each, or any ints. Mappings may come in any order; those at one
    position keep it.

    Error, whose code is 7 (SMAP_RANGE of smap.h), names the first mapping that has other numbers, as one
    above 2147483647. Numbers of more bits raise OverflowError, and a part of a mapping ValueError.
    """
    words, count = mapping_words(numbers)
    out, wrong = declared.Bytes(), c_size_t()
    code = lib.smap_spell(words, count, byref(out), byref(wrong))
    if code == RANGE:
        raise Error(code, f"mapping {wrong.value}: number out of range")
    check(code)
    return taken(out)


def mapping_words(numbers: Union[bytes, Iterable[int]]) -> Tuple[Array[c_uint32], int]:
    """The numbers of mappings for the library, and how many mappings these are."""
    data = as_words(numbers)
    count, rest = divmod(len(data), 24)
    if rest:
        raise ValueError("mappings have six numbers each")
    return (c_uint32 * max(6 * count, 1)).from_buffer_copy(data or bytes(4)), count


class Map(Owner):
    """A source map. `Map.open` makes it; `close`, the end of a `with` or that of the object frees it.

    It can't be copied or pickled, which raises TypeError: `share` gives a second one. A number of a source
    that the map doesn't have, a negative one too, raises IndexError.
    """

    _free = lib.smap_close

    def __init__(self) -> None:
        super().__init__(declared.Map())

    @classmethod
    def open(
        cls, data: bytes, base: str, items: int = 0, lines: int = 0, url_bytes: Optional[int] = None
    ) -> Map:
        """Reads a map, whose URL is `base`.

        `items` bounds how many sources and how many names it may list, `lines` how many generated lines it
        may have; 0 stands for 16777216. `url_bytes` bounds how many bytes the URLs of its sources may take
        together, which can be gigabytes for a map of half a megabyte; None is no bound. Raises RefusedError;
        Error where `base` is no URL, a limit is too large or the URLs take more (its code is 8,
        SMAP_URL_BYTES of smap.h); ValueError where a limit is below 0; and TypeError where `data` is a str.
        """
        if isinstance(data, str):
            raise TypeError("a map is bytes, not str: read its file in mode 'rb', or call Map.from_file")
        data, url = as_data("a map", data), as_url("the base of a map", base)
        made, fault = cls(), declared.Fault()
        limits = declared.Limits(limit_of("items", items), limit_of("lines", lines))
        words = byref(made._handle), data, len(data), url, len(url), byref(limits)
        if url_bytes is None:
            code = lib.smap_open(*words, byref(fault))
        else:
            code = lib.smap_open_within(*words, bound_of("url_bytes", url_bytes), byref(fault))
        check(code, fault)
        return made

    @classmethod
    def from_file(
        cls,
        path: Union[str, "os.PathLike[str]"],
        base: Optional[str] = None,
        items: int = 0,
        lines: int = 0,
        url_bytes: Optional[int] = None,
    ) -> Map:
        """Reads a map from a regular file, of at most 268,435,456 bytes.

        Its URL is `base`, by default the `file:` URL of the path. The other words, and what is raised, are
        those of `open`; and OSError.
        """
        file = os.fsdecode(path)
        if base is None:
            base = file_url(os.path.abspath(file)) or ""
        return cls.open(read_file(file), base, items, lines, url_bytes)

    def share(self) -> Map:
        """The same map once more, as for a thread that doesn't wait for others; nothing is copied."""
        other = Map()
        check(self._call(lib.smap_share, byref(other._handle)))
        return other

    def same(self, other: Map) -> bool:
        """Whether the two maps say the same, however their texts spell it."""
        if self is other:
            return True
        out = c_bool()
        # of two threads that have one of the maps each and wait for the other one, none would go on
        with other.share() as own:
            check(self._call(lib.smap_same, byref(own._handle), byref(out)))
        return out.value

    def counts(self) -> Counts:
        """How much the map holds."""
        counts = Counts()
        check(self._call(lib.smap_count, byref(counts)))
        return counts

    def _text(self, call: Callable[..., int], *words: int) -> Optional[str]:
        n, room = c_size_t(), 512
        while True:
            out = create_string_buffer(room)
            code = self._call(call, *words, out, room, byref(n))
            if code == NONE:
                return None
            check(code)
            if n.value <= room:
                return out.raw[: n.value].decode()
            room = n.value

    # ---- maps made of maps

    def _made(self, call: Callable[..., int], *words: object) -> Map:
        made = Map()
        check(self._call(call, *words, byref(made._handle)))
        return made

    def _leads(self, maps: List[Tuple[Union[str, int], Map]]) -> List[int]:
        """For each source the index of its map among these, which are given by URLs or numbers."""
        urls = [self.url(source) for source in range(self.counts().sources)]
        leads = [LARGEST_SIZE] * len(urls)
        for i, (of, _) in enumerate(maps):
            found = [k for k, url in enumerate(urls) if url == of] if isinstance(of, str) else [index_of(of)]
            if not found:
                raise KeyError(of)
            for source in found:
                leads[source] = i
        return leads

    def compose(self, maps: Dict[Union[str, int], Map], items: int = 0) -> Map:
        """One map out of this one and maps of its sources, where these were generated themselves.

        Each mapping stays, with the original that a lookup in its source's map has. `maps` are by URL or by
        number of a source; one of a URL that no source has raises KeyError. Error where the map would have
        more than `items` sources or names (its code is 11, SMAP_TOO_MANY of smap.h); 0 stands for 16777216.
        """
        pairs = list(maps.items())
        leads, limits = self._leads(pairs), declared.Limits(limit_of("items", items), 0)
        # of two threads that have one of the maps each and wait for the other one, none would go on
        inner = (declared.Map * max(len(pairs), 1))()
        try:
            for handle, (_, map_) in zip(inner, pairs):
                check(map_._call(lib.smap_share, byref(handle)))
            numbers = (c_size_t * max(len(leads), 1))(*leads)
            return self._made(lib.smap_compose, inner, len(pairs), numbers, len(leads), byref(limits))
        finally:
            for handle in inner:
                lib.smap_close(byref(handle))

    def thinned(self) -> Map:
        """The map without the mappings that change no position's original."""
        return self._made(lib.smap_thin)

    def used(self) -> Map:
        """The map without the sources that no mapping has."""
        return self._made(lib.smap_only_used)

    # ---- numbers, texts and bytes: tools/write-bindings writes this out of capi/smap.h

    def held(self) -> int:
        """About how many bytes of memory the map takes, its strings and mappings included."""
        out = c_size_t()
        check(self._call(lib.smap_held, byref(out)))
        return out.value

    def is_ignored(self, source: int) -> bool:
        """Whether a source is ignored."""
        out = c_bool()
        check(self._call(lib.smap_is_ignored, index_of(source), byref(out)))
        return out.value

    def listed_source(self, i: int) -> int:
        """The number, among the distinct sources, of the i-th one that the map lists."""
        out = c_size_t()
        check(self._call(lib.smap_listed_source, index_of(i), byref(out)))
        return out.value

    def file(self) -> Optional[str]:
        """The name of the generated file."""
        return self._text(lib.smap_file)

    def url(self, source: int) -> Optional[str]:
        """The URL of a source."""
        return self._text(lib.smap_source_url, index_of(source))

    def content(self, source: int) -> Optional[str]:
        """The content of a source."""
        return self._text(lib.smap_source_content, index_of(source))

    def listed_name(self, i: int) -> Optional[str]:
        """The i-th name that the map lists."""
        return self._text(lib.smap_listed_name, index_of(i))

    def canonical_mappings(self) -> bytes:
        """The `mappings` of the canonical form alone."""
        return written(self._call, lib.smap_canonical_mappings)

    def flatten(self) -> bytes:
        """The map as one flat map, with sources and names as listed."""
        return written(self._call, lib.smap_flatten)

    # ---- sources

    def _has_content(self, source: int) -> bool:
        """Whether a source has a content, which isn't copied."""
        none = create_string_buffer(1)
        return self._call(lib.smap_source_content, source, none, 0, byref(c_size_t())) == OK

    def source(self, source: int) -> Source:
        """A source by its number."""
        return Source(self.url(source), self.content(source), self.is_ignored(source))

    def written_sources(self) -> List[Tuple[Optional[str], Optional[str]]]:
        """The sources that the map lists, with repeats, as its text writes them: each with its `sourceRoot`.

        A source is None where the text has a null, and a root where there is none.
        """
        return [
            (self._text(lib.smap_written_source, i), self._text(lib.smap_written_root, i))
            for i in range(self.counts().listed_sources)
        ]

    def name_at(self, line: int, column: int) -> Optional[str]:
        """The name of the mapping that a generated position falls to."""
        if not are_position(line, column):
            return None
        return self._text(lib.smap_name_at, line, column)

    def lookup(self, line: int, column: int) -> Optional[Mapping]:
        """The mapping that a generated position falls to, with its URL and its name; or None."""
        found = self.find(line, column)
        if found is None or found.source is None:
            return found
        name = self.name_at(line, column) if found.has_name else None
        place = (found.line, found.column, found.source, found.source_line, found.source_column)
        return Mapping(*place, found.is_ignored, found.has_name, self.url(found.source), name)

    def find(self, line: int, column: int) -> Optional[Mapping]:
        """The same without URL and name, which is faster."""
        if not are_position(line, column):
            return None
        m = declared.Mapping()
        code = self._call(lib.smap_lookup, line, column, byref(m))
        if code == NONE:
            return None
        check(code)
        return self._mapping(m)

    def index_at(self, line: int, column: int) -> Optional[int]:
        """The number of the mapping that a generated position falls to, in the order of `mappings`."""
        if not are_position(line, column):
            return None
        i = c_size_t()
        code = self._call(lib.smap_find, line, column, byref(i))
        if code == NONE:
            return None
        check(code)
        return i.value

    @staticmethod
    def _mapping(m: declared.Mapping) -> Mapping:
        source = m.source if m.has_source else None
        place = (m.line, m.column, source, m.source_line, m.source_column)
        return Mapping(*place, m.is_ignored, m.has_name)

    def mappings(self) -> Iterator[Mapping]:
        """All mappings, in order of line and column, without URLs and names."""
        m = declared.Mapping()
        for i in range(self.counts().mappings):
            check(self._call(lib.smap_token, i, byref(m)))
            yield self._mapping(m)

    def canonical(self, relative: bool = False) -> bytes:
        """The map in canonical form: the same bytes for all maps that say the same."""
        return written(self._call, lib.smap_canonical_relative if relative else lib.smap_canonical)

    def translate_line(
        self,
        line: bytes,
        url: str,
        hide: bool = False,
        *,
        anywhere: bool = False,
        ignore_query: bool = False,
        names: bool = False,
    ) -> Optional[bytes]:
        """What to write for a line of a trace, this being the map of `url`; None where it is dropped."""
        line, script = as_data("a line", line), as_url("the name of a script", url)
        n, became, room = c_size_t(), c_uint32(), len(line) + 512
        how = how_bits(hide, anywhere, ignore_query, names)
        while True:
            out = create_string_buffer(room)
            words = script, len(script), line, len(line), how, out, room, byref(n), byref(became)
            check(self._call(lib.smap_translate_line, *words))
            if n.value <= room:
                return None if became.value == DROPPED else out.raw[: n.value]
            room = n.value

    def translate(
        self,
        trace: AnyStr,
        url: str,
        hide: bool = False,
        *,
        anywhere: bool = False,
        ignore_query: bool = False,
        names: bool = False,
    ) -> AnyStr:
        """A whole trace, with the positions in the script at `url` replaced by those in the sources.

        The words are those of `smap.translate`. A str gives a str, bytes give bytes.
        """
        return translate(
            trace, {url: self}, hide, anywhere=anywhere, ignore_query=ignore_query, names=names
        )

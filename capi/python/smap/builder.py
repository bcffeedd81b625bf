"""Maps that are built."""

from __future__ import annotations

from array import array
from ctypes import byref, c_size_t, c_uint32
from typing import Iterable, Optional, Tuple, Union

from . import _declarations as declared
from ._declarations import RANGE
from ._library import NO_NUMBER, Error, Owner, as_text, as_url, check, lib, limit_of, number_of
from .maps import Map, mapping_words

__all__ = ["Builder"]


class Builder(Owner):
    """A map that is built: sources and names get numbers, by which mappings name them.

        with smap.Builder("http://h/m/out.js.map") as builder:
            source = builder.source("a.ts")
            builder.add(0, 7, source, (10, 2), builder.name("f"))
            m = builder.finish()

    `base` is the map's URL. `items` bounds how many sources and how many names it may list, `lines` how many
    generated lines it may have; 0 stands for 16777216. Raises Error where `base` is no URL or a limit is too
    large, and ValueError where a limit is below 0.

    A call that raises leaves the builder as it was, unless memory ran out.
    """

    _free = lib.smap_builder_close

    def __init__(self, base: str, items: int = 0, lines: int = 0) -> None:
        super().__init__(declared.Builder())
        url = as_url("the base of a map", base)
        limits = declared.Limits(limit_of("items", items), limit_of("lines", lines))
        check(self._call(lib.smap_builder_open, url, len(url), byref(limits)))

    def file(self, name: Optional[str]) -> None:
        """Gives the generated file a name, or none, as at first."""
        text = as_text("the name of a file", name)
        check(self._call(lib.smap_builder_file, name is not None, text, len(text)))

    def source(self, url: Optional[str], content: Optional[str] = None, ignored: bool = False) -> int:
        """The number of the source with this URL, or of the one without a URL.

        The URL may be relative to the base. A source that is new is listed after the others; one that is
        there keeps its content and stays ignored, unless a content is given. Error where the URL and the base
        make none (its code is 2, SMAP_NOT_URL of smap.h), or where there are as many sources as may be (11,
        SMAP_TOO_MANY).
        """
        text, words = as_text("the URL of a source", url), as_text("the content of a source", content)
        number = c_uint32()
        with self._lock:
            check(self._call(lib.smap_builder_source, url is not None, text, len(text), byref(number)))
            if content is not None:
                check(self._call(lib.smap_builder_content, number, True, words, len(words)))
            if ignored:
                check(self._call(lib.smap_builder_ignore, number, True))
        return number.value

    def name(self, text: str) -> int:
        """The number of a name, which is listed after the others if it is new. Error where there are as many
        as may be (its code is 11, SMAP_TOO_MANY of smap.h)."""
        if text is None:
            raise TypeError("a name is a str, not NoneType")
        words, number = as_text("a name", text), c_uint32()
        check(self._call(lib.smap_builder_name, words, len(words), byref(number)))
        return number.value

    def add(
        self,
        line: int,
        column: int,
        source: Optional[int] = None,
        at: Optional[Tuple[int, int]] = None,
        name: Optional[int] = None,
    ) -> None:
        """Adds a mapping: a generated position, and the source where it comes from, with the line and column
        there, and perhaps a name. Mappings may come in any order; those at one position keep it.

        Each number is from 0. One that is no int raises TypeError; one below 0 or above 2147483647, and a
        part of an original, ValueError; and Error (its code is 7, SMAP_RANGE of smap.h) a line beyond the
        limit, and a source or a name that there isn't.
        """
        numbers = array("I", [number_of("line", line), number_of("column", column)])
        if source is None:
            if at is not None or name is not None:
                raise ValueError("a mapping without a source has no place in one, and no name")
            numbers.extend([NO_NUMBER] * 4)
        else:
            if at is None:
                raise ValueError("at is missing: the line and the column in the source")
            there, across = at
            numbers.append(number_of("source", source))
            numbers.append(number_of("the line in the source", there))
            numbers.append(number_of("the column in the source", across))
            numbers.append(NO_NUMBER if name is None else number_of("name", name))
        self.extend(numbers)

    def extend(self, numbers: Union[bytes, Iterable[int]]) -> None:
        """Adds mappings by six numbers each, which are given as `spell` takes them; or none of them.

        Error, whose code is 7 (SMAP_RANGE of smap.h), names the first mapping that `spell` doesn't take, or
        that has a line beyond the limit, or a source or a name that there isn't.
        """
        words, count = mapping_words(numbers)
        wrong = c_size_t()
        code = self._call(lib.smap_builder_add, words, count, byref(wrong))
        if code == RANGE:
            raise Error(code, f"mapping {wrong.value}: number out of range")
        check(code)

    def finish(self) -> Map:
        """The map. Its mappings are sorted by generated line and column. The builder is closed by it."""
        made = Map()
        check(self._call(lib.smap_builder_finish, byref(made._handle)))
        return made

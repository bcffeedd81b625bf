"""The functions that only say one thing of a map. They are alike, so each language's are written by rule."""

import re
from typing import NamedTuple

from .files import Refused, bare
from .header import Type

NUMBERS = ("bool", "uint32_t", "size_t")
MAP = Type("smap_map", (False,))
INDEX = Type("size_t")
# Methods that have other names than their functions.
METHODS = {"smap_source_url": "url", "smap_source_content": "content"}
TEXT = [Type("char", (False,)), Type("size_t"), Type("size_t", (False,))]


class Getter(NamedTuple):
    """A function that takes a map, and words that say which thing of it, and puts the answer into `out`."""

    name: str
    which: list
    kind: Type  # what `out` points to
    comment: str  # that of the header

    def method(self):
        """Its name in Python and Rust."""
        return METHODS.get(self.name, bare(self.name))

    def is_indexed(self):
        """Whether the answer is one of the map, or of the i-th of its things."""
        return [one.type for one in self.which] in ([], [INDEX])

    def sentence(self, start):
        """What the answer is: the first sentence of the comment, without these words that it begins by."""
        said = re.match(rf"{start}(.*?\.)(?= |$)", self.comment)
        if not said:
            raise Refused(f"capi/smap.h has no comment of {self.name} that begins by {start}")
        return said[1][0].upper() + said[1][1:]


def getters_of(header, last):
    """The functions with these types of what is behind `out`, and after it."""
    for function in header.functions:
        types = [one.type for one in function.parameters]
        at = len(types) - len(last)
        is_alike = types[:1] == [MAP] and types[at:] == last and function.parameters[at].name == "out"
        if is_alike and function.result == Type("uint32_t"):
            comment = header.comments.get(function.name, "")
            yield Getter(function.name, function.parameters[1:at], last[0]._replace(pointers=()), comment)


def number_getters(header):
    """Those that give a number, of the map or of the i-th of its things."""
    one_by_one = [getter for name in NUMBERS for getter in getters_of(header, [Type(name, (False,))])]
    order = [one.name for one in header.functions]
    return sorted(filter(Getter.is_indexed, one_by_one), key=lambda getter: order.index(getter.name))


def struct_getters(header):
    """Those that give a struct of numbers."""
    for struct in header.structs:
        if all(field.type in map(Type, NUMBERS) for field in struct.fields):
            yield from filter(Getter.is_indexed, getters_of(header, [Type(struct.name, (False,))]))


def text_getters(header):
    """Those that copy a text."""
    return list(getters_of(header, TEXT))


def bytes_getters(header):
    """Those that put bytes into a handle of bytes."""
    return [getter for getter in getters_of(header, [Type("smap_bytes", (False,))]) if not getter.which]

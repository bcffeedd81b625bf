"""What smap.h declares, for Python."""

import re

from .files import WRITTEN, bare, camel, listed, replaced, wrapped
from .getters import bytes_getters, number_getters, text_getters
from .header import TYPES

QUOTES = '"""'
# What Map.canonical and Map.written_sources have together.
TOGETHER = ("smap_canonical", "smap_canonical_relative", "smap_written_source", "smap_written_root")

def ctype(kind, is_field=False):
    """A type by ctypes. Texts and buffers are what bytes are passed for."""
    if kind.pointers and kind.name in ("char", "void"):
        return "c_void_p" if is_field else "c_char_p"
    name = TYPES[kind.name][1] if kind.name in TYPES else camel(kind.name)
    for _ in kind.pointers:
        name = f"POINTER({name})"
    return f"{name} * {kind.length}" if kind.length else name


def struct_class(struct):
    fields = [f'("{field.name}", {ctype(field.type, True)})' for field in struct.fields]
    return f"class {camel(struct.name)}(Structure):\n{listed('_fields_ = [', fields, ']', '    ')}\n"


def row(function):
    types = [ctype(function.result), *(ctype(one.type) for one in function.parameters)]
    return listed("(", [f'"{function.name}"', *types], "),", "    ")


def declarations(header):
    """its numbers, structs and functions for Python"""
    structs = "\n\n".join(map(struct_class, header.structs))
    functions = "\n".join(map(row, header.functions))
    used = sorted(set(re.findall(r"\bc_\w+", structs + functions)))
    numbers = "\n".join(f"{bare(name)} = {number}" for name, number in header.numbers)
    return f'''# {WRITTEN}.
"""What smap.h declares, by ctypes: its numbers, its structs and its functions."""

from __future__ import annotations

{listed("from ctypes import (", ["POINTER", "Structure", *used], ")")}
from typing import Any, List, Tuple

{numbers}


{structs}

# The functions: their names, what they return, and their parameters.
FUNCTIONS: List[Tuple[Any, ...]] = [
{functions}
]
'''


def method(getter, result, sentence, lines):
    words = "".join(f", {one.name}: int" for one in getter.which)
    text = wrapped(f"{QUOTES}{sentence}{QUOTES}".split(), "        ")
    return f"    def {getter.method()}(self{words}) -> {result}:\n{text}\n{lines}\n"


def number_method(getter):
    which = "".join(f"index_of({one.name}), " for one in getter.which)
    lines = f"""\
        out = {ctype(getter.kind)}()
        check(self._call(lib.{getter.name}, {which}byref(out)))
        return out.value
"""
    result = "bool" if getter.kind.name == "bool" else "int"
    return method(getter, result, getter.sentence(r"OK: \*out (?:is|says) "), lines)


def text_method(getter):
    which = "".join(f", index_of({one.name})" for one in getter.which)
    line = f"        return self._text(lib.{getter.name}{which})\n"
    return method(getter, "Optional[str]", getter.sentence("Copies "), line)


def bytes_method(getter):
    line = f"        return written(self._call, lib.{getter.name})\n"
    return method(getter, "bytes", getter.sentence(""), line)


def getters(header):
    """the numbers, texts and bytes of maps, as methods"""
    known = [(number_method, one) for one in number_getters(header)]
    known += [(text_method, one) for one in text_getters(header) if one.is_indexed()]
    known += [(bytes_method, one) for one in bytes_getters(header)]
    methods = "".join(make(one) for make, one in known if one.name not in TOGETHER)
    start, end = f"    # ---- numbers, texts and bytes: {WRITTEN}\n", "    # ---- sources\n"
    return replaced("capi/python/smap/maps.py", rf"^{start}(?:.|\n)*?^{end}", f"{start}\n{methods}{end}")

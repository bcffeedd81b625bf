"""capi/smap.h, as other languages read it."""

import re
import subprocess
from typing import NamedTuple

from pycparser import c_ast, c_parser

from .files import Refused
from .kinds import with_kinds

# The types that the header uses: their bytes on 64-bit systems, and their names in Python and in Rust.
TYPES = {
    "bool": (1, "c_bool", "bool"),
    "char": (1, "c_char", "c_char"),
    "uint8_t": (1, "c_uint8", "u8"),
    "uint32_t": (4, "c_uint32", "u32"),
    "uint64_t": (8, "c_uint64", "u64"),
    "size_t": (8, "c_size_t", "usize"),
    "void": (0, "None", "c_void"),
}


class Type(NamedTuple):
    """A type: its name, for each pointer whether what it points to is const, and the length of an array."""

    name: str
    pointers: tuple = ()
    length: int = 0


class Named(NamedTuple):
    """A field of a struct, or a parameter of a function."""

    name: str
    type: Type

    def is_text(self):
        return self.type in (Type("char", (True,)), Type("void", (True,)))


class Struct(NamedTuple):
    name: str
    fields: list

    def is_handle(self):
        return any(field.type.pointers for field in self.fields)


class Function(NamedTuple):
    """A function, and whether it is marked SMAP_INLINE: in C it is inline then, and allows NULL."""

    name: str
    result: Type
    parameters: list
    is_inline: bool


class Header(NamedTuple):
    """What the header declares, in its order. Names of the version have texts, and others numbers.

    The comments are those before functions, and those behind fields, on one line each.
    """

    version: list
    numbers: list
    structs: list
    functions: list
    comments: dict

    def struct(self, name):
        """The struct of that name, or None."""
        return next((struct for struct in self.structs if struct.name == name), None)


def preprocessed(text):
    """A header as other languages read it, without the C library's headers."""
    text = re.sub("^#include <.*", "", text, flags=re.M)
    words = ["cc", "-E", "-P", "-DSMAP_NO_INLINE", "-"]
    return subprocess.run(words, input=text, check=True, stdout=subprocess.PIPE, text=True).stdout


def type_of(node):
    """A type, by the tree of the parser."""
    if isinstance(node, c_ast.ArrayDecl):
        return type_of(node.type)._replace(length=int(node.dim.value))
    if isinstance(node, c_ast.PtrDecl):
        inner = type_of(node.type)
        is_const = isinstance(node.type, c_ast.TypeDecl) and "const" in node.type.quals
        return inner._replace(pointers=inner.pointers + (is_const,))
    name = " ".join(node.type.names)
    if name not in TYPES and not name.startswith("smap_"):
        raise Refused(f"capi/smap.h has a type that isn't one of TYPES: {name}")
    return Type(name)


def named(declarations):
    return [Named(one.name, type_of(one.type)) for one in declarations]


def function_of(node, marked):
    parameters = [one for one in node.type.args.params if not isinstance(one, c_ast.Typename)]
    return Function(node.name, type_of(node.type.type), named(parameters), node.name in marked)


def comments_of(text):
    """The comment before each function, and behind each field of a struct, by NAME and STRUCT.NAME."""
    pairs = re.findall(r"/\* ((?:(?!\*/)(?:.|\n))*?) \*/\n(?:SMAP_INLINE )?\w+ (\w+)\(", text)
    comments = {name: re.sub(r"\s*\n \* ?", " ", comment) for comment, name in pairs}
    for fields, struct in re.findall(r"^typedef struct \w+ \{\n([^}]*)\} (\w+);", text, re.M):
        for name, comment in re.findall(r"(\w+)(?:\[\d+\])?; +/\* (.*) \*/$", fields, re.M):
            comments[f"{struct}.{name}"] = comment
    return comments


def read_header():
    text = with_kinds()
    marked = re.findall(r"^SMAP_INLINE \w+ (\w+)\(", text, re.M)
    version = re.findall(r"^#define (SMAP_VERSION\w*) \(?(.*?)\)?$", text, re.M)
    header = Header(version, [], [], [], comments_of(text))
    known = [f"typedef int {name};" for name in TYPES if name not in ("char", "void")]
    for node in c_parser.CParser().parse("".join(known) + preprocessed(text)).ext[len(known) :]:
        if isinstance(node, c_ast.Typedef):
            header.structs.append(Struct(node.name, named(node.type.type.decls)))
        elif isinstance(node.type, c_ast.Enum):
            header.numbers.extend((one.name, int(one.value.value)) for one in node.type.values.enumerators)
        else:
            header.functions.append(function_of(node, marked))
    return header

"""What makes bindings out of smap.h for Python finds there each function by its own name: pycparser, and cffi,
which then calls the library by what it read. The argument is the folder of both."""
import re
import subprocess
import sys
import tempfile
import unittest
from pathlib import Path

import cffi
from pycparser import c_ast, c_parser

LIB = Path(sys.argv.pop(1))

# What a parser that isn't a compiler knows of the C library's types.
TYPES = "typedef _Bool bool; " + " ".join(
    f"typedef unsigned long {name};" for name in ("size_t", "uint8_t", "uint32_t", "uint64_t")
)
MAP = b'{"version":3,"sources":["a.js"],"mappings":"AAUE"}'
BASE = b"http://h/m/out.js.map"


def preprocessed(*words):
    """The header with these words for the preprocessor, and without the C library's headers."""
    with tempfile.TemporaryDirectory() as folder:
        for name in ("stdbool.h", "stddef.h", "stdint.h"):
            Path(folder, name).touch()
        command = ["cc", "-E", "-P", "-nostdinc", f"-I{folder}", *words, str(LIB / "smap.h")]
        return subprocess.run(command, check=True, capture_output=True, text=True).stdout


def marked():
    """The functions that are inline in C, by the header's text."""
    return set(re.findall(r"^SMAP_INLINE \w+ (\w+)\(", (LIB / "smap.h").read_text(), re.M))


def functions(text):
    """The functions that pycparser sees: those declared, and those defined."""
    declared, defined = {}, {}
    for item in c_parser.CParser().parse(TYPES + text).ext:
        if isinstance(item, c_ast.FuncDef):
            defined[item.decl.name] = item.decl
        elif isinstance(item, c_ast.Decl) and isinstance(item.type, c_ast.FuncDecl):
            declared[item.name] = item
    return declared, defined


class Header(unittest.TestCase):
    def test_a_parser_sees_each_function_by_its_name(self):
        exported, none = functions(preprocessed("-DSMAP_NO_INLINE"))
        declared, defined = functions(preprocessed())
        self.assertEqual(none, {})
        self.assertLess(marked(), set(exported))
        self.assertLessEqual(set(exported), set(declared) | set(defined))
        for name, item in defined.items():
            self.assertEqual((name, item.storage, item.funcspec), (name, ["static"], ["inline"]))
        self.assertLess(marked(), set(defined))
        self.assertFalse(marked() & {name for name in declared if "static" not in declared[name].storage})

    def test_cffi_calls_the_library_by_its_declarations(self):
        ffi = cffi.FFI()
        ffi.cdef(preprocessed("-DSMAP_NO_INLINE"))
        library = ffi.dlopen(str(LIB / "libsmap.so"))
        open_map, found, url = ffi.new("smap_map *"), ffi.new("smap_mapping *"), ffi.new("char[32]")
        limits, fault, length = ffi.new("smap_limits *"), ffi.new("smap_fault *"), ffi.new("size_t *")
        code = library.smap_open(open_map, MAP, len(MAP), BASE, len(BASE), limits, fault)
        self.assertEqual(code, library.SMAP_OK)
        self.assertEqual(library.smap_lookup(open_map, 0, 7, found), library.SMAP_OK)
        self.assertEqual((found.source_line, found.source_column), (10, 2))
        self.assertEqual(library.smap_source_url(open_map, found.source, url, 32, length), library.SMAP_OK)
        self.assertEqual(ffi.string(url, length[0]), b"http://h/m/a.js")
        library.smap_close(open_map)
        self.assertFalse(open_map.is_open)


if __name__ == "__main__":
    unittest.main()

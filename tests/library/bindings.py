"""What tools/write-bindings says and writes where the header, or what is written out of it, was changed."""

import shutil
import subprocess
import sys
import tempfile
import unittest
from pathlib import Path

TOP = Path(__file__).resolve().parents[2]
TOOL, HEADER, VERSIONS = "tools/write-bindings", "capi/smap.h", "capi/libsmap.versions"
CPP, PYTHON, METHODS = "capi/cpp/smap.hpp", "capi/python/smap/_declarations.py", "capi/python/smap/maps.py"
CRATE, WRAPPER, NODE = "capi/rust/smap-sys/src/bindings.rs", "capi/rust/smap.rs", "capi/node/index.d.ts"
GETTERS, INDEX = "capi/node/native/getters.c", "capi/node/index.js"
ORDER, PLACES = "crates/smap_c/specs/Order.antt", "tests/library/places.h"
KINDS, PAGE = "crates/smap_record/specs/Kinds.antt", "docs/ERRORS.md"
# What the tool reads and writes, files and folders.
ALL = [TOOL, "tools/bindings", "capi", ORDER, PLACES, KINDS, PAGE]


# Getters that the library doesn't have, and what is declared behind them.
NUMBER = """/* OK: *out is how many more there are. RANGE, CLOSED. */
uint32_t smap_more_of(smap_map *map, size_t i, uint32_t *out);

"""
TEXT = """/* Copies the i-th one. OK, RANGE, CLOSED. */
SMAP_INLINE uint32_t smap_more_of(smap_map *map, size_t i, char *out, size_t room, size_t *len);

"""
BYTES = """/* The map in one more form. */
uint32_t smap_more_of(smap_map *map, smap_bytes *out);

"""
BEHIND = "/* Copies the name of the generated file."


class BindingsTest(unittest.TestCase):
    def setUp(self):
        folder = tempfile.TemporaryDirectory()
        self.addCleanup(folder.cleanup)
        self.top = Path(folder.name)
        for name in ALL:
            (self.top / name).parent.mkdir(parents=True, exist_ok=True)
            copy = shutil.copytree if (TOP / name).is_dir() else shutil.copy
            copy(TOP / name, self.top / name)
        # no version of the library was released
        (self.top / "VERSION").write_text("0.0.0\n")

    def read(self, name):
        return (self.top / name).read_text()

    def change(self, name, old, new):
        self.assertEqual(self.read(name).count(old), 1, old)
        (self.top / name).write_text(self.read(name).replace(old, new))

    def run_tool(self, *words):
        command = [sys.executable, "-B", str(self.top / TOOL), *words]
        done = subprocess.run(command, stdout=subprocess.PIPE, stderr=subprocess.PIPE, text=True)
        return done.returncode, done.stdout, done.stderr

    def assert_writes(self, names):
        """The check says that these files differ; they are written, and then no longer differ."""
        said = [f"{name} isn't as tools/write-bindings writes it: run that\n" for name in names]
        self.assertEqual(self.run_tool("--check"), (1, "".join(said), ""))
        self.assertEqual(self.run_tool(), (0, "".join(f"{name}\n" for name in names), ""))
        self.assertEqual(self.run_tool("--check"), (0, "", ""))

    def assert_asks(self, name, sentence):
        for words in ([], ["--check"]):
            self.assertEqual(self.run_tool(*words), (1, "", f"write-bindings: {name} {sentence}\n"))

    def test_nothing_is_written_where_nothing_differs(self):
        self.assertEqual(self.run_tool(), (0, "", ""))

    def test_a_field_is_declared_in_each_language(self):
        self.change(HEADER, "lines, translated, dropped;", "lines, translated, dropped, more;")
        self.assert_writes([PYTHON, CRATE, WRAPPER, ORDER, PLACES])
        self.assertIn('("dropped", c_uint64), ("more", c_uint64)]', self.read(PYTHON))
        self.assertIn("    pub dropped: u64,\n    pub more: u64,\n}\n", self.read(CRATE))
        self.assertIn("        pub dropped: u64,\n        pub more: u64,\n    }\n", self.read(WRAPPER))
        self.assertIn("FIELD(smap_trace_counts, more, 24, 8),\n", self.read(PLACES))
        self.assertIn("WHOLE(smap_trace_counts, 32),\n", self.read(PLACES))
        self.assertIn("then c.dropped then c.more then tt\n", self.read(ORDER))

    def test_a_count_of_maps_is_shown_in_node(self):
        self.change(HEADER, "    size_t mappings;\n", "    size_t mappings, more_of; /* how many more */\n")
        self.assert_writes([PYTHON, CRATE, WRAPPER, NODE, GETTERS, ORDER, PLACES])
        self.assertIn("  /** How many more. */\n  readonly moreOf: number;\n", self.read(NODE))
        self.assertIn('{"moreOf", out.more_of}', self.read(GETTERS))

    def test_a_field_that_changes_its_place_is_seen(self):
        self.change(HEADER, "size_t url_from, url_len;", "size_t url_len, url_from;")
        self.assert_writes([PYTHON, CRATE, WRAPPER, ORDER, PLACES])
        self.assertIn("FIELD(smap_frame_parts, url_len, 0, 8),\n", self.read(PLACES))

    def test_a_function_is_declared_and_exported(self):
        after = "uint32_t smap_held(smap_map *map, size_t *out);\n"
        new = "SMAP_INLINE uint32_t smap_more(smap_map *map, const char *text, size_t len, bool *out);\n"
        self.change(HEADER, after, after + new)
        self.assert_writes([HEADER, PYTHON, CRATE, WRAPPER, VERSIONS])
        for line in [
            "static inline uint32_t smap_more_text(smap_map *map, const char *text, bool *out)\n",
            "    return smap_more(map, text, smap_length_(text), out);\n",
            "uint32_t smap_more_strict(smap_map *map, const char *text, size_t len, bool *out);\n",
            "static inline uint32_t smap_more(smap_map *map, const char *text, size_t len, bool *out)\n",
            "    return smap_more_strict(map, text ? text : smap_no_text_, len, out);\n",
        ]:
            self.assertEqual(self.read(HEADER).count(line), 1, line)
        parameters = "POINTER(Map), c_char_p, c_size_t, POINTER(c_bool)"
        self.assertIn(f'    ("smap_more", c_uint32, {parameters}),\n', self.read(PYTHON))
        parameters = "map: *mut smap_map, text: *const c_char, len: usize, out: *mut bool"
        self.assertIn(f"    pub fn smap_more({parameters}) -> u32;\n", self.read(CRATE))
        parameters = "map: *mut Map, text: *const u8, len: usize, out: *mut bool"
        self.assertIn(f"        pub fn smap_more({parameters}) -> u32;\n", self.read(WRAPPER))
        names = self.read(VERSIONS).split("global:\n")[-1]
        self.assertIn("    smap_more;\n", names)
        self.assertIn("    smap_more_strict;\n", names)

    def test_a_number_of_a_map_is_a_method(self):
        self.change(HEADER, BEHIND, NUMBER + BEHIND)
        self.change(INDEX, "native.held(", "native.moreOf(")
        self.assert_writes([PYTHON, METHODS, CRATE, WRAPPER, VERSIONS, GETTERS])
        for line in [
            "    def more_of(self, i: int) -> int:\n",
            '        """How many more there are."""\n',
            "        check(self._call(lib.smap_more_of, index_of(i), byref(out)))\n",
        ]:
            self.assertIn(line, self.read(METHODS))
        for line in [
            "    /// How many more there are.\n    pub fn more_of(&self, i: usize) -> Option<u32> {\n",
            "        let code = unsafe { smap_more_of(self.0.get(), i, &mut out) };\n",
        ]:
            self.assertIn(line, self.read(WRAPPER))
        for line in [
            "    uint32_t code = smap_more_of(&boxed->map, i, &out);\n",
            '    {"moreOf", do_more_of},\n',
        ]:
            self.assertIn(line, self.read(GETTERS))
        self.change(HEADER, "OK: *out is how many more there are.", "How many more there are.")
        self.assert_asks(HEADER, r"has no comment of smap_more_of that begins by OK: \*out (?:is|says) ")

    def test_a_text_of_a_map_is_a_method(self):
        self.change(HEADER, BEHIND, TEXT + BEHIND)
        self.assert_writes([HEADER, CPP, PYTHON, METHODS, CRATE, WRAPPER, VERSIONS, GETTERS])
        words = "Map &map, size_t i, std::string &out"
        self.assertIn(f"/* The i-th one. */\ninline uint32_t more_of({words})\n", self.read(CPP))
        self.assertIn("    return copied_of(map, out, smap_more_of, i);\n", self.read(CPP))
        self.assertIn("    pub fn more_of(&self, i: usize) -> Option<String> {\n", self.read(WRAPPER))
        call = "smap_more_of(self.0.get(), i, out, room, len)"
        self.assertIn(f"        text_of(|out, room, len| unsafe {{ {call} }})\n", self.read(WRAPPER))
        self.assertIn("    def more_of(self, i: int) -> Optional[str]:\n", self.read(METHODS))
        self.assertIn("        return self._text(lib.smap_more_of, index_of(i))\n", self.read(METHODS))
        self.assertIn('    {"MORE_OF", smap_more_of},\n', self.read(GETTERS))

    def test_bytes_of_a_map_are_a_method(self):
        behind = "/* The `mappings` of the canonical form alone. */"
        self.change(HEADER, behind, BYTES + behind)
        self.change(INDEX, "native.held(", "native.moreOf(")
        self.assert_writes([PYTHON, METHODS, CRATE, WRAPPER, VERSIONS, GETTERS])
        call = "written(|out| unsafe { smap_more_of(self.0.get(), out) }).map_err(|_| Error::Memory)"
        text = "    /// The map in one more form.\n    pub fn more_of(&self) -> Result<Vec<u8>, Error> {\n"
        self.assertIn(f"{text}        {call}\n", self.read(WRAPPER))
        self.assertIn('        """The map in one more form."""\n', self.read(METHODS))
        self.assertIn("        return written(self._call, lib.smap_more_of)\n", self.read(METHODS))
        self.assertIn("    return written(env, info, smap_more_of);\n", self.read(GETTERS))

    def test_what_node_calls_is_somewhere(self):
        self.change(INDEX, "native.held(", "native.lookUp(")
        self.assert_asks("capi/node", "calls native.lookUp, which no file of native/ has, and is no getter")

    def test_a_kind_of_error_has_its_number_and_its_name(self):
        first = '    if n == 1 then'
        self.change(KINDS, first, f'    if n == 99 then codes "OneMore" else\n{first}')
        self.assert_asks(PAGE, f"has no row for OneMore, which {KINDS} names")
        self.change(PAGE, "| Prefix |", "| OneMore | `m` | more than `all` | nothing |\n| Prefix |")
        self.assert_writes([HEADER, PYTHON, CRATE, WRAPPER, NODE])
        self.assertIn("    SMAP_FAULT_ONE_MORE = 99,        /* more than `all` */\n", self.read(HEADER))
        self.assertIn("FAULT_ONE_MORE = 99\n", self.read(PYTHON))
        self.assertIn("pub const SMAP_FAULT_ONE_MORE: u32 = 99;\n", self.read(CRATE))
        self.assertIn("  | 'OneMore' | 'Prefix' | ", self.read(NODE))

    def test_what_was_written_by_hand_is_seen(self):
        for name, old, new in [
            (HEADER, "    smap_trace_counts no_counts;\n", ""),
            (HEADER, "SMAP_FAULT_ORDER = 17", "SMAP_FAULT_ORDER = 18"),
            (CPP, "    return copied_of(map, out, smap_file);\n", ""),
            (PYTHON, "CLOSED = 5\n", "CLOSED = 6\n"),
            (CRATE, "    pub fn smap_close(map: *mut smap_map);\n", ""),
            (WRAPPER, "        pub fn smap_close(map: *mut Map);\n", ""),
            (METHODS, "lib.smap_held,", "lib.smap_file,"),
            (NODE, "'TooMany' | ", ""),
            (NODE, "  readonly listedSources: number;\n", ""),
            (GETTERS, '    {"count", do_count},\n', ""),
            (ORDER, " then c.translated", ""),
            (PLACES, "FIELD(smap_fault, kind, 0, 4),", "FIELD(smap_fault, kind, 0, 8),"),
            (VERSIONS, "    smap_alike;\n", ""),
        ]:
            with self.subTest(name):
                before = self.read(name)
                self.change(name, old, new)
                self.assert_writes([name])
                self.assertEqual(self.read(name), before)

    def test_a_type_that_is_not_known_is_named(self):
        self.change(HEADER, "uint64_t lines, translated, dropped;", "double lines, translated, dropped;")
        self.assert_asks(HEADER, "has a type that isn't one of TYPES: double")

    def test_a_version_that_was_released_stays(self):
        last = self.read(VERSIONS).rsplit("SMAP_", 2)[1].split(" ")[0]
        declared = "uint32_t smap_version(void);"
        self.change(HEADER, declared, "uint32_t smap_number(void);")
        lacks = "has, in a version that was released, what smap.h doesn't declare: smap_version"
        self.assert_asks(VERSIONS, lacks)
        self.change(HEADER, "uint32_t smap_number(void);", f"{declared}\nuint32_t smap_number(void);")
        for number in (f"{last}.0", f"{last}.1-dev", f"{last}.1"):
            (self.top / "VERSION").write_text(f"{number}\n")
            self.assert_asks(VERSIONS, f"ends with version {last}, which was released: begin the next one there")
        with (self.top / VERSIONS).open("a") as file:
            file.write(f"\nSMAP_100.0 {{\nglobal:\n}} SMAP_{last};\n")
        self.assert_writes([PYTHON, CRATE, WRAPPER, VERSIONS])
        self.assertIn("SMAP_100.0 {\nglobal:\n    smap_number;\n}", self.read(VERSIONS))

    def test_a_version_grows_until_its_release(self):
        last = self.read(VERSIONS).rsplit("SMAP_", 2)[1].split(" ")[0]
        (self.top / "VERSION").write_text(f"{last}.0-dev\n")
        declared = "uint32_t smap_version(void);"
        self.change(HEADER, declared, f"{declared}\nuint32_t smap_number(void);")
        self.assert_writes([PYTHON, CRATE, WRAPPER, VERSIONS])
        self.assertIn("    smap_number;\n", self.read(VERSIONS).split(f"SMAP_{last} ")[1])


if __name__ == "__main__":
    unittest.main()

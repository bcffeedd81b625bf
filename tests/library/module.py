"""Tests of the Python module."""

import base64
import copy
import ctypes
import pickle
import re
import subprocess
import sys
import threading
import unittest
from pathlib import Path, PurePosixPath, PureWindowsPath
from unittest import mock
from urllib.parse import quote, urljoin, urlsplit
from urllib.request import url2pathname, urlopen

sys.path.insert(0, str(Path(__file__).resolve().parents[2] / "capi" / "python"))
import smap  # noqa: E402
from smap import _declarations as declarations  # noqa: E402
from smap import _library as library  # noqa: E402

PLACES = Path(__file__).resolve().parent / "places.h"
VERSION = PLACES.parent.parent.parent / "tools" / "version"
BASE = "http://h/m/out.js.map"
TEXT = (
    b'{"version":3,"file":"out.js","sources":["a.js","b.js",null],"sourcesContent":["x\\ny",null],'
    b'"ignoreList":[1],"names":["f"],"mappings":"AAUEA,IAEA;ACAA,E"}'
)
FRAME = b"    at f (http://h/m/out.js:1:2)\n"


class ModuleTest(unittest.TestCase):
    def setUp(self):
        self.map = smap.Map.open(TEXT, BASE)

    def test_a_lookup_has_its_url_and_its_name(self):
        found = self.map.lookup(0, 3)
        self.assertEqual((found.url, found.source_line, found.source_column), ("http://h/m/a.js", 10, 2))
        self.assertEqual((found.name, found.is_ignored), ("f", False))
        self.assertIsNone(self.map.lookup(0, 4).name)
        self.assertIsNone(self.map.lookup(1, 2).source)
        self.assertIsNone(self.map.lookup(2, 0))

    def test_maps_are_composed(self):
        """What the rows of chains don't ask: URLs and numbers, limits, errors, and sources as written."""
        inner = smap.Map.open(
            b'{"version":3,"sources":["a.ts","c.ts"],"mappings":";;;;;;;;;;AACA"}', "http://h/m/a.js.map"
        )
        made = self.map.compose({"http://h/m/a.js": inner}, items=4)
        self.assertTrue(made.same(self.map.compose({0: inner})))
        self.assertEqual((made.lookup(0, 3).url, made.lookup(0, 3).name), ("http://h/m/a.ts", "f"))
        self.assertIsNone(made.find(0, 4).source)
        urls = ["http://h/m/a.ts", "http://h/m/c.ts", "http://h/m/b.js", None]
        self.assertEqual(made.written_sources(), [(url, None) for url in urls])
        self.assertEqual(made.used().counts().sources, 2)
        self.assertEqual(made.thinned().counts().mappings, 4)
        self.assertTrue(self.map.compose({}).same(self.map))
        self.assertTrue(self.map.compose({2: self.map}).same(self.map.compose({2: self.map.share()})))
        with self.assertRaises(smap.Error) as caught:
            self.map.compose({0: inner}, items=3)
        self.assertEqual((caught.exception.code, str(caught.exception)), (11, "too many sources or names"))
        self.assertRaises(KeyError, self.map.compose, {"a.js": inner})
        self.assertRaises(IndexError, self.map.compose, {3: inner})
        self.assertRaises(IndexError, self.map.compose, {-1: inner})
        self.assertRaises(ValueError, self.map.compose, {0: inner}, items=-1)
        inner.close()
        with self.assertRaises(smap.Error) as caught:
            self.map.compose({0: inner})
        self.assertEqual(caught.exception.code, 5)

    def test_sources_and_mappings_go_by_number(self):
        self.assertEqual(self.map.source(0), smap.Source("http://h/m/a.js", "x\ny", False))
        self.assertEqual(self.map.source(1), smap.Source("http://h/m/b.js", None, True))
        self.assertEqual(self.map.source(2), smap.Source(None, None, False))
        with self.assertRaises(IndexError):
            self.map.source(3)
        self.assertEqual([self.map.is_ignored(i) for i in range(3)], [False, True, False])
        self.assertEqual([self.map.listed_source(i) for i in range(3)], [0, 1, 2])
        for number in (3, -1, 2**64):
            self.assertRaises(IndexError, self.map.is_ignored, number)
            self.assertRaises(IndexError, self.map.listed_source, number)
        self.assertEqual(self.map.listed_name(0), "f")
        self.assertRaises(IndexError, self.map.listed_name, 1)
        self.assertEqual([m.column for m in self.map.mappings()], [0, 4, 0, 2])
        self.assertEqual((self.map.file(), self.map.counts().names), ("out.js", 1))
        # A string of up to 24 bytes has a block of 24: the base; "out.js", two URLs, a content and "f".
        held = (648 + 24) + 5 * 24
        # nine sources, four listed ones and four names fit without growing; four mappings
        held += 784 + 4 * 8 + 4 * 24 + 4 * 32
        # four sources as written, of which two have a text, and no root; a table of two lines
        held += (4 * 40 + 2 * 24 + 32) + 3 * 8
        self.assertEqual(self.map.held(), held)

    def test_sources_are_as_the_text_writes_them(self):
        self.assertEqual(self.map.written_sources(), [("a.js", None), ("b.js", None), (None, None)])
        with smap.Map.open(
            b'{"version":3,"sourceRoot":"../r","sources":["a.js",null],"mappings":""}', BASE
        ) as rooted:
            self.assertEqual(rooted.written_sources(), [("a.js", "../r"), (None, "../r")])
            self.assertEqual(rooted.url(0), "http://h/r/a.js")

    def test_an_index_is_that_of_the_mapping_found(self):
        self.assertEqual([self.map.index_at(0, 3), self.map.index_at(0, 4), self.map.index_at(1, 9)], [0, 1, 3])
        self.assertIsNone(self.map.index_at(2, 0))
        self.assertIsNone(self.map.index_at(-1, 0))

    def test_a_fault_has_its_fields(self):
        with self.assertRaises(smap.Refused) as raised:
            section = b'{"offset":{"line":0,"column":0},"map":' + TEXT[:-2] + b',"}}'
            smap.Map.open(b'{"version":3,"sections":[' + section + b"]}", BASE)
        fault = raised.exception
        self.assertEqual(str(fault), "section 0: line 1 segment 2: empty segment")
        self.assertEqual((fault.section, fault.line, fault.segment, fault.kind), ((0,), 1, 2, 22))
        self.assertEqual((fault.number, fault.kind_name), (0, "Empty"))
        with self.assertRaises(smap.Refused) as raised:
            smap.respell(b"A,B")
        self.assertEqual(str(raised.exception), "line 0 segment 1: number 1: negative zero")
        self.assertEqual((raised.exception.number, raised.exception.section), (1, ()))

    def test_other_errors_have_their_codes(self):
        for words, code in [(["nobase"], 2), ([BASE, 1 << 31], 3), ([BASE, 0, 16777217], 3)]:
            with self.assertRaises(smap.Error) as raised:
                smap.Map.open(TEXT, *words)
            self.assertEqual(raised.exception.code, code)
        self.map.close()
        self.map.close()
        with self.assertRaisesRegex(smap.Error, "closed handle"):
            self.map.lookup(0, 0)

    def test_errors_pass_between_processes(self):
        with self.assertRaises(smap.Refused) as raised:
            smap.respell(b"A,B")
        again = pickle.loads(pickle.dumps(raised.exception))
        self.assertIsInstance(again, smap.Refused)
        self.assertEqual(str(again), "line 0 segment 1: number 1: negative zero")
        self.assertEqual((again.code, again.line, again.segment, again.number), (1, 0, 1, 1))
        again = pickle.loads(pickle.dumps(smap.Error(2)))
        self.assertEqual((type(again), again.code, str(again)), (smap.Error, 2, str(smap.Error(2))))

    def test_positions_that_no_map_has_have_no_mapping(self):
        for line, column in [(-1, 0), (0, -1), (1 << 32, 3), (0, (1 << 32) + 3)]:
            self.assertIsNone(self.map.find(line, column))
            self.assertIsNone(self.map.name_at(line, column))

    def test_a_number_that_no_list_has_raises_what_a_list_raises(self):
        for number in [3, -1, 1 << 31, 1 << 32, 1 << 63, 1 << 64, (1 << 64) + 1, 1 << 70, -(1 << 64)]:
            for call in (self.map.url, self.map.content, self.map.source):
                with self.assertRaisesRegex(IndexError, "number out of range", msg=number):
                    call(number)
        for call in (self.map.url, self.map.content, self.map.source):
            with self.assertRaises(TypeError):
                call(0.0)

    def test_a_limit_is_no_other_number(self):
        for words in [(1 << 32,), (0, 1 << 32), (1 << 64,), (0, (1 << 70) + 1)]:
            with self.assertRaises(smap.Error, msg=words) as raised:
                smap.Map.open(TEXT, BASE, *words)
            self.assertEqual(raised.exception.code, 3)
        for words, name in [((-1,), "items"), ((0, -1), "lines"), ((-(1 << 32),), "items")]:
            with self.assertRaisesRegex(ValueError, f"{name} is below 0"):
                smap.Map.open(TEXT, BASE, *words)
        self.assertEqual(str(smap.Error(1 << 32)), "")

    def test_the_urls_of_sources_have_a_bound(self):
        # http://h/m/a.js, and http://h/m/b.js
        for bound in (30, 1 << 63, 1 << 70, None):
            with smap.Map.open(TEXT, BASE, url_bytes=bound) as opened:
                self.assertTrue(opened.same(self.map))
        for bound in (0, 29):
            with self.assertRaisesRegex(smap.Error, "too many bytes of URLs") as raised:
                smap.Map.open(TEXT, BASE, url_bytes=bound)
            self.assertEqual(raised.exception.code, 8)
        with self.assertRaisesRegex(ValueError, "url_bytes is below 0"):
            smap.Map.open(TEXT, BASE, url_bytes=-1)

    def test_what_owns_memory_of_the_library_has_no_copies(self):
        with smap.Scripts({"u": self.map}) as scripts:
            for owner in (self.map, scripts):
                for call in (copy.copy, copy.deepcopy, pickle.dumps):
                    with self.assertRaisesRegex(TypeError, f"cannot copy or pickle '{type(owner).__name__}'"):
                        call(owner)
            self.assertEqual(scripts.translate(b"@u:2:1")[0], b"@http://h/m/b.js:13:3")
        self.assertEqual(self.map.url(0), "http://h/m/a.js")

    def test_two_maps_may_say_the_same(self):
        with smap.Map.open(self.map.canonical(), BASE) as tidied:
            self.assertTrue(self.map.same(tidied) and self.map.same(self.map))
            self.assertEqual(tidied.canonical(), self.map.canonical())
            self.assertEqual(tidied.canonical_mappings(), b"AAUEA,IAEA;ACAA,E")
        with smap.Map.open(b'{"version":3,"mappings":""}', BASE) as empty:
            self.assertFalse(self.map.same(empty))

    def test_a_trace_is_translated(self):
        url = "http://h/m/out.js"
        told = self.map.translate("Error\n" + FRAME.decode(), url)
        self.assertEqual(told, "Error\n    at f (http://h/m/a.js:11:3)\n")
        told = self.map.translate(b"\r\x85@u:2:1\r\n@u:2:1", "u")
        self.assertEqual(told, b"\r\x85@http://h/m/b.js:13:3\r\n@http://h/m/b.js:13:3")
        self.assertEqual(self.map.translate(b"@u:2:1\n@v:2:1\n", "u", hide=True), b"@v:2:1\n")
        self.assertEqual(self.map.translate(b"", url), b"")

    def test_scripts_translate_by_their_maps(self):
        with smap.Scripts() as scripts:
            self.assertEqual(scripts.translate(b"@u:2:1\nx")[0], b"@u:2:1\nx")
            self.assertEqual(scripts.translate(b"@u:2:1\nx")[1].lines, 2)
            scripts.add("u", self.map)
            with smap.Map.open(b'{"version":3,"sources":["c.js"],"mappings":"AAAA"}', BASE) as other:
                scripts.add("v", other)
            told, counts = scripts.translate(b"@u:2:1\n@v:1:1\n", hide=True)
            self.assertEqual(told, b"@http://h/m/c.js:1:1\n")
            self.assertEqual((counts.lines, counts.translated, counts.dropped), (2, 1, 1))

    def test_positions_are_found_in_other_ways(self):
        url, asked = "http://h/m/out.js", b"@http://h/m/out.js?v=3:1:2"
        stamped = b"9:00     at f (http://h/m/out.js:1:2) {\n"
        told = b"9:00     at f (http://h/m/a.js:11:3) {\n"
        self.assertEqual(self.map.translate_line(stamped, url), stamped)
        self.assertEqual(self.map.translate_line(stamped, url, ignore_query=True), stamped)
        self.assertEqual(self.map.translate_line(stamped, url, anywhere=True), told)
        self.assertEqual(self.map.translate(stamped.decode(), url, anywhere=True), told.decode())
        self.assertEqual(self.map.translate_line(asked, url, anywhere=True), asked)
        self.assertEqual(self.map.translate_line(asked, url, ignore_query=True), b"@http://h/m/a.js:11:3")
        both = self.map.translate(b"9:00 http://h/m/out.js?v=3:1:2,", url, anywhere=True, ignore_query=True)
        self.assertEqual(both, b"9:00 http://h/m/a.js:11:3,")
        with smap.Scripts({"u": self.map}) as scripts:
            told, counts = scripts.translate(b"@u:2:1\n9:00 u:2:1 {\n", True, anywhere=True)
        self.assertEqual(told, b"9:00 http://h/m/b.js:13:3 {\n")
        self.assertEqual((counts.lines, counts.translated, counts.dropped), (2, 1, 1))

    def test_frames_get_the_names_of_functions(self):
        source = b'"sources":["a.js"],"sourcesContent":["function total() { f(); }"]'
        text = b'{"version":3,%s,"mappings":"AAAmB"}' % source
        line, told = b"    at t (u:1:1)\n", b"    at total (http://h/m/a.js:1:20)\n"
        with smap.Map.open(text, BASE) as named:
            self.assertEqual(named.translate_line(line, "u", names=True), told)
            self.assertEqual(named.translate_line(line, "u"), told.replace(b"total", b"t"))
            self.assertEqual(named.translate(line.decode(), "u", names=True), told.decode())
            with smap.Scripts({"u": named}) as scripts:
                self.assertEqual(scripts.translate(line, names=True)[0], told)

    def test_hide_may_be_passed_by_its_place(self):
        self.assertIsNone(self.map.translate_line(b"@u:2:1", "u", True))
        self.assertEqual(self.map.translate_line(b"@u:2:1", "u", False), b"@http://h/m/b.js:13:3")
        self.assertEqual(self.map.translate(b"@u:2:1\n", "u", True), b"")
        self.assertEqual(smap.translate(b"@u:2:1\n", {"u": self.map}, True), b"")

    def test_fields_lie_where_c_has_them(self):
        rows = re.findall(r"^FIELD\(smap_(\w+), (\w+), (\d+), (\d+)\)", PLACES.read_text(), re.M)
        self.assertGreater(len(rows), 40)
        for of, name, at, size in rows:
            field = getattr(getattr(declarations, of.title().replace("_", "")), name)
            self.assertEqual((field.offset, field.size), (int(at), int(size)), (of, name))

    def test_a_frame_has_its_parts(self):
        line = b"    at f (http://h/m/out.js:70:900)"
        self.assertEqual(smap.frame(line), smap.Frame(b"http://h/m/out.js", 70, 900))
        self.assertIsNone(smap.frame(b"Error"))

    def test_the_scripts_that_frames_name_are_counted(self):
        trace = b"Error: x\n    at f (b:1:2)\r\n@a:1:1\n    at f (b:1:2)\r\n    at async b:5:6\n"
        trace += b"x a:1:1 {\n@a:2:1"
        self.assertEqual(list(smap.named_scripts(trace).items()), [(b"b", 3), (b"a", 2)])
        self.assertEqual(smap.named_scripts(b""), {})

    def test_a_text_may_be_long(self):
        name = "n" * 100000
        text = '{"version":3,"sources":["a"],"names":["%s"],"mappings":"AAAAA"}' % name
        with smap.Map.open(text.encode(), BASE) as m:
            self.assertEqual(m.lookup(0, 0).name, name)

    def test_an_answer_may_have_more_bytes_than_a_c_int_counts(self):
        held, many = ctypes.c_uint8(), (1 << 32) + 5

        def bytes_data(out, at, n):
            at._obj.contents, n._obj.value = held, many

        stand_in = mock.Mock(smap_bytes_data=bytes_data, smap_bytes_copy=lambda *_: many)
        # they are counted, and not copied
        counted = mock.patch.object(library, "bytes", len, create=True)
        with mock.patch.object(library, "lib", stand_in), counted:
            self.assertEqual(library.taken(declarations.Bytes()), many)
        stand_in.smap_bytes_free.assert_called_once()

    def test_threads_share_a_map(self):
        wrong = []

        def run(m):
            for _ in range(200):
                if m.lookup(0, 3).name != "f" or m.share().lookup(0, 5).source_line != 12:
                    wrong.append(m)

        threads = [threading.Thread(target=run, args=(self.map.share(),)) for _ in range(8)]
        for thread in threads:
            thread.start()
        self.map.close()
        for thread in threads:
            thread.join()
        self.assertEqual(wrong, [])

    def test_the_versions_are_those_of_the_library_and_of_the_package(self):
        said = [subprocess.check_output([VERSION, form], text=True).strip() for form in ("library", "python")]
        self.assertEqual([smap.version(), smap.__version__], said)

    def test_counts_show_their_numbers(self):
        wanted = r"^Counts\(sources=3, listed_sources=3, names=1, mappings=4, lines=2\b.*\)$"
        self.assertRegex(repr(self.map.counts()), wanted)
        with smap.Scripts({"u": self.map}) as scripts:
            counts = scripts.translate(b"@u:2:1\nx\n")[1]
        self.assertEqual(repr(counts), "TraceCounts(lines=2, translated=1, dropped=0)")


class LinksTest(unittest.TestCase):
    def refused(self, code, call, *words):
        with self.assertRaises(smap.Error, msg=words) as raised:
            call(*words)
        self.assertEqual(raised.exception.code, code, words)

    def test_a_script_names_its_map_in_its_last_comment(self):
        # ECMA-426, "Linking generated code to source maps", without parsing
        rows = [
            ("f()\n//# sourceMappingURL=a.map", "a.map"),
            ("f()\n//# sourceMappingURL=a.map\n\n \t\r\n", "a.map"),
            ("f() //# sourceMappingURL=a.map", "a.map"),
            ("//@sourceMappingURL=a.map", "a.map"),
            ("//#\u00a0\tsourceMappingURL=a.map\ufeff\u3000", "a.map"),
            ("/*# sourceMappingURL=a.map */ // end", "a.map"),
            ("//# sourceMappingURL=a.map\n//# sourceMappingURL=b.map\n// c", "b.map"),
            ("//# sourceMappingURL=a.map\u2028\n", "a.map"),
            ("//# sourceMappingURL=", ""),
            ('s = "//# sourceMappingURL=a.map"', 'a.map"'),
            ("//# sourceMappingURL=a.map\nf()", None),
            ("//# sourceMappingURL=a.map\u2029f()", None),
            ("//# sourceMappingURL=a.map b", None),
            ("//# sourcemappingurl=a.map", None),
            ("// # sourceMappingURL=a.map", None),
            ("/*# sourceMappingURL=a.map", None),
            ("/*\n# sourceMappingURL=a.map\n*/", None),
            ("", None),
        ]
        for text, url in rows:
            self.assertEqual(smap.script_link(text), url, text)
            self.assertEqual(smap.script_link(text.encode()), None if url is None else url.encode(), text)

    def test_a_style_sheet_has_other_comments(self):
        for text, of_script, of_sheet in [
            ("a{}\n/*# sourceMappingURL=a.css.map */\n", "a.css.map", "a.css.map"),
            ("//# sourceMappingURL=a.map", "a.map", None),
            ("/*# sourceMappingURL=a.css.map */ //", "a.css.map", None),
        ]:
            self.assertEqual(smap.script_link(text), of_script, text)
            self.assertEqual(smap.script_link(text, css=True), of_sheet, text)

    def test_the_url_of_a_map_may_be_long_or_no_utf_8(self):
        for url in (b"x" * 511, b"x" * 512, b"x" * 513, b"x" * 1_000_000, b"\xff\xfe"):
            self.assertEqual(smap.script_link(b"f()\n//# sourceMappingURL=" + url), url)
        self.assertEqual(smap.script_link("//# sourceMappingURL=\udcff"), "\udcff")

    def test_a_url_is_resolved_against_that_of_its_script(self):
        script = "http://h/m/n/out.js?x#y"
        for url in ["a.map", "../a.map", "./b/../a.map?v=3#z", "/a.map", "//k/a.map", "https://k/a", "?q"]:
            self.assertEqual(smap.resolve(script, url), urljoin(script, url))
            self.assertEqual(smap.resolve(script.encode(), url.encode()), urljoin(script, url).encode())
        for script, url, found in [
            ("http://h/out.js", "\u00e4 b.map", "http://h/%C3%A4%20b.map"),
            ("http://h/out.js", "..\\..\\a.map", "http://h/a.map"),
            ("/srv/a b/out.js", "c.map", "file:///srv/a%20b/c.map"),
            ("C:\\d\\out.js", "../c.map", "file:///C:/c.map"),
            ("http://h/m/out.js", "", "http://h/m/out.js"),
        ]:
            self.assertEqual(smap.resolve(script, url), found)
        for script, url in [("out.js", "a.map"), ("", ""), ("http://h/", "http://[")]:
            self.refused(2, smap.resolve, script, url)
        for script, url in [(b"http://h/", b"\xff"), ("http://h/", "\udcff"), ("http://h/\ud800", "a")]:
            self.refused(10, smap.resolve, script, url)

    def test_a_data_url_holds_bytes(self):
        data = TEXT + bytes(range(256))
        base64_of = base64.b64encode(data).decode()
        for url in [
            "data:application/json;base64," + base64_of,
            "data:application/json;charset=utf-8;base64," + base64_of,
            "data:application/json;base64," + quote(base64_of, ""),
            "data:application/json," + quote(data),
            "data:," + quote(data, ""),
        ]:
            with urlopen(url) as response:
                self.assertEqual(response.read(), data)
            self.assertEqual(smap.data_url(url), data)
            self.assertEqual(smap.data_url(url.encode()), data)
        # the Fetch Standard and the Infra Standard, where the module of Python has its own ways
        for url, found in [
            ("DATA:;BASE64,e30", b"{}"),
            ("data:;base64,e3\n0= ", b"{}"),
            ("data:x;base64 ,e30", b"{}"),
            ("data:x;base64;y,e30", b"e30"),
            ("data:,{}#x", b"{}"),
            ("data:,%7b%7D%4", b"{}%4"),
            ("data:,", b""),
        ]:
            self.assertEqual(smap.data_url(url), found, url)
        for url in ["http://h/a.map", "a.map", "", "dat:,x"]:
            self.assertIsNone(smap.data_url(url))
        for url in ["data:;base64,e-_0", "data:;base64,e", "data:;base64,e30=="]:
            self.refused(9, smap.data_url, url)
        self.refused(2, smap.data_url, "data:application/json")

    def test_a_path_has_a_file_url(self):
        for path in ["/", "/a b/\u00e9.js", "/%41?x#y", "/a\tb\n.js", "/a\\b"]:
            self.assertEqual(smap.file_url(path), PurePosixPath(path).as_uri())
        for path in ["C:\\a b\\\u00e9.js", "c:/a/b.js"]:
            self.assertEqual(smap.file_url(path), PureWindowsPath(path).as_uri())
        self.assertEqual(smap.file_url(b"/a b.js"), b"file:///a%20b.js")
        for path in ["a.js", "", "C:a.js", "http://h/a.js"]:
            self.assertIsNone(smap.file_url(path))
        for path in [b"/\xff", "/\udcff", "/\ud800", "C:\\\udcff"]:
            self.refused(10, smap.file_url, path)

    def test_a_file_url_has_a_path(self):
        for url in ["file:///a%20b/%C3%A9.js", "file:///%2541?x", "file:///a%5Cb#y", "FILE://localhost/a.js"]:
            self.assertEqual(smap.file_path(url), url2pathname(urlsplit(url).path))
        self.assertEqual(smap.file_path(b"file:///C:/a%20b/c.js"), b"C:\\a b\\c.js")
        for url in ["http://h/a.js", "/a.js", ""]:
            self.assertIsNone(smap.file_path(url))
        for url in ["file://h/a.js", "file:///a%2fb", "file:///a%00", "file:///C:/a%5Cb"]:
            self.refused(2, smap.file_path, url)
        self.refused(10, smap.file_path, "file:///%ff")

    def test_a_script_below_a_folder_has_a_url_and_its_url_a_name(self):
        for name in ["out.js", "a/b.js", "a b/\u00e4.js", "%41", "[id]", "q?x#y", "it's", "a\\b", "a\tb"]:
            encoded = quote(name, "/[]!'()*,;:@&=+$|")
            self.assertEqual(smap.script_url("http://h/", name), "http://h/" + encoded)
            for folder in ["http://h/", "file:///s/", "/s/"]:
                url = smap.script_url(folder, name)
                self.assertEqual(smap.script_name(folder, url), name)
        for folder, name, url in [
            ("/s/", "a b.js", "/s/a b.js"),
            ("C:\\s\\", "a/b.js", "C:\\s\\a\\b.js"),
            ("C:/s/", "a/b.js", "C:/s/a/b.js"),
            (b"http://h/", b"\xff", b"http://h/%FF"),
        ]:
            self.assertEqual(smap.script_url(folder, name), url)
            self.assertEqual(smap.script_name(folder, url), name)
        for url in [
            "http://h/", "http://h/../a.js", "http://h/%2E%2E/a.js", "http://h/a%2Fb.js", "http://h//a.js",
            "http://h/a/./b.js", "http://h/a b.js", "http://h/%c3%a4", "http://h/%41", "http://h/%00",
            "http://k/a.js",
        ]:
            self.assertIsNone(smap.script_name("http://h/", url), url)
        self.assertIsNone(smap.script_name("/s/", "/s/../a.js"))
        self.assertIsNone(smap.script_name("C:\\s\\", "C:\\s\\a/b.js"))

    def test_names_of_one_script_are_alike(self):
        # the URL Standard, and RFC 8089 for paths
        groups = [
            ["http://h/a.js", "HTTP://H:80/a.js", "http://h/a.js?v=3", "http://h/./x/../a.js#y"],
            ["https://h/a.js", "https://h:443/a.js", "https://h/%61%2Ejs"],
            ["https://h/[x]/\u00e9.js", "https://h/%5bx%5D/%c3%a9.js"],
            ["https://h/b/c.js"],
            ["https://h/b%2Fc.js"],
            ["http://h:443/a.js"],
            ["http://h/A.js"],
            ["/s/a b.js", "file:///s/a%20b.js", "file://localhost/s/a%20b.js?x"],
            ["c:\\s\\a.js", "C:/s/a.js", "file:///C:/s/a.js", "file:///c:/s/a.js"],
            ["/s/a.js?x", "file:///s/a.js%3Fx"],
            ["a.js"],
            ["a.js?x"],
            [""],
        ]
        names = [(name, number) for number, group in enumerate(groups) for name in group]
        for one, group in names:
            for other, other_group in names:
                wanted = group == other_group
                self.assertEqual(smap.alike(one, other.encode()), wanted, (one, other))
                self.assertEqual(smap.normal_form(one) == smap.normal_form(other), wanted, (one, other))
        self.assertEqual(smap.normal_form("HTTP://H:80/a.js?v=3"), "http://h/a.js")
        self.assertEqual(smap.normal_form(b"\xff"), b"\xff")
        self.refused(10, smap.normal_form, "\ud800")
        self.refused(10, smap.alike, "a", "\ud800")

    def test_what_is_no_text_is_refused(self):
        for call in (smap.script_link, smap.data_url, smap.file_url, smap.file_path, smap.normal_form):
            for word in (None, 1, ["a"]):
                with self.assertRaisesRegex(TypeError, "a text is a str or bytes, not ", msg=word):
                    call(word)


if __name__ == "__main__":
    unittest.main()

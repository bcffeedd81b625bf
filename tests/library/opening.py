"""Tests of the Python module: how maps and the library are opened, and what mistakes are told."""

import ctypes
import ctypes.util
import os
import re
import subprocess
import sys
import tempfile
import unittest
from array import array
from pathlib import Path
from unittest import mock

sys.path.insert(0, str(Path(__file__).resolve().parents[2] / "capi" / "python"))
import smap  # noqa: E402
from smap import _library as library  # noqa: E402

PACKAGE = Path(smap.__file__).resolve().parent
BASE = "http://h/m/out.js.map"
TEXT = (
    b'{"version":3,"file":"out.js","sources":["a.js","b.js",null],"sourcesContent":["x\\ny",null],'
    b'"ignoreList":[1],"names":["f"],"mappings":"AAUEA,IAEA;ACAA,E"}'
)


class FileTest(unittest.TestCase):
    def setUp(self):
        made = tempfile.TemporaryDirectory()
        self.addCleanup(made.cleanup)
        self.file = Path(made.name, "a b.js.map")
        self.file.write_bytes(TEXT)

    def test_a_map_is_read_from_a_file(self):
        with smap.Map.open(TEXT, BASE) as wanted:
            for path in (self.file, str(self.file), os.fsencode(self.file)):
                with smap.Map.from_file(path, BASE) as found:
                    self.assertTrue(found.same(wanted), path)

    def test_its_url_is_that_of_the_file(self):
        wanted = self.file.resolve().with_name("a.js").as_uri()
        before = os.getcwd()
        self.addCleanup(os.chdir, before)
        os.chdir(self.file.resolve().parent)
        for path in (self.file.resolve(), self.file.name):
            with smap.Map.from_file(path) as found:
                self.assertEqual(found.url(0), wanted)

    def test_its_limits_are_those_of_open(self):
        for word, error, text in [
            ({"items": 2}, smap.RefusedError, "too many"),
            ({"lines": 1}, smap.RefusedError, "line 1 segment 0: generated line"),
            ({"url_bytes": 29}, smap.Error, "too many bytes of URLs"),
            ({"items": -1}, ValueError, "items is below 0"),
        ]:
            with self.assertRaisesRegex(error, text, msg=word):
                smap.Map.from_file(self.file, BASE, **word)

    def test_only_regular_files_are_read(self):
        os.mkfifo(self.file.with_name("pipe"))
        for name, error in [("none", FileNotFoundError), ("", OSError), ("pipe", OSError)]:
            with self.assertRaises(error, msg=name):
                smap.Map.from_file(self.file.parent / name, BASE)
        with self.assertRaises(TypeError):
            smap.Map.from_file(None, BASE)


class MistakesTest(unittest.TestCase):
    """What is easily passed in place of something else is told in a sentence."""

    def test_a_map_is_no_str(self):
        with self.assertRaisesRegex(TypeError, "a map is bytes, not str: .*Map.from_file"):
            smap.Map.open(TEXT.decode(), BASE)
        with self.assertRaisesRegex(TypeError, "a map is bytes, not dict"):
            smap.Map.open({"version": 3}, BASE)
        for base in (None, BASE.encode(), Path("out.js.map")):
            with self.assertRaisesRegex(TypeError, "the base of a map is a URL in a str, not "):
                smap.Map.open(TEXT, base)

    def test_bytes_of_any_kind_are_taken(self):
        with smap.Map.open(TEXT, BASE) as wanted, smap.Scripts({"u": wanted}) as scripts:
            for kind in (bytearray, memoryview):
                with smap.Map.open(kind(TEXT), BASE) as found:
                    self.assertTrue(found.same(wanted))
                self.assertEqual(smap.respell(kind(b"gAAAAC,E,D")), b"AAAAC,C,C")
                self.assertEqual(smap.frame(kind(b"@u:2:1")), smap.Frame(b"u", 2, 1))
                self.assertEqual(smap.named_scripts(kind(b"@u:2:1")), {b"u": 1})
                self.assertEqual(scripts.translate(kind(b"@u:2:1"))[0], b"@http://h/m/b.js:13:3")
                self.assertEqual(wanted.translate_line(kind(b"@u:2:1"), "u"), b"@http://h/m/b.js:13:3")

    def test_numbers_of_any_kind_are_taken(self):
        none = 0xFFFFFFFF
        numbers = array("I", [1, 4, 1, 0, 0, none, 0, 0, 0, 2, 1, 0, 1, 4, 0, 5, 0, none, 6, 2] + 4 * [none])
        kinds = [list, iter, bytes, memoryview, (ctypes.c_uint32 * 24).from_buffer_copy]
        for given in [kind(numbers) for kind in kinds] + [numbers, array("Q", numbers)]:
            self.assertEqual(smap.spell(given), b"AAECA;ICFD,ADKA;;;;;E", given)
        for given in (b"", [], array("I")):
            self.assertEqual(smap.spell(given), b"")
        numbers[2 * 6 + 1] = 1 << 31
        with self.assertRaisesRegex(smap.Error, "^mapping 2: number out of range$") as raised:
            smap.spell(numbers)
        self.assertEqual(raised.exception.code, 7)
        wrong = {ValueError: [[0], bytes(23)], OverflowError: [6 * [-1], 6 * [1 << 32]]}
        wrong[TypeError] = ["AAAA", None, 1, 6 * [0.0], ["0"], array("d", [0])]
        for error, values in wrong.items():
            for value in values:
                self.assertRaises(error, smap.spell, value)

    def test_what_is_bytes_is_no_str(self):
        with smap.Map.open(TEXT, BASE) as m, smap.Scripts({"u": m}) as scripts:
            for name, call in [
                ("a mappings text", lambda: smap.respell("A")),
                ("a line", lambda: smap.frame("@u:2:1")),
                ("a trace", lambda: smap.named_scripts("@u:2:1")),
                ("a trace", lambda: scripts.translate("@u:2:1")),
                ("a line", lambda: m.translate_line("@u:2:1", "u")),
            ]:
                with self.assertRaisesRegex(TypeError, f"^{name} is bytes, not str$"):
                    call()
            with self.assertRaisesRegex(TypeError, "the name of a script is a URL in a str, not bytes"):
                scripts.add(b"u", m)

    def test_a_folder_is_given_with_a_url(self):
        for places in ("dist/", Path("dist"), b"dist/", ["dist/"], None):
            for kind in (smap.Store, smap.Folders):
                with self.assertRaisesRegex(TypeError, r'folders are given .* \{"https://.*not .*'):
                    kind(places)

    def test_errors_say_where_they_are_found(self):
        self.assertEqual(
            [smap.Refused, smap.Repeated, smap.OutsideFolder],
            [smap.RefusedError, smap.RepeatedError, smap.OutsideFolderError],
        )
        for name in ("Error", "RefusedError", "RepeatedError", "OutsideFolderError"):
            kind = getattr(smap, name)
            self.assertEqual((kind.__module__, kind.__qualname__), ("smap", name))
        words = [sys.executable, "-B", "-c", "import smap; smap.respell(b'!')"]
        env = {**os.environ, "PYTHONPATH": str(PACKAGE.parent)}
        done = subprocess.run(words, capture_output=True, check=False, env=env)
        self.assertIn(b"\nsmap.RefusedError: line 0 segment 0", done.stderr)


class LoadTest(unittest.TestCase):
    """A library that can't be loaded is an ImportError that says what to do."""

    def setUp(self):
        made = tempfile.TemporaryDirectory()
        self.addCleanup(made.cleanup)
        self.temp = Path(made.name)

    def said(self, package, **more):
        """What the import of a package says, which has to fail."""
        env = {name: value for name, value in os.environ.items() if not name.startswith(("SMAP_", "LD_"))}
        env.update(PYTHONPATH=str(package.parent), **more)
        program = "try:\n import smap\nexcept ImportError as e:\n print(e.name, e.path); print(e)"
        words = [sys.executable, "-B", "-c", program]
        done = subprocess.run(words, env=env, capture_output=True, check=False)
        self.assertEqual((done.returncode, done.stderr), (0, b""))
        return done.stdout.decode().splitlines()

    def copied(self):
        """A copy of the module, beside which no library is."""
        package = self.temp / "any" / "where" / "here" / "smap"
        package.mkdir(parents=True)
        for file in PACKAGE.glob("*.py"):
            (package / file.name).write_bytes(file.read_bytes())
        return package

    def test_none_is_there(self):
        environment = {name: value for name, value in os.environ.items() if name != "SMAP_LIBRARY"}
        fault = OSError("libsmap.so.0: cannot open shared object file: No such file or directory")
        with mock.patch.dict(os.environ, environment, clear=True), mock.patch.object(
            Path, "exists", return_value=False
        ), mock.patch.object(ctypes, "CDLL", side_effect=fault):
            wanted = "^smap can't load its library: libsmap.so.0: .*No such .* Install the wheel"
            with self.assertRaisesRegex(ImportError, wanted) as raised:
                library.load()
        self.assertEqual((raised.exception.name, raised.exception.path), ("smap", "libsmap.so.0"))

    def test_another_one_is_named(self):
        at, said = self.said(PACKAGE, SMAP_LIBRARY="/nowhere/libsmap.so")
        self.assertEqual(at, "smap /nowhere/libsmap.so")
        self.assertRegex(said, "^smap can't load its library: /nowhere/libsmap.so: .* Set SMAP_LIBRARY to ")

    def test_the_one_beside_it_is_none(self):
        package = self.copied()
        (package / "libsmap.so.0").write_bytes(b"\x7fELF")
        at, said = self.said(package)
        self.assertEqual(at, f"smap {package}/libsmap.so.0")
        self.assertRegex(said, "file too short.* Install the wheel")

    def test_it_is_of_another_release(self):
        libc = ctypes.util.find_library("c")
        _, said = self.said(PACKAGE, SMAP_LIBRARY=libc)
        self.assertRegex(said, "undefined symbol: smap_version. It is of another release than the module: ")


class PageTest(unittest.TestCase):
    """The page of the Python package shows what runs."""

    def test_its_program_runs(self):
        page = (PACKAGE.parent / "README.md").read_text()
        blocks = dict(re.findall(r"^```(\w*)\n(.*?)^```$", page, flags=re.M | re.S))
        program, wanted = blocks["python"], blocks[""]
        text = re.search(r"With the map `(.*?)`", page)[1]
        with tempfile.TemporaryDirectory() as temp:
            Path(temp, "dist").mkdir()
            Path(temp, "dist", "cart.js.map").write_text(text)
            env = {**os.environ, "PYTHONPATH": str(PACKAGE.parent)}
            words = [sys.executable, "-B", "-c", program]
            done = subprocess.run(words, cwd=temp, env=env, capture_output=True, check=False)
        self.assertEqual((done.stdout.decode(), done.stderr), (wanted, b""))


if __name__ == "__main__":
    unittest.main()

"""Tests of the finders of the Python module: which file has the map of a script."""

import errno
import os
import pickle
import random
import sys
import threading
import time
import unittest
from pathlib import Path
from unittest import mock

from files_case import MAP, FilesCase, status

sys.path.insert(0, str(Path(__file__).resolve().parents[2] / "capi" / "python"))
import smap  # noqa: E402
from smap.finders import Beginnings  # noqa: E402


class FoldersTest(FilesCase):
    def test_names_are_below_the_folder(self):
        self.put("dist/lazy/one.js")
        key = "http://h/m/"
        self.assertEqual(self.found(key, "http://h/m/out.js"), "http://h/m/out.js.map")
        self.assertEqual(self.found(key, "http://h/m/lazy/one.js"), "http://h/m/lazy/one.js.map")
        for script in ["http://h/m/", "http://h/m/lazy", "http://h/m/no.js", "http://h/out.js", "out.js", ""]:
            self.assertIsNone(self.found(key, script), script)

    def test_it_shows_its_places(self):
        found = repr(smap.Folders({"http://h/": self.dist, "u": "u.map"}, map_bytes=7))
        self.assertEqual(found, f"Folders({{'u': 'u.map', 'http://h/': {str(self.dist)!r}}}, map_bytes=7)")

    def test_names_are_percent_encoded_in_one_way(self):
        for name in ["a b", "ä", "%41", "[id]", "q?x#y", "it's", "a\\b"]:
            self.put("dist/" + name)
        key = "http://h/"
        for script in ["a%20b", "%C3%A4", "%2541", "[id]", "q%3Fx%23y", "it's", "a%5Cb"]:
            self.assertEqual(self.found(key, key + script), key + script + ".map")
        for script in ["a b", "ä", "%c3%a4", "%41", "%5Bid%5D", "q?x#y", "%6Fut.js", "a\\b"]:
            self.assertIsNone(self.found(key, key + script), script)

    def test_nothing_outside_the_folder_is_found(self):
        self.put("secret.js")
        self.put("other/three.js")
        (self.dist / "linked").symlink_to(self.temp / "other")
        (self.dist / "four.js.map").symlink_to(self.temp / "other" / "three.js.map")
        key = "http://h/"
        for script in [
            "../secret.js", "%2E%2E/secret.js", "..%2Fsecret.js", "./out.js", "lazy/../out.js", "/out.js",
            "linked/three.js", "out.js%00", str(self.temp / "secret.js"), "x" * 100_000, ".", "..",
        ]:
            self.assertIsNone(self.found(key, key + script), script)
        self.assertEqual(self.found(key, key + "four.js"), "http://h/four.js.map")

    def test_the_folder_itself_may_be_a_link(self):
        (self.temp / "current").symlink_to(self.dist)
        self.assertEqual(self.found("http://h/", "http://h/out.js", "current"), "http://h/out.js.map")

    def test_scripts_may_be_paths(self):
        self.put("dist/lazy/one two.js")
        rows = [
            ("/app/dist/", "/app/dist/out.js", "file:///app/dist/out.js.map"),
            ("/app/dist/", "/app/dist/lazy/one two.js", "file:///app/dist/lazy/one%20two.js.map"),
            ("C:\\app\\", "C:\\app\\lazy\\one two.js", "file:///C:/app/lazy/one%20two.js.map"),
            ("C:/app/", "C:/app/out.js", "file:///C:/app/out.js.map"),
            ("file:///app/", "file:///app/lazy/one%20two.js", "file:///app/lazy/one%20two.js.map"),
            ("C:\\app\\", "C:\\app\\lazy/one two.js", None),
            ("/app/", "/app/lazy/one%20two.js", None),
        ]
        for key, script, base in rows:
            self.assertEqual(self.found(key, script), base, script)

    def test_a_script_may_have_its_own_file(self):
        file = self.put("elsewhere")
        find = smap.Folders({"http://h/": self.dist, "http://h/out.js": file})
        file.write_bytes(b"its own")
        self.assertEqual(find("http://h/out.js"), (b"its own", "http://h/out.js.map"))
        file.unlink()
        store = smap.Store(find)
        self.assertEqual(store.translate("@http://h/out.js:1:1"), "@http://h/out.js:1:1")
        self.assertIsInstance(store.broken["http://h/out.js"], FileNotFoundError)

    def test_two_maps_of_one_script_are_told_of(self):
        other = self.put("other/m/out.js")
        store = smap.Store({"http://h/": self.temp / "other", "http://h/m/": self.dist})
        line = "@http://h/m/out.js:1:1"
        self.assertEqual(store.translate(line), line)
        fault = store.broken["http://h/m/out.js"]
        self.assertIsInstance(fault, smap.Repeated)
        self.assertEqual(str(fault), f"script repeated: {other} and {self.dist / 'out.js.map'}")
        self.assertEqual(store.counts, smap.StoreCounts(lines=1, broken=1))
        self.assertEqual(pickle.loads(pickle.dumps(fault)).files, fault.files)
        other.unlink()
        store.forget()
        self.assertEqual(store.translate(line), "@http://h/m/a.js:11:3")

    def test_what_is_no_folder_is_refused(self):
        with self.assertRaisesRegex(NotADirectoryError, "no such folder: .*none"):
            smap.Store({"http://h/": self.temp / "none"})
        with self.assertRaisesRegex(ValueError, "is a folder, so its URL ends in a slash: http://h/$"):
            smap.Store({"http://h": self.dist})

    def test_a_file_that_cannot_be_read_is_broken(self):
        (self.dist / "loop.js.map").symlink_to(self.dist / "loop.js.map")
        (self.dist / "dir.js.map").mkdir()
        store = smap.Store({"http://h/": self.dist})
        with mock.patch("smap.files.open", side_effect=PermissionError(13, "no"), create=True):
            store.translate("@http://h/out.js:1:1\n@http://h/loop.js:1:1\n@http://h/dir.js:1:1\n")
        self.assertEqual(list(store.broken), ["http://h/out.js"])
        self.assertIsInstance(store.broken["http://h/out.js"], PermissionError)
        self.assertEqual(store.missing, {"http://h/loop.js": 1, "http://h/dir.js": 1})

    def test_a_file_that_changes_while_it_is_read_is_read_again(self):
        times = iter([1, 2, 2, 2])
        size = len(MAP)
        with mock.patch("os.fstat", lambda _: status(size, next(times))):
            self.assertEqual(smap.Folders({"http://h/": self.dist})("http://h/out.js").data, MAP)
        self.assertEqual(list(times), [])

    def test_a_file_that_changes_all_the_time_is_broken(self):
        times = iter(range(6))
        size = len(MAP)
        store = smap.Store({"http://h/": self.dist})
        with mock.patch("os.fstat", lambda _: status(size, next(times))):
            self.assertEqual(store.translate("@http://h/out.js:1:1"), "@http://h/out.js:1:1")
        self.assertRegex(str(store.broken["http://h/out.js"]), "it changes while it is read: .*out.js.map")

    def test_a_file_that_is_too_large_for_a_map_is_not_read(self):
        os.truncate(self.put("dist/large.js"), 20 << 30)
        store = smap.Store({"http://h/": self.dist})
        self.assertEqual(store.translate("@http://h/large.js:1:1"), "@http://h/large.js:1:1")
        fault = store.broken["http://h/large.js"]
        self.assertIsInstance(fault, OSError)
        self.assertEqual((fault.errno, fault.filename), (errno.EFBIG, str(self.dist / "large.js.map")))
        self.assertIn("a map of more than 268435456 bytes", str(fault))

    def test_the_bound_on_files_may_be_another(self):
        places, script, less = {"http://h/": self.dist}, "http://h/out.js", len(MAP) - 1
        small, store = smap.Folders(places, map_bytes=less), smap.Store(places, map_bytes=less)
        for call in (small, pickle.loads(pickle.dumps(small))):
            with self.assertRaisesRegex(OSError, f"a map of more than {less} bytes"):
                call(script)
        self.assertIsNone(store.lookup(script, 0, 0))
        self.assertEqual(store.broken[script].filename, str(self.dist / "out.js.map"))
        self.assertEqual(smap.Folders(places, map_bytes=len(MAP))(script).data, MAP)
        with self.assertRaisesRegex(ValueError, "map_bytes is below 0"):
            smap.Folders(places, map_bytes=-1)

    def test_what_is_no_file_is_neither_waited_for_nor_read(self):
        os.mkfifo(self.temp / "pipe")
        for place in (self.temp / "pipe", "/dev/zero"):
            store = smap.Store({"http://h/out.js": place})
            thread = threading.Thread(target=store.lookup, args=("http://h/out.js", 0, 0), daemon=True)
            thread.start()
            thread.join(60)
            self.assertIn("no regular file", str(store.broken["http://h/out.js"]))

    def test_a_script_without_a_map_costs_two_questions_at_most(self):
        find = smap.Folders({"http://h/": self.dist, "http://h/m/": self.dist})
        with mock.patch("os.path.realpath") as realpath, mock.patch("os.stat", wraps=os.stat) as asked:
            for name, times in [("x/a.js", 0), ("h/..", 0), ("h/no", 1), ("h/no.js", 2), ("h/no.css", 2)]:
                script = "http://" + name
                asked.reset_mock()
                self.assertIsNone(find(script))
                self.assertEqual(asked.call_count, times, script)
            realpath.assert_not_called()

    def test_many_names_are_found_at_about_the_cost_of_one(self):
        for number in range(199):
            self.put("dist/" + "x" * number + ".js")
        single = {f"http://h/{'y' * number}.js": self.dist / "out.js.map" for number in range(199)}
        for places in ({"http://h/": self.dist}, single):
            find = smap.Folders(places)
            start = time.thread_time()
            self.assertEqual(list(find.named_in(b"http://h/" * 110_000)), [])
            self.assertLess(time.thread_time() - start, 2)

    def test_names_that_a_text_begins_with_are_all_found(self):
        dice = random.Random(1)
        for _ in range(3_000):
            names = {bytes(dice.choices(b"ab/", k=dice.randrange(1, 6))) for _ in range(dice.randrange(9))}
            text, found = bytes(dice.choices(b"ab/", k=dice.randrange(8))), {}
            Beginnings(names).of(text, found)
            self.assertEqual(set(found), {name for name in names if text.startswith(name)}, (names, text))

    def test_scripts_of_any_form_are_found_in_a_text(self):
        scripts = ["http://h/a.js", "http://h/a.js.b", "u", "C:\\x\\y.js", "/,/,/z", "http://h/\ud800"]
        find = smap.Folders({script: self.dist / "out.js.map" for script in scripts})
        found = set(find.named_in(b"x http://h/a.js.b:1:1 C:\\x\\y.js /,/,/,/z http://h/"))
        self.assertEqual(found, {"http://h/a.js", "http://h/a.js.b", "C:\\x\\y.js", "/,/,/z"})

    def test_positions_anywhere_are_those_of_scripts_with_a_map(self):
        self.put("dist/out.js/deep.js")
        self.put("one")
        store = smap.Store({"http://h/m/": self.dist, "http://x/one": self.temp / "one.map"})
        log = '9:00 "http://h/m/out.js:1:1", http://h/m/out.js/deep.js:1:5 {\nx http://h/m/none.js:1:1\n'
        told = '9:00 "http://h/m/a.js:11:3", http://h/m/out.js/a.js:13:3 {\nx http://h/m/none.js:1:1\n'
        self.assertEqual(store.translate(log), log)
        self.assertEqual(store.translate(log, anywhere=True), told)
        self.assertEqual(store.opened, {"http://h/m/out.js": 1, "http://h/m/out.js/deep.js": 1})
        self.assertEqual(store.translate(b"http://x/one:1:1,", anywhere=True), b"http://x/a.js:11:3,")

    def test_folders_are_listed_again_when_all_is_forgotten(self):
        store = smap.Store({"http://h/": self.dist})
        line, told = "x http://h/new.js:1:1 y", "x http://h/a.js:11:3 y"
        self.assertEqual(store.translate(line, anywhere=True), line)
        self.put("dist/new.js")
        self.assertEqual(store.translate(line, anywhere=True), line)
        store.forget()
        self.assertEqual(store.translate(line, anywhere=True), told)

    def test_a_query_may_follow_anywhere(self):
        store = smap.Store({"http://h/": self.dist})
        line = "x http://h/out.js?v=3#z:1:1 y"
        self.assertEqual(store.translate(line, anywhere=True), line)
        self.assertEqual(store.translate(line, anywhere=True, ignore_query=True), "x http://h/a.js:11:3 y")

    def test_a_name_that_is_no_utf_8_is_one_as_a_url(self):
        (self.dist / "\udcff.js.map").write_bytes(MAP)
        self.assertEqual(self.found("http://h/", "http://h/%FF.js"), "http://h/%FF.js.map")
        self.assertIsNone(self.found("http://h/", "http://h/%ff.js"))
        # a path has no URL then
        with self.assertRaisesRegex(smap.Error, "not UTF-8") as raised:
            self.found("/s/", "/s/\udcff.js")
        self.assertEqual(raised.exception.code, 10)
        store = smap.Store({"/s/": self.dist})
        self.assertEqual(store.translate(b"@/s/\xff.js:1:1"), b"@/s/\xff.js:1:1")
        self.assertEqual(store.counts, smap.StoreCounts(lines=1, missing=1))

    def test_names_may_hold_tabs(self):
        self.put("dist/a.js\tb.js", MAP.replace(b"a.js", b"other.js"))
        self.put("dist/a.js")
        log = "    at f (/s/a.js\tb.js:1:1)\n    at f (/s/a.js:1:1)\n"
        told = "    at f (file:///s/other.js:11:3)\n    at f (file:///s/a.js:11:3)\n"
        self.assertEqual(smap.Store({"/s/": self.dist}).translate(log), told)
        self.assertEqual(self.found("http://h/", "http://h/a.js%09b.js"), "http://h/a.js%09b.js.map")


if __name__ == "__main__":
    unittest.main()

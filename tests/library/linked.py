"""Tests of the Python module: maps that scripts name, and names that mean a script whose own is another."""

import base64
import errno
import itertools
import os
import pickle
import random
import sys
import time
import unittest
from collections import Counter
from pathlib import Path
from unittest import mock
from urllib.parse import quote

from files_case import MAP, FilesCase, status

sys.path.insert(0, str(Path(__file__).resolve().parents[2] / "capi" / "python"))
import smap  # noqa: E402
from smap._declarations import NAMED_NOTHING, NAMED_UNSAID  # noqa: E402
from smap.files import from_end  # noqa: E402
from smap.scripts import Folder  # noqa: E402

INLINE = b"data:application/json;base64," + base64.b64encode(MAP)
# How many times as long a test may take, as where an emulator runs it.
TIMES_AS_LONG = int(os.environ.get("SMAP_TIMES_AS_LONG", "1"))


class NamedTest(FilesCase):
    """Maps that scripts name in their last comments."""

    def script(self, name, url, text=b"f()\n//# sourceMappingURL=%s"):
        return self.write("dist/" + name, text % url)

    def raised(self, script, places=None):
        with self.assertRaises((smap.Error, OSError)) as raised:
            smap.Folders(places or {"http://h/m/": self.dist})(script)
        return raised.exception

    def test_a_script_may_name_a_map_below_its_folder(self):
        self.put("dist/maps/o t")
        self.put("dist/in/in")
        self.put("dist/\u00e4[1]@2")
        rows = [
            ("one.js", b"maps/o%20t.map?x#y", "maps/o%20t.map?x#y"),
            ("in/two.js", b"../maps/o%20t.map", "maps/o%20t.map"),
            ("in/three.mjs", b"in.map", "in/in.map"),
            ("four.cjs", b"./in/../in/./in.map", "in/in.map"),
            ("five.js", "\u00e4[1]@2.map".encode(), "%C3%A4[1]@2.map"),
            ("six.js", b"%c3%a4%5B1%5d%402.map", "%c3%a4%5B1%5d%402.map"),
        ]
        for name, url, base in rows:
            self.script(name, url)
            found = smap.Folders({"http://h/m/": self.dist})("http://h/m/" + name)
            self.assertEqual(found, (MAP, "http://h/m/" + base))
        self.assertEqual(self.found("/s/", "/s/one.js"), "file:///s/maps/o%20t.map?x#y")
        self.assertEqual(self.found("C:\\s\\", "C:\\s\\in\\two.js"), "file:///C:/s/maps/o%20t.map")

    def test_the_map_that_the_script_names_comes_before_the_one_beside_it(self):
        self.script("out.js", b"maps/other.map")
        self.put("dist/maps/other", b"other")
        find = smap.Folders({"http://h/": self.dist})
        self.assertEqual(find("http://h/out.js"), (b"other", "http://h/maps/other.map"))
        # what can't be had leaves that one
        for url in b"none.map", b"../secret.map", b"data:x":
            self.script("out.js", url)
            self.assertEqual(find("http://h/out.js"), (MAP, "http://h/out.js.map"))

    def test_the_last_comment_counts(self):
        self.put("dist/a", b"a")
        rows = [
            (b"//# sourceMappingURL=%s\n\n \r\n\t\n", b"a"),
            (b"//@ sourceMappingURL=%s", b"a"),
            (b"f() //# sourceMappingURL=%s\n// end", b"a"),
            (b"/*# sourceMappingURL=%s */", b"a"),
            (b"//# sourceMappingURL=b.map\n//# sourceMappingURL=%s\n", b"a"),
            (b"//# sourceMappingURL=%s\n//# sourceMappingURL=b.map\n", None),
            (b"//# sourceMappingURL=%s\nf()", None),
            (b"f() // sourceMappingURL=%s", None),
        ]
        for text, data in rows:
            self.script("x.js", b"a.map", text)
            found = smap.Folders({"http://h/": self.dist})("http://h/x.js")
            self.assertEqual(found and found.data, data, text)

    def test_a_style_sheet_may_name_a_map(self):
        self.put("dist/a", b"a")
        self.script("x.css", b"a.map", b"a{}\n/*# sourceMappingURL=%s */\n")
        self.script("y.css", b"a.map")
        self.assertEqual(self.found("http://h/", "http://h/x.css"), "http://h/a.map")
        self.assertIsNone(self.found("http://h/", "http://h/y.css"))

    def test_what_is_no_script_names_nothing(self):
        self.put("dist/a", b"a")
        for name in ("x", "x.txt", "x.JS", "x.js.bak", "js"):
            self.script(name, b"a.map")
            self.assertIsNone(self.found("http://h/", "http://h/" + name), name)

    def test_a_script_may_hold_its_map(self):
        rows = [
            INLINE,
            b"data:application/json;charset=utf-8;base64," + base64.b64encode(MAP),
            b"data:;BASE64," + base64.b64encode(MAP).rstrip(b"="),
            b"data:application/json," + quote(MAP).encode(),
            b"data:," + MAP,
        ]
        texts = [b"f()\n//# sourceMappingURL=%s", b"//@ sourceMappingURL=%s\n\n"]
        texts += [b"/*# sourceMappingURL=%s */ // end"]
        for url, text in itertools.product(rows, texts):
            self.script("x.js", url, text)
            find = smap.Folders({"http://h/": self.dist, "/s/": self.dist})
            self.assertEqual(find("http://h/x.js"), (MAP, "http://h/x.js"))
            self.assertEqual(find("/s/x.js"), (MAP, "file:///s/x.js"))
        self.script("b/y z.js", INLINE)
        store = smap.Store({"http://h/": self.dist})
        self.assertEqual(store.translate("@http://h/b/y%20z.js:1:5"), "@http://h/b/a.js:13:3")

    def test_a_map_within_a_script_has_the_bounds_of_maps(self):
        self.script("x.js", INLINE)
        for url, code in [(b"data:;base64,e-_0", 9), (b"data:;base64,e", 9), (b"data:x", 2)]:
            self.script("y.js", url)
            fault = self.raised("http://h/m/y.js")
            self.assertEqual((type(fault), fault.code), (smap.Error, code))
            self.assertIn(f"the map that {self.dist / 'y.js'} names: ", str(fault))
        for most, large in [(len(MAP), False), (len(MAP) - 1, True)]:
            store = smap.Store({"http://h/": self.dist}, map_bytes=most)
            store.lookup("http://h/x.js", 0, 0)
            self.assertEqual(list(store.broken), ["http://h/x.js"] * large)
            for fault in store.broken.values():
                self.assertEqual((fault.errno, fault.filename), (errno.EFBIG, str(self.dist / "x.js")))

    def test_nothing_outside_the_folder_is_read(self):
        self.put("secret", b"secret")
        self.put("dist/b/in", b"in")
        (self.dist / "link.map").symlink_to(self.temp / "secret.map")
        (self.dist / "zero.map").symlink_to("/dev/zero")
        (self.dist / "away").symlink_to(self.temp)
        whole = quote(str(self.temp / "secret.map"), "").encode()
        rows = [
            b"../secret.map", b"..%2fsecret.map", b"%2e%2e/secret.map", b"b/../../secret.map",
            b"..\\secret.map", b"%2e%2e%2fsecret.map", whole, str(self.temp / "secret.map").encode(),
            b"link.map", b"zero.map",
            b"away/secret.map", b"http://k/m/b/in.map", b"//k/m/b/in.map", b"/b/in.map", b"file:///b/in.map",
            b"file://" + str(self.dist / "b/in.map").encode(), b"b//in.map", b"b/in.map%00", b"C:/b/in.map",
        ]
        for url in rows:
            self.script("x.js", url)
            fault = self.raised("http://h/m/x.js")
            self.assertIsInstance(fault, smap.OutsideFolder, url)
            self.assertEqual((fault.file, fault.url), (str(self.dist / "x.js"), url.decode()))
            self.assertIn(f"{fault.file} names a map that is no file of its folder: {fault.url}", str(fault))
        again = pickle.loads(pickle.dumps(fault))
        self.assertEqual((type(again), again.file, again.url), (smap.OutsideFolder, fault.file, fault.url))
        # a whole URL may be that of a file in it
        for url in (b"http://h/m/b/in.map", b"//h/m/b/in.map", b"/m/b/in.map", b"HTTP://H:80/m/b/in.map"):
            self.script("x.js", url)
            self.assertEqual(self.found("http://h/m/", "http://h/m/x.js"), "http://h/m/b/in.map", url)
        # also where the file of the script is given, whose folder is its own
        self.script("b/y.js", b"../out.js.map")
        places = {"http://h/m/y.js": self.dist / "b" / "y.js"}
        self.assertIsInstance(self.raised("http://h/m/y.js", places), smap.OutsideFolder)

    def test_no_spelling_leads_outside(self):
        self.put("secret", b"secret")
        (self.dist / "away").symlink_to(self.temp)
        (self.dist / "away.map").symlink_to(self.temp / "secret.map")
        dice, seen = random.Random(1), Counter()
        pieces = ["..", "..", ".", "%2e", "%2E%2e", "/", "/", "/", "\\", "%2f", "%5c", "away", "secret.map"]
        pieces += ["dist", "out.js.map", "x.js", "%00", "?", "#", "file:", "//", "C:", "C|", "away.map"]
        pieces += ["out.js.map", str(self.temp)]
        for _ in range(3_000):
            url = "".join(dice.choices(pieces, k=dice.randrange(1, 7))).encode()
            text = self.script("x.js", url).read_bytes()
            try:
                found = smap.Folders({"http://h/m/": self.dist})("http://h/m/x.js")
            except (smap.Error, OSError) as fault:
                seen[type(fault)] += 1
                continue
            seen[found and found.data] += 1
            self.assertIn(found and found.data, (None, MAP, text), url)
        for kind in (smap.OutsideFolder, MAP, None):
            self.assertGreater(seen[kind], 20, kind)

    def test_a_link_that_leads_outside_is_told_of(self):
        self.put("secret")
        self.script("x.js", b"../secret.map")
        store, line = smap.Store({"http://h/m/": self.dist}), "@http://h/m/x.js:1:1"
        self.assertEqual(store.translate(line), line)
        self.assertIsInstance(store.broken["http://h/m/x.js"], smap.OutsideFolder)
        self.assertEqual(store.counts, smap.StoreCounts(lines=1, broken=1))

    def test_a_named_map_may_be_no_url_or_no_file(self):
        os.mkfifo(self.dist / "pipe.map")
        (self.dist / "dir.map").mkdir()
        rows = [
            (b"http://[", smap.Error, "not a URL"), (b"\xff.map", smap.Error, "not UTF-8"),
            (b"%ff.map", smap.Error, "not UTF-8"), (b"pipe.map", OSError, "no regular file"),
            (b"dir.map", OSError, "Is a directory"),
        ]
        for url, kind, words in rows:
            self.script("x.js", url)
            fault = self.raised("http://h/m/x.js")
            self.assertIsInstance(fault, kind, url)
            self.assertIn(words, str(fault))
        for url in (b"none.map", b"none/none.map", b"out.js.map/none.map", b"x" * 300, b"x" * 65_536):
            self.script("x.js", url)
            self.assertIsNone(self.found("http://h/m/", "http://h/m/x.js"), url)

    def test_a_script_that_is_no_file_is_not_waited_for(self):
        os.mkfifo(self.dist / "pipe.js")
        self.assertIsNone(self.found("http://h/", "http://h/pipe.js"))
        self.assertIn("no regular file", str(self.raised("u", {"u": self.dist / "pipe.js"})))

    def test_a_long_url_is_that_of_no_file_and_an_error_shows_its_beginning(self):
        for url in (b"../" + b"x" * 500, b"./" * 32_768 + b"a.map", b"x" * 10_000_000):
            self.script("x.js", url)
            start, fault = time.process_time(), self.raised("http://h/m/x.js")
            self.assertIsInstance(fault, smap.OutsideFolder)
            self.assertEqual(fault.url, url[:200].decode() + "...")
            self.assertLess(time.process_time() - start, 2 * TIMES_AS_LONG)

    def test_the_file_of_a_script_may_be_given(self):
        self.put("dist/a", b"a")
        file = self.script("x.js", b"a.map")
        find = smap.Folders({"http://k/y.js?v=3": file, "/s/y.js": str(file), "u": file})
        self.assertEqual(find("http://k/y.js?v=3"), (b"a", "http://k/a.map"))
        self.assertEqual(find("/s/y.js"), (b"a", "file:///s/a.map"))
        with self.assertRaisesRegex(smap.Error, "not a URL"):
            find("u")
        file.write_bytes(MAP)
        self.assertEqual(find("/s/y.js"), (MAP, "file:///s/y.js.map"))
        self.script("x.js", b"none.map")
        with self.assertRaisesRegex(FileNotFoundError, "the map that it names is missing: .*x.js"):
            find("/s/y.js")
        here = os.getcwd()
        try:
            os.chdir(self.dist)
            self.script("x.js", b"a.map")
            self.assertEqual(smap.Folders({"/s/y.js": "x.js"})("/s/y.js").data, b"a")
        finally:
            os.chdir(here)

    def test_two_scripts_that_name_maps_are_told_of(self):
        self.put("dist/a")
        one, other = self.script("x.js", b"a.map"), self.write("other/m/x.js", b"f()")
        places = {"http://h/m/": self.dist, "http://h/": self.temp / "other"}
        self.assertEqual(smap.Folders(places)("http://h/m/x.js").base, "http://h/m/a.map")
        # one that names a map that isn't there has none
        other.write_bytes(b"//# sourceMappingURL=a.map")
        self.assertEqual(smap.Folders(places)("http://h/m/x.js").base, "http://h/m/a.map")
        beside = self.put("other/m/x.js")
        for files in ([one, beside], [one, other]):
            fault = self.raised("http://h/m/x.js", places)
            self.assertIsInstance(fault, smap.Repeated)
            self.assertEqual(fault.files, [str(file) for file in files])
            self.put("other/m/a")

    def test_positions_anywhere_are_those_of_scripts_that_name_maps_too(self):
        self.script("b/x.js", INLINE)
        self.script("plain.js", b"", b"f()%s")
        store = smap.Store({"http://h/": self.dist})
        log = "9:00 http://h/b/x.js:1:1, http://h/plain.js:1:1 http://h/out.js:1:1 http://h/b/x.js.map:1:1"
        told = "9:00 http://h/b/a.js:11:3, http://h/plain.js:1:1 http://h/a.js:11:3 http://h/b/x.js.map:1:1"
        self.assertEqual(store.translate(log, anywhere=True), told)


class LinkTest(FilesCase):
    """How a script is read from its end."""

    def test_a_script_is_read_from_its_end(self):
        file = self.write("x.js", b"")
        os.truncate(file, 20 << 30)
        with open(file, "ab") as out:
            out.write(b"\n//# sourceMappingURL=a.map")
        start = time.process_time()
        self.assertEqual(from_end(str(file), smap.script_link), b"a.map")
        self.assertLess(time.process_time() - start, TIMES_AS_LONG)

    def test_a_line_without_an_end_is_not_read_for_ever(self):
        file = self.write("dist/x.js", b"")
        os.truncate(file, 20 << 30)
        store = smap.Store({"http://h/": self.dist}, map_bytes=3_000_000)
        store.lookup("http://h/x.js", 0, 0)
        fault = store.broken["http://h/x.js"]
        self.assertEqual((fault.errno, fault.filename), (errno.EFBIG, str(file)))
        self.assertIn("the last 4065536 bytes don't say which map it has", str(fault))

    def test_the_bound_leaves_room_for_a_map(self):
        data = MAP[:-1] + b',"x":"%s"}' % (b"x" * 300_000)
        url = b"data:application/json;base64," + base64.b64encode(data)
        self.write("dist/x.js", b"f()" * 100_000 + b"\n//# sourceMappingURL=" + url)
        store = smap.Store({"http://h/": self.dist}, map_bytes=len(data))
        self.assertEqual(store.translate("@http://h/x.js:1:1"), "@http://h/a.js:11:3")

    def test_parts_of_a_script_say_what_the_whole_does(self):
        dice, find = random.Random(1), smap.Folders({})
        pieces = [b"//", b"/*", b"*/", b"#", b"@", b" ", b"sourceMappingURL=", b"a", b"b.map", b"\n", b"\r"]
        pieces += ["\u2028".encode(), "\u00a0".encode(), b"f()", b"//# sourceMappingURL=", b"\n\n\n", b"/"]
        pieces += [b"/*@sourceMappingURL=", b"//# sourceMappingURL=c\n", b"\n// d\n"]
        seen = set()
        for _ in range(1_500):
            text = b"".join(dice.choices(pieces, k=dice.randrange(16)))
            for name, css in (("x.js", False), ("x.css", True)):
                file = self.write(name, text)
                with mock.patch("smap.files.FIRST_LOOK", dice.randrange(1, 12)):
                    it = find._read_script(Folder("http://h/", str(self.temp), None), name, str(file))
                url = smap.script_link(text, css)
                found = None if it.kind in (NAMED_UNSAID, NAMED_NOTHING) else it.url
                self.assertEqual(found, url, text)
                seen.add(url)
        self.assertGreater(len(seen), 10)

    def test_a_script_that_changes_while_it_is_read_is_read_again(self):
        file = self.write("x.js", b"//# sourceMappingURL=a.map")
        times = iter([1, 2, 2, 2])
        with mock.patch("os.fstat", lambda _: status(26, next(times))):
            self.assertEqual(from_end(str(file), smap.script_link), b"a.map")
        self.assertEqual(list(times), [])
        times = itertools.count()
        with mock.patch("os.fstat", lambda _: status(26, next(times))):
            with self.assertRaisesRegex(OSError, "it changes while it is read: .*x.js"):
                from_end(str(file), smap.script_link)
        # one that was cut off meanwhile
        with mock.patch("os.fstat", lambda _: status(27, 1)):
            with self.assertRaisesRegex(OSError, "it changes while it is read: .*x.js"):
                from_end(str(file), smap.script_link)


class AlikeTest(FilesCase):
    """Names that mean a script whose own name is another."""

    def told(self, places, script, **how):
        store = smap.Store(places)
        return store.translate(f"@{script}:1:1", **how)

    def test_a_name_may_differ_as_names_of_one_script_do(self):
        self.put("dist/lazy/a b.js")
        self.put("dist/lazy/ab.js")
        rows = [
            ("http://h/m/", "HTTP://H:80/m/lazy/a%20b.js", "http://h/m/lazy/a.js"),
            ("http://h/m/", "http://h/m/x/../lazy/./a%20b.js", "http://h/m/lazy/a.js"),
            ("HTTPS://H:443/m/", "https://h/m/lazy/a%20b.js", "https://h/m/lazy/a.js"),
            ("/s/", "file:///s/lazy/a%20b.js", "file:///s/lazy/a.js"),
            ("file:///s/", "/s/lazy/ab.js", "file:///s/lazy/a.js"),
            ("file:///s/", "file:///s/lazy/%61%20b.js", "file:///s/lazy/a.js"),
            ("C:\\s\\", "c:/s/lazy/ab.js", "file:///C:/s/lazy/a.js"),
            ("C:\\s\\", "C:\\s\\lazy/ab.js", "file:///C:/s/lazy/a.js"),
            ("c:/s/", "file:///C:/s/lazy/a%20b.js", "file:///c:/s/lazy/a.js"),
        ]
        for key, script, source in rows:
            line, told = f"    at f ({script}:1:1)", f"    at f ({source}:11:3)"
            self.assertEqual(smap.Store({key: self.dist}).translate(line), told, script)
            name = "lazy/ab.js" if script.endswith("ab.js") else "lazy/a b.js"
            only = {smap.script_url(key, name): self.dist / (name + ".map")}
            self.assertEqual(smap.Store(only).translate(line), told, script)
        for key, script in [
            ("http://h/m/", "https://h/m/out.js"), ("http://h/m/", "http://h/M/out.js"),
            ("http://h/m/", "http://h:8080/m/out.js"), ("http://h/m/", "http://k/m/out.js"),
            ("/s/", "/S/out.js"), ("/s/", "file://k/s/out.js"), ("s/", "/s/out.js"),
            ("/s/", "file:///s/..%2fs/out.js"),
        ]:
            self.assertEqual(self.told({key: self.dist}, script), f"@{script}:1:1")

    def test_names_that_differ_in_the_query_are_one_script_unless_both_were_given(self):
        places = {"http://h/": self.dist}
        for end in ("?v=3", "?v=3#x", "?", "?#"):
            for name in ("http://h/out.js", "HTTP://H:80/out.js"):
                for ignored in (False, True):
                    self.assertEqual(self.told(places, name + end, ignore_query=ignored), "@http://h/a.js:11:3")
        one = {"http://h/out.js?v=2": self.dist / "out.js.map"}
        for name in ("http://h/out.js?v=2", "http://h/out.js", "http://h/out.js?v=3", "HTTP://h/out.js?v=3"):
            self.assertEqual(self.told(one, name), "@http://h/a.js:11:3")
        self.put("two/out.js", MAP.replace(b"a.js", b"two.js"))
        both = {**one, "http://H/out.js?v=4": self.temp / "two" / "out.js.map"}
        self.assertEqual(self.told(both, "http://h/out.js?v=4"), "@http://h/two.js:11:3")
        for name in ("http://h/out.js", "http://h/out.js?v=3"):
            self.assertEqual(self.told(both, name), f"@{name}:1:1")
        # a fragment makes no other script
        for end in ("#x", "#x?v=3", "#"):
            for name in ("http://h/out.js", "HTTP://H:80/out.js"):
                self.assertEqual(self.told(places, name + end), "@http://h/a.js:11:3")
                one = {name + end: self.dist / "out.js.map"}
                self.assertEqual(self.told(one, name), "@http://h/a.js:11:3")
            self.assertEqual(self.told({"http://h/#/": self.dist}, "http://h/out.js"), "@http://h/out.js:1:1")
        # against such a base no source is a URL
        self.assertEqual(self.told({"app:u": self.dist / "out.js.map"}, "app:u?v=3"), "@app:u?v=3:1:1")
        # of a path it is a part
        self.put("dist/q?x.js")
        self.assertEqual(self.told({"/s/": self.dist}, "file:///s/q%3Fx.js"), "@file:///s/a.js:11:3")
        self.assertEqual(self.told({"file:///s/": self.dist}, "/s/q?x.js"), "@file:///s/a.js:11:3")

    def test_the_very_name_comes_first_and_then_the_first_that_is_alike(self):
        for name in ("very", "first", "second", "bare"):
            self.put(name + "/out.js", MAP.replace(b"a.js", name.encode()))
        keys = {"HTTP://H/": "first", "http://H/": "second", "http://h/": "very"}
        places = {key: self.temp / name for key, name in keys.items()}
        told = {name: f"@http://h/{name}:11:3" for name in keys.values()}
        self.assertEqual(self.told(places, "http://h/out.js"), told["very"])
        self.assertEqual(self.told(places, "http://H/out.js"), told["second"])
        self.assertEqual(self.told(places, "http://h:80/out.js"), told["first"])
        (self.temp / "very" / "out.js.map").unlink()
        self.assertEqual(self.told(places, "http://h/out.js"), told["first"])
        # a script of its own comes before those in folders
        places = {"http://H/": self.temp / "second", "HTTP://h/out.js": self.temp / "bare" / "out.js.map"}
        self.assertEqual(self.told(places, "http://h/out.js"), "@http://h/bare:11:3")
        # and what is alike before what lacks the query
        self.put("query/q?x.js", MAP.replace(b"a.js", b"query"))
        places = {"file:///s/": self.temp / "query", "/s/q": self.temp / "bare" / "out.js.map"}
        self.assertEqual(self.told(places, "/s/q?x.js", ignore_query=True), "@file:///s/query:11:3")
        self.assertEqual(self.told(places, "/s/q?y.js", ignore_query=True), "@file:///s/bare:11:3")

    def test_a_name_may_mean_a_script_that_names_its_map(self):
        self.write("dist/in.js", b"//# sourceMappingURL=" + INLINE)
        self.write("dist/bad.js", b"//# sourceMappingURL=../x.map")
        self.write("dist/plain.js", b"f()")
        store = smap.Store({"/s/": self.dist})
        self.assertEqual(store.translate("@file:///s/in.js:1:5"), "@file:///s/a.js:13:3")
        self.assertIsNone(store.lookup("file:///s/bad.js", 0, 0))
        self.assertIsNone(store.lookup("file:///s/plain.js", 0, 0))
        self.assertEqual((store.opened, list(store.broken)), ({"/s/in.js": 1}, ["/s/bad.js"]))
        self.assertEqual(store.missing, {"file:///s/plain.js": 1})

    def test_names_below_a_folder_stay_below_it(self):
        self.put("secret.js")
        (self.dist / "away").symlink_to(self.temp)
        for key, script in [
            ("/s/", "file:///s/..%2Fsecret.js"), ("/s/", "file:///s/%2e%2e/secret.js"),
            ("/s/", "/s/../secret.js"), ("/s/", "file:///s/away/secret.js"),
            ("http://h/s/", "HTTP://h/s/../secret.js"),
            ("/s/", "file:///s/a%00"), ("/s/", "file:///s//out.js"),
        ]:
            self.assertEqual(self.told({key: self.dist}, script), f"@{script}:1:1")

    def test_no_name_leads_outside(self):
        self.put("secret.js", MAP.replace(b"a.js", b"secret"))
        (self.dist / "away").symlink_to(self.temp)
        dice, seen = random.Random(1), Counter()
        begins = ["http://h/m/", "HTTP://H:80/m/", "/s/", "file:///s/", "c:\\s\\", "file:///C:/s/", "C:/s/"]
        places = {key: self.dist for key in ("http://h/m/", "/s/", "C:\\s\\")}
        pieces = ["..", "..", ".", "%2e", "%2E%2e", "/", "/", "\\", "%2f", "%5c", "away", "secret.js", "dist"]
        pieces += ["out.js"] * 3
        for _ in range(3_000):
            name = dice.choice(begins) + "".join(dice.choices(pieces, k=dice.randrange(1, 6)))
            found = smap.Store(places).lookup(name, 0, 0)
            seen[found and found.url] += 1
        self.assertEqual(set(seen), {None, "http://h/m/a.js", "file:///s/a.js", "file:///C:/s/a.js"})
        self.assertGreater(min(seen.values()), 10)

    def test_a_finder_says_what_a_name_means(self):
        find = smap.Folders({"http://h/": self.dist, "u": self.dist / "out.js.map"})
        for name, script in [
            ("HTTP://h/out.js", "http://h/out.js"), ("http://h/out.js", "http://h/out.js"), ("u", "u"),
            ("HTTP://h/none.js", None), ("HTTP://h/out.js?x", "http://h/out.js"), ("U", None), ("", None),
            ("http://h/out.js#x", "http://h/out.js"), ("http://h/out.js?x#y", "http://h/out.js"),
        ]:
            self.assertEqual(find.meant_by(name), script)
            self.assertEqual(pickle.loads(pickle.dumps(find)).meant_by(name), script)
        with self.assertRaisesRegex(smap.Error, "not UTF-8"):
            find.meant_by("\ud800")

    def test_a_file_whose_name_is_no_utf_8_has_no_url_by_its_path(self):
        (self.dist / "\udcff.js.map").write_bytes(MAP)
        store = smap.Store({"/s/": self.dist})
        self.assertEqual(store.translate("@file:///s/%FF.js:1:1"), "@file:///s/%FF.js:1:1")
        self.assertEqual({name: fault.code for name, fault in store.broken.items()}, {"/s/\udcff.js": 10})
        self.assertEqual(store.counts, smap.StoreCounts(lines=1, broken=1))


if __name__ == "__main__":
    unittest.main()

"""Tests of the store of the Python module: its cache, its logs, its lookups."""

import errno
import io
import itertools
import os
import pickle
import resource
import sys
import tempfile
import threading
import time
import tracemalloc
import unittest
from pathlib import Path
from unittest import mock

sys.path.insert(0, str(Path(__file__).resolve().parents[2] / "capi" / "python"))
import smap  # noqa: E402

# In a log, 1:1 to 1:4 come from a.js:11:3, and 1:5 from a.js:13:3.
MAP = b'{"version":3,"sources":["a.js"],"mappings":"AAUE,IAEA"}'
IGNORED = b'{"version":3,"sources":["b.js"],"ignoreList":[0],"mappings":"AAUE"}'
BROKEN = b'{"version":3,"sources":["a.js"],"mappings":"AAUE,,IAEA"}'
U, V, W = "http://h/u.js", "http://h/v.js", "http://h/w.js"


class Finder:
    """Finds the maps of a dictionary, and notes for what it was asked."""

    def __init__(self, maps):
        self.maps, self.asked = maps, []

    def __call__(self, script):
        self.asked.append(script)
        found = self.maps.get(script)
        if isinstance(found, Exception):
            raise found
        return found


def some(*scripts):
    return Finder({script: MAP for script in scripts})


def frames(*scripts):
    return "".join(f"@{script}:1:1\n" for script in scripts)


def size_of(script, data=MAP):
    """The room that a map takes in a cache."""
    with smap.Store(Finder({script: data})) as store:
        store.lookup(script, 0, 0)
        return store.kept_bytes


SIZE = size_of(U)

# URLs of sources of 2 KB, and short mappings: 15 KB that take 4.5 MB, and 1 MB that takes 16.
ROOTED = b'{"version":3,"sourceRoot":"%s","mappings":"","sources":[%s]}' % (
    b"r" * 2_000, b",".join(b'"%d"' % number for number in range(2_000))
)
MAPPED = b'{"version":3,"sources":["a.js"],"mappings":"%sAAUE"}' % (b"A," * 500_000)


def resident():
    """The most memory that this process took, in bytes."""
    return resource.getrusage(resource.RUSAGE_SELF).ru_maxrss * 1024


class CacheTest(unittest.TestCase):
    def test_only_named_maps_are_opened_and_once(self):
        finder = some(U, V, W)
        with smap.Store(finder) as store:
            told = store.translate(f"Error: x\n    at f ({U}:1:2)\n@{V}:1:5\r\n")
            self.assertEqual(told, "Error: x\n    at f (http://h/a.js:11:3)\n@http://h/a.js:13:3\r\n")
            self.assertEqual(store.translate(b"@http://h/u.js:1:1"), b"@http://h/a.js:11:3")
            self.assertEqual((store.opened, finder.asked), ({U: 1, V: 1}, [U, V]))
            self.assertEqual(store.kept_bytes, 2 * SIZE)
            self.assertEqual(store.counts, smap.StoreCounts(lines=4, translated=3))
        self.assertEqual(store.kept_bytes, 0)

    def test_what_is_missing_or_broken_stays_and_is_counted(self):
        log = f"@n:1:1\n@{U}:1:1\n@{U}:1:2\nError\n@m:1:1\n@{V}:1:1\n@{W}:1:1\n".encode() + b"@\xff:1:1\n"
        finder = Finder({U: BROKEN, V: OSError("no database"), W: smap.Found(MAP, "no URL")})
        store = smap.Store(finder)
        self.assertEqual(store.translate(log), log)
        self.assertEqual(store.counts, smap.StoreCounts(lines=8, missing=3, broken=4))
        self.assertEqual(store.missing, {"n": 1, "m": 1, "\ufffd": 1})
        self.assertEqual(list(store.broken), [U, V, W])
        self.assertEqual(str(store.broken[U]), "line 0 segment 1: empty segment")
        self.assertEqual((str(store.broken[V]), store.broken[W].code), ("no database", 2))
        self.assertEqual([fault.__traceback__ for fault in store.broken.values()], [None] * 3)
        self.assertEqual((store.opened, store.kept_bytes), ({}, 0))

    def test_a_broken_map_waits_for_forget_and_a_missing_one_for_the_next_call(self):
        finder = Finder({U: BROKEN})
        store = smap.Store(finder)
        self.assertEqual(store.translate(frames(U, V)), frames(U, V))
        finder.maps = {U: MAP, V: MAP}
        self.assertEqual(store.translate(frames(U, V)), frames(U) + "@http://h/a.js:11:3\n")
        self.assertEqual(finder.asked, [U, V, V])
        store.forget(U)
        self.assertEqual((store.broken, store.translate(frames(U))), ({}, "@http://h/a.js:11:3\n"))

    def test_a_map_that_changes_stays_as_it_was_opened_until_it_is_forgotten(self):
        finder = some(U)
        store = smap.Store(finder)
        store.translate(frames(U))
        finder.maps = {U: MAP.replace(b"a.js", b"new.js")}
        self.assertEqual(store.translate(frames(U)), "@http://h/a.js:11:3\n")
        store.forget(U)
        self.assertEqual(store.translate(frames(U)), "@http://h/new.js:11:3\n")
        finder.maps = {}
        store.forget()
        self.assertEqual((store.translate(frames(U)), store.opened), (frames(U), {U: 2}))

    def test_the_least_recently_used_map_makes_room(self):
        store = smap.Store(some(U, V, W), cache_bytes=2 * SIZE)
        for script in (U, V, U, W, U, V):
            self.assertEqual(store.translate(frames(script)), "@http://h/a.js:11:3\n")
            self.assertLessEqual(store.kept_bytes, 2 * SIZE)
        # V made room for W
        self.assertEqual(store.opened, {U: 1, V: 2, W: 1})
        for script in (V, W):
            self.assertEqual(store.lookup(script, 0, 4).source_line, 12)
        self.assertEqual(store.opened, {U: 1, V: 2, W: 2})

    def test_a_cache_may_be_smaller_than_a_map(self):
        for room in (0, SIZE - 1):
            store = smap.Store(some(U, V), cache_bytes=room)
            told = store.translate(frames(U, V, "n", U))
            self.assertEqual(told, "@http://h/a.js:11:3\n" * 2 + "@n:1:1\n" + "@http://h/a.js:11:3\n")
            self.assertEqual(store.kept_bytes, 0)
            self.assertEqual(store.counts, smap.StoreCounts(lines=4, translated=3, missing=1))
            self.assertEqual(store.lookup(U, 0, 0).url, "http://h/a.js")

    def test_a_log_may_name_more_maps_than_have_room(self):
        scripts = [f"http://h/{number}.js" for number in range(40)]
        finder = Finder({s: MAP.replace(b"a.js", s[9:].encode()) for s in scripts})
        store = smap.Store(finder, cache_bytes=3 * (SIZE + 1))
        log = [*scripts, *scripts[::-1]] * 5
        told = "".join(f"@{script}:11:3\n" for script in log)
        self.assertEqual(store.translate(frames(*log)), told)
        self.assertLessEqual(store.kept_bytes, 3 * (SIZE + 1))
        self.assertEqual(store.counts, smap.StoreCounts(lines=400, translated=400))

    def test_memory_does_not_grow_with_opens_and_faults(self):
        large = MAP[:-1] + b',"sourcesContent":["' + b"x" * 1_000_000 + b'"]}'
        finder = Finder({f"http://h/{n}": (BROKEN + b" " * 1_000_000 if n % 2 else large) for n in range(10)})
        store = smap.Store(finder, cache_bytes=2_500_000)
        log = frames(*finder.maps)
        store.translate(log)
        before = resident()
        for turn in range(40):
            store.translate(log)
            store.forget(f"http://h/{turn % 10}")
        self.assertGreaterEqual(sum(store.opened.values()), 200)
        self.assertLess(resident() - before, 20_000_000)

    def test_a_cache_counts_what_maps_hold(self):
        for data in (ROOTED, MAPPED):
            with smap.Map.open(data, U + ".map") as opened:
                held = opened.held()
            self.assertGreater(held, 3_000_000)
            store = smap.Store(Finder({U: data, V: data}), cache_bytes=2 * held)
            for script in (U, V, U, V):
                self.assertIsNotNone(store.translate(frames(script)))
                self.assertTrue(held <= store.kept_bytes <= 2 * held, (store.kept_bytes, held))
            self.assertEqual(store.opened, {U: 2, V: 2})
            store = smap.Store(Finder({U: data}), cache_bytes=held - 1)
            store.lookup(U, 0, 0)
            self.assertEqual((store.kept_bytes, store.broken), (0, {}))

    def test_maps_make_room_before_another_is_opened(self):
        data = MAPPED[:-200_000] + b'A"}'
        small = [f"http://h/{number}.js" for number in range(2_000)]
        store = smap.Store(Finder({**dict.fromkeys(small, MAP), U: data}), cache_bytes=18_000_000)
        store.translate(frames(*small))
        full, seen, open_map = store.kept_bytes, [], smap.Map.open

        def noted(text, base, **words):
            seen.append(store.kept_bytes)
            return open_map(text, base, **words)

        with mock.patch("smap.cache.Map.open", noted):
            store.lookup(U, 0, 0)
        self.assertGreater(full, 2_000 * 600)
        self.assertTrue(14_000_000 < seen[0] <= 18_000_000, seen)
        self.assertTrue(14_000_000 < store.kept_bytes <= 18_000_000, store.kept_bytes)
        # where it can't be opened, the others have the room again
        store = smap.Store(Finder({U: data[:-2], V: MAP}), cache_bytes=18_000_000)
        store.translate(frames(U, V))
        self.assertEqual((list(store.broken), store.kept_bytes), ([U], SIZE))

    def test_maps_in_a_cache_take_the_memory_that_it_counts(self):
        data = MAPPED[:500_000] + b'A"}'
        scripts = [f"http://h/{number}.js" for number in range(30)]
        store = smap.Store(Finder(dict.fromkeys(scripts, data)), cache_bytes=30_000_000)
        before = resident()
        for script in scripts:
            store.lookup(script, 0, 0)
        self.assertEqual(store.opened, dict.fromkeys(scripts, 1))
        self.assertLess(resident() - before, 60_000_000)

    def test_a_map_of_more_bytes_than_are_wanted_is_broken(self):
        store = smap.Store(Finder({U: MAP, V: MAP + b" "}), map_bytes=len(MAP))
        self.assertEqual(store.translate(frames(U, V)), "@http://h/a.js:11:3\n" + frames(V))
        self.assertEqual((store.broken[V].errno, store.kept_bytes), (errno.EFBIG, SIZE))
        self.assertEqual(pickle.loads(pickle.dumps(store)).map_bytes, len(MAP))
        self.assertEqual(smap.Store(some()).map_bytes, 268_435_456)

    def test_a_map_whose_urls_take_too_many_bytes_is_broken(self):
        # http://h/a.js has 13 bytes
        store = smap.Store(Finder({U: MAP, V: MAP.replace(b'"a.js"', b'"aa.js"')}), url_bytes=13)
        self.assertEqual(store.translate(frames(U, V)), "@http://h/a.js:11:3\n" + frames(V))
        self.assertEqual((store.broken[V].code, str(store.broken[V])), (8, "too many bytes of URLs"))
        self.assertEqual(pickle.loads(pickle.dumps(store)).url_bytes, 13)
        self.assertEqual(smap.Store(some()).url_bytes, 67_108_864)

    def test_a_map_of_half_a_megabyte_cannot_take_gigabytes(self):
        root, sources = b"r" * 200_000, b",".join(b'"%d"' % i for i in range(40_000))
        data = b'{"version":3,"mappings":"AAAA","sourceRoot":"%s","sources":[%s]}' % (root, sources)
        store, before = smap.Store(Finder({U: data})), time.process_time()
        self.assertEqual(store.translate(frames(U)), frames(U))
        self.assertEqual(store.broken[U].code, 8)
        self.assertLess(time.process_time() - before, 20)

    def test_other_errors_of_a_finder_come_out_and_the_store_goes_on(self):
        finder = Finder({U: KeyError("bug"), V: MAP})
        store = smap.Store(finder)
        for _ in range(2):
            with self.assertRaises(KeyError):
                store.translate(frames(V, U))
        finder.maps[U] = MAP
        self.assertEqual(store.translate(frames(U)), "@http://h/a.js:11:3\n")
        self.assertEqual(store.broken, {})

    def test_a_size_below_nothing_is_refused(self):
        for word in ("cache_bytes", "map_bytes", "url_bytes"):
            with self.assertRaisesRegex(ValueError, f"{word} is below 0"):
                smap.Store(some(), **{word: -1})

    def test_a_pickled_store_has_its_finder_and_no_maps(self):
        with tempfile.TemporaryDirectory() as folder:
            Path(folder, "u.js.map").write_bytes(MAP)
            store = smap.Store({"http://h/": folder}, cache_bytes=7)
            store.translate(frames(U))
            again = pickle.loads(pickle.dumps(store))
            self.assertEqual((again.cache_bytes, again.opened), (7, {}))
            self.assertEqual(again.translate(frames(U)), "@http://h/a.js:11:3\n")

    def test_missing_scripts_are_known_by_name_up_to_a_bound(self):
        store = smap.Store(some())
        store.translate("".join(f"@n{number}:1:1\n" for number in range(10_005)))
        self.assertEqual((len(store.missing), store.counts.missing), (10_000, 10_005))
        store = smap.Store(some())
        store.translate("".join(f"@{'n' * 100_000}{number}:1:1\n" for number in range(50)))
        self.assertEqual((len(store.missing), store.counts.missing), (39, 50))

    def test_broken_scripts_are_known_by_name_up_to_a_bound(self):
        def find(script):
            asked.append(script)
            raise OSError("no database")

        asked, names = [], [f"n{number}" for number in range(10_005)]
        store = smap.Store(find)
        store.translate(frames(*names))
        self.assertEqual((list(store.broken), store.counts.broken), (names[5:], 10_005))
        store.translate(frames(names[4], names[5]))
        self.assertEqual(asked, [*names, names[4], names[5]])
        self.assertEqual((store.counts.broken, store.counts.missing), (10_007, 0))
        store.forget("n7")
        store.forget("n7")
        self.assertEqual(len(store.broken), 9_999)
        store.forget()
        store.translate("".join(f"@{'n' * 100_000}{number}:1:1\n" for number in range(50)))
        self.assertEqual((len(store.broken), store.counts.broken), (39, 10_057))

    def test_opened_scripts_are_known_by_name_up_to_a_bound(self):
        store = smap.Store(lambda script: MAP, cache_bytes=3 * SIZE)
        store.translate(frames(*(f"http://h/{number}" for number in range(10_005))))
        self.assertEqual((len(store.opened), store.counts.translated), (10_000, 10_005))


class LogTest(unittest.TestCase):
    def test_ways_of_translating(self):
        store = smap.Store(Finder({U: MAP, V: IGNORED, U + "?v=3": MAP.replace(b"a.js", b"c.js")}))
        self.assertEqual(store.translate(frames(V, U), hide=True), "@http://h/a.js:11:3\n")
        self.assertEqual(store.counts.dropped, 1)
        asked = f"@{U}?v=4#x:1:5\n@{U}?v=3:1:1\n@{W}?v=3:1:1\n"
        self.assertEqual(store.translate(asked), f"@{U}?v=4#x:1:5\n@http://h/c.js:11:3\n@{W}?v=3:1:1\n")
        told = store.translate(asked, ignore_query=True)
        self.assertEqual(told, f"@http://h/a.js:13:3\n@http://h/c.js:11:3\n@{W}?v=3:1:1\n")
        self.assertEqual(store.missing, {U + "?v=4#x": 1, W + "?v=3": 2})

    def test_a_url_with_many_marks_is_looked_for_in_few_spellings(self):
        url = U + "?" * 10_000
        finder = some(U)
        self.assertEqual(smap.Store(finder).translate(frames(url), ignore_query=True), frames(url))
        self.assertEqual(finder.asked, [url, url[:-1], url[:-2], U])
        rows = [
            ("?a", [""]), ("#a", [""]), ("?a#b", ["?a", ""]), ("#a?b", ["#a", ""]), ("?a?b", ["?a", ""]),
            ("?a#b?c#d?e", ["?a#b?c#d", "?a#b?c", "?a", ""]), ("?", [""]), ("", []),
        ]
        for query, shorter in rows:
            finder = some()
            smap.Store(finder).translate(frames(U + query), ignore_query=True)
            self.assertEqual(finder.asked, [U + query, *(U + part for part in shorter)])

    def test_one_map_is_opened_for_a_url_with_a_query(self):
        asked = []

        def find(script):
            asked.append(script)
            return MAP

        store, url = smap.Store(find), U + "?" * 100
        self.assertEqual(store.translate(frames(url), ignore_query=True), "@http://h/a.js:11:3\n")
        self.assertEqual((store.opened, asked), ({url: 1}, [url]))

    def test_the_script_of_a_query_is_that_of_the_library(self):
        scripts = {U: b"0", U + "?": b"1", U + "?x": b"2", U + "#": b"3", U + "?x#x": b"4"}
        maps = {script: MAP.replace(b"a.js", name + b".js") for script, name in scripts.items()}
        opened = {script: smap.Map.open(data, script + ".map") for script, data in maps.items()}
        queries = ["".join(some) for many in range(5) for some in itertools.product("?#:x", repeat=many)]
        log = frames(*(U + query for query in queries))
        wanted = smap.translate(log, opened, ignore_query=True)
        self.assertEqual(smap.Store(Finder(maps)).translate(log, ignore_query=True), wanted)
        self.assertGreater(len(set(wanted.split("\n")) - set(log.split("\n"))), 4)
        for query in queries:
            told = smap.Store(Finder(maps)).translate(frames(U + query), ignore_query=True)
            self.assertEqual(told, smap.translate(frames(U + query), opened, ignore_query=True), query)

    def test_memory_does_not_grow_with_the_scripts_that_a_log_names(self):
        taken = []

        class Target(io.RawIOBase):
            def write(self, told):
                taken.append(tracemalloc.get_traced_memory()[0])

        many = 10_000
        log = io.BytesIO("".join(f"@http://h/{number:0>2000}.js:1:1\n" for number in range(many)).encode())
        tracemalloc.start()
        counts = smap.Store(lambda script: None).translate_file(log, Target())
        tracemalloc.stop()
        self.assertEqual(counts, smap.StoreCounts(lines=many, missing=many))
        # names have no more room from the fourth block on, and from the eighth all of them are others
        self.assertGreater(len(taken), 17)
        self.assertLess(taken[-2] - taken[8], 2_000_000)

    def test_a_str_may_hold_bytes_that_are_no_utf_8(self):
        store = smap.Store(some(U))
        self.assertEqual(store.translate(f"\udcff\n@{U}:1:1\n"), "\udcff\n@http://h/a.js:11:3\n")
        self.assertEqual((store.translate(""), store.translate(b"")), ("", b""))

    def test_positions_anywhere_need_a_finder_that_names_scripts(self):
        with self.assertRaisesRegex(ValueError, "named_in"):
            smap.Store(some(U)).translate(frames(U), anywhere=True)

    def test_a_file_is_translated_in_pieces_of_whole_lines(self):
        store = smap.Store(some(U))
        line, long = b"    at f (http://h/u.js:1:2)\n", b"x" * 3_000_000 + b"\n"
        log = line * 50_000 + long + line * 50_000 + b"@http://h/u.js:1:2"
        new = b"    at f (http://h/a.js:11:3)\n"
        out = io.BytesIO()
        counts = store.translate_file(io.BytesIO(log), out)
        self.assertTrue(out.getvalue() == new * 50_000 + long + new * 50_000 + b"@http://h/a.js:11:3")
        self.assertEqual(counts, smap.StoreCounts(lines=100_002, translated=100_001))

    def test_later_pieces_may_name_other_scripts(self):
        maps = {U: MAP, V: IGNORED, U + "?v=3": MAP.replace(b"a.js", b"c.js"), W: BROKEN}
        first = b"@http://h/u.js:1:2\n" * 60_000
        later = (frames(V, U, "n", W, U + "?v=3", U + "?v=4") + f"@{U}:2:1\n@{V}:2:1\n").encode()
        new = b"@http://h/a.js:11:3\n" * 60_000
        stay = f"@n:1:1\n@{W}:1:1\n".encode(), f"@{U}?v=4:1:1\n".encode(), f"@{U}:2:1\n@{V}:2:1\n".encode()
        a, b, c = b"@http://h/a.js:11:3\n", b"@http://h/b.js:11:3\n", b"@http://h/c.js:11:3\n"
        rows = [
            ({}, new + b + a + stay[0] + c + stay[1] + stay[2], (60_003, 0, 2, 1)),
            ({"hide": True}, new + a + stay[0] + c + stay[1] + stay[2], (60_002, 1, 2, 1)),
            ({"ignore_query": True}, new + b + a + stay[0] + c + a + stay[2], (60_004, 0, 1, 1)),
        ]
        for words, told, counts in rows:
            out = io.BytesIO()
            seen = smap.Store(Finder(maps)).translate_file(io.BytesIO(first + later), out, **words)
            self.assertTrue(out.getvalue() == told, (words, out.getvalue()[-300:]))
            self.assertEqual(seen, smap.StoreCounts(60_008, *counts))

    def test_a_cut_behind_a_line_feed_changes_nothing_and_one_in_a_line_does(self):
        store = smap.Store(some(U))
        log = b"Error\n@http://h/u.js:1:5\n    at f (http://h/u.js:1:2)\r\n@http://h/u.js:1:15\n"
        whole = b"Error\n@http://h/a.js:13:3\n    at f (http://h/a.js:11:3)\r\n@http://h/a.js:13:3\n"
        for cut in [0, *(at + 1 for at, byte in enumerate(log) if byte == 10)]:
            self.assertEqual(store.translate(log[:cut]) + store.translate(log[cut:]), whole)
        # 1:1|5 becomes 1:1, which is another frame, and a text behind it
        cut = log.rindex(b"5\n")
        self.assertEqual(store.translate(log[:cut]) + store.translate(log[cut:]), whole[:-5] + b"11:35\n")

    def test_pieces_of_a_reader_may_end_anywhere(self):
        class Slow(io.RawIOBase):
            def __init__(self, data):
                self.data = io.BytesIO(data)

            def read(self, size=-1):
                return self.data.read(min(size, 7))

        out = io.BytesIO()
        smap.Store(some(U)).translate_file(Slow(b"x\n\n@http://h/u.js:1:1\n@http://h/u.js:1:5"), out)
        self.assertEqual(out.getvalue(), b"x\n\n@http://h/a.js:11:3\n@http://h/a.js:13:3")

    def test_a_line_is_written_as_soon_as_it_is_read(self):
        source, feed = os.pipe()
        sink, target = os.pipe()
        store = smap.Store(some(U))

        def follow():
            with open(source, "rb") as log, open(target, "wb") as out:
                store.translate_file(log, out)

        thread = threading.Thread(target=follow)
        thread.start()
        with open(sink, "rb") as told:
            os.write(feed, b"@http://h/u.js:1:1\n@http://h/u.js")
            self.assertEqual(told.readline(), b"@http://h/a.js:11:3\n")
            os.write(feed, b":1:5\n")
            self.assertEqual(told.readline(), b"@http://h/a.js:13:3\n")
            os.close(feed)
            self.assertEqual(told.read(), b"")
        thread.join()


class LookupTest(unittest.TestCase):
    def test_a_position_has_its_mapping(self):
        store = smap.Store(Finder({U: MAP, V: BROKEN}))
        found = store.lookup(U, 0, 7)
        self.assertEqual((found.url, found.source_line, found.source_column), ("http://h/a.js", 12, 2))
        for place in [(U, 1, 0), (U, -1, 0), (U, 0, 1 << 40), (V, 0, 0), (W, 0, 0), ("\ud800", 0, 0)]:
            self.assertIsNone(store.lookup(*place))
        self.assertEqual(store.counts, smap.StoreCounts(lines=7, translated=1, missing=2, broken=1))


if __name__ == "__main__":
    unittest.main()

"""Tests of the store of the Python module: names that mean a script whose own name is another."""

import pickle
import sys
import threading
import time
import unittest
from pathlib import Path
from unittest import mock

sys.path.insert(0, str(Path(__file__).resolve().parents[2] / "capi" / "python"))
import smap  # noqa: E402

# In a log, 1:1 to 1:4 come from a.js:11:3, and 1:5 from a.js:13:3.
MAP = b'{"version":3,"sources":["a.js"],"mappings":"AAUE,IAEA"}'
BROKEN = b'{"version":3,"sources":["a.js"],"mappings":"AAUE,,IAEA"}'
U, V = "http://h/u.js", "http://h/v.js"
TOLD = "@http://h/a.js:11:3\n"


class Finder:
    """Finds the maps of a dictionary. What follows a `!` in a name is of no account, nor are capitals."""

    def __init__(self, maps):
        self.maps, self.asked, self.meant = maps, [], []

    def __call__(self, script):
        self.asked.append(script)
        return self.maps.get(script)

    def meant_by(self, name):
        self.meant.append(name)
        script = name.partition("!")[0].lower()
        return script if script in self.maps else None

    def named_in(self, text):
        return [script for script in self.maps if script.encode() in text]


class Counted(smap.Scripts):
    """Scripts of which it is known how many there were at once at most, and how often they translated."""

    most = translations = 0

    def __init__(self, *words):
        super().__init__(*words)
        self.names = set()

    def add(self, url, script):
        super().add(url, script)
        self.names.add(url)
        Counted.most = max(Counted.most, len(self.names))

    def close(self):
        super().close()
        self.names.clear()

    def translate(self, *words, **more):
        Counted.translations += 1
        return super().translate(*words, **more)


def frames(*scripts):
    return "".join(f"@{script}:1:1\n" for script in scripts)


def size_of(data=MAP):
    """The room that a map takes in a cache."""
    store = smap.Store(Finder({U: data}))
    store.lookup(U, 0, 0)
    return store.kept_bytes


class AlikeTest(unittest.TestCase):
    def setUp(self):
        Counted.most = Counted.translations = 0

    def test_a_map_is_opened_once_for_all_names_of_its_script(self):
        finder = Finder({U: MAP})
        store = smap.Store(finder)
        names = ["HTTP://h/u.js", "http://H/u.js", U, U + "!1"]
        for _ in range(2):
            self.assertEqual(store.translate(frames(*names, V, *names)), TOLD * 4 + frames(V) + TOLD * 4)
        self.assertEqual((store.opened, store.kept_bytes), ({U: 1}, size_of()))
        self.assertEqual(store.missing, {V: 2})
        # each is looked for by its own name first, and no more once it is known what it means
        self.assertEqual(finder.asked, [names[0], U, *names[1:2], *names[3:], V, V])
        self.assertEqual(finder.meant, [*names[:2], names[3], V, V])

    def test_all_calls_know_what_a_name_means(self):
        store = smap.Store(Finder({U: MAP}))
        name = "HTTP://h/u.js"
        self.assertEqual(store.lookup(name, 0, 4).source_line, 12)
        self.assertEqual(store.lookup(name, 0, 4).url, "http://h/a.js")
        (told,) = store.frames([{"abs_path": name + "?v=3", "lineno": 1, "colno": 5}], ignore_query=True)
        self.assertEqual((told["abs_path"], told["lineno"]), ("http://h/a.js", 13))
        self.assertEqual(store.translate(f"@{name}?v=3:1:1\n", ignore_query=True), TOLD)
        self.assertEqual(store.opened, {U: 1})
        self.assertIsNone(store.lookup("\ud800", 0, 0))

    def test_a_broken_map_is_broken_by_all_names(self):
        finder, name = Finder({U: BROKEN}), "HTTP://h/u.js"
        store = smap.Store(finder)
        self.assertEqual(store.translate(frames(name, U, name)), frames(name, U, name))
        self.assertEqual(store.counts, smap.StoreCounts(lines=3, broken=3))
        self.assertEqual((list(store.broken), store.missing), ([U], {}))
        finder.maps = {U: MAP}
        self.assertEqual(store.translate(frames(name)), frames(name))
        store.forget(name)
        self.assertEqual((store.broken, store.translate(frames(name))), ({}, TOLD))
        store.forget(name)
        self.assertEqual(store.kept_bytes, 0)

    def test_a_name_of_its_own_comes_first(self):
        name, own = "HTTP://h/u.js", MAP.replace(b"a.js", b"own.js")
        finder = Finder({U: MAP})
        store = smap.Store(finder, cache_bytes=0)
        self.assertEqual(store.translate(frames(name)), TOLD)
        finder.maps[name] = own
        for _ in range(2):
            self.assertEqual(store.translate(frames(name, U)), "@http://h/own.js:11:3\n" + TOLD)
        store = smap.Store(finder)
        del finder.maps[name]
        self.assertEqual(store.translate(frames(name)), TOLD)
        finder.maps[name] = own
        store.forget()
        self.assertEqual(store.translate(frames(name)), "@http://h/own.js:11:3\n")
        # also where the name was known to mean another script
        finder.maps = {U: MAP}
        store = smap.Store(finder)
        self.assertEqual(store.translate(frames(name)), TOLD)
        store.forget(U)
        finder.maps[name] = own
        for _ in range(2):
            self.assertEqual(store.translate(frames(name)), "@http://h/own.js:11:3\n")
        self.assertEqual((store.opened, store.kept_bytes), ({U: 1, name: 1}, size_of(own)))
        # a broken map stays that of its script
        finder.maps[name] = BROKEN
        store.forget()
        self.assertEqual(store.translate(frames(name)), frames(name))
        self.assertEqual(list(store.broken), [name])

    def test_errors_of_a_finder_are_those_of_its_call(self):
        class Failing(Finder):
            def meant_by(self, name):
                raise self.fault

        finder = Failing({})
        store = smap.Store(finder)
        finder.fault = OSError("no database")
        self.assertEqual(store.translate(frames(U)), frames(U))
        self.assertEqual((store.broken, store.counts.broken), ({U: finder.fault}, 1))
        self.assertIsNone(finder.fault.__traceback__)
        finder.fault = KeyError("bug")
        with self.assertRaises(KeyError):
            store.translate(frames(V))

    def test_many_names_of_a_script_take_bounded_memory(self):
        names = [f"{U}!{number}" for number in range(10_500)]
        for room, most in [(1 << 30, 10_500), (20_000, 20)]:
            Counted.most = 0
            store = smap.Store(Finder({U: MAP}), cache_bytes=room)
            with mock.patch("smap.store.Scripts", Counted):
                self.assertEqual(store.translate(frames(*names)), TOLD * len(names))
            self.assertLessEqual(Counted.most, most)
            self.assertEqual((store.opened, store.kept_bytes), ({U: 1}, size_of()))
            # those whose meaning is known are the last 10,000
            self.assertIsNone(store._cache._meant.get(names[499]))
            self.assertEqual(store._cache._meant.get(names[500]), U)

    def test_a_map_has_room_once_for_all_its_names(self):
        data = MAP[:-1] + b',"sourcesContent":["' + b"x" * 200_000 + b'"]}'
        store = smap.Store(Finder({U: data}), cache_bytes=size_of(data) + 50_000)
        log = frames(U, "HTTP://h/u.js", U + "!1") * 300
        with mock.patch("smap.store.Scripts", Counted):
            for _ in range(2):
                self.assertEqual(store.translate(log), TOLD * 900)
        self.assertEqual((Counted.translations, store.opened), (2, {U: 1}))

    def test_few_names_are_looked_for_anywhere_at_once(self):
        names = [f"{U}!{'n' * number}" for number in range(450)]
        store = smap.Store(Finder({U: MAP}))
        log = frames(*names) + f"9:00 {U}!n:1:1 {{\nx {U}:1:5 y\n"
        with mock.patch("smap.store.Scripts", Counted):
            told = store.translate(log, anywhere=True)
        self.assertEqual(told.split("\n")[:450], [TOLD[:-1]] * 450)
        self.assertEqual(told.split("\n")[451:], ["x http://h/a.js:13:3 y", ""])
        self.assertLessEqual(Counted.most, 101)

    def test_names_of_many_lengths_cost_what_their_bytes_do(self):
        names = [f"{U}!{'n' * number}" for number in range(1_000)]
        store, start = smap.Store(Finder({U: MAP})), time.process_time()
        log = frames(*names) + "http://h" * 100_000 + "\n"
        self.assertEqual(store.translate(log, anywhere=True), TOLD * 1_000 + log[-800_001:])
        self.assertLess(time.process_time() - start, 10)

    def test_threads_open_a_map_once_by_several_names(self):
        asked, wrong = [], []

        class Slow(Finder):
            def __call__(self, script):
                found = super().__call__(script)
                if found:
                    asked.append(script)
                    time.sleep(0.05)
                return found

        store = smap.Store(Slow({U: MAP}))

        def work(number):
            if store.translate(frames(f"{U}!{number}")) != TOLD:
                wrong.append(number)

        threads = [threading.Thread(target=work, args=(number,)) for number in range(8)]
        for thread in threads:
            thread.start()
        for thread in threads:
            thread.join()
        self.assertEqual((wrong, asked, store.opened), ([], [U], {U: 1}))

    def test_a_finder_without_meanings_is_asked_for_names_alone(self):
        asked = []

        def find(script):
            asked.append(script)
            return MAP if script == U else None

        store = smap.Store(find)
        self.assertEqual(store.translate(frames("HTTP://h/u.js", U)), frames("HTTP://h/u.js") + TOLD)
        self.assertEqual(asked, ["HTTP://h/u.js", U])

    def test_a_pickled_store_knows_what_names_mean(self):
        store = smap.Store(Finder({U: MAP}))
        store.translate(frames("HTTP://h/u.js"))
        again = pickle.loads(pickle.dumps(store))
        self.assertEqual((again.opened, again.translate(frames("HTTP://h/u.js"))), ({}, TOLD))


if __name__ == "__main__":
    unittest.main()

"""Tests of the Python module in several threads, finalizers and signal handlers: what they are answered, and
that none waits for ever.
"""

import faulthandler
import gc
import random
import signal
import sys
import threading
import time
import unittest
from pathlib import Path

sys.path.insert(0, str(Path(__file__).resolve().parents[2] / "capi" / "python"))
import smap  # noqa: E402
from asserted import is_error, raised  # noqa: E402
from store import MAP, SIZE, U, V, W, Finder, frames, some  # noqa: E402

# How long a thread may take that has nothing to wait for, in seconds.
LONG = 60

CLOSED = 5


class Asks:
    """What asks as it is collected, and notes the answer."""

    def __init__(self, ask, answers):
        self.ask, self.answers, self.itself = ask, answers, self

    def __del__(self):
        self.answers.append(raised(self.ask))


class ThreadsCase(unittest.TestCase):
    def run_all(self, work, many=4):
        wrong = []

        def guarded(number):
            try:
                work(number)
            except BaseException as error:
                wrong.append(error)

        threads = [
            threading.Thread(target=guarded, args=(number,), daemon=True) for number in range(many)
        ]
        # they meet as often as they can
        self.addCleanup(sys.setswitchinterval, sys.getswitchinterval())
        sys.setswitchinterval(1e-6)
        for thread in threads:
            thread.start()
        for thread in threads:
            thread.join(LONG)
        self.assertEqual(wrong, [])
        self.assertFalse(any(thread.is_alive() for thread in threads), "a thread waits for ever")


class HandlesTest(ThreadsCase):
    def setUp(self):
        content = b"".join(b"line %d\\n" % number for number in range(2_000))
        self.map = smap.Map.open(MAP[:-1] + b',"sourcesContent":["%s"]}' % content, U + ".map")
        self.other, self.scripts = self.map.share(), smap.Scripts({U: self.map})
        self.log = frames(U, V, W, "n", U) * 50

    def asks(self):
        """Calls of the same handles, which answer the same each time."""
        return [
            lambda: self.map.lookup(0, 4),
            lambda: self.map.index_at(0, 4),
            lambda: self.map.content(0),
            lambda: repr(self.map.counts()),
            self.map.held,
            self.map.canonical,
            self.map.flatten,
            self.map.written_sources,
            lambda: list(self.map.mappings()),
            lambda: self.map.translate(self.log, U),
            lambda: self.map.translate_line(b"@u:1:1", "u"),
            lambda: self.map.same(self.other) and self.other.same(self.map),
            lambda: self.map.share().url(0),
            lambda: self.scripts.add(U, self.other),
            lambda: self.scripts.translate(self.log.encode())[0],
        ]

    def asks_of_a_store(self):
        # each of the three maps makes room for the two others
        store, frame = smap.Store(some(U, V, W), cache_bytes=SIZE), {"abs_path": V, "lineno": 1, "colno": 5}
        return [
            lambda: store.translate(self.log),
            lambda: store.lookup(U, 0, 4),
            lambda: store.frames([frame, frame]),
        ]

    def test_threads_are_answered_what_one_is(self):
        for asks in (self.asks(), self.asks_of_a_store()):
            wanted, until = [ask() for ask in asks], time.monotonic() + 2

            def work(number):
                dice = random.Random(number)
                while time.monotonic() < until:
                    at = dice.randrange(len(asks))
                    self.assertEqual(asks[at](), wanted[at], at)

            self.run_all(work)

    def test_two_maps_and_scripts_may_be_asked_about_one_another(self):
        maps = [self.map, self.other, smap.Map.open(MAP, V + ".map")]
        wanted = [(True, False), (False, False), (False, True)]

        def work(number):
            one, two, three = maps[number:] + maps[:number]
            for _ in range(300):
                self.assertEqual((one.same(two), two.same(three)), wanted[number])
                self.scripts.add(V, one)
                self.scripts.translate(b"@u:1:1\n")

        self.run_all(work, 3)

    def test_a_map_is_closed_once_no_thread_is_in_a_call(self):
        for _ in range(20):
            opened, closing = self.map.share(), threading.Event()
            wanted = opened.content(0)

            def work(number):
                if number == 0:
                    time.sleep(0.01)
                    closing.set()
                    opened.close()
                while True:
                    found = raised(opened.content, 0)
                    if found != wanted:
                        break
                is_error(found, smap.Error)
                self.assertEqual((found.code, closing.is_set()), (CLOSED, True))

            self.run_all(work)
            is_error(raised(opened.held), smap.Error)

    def test_a_signal_handler_and_a_finalizer_may_ask_what_their_thread_asks(self):
        asks, answers, wanted, turns = self.asks(), [], [], iter(range(1 << 30))
        known = [ask() for ask in asks]

        def handler(*_):
            at = next(turns) % len(asks)
            wanted.append(known[at])
            Asks(asks[at], answers)
            gc.collect()
            signal.setitimer(signal.ITIMER_REAL, 0.001)

        # a thread that waits for itself is woken by nothing
        faulthandler.dump_traceback_later(LONG, exit=True)
        self.addCleanup(faulthandler.cancel_dump_traceback_later)
        self.addCleanup(signal.signal, signal.SIGALRM, signal.signal(signal.SIGALRM, handler))
        self.addCleanup(signal.setitimer, signal.ITIMER_REAL, 0)
        signal.setitimer(signal.ITIMER_REAL, 0.001)
        while len(wanted) < 200:
            for at, ask in enumerate(asks):
                self.assertEqual(ask(), known[at], at)
        signal.setitimer(signal.ITIMER_REAL, 0)
        self.assertEqual(answers, wanted)


class StoreTest(ThreadsCase):
    def test_a_map_is_opened_once_for_all_threads(self):
        asked = []

        def finder(script):
            asked.append(script)
            time.sleep(0.05)
            return MAP

        store = smap.Store(finder)
        self.run_all(lambda _: self.assertEqual(store.translate(frames(U)), "@http://h/a.js:11:3\n"), 8)
        self.assertEqual((asked, store.opened), ([U], {U: 1}))

    def test_threads_share_a_small_cache(self):
        scripts = [f"http://h/{number}.js" for number in range(12)]
        store = smap.Store(Finder({s: MAP.replace(b"a.js", s[9:].encode()) for s in scripts}), 4 * (SIZE + 1))

        def work(number):
            mine = scripts[number:] + scripts[:number]
            for _ in range(50):
                self.assertEqual(store.translate(frames(*mine)), "".join(f"@{s}:11:3\n" for s in mine))
                self.assertEqual(store.lookup(mine[0], 0, 0).url, mine[0])
                (told,) = store.frames([{"abs_path": mine[1], "lineno": 1, "colno": 5}])
                self.assertEqual(told["lineno"], 13)
                self.assertLessEqual(store.kept_bytes, 4 * (SIZE + 1))

        self.run_all(work, 8)
        self.assertEqual(store.counts, smap.StoreCounts(lines=8 * 50 * 14, translated=8 * 50 * 14))


class FinderTest(ThreadsCase):
    """Finders that ask stores: for what waits for them, they get an Error."""

    def asking(self, wanted, meet=None):
        """A store whose finder asks another store, or itself, for a script first; and the Errors that it got.

        `wanted` has for each script the store and the script that are asked for.
        """
        errors = []

        def finder(script):
            if script in wanted:
                store, other = wanted[script]
                if meet:
                    meet.wait(LONG)
                found = raised(store().lookup, other, 0, 0)
                if isinstance(found, smap.Error):
                    errors.append((script, str(found)))
            return MAP

        return smap.Store(finder), errors

    def fault(self, script):
        return f"a finder asks for the map of {script}, which waits for that finder"

    def test_a_store_that_its_finder_asks_for_the_same_script_says_so(self):
        sent = [{"abs_path": U, "lineno": 1, "colno": 1}]

        def work(_):
            for name, word in [("lookup", [U, 0, 0]), ("translate", [frames(U)]), ("frames", [sent])]:
                store = smap.Store(lambda script: getattr(store, name)(*word))
                self.assertEqual(store.translate(frames(U)), frames(U))
                ((script, fault),) = store.broken.items()
                self.assertEqual((script, str(fault)), (U, self.fault(U)))
                store, errors = self.asking({U: (lambda: store, U)})
                self.assertEqual(store.translate(frames(U)), "@http://h/a.js:11:3\n")
                self.assertEqual(errors, [(U, self.fault(U))])

        self.run_all(work, 1)

    def test_a_finder_may_ask_for_other_scripts(self):
        def work(_):
            store, errors = self.asking({U: (lambda: store, V), V: (lambda: store, W)})
            self.assertEqual(store.translate(frames(U)), "@http://h/a.js:11:3\n")
            self.assertEqual((errors, store.opened), ([], {W: 1, V: 1, U: 1}))
            store, errors = self.asking({U: (lambda: store, V), V: (lambda: store, U)})
            self.assertEqual(store.translate(frames(U)), "@http://h/a.js:11:3\n")
            self.assertEqual((errors, store.opened), ([(V, self.fault(U))], {V: 1, U: 1}))

        self.run_all(work, 1)

    def test_of_threads_that_would_wait_for_one_another_one_is_told(self):
        for scripts in [(U, V), (U, V, W)]:
            meet = threading.Barrier(len(scripts))
            ring = dict(zip(scripts, [*scripts[1:], scripts[0]]))
            store, errors = self.asking({one: (lambda: store, other) for one, other in ring.items()}, meet)

            def work(number):
                told = store.translate(frames(scripts[number]))
                self.assertEqual(told, "@http://h/a.js:11:3\n")

            self.run_all(work, len(scripts))
            ((script, text),) = errors
            self.assertEqual(text, self.fault(ring[script]))
            self.assertEqual(store.opened, dict.fromkeys(scripts, 1))

    def test_so_is_one_of_those_that_wait_in_two_stores(self):
        meet = threading.Barrier(2)
        one, errors = self.asking({U: (lambda: two, V)}, meet)
        two, more = self.asking({V: (lambda: one, U)}, meet)
        self.run_all(lambda number: self.assertIsNotNone([one, two][number].lookup([U, V][number], 0, 0)), 2)
        self.assertIn(errors + more, [[(U, self.fault(V))], [(V, self.fault(U))]])


if __name__ == "__main__":
    unittest.main()

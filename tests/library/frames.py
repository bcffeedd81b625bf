"""Tests of the frames of the Python module."""

import copy
import json
import random
import re
import sys
import tracemalloc
import unittest
from pathlib import Path
from unittest import mock

TESTS = Path(__file__).resolve().parent
sys.path.insert(0, str(TESTS.parent.parent / "capi" / "python"))
import smap  # noqa: E402

U, V = "http://h/m/u.js", "http://h/m/v.js"

# One mapping a column: 0 to src/a.ts 2:1, 1 to src/a.ts 0:0, 2 to lib.js 0:0, which is ignored and has no
# content, 3 to a source without a URL, 4 to nothing, 5 to src/a.ts 9:0, a line that the content hasn't got.
MAP = {
    "version": 3,
    "sources": ["src/a.ts", "lib.js", None],
    "sourcesContent": ["one\r\ntwo\n\U0001d4b3 + x\rfour\u2028five\u2029", None, "no URL"],
    "ignoreList": [1],
    "mappings": "AAEC,CAFD,CCAA,CCAA,C,CFSA",
}


def frame(column, line=1, script=U, **more):
    return {"abs_path": script, "lineno": line, "colno": column, "function": "f", **more}


class FramesTest(unittest.TestCase):
    def setUp(self):
        self.asked = []
        self.store = smap.Store(self.find)

    def find(self, script):
        self.asked.append(script)
        return json.dumps(MAP).encode() if script in (U, V) else None

    def test_a_frame_gets_its_source_and_the_lines_around_it(self):
        sent = [frame(1, filename="~/u.js", module="u", vars={"x": 1})]
        before = copy.deepcopy(sent)
        told = self.store.frames(sent)
        self.assertEqual(sent, before)
        self.assertEqual(
            told,
            [
                {
                    "abs_path": "http://h/m/src/a.ts", "filename": "m/src/a.ts", "lineno": 3, "colno": 2,
                    "function": "f", "module": "u", "vars": {"x": 1}, "in_app": True,
                    "pre_context": ["one", "two"], "context_line": "\U0001d4b3 + x",
                    "post_context": ["four", "five", ""],
                }
            ],
        )

    def test_so_many_lines_around_it_are_given(self):
        rows = [
            (1, 1, (["two"], "\U0001d4b3 + x", ["four"])),
            (1, 0, ([], "\U0001d4b3 + x", [])),
            (2, 2, ([], "one", ["two", "\U0001d4b3 + x"])),
        ]
        for column, context, lines in rows:
            (told,) = self.store.frames([frame(column)], context)
            self.assertEqual((told["pre_context"], told["context_line"], told["post_context"]), lines)

    def test_lines_end_as_those_of_ecmascript(self):
        # its LineTerminatorSequence; \v, \f, \x1c and \x85 end no line
        pieces = ["\n", "\r", "\r\n", "\u2028", "\u2029", "\v\f\x1c\x85", "a", "\u00e4b", ""]
        dice = random.Random(1)
        for _ in range(300):
            text = "".join(dice.choices(pieces, k=dice.randrange(12)))
            wanted = re.split("\r\n|[\n\r\u2028\u2029]", text)
            made = {"version": 3, "sources": ["a"], "sourcesContent": [text]}
            made["mappings"] = ",".join(["AAAA"] + ["CACA"] * len(wanted))
            store = smap.Store(lambda script: json.dumps(made).encode())
            *told, past = store.frames([frame(column + 1) for column in range(len(wanted) + 1)], 1)
            for at, line in enumerate(told):
                self.assertEqual(line["context_line"], wanted[at], text)
                self.assertEqual(line["pre_context"], wanted[max(0, at - 1) : at], text)
                self.assertEqual(line["post_context"], wanted[at + 1 : at + 2], text)
            self.assertNotIn("context_line", past)

    def test_a_content_is_cut_once(self):
        mappings = ",".join(["AAAA"] + ["CACA"] * 39)
        # the second is too large to be kept from one call to the next
        for content, calls in [("\n" * 700_000, 1), ("\u2713\n" * 2_000 + "x" * 17_000_000, 2)]:
            made = {"version": 3, "sources": ["a"], "sourcesContent": [content], "mappings": mappings}
            text = json.dumps(made).encode()
            store, asked, cut = smap.Store(lambda script: text), [], smap.Map.content

            def noted(opened, source):
                asked.append(source)
                return cut(opened, source)

            with mock.patch.object(smap.Map, "content", noted):
                for columns in (range(1, 21), range(21, 41)):
                    told = store.frames([frame(column) for column in columns])
                    self.assertEqual([at["lineno"] for at in told], list(columns))
            self.assertEqual(asked, [0] * calls)

    def test_lines_of_the_script_do_not_stay(self):
        sent = {"pre_context": ["min"], "context_line": "min", "post_context": []}
        for column in (3, 6):
            (told,) = self.store.frames([frame(column, **sent)])
            self.assertEqual(set(told), {"abs_path", "filename", "lineno", "colno", "function", "in_app"})

    def test_ignored_sources_are_not_in_the_app(self):
        rows = [(3, {}, False), (3, {"in_app": True}, False), (1, {}, True), (1, {"in_app": None}, True)]
        rows += [(1, {"in_app": False}, False), (1, {"in_app": True}, True)]
        for column, sent, wanted in rows:
            self.assertIs(self.store.frames([frame(column, **sent)])[0]["in_app"], wanted)

    def test_what_has_no_source_stays_as_it_is(self):
        sent = [
            frame(4), frame(5), frame(1, line=2), frame(1, script="http://h/m/none.js"), frame(1, script=""),
            frame(0), frame(-1), frame(1, line=0), frame(2_147_483_649), frame(1 << 40),
            frame(1, line=1 << 32 | 1), frame(True), frame(1.0), frame("1"), frame(None),
            frame(1, script=None), frame(1, script=["u"]),
            frame(1, script="\ud800"), {}, {"abs_path": U}, None, "at f", 7, [frame(1)],
        ]
        self.assertEqual(self.store.frames(sent), sent)
        self.assertEqual(self.store.counts, smap.StoreCounts(lines=24, missing=2))
        self.assertEqual(self.store.frames([]), [])

    def test_frames_keep_their_order_and_a_map_is_opened_once(self):
        small = smap.Store(self.find, cache_bytes=0)
        sent = [frame(column, script=script) for column in (1, 2) for script in (U, "x:none", V)]
        told = [(at["abs_path"], at["lineno"]) for at in small.frames(sent)]
        first, second, none = ("http://h/m/src/a.ts", 3), ("http://h/m/src/a.ts", 1), ("x:none", 1)
        self.assertEqual(told, [first, none, first, second, none, second])
        self.assertEqual(small.opened, {U: 1, V: 1})

    def test_a_script_may_be_named_by_its_file(self):
        (told,) = self.store.frames([{"filename": U, "lineno": 1, "colno": 1}])
        self.assertEqual((told["abs_path"], told["filename"]), ("http://h/m/src/a.ts", "m/src/a.ts"))
        sent = [frame(1, filename=V, script="http://h/m/none.js"), frame(1, filename=V, script=7)]
        self.assertEqual(self.store.frames(sent), sent)
        for script in (None, ""):
            (told,) = self.store.frames([frame(1, filename=V, script=script)])
            self.assertEqual(told["lineno"], 3)

    def test_frames_have_other_shapes(self):
        sent = {"filename": U, "lineno": 1, "colno": 1, "method": "f", "code": "x", "context": {"pre": ["y"]}}
        told = {**sent, "filename": "http://h/m/src/a.ts", "lineno": 3, "colno": 2}
        told.update(code="\U0001d4b3 + x", context={"pre": ["two"], "post": ["four"]})
        self.assertEqual(self.store.frames([sent], 1, shape="rollbar"), [told])
        sent = {"file": U, "lineNumber": 1, "columnNumber": 1, "method": "f", "code": {"1": "x"}}
        told = {**sent, "file": "http://h/m/src/a.ts", "lineNumber": 3, "columnNumber": 2, "inProject": True}
        told["code"] = {"2": "two", "3": "\U0001d4b3 + x", "4": "four"}
        self.assertEqual(self.store.frames([sent], 1, shape="bugsnag"), [told])
        sent["columnNumber"] = 3
        told = {"file": "http://h/m/lib.js", "lineNumber": 1, "columnNumber": 1, "method": "f"}
        self.assertEqual(self.store.frames([sent], shape="bugsnag"), [{**told, "inProject": False}])
        for shape, sent in [
            ("bugsnag", {"filename": U, "lineno": 1, "colno": 1}),
            ("sentry", {"file": U, "lineNumber": 1, "columnNumber": 1}),
            ("rollbar", {"abs_path": U, "lineno": 1, "colno": 1}),
        ]:
            self.assertEqual(self.store.frames([sent], shape=shape), [sent])
        with self.assertRaisesRegex(ValueError, "no shape 'x', but sentry, rollbar, bugsnag"):
            self.store.frames([], shape="x")

    def test_names_are_asked_for_together_and_once(self):
        map_file = TESTS.parent / "rows" / "maps" / "functions" / "out.js.map"
        store = smap.Store(lambda script: map_file.read_bytes())
        sent = [frame(1, 1), frame(1, 8), frame(1, 11), frame(1, 1)]
        with mock.patch.object(smap.Map, "translate", autospec=True, side_effect=smap.Map.translate) as asked:
            for _ in range(2):
                told = store.frames(sent, names=True)
                names = ["formatPrice", "main", "f", "formatPrice"]
                self.assertEqual([one["function"] for one in told], names)
            self.assertEqual(asked.call_count, 1)
            store.forget()
            self.assertEqual(store.frames(sent, names=True), told)
            self.assertEqual(asked.call_count, 2)
        self.assertEqual({one["function"] for one in store.frames(sent)}, {"f"})

    def test_what_is_known_is_that_of_the_map_as_it_is_open(self):
        texts = [json.dumps({**MAP, "sourcesContent": ["one\ntwo\n" + word]}).encode() for word in ("x", "y")]
        store = smap.Store(lambda script: texts[0])
        (told,) = store.frames([frame(1)])
        told["pre_context"].append("z")
        again = store.frames([frame(1), frame(1)])
        self.assertEqual([at["pre_context"] for at in again], [["one", "two"]] * 2)
        del texts[0]
        self.assertEqual(store.frames([frame(1)])[0]["context_line"], "x")
        store.forget()
        self.assertEqual(store.frames([frame(1)])[0]["context_line"], "y")

    def test_what_is_known_takes_bounded_memory(self):
        lines = "".join(f"{number:0100}\n" for number in range(20_000))
        text = json.dumps({**MAP, "sources": ["a"], "sourcesContent": [lines], "ignoreList": [], "names": []})
        maps = {f"http://h/{number}.js": text for number in range(40)}
        store = smap.Store(lambda script: maps[script].replace(MAP["mappings"], "AAAA").encode())
        tracemalloc.start()
        self.addCleanup(tracemalloc.stop)
        for _ in range(2):
            for script in maps:
                self.assertEqual(store.frames([frame(1, script=script)])[0]["context_line"], f"{0:0100}")
        self.assertLess(tracemalloc.get_traced_memory()[1], 100_000_000)

    def test_a_query_is_ignored_where_that_is_asked_for(self):
        sent = [frame(1, script=U + "?v=3#x"), frame(1, script=U + "#x")]
        self.assertEqual(self.store.frames(sent), sent)
        self.assertEqual([at["lineno"] for at in self.store.frames(sent, ignore_query=True)], [3, 3])

    def test_few_scripts_are_asked_for_however_many_marks_a_url_has(self):
        url = U + "?a" * 10_000
        (told,) = self.store.frames([frame(1, script=url)], ignore_query=True)
        self.assertEqual(self.asked, [url, url[:-2], url[:-4], U])
        self.assertEqual(told["abs_path"], "http://h/m/src/a.ts")
        (told,) = self.store.frames([frame(1, script=V + "?" * 10_000)], ignore_query=True)
        self.assertEqual(told["abs_path"], "http://h/m/src/a.ts")

    def test_a_query_of_a_frame_may_have_any_marks(self):
        for query in ["?u=http://x/y.js?z=1", "?a:b", "?a#b?c#d", "#a?b", "?", "#", "?#"]:
            (told,) = self.store.frames([frame(1, script=U + query)], ignore_query=True)
            self.assertEqual(told["abs_path"], "http://h/m/src/a.ts", query)

    def test_numbers_below_nothing_are_refused(self):
        with self.assertRaisesRegex(ValueError, "context is below 0"):
            self.store.frames([frame(1)], -1)
        for line in ("ab", "\U0001d4b3"):
            with self.assertRaisesRegex(ValueError, "column is below 0"):
                smap.code_point(line, -1)

    def test_columns_are_utf_16_units(self):
        line = "\U0001d4b3 + x"
        rows = [(0, 0), (1, 0), (2, 1), (5, 4), (6, 5), (7, 5), (100, 5)]
        for column, index in rows:
            self.assertEqual(smap.code_point(line, column), index)
        self.assertEqual([smap.code_point("ab", column) for column in (0, 1, 2, 3)], [0, 1, 2, 2])


if __name__ == "__main__":
    unittest.main()

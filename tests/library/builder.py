"""Tests of the Python module's builder of maps."""

import copy
import math
import pickle
import sys
import unittest
from array import array
from fractions import Fraction
from pathlib import Path

sys.path.insert(0, str(Path(__file__).resolve().parents[2] / "capi" / "python"))
import smap  # noqa: E402

BASE = "http://h/m/out.js.map"
NONE = 0xFFFFFFFF
# The second source's mapping on line 1 comes before that of the first one, which is at the same position.
NUMBERS = [1, 4, 1, 0, 0, NONE, 0, 0, 0, 2, 1, 0, 1, 4, 0, 5, 0, NONE]
TEXT = (
    b'{"version":3,"file":"out.js","sources":["http://h/m/a.ts","http://h/m/b.ts"],'
    b'"sourcesContent":[null,"B"],"names":["f"],"mappings":"AAECA;ICFD,ADKA","ignoreList":[1]}'
)


class BuilderTest(unittest.TestCase):
    def setUp(self):
        self.builder = smap.Builder(BASE)

    def code_of(self, call, *words):
        with self.assertRaises(smap.Error) as raised:
            call(*words)
        return raised.exception.code

    def built(self):
        """The builder of the text above, without its mappings."""
        self.builder.file("out.js")
        self.assertEqual(self.builder.source("a.ts"), 0)
        self.assertEqual(self.builder.source("b.ts", "B", ignored=True), 1)
        self.assertEqual(self.builder.name("f"), 0)
        return self.builder

    def test_what_is_built_is_what_its_text_says(self):
        with self.built() as builder, smap.Map.open(TEXT, BASE) as wanted:
            builder.add(1, 4, 1, (0, 0))
            builder.add(0, 0, source=0, at=(2, 1), name=0)
            builder.add(1, 4, 0, [5, 0])
            made = builder.finish()
            self.assertEqual(made.canonical(), wanted.canonical())
            self.assertEqual(made.canonical(True), wanted.canonical(True))
            self.assertTrue(made.same(wanted))
            self.assertEqual(made.written_sources(), [(f"http://h/m/{name}.ts", None) for name in "ab"])

    def test_numbers_of_any_kind_are_taken(self):
        with smap.Map.open(TEXT, BASE) as wanted:
            for given in (NUMBERS, array("I", NUMBERS), array("I", NUMBERS).tobytes(), iter(NUMBERS)):
                self.setUp()
                self.built().extend([])
                self.builder.extend(given)
                self.assertTrue(self.builder.finish().same(wanted))

    def test_sources_and_names_have_one_number_each(self):
        builder, text = self.builder, "\u00e4\0"
        urls = ["a.ts", "./a.ts", "http://h/m/x/../a.ts", None, "", BASE, None, text]
        self.assertEqual([builder.source(url) for url in urls], [0, 0, 0, 1, 2, 2, 1, 3])
        self.assertEqual([builder.name(name) for name in ["f", "", "f", "", text]], [0, 1, 0, 1, 2])
        self.assertEqual(builder.source("a.ts", text, True), 0)
        self.assertEqual((builder.source("a.ts"), builder.source(None, "")), (0, 1))
        builder.file(text)
        builder.add(0, 0, 1, (0, 0), 2)
        made = builder.finish()
        self.assertEqual((made.file(), made.listed_name(2), made.lookup(0, 0).name), (text, text, text))
        self.assertEqual(made.source(0), smap.Source("http://h/m/a.ts", text, True))
        self.assertEqual(made.source(1), smap.Source(None, "", False))
        self.assertEqual(made.url(2), BASE)

    def test_what_is_given_last_counts(self):
        builder = self.builder
        for content in ("x", "y", None):
            builder.source("a.ts", content)
        for name in ("out.js", None):
            builder.file(name)
        made = builder.finish()
        self.assertEqual((made.file(), made.content(0), made.counts().mappings), (None, "y", 0))

    def test_a_builder_with_nothing_makes_a_map(self):
        with smap.Map.open(b'{"version":3,"mappings":""}', BASE) as wanted:
            self.assertTrue(self.builder.finish().same(wanted))

    def test_numbers_are_refused_by_name(self):
        words = {"line": 0, "column": 0, "source": 0, "at": (0, 0), "name": 0}
        builder, wrong = self.built(), {
            TypeError: (0.0, 1.5, math.nan, Fraction(1), "0", b"0", [0]),
            ValueError: (-1, -(1 << 40), 1 << 31, NONE, 1 << 32, 1 << 70),
        }
        for error, value in ((error, value) for error, values in wrong.items() for value in values):
            parts = {name: {name: value} for name in ("line", "column", "source", "name")}
            parts["the line in the source"] = {"at": (value, 0)}
            parts["the column in the source"] = {"at": (0, value)}
            says = "is an int, not " if error is TypeError else "is (below 0|above 2147483647)$"
            for name, part in parts.items():
                with self.assertRaisesRegex(error, f"^{name} {says}"):
                    builder.add(**{**words, **part})
        for missing in ("line", "column"):
            self.assertRaises(TypeError, builder.add, **{**words, missing: None})
        with self.assertRaisesRegex(ValueError, "^at is missing"):
            builder.add(0, 0, 0)
        for parts in ({"at": (0, 0)}, {"name": 0}, {"at": (0, 0), "name": 0}):
            with self.assertRaisesRegex(ValueError, "^a mapping without a source has no place"):
                builder.add(0, 0, **parts)
        for at in ((0,), (0, 0, 0), 0, ()):
            self.assertRaises((TypeError, ValueError), builder.add, 0, 0, 0, at)
        builder.add(True, 0)
        self.assertEqual(builder.finish().counts().mappings, 1)

    def test_mappings_are_added_together_or_not_at_all(self):
        builder, lines = smap.Builder(BASE, lines=2), [1, 0, NONE, NONE, NONE, NONE]
        wrong = {
            "source": [0, 0, 1, 0, 0, 0],
            "name": [0, 0, 0, 0, 0, 1],
            "line": [2, 0, NONE, NONE, NONE, NONE],
            "column": [0, 1 << 31, NONE, NONE, NONE, NONE],
            "a part": [0, 0, NONE, 0, NONE, NONE],
            "another": [0, 0, 0, 0, NONE, NONE],
        }
        builder.source("a.ts")
        builder.name("f")
        for numbers in wrong.values():
            with self.assertRaisesRegex(smap.Error, "^mapping 1: number out of range$") as raised:
                builder.extend(lines + numbers + lines)
            self.assertEqual(raised.exception.code, 7)
        self.assertEqual(self.code_of(builder.add, 2, 0), 7)
        self.assertEqual(self.code_of(builder.add, 0, 0, 1, (0, 0)), 7)
        self.assertEqual(self.code_of(builder.add, 0, 0, 0, (0, 0), 1), 7)
        for error, values in {ValueError: [[0], bytes(23)], OverflowError: [6 * [-1], 6 * [1 << 32]]}.items():
            for value in values:
                self.assertRaises(error, builder.extend, value)
        for value in ("AAAA", None, 1, 6 * [0.0], array("d", [0])):
            self.assertRaises(TypeError, builder.extend, value)
        builder.extend(lines)
        self.assertEqual(builder.finish().canonical_mappings(), b";A")

    def test_texts_and_bases_are_refused(self):
        for base in (None, BASE.encode(), Path("out.js.map")):
            with self.assertRaisesRegex(TypeError, "^the base of a map is a URL in a str, not "):
                smap.Builder(base)
        self.assertEqual(self.code_of(smap.Builder, "out.js.map"), 2)
        self.assertEqual(self.code_of(smap.Builder, BASE, 1 << 31), 3)
        self.assertRaises(ValueError, smap.Builder, BASE, lines=-1)
        builder = smap.Builder(BASE, items=1)
        calls = [(builder.file, "the name of a file"), (builder.name, "a name")]
        calls += [(builder.source, "the URL of a source")]
        calls += [(lambda text: builder.source("a.ts", text), "the content of a source")]
        for call, name in calls:
            for text in (b"a", 0, ["a"], Path("a")):
                with self.assertRaisesRegex(TypeError, f"^{name} is a str, not "):
                    call(text)
            self.assertRaises(UnicodeEncodeError, call, "\ud800")
        self.assertRaises(TypeError, builder.name, None)
        self.assertEqual(self.code_of(builder.source, "http://["), 2)
        self.assertEqual((builder.source("a.ts"), builder.name("f")), (0, 0))
        self.assertEqual((self.code_of(builder.source, "b.ts"), self.code_of(builder.source, None)), (11, 11))
        self.assertEqual(self.code_of(builder.name, "g"), 11)
        self.assertEqual(builder.finish().counts().listed_sources, 1)

    def test_a_builder_that_is_closed_says_so(self):
        builder = self.built()
        made = builder.finish()
        builder.close()
        calls = [(builder.file, None), (builder.source, "a.ts"), (builder.name, "f"), (builder.add, 0, 0)]
        for call, *words in [*calls, (builder.extend, NUMBERS), (builder.finish,)]:
            self.assertEqual(self.code_of(call, *words), 5)
        self.assertEqual(made.counts().listed_sources, 2)
        for call in (copy.copy, copy.deepcopy, pickle.dumps):
            with self.assertRaisesRegex(TypeError, "^cannot copy or pickle 'Builder' object"):
                call(builder)


if __name__ == "__main__":
    unittest.main()

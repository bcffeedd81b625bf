"""Tests of the store of the Python module: maps are composed with those that their sources lead to.

In the maps here, `AAAA` is a mapping from 1:1 to 1:1 of the first source, as logs count, `AAUE` one to 11:3;
`IAAI` behind `AAAA` is one from 1:5 to 1:5, and `IAEA` behind `AAUE` one from 1:5 to 13:3.
"""

import errno
import json
import pickle
import sys
import unittest
from pathlib import Path
from unittest import mock
from urllib.parse import quote

from files_case import FilesCase

sys.path.insert(0, str(Path(__file__).resolve().parents[2] / "capi" / "python"))
import smap  # noqa: E402

SITE = "http://h/m/"
SCRIPT = SITE + "app.min.js"
LAST = "@http://h/m/app.ts:11:3\n@http://h/m/app.ts:13:3\n"
FIRST = "@http://h/m/app.js:1:1\n@http://h/m/app.js:1:5\n"
ENDLESS = "its sources lead on more than 16 deep, or back to a map before"
PAST_END = "its map is of another text: mappings begin past the end of this"


def map_of(sources, mappings, **more):
    return json.dumps({"version": 3, "sources": sources, "mappings": mappings, **more}).encode()


def naming(url, text="f();g()"):
    """A script that names a map."""
    return f"{text}\n//# sourceMappingURL={url}\n"


def holding(data, text="f();g()"):
    """A script that holds a map."""
    return naming("data:application/json," + quote(data), text)


# The map of app.js, and that of a script to which app.js was made, which has app.js's text or hasn't.
INNER = map_of(["app.ts"], "AAUE,IAEA")
OUTER = map_of(["app.js"], "AAAA,IAAI")


def outer(text):
    return map_of(["app.js"], "AAAA,IAAI", sourcesContent=[text])


def asked(store, script=SCRIPT, columns=(1, 5)):
    """What a store makes of positions in the first line of a script."""
    return store.translate("".join(f"@{script}:1:{column}\n" for column in columns))


class ContentTest(unittest.TestCase):
    """Sources that hold their maps, of scripts whose maps a function finds."""

    def store(self, data, **words):
        return smap.Store({SCRIPT: data}.get, **words)

    def check(self, data, told, faults=(), **words):
        with self.store(data, **words) as store:
            self.assertEqual(asked(store), told)
            self.assertEqual(store.unfollowed, {SCRIPT: list(faults)} if faults else {})
            self.assertEqual((store.broken, store.opened), ({}, {SCRIPT: 1}))

    def test_a_source_may_hold_its_map(self):
        self.check(outer(holding(INNER)), LAST)

    def test_it_can_be_switched_off(self):
        self.check(outer(holding(INNER)), FIRST, chains=False)
        for chains in (True, False):
            with smap.Store({}, chains=chains) as store:
                self.assertEqual(pickle.loads(pickle.dumps(store)).chains, chains)

    def test_names_lines_and_frames_are_those_of_the_last_source(self):
        text = "\n" * 10 + "  first();\n\n  second();\n"
        inner = map_of(["app.ts"], "AAUEA,IAEA", names=["first"], sourcesContent=[text])
        with self.store(outer(holding(inner))) as store:
            found = store.lookup(SCRIPT, 0, 1)
            place = found.url, found.source_line, found.source_column, found.name
            self.assertEqual(place, ("http://h/m/app.ts", 10, 2, "first"))
            frame = store.frames([{"abs_path": SCRIPT, "lineno": 1, "colno": 5}], context=2)[0]
            self.assertEqual((frame["abs_path"], frame["lineno"], frame["colno"]), (SITE + "app.ts", 13, 3))
            self.assertEqual((frame["context_line"], frame["pre_context"]), ("  second();", ["  first();", ""]))

    def test_maps_may_be_at_every_depth(self):
        data = INNER
        for name in ["c.js", "b.js", "app.js"]:
            data = map_of([name], "AAAA,IAAI", sourcesContent=[holding(data)])
        self.check(data, LAST)

    def test_other_sources_and_what_has_no_original_stay(self):
        # 1:1 and 1:5 of the script are 1:5 of app.js, which comes from nowhere, and 1:1 of b.js
        data = map_of(["app.js", "b.js"], "AAAI,ICAJ", sourcesContent=[holding(map_of(["a"], "AAAA,I")), ""])
        self.check(data, f"@{SCRIPT}:1:1\n@http://h/m/b.js:1:1\n")

    def test_a_map_of_another_text_is_not_followed(self):
        # gen 5:1, and columns: yB is 25, G 3, I 4, K 5
        rows = [
            (";;;;AAUE", "f()", True), ("AAUE,yBAEA", "f()", True), ("AAUE,GAEA", "f()", False),
            ("AAUE,IAEA", "f()", True), ("AAUE,IAEA", "'\U0001f600'", False),
            ("AAUE,KAEA", "'\U0001f600'", True), ("AAUE;;AAUE", "f()\r\n", False),
            ("AAUE;;;AAUE", "f()\r\n", False), ("AAUE;;;;AAUE", "f()\r\n", True),
            ("AAUE,IAEA", "f()\r\n", True), ("AAUE;;;AAUE", "f()\rg()", False),
            (";;;;;;AAUE", "f()\u2028", False),
        ]
        for mappings, text, is_past in rows:
            with self.subTest(mappings=mappings, text=text):
                data = map_of(["app.js"], "AAAA", sourcesContent=[holding(map_of(["app.ts"], mappings), text)])
                with self.store(data) as store:
                    store.lookup(SCRIPT, 0, 0)
                    faults = {SCRIPT: [f"http://h/m/app.js: {PAST_END}"]} if is_past else {}
                    self.assertEqual(store.unfollowed, faults)

    def test_a_map_that_is_refused_is_not_followed(self):
        rows = [
            (holding(b'{"version":2}'), "version"),
            (naming("data:application/json"), "the map that app.js names: not a URL"),
            (naming("app.js.map"), "app.js names a map that is no file of its folder: app.js.map"),
            (naming("http://["), "the map that app.js names: not a URL"),
        ]
        for text, fault in rows:
            with self.subTest(text=text):
                self.check(outer(text), FIRST, [f"http://h/m/app.js: {fault}"])

    def test_one_refused_map_leaves_the_others(self):
        texts = [holding(b"{"), holding(INNER)]
        data = map_of(["a.js", "app.js"], "AAAA,ICAI", sourcesContent=texts)
        with self.store(data) as store:
            self.assertEqual(asked(store), "@http://h/m/a.js:1:1\n@http://h/m/app.ts:13:3\n")
            self.assertEqual([fault[:17] for fault in store.unfollowed[SCRIPT]], ["http://h/m/a.js: "])

    def test_a_style_sheet_has_comments_of_its_own(self):
        text = "a{} b{}/*# sourceMappingURL=data:," + quote(INNER) + " */"
        data = map_of(["app.css"], "AAAA,IAAI", sourcesContent=[text])
        self.check(data, LAST)
        script = map_of(["app.css"], "AAAA,IAAI", sourcesContent=[holding(INNER)])
        self.check(script, FIRST.replace("app.js", "app.css"))

    def test_up_to_16_levels_are_followed(self):
        data = INNER
        for _ in range(16):
            data = map_of(["app.js"], "AAAA,IAAI", sourcesContent=[holding(data)])
        self.check(data, LAST)
        data = map_of(["b.js"], "AAAA,IAAI", sourcesContent=[holding(data)])
        self.check(data, FIRST.replace("app", "b"), [ENDLESS])

    def test_a_letter_of_the_comment_may_be_escaped(self):
        self.check(outer(holding(INNER)).replace(b"sourceMappingURL", b"sourceM\\u0061ppingURL"), LAST)

    def test_faults_are_few_and_short_and_forgotten(self):
        names = [f"{'n' * 5_000}{number}.js" for number in range(20)]
        data = map_of(names, "AAAA", sourcesContent=[holding(b"{"), naming("in.map")] * 10)
        maps = {SCRIPT: data}
        with smap.Store(maps.get) as store:
            store.lookup(SCRIPT, 0, 0)
            self.assertEqual([fault[:20] for fault in store.unfollowed[SCRIPT]], [f"{SITE}{'n' * 9}"] * 10)
            self.assertLess(max(map(len, store.unfollowed[SCRIPT])), 700)
            store.forget(SCRIPT)
            self.assertEqual(store.unfollowed, {})
            store.lookup(SCRIPT, 0, 0)
            self.assertEqual(list(store.unfollowed), [SCRIPT])
            store.forget()
            self.assertEqual(store.unfollowed, {})
        data = map_of(["a.js"], "AAAA", sourcesContent=[holding(b"{")])
        with smap.Store(lambda script: data) as store:
            for number in range(10_002):
                store.lookup(f"http://h/{number}.js", 0, 0)
            self.assertEqual(len(store.unfollowed), 10_000)

    def test_a_composed_map_is_what_is_kept(self):
        data = outer(holding(INNER))
        with smap.Map.open(data, SCRIPT + ".map") as own, smap.Map.open(INNER, SITE + "app.js") as inner:
            with own.compose({0: inner}) as composed:
                held = composed.held()
        with self.store(data) as store:
            store.lookup(SCRIPT, 0, 0)
            self.assertEqual(store.kept_bytes, held + len(SCRIPT) + 1_000)
        for room in (0, held):
            with self.store(data, cache_bytes=room) as store:
                self.assertEqual((asked(store), store.kept_bytes), (LAST, 0))

    def test_inner_maps_are_closed(self):
        made = []

        def noted(call):
            def noting(*words, **more):
                made.append(call(*words, **more))
                return made[-1]

            return noting

        data = map_of(["b.js"], "AAAA,IAAI", sourcesContent=[holding(outer(holding(INNER)))])
        with mock.patch("smap.cache.Map.open", noted(smap.Map.open)), self.store(data) as store:
            with mock.patch("smap.maps.Map.compose", noted(smap.Map.compose)):
                self.assertEqual(asked(store), LAST)
            # three are opened, and two are composed, of which the last is kept
            self.assertEqual(len(made), 5)
            self.assertEqual(made.pop().url(0), SITE + "app.ts")
            for other in made:
                with self.assertRaisesRegex(smap.Error, "closed"):
                    other.counts()

    def test_inner_maps_have_the_bounds_of_maps(self):
        # the URLs of a.js and b.js have 15 bytes each, and those of the last sources 16
        texts = [holding(map_of(["a.tsx"], "AAUE")), holding(map_of(["b.tsx"], "AAUE"))]
        data = map_of(["a.js", "b.js"], "AAAA,ICAA", sourcesContent=texts)
        rows = [(32, "b.tsx:11:3", {}), (31, "b.js:1:1", {SCRIPT: ["http://h/m/b.js: too many bytes of URLs"]})]
        for url_bytes, second, faults in rows:
            with self.store(data, url_bytes=url_bytes) as store:
                self.assertEqual(asked(store), f"@http://h/m/a.tsx:11:3\n@http://h/m/{second}\n")
                self.assertEqual(store.unfollowed, faults)


class FilesTest(FilesCase):
    """Sources in the folder of a script."""

    def setUp(self):
        super().setUp()
        self.put("dist/app.min.js", OUTER)

    def store(self, **words):
        return smap.Store({SITE: self.dist}, **words)

    def check(self, told, faults=(), **words):
        with self.store(**words) as store:
            self.assertEqual(asked(store), told)
            self.assertEqual(store.unfollowed, {SCRIPT: list(faults)} if faults else {})
            self.assertEqual((store.broken, store.opened), ({}, {SCRIPT: 1}))

    def script(self, name, text):
        return self.write("dist/" + name, text.encode())

    def test_a_source_is_looked_at_by_its_file(self):
        self.script("app.js", naming("maps/in.map"))
        self.put("dist/maps/in", map_of(["../app.ts"], "AAUE,IAEA"))
        self.check(LAST)
        self.check(FIRST, chains=False)
        self.script("app.js", holding(INNER))
        self.check(LAST)
        # the map next to a source isn't that of one that names none, or another
        file = self.script("app.js", "f();g()\n")
        self.put("dist/app.js", INNER)
        self.check(FIRST)
        self.script("app.js", naming("none.map"))
        self.check(FIRST, [f"http://h/m/app.js: [Errno 2] the map that it names is missing: '{file}'"])

    def test_three_levels(self):
        self.script("app.js", naming("app.js.map"))
        self.put("dist/app.js", map_of(["es/app.js"], "AACA,IAAI"))
        self.script("es/app.js", naming("../es.map", "'use strict'\nf();g()"))
        self.put("dist/es", map_of(["app.ts"], ";AAUE,IAEA"))
        self.check(LAST)

    def test_a_content_comes_before_the_file(self):
        self.put("dist/app.min.js", outer(holding(INNER)))
        self.script("app.js", naming("none.map"))
        self.check(LAST)
        self.put("dist/app.min.js", outer("f();g()"))
        self.check(FIRST)

    def test_a_content_that_differs_from_its_file_is_not_followed(self):
        file = self.script("app.js", naming("app.js.map"))
        named = self.put("dist/app.js", INNER)
        for text in (naming("app.js.map"), "\ufeff" + naming("app.js.map").replace("\n", "\r\n")):
            self.put("dist/app.min.js", outer(text))
            self.check(LAST)
        self.put("dist/app.min.js", outer(naming("app.js.map", "h();g()")))
        fault = f"its content in the map differs from {file}, which names {named}"
        self.check(FIRST, [f"http://h/m/app.js: {fault}"])
        file.unlink()
        self.check(LAST)

    def test_what_cannot_be_read_is_not_followed(self):
        file = self.script("app.js", naming("app.js.map"))
        self.check(FIRST, [f"http://h/m/app.js: [Errno 2] the map that it names is missing: '{file}'"])
        self.put("dist/app.js", b'{"version":2}')
        self.check(FIRST, ["http://h/m/app.js: version"])
        self.put("dist/app.js", INNER + b" " * 1_000)
        with self.store(map_bytes=1_000) as store:
            self.assertEqual(asked(store), FIRST)
            fault = f"http://h/m/app.js: [Errno {errno.EFBIG}] a map of more than 1000 bytes: "
            self.assertEqual([text[: len(fault)] for text in store.unfollowed[SCRIPT]], [fault])

    def test_a_map_of_another_text_is_not_followed(self):
        self.script("app.js", naming("app.js.map", "f()"))
        self.put("dist/app.js", INNER)
        self.check(FIRST, [f"http://h/m/app.js: {PAST_END}"])

    def test_nothing_outside_of_the_folder_is_read(self):
        self.put("secret", INNER)
        file = self.script("app.js", naming("../secret.map"))
        told = f"http://h/m/app.js: {file} names a map that is no file of its folder: "
        self.check(FIRST, [told + "../secret.map"])
        (self.dist / "linked.map").symlink_to(self.temp / "secret.map")
        self.script("app.js", naming("linked.map"))
        self.check(FIRST, [told + "linked.map"])
        # nor is a source that isn't below the folder
        self.write("up.js", holding(INNER).encode())
        self.put("dist/app.min.js", map_of(["../up.js"], "AAAA,IAAI"))
        self.check("@http://h/up.js:1:1\n@http://h/up.js:1:5\n")

    def test_a_script_that_was_written_over_its_source_leads_nowhere(self):
        self.script("app.min.js", naming("app.min.js.map"))
        self.put("dist/app.min.js", map_of(["app.min.js"], "AAUE,IAEA"))
        self.check("@http://h/m/app.min.js:11:3\n@http://h/m/app.min.js:13:3\n")
        # so does a source
        self.put("dist/app.min.js", OUTER)
        self.script("app.js", naming("app.js.map"))
        self.put("dist/app.js", map_of(["app.js"], "AAUE,IAEA"))
        self.check(FIRST.replace("1:1", "11:3").replace("1:5", "13:3"))

    def test_sources_that_lead_back_leave_the_map_as_it_is(self):
        self.script("app.js", naming("app.js.map"))
        self.put("dist/app.js", map_of(["b.js"], "AAAA,IAAI"))
        self.script("b.js", naming("b.js.map"))
        self.put("dist/b.js", map_of(["app.js"], "AAAA,IAAI"))
        self.check(FIRST, [ENDLESS])

    def test_a_file_is_opened_once(self):
        # 15 levels, in each of which eight sources have the same map
        for level in range(1, 16):
            sources = [f"{level + 1}.js?{number}" for number in range(8)]
            self.script(f"{level}.js", naming(f"{level}.js.map"))
            self.put(f"dist/{level}.js", map_of(sources, "AAAA,IAAI"))
        self.script("16.js", naming("16.js.map"))
        self.put("dist/16.js", INNER)
        self.put("dist/app.min.js", map_of(["1.js"], "AAAA,IAAI"))
        opened = []

        def noted(data, base, **words):
            opened.append(base)
            return open_map(data, base, **words)

        open_map = smap.Map.open
        with mock.patch("smap.cache.Map.open", noted):
            self.check(LAST)
        names = ["app.min.js", *(f"{level}.js" for level in range(1, 17))]
        self.assertEqual(opened, [f"{SITE}{name}.map" for name in names])

    def test_levels_are_counted_on_each_way_to_a_file(self):
        # app.js leads on at one level more, and x.js to it through maps in contents
        self.script("app.js", naming("app.js.map"))
        self.put("dist/app.js", map_of(["b.js"], "AAAA,IAAI"))
        self.script("b.js", naming("b.js.map"))
        self.put("dist/b.js", INNER)
        data = OUTER
        for levels in range(1, 16):
            # b.js.map is two levels below the last of these maps
            root = map_of(["app.js", "x.js"], "AAAA,ICAI", sourcesContent=[None, holding(data)])
            self.put("dist/app.min.js", root)
            if levels + 2 <= 16:
                self.check(LAST)
            else:
                self.check("@http://h/m/app.js:1:1\n@http://h/m/x.js:1:5\n", [ENDLESS])
            data = map_of(["y.js"], "AAAA,IAAI", sourcesContent=[holding(data)])

    def test_a_folder_and_a_script_may_be_named_by_paths(self):
        self.script("app.js", naming("app.js.map"))
        self.put("dist/app.js", INNER)
        with smap.Store({"/srv/": self.dist}) as store:
            wanted = "@file:///srv/app.ts:11:3\n@file:///srv/app.ts:13:3\n"
            self.assertEqual(asked(store, "/srv/app.min.js"), wanted)
            self.assertEqual(store.unfollowed, {})

    def test_a_source_may_have_a_query_and_escapes(self):
        self.script("a b.js", naming("a%20b.js.map"))
        self.put("dist/a b.js", INNER)
        self.put("dist/app.min.js", map_of(["a%20b.js?v=1#x"], "AAAA,IAAI"))
        self.check(LAST)

    def test_a_script_may_have_its_own_file(self):
        self.script("app.js", naming("app.js.map"))
        self.put("dist/app.js", INNER)
        self.script("app.min.js", naming("app.min.js.map"))
        for name in ("app.min.js", "app.min.js.map"):
            with smap.Store({SCRIPT: self.dist / name}) as store:
                self.assertEqual((asked(store), store.unfollowed), (LAST, {}), name)

    def test_of_several_folders_that_of_the_script_counts(self):
        self.write("other/m/app.js", naming("app.js.map").encode())
        self.put("other/m/app.js", map_of(["wrong.ts"], "AAUE,IAEA"))
        self.script("app.js", naming("app.js.map"))
        self.put("dist/app.js", INNER)
        with smap.Store({"http://h/": self.temp / "other", SITE: self.dist}) as store:
            self.assertEqual((asked(store), store.unfollowed), (LAST, {}))


if __name__ == "__main__":
    unittest.main()

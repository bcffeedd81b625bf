"""Tests of maps that are found by their debug ids: of a store's, and of events' of Sentry."""

import json
import unittest

from events_case import EventsCase, MAP, SOURCE
from files_case import FilesCase, smap

ID = "85314830-023f-4cf1-a267-535f4e37bb17"
OTHER = "0f0e0d0c-0b0a-4908-8706-050403020100"


def with_members(**members):
    return json.dumps({"version": 3, "sources": ["a.js"], "mappings": "AAUE", **members}).encode()


class StoreTest(FilesCase):
    def store(self):
        store = smap.Store({"http://h/m/": self.dist})
        self.addCleanup(store.close)
        return store

    def test_the_script_of_the_map_with_an_id(self):
        self.put("dist/sub/a b.js", with_members(debugId=ID))
        self.put("dist/other.js", with_members(debugId=OTHER))
        store = self.store()
        self.assertEqual(store.by_debug_id(ID), "http://h/m/sub/a%20b.js")
        self.assertEqual(store.by_debug_id(ID.upper()), "http://h/m/sub/a%20b.js")
        self.assertEqual(store.lookup(store.by_debug_id(OTHER), 0, 0).url, "http://h/m/a.js")
        for absent in ("", ID[:-1], ID.replace("-", "")):
            self.assertIsNone(store.by_debug_id(absent))

    def test_which_member_is_the_id(self):
        rows = [
            (with_members(debug_id=ID), True),
            (b")]}'\n" + with_members(debugId=ID), True),
            (with_members(debugId=OTHER, debug_id=ID), False),
            (with_members(debugId=None, debug_id=ID), False),
            (with_members(debugId=[ID]), False),
            (with_members(x_other={"debugId": ID}), False),
            (with_members(sourcesContent=[f'"debugId":"{ID}"']), False),
            (b'["debugId"]', False),
            (b'{"debugId":"' + ID.encode(), False),
            (b'{"debugId":"\xff"}', False),
            (b'{"debugId":' + b"[" * 100_000, False),
        ]
        for data, is_found in rows:
            self.put("dist/a.js", data)
            self.assertEqual(self.store().by_debug_id(ID), "http://h/m/a.js" if is_found else None, data[:80])

    def test_a_map_that_its_script_names_or_holds(self):
        self.put("dist/maps/a", with_members(debugId=ID))
        self.write("dist/a.js", b"f()\n//# sourceMappingURL=maps/a.map\n")
        self.write("dist/b.js", b"//# sourceMappingURL=data:," + with_members(debugId=OTHER).replace(b" ", b""))
        store = self.store()
        self.assertEqual(store.lookup(store.by_debug_id(ID), 0, 0).source_line, 10)
        self.assertEqual(store.by_debug_id(OTHER), "http://h/m/b.js")

    def test_a_script_that_is_given_by_itself_and_the_first_of_several(self):
        self.put("dist/a.js", with_members(debugId=ID))
        file = self.put("one", with_members(debugId=ID))
        store = smap.Store({"http://h/m/": self.dist, "http://h/one.js": file})
        self.assertEqual(store.by_debug_id(ID), "http://h/one.js")

    def test_maps_are_read_once_until_they_are_forgotten(self):
        store = self.store()
        self.assertIsNone(store.by_debug_id(ID))
        self.put("dist/late.js", with_members(debugId=ID))
        self.assertIsNone(store.by_debug_id(ID))
        store.forget()
        self.assertEqual(store.by_debug_id(ID), "http://h/m/late.js")

    def test_what_cannot_be_read_is_left_out(self):
        self.put("dist/a.js", with_members(debugId=ID))
        (self.dist / "b.js.map").mkdir()
        (self.dist / "c.js.map").symlink_to("nowhere")
        self.assertEqual(self.store().by_debug_id(ID), "http://h/m/a.js")

    def test_another_finder(self):
        with self.assertRaises(ValueError):
            smap.Store(lambda script: None).by_debug_id(ID)


class EventsTest(EventsCase):
    def setUp(self):
        super().setUp()
        (self.dist / "cart.js.map").write_text(json.dumps({**MAP, "debugId": ID}))
        old = {**MAP, "sources": ["old.ts", *MAP["sources"][1:]], "debugId": OTHER}
        (self.dist / "old.js.map").write_text(json.dumps(old))

    @staticmethod
    def event(images, *files):
        frames = [{"filename": file, "lineno": 1, "colno": 1} for file in files]
        return {"stacktrace": {"frames": frames}, "debug_meta": {"images": images}}

    @staticmethod
    def image(file, debug_id, kind="sourcemap"):
        return {"type": kind, "code_file": file, "debug_id": debug_id}

    def sources(self, event):
        return [frame.get("abs_path") for frame in self.told(event)["stacktrace"]["frames"]]

    def test_a_frame_has_the_map_of_its_debug_id(self):
        cdn = "https://cdn.example/x.js"
        event = self.event([self.image(cdn, ID.upper())], cdn, "https://cdn.example/y.js")
        told = self.told(event)
        self.assertEqual(told["debug_meta"], event["debug_meta"])
        one, other = told["stacktrace"]["frames"]
        self.assertEqual((one["abs_path"], one["filename"], one["lineno"]), (SOURCE, "src/cart.ts", 3))
        self.assertEqual(other, event["stacktrace"]["frames"][1])
        self.assertEqual(told["raw_stacktrace"], event["stacktrace"])

    def test_the_id_comes_before_the_url(self):
        script = "https://s.example/cart.js"
        old = "https://s.example/old.ts"
        self.assertEqual(self.sources(self.event([self.image(script, OTHER)], script)), [old])
        self.assertEqual(self.sources(self.event([self.image(script, "none")], script)), [SOURCE])
        self.assertEqual(self.sources(self.event([self.image(script, OTHER, "macho")], script)), [SOURCE])

    def test_each_event_has_its_own_ids(self):
        script = "https://s.example/cart.js"
        events = [self.event([self.image(script, it)] * bool(it), script) for it in (None, OTHER, ID, None, OTHER)]
        told, _, _ = self.events(*[json.dumps(event).encode() for event in events])
        paths = [json.loads(line)["stacktrace"]["frames"][0]["filename"] for line in told]
        self.assertEqual(paths, ["src/cart.ts", "old.ts", "src/cart.ts", "src/cart.ts", "old.ts"])

    def test_what_is_no_image_is_ignored(self):
        script = "https://s.example/cart.js"
        for meta in (None, 1, [], {}, {"images": None}, {"images": {}}, {"images": [1, None, [], {}]}):
            event = {**self.event([], script), "debug_meta": meta}
            self.assertEqual(self.sources(event), [SOURCE])
        for image in (self.image(1, ID), self.image(script, 1), self.image(None, None), {"type": "sourcemap"}):
            self.assertEqual(self.sources(self.event([image], script)), [SOURCE])


if __name__ == "__main__":
    unittest.main()

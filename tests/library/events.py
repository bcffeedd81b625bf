"""Tests of the program smap-events: the shapes of its events."""

import itertools
import json
import resource
import shutil
import sys
import unittest

from events_case import BUGSNAG, ECS, EventsCase, LIBRARY, OTLP, PROGRAM, ROLLBAR, ROLLBAR_TRACE, SCRIPT
from events_case import SENTRY, SOURCE, STACK, TOLD, TOP, copied

sys.path.insert(0, str(PROGRAM.parent))
from smap.noted import Worth  # noqa: E402


class ShapesTest(EventsCase):
    def test_sentry(self):
        event = copied(SENTRY)
        told = self.told(event)
        value = told["exception"]["values"][0]
        self.assertEqual(value.pop("raw_stacktrace"), SENTRY["exception"]["values"][0]["stacktrace"])
        self.assertEqual(
            value.pop("stacktrace")["frames"],
            [
                {
                    "filename": "lib.js", "function": "?", "in_app": False, "lineno": 1, "colno": 1,
                    "abs_path": LIBRARY,
                },
                {
                    "filename": "src/cart.ts", "function": "t", "in_app": True, "lineno": 3, "colno": 2,
                    "abs_path": SOURCE, "pre_context": ["one", "two"], "context_line": "three",
                    "post_context": ["four", ""],
                },
            ],
        )
        del event["exception"]["values"][0]["stacktrace"]
        self.assertEqual(told, event)

    def test_sentry_names_the_script_by_its_absolute_path_if_there_is_one(self):
        frames = [
            {"abs_path": SCRIPT, "filename": "~/cart.js", "lineno": 1, "colno": 1},
            {"abs_path": "https://s.example/none.js", "filename": SCRIPT, "lineno": 1, "colno": 1},
            {"abs_path": None, "filename": SCRIPT + "?v=3", "lineno": 1, "colno": 1},
        ]
        event = {"threads": {"values": [{"id": 1, "stacktrace": {"frames": frames, "registers": {}}}]}}
        stack = self.told(event)["threads"]["values"][0]["stacktrace"]
        self.assertEqual([frame["lineno"] for frame in stack["frames"]], [3, 1, 3])
        self.assertEqual((stack["registers"], stack["frames"][1]), ({}, frames[1]))

    def test_an_envelope_of_sentry_says_how_long_its_items_are(self):
        event = json.dumps(SENTRY).encode()
        head = b'{"event_id":"9fac2ceed9344f2bbfdd1fdacb0ed9b1","sent_at":"2026-11-26T00:00:00Z"}'
        of_event = b'{"type":"event", "length" : %d,"content_type":"application/json"}'
        other = [b'{"type":"attachment","length":9,"filename":"a.txt"}', b"no event\xff"]
        told, _, status = self.events(head, of_event % len(event), event, *other, b"")
        self.assertEqual((status, told[0], told[3:]), (1, head, [*other, b""]))
        self.assertEqual(told[1], of_event % len(told[2]))
        self.assertEqual(json.loads(told[2]), self.told(SENTRY))
        for lines in [
            (of_event % len(event),), (of_event % len(event), b"{}"), (of_event % 3, b"{}", event),
            (of_event % 9, of_event % 8, b"{}"), (of_event % len(of_event % 8), of_event % 8, b"{}"),
            (b'{"type":"event","length":"9"}', b"{}"),
        ]:
            self.assertEqual(self.events(*lines)[0][:2], list(lines)[:2], lines)
        told, _, _ = self.events(of_event % (len(event) + 1), event)
        self.assertEqual(told[0], of_event % (len(event) + 1))

    def test_bugsnag(self):
        event = copied(BUGSNAG)
        told = self.told(event)
        exception = told["events"][0]["exceptions"][0]
        sent = event["events"][0]["exceptions"][0].pop("stacktrace")
        self.assertEqual(exception.pop("raw_stacktrace"), sent)
        self.assertEqual(
            exception.pop("stacktrace"),
            [
                {
                    "file": SOURCE, "method": "t", "lineNumber": 3, "columnNumber": 2, "inProject": True,
                    "code": {"1": "one", "2": "two", "3": "three", "4": "four", "5": ""},
                },
                {
                    "file": LIBRARY, "method": "global code", "lineNumber": 1, "columnNumber": 1,
                    "inProject": False,
                },
                sent[2],
            ],
        )
        self.assertEqual(told, event)

    def test_rollbar(self):
        wanted = [
            {"filename": LIBRARY, "lineno": 1, "colno": 1, "method": "[anonymous]"},
            {
                "filename": SOURCE, "lineno": 3, "colno": 2, "method": "t", "code": "three",
                "context": {"pre": ["one", "two"], "post": ["four", ""]},
            },
        ]
        told = self.told(ROLLBAR)
        trace = told["data"]["body"]["trace"]
        self.assertEqual((trace["frames"], trace["raw_frames"]), (wanted, ROLLBAR_TRACE["frames"]))
        trace["frames"] = trace.pop("raw_frames")
        self.assertEqual(told, ROLLBAR)
        chain = self.told({"data": {"body": {"trace_chain": [ROLLBAR_TRACE, None, ROLLBAR_TRACE]}}})
        first, none, second = chain["data"]["body"]["trace_chain"]
        self.assertEqual((first["frames"], none, second["frames"]), (wanted, None, wanted))

    def test_ecs(self):
        told = self.told(ECS)
        self.assertEqual(told["error"].pop("raw_stack_trace"), STACK)
        self.assertEqual(told, {**ECS, "error": {**ECS["error"], "stack_trace": TOLD}})
        # names with dots, as of ecs-logging, which may write a list of lines
        for stack, wanted in [(STACK, TOLD), (STACK.split("\n"), TOLD.split("\n"))]:
            told = self.told({"error.stack_trace": stack})
            self.assertEqual(told, {"error.stack_trace": wanted, "error.raw_stack_trace": stack})

    def test_opentelemetry_in_otlp(self):
        told = self.told(OTLP)
        record = copied(OTLP)
        attributes = record["resourceLogs"][0]["scopeLogs"][0]["logRecords"][0]["attributes"]
        attributes[1]["value"]["stringValue"] = TOLD
        attributes.append({"key": "exception.raw_stacktrace", "value": {"stringValue": STACK}})
        self.assertEqual(told, record)
        self.assertEqual(self.told(told), told)

    def test_opentelemetry_with_attributes_by_name(self):
        told = self.told({"name": "exception", "attributes": {"exception.stacktrace": STACK}})
        wanted = {"exception.stacktrace": TOLD, "exception.raw_stacktrace": STACK}
        self.assertEqual(told, {"name": "exception", "attributes": wanted})
        told = self.told({"exception": {"type": "TypeError", "stacktrace": STACK}})
        self.assertEqual(told["exception"]["stacktrace"], TOLD)

    def test_frames_of_elastic_apm_are_a_list(self):
        frames = [{"abs_path": SCRIPT, "filename": "cart.js", "lineno": 1, "colno": 1, "function": "t"}]
        told = self.told({"error": {"exception": {"message": "x", "stacktrace": frames}}})
        exception = told["error"]["exception"]
        self.assertEqual(exception["stacktrace"][0]["abs_path"], SOURCE)
        self.assertEqual(exception["raw_stacktrace"], frames)

    def test_stacks_of_loggers(self):
        told = self.told({"level": 50, "err": {"type": "TypeError", "message": "x", "stack": STACK}})
        self.assertEqual((told["err"]["stack"], told["err"]["raw_stack"]), (TOLD, STACK))

    def test_what_was_kept_stays(self):
        once = self.told(SENTRY)
        self.assertEqual(self.told(once), once)
        stack = f"@{SCRIPT}:1:1"
        mine, told = {"stack": stack, "x": [stack], "raw_stack": "mine"}, f"@{SOURCE}:3:2"
        for one in (mine, dict(list(mine.items())[::-1])):
            for event in (one, {"a": one}, {"a": [one, {"stack": stack}, one], "stack": stack, "b": one}):
                found = self.told(event)
                for holder in [found, *found.get("a", [])] if isinstance(found.get("a"), list) else ():
                    wanted = "mine" if "x" in holder else stack
                    self.assertEqual((holder["stack"], holder["raw_stack"]), (told, wanted))
                text = json.dumps(found)
                self.assertEqual(text.count("mine"), json.dumps(event).count("mine"))
                self.assertEqual(text.count('"raw_stack"'), text.count('"stack"'))
        trace = {**ROLLBAR_TRACE, "raw_frames": "mine"}
        self.assertEqual(self.told({"trace": trace})["trace"]["raw_frames"], "mine")

    def test_what_was_kept_is_not_translated(self):
        for name in ("raw_stacktrace", "raw_stack", "error.raw_stack_trace"):
            line = json.dumps({name: {"stack": STACK, "stacktrace": ROLLBAR_TRACE}}).encode()
            self.assertEqual(self.events(line)[::2], ([line], 0))

    def test_frames_are_told_alike_however_their_list_is_read(self):
        words = ["f", "},{", "}, {", "}]", "[{", "a{b", "lineNumber", "frames", "\\", '"', "\u00e4"]
        frames = [
            {"filename": SCRIPT, "function": word, "lineno": 1, "colno": column}
            for column in (1, 20, 1)
            for word in words
        ]
        # frames that aren't first are read as a whole
        around = [{"a": 1, "frames": 0}, {"frames": 0}, {"frames": 0, "a": [{"b": "}]"}]}]
        styles = [(",", ":"), (", ", ": "), (" , ", " : ")]
        ways = [(stack, style) for stack in around for style in styles]
        stacks = [[frame] for frame in frames] + [frames, frames[::-1]]
        lines = [
            json.dumps({"stacktrace": {**stack, "frames": one}}, separators=style).encode()
            for one in stacks
            for stack, style in ways
        ]
        told, said, status = self.events(*lines)
        self.assertEqual(status, 0, said)
        found = [json.loads(line)["stacktrace"] for line in told]
        for number, one in enumerate(stacks):
            wanted, *others = found[number * len(ways) : (number + 1) * len(ways)]
            self.assertEqual([frame["function"] for frame in wanted["frames"]], [f["function"] for f in one])
            self.assertNotEqual(wanted["frames"], one)
            for (stack, _), other in zip(ways[1:], others):
                self.assertEqual(other, {**stack, "frames": wanted["frames"]})
        self.assertIn(f"frames translated: {len(ways) * 3 * len(frames)},", said)

    def test_frames_are_told_alike_whether_known_ones_are_looked_for_or_not(self):
        def events(columns):
            for _ in range(300):
                for name in ("stacktrace", "trace", "stack"):
                    places = [(SCRIPT, next(columns)) for _ in range(15)]
                    frames = [{"filename": script, "lineno": 1, "colno": at} for script, at in places]
                    text = "\n".join(f"@{script}:1:{at}" for script, at in places)
                    yield json.dumps({name: text if name == "stack" else {"frames": frames}}).encode()

        # first those of which none comes again, and first those of which all do
        lines = [*events(itertools.count(1)), *events(itertools.cycle(range(1, 40)))]
        told, said, _ = self.events(*lines)
        told_last, said_last, _ = self.events(*lines[::-1])
        self.assertTrue((told, said) == (told_last[::-1], said_last), said + said_last)
        self.assertFalse(set(lines) & set(told))

    def test_known_frames_are_looked_for_while_enough_are_found(self):
        worth = Worth()

        def rounds(found):
            looked = 0
            for _ in range(5_000):
                if worth.is_given():
                    worth.note(16, found)
                    looked += 1
            return looked

        self.assertEqual(rounds(4), 5_000)
        self.assertLess(rounds(3), 600)
        # it is seen that they come again
        self.assertLess(rounds(4), 5_000)
        self.assertEqual(rounds(4), 5_000)

    def test_stacks_within_stacks_take_little_time(self):
        def bounded():
            resource.setrlimit(resource.RLIMIT_CPU, (20, 20))

        lines = ['{"raw_stack":1' + ',"stack":1' * 200_000 + "}"]
        for name in ("trace", "attributes", "stack"):
            for start, end in [("{", "}"), ('{"raw_stack":1,', "}"), ("{", ',"raw_stack":1}')]:
                lines.append(f'{start}"{name}":' * 900 + json.dumps(["x" * 200] * 2_000) + end * 900)
        data = "\n".join(lines).encode()
        done = self.run_program(self.places, data, preexec_fn=bounded)
        self.assertEqual((done.stdout == data, done.returncode), (True, 1))
        for number in range(1, len(lines) + 1):
            reason = "too many stacks within or beside one another"
            self.assertIn(f"line {number} is left as it is: {reason}\n", done.stderr.decode())

    def test_nothing_is_kept_if_that_is_asked_for(self):
        for event in (SENTRY, BUGSNAG, ROLLBAR, ECS, OTLP):
            told = json.dumps(self.told(event, "--no-raw"))
            self.assertIn(SOURCE, told)
            self.assertNotIn('raw_', told)

    def test_so_many_lines_are_shown_as_are_asked_for(self):
        for number, before, behind in [("0", [], []), ("1", ["two"], ["four"])]:
            told = self.told(SENTRY, "--context", number)
            frame = told["exception"]["values"][0]["stacktrace"]["frames"][1]
            found = frame["pre_context"], frame["context_line"], frame["post_context"]
            self.assertEqual(found, (before, "three", behind))
            told = self.told(BUGSNAG, "--context", number)
            code = told["events"][0]["exceptions"][0]["stacktrace"][0]["code"]
            self.assertEqual(list(code.values()), [*before, "three", *behind])

    def test_names(self):
        """Of a build by hand, as tests/rows/smap-trace-names.rows has them: each line is a position."""
        shutil.copy(TOP / "tests" / "rows" / "maps" / "functions" / "out.js.map", self.dist)
        script, source = "https://s.example/out.js", "https://s.example/src/cart.ts"
        none = object()
        names = [
            (1, 1, "t", "formatPrice"), (1, 1, "async*t", "formatPrice"), (1, 1, "\ud800", "formatPrice"),
            (2, 1, "f.total", "Cart.total"), (4, 1, "new s", "new Account"), (8, 1, "async be", "async main"),
            (5, 1, "get size [as size]", "get Cart.size [as size]"), (7, 1, "Object.render", "Object.render"),
            # without a name
            (9, 1, "?", "main"), (9, 1, "<anonymous>", "main"), (9, 1, "", "main"), (9, 1, None, "main"),
            (9, 1, none, "main"),
            # in a function without one, and where it isn't sure unless the log says it
            (11, 1, "a", "a"), (11, 1, none, none), (14, 5, "a", "a"), (14, 5, "f.total", "Cart.total"),
            # what no log could have, and what isn't translated
            (1, 1, "t\n", "t\n"), (1, 1, 5, 5), (1, 1, ["t"], ["t"]), (99, 1, "t", "t"),
        ]
        shapes = [
            ("filename", "lineno", "colno", "function", lambda frames: {"stacktrace": {"frames": frames}}),
            ("filename", "lineno", "colno", "function", lambda frames: {"stacktrace": frames}),
            ("filename", "lineno", "colno", "method", lambda frames: {"trace": {"frames": frames}}),
            ("file", "lineNumber", "columnNumber", "method", lambda frames: {"stacktrace": frames}),
        ]
        for of_script, of_line, of_column, member, event in shapes:
            sent = [{of_script: script, of_line: line, of_column: column} for line, column, _, _ in names]
            for frame, (_, _, name, _) in zip(sent, names):
                frame.update({} if name is none else {member: name})
            # all together, and one by one
            lines = [json.dumps(event(frames)).encode() for frames in [sent, *([frame] for frame in sent)]]

            def frames_of(told):
                for line in told:
                    (stack,) = json.loads(line).values()
                    yield from stack["frames"] if isinstance(stack, dict) else stack

            told, said, status = self.events(*lines, options=["--names", "--no-raw"])
            self.assertEqual(status, 0, said)
            found = list(frames_of(told))
            self.assertEqual([frame.get(member, none) for frame in found], [name for *_, name in names] * 2)
            plain = list(frames_of(self.events(*lines, options=["--no-raw"])[0]))
            self.assertEqual([{**one, member: 0} for one in found], [{**one, member: 0} for one in plain])
        stack = f"    at f.total ({script}:2:1)\nt@{script}:1:1\n    at a ({script}:11:1)"
        wanted = f"    at Cart.total ({source}:6:25)\nformatPrice@{source}:2:16\n    at a ({source}:14:20)"
        told = self.told({"stack": stack, "x": {"stack_trace": stack.split("\n")}}, "--names", "--no-raw")
        self.assertEqual(told, {"stack": wanted, "x": {"stack_trace": wanted.split("\n")}})

    def test_other_shapes_of_these_names_stay(self):
        for value in (None, 1, True, "", "x", [], [[]], {}, [{}], {"frames": 1}, {"frames": {}}, ["a", 1]):
            for name in ("stacktrace", "stack_trace", "stack", "trace", "trace_chain", "attributes"):
                line = json.dumps({name: value, "x": {name: [value]}}).encode()
                self.assertEqual(self.events(line)[::2], ([line], 0), line)
        name = "exception.stacktrace"
        values = ({}, {"key": []}, {"key": name}, {"key": name, "value": 1}, {"key": name, "value": {}})
        for attribute in values:
            line = json.dumps({"attributes": [attribute, None]}).encode()
            self.assertEqual(self.events(line)[::2], ([line], 0), line)


if __name__ == "__main__":
    unittest.main()

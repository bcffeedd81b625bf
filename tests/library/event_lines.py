"""Tests of the program smap-events: which lines it leaves, and what it says."""

import itertools
import json
import os
import re
import resource
import signal
import subprocess
import time
import unittest

from events_case import ECS, ENVIRONMENT, EventsCase, MAP, PAGE, PROGRAM, SCRIPT, SENTRY, SOURCE, TOP
from events_case import VERSION


class LinesTest(EventsCase):
    def test_an_event_in_which_nothing_is_translated_stays_byte_for_byte(self):
        lines = [b'{ "n": 1.50, "stacktrace": {"frames": [] } }', b'{"stacktrace":[]}', b"{}", b"{}\r"]
        lines += [b'{"stack": "at f (https://s.example/none.js:1:1)",\t"e": 1E2 }']
        self.assertEqual(self.events(*lines)[::2], (lines, 0))

    def test_all_else_of_an_event_stays_as_it_is_written(self):
        before = '{ "n":[1.50, -0, 1E400, 0.1e-2,12345678901234567890.5],"n": "\\u00E4\\ud800/\u2028\u00e4"'
        before += ', "a" : '
        stack = '[ "@https://s.example/cart.js:1:1" , "\\u0020\u00e4" ]'
        behind = ' , "stack trace":"{\\"stack\\":\\"@https://s.example/cart.js:1:1\\"}" }\r\n'
        line = before + '{"stack"\t: ' + stack + "}" + behind
        done = self.run_program(self.places, line.encode())
        told = f'["@{SOURCE}:3:2"," \\u00e4"],"raw_stack":{stack}'
        self.assertEqual(done.stdout.decode(), before + '{"stack"\t: ' + told + "}" + behind)

    def test_what_is_no_event_stays_and_is_told_of(self):
        rows = [
            (b"no json", "Expecting value"),
            (b"", "Expecting value"),
            (b"[1]", "not an object"),
            (b'{"a":NaN}', "NaN is not JSON"),
            (b'{"stack":[{"a":1,"a":2}]}', "two members of one name"),
            (b'{"stack":[{"a":1e400}]}', "a number too large for a double"),
            (b'{"a":"\xff"}', "invalid start byte"),
            (b'{"a":' + b"9" * 100_000 + b"}", "digits"),
            (b"[" * 100_000, "nested too deep"),
            (b'{"a":' * 100_000, "nested too deep"),
            (b'{"a":', "Expecting value"),
            (b"{}{}", "Extra data"),
            (b"\x00", "Expecting value"),
        ]
        lines = [line for line, _ in rows]
        told, said, status = self.events(*lines, json.dumps(SENTRY).encode())
        self.assertEqual((told[:-1], status), (lines, 1))
        self.assertIn(SOURCE.encode(), told[-1])
        for number, (line, reason) in enumerate(rows, 1):
            self.assertRegex(said, f"(?m)^smap-events: line {number} is left as it is: .*{reason}")
        self.assertIn(f"events: 1, translated: 1, other lines: {len(rows)}; frames translated: 2,", said)

    def test_few_lines_are_told_of(self):
        told, said, status = self.events(*[b"x"] * 250, b"")
        self.assertEqual((told, status), ([b"x"] * 250 + [b""], 1))
        self.assertEqual(said.count("is left as it is"), 100)
        self.assertIn("smap-events: 150 more lines are left as they are\n", said)
        self.assertIn("events: 0, translated: 0, other lines: 250;", said)

    def test_a_deep_event_stays(self):
        stack = json.dumps({"stacktrace": SENTRY["exception"]["values"][0]["stacktrace"]}).encode()
        for depth in (100, 900, 990, 100_000):
            line = b'{"a":' * depth + stack + b"}" * depth
            (told,), said, status = self.events(line)
            self.assertTrue(told == line or SOURCE.encode() in told, depth)
            self.assertEqual(status, 0 if told != line else 1, depth)
        self.assertEqual(told, line)

    def test_a_huge_line_passes_in_bounded_memory(self):
        def bounded():
            resource.setrlimit(resource.RLIMIT_AS, (1 << 30, 1 << 30))

        end = json.dumps(ECS).encode()
        for piece in (b"x", b'{"a":['):
            data = piece * ((1 << 27) // len(piece)) + b"\n" + end
            done = self.run_program(self.places, data, preexec_fn=bounded)
            self.assertEqual((len(done.stdout) > len(data), done.returncode), (True, 1), done.stderr[-300:])
            self.assertTrue(done.stdout.startswith(data[: -len(end)]))
            self.assertIn(SOURCE.encode(), done.stdout[-2000:])
            said = done.stderr.decode()
            self.assertIn("line 1 is left as it is: more than 16777216 bytes\n", said)
            self.assertIn("events: 1, translated: 1, other lines: 1;", said)

    def test_a_url_of_many_marks_takes_little_time_and_memory(self):
        def bounded():
            resource.setrlimit(resource.RLIMIT_AS, (1 << 30, 1 << 30))
            resource.setrlimit(resource.RLIMIT_CPU, (20, 20))

        frame = {"filename": SCRIPT + "?" * 80_000, "lineno": 1, "colno": 1}
        event = {"stacktrace": {"frames": [frame]}, "stack": f"@{SCRIPT}{'?' * 80_000}:1:1"}
        done = self.run_program(self.places, json.dumps(event).encode(), preexec_fn=bounded)
        self.assertEqual((done.returncode, done.stdout.count(SOURCE.encode())), (0, 2), done.stderr[-1000:])

    def test_events_are_written_as_they_come(self):
        with self.started() as program:
            for _ in range(3):
                program.stdin.write(json.dumps(ECS).encode() + b"\n")
                program.stdin.flush()
                self.assertIn(SOURCE.encode(), program.stdout.readline())
            program.stdin.close()
            self.assertEqual((program.wait(), program.stdout.read()), (0, b""))
            self.assertIn(b"events: 3, translated: 3,", program.stderr.read())


    def test_a_map_that_comes_later_is_found_and_one_that_is_open_stays(self):
        frame = {"filename": "https://s.example/late.js", "lineno": 1, "colno": 1}
        event = {"stacktrace": {"frames": [frame, {**frame, "filename": SCRIPT}]}, "n": 0}
        with self.started() as program:
            for number in range(4):
                if number == 1:
                    (self.dist / "late.js.map").write_text(json.dumps(MAP))
                if number == 3:
                    (self.dist / "late.js.map").unlink()
                program.stdin.write(json.dumps({**event, "n": number}).encode() + b"\n")
                program.stdin.flush()
                told = json.loads(program.stdout.readline())
                lines = [frame["lineno"] for frame in told["stacktrace"]["frames"]]
                self.assertEqual((lines, told["n"]), ([1 if number == 0 else 3, 3], number))
            program.stdin.close()
            said = program.stderr.read().decode()
            self.assertEqual((program.wait(), program.stdout.read()), (0, b""))
        self.assertIn("events: 4, translated: 4,", said)
        self.assertIn("frames translated: 7, without a map: 1,", said)


class SaidTest(EventsCase):
    def test_a_broken_map_is_told_of(self):
        line = json.dumps({"stack": "@https://s.example/broken.js:1:1"}).encode()
        told, said, status = self.events(line)
        self.assertEqual((told, status), ([line], 1))
        self.assertIn("smap-events: https://s.example/broken.js: version\n", said)
        self.assertIn("frames translated: 0, without a map: 0, with a broken map: 1\n", said)

    def test_scripts_without_a_map_are_named_if_nothing_was_translated(self):
        stack = "@http://o.example/a.js:1:1\n@https://s.example/none.js:1:1\n@https://s.example/none.js:2:1"
        line = json.dumps({"stack": stack}).encode()
        told, said, status = self.events(line, line)
        self.assertEqual((told, status), ([line, line], 0))
        named = [line for line in said.splitlines() if "no map for" in line]
        wanted = [("https://s.example/none.js", 4), ("http://o.example/a.js", 2)]
        self.assertEqual(named, [f"smap-events: no map for {script} ({n} frames)" for script, n in wanted])
        self.assertNotIn("no map for", self.events(line, json.dumps(ECS).encode())[1])

    def test_a_terminal_gets_no_commands(self):
        (self.dist / "\x1b]0;x\x07\x9b\u202e.map").write_text("{}")
        self.places = [f"/app/={self.dist}/"]
        frame = {"filename": "/app/\x1b]0;x\x07\x9b\u202e", "lineno": 1, "colno": 1}
        event = {"stacktrace": {"frames": [frame]}}
        _, said, status = self.events(json.dumps(event).encode())
        self.assertIn("smap-events: /app/\\x1b]0;x\\x07\\x9b\\u202e: version\n", said)
        self.assertEqual(status, 1)

    def test_files_are_read_in_turn(self):
        line = json.dumps(ECS).encode() + b"\n"
        for name in ("one", "two"):
            (self.temp / name).write_bytes(line)
        done = self.run_program([str(self.temp / "one"), *self.places, str(self.temp / "two")], b"{}")
        self.assertEqual((done.stdout.count(SOURCE.encode()), done.returncode), (4, 0))
        done = self.run_program([str(self.temp / "one"), *self.places, str(self.temp / "none")])
        self.assertEqual((done.stdout.count(SOURCE.encode()), done.returncode), (2, 3))
        self.assertRegex(done.stderr.decode(), r"smap-events: /.*/none: No such file or directory\n")

    def test_options_stand_anywhere(self):
        (self.temp / "one").write_bytes(json.dumps(ECS).encode())
        for words in itertools.permutations(["--no-raw", *self.places, str(self.temp / "one")]):
            done = self.run_program(words)
            self.assertEqual((done.stdout.count(SOURCE.encode()), done.returncode), (2, 0), words)
            self.assertNotIn(b"raw_", done.stdout)

    def test_a_map_may_be_given_by_itself(self):
        self.places = [f"https://s.example/cart.js?a=b={self.dist}/cart.js.map"]
        told = self.told({"stack": "@https://s.example/cart.js?a=b:1:1"})
        self.assertEqual(told["stack"], f"@{SOURCE}:3:2")

    def test_help_and_the_version(self):
        for option in ("-V", "--version"):
            done = self.run_program([option])
            self.assertEqual((done.stdout.decode(), done.returncode), (f"smap-events {VERSION}\n", 0))
        for option in ("-h", "--help"):
            done = self.run_program([option])
            self.assertEqual(done.returncode, 0)
            for word in (b"usage: smap-events", b"--no-raw", b"URL/=FOLDER/"):
                self.assertIn(word, done.stdout)

    def test_the_page_has_the_options_of_the_help(self):
        options = r"(?<![-\w])(--[a-z][-a-z]*|-[a-zA-Z])\b"
        helped = set(re.findall(options, self.run_program(["--help"]).stdout.decode()))
        paged = {"-" + name for name in re.findall(r"Fl ([-a-zA-Z]+)", PAGE.read_text())}
        self.assertEqual(helped, paged)
        self.assertIn("--no-raw", paged)

    def test_the_example_of_the_page_runs(self):
        _, _, example = PAGE.read_text().partition(".Bd -literal\n")
        example, _, _ = example.partition(".Ed\n")
        lines = example.splitlines(keepends=True)
        commands = "".join(line[2:] for line in lines if line.startswith("$ "))
        wanted = "".join(line for line in lines if not line.startswith("$ "))
        env = {**ENVIRONMENT, "PATH": f"{PROGRAM.parent}:{os.environ['PATH']}"}
        words = ["sh", "-c", commands]
        done = subprocess.run(words, cwd=self.temp, env=env, capture_output=True, check=False)
        self.assertEqual((done.stdout.decode(), done.stderr), (wanted, b""))

    def test_the_completions_have_its_options(self):
        wanted = set(re.findall(r"--[a-z][-a-z]*", self.run_program(["--help"]).stdout.decode()))
        folder = TOP / "packaging" / "completion"
        (of_bash,) = re.findall(r"^smap-events: (.*)$", (folder / "smap.bash").read_text(), flags=re.M)
        self.assertEqual(set(of_bash.split()), wanted)
        of_zsh = re.findall(r"--[a-z][-a-z]*(?=[=\[}])", (folder / "_smap-events").read_text())
        self.assertEqual(set(of_zsh), wanted)
        of_fish = re.findall(r"^complete .* -l ([-a-z]+)", (folder / "smap-events.fish").read_text(), flags=re.M)
        self.assertEqual({f"--{name}" for name in of_fish}, wanted)

    def test_a_wrong_command_line_is_told_of(self):
        dist = str(self.dist)
        for words, reason in [
            ([], "the following arguments are required: URL/=FOLDER/"),
            (["--none", *self.places], "unrecognized arguments: --none"),
            (["--context", "-1", *self.places], "argument --context: invalid natural value: '-1'"),
            (["--context", "x", *self.places], "argument --context: invalid natural value: 'x'"),
            ([dist], f"{dist} is a folder: its scripts need a URL, as https://shop.example/={dist}"),
            ([str(PROGRAM)], "no maps are given: URL/=FOLDER/"),
            (["https://s.example/=/nowhere/"], "https://s.example/=/nowhere/: no such file or folder"),
            ([f"={dist}"], f"={dist}: no such file or folder"),
            ([f"https://s.example={dist}"], f"{dist} is a folder, so its URL ends in a slash: https://s."),
            ([f"https://s.example/={dist}/cart.js.map"], f"{dist}/cart.js.map: no such folder"),
            ([*self.places, *self.places], "https://s.example/ is given twice"),
        ]:
            done = self.run_program(words)
            self.assertEqual((done.stdout, done.returncode), (b"", 2), words)
            self.assertIn(f"smap-events: error: {reason}", done.stderr.decode(), words)

    def test_nothing_is_said_of_a_pipe_that_nobody_reads(self):
        line = json.dumps(ECS).encode() + b"\n"
        reading, writing = os.pipe()
        os.close(reading)
        with open(writing, "wb") as target:
            done = self.run_program(self.places, line, stdout=target)
        self.assertEqual((done.returncode, done.stderr), (141, b""))

    def test_nothing_is_said_among_the_events_where_standard_error_is_closed(self):
        data = json.dumps(SENTRY).encode() + b"\nno json\n"
        wanted = self.run_program(self.places, data)
        for words, stdout, status in [(self.places, wanted.stdout, 1), (["--no-such-option"], b"", 2)]:
            done = self.run_program(words, data, preexec_fn=lambda: os.close(2))
            self.assertEqual((done.stdout, done.returncode), (stdout, status))

    def test_a_device_that_is_full_is_told_of(self):
        with open("/dev/full", "wb") as target:
            done = self.run_program(self.places, b"{}\n", stdout=target)
        self.assertEqual(done.returncode, 3)
        self.assertIn(b"smap-events: standard output: No space left on device\n", done.stderr)

    def test_an_interrupt_ends_it_with_counts(self):
        with self.started() as program:
            program.stdin.write(json.dumps(ECS).encode() + b"\n")
            program.stdin.flush()
            self.assertIn(SOURCE.encode(), program.stdout.readline())
            time.sleep(0.1)  # until it waits for the next line
            program.send_signal(signal.SIGINT)
            said = program.stderr.read().decode()
            self.assertEqual((program.wait(), said.count("\n")), (130, 1))
            self.assertIn("events: 1, translated: 1,", said)


if __name__ == "__main__":
    # A shell starts what runs in the background with interrupts ignored, and so would the programs be.
    signal.signal(signal.SIGINT, signal.default_int_handler)
    unittest.main()

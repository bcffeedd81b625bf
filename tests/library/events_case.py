"""A test case that runs smap-events, and events in all shapes, for the tests of that program."""

import json
import os
import subprocess
import sys
import tempfile
import unittest
from pathlib import Path

TESTS = Path(__file__).resolve().parent
TOP = TESTS.parent.parent
PROGRAM = TESTS.parent.parent / "capi" / "python" / "smap-events"
PAGE = TOP / "packaging" / "man" / "smap-events.1"
VERSION = subprocess.check_output([TOP / "tools" / "version", "python"], text=True).strip()

# The program finds the module beside it, and leaves no files there.
PATHS = [str(PROGRAM.parent), *filter(None, [os.environ.get("PYTHONPATH")])]
ENVIRONMENT = {**os.environ, "PYTHONPATH": os.pathsep.join(PATHS), "PYTHONDONTWRITEBYTECODE": "1"}
ENVIRONMENT["LC_ALL"] = "C.UTF-8"

# In a log, 1:1 is line 3 of src/cart.ts, column 2, and 1:10 line 1, column 1; 1:20 is in lib.js, which is
# ignored and has no content.
MAP = {
    "version": 3,
    "sources": ["src/cart.ts", "lib.js"],
    "sourcesContent": ["one\ntwo\nthree\nfour\n", None],
    "ignoreList": [1],
    "mappings": "AAEC,SAFD,UCAA",
}
SCRIPT = "https://s.example/cart.js"
SOURCE, LIBRARY = "https://s.example/src/cart.ts", "https://s.example/lib.js"

# What browser and server SDKs of Sentry send for an exception: newest frame last. Browsers name a script by
# `filename` alone; `abs_path` comes from servers and from Sentry itself.
SENTRY = {
    "event_id": "9fac2ceed9344f2bbfdd1fdacb0ed9b1",
    "timestamp": 1764115200.25,
    "platform": "javascript",
    "environment": "production",
    "release": "shop@1.2.3",
    "exception": {
        "values": [
            {
                "type": "TypeError",
                "value": "Cannot read properties of undefined (reading 'toFixed')",
                "stacktrace": {
                    "frames": [
                        {"filename": SCRIPT, "function": "?", "in_app": True, "lineno": 1, "colno": 20},
                        {"filename": SCRIPT, "function": "t", "in_app": True, "lineno": 1, "colno": 1},
                    ]
                },
                "mechanism": {"type": "onerror", "handled": False},
            }
        ]
    },
    "request": {"url": "https://s.example/", "headers": {"User-Agent": "Mozilla/5.0"}},
    "sdk": {"name": "sentry.javascript.browser", "version": "8.30.0"},
}

# A payload of Bugsnag's error reporting API, version 5.
BUGSNAG = {
    "apiKey": "0123456789abcdef0123456789abcdef",
    "payloadVersion": "5",
    "notifier": {"name": "Bugsnag JavaScript", "version": "7.25.0", "url": "https://bugsnag.example/js"},
    "events": [
        {
            "exceptions": [
                {
                    "errorClass": "TypeError",
                    "message": "t is undefined",
                    "type": "browserjs",
                    "stacktrace": [
                        {
                            "file": SCRIPT, "method": "t", "lineNumber": 1, "columnNumber": 1,
                            "code": {"1": "const t=i=>i.price.toFixed(2);t({})"}, "inProject": True,
                        },
                        {"file": SCRIPT, "method": "global code", "lineNumber": 1, "columnNumber": 20},
                        {"file": "https://cdn.example/x.js", "lineNumber": 1, "columnNumber": 1},
                    ],
                }
            ],
            "context": "/cart",
            "unhandled": True,
            "severity": "error",
        }
    ],
}

# An item of Rollbar's API: a body has a `trace`, or a `trace_chain` of several.
ROLLBAR_TRACE = {
    "frames": [
        {"filename": SCRIPT, "lineno": 1, "colno": 20, "method": "[anonymous]"},
        {
            "filename": SCRIPT, "lineno": 1, "colno": 1, "method": "t", "code": "const t=i=>i.price",
            "context": {"pre": [], "post": []},
        },
    ],
    "exception": {"class": "TypeError", "message": "t is undefined"},
}
ROLLBAR = {
    "access_token": "0123456789abcdef",
    "data": {
        "environment": "production",
        "body": {"trace": ROLLBAR_TRACE},
        "level": "error",
        "platform": "browser",
        "language": "javascript",
        "client": {"javascript": {"code_version": "1.2.3", "source_map_enabled": True}},
    },
}

STACK = f"TypeError: t is undefined\n    at t ({SCRIPT}:1:1)\n    at {SCRIPT}:1:10\n"
TOLD = f"TypeError: t is undefined\n    at t ({SOURCE}:3:2)\n    at {SOURCE}:1:1\n"

# A log line of the Elastic Common Schema, nested as ecs-pino-format writes it.
ECS = {
    "@timestamp": "2026-11-26T00:00:00.000Z",
    "log.level": "error",
    "message": "checkout failed",
    "ecs.version": "8.10.0",
    "error": {"type": "TypeError", "message": "t is undefined", "stack_trace": STACK},
}

# A log record as OTLP has it in JSON: attributes are lists of keys and values.
OTLP = {
    "resourceLogs": [
        {
            "resource": {"attributes": [{"key": "service.name", "value": {"stringValue": "shop"}}]},
            "scopeLogs": [
                {
                    "scope": {"name": "shop"},
                    "logRecords": [
                        {
                            "timeUnixNano": "1764115200000000000",
                            "severityNumber": 17,
                            "attributes": [
                                {"key": "exception.type", "value": {"stringValue": "TypeError"}},
                                {"key": "exception.stacktrace", "value": {"stringValue": STACK}},
                            ],
                        }
                    ],
                }
            ],
        }
    ]
}


def copied(value):
    return json.loads(json.dumps(value))


class EventsCase(unittest.TestCase):
    def setUp(self):
        made = tempfile.TemporaryDirectory()
        self.addCleanup(made.cleanup)
        self.temp = Path(made.name)
        self.dist = self.temp / "some" / "dist"
        self.dist.mkdir(parents=True)
        (self.dist / "cart.js.map").write_text(json.dumps(MAP))
        (self.dist / "broken.js.map").write_text("{}")
        self.places = [f"https://s.example/={self.dist}/"]

    def run_program(self, words, data=b"", **more):
        more = {"stdout": subprocess.PIPE, "stderr": subprocess.PIPE, **more}
        words = [sys.executable, str(PROGRAM), *words]
        return subprocess.run(words, input=data, check=False, env=ENVIRONMENT, **more)

    def started(self):
        """The program as a process, with pipes."""
        pipe = subprocess.PIPE
        words = [sys.executable, str(PROGRAM), *self.places]
        return subprocess.Popen(words, stdin=pipe, stdout=pipe, stderr=pipe, env=ENVIRONMENT)

    def events(self, *lines, options=()):
        """What the program writes for lines, says and ends with."""
        done = self.run_program([*options, *self.places], b"\n".join(lines))
        return done.stdout.split(b"\n"), done.stderr.decode(), done.returncode

    def told(self, event, *options):
        """An event, translated."""
        (line,), said, status = self.events(json.dumps(event).encode(), options=options)
        self.assertEqual(status, 0, said)
        return json.loads(line)

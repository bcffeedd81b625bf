"""What the tests over hostile inputs share: runs of the program over inputs in memory, and the answers that
they have to give. A test is a function that yields such runs; its name is a sentence that says what they
show."""

import os
import resource
from typing import NamedTuple

# The base of every map.
BASE = "http://h/m/out.js.map"

# A map without sources, names and mappings, and its canonical bytes.
EMPTY = '{"version":3,"mappings":""}'
EMPTY_TIDY = '{"mappings":"","names":[],"sources":[],"version":3}'

# The processor time after which a run is ended, and has failed.
MOST_SECONDS = 60

TESTS = []


def test(function):
    """Lists a function as a test."""
    TESTS.append(function)
    return function


def whole(file):
    return os.pread(file, os.fstat(file).st_size, 0)


def answer_of(program, words, text):
    """The status of a run, what it wrote, and its messages. Thousands of runs are short, so the files are in
    memory and nothing is forked: a process is then ready within a millisecond."""
    files = [os.memfd_create(name) for name in ("input", "output", "messages")]
    try:
        left = memoryview(text)
        while left:
            left = left[os.write(files[0], left) :]
        os.lseek(files[0], 0, os.SEEK_SET)
        streams = [(os.POSIX_SPAWN_DUP2, file, number) for number, file in enumerate(files)]
        child = os.posix_spawn(program, [program, *words], os.environ, file_actions=streams)
        resource.prlimit(child, resource.RLIMIT_CPU, (MOST_SECONDS, MOST_SECONDS))
        _, status = os.waitpid(child, 0)
        return os.waitstatus_to_exitcode(status), whole(files[1]), whole(files[2])
    finally:
        for file in files:
            os.close(file)


def shown(data):
    """Bytes for a message, the first of them where there are many."""
    return repr(data) if len(data) < 400 else f"{data[:400]!r} and {len(data) - 400} more"


class Run(NamedTuple):
    """A command over an input, and its answer."""

    words: tuple
    text: bytes
    status: int
    output: bytes
    messages: bytes = b""
    # Whether more may be written after the output.
    more: bool = False

    def faults(self, program):
        """What is wrong with the program's answer, in words."""
        status, output, messages = answer_of(program, self.words, self.text)
        if self.more:
            output = output[: len(self.output)]
        if (status, output, messages) == (self.status, self.output, self.messages):
            return
        yield f"$ smap {' '.join(self.words)}"
        yield f"input: {shown(self.text)}"
        if status != self.status:
            yield f"status {status}, not {self.status}"
        for found, expected in (output, self.output), (messages, self.messages):
            if found != expected:
                yield f"wrote {shown(found)}, not {shown(expected)}"


class Equal(NamedTuple):
    """Two answers to one question, neither of which is the program's."""

    question: str
    one: str
    other: str

    def faults(self, _):
        if self.one != self.other:
            yield f"{self.question}: {self.one!r}, and {self.other!r}"


def as_bytes(text):
    return text.encode() if isinstance(text, str) else text


def run(command, text, status, output):
    words = ("respell",) if command == "respell" else (command, BASE)
    return Run(words, as_bytes(text), status, as_bytes(output))


def respelled(text, output):
    """A mappings string is accepted and written like this."""
    yield run("respell", text, 0, output + "\n")


def no_mappings(text, line):
    """A mappings string is refused with this line."""
    yield run("respell", text, 1, line + "\n")


def tidied(text, output):
    """A map is accepted with these canonical bytes."""
    yield run("tidy", text, 0, output)


def refused(text, line):
    """A map is refused with this line, by `check` and by `tidy`."""
    for command in "check", "tidy":
        yield run(command, text, 1, line + "\n")


def counted(text, words):
    """A map is accepted, and what `check` writes of it begins with these words."""
    yield run("check", text, 0, words)._replace(more=True)

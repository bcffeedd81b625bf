"""The program smap-events: translates the stacks of events, as error reporters and loggers write them.

Its man page, packaging/man/smap-events.1, says which stacks these are, and what becomes of them. `main` runs
it.
"""

from __future__ import annotations

import argparse
import io
import json
import math
import os
import re
import sys
from typing import Any, Callable, Dict, Iterator, List, NamedTuple, Optional, Sequence, Set, Tuple

from . import __version__
from .frames import SHAPES
from .noted import Recent, Worth
from .store import Store

__all__ = ["main"]

USAGE = "%(prog)s [options] URL/=FOLDER/ .. [FILE ..]"

DESCRIPTION = """Translates the stacks of events, one JSON object a line, to source positions: those that
Sentry, Bugsnag and Rollbar take, and texts as ECS and OpenTelemetry have them. All else is written as it was
read. Counts are written to standard error at the end. The manual, smap-events(1), says more."""

# The most that is read at once, and the longest line that is taken for an event.
BLOCK = 1 << 16
LONGEST = 1 << 24

# How many lines that are no events are told of, and how many scripts without a map.
MOST_TOLD = 100
MOST_NAMED = 10

# How many lines of a source a frame gets before its line, and behind it, as the services' own programs do.
CONTEXT = {"bugsnag": 3, "rollbar": 5, "sentry": 5}

# Members that are a stack: an object with frames, a list of them, a text, or a list of its lines.
STACKS = ("stacktrace", "stack_trace", "stack", "exception.stacktrace", "error.stack_trace", "error.stack")

# Members in which a stack may be: Rollbar's, and OpenTelemetry's.
HOLDERS = ("trace", "trace_chain", "attributes")

# So many times the length of an event may be read, where each value counts as so many characters more. Only
# stacks within stacks, or beside one another, need that.
MOST_READ = 8
OF_A_VALUE = 20

# The members of the header of an item in an envelope of Sentry, which says how long the line behind it is.
ITEM_HEADER = {"type", "length", "content_type", "filename", "attachment_type", "item_count", "platform"}
LENGTH = re.compile(rb'("length"\s*:\s*)(\d+)')

# How many bytes of stacks are known at most, and of frames and lines; and what Python's objects for one take,
# about.
MOST_KNOWN = 1 << 25
BESIDE = 1_000

# What stands before the frames in an object whose first member they are, and what makes them Bugsnag's.
FRAMES_FIRST = re.compile(r'\{\s*"frames"\s*:\s*')
OF_BUGSNAG = re.compile(r'"lineNumber"\s*:')


def raw_name(name: str) -> str:
    """Where a stack stays as it was: `error.raw_stack_trace` for `error.stack_trace`."""
    before, dot, last = name.rpartition(".")
    return f"{before}{dot}raw_{last}"


RAW = {raw_name(name): name for name in STACKS}

# All these names, a word of which each has one, and the length of the longest.
NAMES = {*STACKS, *HOLDERS, *RAW}
WORDS = ("stack", "trace", "attributes")
LONGEST_NAME = max(map(len, NAMES))

# What is between the name of a member and its value, and the name of the next one, behind a value.
COLON = re.compile(r"\s*:\s*")
NEXT = re.compile(r'\s*,\s*"((?:[^"\\]|\\.)*)"\s*:\s*')


def members(pairs: List[Tuple[str, Any]]) -> Dict[str, Any]:
    """An object, whose members have different names."""
    found = dict(pairs)
    if len(found) < len(pairs):
        raise ValueError("two members of one name")
    return found


def number(text: str) -> float:
    """A number that isn't an integer. It is written again as the same double."""
    found = float(text)
    if math.isinf(found):
        raise ValueError("a number too large for a double")
    return found


def no_number(text: str) -> Any:
    raise ValueError(f"{text} is not JSON")


read_all = json.JSONDecoder(parse_constant=no_number).decode
find_end = json.JSONDecoder().raw_decode
read_value = json.JSONDecoder(object_pairs_hook=members, parse_float=number).decode
write_value = json.JSONEncoder(separators=(",", ":"), check_circular=False).encode


class Event:
    """The text of an event, in which values are found."""

    def __init__(self, text: str) -> None:
        self.text = text
        self._left = MOST_READ * len(text)
        # the places of the values of members that are or hold stacks, with the members' names, in order
        self.places = sorted({place for word in WORDS for place in self._places(word)})

    def _places(self, word: str) -> Iterator[Tuple[int, str]]:
        at = self.text.find(word)
        while at >= 0:
            start = self.text.rfind('"', max(0, at - LONGEST_NAME), at)
            end = self.text.find('"', at, at + LONGEST_NAME)
            # before a quotation mark within a string there is a backslash; a string before a colon is a name
            if 0 < start < end and self.text[start + 1 : end] in NAMES and self.text[start - 1] != "\\":
                match = COLON.match(self.text, end + 1)
                if match:
                    yield match.end(), self.text[start + 1 : end]
            at = self.text.find(word, at + len(word))

    def end(self, start: int) -> int:
        """Where the value ends that begins there. Raises ValueError where too much was read."""
        _, end = find_end(self.text, start)
        self._left -= end - start + OF_A_VALUE
        if self._left < 0:
            raise ValueError("too many stacks within or beside one another")
        return end

    def kept(self) -> Set[int]:
        """The places of the stacks beside which they stand as they were."""
        found: Set[int] = set()
        if not any(name in RAW for _, name in self.places):
            return found
        for start, name in self.places:
            for place, other in self._behind(start) if name not in HOLDERS else ():
                if RAW.get(name) == other:
                    found.add(place)
                elif RAW.get(other) == name:
                    found.add(start)
        return found

    def _behind(self, start: int) -> Iterator[Tuple[int, str]]:
        """The places of the values behind one in its object, with the names of their members."""
        match = NEXT.match(self.text, self.end(start))
        while match:
            yield match.end(), match[1]
            match = NEXT.match(self.text, self.end(match.end()))


class Told(NamedTuple):
    """What to write for a value, None where it stays; how many frames were translated, and had no map."""

    text: Optional[str]
    translated: int
    without: int


class Part(NamedTuple):
    """A frame or a line of a stack: what is written for it untranslated, if that is kept, and translated; whether
    it is, and whether that makes a difference.
    """

    before: str
    told: str
    is_translated: bool
    is_changed: bool


# Makes parts together, if it can.
Make = Callable[[List[str]], Optional[List[Part]]]


def code_files(event: Dict[str, Any]) -> Dict[str, str]:
    """The debug ids that an event of Sentry has for its scripts."""
    meta = event.get("debug_meta")
    images = meta.get("images") if isinstance(meta, dict) else None
    found: Dict[str, str] = {}
    for image in images if isinstance(images, list) else ():
        if isinstance(image, dict) and image.get("type") == "sourcemap":
            file, debug_id = image.get("code_file"), image.get("debug_id")
            if isinstance(file, str) and isinstance(debug_id, str):
                found[file] = debug_id
    return found


class Stacks:
    """Translates the values of members."""

    def __init__(self, store: Store, keep: bool, context: Optional[int], names: bool) -> None:
        self._store = store
        self._keep = keep
        self._names = names
        self._context = CONTEXT if context is None else dict.fromkeys(CONTEXT, context)
        # stacks come again and again, and so do their frames and lines in other stacks
        self._known: Recent[Told] = Recent(MOST_KNOWN)
        self._parts: Recent[Part] = Recent(MOST_KNOWN)
        # whether to look for them there in this stack, and how many that were known are translated
        self._worth = Worth()
        self._is_looking, self._again = True, 0
        # the scripts that are meant by those of this event, where it has debug ids of maps
        self._meant: Dict[str, str] = {}
        self.translated = 0

    def begin(self, event: Dict[str, Any]) -> None:
        """Looks for the maps that an event has debug ids for."""
        self._meant = {}
        for file, debug_id in code_files(event).items():
            script = self._store.by_debug_id(debug_id)
            if script is not None:
                self._meant[file] = script

    def told(self, name: str, text: str) -> Optional[str]:
        """What to write for a value; None where it stays. One that may be found in a map later isn't kept."""

        def size_of(told: Told) -> int:
            return MOST_KNOWN + 1 if told.without else BESIDE + 4 * len(text) + len(told.text or "")

        if self._meant:  # a frame of another event may mean another script
            told = self._translated(name, text)
        else:
            told = self._known.find((name, text), lambda: self._translated(name, text), size_of)
        self.translated += told.translated
        return told.text

    def _translated(self, name: str, text: str) -> Told:
        before, self._again = self._store.counts, 0
        self._is_looking = not self._meant and self._worth.is_given()
        told = self._by_frames(name, text) if self._is_looking else self._as_a_whole(name, text)
        after = self._store.counts
        without = after.missing + after.broken - before.missing - before.broken
        return Told(told, after.translated - before.translated + self._again, without)

    def _by_frames(self, name: str, text: str) -> Optional[str]:
        """The same, frame by frame, where it is quickly seen where each of them ends, and else as a whole."""
        first, is_rollbar = FRAMES_FIRST.match(text), name == "trace"
        frames, end = flat_objects(text, first.end() if first else 0)
        if not frames or name not in STACKS and not (is_rollbar and first):
            return self._as_a_whole(name, text)
        rest: Dict[str, Any] = {}
        if first:
            try:
                rest = read_value("{" + text[end:].lstrip(" \t\r\n,"))
            except ValueError:  # the list doesn't end there, or it is told of as a whole
                return self._as_a_whole(name, text)
            if "frames" in rest or "raw_frames" in rest:
                return self._as_a_whole(name, text)
            shape = "rollbar" if is_rollbar else "sentry"
        else:
            shape = "bugsnag" if OF_BUGSNAG.search(text) else "sentry"
        parts = self._parts_of(shape, frames, self._frames_by(shape))
        if parts is None:
            return self._as_a_whole(name, text)
        if not any([part.is_changed for part in parts]):
            return None
        told = ",".join([part.told for part in parts])
        if not first:
            return f"[{told}]"
        raw = ",".join([part.before for part in parts]) if is_rollbar and self._keep else None
        behind = "," + write_value(rest)[1:] if rest else "}"
        return "".join(["{", f'"raw_frames":[{raw}],' if raw else "", f'"frames":[{told}]', behind])

    def _as_a_whole(self, name: str, text: str) -> Optional[str]:
        value = read_value(text)
        new = self._value(name, value)
        return None if new == value else write_value(new)

    def _parts_of(self, kind: str, texts: List[str], make: Make) -> Optional[List[Part]]:
        """What becomes of parts of a kind. Those that aren't known are made together; None where they can't be.

        One that may be found in a map later isn't kept: which these are isn't known, if there are any.
        """
        known = [self._parts.get((kind, text)) for text in texts]
        new, made = [text for text, part in zip(texts, known) if part is None], None
        self._worth.note(len(texts), len(texts) - len(new))
        if new:
            before, made = self._store.counts, make(new)
            if made is None:
                return None
            after = self._store.counts
            is_known = after.missing + after.broken == before.missing + before.broken
            # a line that is translated to itself doesn't show it
            if sum([part.is_translated for part in made]) == after.translated - before.translated:
                for text, part in zip(new, made):
                    if is_known or part.is_translated:
                        size = BESIDE + 4 * len(text) + len(part.before) + len(part.told)
                        self._parts.keep((kind, text), part, size)
        self._again += sum([part.is_translated for part in known if part is not None])
        rest = iter(made or ())
        return [next(rest) if part is None else part for part in known]

    def _frames_by(self, shape: str) -> Make:
        """Makes frames of what they hold."""
        is_kept = shape == "rollbar" and self._keep

        def make(new: List[str]) -> Optional[List[Part]]:
            if not all(map(is_flat, new)):
                return None
            frames = read_value("[{%s}]" % "},{".join(new))
            told = self._frames(frames, shape)
            return [
                Part(write_value(one) if is_kept else "", write_value(other), one is not other, one != other)
                for one, other in zip(frames, told)
            ]

        return make

    def _value(self, name: str, value: Any) -> Any:
        """A value with its stacks translated; itself where there are none."""
        if name == "trace":
            return self._rollbar(value)
        if name == "trace_chain":
            return list(map(self._rollbar, value)) if isinstance(value, list) else value
        if name == "attributes":
            return self._attributes(value) if isinstance(value, list) else value
        if isinstance(value, dict):
            return self._sentry(value)
        if isinstance(value, list):
            return self._list(value)
        return self._text(value) if isinstance(value, str) else value

    def _frames(self, frames: List[Any], shape: str) -> List[Any]:
        context, names = self._context[shape], self._names
        asked = list(map(self._named, frames)) if shape == "sentry" and self._meant else frames
        told = self._store.frames(asked, context, ignore_query=True, shape=shape, names=names)
        return [one if new is named else new for one, named, new in zip(frames, asked, told)]

    def _named(self, frame: Any) -> Any:
        """A frame by the name of the script that is meant."""
        place = SHAPES["sentry"].place_of(frame)
        script = None if place is None else self._meant.get(place[0])
        return frame if script is None else {**frame, "abs_path": script}

    def _sentry(self, stack: Dict[str, Any]) -> Dict[str, Any]:
        frames = stack.get("frames")
        return {**stack, "frames": self._frames(frames, "sentry")} if isinstance(frames, list) else stack

    def _list(self, stack: List[Any]) -> List[Any]:
        """Frames alone: Bugsnag's, or in Sentry's shape, as Elastic APM has them. Or the lines of a text."""
        if all(isinstance(line, str) for line in stack):
            told: List[Any] = self._text("\n".join(stack)).split("\n")
            return told if len(told) == len(stack) else stack
        is_bugsnag = any(isinstance(frame, dict) and "lineNumber" in frame for frame in stack)
        return self._frames(stack, "bugsnag" if is_bugsnag else "sentry")

    def _rollbar(self, trace: Any) -> Any:
        if not isinstance(trace, dict) or not isinstance(trace.get("frames"), list):
            return trace
        frames = self._frames(trace["frames"], "rollbar")
        if frames == trace["frames"]:
            return trace
        raw = {"raw_frames": trace["frames"]} if self._keep else {}
        return {**raw, **trace, "frames": frames}

    def _attributes(self, attributes: List[Any]) -> List[Any]:
        """Attributes of OpenTelemetry as OTLP has them: objects with a key and a value."""
        name = "exception.stacktrace"
        told = list(attributes)
        for at, attribute in enumerate(attributes):
            value = attribute.get("value") if is_attribute(attribute, name) else None
            if isinstance(value, dict) and isinstance(value.get("stringValue"), str):
                text = self._text(value["stringValue"])
                if text != value["stringValue"]:
                    told[at] = {**attribute, "value": {**value, "stringValue": text}}
                    if self._keep and not any(is_attribute(other, raw_name(name)) for other in told):
                        told.append({**attribute, "key": raw_name(name)})
        return told

    def _text(self, text: str) -> str:
        try:
            text.encode("utf-8")
        except UnicodeEncodeError:
            return text  # half a surrogate pair, which no URL of a script has
        if not self._is_looking:
            return self._translate(text)
        parts = self._parts_of("line", text.split("\n"), self._lines)
        return text if parts is None else "\n".join([part.told for part in parts])

    def _translate(self, text: str) -> str:
        # the last line is translated with the others only if it has an end
        log = (text + "\n").encode("utf-8")
        return self._store.translate(log, ignore_query=True, names=self._names).decode("utf-8")[:-1]

    def _lines(self, new: List[str]) -> List[Part]:
        """What becomes of lines."""
        told = self._translate("\n".join(new)).split("\n")
        return [Part(one, other, one != other, one != other) for one, other in zip(new, told)]


def flat_objects(text: str, start: int) -> Tuple[List[str], int]:
    """What stands between the braces of each object of a list, and where that ends. Only if each is flat, these
    are the objects; there are none where that is seen at once.

    `text` is JSON, in which a value begins there.
    """
    end = text.find("}]", start)
    held = text[start + 2 : end]
    if end < 0 or not text.startswith("[{", start) or "\\" in held:
        return [], 0
    return held.split("},{" if "},{" in held else "}, {"), end + 2


def is_flat(held: str) -> bool:
    """Whether what begins as the inside of an object, and has no backslash, ends outside of strings, and holds no
    object.
    """
    return held.count('"') % 2 == 0 and "{" not in held and "}" not in held


def is_attribute(value: object, name: str) -> bool:
    return isinstance(value, dict) and value.get("key") == name


class Piece(NamedTuple):
    """Of a line that is too long, one of its pieces; of any other all of it."""

    text: bytes
    is_start: bool
    is_whole: bool


def pieces(source: int, longest: int = LONGEST) -> Iterator[List[Piece]]:
    """The lines of an open file, as they come."""
    waiting: List[bytes] = []
    size, is_start = 0, True
    while True:
        block = os.read(source, BLOCK)
        if not block:
            break
        *ends, rest = block.split(b"\n")
        found = []
        for end in ends:
            found.append(Piece(b"".join([*waiting, end, b"\n"]), is_start, is_start))
            waiting, size, is_start = [], 0, True
        waiting.append(rest)
        size += len(rest)
        if size > longest:
            found.append(Piece(b"".join(waiting), is_start, False))
            waiting, size, is_start = [], 0, False
        yield found
    rest = b"".join(waiting)
    if rest:
        yield [Piece(rest, is_start, is_start)]


def length(line: bytes) -> int:
    """How long a line is, without its line feed."""
    return len(line) - line.endswith(b"\n")


def resized(header: bytes, line: bytes, told: bytes) -> bytes:
    """The header of an item with the length of what is written, if it has that of what was read."""
    match = LENGTH.search(header)
    if told == line or match is None or int(match[2]) != length(line):
        return header
    return header[: match.start(2)] + str(length(told)).encode() + header[match.end(2) :]


def shown(text: object) -> str:
    """A text for a terminal, which would take some characters as commands."""
    return "".join(char if char.isprintable() else ascii(char)[1:-1] for char in str(text))


def say(text: object) -> None:
    print(f"smap-events: {shown(text)}", file=sys.stderr)


class Events:
    """Translates lines, and counts what becomes of them."""

    def __init__(
        self, store: Store, keep: bool = True, context: Optional[int] = None, names: bool = False
    ) -> None:
        self._store = store
        self._stacks, self._keep = Stacks(store, keep, context, names), keep
        # the header of an item, until the line behind it is read
        self._header = b""
        self._lines = self._translated = 0
        self.others = 0

    def told(self, piece: Piece) -> bytes:
        """What to write for a line, or a piece of one, and what waited for it."""
        header = self.rest()
        told = self._told(piece)
        # a line that waits itself is as it was
        return (header if self._header else resized(header, piece.text, told)) + told

    def rest(self) -> bytes:
        """What waits for another line."""
        header, self._header = self._header, b""
        return header

    def _told(self, piece: Piece) -> bytes:
        self._lines += piece.is_start
        if not piece.is_whole:
            if piece.is_start:
                self._leave(f"more than {LONGEST} bytes")
            return piece.text
        try:
            return self._event(piece.text)
        except RecursionError:
            self._leave("nested too deep")
        except MemoryError:
            self._leave("out of memory")
        except ValueError as error:
            self._leave(error)
        return piece.text

    def _event(self, line: bytes) -> bytes:
        """An event with its stacks translated. All else of it stays as it is written."""
        text = line.decode("utf-8")
        found = read_all(text)
        if not isinstance(found, dict):
            raise ValueError("not an object")
        if {"type", "length"} <= found.keys() <= ITEM_HEADER:
            self._header = line
            return b""
        event = Event(text)
        self._stacks.begin(found)
        kept = event.kept()
        told: List[str] = []
        done = skipped = 0
        for start, name in event.places:
            if start < skipped:
                continue
            end = event.end(start)
            new = None if name in RAW else self._stacks.told(name, text[start:end])
            if new is not None:
                told += [text[done:start], new]
                if self._keep and name in STACKS and start not in kept:
                    told.append(f',"{raw_name(name)}":{text[start:end]}')
                done = end
            if new is not None or name in RAW:
                skipped = end
        if not told:
            return line
        self._translated += 1
        return "".join([*told, text[done:]]).encode()

    def _leave(self, reason: object) -> None:
        self.others += 1
        if self.others <= MOST_TOLD:
            say(f"line {self._lines} is left as it is: {reason}")

    def say_counts(self) -> None:
        """Says what became of all lines, and why, if nothing was translated."""
        if self.others > MOST_TOLD:
            say(f"{self.others - MOST_TOLD} more lines are left as they are")
        for script, fault in self._store.broken.items():
            say(f"{script}: {fault}")
        for script, faults in self._store.unfollowed.items():
            for text in faults:
                say(f"{script}: {text}")
        counts, events = self._store.counts, self._lines - self.others
        if not self._stacks.translated:
            missing = sorted(self._store.missing.items(), key=lambda item: -item[1])
            for script, frames in missing[:MOST_NAMED]:
                say(f"no map for {script} ({frames} frames)")
        say(
            f"events: {events}, translated: {self._translated}, other lines: {self.others}; "
            f"frames translated: {self._stacks.translated}, without a map: {counts.missing}, "
            f"with a broken map: {counts.broken}"
        )


def write_all(target: int, data: bytes) -> None:
    view = memoryview(data)
    try:
        while view:
            view = view[os.write(target, view) :]
    except OSError as error:
        raise OSError(error.errno, error.strerror, "standard output") from None


def translate(events: Events, source: int, target: int) -> None:
    """Translates an open file, and writes each block of lines as soon as it is read."""
    try:
        for block in pieces(source):
            write_all(target, b"".join(map(events.told, block)))
    finally:
        write_all(target, events.rest())


def natural(text: str) -> int:
    """A number from 0, as argparse asks for it."""
    number = int(text)
    if number < 0:
        raise ValueError
    return number


def arguments(words: Optional[Sequence[str]]) -> argparse.Namespace:
    parser = argparse.ArgumentParser(prog="smap-events", usage=USAGE, description=DESCRIPTION)
    parser.add_argument("--no-raw", action="store_true", help="don't keep stacks as they were, in raw_..")
    lines = "lines of the source before and behind that of a frame: 5, or Bugsnag's 3, by default"
    parser.add_argument("--context", type=natural, metavar="N", help=lines)
    named = "give frames the names of functions, where they are sure"
    parser.add_argument("--names", action="store_true", help=named)
    parser.add_argument("-V", "--version", action="version", version=f"%(prog)s {__version__}")
    maps = "where maps are: each NAME.map in FOLDER, or below it, is that of URL/NAME; or URL=FILE"
    parser.add_argument("places", nargs="+", metavar="URL/=FOLDER/", help=maps)
    given = parser.parse_intermixed_args(words)
    given.maps, given.files = {}, []
    for word in given.places:
        url, sign, place = word.rpartition("=")
        if not sign and os.path.isdir(word):
            parser.error(f"{word} is a folder: its scripts need a URL, as https://shop.example/={word}")
        elif not sign:
            given.files.append(word)
        elif not url or not os.path.exists(place):
            parser.error(f"{word}: no such file or folder")
        elif url in given.maps:
            parser.error(f"{url} is given twice")
        else:
            given.maps[url] = place
    if not given.maps:
        parser.error("no maps are given: URL/=FOLDER/")
    try:
        given.store = Store(given.maps)
    except OSError as error:
        parser.error(f"{error.filename}: {error.strerror}")
    except ValueError as error:
        parser.error(str(error))
    return given


def run(events: Events, files: List[str]) -> int:
    """Translates standard input, or some files. Returns the status."""
    name = "standard input"
    try:
        for name in files:
            with open(name, "rb", buffering=0) as source:
                translate(events, source.fileno(), 1)
        if not files:
            translate(events, 0, 1)
    except BrokenPipeError:
        return 141
    except OSError as error:
        say(f"{error.filename or name}: {error.strerror}")
        return 3
    except KeyboardInterrupt:
        return 130
    return 0


def main(words: Optional[Sequence[str]] = None) -> int:
    """Runs the program with these arguments, or those of the process, and returns its status."""
    if sys.stderr is None:  # it is closed: print and argparse would write among the events
        sys.stderr = io.StringIO()
    given = arguments(words)
    events = Events(given.store, not given.no_raw, given.context, given.names)
    status = run(events, given.files)
    if status != 141:
        events.say_counts()
    return status or (1 if events.others or given.store.broken else 0)


if __name__ == "__main__":
    sys.exit(main())

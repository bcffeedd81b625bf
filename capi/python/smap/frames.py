"""Frames as objects, in the shapes of error reporters: Sentry, Rollbar and Bugsnag."""

from __future__ import annotations

import re
import sys
from array import array
from collections.abc import Mapping as AnyMapping
from dataclasses import dataclass
from operator import methodcaller
from typing import Any, Dict, List, Optional, Tuple
from urllib.parse import urlsplit

from .maps import Map
from .named import Asked, names_of
from .noted import Recent

__all__ = ["SHAPES", "Known", "Originals", "code_point", "places_by_script", "translate_all"]

# A line ends as in ECMAScript. This is searched for twice as fast as with a set of characters.
ENDS = re.compile("\r\n?|\n|\u2028|\u2029")

# The greatest line and column of a frame, which count from 1.
GREATEST = 2_147_483_648

# How many bytes of positions, and of lines, are known at most; and what Python's objects for one take, about.
MOST_KNOWN = 1 << 25
BESIDE = 1_000

# A script, and a position in it, which counts from 1.
Place = Tuple[str, int, int]

# Lines before a line, the line itself, and lines behind it.
Around = Tuple[List[str], str, List[str]]


def code_point(line: str, column: int) -> int:
    """Where in a line a column is, as an index of the str.

    Columns of source maps and of `colno` count UTF-16 code units, while a str counts code points, of which
    one may be two units. A column in the middle of these is that of their code point, and one behind the end
    of the line is its length. Both count from 0: subtract 1 from a `colno`. Raises ValueError below 0.
    """
    if column < 0:
        raise ValueError("column is below 0")
    if line.isascii():
        return min(column, len(line))
    return len(line.encode("utf-16-le", "surrogatepass")[: 2 * column].decode("utf-16-le", "ignore"))


@dataclass(frozen=True)
class Original:
    """A position in a source, which counts from 1, and the lines around it: None where they aren't known.

    `path` is the path in the URL of the source, without slashes before it.
    """

    url: str
    path: str
    line: int
    column: int
    is_ignored: bool
    around: Optional[Around]

    def place(self) -> str:
        """The position, as logs have it."""
        return f"{self.url}:{self.line}:{self.column}"

    def is_in_app(self, before: object) -> object:
        """Whether the source is the program's own, by what was said of the script."""
        return False if self.is_ignored else True if before is None else before


class Shape:
    """How frames are written: the members that name a script, the first that is there, and a position."""

    script: Tuple[str, ...] = ("filename",)
    line = "lineno"
    column = "colno"
    function = "function"
    # the members that show lines of the script, and are replaced or removed where a frame is translated
    shows: Tuple[str, ...] = ()

    def place_of(self, frame: object) -> Optional[Place]:
        """The script and the position that a frame names; None where it names none, or what can't be one."""
        if not isinstance(frame, (dict, AnyMapping)):
            return None
        script = None
        for name in self.script:
            script = script or frame.get(name)
        line, column = frame.get(self.line), frame.get(self.column)
        if not isinstance(script, str) or not script:
            return None
        if type(line) is not int or type(column) is not int:  # a bool is an int, and no position
            return None
        return (script, line, column) if 1 <= line <= GREATEST and 1 <= column <= GREATEST else None

    def told(self, frame: AnyMapping[str, Any], found: Original) -> Dict[str, Any]:
        """The frame in its source."""
        told = dict(frame)
        for name in self.shows:
            told.pop(name, None)
        told[self.line], told[self.column] = found.line, found.column
        self.name(told, found)
        if found.around is not None:
            self.show(told, found.line, found.around)
        return told

    def name(self, told: Dict[str, Any], found: Original) -> None:
        """Puts the name of the source into a frame, and whether it is the program's own."""
        told[self.script[0]] = found.url

    def show(self, told: Dict[str, Any], number: int, around: Around) -> None:
        """Puts the line of the source with this number into a frame, and the lines around it."""


class Sentry(Shape):
    script = ("abs_path", "filename")
    shows = ("pre_context", "context_line", "post_context")

    def name(self, told: Dict[str, Any], found: Original) -> None:
        told["abs_path"], told["filename"] = found.url, found.path
        told["in_app"] = found.is_in_app(told.get("in_app"))

    def show(self, told: Dict[str, Any], number: int, around: Around) -> None:
        before, told["context_line"], behind = around
        told["pre_context"], told["post_context"] = before[:], behind[:]


class Rollbar(Shape):
    function = "method"
    shows = ("code", "context")

    def show(self, told: Dict[str, Any], number: int, around: Around) -> None:
        before, told["code"], behind = around
        told["context"] = {"pre": before[:], "post": behind[:]}


class Bugsnag(Shape):
    script = ("file",)
    line = "lineNumber"
    column = "columnNumber"
    function = "method"
    shows = ("code",)

    def name(self, told: Dict[str, Any], found: Original) -> None:
        told["file"] = found.url
        told["inProject"] = found.is_in_app(told.get("inProject"))

    def show(self, told: Dict[str, Any], number: int, around: Around) -> None:
        before, line, behind = around
        lines = enumerate([*before, line, *behind], number - len(before))
        told["code"] = {str(at): text for at, text in lines}


SHAPES: Dict[str, Shape] = {"sentry": Sentry(), "rollbar": Rollbar(), "bugsnag": Bugsnag()}


def places_by_script(frames: List[Any], shape: Shape) -> Dict[str, Dict[int, Place]]:
    """For each script the numbers of its frames in the list, with the places that they name."""
    found: Dict[str, Dict[int, Place]] = {}
    for number, place in enumerate(map(shape.place_of, frames)):
        if place is not None:
            found.setdefault(place[0], {})[number] = place
    return found


def translate_all(
    frames: List[Any], places: Dict[int, Place], shape: Shape, originals: Originals, names: bool
) -> int:
    """Replaces frames of one script in the list by those in the sources; returns how many.

    With `names` they get names of functions too.
    """
    done: Dict[int, Asked] = {}
    for number, (_, line, column) in places.items():
        found = originals.at(line, column)
        if found is not None:
            told = frames[number] = shape.told(frames[number], found)
            done[number] = Asked(told.get(shape.function), line, column, found.place())
    if names:
        for number, name in zip(done, originals.names(list(done.values()))):
            if name:
                frames[number][shape.function] = name
    return len(done)


class Lines:
    """The lines of a text, by where they begin: a str for each would take 50 bytes more."""

    def __init__(self, text: str) -> None:
        self._text = text
        self._starts = array("Q", [0])
        self._starts.extend(map(methodcaller("end"), ENDS.finditer(text)))

    def around(self, number: int, context: int) -> Optional[Around]:
        """A line with so many before and behind it; None where there is no such line."""
        many = len(self._starts)
        if number >= many:
            return None
        before = range(max(0, number - context), number)
        behind = range(number + 1, min(many, number + 1 + context))
        return list(map(self._line, before)), self._line(number), list(map(self._line, behind))

    def _line(self, number: int) -> str:
        start = self._starts[number]
        if number + 1 == len(self._starts):
            return self._text[start:]
        end = self._starts[number + 1]
        return self._text[start : end - (2 if self._text.endswith("\r\n", start, end) else 1)]

    def size(self) -> int:
        """How much memory they take, about."""
        return BESIDE + sys.getsizeof(self._text) + sys.getsizeof(self._starts)


class Known:
    """What was found lately, of all maps: positions in sources, their lines, and names of functions."""

    def __init__(self) -> None:
        self.positions: Recent[Optional[Original]] = Recent(MOST_KNOWN)
        self.lines: Recent[Optional[Lines]] = Recent(MOST_KNOWN)
        self.names: Recent[str] = Recent(MOST_KNOWN)


class Originals:
    """What positions of a script are in its sources, with so many lines around them.

    `mark` tells its map from all others.
    """

    def __init__(self, opened: Map, mark: object, context: int, known: Known) -> None:
        self._map, self._mark = opened, mark
        self._context = context
        self._known = known
        # the source that was asked for last, and its lines, which may have too many bytes to be kept
        self._last: Tuple[Optional[int], Optional[Lines]] = None, None

    def at(self, line: int, column: int) -> Optional[Original]:
        """A position, which counts from 1, in its source; None where that isn't known, or has no URL."""
        key = self._mark, line, column, self._context
        return self._known.positions.find(key, lambda: self._found(line, column), size_of)

    def names(self, asked: List[Asked]) -> List[str]:
        """The names of functions that frames get, empty for those that get none."""
        return names_of(self._map, self._mark, asked, self._known.names)

    def _found(self, line: int, column: int) -> Optional[Original]:
        found = self._map.find(line - 1, column - 1)
        if found is None or found.source is None:
            return None
        url = self._map.url(found.source)
        if url is None:
            return None
        path = urlsplit(url).path.lstrip("/") or url
        around = self._around(found.source, found.source_line)
        return Original(url, path, found.source_line + 1, found.source_column + 1, found.is_ignored, around)

    def _around(self, source: int, number: int) -> Optional[Around]:
        lines = self._lines_of(source)
        return None if lines is None else lines.around(number, self._context)

    def _lines_of(self, source: int) -> Optional[Lines]:
        """The lines of a source; None where the map doesn't have its content."""
        if source != self._last[0]:
            lines = self._known.lines.find((self._mark, source), lambda: self._cut(source), size_of_lines)
            self._last = source, lines
        return self._last[1]

    def _cut(self, source: int) -> Optional[Lines]:
        content = self._map.content(source)
        return None if content is None else Lines(content)


def size_of_lines(lines: Optional[Lines]) -> int:
    """How much memory the lines of a source take, about."""
    return BESIDE if lines is None else lines.size()


def size_of(found: Optional[Original]) -> int:
    """The same of a position with its lines."""
    if found is None:
        return BESIDE
    before, line, behind = found.around or ([], "", [])
    lines = sum(map(sys.getsizeof, [*before, line, *behind]))
    return 2 * BESIDE + 2 * sys.getsizeof(found.url) + lines

"""The maps that the sources of a script's map lead to, at every depth, as one map."""

from __future__ import annotations

import re
from dataclasses import dataclass
from typing import Callable, Dict, Iterator, List, Optional, Union

from ._declarations import REFUSED
from ._library import LARGEST_U32, Error
from .finders import Found, Lead, LeadOf
from .links import alike
from .maps import Map
from .scripts import MOST_SHOWN

__all__ = ["Chain"]

# How many levels of maps are followed, and how many faults of a script's chain are told.
DEEPEST = 16
MOST_FAULTS = 10

# What a text has that names a map.
WORD = "sourceMappingURL"


class Unfollowed(Exception):
    """None of the maps that the sources of a script's map lead to is followed."""


@dataclass
class Step:
    """A map that a source leads to, its text until its own sources are looked at, and how many levels are
    below it, which is known behind that.
    """

    map: Map
    data: bytes
    is_looked_at: bool = False
    depth: Optional[int] = None


def _may_name_maps(data: bytes) -> bool:
    """Whether a content in the text of a map may name a map. A letter may be escaped."""
    return WORD.encode() in data or b"\\u00" in data


def _width(line: str) -> int:
    return len(line) if line.isascii() else len(line.encode("utf-16-le")) // 2


def is_past_end(opened: Map, text: bytes) -> bool:
    """Whether a map has mappings past the end of a text or of one of its lines, where all count these alike."""
    try:
        lines = re.split("\r\n|\r|\n", text.decode())
    except UnicodeDecodeError:
        return False
    if any("\u2028" in line or "\u2029" in line for line in lines):
        return False
    count = opened.counts().lines
    lasts = (opened.find(line, LARGEST_U32) for line in range(min(count, len(lines))))
    return count > len(lines) or any(
        last is not None and last.column > _width(line) for last, line in zip(lasts, lines)
    )


class Chain:
    """Follows the sources of the map of one script. `open_map` gets a map's text, and how many bytes the URLs
    of its sources may take: those of all inner maps together have `url_bytes`.
    """

    def __init__(self, lead_of: LeadOf, open_map: Callable[[Found, int], Map], url_bytes: int) -> None:
        self.faults: List[str] = []
        self._lead_of = lead_of
        self._open_map = open_map
        self._url_bytes = url_bytes
        self._steps: List[Step] = []
        # those by their files; None for a map that is refused
        self._files: Dict[str, Optional[Step]] = {}

    def composed(self, script: str, opened: Map, data: bytes) -> Map:
        """The script's map, which has this text, composed with the maps that its sources lead to. If that is
        another map, this one is closed.
        """
        made = opened
        try:
            made = self._followed(script, Step(opened, data), 0)
        except Unfollowed as fault:
            self._tell(str(fault))
        finally:
            for step in self._steps:
                step.map.close()
        if made is not opened:
            opened.close()
        return made

    def _tell(self, fault: str) -> None:
        if len(self.faults) < MOST_FAULTS:
            self.faults.append(fault)

    def _followed(self, script: str, step: Step, level: int) -> Map:
        """The map of a script at a level, composed with those of its sources, if one of these has any."""
        inner: Dict[Union[str, int], Map] = {}
        depth, data = 0, step.data
        step.is_looked_at, step.data = True, b""
        for number in self._looked_at(step.map, data):
            found = self._source(script, step.map, number, level)
            if found is not None:
                inner[number] = found.map
                depth = max(depth, 1 + (found.depth or 0))
        step.depth = depth
        try:
            return step.map.compose(inner) if inner else step.map
        except Error as fault:
            raise Unfollowed(str(fault)) from None

    @staticmethod
    def _looked_at(opened: Map, data: bytes) -> Iterator[int]:
        """The sources that may name a map: those without a content, which may have a file, or all."""
        may_name = _may_name_maps(data)
        for number in range(opened.counts().sources):
            if may_name or not opened._has_content(number):
                yield number

    def _source(self, script: str, opened: Map, number: int, level: int) -> Optional[Step]:
        """The map of a source of a script's map, if it can be followed."""
        url, content = opened.url(number) or "", opened.content(number)
        try:
            # the file of a script that was written over its source is the script's
            if alike(script, url) if content is None else WORD not in content:
                return None
            lead = self._lead_of(url, content)
            return None if lead is None else self._led(url, lead, level + 1)
        except (Error, OSError) as fault:
            self._tell(f"{url[:MOST_SHOWN]}: {str(fault)[: 2 * MOST_SHOWN]}")
            return None

    def _led(self, url: str, lead: Lead, level: int) -> Optional[Step]:
        """The map of the source with this URL, which is followed itself unless it is of another text."""
        step = self._step(lead)
        if step is None:
            return None
        if is_past_end(step.map, lead.text):
            raise Error(REFUSED, "its map is of another text: mappings begin past the end of this")
        if not step.is_looked_at and level <= DEEPEST:
            own = step.map
            step.map = self._followed(url, step, level)
            if step.map is not own:
                own.close()
        # without a depth it is looked at now, further out
        if step.depth is None or level + step.depth > DEEPEST:
            raise Unfollowed(f"its sources lead on more than {DEEPEST} deep, or back to a map before")
        return step

    def _step(self, lead: Lead) -> Optional[Step]:
        """The map that a source names. A file is read once, and told of once where that is refused."""
        if lead.file is None:
            return self._opened(lead)
        if lead.file not in self._files:
            self._files[lead.file] = None
            self._files[lead.file] = self._opened(lead)
        return self._files[lead.file]

    def _opened(self, lead: Lead) -> Step:
        found = lead.read()
        opened = self._open_map(found, self._url_bytes)
        step = Step(opened, found.data)
        self._steps.append(step)
        urls = map(opened.url, range(opened.counts().sources))
        self._url_bytes -= sum(len(url.encode()) for url in urls if url is not None)
        return step

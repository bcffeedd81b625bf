"""How logs are cut into parts, and what becomes of their lines."""

from __future__ import annotations

from dataclasses import dataclass
from typing import BinaryIO, Iterator, List

__all__ = ["StoreCounts", "Way", "lines_that_stay", "middle", "spellings", "whole_lines"]

# How many bytes of a log are translated at once, and so may wait for their end.
BLOCK = 1 << 20


@dataclass(frozen=True)
class StoreCounts:
    """How many lines there were, and what became of them. Each frame and each lookup counts as a line.

    `missing` are those with a frame whose script has no map, `broken` those with a broken one. They stay as
    they are, as do lines without a frame, and those whose position has no mapping, no source, or a source
    without a URL. `dropped` are those in ignored sources, if these are hidden.
    """

    lines: int = 0
    translated: int = 0
    dropped: int = 0
    missing: int = 0
    broken: int = 0

    def __add__(self, other: StoreCounts) -> StoreCounts:
        return StoreCounts(
            self.lines + other.lines,
            self.translated + other.translated,
            self.dropped + other.dropped,
            self.missing + other.missing,
            self.broken + other.broken,
        )


@dataclass(frozen=True)
class Way:
    """How a log is translated."""

    hide: bool
    anywhere: bool
    ignore_query: bool
    names: bool


def whole_lines(source: BinaryIO, most: int = BLOCK) -> Iterator[bytes]:
    """Whole lines of a file, as they come, at most some bytes unless a line is longer."""
    read = getattr(source, "read1", source.read)
    pieces: List[bytes] = []
    while True:
        piece = read(most)
        if not piece:
            break
        end = piece.rfind(b"\n") + 1
        if end:
            yield b"".join([*pieces, piece[:end]])
            pieces.clear()
        pieces.append(piece[end:])
    rest = b"".join(pieces)
    if rest:
        yield rest


def lines_that_stay(block: bytes, told: bytes) -> List[bytes]:
    """The lines of a log that its translation, of as many lines, has too."""
    return [line for line, new in zip(block.split(b"\n"), told.split(b"\n")) if line == new]


def middle(block: bytes) -> int:
    """Where whole lines are cut in two, behind a line feed; 0 if there is one line."""
    half = len(block) // 2
    cut = block.rfind(b"\n", 0, half) + 1 or block.find(b"\n", half) + 1
    return cut if cut < len(block) else 0


def spellings(url: str) -> List[str]:
    """A URL, and what of it may be a script's if a query and a fragment are ignored: the longest first.

    These are at most five, however many marks the URL has. As docs/OUTPUT.md has it, a query and a fragment
    have no further `?` or `#`, so they begin at one of the last two. By the URL Standard, a fragment begins
    at the first `#` and a query at the first `?`, which counts for URLs that don't stand in a log.
    """
    last = _last_mark(url, len(url))
    cuts = {last, _last_mark(url, last), url.find("?"), url.find("#")}
    return [url] + [url[:cut] for cut in sorted(cuts, reverse=True) if cut > 0]


def _last_mark(url: str, end: int) -> int:
    """Where the last mark of a query or a fragment before the end is, or -1."""
    return max(url.rfind("?", 0, end), url.rfind("#", 0, end))

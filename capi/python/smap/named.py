"""Names of functions for frames that are objects. The library is asked as for lines of a log."""

from __future__ import annotations

from typing import Dict, List, NamedTuple, Optional

from .maps import Map
from .noted import Recent

__all__ = ["Asked", "names_of"]

# What stands in such a line before a name, and for the script.
LEAD = "    at "
SCRIPT = "script.js"

# What Python's objects for one name take, about.
BESIDE = 500


class Asked(NamedTuple):
    """A frame: the name that it has, its position in the script, and, as logs have it, that in the source."""

    name: object
    line: int
    column: int
    place: str

    def text(self) -> Optional[str]:
        """The line; None where the name is no text, or one of several lines."""
        here = f"{SCRIPT}:{self.line}:{self.column}"
        if self.name is None or self.name == "":
            return LEAD + here
        return f"{LEAD}{self.name} ({here})" if isinstance(self.name, str) and "\n" not in self.name else None

    def name_in(self, told: str) -> str:
        """The name in what became of the line; empty where it has none."""
        end = f" ({self.place})"
        return told[len(LEAD) : -len(end)] if told.endswith(end) else ""


def names_of(opened: Map, mark: object, asked: List[Asked], known: Recent[str]) -> List[str]:
    """The names of frames in the sources, empty for those without one. `mark` tells the map from all others.

    The library reads a source anew in each call: those that aren't known are asked for together.
    """
    texts = [one.text() for one in asked]
    by_text = {text: one for text, one in zip(texts, asked) if text is not None}
    found: Dict[Optional[str], str] = {}
    new: List[str] = []
    for text in by_text:
        name = known.get((mark, text))
        if name is None:
            new.append(text)
        else:
            found[text] = name
    for text, told in zip(new, _told(opened, new)):
        name = found[text] = by_text[text].name_in(told)
        known.keep((mark, text), name, BESIDE + 4 * len(text) + 4 * len(name))
    return [found.get(text, "") for text in texts]


def _told(opened: Map, lines: List[str]) -> List[str]:
    if not lines:
        return []
    log = "\n".join(lines).encode("utf-8", "surrogatepass")
    return opened.translate(log, SCRIPT, names=True).decode("utf-8", "surrogatepass").split("\n")

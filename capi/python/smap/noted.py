"""What is noted in bounded memory: of scripts by their names, which a log makes up, and of places in maps."""

from __future__ import annotations

import threading
from collections import OrderedDict
from typing import Callable, Dict, Generic, Hashable, Optional, TypeVar

__all__ = ["Noted", "Recent", "Worth"]

# How many names are known, and how many characters they have together.
MOST_NAMES = 10_000
MOST_CHARACTERS = 4_000_000

# Over how many values it is seen whether to look for them saves time: to look for one that isn't known, and to
# keep it, takes about a third of what a known one saves. How many times as long it is left be if it doesn't.
LOOKED_FOR = 1 << 12
ONE_IN = 4
LEFT_BE = 31

Value = TypeVar("Value")


class Noted(Generic[Value]):
    """Values of scripts by their names, in the order in which they were noted."""

    def __init__(self) -> None:
        self._values: OrderedDict[str, Value] = OrderedDict()
        self._characters = 0

    def __contains__(self, name: object) -> bool:
        return name in self._values

    def get(self, name: str) -> Optional[Value]:
        return self._values.get(name)

    def has_room(self, name: str) -> bool:
        """Whether a new name fits beside those that are known."""
        return len(self._values) < MOST_NAMES and self._characters + len(name) <= MOST_CHARACTERS

    def note(self, name: str, value: Value) -> None:
        """Notes a value, which is then the newest. Nothing makes room for it before `trim`."""
        if name not in self._values:
            self._characters += len(name)
        self._values[name] = value
        self._values.move_to_end(name)

    def trim(self) -> None:
        """Forgets the oldest until the others have room."""
        while len(self._values) > MOST_NAMES or self._characters > MOST_CHARACTERS:
            self._characters -= len(self._values.popitem(last=False)[0])

    def forget(self, name: str) -> None:
        if name in self._values:
            del self._values[name]
            self._characters -= len(name)

    def clear(self) -> None:
        self._values.clear()
        self._characters = 0

    def as_dict(self) -> Dict[str, Value]:
        return dict(self._values)


class Recent(Generic[Value]):
    """Values that were found lately, of so many bytes at most. Without room for one more all are forgotten.

    All threads may use it at once.
    """

    def __init__(self, most: int) -> None:
        self._most = most
        self._lock = threading.Lock()
        self._values: Dict[Hashable, Value] = {}
        self._size = 0

    def find(self, key: Hashable, make: Callable[[], Value], size_of: Callable[[Value], int]) -> Value:
        """The value of a key, which is made if it isn't known. One that is too large by itself isn't kept."""
        try:
            return self._values[key]
        except KeyError:
            value = make()
        self.keep(key, value, size_of(value))
        return value

    def get(self, key: Hashable) -> Optional[Value]:
        """The value of a key, if it is known."""
        return self._values.get(key)

    def keep(self, key: Hashable, value: Value, size: int) -> None:
        """Makes a value known, which isn't."""
        if size <= self._most:
            with self._lock:
                if self._size + size > self._most:
                    self._values.clear()
                    self._size = 0
                self._values[key] = value
                self._size += size


class Worth:
    """Whether values are looked for among those that are known: as long as one in ONE_IN is found, and else from
    time to time, for those that come may be others by then.
    """

    def __init__(self) -> None:
        self._rounds = self._looked_for = self._found = self._left = 0

    def is_given(self) -> bool:
        """Whether to look in this round."""
        if self._left:
            self._left -= 1
            return False
        self._rounds += 1
        return True

    def note(self, looked_for: int, found: int) -> None:
        """Notes what became of a round."""
        self._looked_for += looked_for
        self._found += found
        if self._looked_for >= LOOKED_FOR:
            self._left = LEFT_BE * self._rounds if self._found * ONE_IN < self._looked_for else 0
            self._rounds = self._looked_for = self._found = 0

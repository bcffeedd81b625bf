"""Open maps in bounded memory: found and opened as they are asked for, and kept as long as there is room."""

from __future__ import annotations

import threading
from collections import OrderedDict
from dataclasses import dataclass, field
from typing import Callable, ClassVar, Dict, Iterable, List, Optional, Tuple

from ._declarations import REFUSED
from ._library import Error
from .chains import Chain
from .files import too_large
from .finders import Finder, Found, LeadOf, base_by_default, lead_alone
from .maps import Map
from .noted import Noted
from .scripts import MOST_SHOWN

__all__ = ["Bounds", "Cache", "Kept", "beside"]

# What Python's objects for a map take, about, beside its name and what the library holds.
BESIDE = 1_000

# What the library takes for a mapping, and that of its text which ends one.
MAPPING = 32
ENDS_OF_MAPPINGS = (b",", b";")


@dataclass(frozen=True)
class Bounds:
    """How much memory a cache takes, and which maps it opens."""

    cache_bytes: int
    map_bytes: int
    url_bytes: int

    def __post_init__(self) -> None:
        for name, value in vars(self).items():
            if value < 0:
                raise ValueError(f"{name} is below 0")


@dataclass(frozen=True)
class Kept:
    """An open map, the memory that it takes, the script whose map it is, and what no other map has."""

    map: Map
    size: int
    script: str
    mark: object = field(default_factory=object)

    def share(self) -> Kept:
        """A handle of its own of the same map."""
        return Kept(self.map.share(), self.size, self.script, self.mark)


class Opening:
    """A map that a thread finds and opens, for which other threads wait.

    A thread that opens a map may wait for another one, as its finder may ask stores. Where such threads would
    wait for one another, or one for itself, the last of them gets an Error.
    """

    # for which map each thread waits, in any cache, and the lock of that
    _waiting: ClassVar[Dict[int, Opening]] = {}
    _lock = threading.Lock()

    def __init__(self) -> None:
        self._thread = threading.get_ident()
        self._done = threading.Event()

    def end(self) -> None:
        self._done.set()

    def wait(self, script: str) -> None:
        """Waits for the end. Raises Error where it waits for this thread."""
        mine = threading.get_ident()
        with self._lock:
            if self._waits_for(mine):
                shown = script[:MOST_SHOWN]
                raise Error(REFUSED, f"a finder asks for the map of {shown}, which waits for that finder")
            self._waiting[mine] = self
        try:
            self._done.wait()
        finally:
            self._waiting.pop(mine, None)

    def _waits_for(self, thread: int) -> bool:
        """Whether this waits for what a thread opens, or is that. The lock is held."""
        other: Optional[Opening] = self
        while other is not None and not other._done.is_set():
            if other._thread == thread:
                return True
            other = self._waiting.get(other._thread)
        return False


def expected(data: bytes) -> int:
    """How much memory a map may take while it is opened, by its text, where it has no long `sourceRoot`."""
    return len(data) + MAPPING * sum(data.count(end) for end in ENDS_OF_MAPPINGS)


def beside(name: str) -> int:
    """How much memory a script of this name takes beside its map, about."""
    return len(name.encode()) + BESIDE


class Cache:
    """The maps of scripts. All threads may use it at once.

    What it knows of a script it knows by the script's own name. Another name means the script if it is alike,
    and that of no script with a map, and the finder says so by a method `meant_by`. With `chains`, a map is
    composed with those that its sources lead to: a method `leads` of the finder gives what finds these.
    """

    def __init__(self, finder: Finder, bounds: Bounds, chains: bool) -> None:
        self.lock = threading.Lock()
        self.chains = chains
        self._finder = finder
        self._leads: Callable[[str], LeadOf] = getattr(finder, "leads", lambda script: lead_alone)
        self._meant_by: Callable[[str], Optional[str]] = getattr(finder, "meant_by", lambda name: None)
        self._bounds = bounds
        self._kept: OrderedDict[str, Kept] = OrderedDict()
        self._kept_size = 0
        self._opening: Dict[str, Opening] = {}
        self._opening_size = 0
        # the size of each map that was opened, and how often it was
        self._opened: Noted[Tuple[int, int]] = Noted()
        self._broken: Noted[Exception] = Noted()
        self._unfollowed: Noted[List[str]] = Noted()
        # the scripts that other names mean
        self._meant: Noted[str] = Noted()

    # ---- what it knows

    @property
    def size(self) -> int:
        """The memory of the maps that it keeps, and of those that it is opening."""
        with self.lock:
            return self._kept_size + self._opening_size

    def opened(self) -> Dict[str, int]:
        with self.lock:
            return {script: times for script, (_, times) in self._opened.as_dict().items()}

    def broken(self) -> Dict[str, Exception]:
        with self.lock:
            return self._broken.as_dict()

    def unfollowed(self) -> Dict[str, List[str]]:
        with self.lock:
            return {script: list(faults) for script, faults in self._unfollowed.as_dict().items()}

    def _own_name(self, name: str) -> str:
        """The name of the script that a name means, as far as that is known."""
        return self._meant.get(name) or name

    def is_broken(self, name: str) -> bool:
        with self.lock:
            return name in self._broken or self._own_name(name) in self._broken

    def size_of(self, name: str) -> Optional[Tuple[str, int]]:
        """The script that a name means, and the memory that its map took when it was last opened, if that is
        known.
        """
        script = self._own_name(name)
        known = self._opened.get(script)
        return known and (script, known[0])

    def kept(self, name: str) -> Optional[Kept]:
        """The script's map, which is used now, if it is kept. It belongs to the cache. The lock is held."""
        script = self._own_name(name)
        kept = self._kept.get(script)
        if kept is not None:
            self._kept.move_to_end(script)
        return kept

    def touch(self, names: Iterable[str]) -> None:
        """Notes that scripts are used now."""
        with self.lock:
            for name in names:
                self.kept(name)

    def forget(self, name: Optional[str] = None) -> None:
        """Closes the map of a script, or all maps, and forgets faults and what names mean."""
        with self.lock:
            if name is None:
                for script in list(self._kept):
                    self._drop(script)
                self._broken.clear()
                self._unfollowed.clear()
                self._meant.clear()
                return
            for script in {name, self._own_name(name)}:
                if script in self._kept:
                    self._drop(script)
                self._broken.forget(script)
                self._unfollowed.forget(script)
            self._meant.forget(name)

    # ---- maps are opened

    def open(self, name: str) -> Optional[Kept]:
        """A handle of its own of the map of the script that a name means; None where there is no map, or a
        broken one.
        """
        try:
            name.encode()
        except UnicodeEncodeError:
            return None  # half a surrogate pair, which no URL has
        found = self._open(name)
        if found is not None or self.is_broken(name):
            return found
        script = self._script_meant(name)
        return None if script is None else self._open(script)

    def _script_meant(self, name: str) -> Optional[str]:
        """Another script that the name means, if there is one."""
        try:
            script = self._meant_by(name)
        except (Error, OSError) as fault:
            self._note_broken(name, fault)
            return None
        if script is None or script == name:
            return None
        with self.lock:
            self._meant.note(name, script)
            self._meant.trim()
        return script

    def _open(self, script: str) -> Optional[Kept]:
        """The same as `open`, for a script's own name, or one that is known to mean it."""
        while True:
            with self.lock:
                kept = self.kept(script)
                if kept is not None:
                    return kept.share()
                if script in self._broken:
                    return None
                other = self._opening.get(script)
                if other is None:
                    mine = self._opening[script] = Opening()
                    break
            other.wait(script)
        try:
            return self._find(script)
        finally:
            with self.lock:
                del self._opening[script]
            mine.end()

    def _find(self, script: str) -> Optional[Kept]:
        """The same, for a script that the cache has neither as a map nor as a broken one."""
        try:
            found = self._finder(script)
            if found is None:
                return None
            if not isinstance(found, Found):
                found = Found(found, base_by_default(script))
            return self._read(script, found)
        except (Error, OSError) as fault:
            self._note_broken(script, fault)
            return None

    def _note_broken(self, script: str, fault: Exception) -> None:
        # what it was raised in would keep the map's text alive
        fault.__traceback__ = fault.__context__ = fault.__cause__ = None
        with self.lock:
            self._broken.note(script, fault)
            self._broken.trim()

    def _read(self, script: str, found: Found) -> Kept:
        """Opens a map, and those that its sources lead to."""
        reserved: List[int] = []
        try:
            opened = self._open_map(found, self._bounds.url_bytes, reserved)
            if self.chains:
                opened = self._composed(script, opened, found.data, reserved)
            made = Kept(opened, opened.held() + beside(script), script)
        except BaseException:
            with self.lock:
                self._opening_size -= sum(reserved)
            raise
        return self._keep(script, made, sum(reserved))

    def _open_map(self, found: Found, url_bytes: int, reserved: List[int]) -> Map:
        """Opens a map, for which others make room before it is known how much it takes."""
        if len(found.data) > self._bounds.map_bytes:
            raise too_large(self._bounds.map_bytes)
        guess = expected(found.data)
        with self.lock:
            reserved.append(guess * self._make_room(guess))
            self._opening_size += reserved[-1]
        return Map.open(found.data, found.base, url_bytes=url_bytes)

    def _composed(self, script: str, opened: Map, data: bytes, reserved: List[int]) -> Map:
        """A map composed with those that its sources lead to, which are closed then."""

        def open_map(found: Found, url_bytes: int) -> Map:
            return self._open_map(found, url_bytes, reserved)

        chain = Chain(self._leads(script), open_map, self._bounds.url_bytes)
        made = chain.composed(script, opened, data)
        with self.lock:
            self._unfollowed.forget(script)
            if chain.faults:
                self._unfollowed.note(script, chain.faults)
                self._unfollowed.trim()
        return made

    def _keep(self, script: str, made: Kept, reserved: int) -> Kept:
        """A handle of its own of a map, which stays in the cache if that is large enough."""
        with self.lock:
            self._opening_size -= reserved
            self._meant.forget(script)
            _, times = self._opened.get(script) or (0, 0)
            self._opened.note(script, (made.size, times + 1))
            self._opened.trim()
            if not self._make_room(made.size):
                return made
            self._kept[script] = made
            self._kept_size += made.size
            return made.share()

    def _make_room(self, size: int) -> bool:
        """Closes the maps that were used least recently for one of this size; False if there can't be room.

        The lock is held, as for `_drop`.
        """
        room = self._bounds.cache_bytes - self._opening_size - size
        if room < 0:
            return False
        while self._kept_size > room:
            self._drop(next(iter(self._kept)))
        return True

    def _drop(self, script: str) -> None:
        """Closes a map that is kept."""
        kept = self._kept.pop(script)
        kept.map.close()
        self._kept_size -= kept.size

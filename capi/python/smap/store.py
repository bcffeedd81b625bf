"""Maps that are opened as they are named, and kept as long as there is room."""

from __future__ import annotations

import io
from collections.abc import Mapping as AnyMapping
from typing import Any, AnyStr, BinaryIO, Dict, Iterable, Iterator, List, Optional, Set, Tuple, Union

from ._library import TraceCounts
from .cache import Bounds, Cache, Kept, beside
from .files import MOST_BYTES
from .finders import Finder, Folders, PathLike
from .frames import SHAPES, Known, Originals, places_by_script, translate_all
from .logs import StoreCounts, Way, lines_that_stay, middle, spellings, whole_lines
from .maps import Map, Mapping
from .noted import Noted
from .traces import Scripts, named_by

__all__ = ["Store", "StoreCounts"]

# How many bytes the URLs of a map's sources take at most: a thousand bytes each, of 67,108 sources.
MOST_URL_BYTES = 67_108_864

# How many names that are only alike to scripts a call has at once, where positions are found anywhere: each
# place of a text is looked at once for each length of a name.
MOST_ALIKE = 100

# What a lookup counts as.
_LINE, _TRANSLATED = StoreCounts(lines=1), StoreCounts(lines=1, translated=1)


class _Call:
    """The scripts by which a call translates lines: those that its lines name, as far as they have room.

    Each is there under the names that the lines have for it.
    """

    def __init__(self, most_alike: Optional[int] = None) -> None:
        self.scripts = Scripts()
        self.names: Set[str] = set()
        # whether each script that can't be added has a broken map, or none
        self.absent: Noted[bool] = Noted()
        self.size = 0
        self._most_alike = most_alike
        self._alike = 0
        # the scripts whose maps are there
        self.opened: Set[str] = set()

    def has_room(self, name: str, opened: Kept, room: int) -> bool:
        """Whether a script has room under one more name."""
        if not self.names:
            return True
        if self._most_alike is not None and self._alike >= self._most_alike and name != opened.script:
            return False
        return self.size + self._size_of(name, opened) <= room

    def _size_of(self, name: str, opened: Kept) -> int:
        """The memory that a script takes: of a map that is there under another name, what a name takes."""
        return beside(name) if opened.script in self.opened else opened.size

    def add(self, name: str, opened: Kept) -> None:
        self.scripts.add(name, opened.map)
        self.size += self._size_of(name, opened)
        self.names.add(name)
        self.opened.add(opened.script)
        self._alike += name != opened.script

    def clear(self) -> None:
        self.scripts.close()
        self.names.clear()
        self.opened.clear()
        self.size = self._alike = 0


class Store:
    """Translates logs and frames with maps that it finds, opens and keeps as their scripts are named.

        store = smap.Store({"https://h/m/": "dist/"}, cache_bytes=1 << 30)
        print(store.translate(log), store.broken)

    `finder` is a dictionary for `Folders`, or a function that gets the URL of a script and returns its map
    (`Found`, or bytes), or None if there is none. It may be called by several threads at once, and may ask a
    store for other scripts: an Error tells it of one that waits for itself. A name without a map means the
    script with one that a method `meant_by` of the finder says, as `Folders` has it: one to whose name it is
    alike (`smap.alike`).

    At most `cache_bytes` of memory are taken by maps that are kept open (`Map.held`), or being opened: those
    that were used last. A call in progress may hold up to as much again, if another thread makes room
    meanwhile. A map that is larger than that is opened for the lines that name it, and closed behind them,
    as are all maps of one line that names several, as with `anywhere` it may. A map whose text has more than
    `map_bytes` bytes is broken, and so is one whose sources have more than `url_bytes` bytes of URLs together,
    as those of a short text may.

    Unless `chains` is False, a map is composed with those that its sources lead to, at up to 16 levels:
    positions are those in the last sources. A source is looked at as a script of the
    same folder; where the finder is a function, that is none, so that it has to hold its map itself. Inner
    maps are closed once they are composed. Each may have `map_bytes` bytes, and the URLs of all their sources
    take `url_bytes`. A source that can't be followed stays as it is: `unfollowed` says why.

    A script without a map, or with a broken one, leaves its lines as they are, and is counted. One without a
    map is looked for again by each call; one that is broken stays in `broken` until `forget`. A map stays as
    it was opened until it makes room, or until `forget`, whatever becomes of its file. What a store knows by
    names, it knows of 10,000 scripts at most, so that its memory doesn't grow with what logs name.

    What frames had lately, positions in sources, lines of these and names of functions, is kept in 96 MiB
    at most besides.

    A finder's OSError and smap.Error make the map broken; all other exceptions come out of the call.
    All threads may use a store at once, but no finalizer and no signal handler, which may interrupt a call
    that has its lock. A pickled store has its finder and its bounds, and no maps.
    """

    def __init__(
        self,
        finder: Union[AnyMapping[str, PathLike], Finder],
        cache_bytes: int = 1 << 30,
        map_bytes: int = MOST_BYTES,
        url_bytes: int = MOST_URL_BYTES,
        chains: bool = True,
    ) -> None:
        self._bounds = Bounds(cache_bytes, map_bytes, url_bytes)
        if isinstance(finder, AnyMapping) or not callable(finder):
            finder = Folders(finder, map_bytes)
        self._finder: Finder = finder
        self._cache = Cache(finder, self._bounds, chains)
        self._lock = self._cache.lock
        self._missing: Noted[int] = Noted()
        self._known = Known()
        self._counts = StoreCounts()

    # ---- what the store knows

    @property
    def cache_bytes(self) -> int:
        """How much memory maps that are kept open may take."""
        return self._bounds.cache_bytes

    @property
    def map_bytes(self) -> int:
        """How many bytes the text of a map may have."""
        return self._bounds.map_bytes

    @property
    def url_bytes(self) -> int:
        """How many bytes the URLs of a map's sources may take together."""
        return self._bounds.url_bytes

    @property
    def chains(self) -> bool:
        """Whether maps are composed with those that their sources lead to."""
        return self._cache.chains

    @property
    def opened(self) -> Dict[str, int]:
        """How often the map of each script was opened: more than once if it made room for others.

        The last 10,000 are known by name.
        """
        return self._cache.opened()

    @property
    def broken(self) -> Dict[str, Exception]:
        """The fault of each script whose map is broken: an Error, such as RefusedError, or an OSError.

        The last 10,000 are known by name, and others looked for again.
        """
        return self._cache.broken()

    @property
    def unfollowed(self) -> Dict[str, List[str]]:
        """Why maps that the sources of a script's map lead to aren't followed, in ten texts at most.

        The last 10,000 scripts are known by name.
        """
        return self._cache.unfollowed()

    @property
    def missing(self) -> Dict[str, int]:
        """Scripts without a map, and how many lines named each. The first 10,000 are known by name."""
        with self._lock:
            return self._missing.as_dict()

    @property
    def counts(self) -> StoreCounts:
        """The sums of all calls."""
        with self._lock:
            return self._counts

    @property
    def kept_bytes(self) -> int:
        """How much memory maps in the cache take, and those being opened for it: at most `cache_bytes`."""
        return self._cache.size

    def forget(self, script: Optional[str] = None) -> None:
        """Closes the map of a script, or all maps, and forgets faults: all that is looked for again."""
        self._cache.forget(script)
        if script is None:
            getattr(self._finder, "forget", lambda: None)()

    def close(self) -> None:
        """Closes all maps, as the end of a `with` does. A store that is used again opens them again."""
        self.forget()

    def __enter__(self) -> Store:
        return self

    def __exit__(self, *error: object) -> None:
        self.close()

    def __reduce__(self) -> Tuple[type, Tuple[Finder, int, int, int, bool]]:
        return type(self), (self._finder, self.cache_bytes, self.map_bytes, self.url_bytes, self.chains)

    def by_debug_id(self, debug_id: str) -> Optional[str]:
        """The script whose map has this debug id, as other calls take it; None where there is none.

        A finder needs a method `by_debug_id` for it, as `Folders` has it, which reads all maps once.
        """
        if not hasattr(self._finder, "by_debug_id"):
            raise ValueError("by_debug_id needs a finder with a method by_debug_id")
        script: Optional[str] = getattr(self._finder, "by_debug_id")(debug_id)
        return script

    # ---- logs

    def translate(
        self,
        log: AnyStr,
        hide: bool = False,
        *,
        anywhere: bool = False,
        ignore_query: bool = False,
        names: bool = False,
    ) -> AnyStr:
        """A whole log with its positions replaced by those in the sources.

        The words are those of `smap.translate`; `anywhere` needs a finder with a method `named_in`, which
        gets bytes and returns the scripts whose URLs they hold, as `Folders` has it. A str gives a str, bytes
        give bytes. The last line needs no line feed. So of a log that is cut into parts, each has to end
        behind a line feed: the beginning of a line may be another frame.
        """
        if isinstance(log, str):
            data = log.encode("utf-8", "surrogateescape")
            told = self.translate(data, hide, anywhere=anywhere, ignore_query=ignore_query, names=names)
            return told.decode("utf-8", "surrogateescape")
        out = io.BytesIO()
        self.translate_file(
            io.BytesIO(log), out, hide, anywhere=anywhere, ignore_query=ignore_query, names=names
        )
        return out.getvalue()

    def translate_file(
        self,
        source: BinaryIO,
        target: BinaryIO,
        hide: bool = False,
        *,
        anywhere: bool = False,
        ignore_query: bool = False,
        names: bool = False,
    ) -> StoreCounts:
        """Translates a log from one binary file to another, and returns the counts of its lines.

        Lines are written as soon as they are read, and memory doesn't grow with the log. The words are those
        of `translate`.
        """
        if anywhere and not hasattr(self._finder, "named_in"):
            raise ValueError("anywhere needs a finder with a method named_in")
        way, counts = Way(hide, anywhere, ignore_query, names), StoreCounts()
        call = _Call(MOST_ALIKE if anywhere else None)
        try:
            for block in whole_lines(source):
                told, of_block = self._translated(block, call, way)
                call.absent.trim()
                counts += of_block
                target.write(told)
                target.flush()
        finally:
            call.clear()
        return counts

    def _translated(self, block: bytes, call: _Call, way: Way) -> Tuple[bytes, StoreCounts]:
        """Some whole lines, translated. Where their maps have no room together, they are cut in two."""
        done = self._by_known(block, call, way)
        if done is not None:
            return done
        named = self._named(block.split(b"\n"), way, block)
        cut = middle(block)
        if not self._gather(call, [spelled for spelled, _ in named], cut == 0):
            first, counts = self._translated(block[:cut], call, way)
            rest, more = self._translated(block[cut:], call, way)
            return first + rest, counts + more
        told, seen = call.scripts.translate(
            block, way.hide, anywhere=way.anywhere, ignore_query=way.ignore_query, names=way.names
        )
        return told, self._counted(call, named, seen)

    def _by_known(self, block: bytes, call: _Call, way: Way) -> Optional[Tuple[bytes, StoreCounts]]:
        """The same, if the scripts that the call has are enough; else None.

        A frame that they translate names no other script, so only lines that stay are looked at, unless the
        way of translating allows several scripts for a line, or leaves lines out.
        """
        if way.hide or way.anywhere or way.ignore_query or not call.names:
            return None
        told, seen = call.scripts.translate(block, names=way.names)
        named = self._named(lines_that_stay(block, told), way, block)
        if any(script not in call.names and script not in call.absent for (script,), _ in named):
            return None
        self._cache.touch(call.names)
        return told, self._counted(call, named, seen)

    def _named(self, lines: Iterable[bytes], way: Way, block: bytes) -> List[Tuple[List[str], int]]:
        """What may be the scripts of each URL that frames among the lines name, and how many name it.

        If positions are found anywhere, the scripts that stand anywhere in the block come too.
        """
        named = []
        for url, many in named_by(lines).items():
            text = url.decode("utf-8", "replace")
            named.append((spellings(text) if way.ignore_query else [text], many))
        if way.anywhere:
            named += [([script], 0) for script in getattr(self._finder, "named_in")(block)]
        return named

    def _gather(self, call: _Call, wanted: List[List[str]], whole: bool) -> bool:
        """Puts scripts into a call, the first with a map of each list. False if they have no room together,
        which `whole` doesn't ask.
        """
        if self._add_all(call, wanted, None if whole and not call.names else self.cache_bytes):
            return True
        call.clear()
        return self._add_all(call, wanted, None if whole else self.cache_bytes)

    def _add_all(self, call: _Call, wanted: List[List[str]], room: Optional[int]) -> bool:
        """Adds scripts that have a map. False if they have no room, some being added then."""
        new = [spelled for spelled in wanted if spelled[0] not in call.names]
        if room is not None and not self._may_have_room(call, new, room):
            return False
        for script in (script for spelled in new for script in self._until_added(call, spelled)):
            opened = self._cache.open(script)
            if opened is None:
                call.absent.note(script, self._cache.is_broken(script))
                continue
            with opened.map:
                if room is not None and not call.has_room(script, opened, room):
                    return False
                call.add(script, opened)
        self._cache.touch(script for spelled in wanted for script in spelled)
        return True

    @staticmethod
    def _until_added(call: _Call, spelled: List[str]) -> Iterator[str]:
        """Those of the spellings of a URL that have to be opened, up to the first that the call has then."""
        for script in spelled:
            if script in call.names:
                return
            if script not in call.absent:
                yield script
                if script in call.names:
                    return

    def _may_have_room(self, call: _Call, new: List[List[str]], room: int) -> bool:
        """Whether a call has room for scripts, by what is known of their sizes before they are opened."""
        known: Dict[str, int] = {}
        for spelled in new:
            found = next(filter(None, map(self._cache.size_of, self._until_added(call, spelled))), None)
            if found is not None and found[0] not in call.opened:
                known[found[0]] = found[1]
        return len(call.names) + len(known) <= 1 or call.size + sum(known.values()) <= room

    def _counted(self, call: _Call, named: List[Tuple[List[str], int]], seen: TraceCounts) -> StoreCounts:
        """The counts of translated lines, which are added to the sums."""
        left = StoreCounts()
        for spelled, lines in named:
            if lines and not any(script in call.names for script in spelled):
                left += self._left(spelled[0], lines, any(map(call.absent.get, spelled)))
        counts = StoreCounts(seen.lines, seen.translated, seen.dropped, left.missing, left.broken)
        self._count(counts)
        return counts

    def _left(self, script: str, lines: int, is_broken: bool) -> StoreCounts:
        """Counts the lines of a script that has no map, or a broken one."""
        if is_broken:
            return StoreCounts(broken=lines)
        with self._lock:
            known = self._missing.get(script)
            if known or self._missing.has_room(script):
                self._missing.note(script, (known or 0) + lines)
        return StoreCounts(missing=lines)

    def _count(self, counts: StoreCounts) -> None:
        with self._lock:
            self._counts += counts

    # ---- positions

    def lookup(self, script: str, line: int, column: int) -> Optional[Mapping]:
        """The mapping that a position of a script falls to, with its URL and its name; or None.

        Line and column count from 0. None too where the script has no map, or a broken one.
        """
        with self._lock:
            kept = self._cache.kept(script)
            if kept is not None:
                return self._looked_up(kept.map, line, column)
        opened = self._cache.open(script)
        if opened is None:
            self._count(self._left(script, 1, self._cache.is_broken(script)) + _LINE)
            return None
        with opened.map, self._lock:
            return self._looked_up(opened.map, line, column)

    def _looked_up(self, opened: Map, line: int, column: int) -> Optional[Mapping]:
        """What a map has for a position, which is counted. The lock is held."""
        found = opened.lookup(line, column)
        self._counts += _TRANSLATED if found is not None and found.url is not None else _LINE
        return found

    def frames(
        self,
        frames: Iterable[Any],
        context: int = 5,
        *,
        ignore_query: bool = False,
        shape: str = "sentry",
        names: bool = False,
    ) -> List[Any]:
        """Frames as error reporters send them, in their sources: new dictionaries, in the same order.

        A frame has `abs_path`, the URL of its script, or else `filename`, and `lineno` and `colno`, which
        count from 1. It gets those of its source, and

        - `filename`: the path in the URL of the source, without slashes before it;
        - `in_app`: False in an ignored source; otherwise as it was, or True;
        - `pre_context`, `context_line` and `post_context`: its line, and up to `context` lines before and
          behind it, where the map has the content of the source. They are removed where it hasn't, since they
          show the script. `colno` counts UTF-16 code units: `smap.code_point` gives the place in a str.

        These are Sentry's names. With `shape="rollbar"` the script and the source are in `filename`, and the
        lines in `code` and `context`; with `shape="bugsnag"` all is in `file`, `lineNumber`, `columnNumber`,
        `inProject` and `code`.

        With `names`, `function`, or `method` in the other shapes, gets the name of the function, where that
        is sure; a frame that has no such member, or an empty one, gets it too. All else stays. So do, as a
        whole, frames that have no such position (other types, values below 1 or above 2147483648), no map, no
        mapping there, or a source without a URL. With `ignore_query`, a query and a fragment may follow the
        URL of a script. The longest that has a map is taken.
        """
        if context < 0:
            raise ValueError("context is below 0")
        if shape not in SHAPES:
            raise ValueError(f"no shape {shape!r}, but {', '.join(SHAPES)}")
        told, way = list(frames), SHAPES[shape]
        done, left = 0, StoreCounts()
        for script, places in places_by_script(told, way).items():
            spelled = spellings(script) if ignore_query else [script]
            opened = next(filter(None, map(self._cache.open, spelled)), None)
            if opened is None:
                left += self._left(script, len(places), any(map(self._cache.is_broken, spelled)))
                continue
            with opened.map:
                originals = Originals(opened.map, opened.mark, context, self._known)
                done += translate_all(told, places, way, originals, names)
        self._count(left + StoreCounts(lines=len(told), translated=done))
        return told

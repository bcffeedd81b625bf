"""calls.py [--seconds N] [--seed N] [--threads N]: random calls of the Python module.

Maps are made together with what they say, so that lookups are compared with a model; a store is compared
with maps that are all open. Numbers are those around the bounds of the C library's types, URLs are long and
have many marks, maps are cut and changed. A call may raise what its manual says, and take a second or two of
a processor, whatever it is given. The threads have maps and stores of their own, and others, and scripts, in
common. Prints the seed first, so that it is known even where the process ends amid a call; one seed gives the
same calls, but threads meet in another order.

--plant frees a map twice, or uses one that is freed, which the address sanitizer has to see.
"""

import argparse
import base64
import copy
import ctypes
import faulthandler
import itertools
import json
import pickle
import random
import resource
import sys
import tempfile
import threading
import time
import traceback
from pathlib import Path

sys.path.insert(0, str(Path(__file__).resolve().parents[2] / "capi" / "python"))
import smap  # noqa: E402
from asserted import is_error, raised, same  # noqa: E402
from link_calls import LINK_CALLS  # noqa: E402

DIGITS = "ABCDEFGHIJKLMNOPQRSTUVWXYZabcdefghijklmnopqrstuvwxyz0123456789+/"
EDGES = [0, 1 << 31, 1 << 32, 1 << 63, 1 << 64, 1 << 70]

# The most that a call may take of a processor, in seconds, and all of them of memory, in KB.
MOST_SECONDS = 10
MOST_MEMORY = 2_000_000

# How many spellings of a URL a store may ask its finder for.
MOST_SPELLINGS = 5


def vlq(number):
    left = -number * 2 + 1 if number < 0 else number * 2
    text = ""
    while True:
        digit, left = left & 31, left >> 5
        text += DIGITS[digit + 32 * (left > 0)]
        if not left:
            return text


class Model:
    """A map and what it says, by lists."""

    def __init__(self, dice, most=8):
        """One with fewer mappings a line, at any columns."""
        folder = "http://h/m/"
        self.base = folder + "out.js.map"
        count = dice.randrange(1, 6)
        texts = [None, "", "x", "one\r\ntwo\n\U0001d4b3\u2028", "y" * 600]
        self.contents = dice.choices(texts, k=count)
        self.written = [f"{dice.randrange(1000)}-{number}.js" for number in range(count)]
        self.urls = [folder + name for name in self.written]
        self.ignored = [dice.random() < 0.2 for _ in range(count)]
        self.names = [dice.choice(["f", "\u00e4", "n" * 700]) for _ in range(dice.randrange(4))]
        self.lines = [self._line(dice, dice.randrange(most)) for _ in range(dice.randrange(most // 2))]
        self.text = self._text(dice)

    def _line(self, dice, count):
        """Mappings of a line: column, source, line, column and name. No source, or no name, is None."""
        line = []
        for column in sorted(dice.sample(range(60), count)):
            if dice.random() < 0.2:
                line.append((column, None, 0, 0, None))
                continue
            name = dice.randrange(len(self.names)) if self.names and dice.random() < 0.5 else None
            place = (dice.randrange(len(self.urls)), dice.randrange(5), dice.randrange(1 << 20))
            line.append((column, *place, name))
        return line

    def _text(self, dice):
        whole = {
            "version": 3,
            "sources": self.written,
            "sourcesContent": self.contents,
            "names": self.names,
            "ignoreList": [number for number, ignored in enumerate(self.ignored) if ignored],
            "mappings": self._mappings(),
        }
        if dice.random() < 0.2:
            whole = {"version": 3, "sections": [{"offset": {"line": 0, "column": 0}, "map": whole}]}
        return dice.choice([b"", b")]}'\n"]) + json.dumps(whole).encode()

    def _mappings(self):
        before, lines = [0, 0, 0, 0], []
        for line in self.lines:
            column, segments = 0, []
            for at, source, *place in line:
                numbers = [at - column]
                column = at
                if source is not None:
                    now = [source, place[0], place[1], before[3] if place[2] is None else place[2]]
                    numbers += [new - old for new, old in zip(now, before)][: 3 + (place[2] is not None)]
                    before = now
                segments.append("".join(map(vlq, numbers)))
            lines.append(",".join(segments))
        return ";".join(lines)

    def at(self, line, column):
        """The mapping that a position falls to."""
        if not 0 <= line < len(self.lines):
            return None
        found = [mapping for mapping in self.lines[line] if mapping[0] <= column]
        return found[-1] if found else None


def number_like(dice, count):
    """A number that may be below a count, or near the bounds of a type."""
    if dice.random() < 0.5:
        return dice.randrange(count + 1)
    return dice.choice([1, -1]) * dice.choice(EDGES) + dice.randrange(-2, 3)


# ---- calls of maps


def ask_lists(dice, made, opened):
    number = number_like(dice, len(made.urls))
    lists = (made.urls, opened.url), (made.contents, opened.content), (made.ignored, opened.source)
    for wanted, call in lists:
        found = raised(call, number)
        if not 0 <= number < len(wanted):
            is_error(found, IndexError, call, number)
        else:
            same(found.is_ignored if isinstance(found, smap.Source) else found, wanted[number], call, number)


def ask_position(dice, made, opened):
    line, column = number_like(dice, len(made.lines)), number_like(dice, 60)
    wanted, found = made.at(line, column), opened.lookup(line, column)
    if column >= 1 << 32:
        wanted = None
    if wanted is None:
        same((found, opened.name_at(line, column), opened.index_at(line, column)), (None,) * 3, line, column)
        return
    at, source, *place = wanted
    same((found.column, found.source), (at, source), line, column)
    if source is None:
        same(opened.find(line, column), found)
        return
    name = None if place[2] is None else made.names[place[2]]
    same((found.source_line, found.source_column), tuple(place[:2]), line, column)
    same((found.url, found.name, found.is_ignored), (made.urls[source], name, made.ignored[source]))


def ask_copies(dice, made, opened):
    with smap.Scripts({"u": opened}) as scripts:
        for owner, call in itertools.product([opened, scripts], [copy.copy, copy.deepcopy, pickle.dumps]):
            is_error(raised(call, owner), TypeError, owner, call)
    other = opened.share()
    if dice.random() < 0.5:
        opened.close()
        is_error(raised(opened.counts), smap.Error)
        same(other.url(0), made.urls[0])
        same(other.same(other.share()), True)


def ask_texts(dice, made, opened):
    for text in (opened.canonical(), opened.canonical(True), opened.flatten()):
        with smap.Map.open(text, made.base) as again:
            same(again.same(opened), True, text)
    same([m.column for m in opened.mappings()], [m[0] for line in made.lines for m in line])
    same(opened.file(), None)
    same([written for written, _ in opened.written_sources()], made.written)


def ask_limits(dice, made, opened):
    items, lines = number_like(dice, 6), number_like(dice, 6)
    found = raised(smap.Map.open, made.text, made.base, items, lines)
    if items < 0 or lines < 0 and items < 1 << 32:
        is_error(found, ValueError, items, lines)
    elif items >= 1 << 31 or lines > 1 << 24:
        is_error(found, smap.Error, items, lines)
    elif 0 < items < max(len(made.urls), len(made.names)):
        is_error(found, smap.Refused, items, lines)


def ask_changed(dice, made, opened):
    """A map that was cut or changed is refused, or opens and closes; so are mappings texts."""
    text = bytearray(made.text)
    for _ in range(dice.randrange(1, 4)):
        at = dice.randrange(len(text))
        text[at : at + dice.randrange(3)] = dice.choice([b"", b",", b'"', b"\xff", b"9" * 30, b"A" * 300])
    found = raised(smap.Map.open, bytes(text), dice.choice([made.base, "no URL", "x:" * 400]))
    is_error(found, (smap.Map, smap.Error), bytes(text))
    if isinstance(found, smap.Map):
        found.canonical()
        found.held()
    is_error(raised(smap.respell, bytes(text)), (bytes, smap.Refused))


def ask_held(dice, made, opened):
    assert 0 < opened.held() < 100 * len(made.text) + 10_000, made.text
    same(opened.counts().sources, len(made.urls))


def ask_built(dice, made, opened):
    """What the map says is built once more, by mappings in any order; numbers may be refused before."""
    with smap.Builder(made.base) as builder:
        sources = [builder.source(*words) for words in zip(made.written, made.contents, made.ignored)]
        names = [builder.name(name) for name in made.names]
        numbers = [number_like(dice, 6) for _ in range(6)]
        numbers[2] = len(sources) + max(numbers[2], 0)
        is_error(raised(builder.extend, numbers), (smap.Error, OverflowError), numbers)
        line, column, source, there, across, name = numbers
        found = raised(builder.add, line, column, source, (there, across), name)
        is_error(found, (smap.Error, ValueError), numbers)
        mappings = [(line, *mapping) for line, row in enumerate(made.lines) for mapping in row]
        for line, column, source, there, across, name in dice.sample(mappings, len(mappings)):
            if source is None:
                builder.add(line, column)
            else:
                name = None if name is None else names[name]
                builder.add(line, column, sources[source], (there, across), name)
        same(builder.finish().canonical(), opened.canonical(), made.text)


# ---- calls of a store


def url_like(dice, scripts):
    """A URL that may be a script's, with a query, or with many marks."""
    url = dice.choice(scripts)
    if dice.random() < 0.7:
        return url + dice.choice(["", "", "?v=3", "#x", "?a=1#b"])
    piece = dice.choice(["?", "#", "?#", "#?", "?a", ":", ":1", "\u00e4", "\0", "x", "/../", " "])
    return url + piece * dice.choice([1, 2, 3, dice.randrange(1, 9000)])


def log_like(dice, scripts):
    """A log with some lines that are frames, and some that have positions."""
    lines = []
    for _ in range(dice.choice([0, 1, 1, 2, 3, 12])):
        url = url_like(dice, scripts)
        place = f"{url}:{dice.choice([1, 2, 3, 9, 1 << 31])}:{dice.choice([20, 30, 40, 61, 1 << 33])}"
        around = [("@", ""), ("    at f (", ")"), ("9:00 (", ") x"), ("\u001b[3m", ","), ("", "")]
        before, behind = dice.choice(around)
        lines.append(before + place + behind + dice.choice(["", "\r"]))
    log = "\n".join(lines).encode() + dice.choice([b"", b"\n", b"\xff", b"\n\n"])
    return log * (dice.choice([1, 1, 1, 50]) if len(log) < 10_000 else 1)


class Shop:
    """Maps of scripts, in a folder and behind a function, and open for all threads."""

    def __init__(self, dice, temp):
        names = ("a.js", "b/c.js", "d.js", "d.js?v=3", "e.js", "e.js.b")
        self.models = {f"http://h/m/{name}": Model(dice, 60) for name in names}
        self.scripts = [*self.models, "http://h/m/none.js", "http://h/"]
        self.opened = {script: smap.Map.open(made.text, made.base) for script, made in self.models.items()}
        self.size = max(opened.held() for opened in self.opened.values())
        self.together = smap.Scripts(self.opened)
        for script, made in self.models.items():
            file = temp / (script[len("http://h/m/") :].replace("?", "%3F") + ".map")
            file.parent.mkdir(exist_ok=True, parents=True)
            file.write_bytes(made.text)
        self.linked = {"http://h/m/linked.js": self.models["http://h/m/b/c.js"]}
        (temp / "linked.js").write_bytes(b"f()\n//# sourceMappingURL=./x/../b/c.js.map?v=3\n\n")
        self.linked["http://h/m/b/inline.js"] = made
        data = b"data:application/json;base64," + base64.b64encode(made.text)
        (temp / "b" / "inline.js").write_bytes(b"f() //@ sourceMappingURL=" + data + b"\n// end")
        (temp / "outside.js").write_bytes(b"//# sourceMappingURL=../x.map")
        self.asked = threading.local()

    def find(self, script):
        self.asked.times = getattr(self.asked, "times", 0) + 1
        made = self.models.get(script)
        return made and smap.Found(made.text, made.base)

    def named_in(self, text):
        return [script for script in self.models if script.encode() in text]


class Finder:
    def __init__(self, shop):
        self.shop = shop

    def __call__(self, script):
        return self.shop.find(script)

    def named_in(self, text):
        return self.shop.named_in(text)


def store_like(dice, shop):
    return smap.Store(Finder(shop), dice.choice([0, shop.size, 3 * shop.size, 1 << 30]))


def ask_log(dice, shop, store):
    log = log_like(dice, shop.scripts)
    way = {word: dice.random() < 0.4 for word in ("hide", "anywhere", "ignore_query")}
    before = getattr(shop.asked, "times", 0)
    told = store.translate(log, **way)
    asked = shop.asked.times - before if hasattr(shop.asked, "times") else 0
    same(told, smap.translate(log, shop.opened, **way), log, way)
    script = dice.choice(list(shop.models))
    shop.together.add(script, shop.opened[script])
    same(told, shop.together.translate(log, **way)[0], log, way)
    assert store.kept_bytes <= store.cache_bytes, (store.kept_bytes, store.cache_bytes)
    # a log that has no room is cut, and asked for in parts
    most = (MOST_SPELLINGS + 4) * (log.count(b"\n") + 1) * (1 if store.cache_bytes >> 30 else 20)
    assert asked <= most, (asked, most, log[:300])


def ask_frames(dice, shop, store):
    odd = [None, True, 1.5, "1", [], {}, 0, -1, "\ud800"]
    sent = []
    for _ in range(dice.randrange(6)):
        frame = {"abs_path": url_like(dice, shop.scripts), "lineno": dice.randrange(1, 5)}
        frame["colno"] = number_like(dice, 60)
        if dice.random() < 0.2:
            frame[dice.choice(list(frame))] = dice.choice(odd)
        sent.append(dice.choice([frame, frame, frame, dice.choice(odd)]))
    before, asked = copy.deepcopy(sent), getattr(shop.asked, "times", 0)
    told = store.frames(sent, dice.choice([0, 1, 5, 1 << 70]), ignore_query=dice.random() < 0.5)
    same(sent, before)
    same(len(told), len(sent))
    assert getattr(shop.asked, "times", 0) - asked <= MOST_SPELLINGS * len(sent), sent
    for old, new in zip(sent, told):
        made = shop.models.get(old["abs_path"]) if isinstance(old, dict) and new != old else None
        if made is not None:
            mapping = made.at(old["lineno"] - 1, old["colno"] - 1)
            wanted = (made.urls[mapping[1]], mapping[2] + 1, mapping[3] + 1)
            same((new["abs_path"], new["lineno"], new["colno"]), wanted, old)
    is_error(raised(store.frames, sent, -1), ValueError)


def ask_lookup(dice, shop, store):
    script = url_like(dice, shop.scripts)
    line, column = number_like(dice, 4), number_like(dice, 60)
    found, made = store.lookup(script, line, column), shop.models.get(script)
    wanted = made.at(line, column) if made and column < 1 << 32 else None
    same(found and found.column, wanted and wanted[0], script, line, column)


def ask_what_it_knows(dice, shop, store):
    if dice.random() < 0.1:
        store.forget(dice.choice([None, *shop.scripts]))
    for known in (store.opened, store.missing, store.broken):
        assert len(known) <= 10_000 and sum(map(len, known)) <= 4_000_000, len(known)
    same(store.broken, {})
    same(copy.copy(store).cache_bytes, store.cache_bytes)


def ask_folders(dice, shop, temp):
    script = url_like(dice, shop.scripts)
    find = smap.Folders({"http://h/m/": temp}, dice.choice([0, 1 << 28]))
    found = raised(find, script)
    made = shop.models.get(script) if "?" not in script else None
    if made is None:
        same(found, None, script)
    elif isinstance(found, OSError):
        assert "a map of more than 0 bytes" in str(found), found
    else:
        same(found.data, made.text, script)
    text = log_like(dice, shop.scripts)
    named = {script for script in shop.scripts[:-1] if script.encode() in text}
    of_files = smap.Folders({script: temp / "a.js.map" for script in shop.scripts[:-1]})
    same(set(of_files.named_in(text)), named, text)
    in_folder = smap.Folders({"http://h/m/": temp})
    same(set(in_folder.named_in(text)), {at for at in named if at in shop.models and "?" not in at}, text)


def name_like(dice, script):
    """Another name of a script, or one that only looks like that, and whether it is one of the script."""
    path = script[len("http://h") :]
    begins = [("HTTP://h", True), ("http://H:80", True), ("http://h/./x/..", True), ("https://h", False)]
    begin, is_alike = dice.choice([*begins, ("http://h:8080", False), ("http://h/m", False)])
    ends = [("", True), ("?v=4", True), ("#x", True), ("?" * dice.randrange(1, 3000), True), ("x", False)]
    end, has_end = dice.choice([ends[0], ends[0], *ends])
    return begin + path + end, is_alike and has_end


def ask_alike(dice, shop, temp):
    """Names that mean scripts with maps beside them, or which name their maps."""
    scripts = {script: made for script, made in shop.models.items() if "?" not in script}
    scripts.update(shop.linked)
    script = dice.choice(list(scripts))
    name, is_alike = name_like(dice, script)
    find = smap.Folders({"http://h/m/": temp})
    same(find.meant_by(name), script if is_alike else None, name)
    line, column = number_like(dice, 4), number_like(dice, 60)
    store = smap.Store(find, dice.choice([0, shop.size, 1 << 30]))
    at = scripts[script].at(line, column) if column < 1 << 32 else None
    for known, wanted in [(name, at if is_alike else None), (script, at)]:
        found = store.lookup(known, line, column)
        same(found and (found.column, found.source), wanted and wanted[:2], known, line, column)
    same(list(store.opened), [script])
    is_error(raised(find, "http://h/m/outside.js"), smap.OutsideFolder)
    log = f"@{name}:{1 << 31}:1\n" * 3
    same(store.translate(log, ignore_query=dice.random() < 0.5), log)


MAP_CALLS = [ask_lists, ask_position, ask_copies, ask_texts, ask_limits, ask_changed, ask_held, ask_built]
# those that leave the map open
COMMON_CALLS = [ask_lists, ask_position, ask_texts, ask_held, ask_built]
STORE_CALLS = [ask_log, ask_frames, ask_lookup, ask_what_it_knows]


def text_calls(dice):
    line = log_like(dice, ["u", "http://h/a.js"]) + dice.randbytes(dice.randrange(9))
    smap.frame(line)
    same(sum(smap.named_scripts(line).values()) <= line.count(b"\n") + 1, True, line)
    text, column = dice.choice(["abc", "\U0001d4b3 x", "\ud800\udc00", ""]), number_like(dice, 6)
    found = raised(smap.code_point, text, column)
    if column < 0:
        is_error(found, ValueError, column)
    else:
        assert 0 <= found <= len(text), (text, column)


class Run:
    """Threads that make calls until the time is up, or one of them is wrong."""

    def __init__(self, seed, seconds):
        self.seed, self.until = seed, time.monotonic() + seconds
        self.wrong, self.calls = [], itertools.count()

    def timed(self, call, *words):
        start = time.thread_time()
        call(*words)
        next(self.calls)
        taken = time.thread_time() - start
        assert taken < MOST_SECONDS, f"{call.__name__} took {taken:.1f} s"

    def rounds(self, name, shop, common, temp):
        dice = random.Random(f"{self.seed} {name}")
        while time.monotonic() < self.until and not self.wrong:
            made = Model(dice)
            for call in dice.sample(MAP_CALLS, len(MAP_CALLS)):
                with smap.Map.open(made.text, made.base) as opened:
                    self.timed(call, dice, made, opened)
            script = dice.choice(list(shop.models))
            for call in dice.sample(COMMON_CALLS, len(COMMON_CALLS)):
                self.timed(call, dice, shop.models[script], shop.opened[script])
            own = store_like(dice, shop)
            for call in dice.choices(STORE_CALLS, k=8):
                self.timed(call, dice, shop, dice.choice([own, common]))
            own.close()
            same(own.kept_bytes, 0)
            self.timed(ask_folders, dice, shop, temp)
            self.timed(ask_alike, dice, shop, temp)
            self.timed(text_calls, dice)
            for call in LINK_CALLS:
                self.timed(call, dice)

    def guarded(self, name, *words):
        try:
            self.rounds(name, *words)
        except BaseException:
            self.wrong.append(f"thread {name}: {traceback.format_exc()}")


def plant(what):
    """What a copy of a handle does: a map is freed twice, or used once it is freed."""
    made = Model(random.Random(1))
    opened, other = smap.Map.open(made.text, made.base), smap.Map()
    ctypes.memmove(ctypes.byref(other._handle), ctypes.byref(opened._handle), ctypes.sizeof(opened._handle))
    opened.close()
    other.close() if what == "freed" else other.canonical()


def main():
    faulthandler.enable()
    parser = argparse.ArgumentParser(description=__doc__.splitlines()[0])
    parser.add_argument("--seconds", type=float, default=20)
    parser.add_argument("--seed", type=int, default=random.SystemRandom().randrange(1 << 32))
    parser.add_argument("--threads", type=int, default=4)
    parser.add_argument("--plant", choices=["freed", "used"])
    words = parser.parse_args()
    if words.plant:
        plant(words.plant)
        return
    print(f"calls: --seed {words.seed} --threads {words.threads}", flush=True)
    run = Run(words.seed, words.seconds)
    dice = random.Random(words.seed)
    with tempfile.TemporaryDirectory() as folder:
        temp = Path(folder)
        shop = Shop(dice, temp)
        common = smap.Store(Finder(shop), 3 * shop.size)
        threads = [
            threading.Thread(target=run.guarded, args=(number, shop, common, temp))
            for number in range(words.threads)
        ]
        for thread in threads:
            thread.start()
        for thread in threads:
            thread.join()
    memory = resource.getrusage(resource.RUSAGE_SELF).ru_maxrss
    if memory > MOST_MEMORY:
        run.wrong.append(f"{memory} KB of memory")
    print(f"{next(run.calls)} calls, {memory // 1000} MB")
    sys.exit("\n".join(run.wrong) + f"\ncalls: --seed {words.seed}" if run.wrong else 0)


main()

"""names.py FOLDER SHELL..: completes names that strangers might choose, and enters each line.

SHELL.. runs bash, zsh or fish, as shells.py wants it. FOLDER, which this makes, has programs in FOLDER/bin
that stand for smap and its scripts: they note their arguments. A line is typed, with its tabs, where one name
is all that can be completed, and entered: the program has to get that very name, whatever is in it, and
nothing else may be run. Where a shell itself completes a name wrong, or the name has control characters and
is left out, only the latter counts. What goes wrong is written, and the status is 1 then.
"""

import os
import pathlib
import sys
from collections.abc import Callable, Iterator

import pexpect
from shells import SECONDS, Shell

COMMAND = "touch PWNED"
NAMES = [
    f"$({COMMAND})",
    f"x';{COMMAND};'",
    f'x";{COMMAND};"',
    f"`{COMMAND}`",
    f"';{COMMAND};'",
    f'";{COMMAND};"',
    f"x\n{COMMAND}\n",
    f"x&{COMMAND};(|<>)#",
    "x$HOME${HOME}~",
    "~root",
    "-x",
    "#x",
    "!!x!y",
    "x\\'\"\\\\ z",
    "[x]*?{a,b}",
    f"x[$({COMMAND})]",
    "x:1:2",
    "x\ty\x1b]0;z\x07",
    "\u00e9\u009bx",
]
PROGRAM = """#!/bin/sh
for word; do printf '%s\\0' "$word"; done >../given.new
case $0 in */smap) { cat && printf '\\0'; } >>../given.new ;; esac
mv ../given.new ../given
printf '\\006'
"""


def alone(place: pathlib.Path, name: str) -> str:
    """A folder with one file, which is completed."""
    (place / f"{name}.map").write_text(f"{name}.map")
    return f"{name}.map"


def with_another(place: pathlib.Path, name: str) -> str:
    """A folder with two, of which the second is completed once its 2 is typed."""
    (place / f"{name}1.map").touch()
    (place / f"{name}2.map").write_text(f"{name}2.map")
    return f"{name}2.map"


def below(place: pathlib.Path, name: str) -> str:
    """A folder of that name, which has one file."""
    (place / name).mkdir()
    (place / name / "y.map").write_text(f"{name}/y.map")
    return f"{name}/y.map"


# How the folder is filled, what is typed in it, and the arguments then, in which NAME stands for the name.
LINES: list[tuple[Callable[[pathlib.Path, str], str], str, list[str]]] = [
    (alone, "smap-view \t", ["NAME"]),
    (alone, "smap-view '\t", ["NAME"]),
    (alone, 'smap-view "\t', ["NAME"]),
    (alone, "smap-view '\t \t", ["NAME", "NAME"]),
    (alone, 'smap-view "\t \t', ["NAME", "NAME"]),
    (alone, "smap-maps check \t \t", ["check", "NAME", "NAME"]),
    (alone, "smap-maps check '\t \t", ["check", "NAME", "NAME"]),
    (alone, 'smap-maps check "\t \t', ["check", "NAME", "NAME"]),
    (alone, "smap-trace \t", ["NAME"]),
    (alone, "smap-trace '\t", ["NAME"]),
    (alone, 'smap-trace "\t', ["NAME"]),
    (alone, "smap-trace -o \t", ["-o", "NAME"]),
    (alone, "smap-trace http://h/a.js=\t", ["http://h/a.js=NAME"]),
    (alone, "smap-trace 'http://h/a.js=\t", ["http://h/a.js=NAME"]),
    (alone, 'smap-trace "http://h/a.js=\t', ["http://h/a.js=NAME"]),
    (alone, "smap-trace 'http://h/a.js=\t 'http://h/b.js=\t", ["http://h/a.js=NAME", "http://h/b.js=NAME"]),
    (alone, "smap-events \t", ["NAME"]),
    (alone, "smap-events http://h/a.js=\t", ["http://h/a.js=NAME"]),
    (alone, "smap-events 'http://h/a.js=\t", ["http://h/a.js=NAME"]),
    (alone, "smap tidy http://h/x.map <\t", ["tidy", "http://h/x.map", "NAME"]),
    (alone, 'smap tidy http://h/x.map <"\t', ["tidy", "http://h/x.map", "NAME"]),
    (with_another, "smap-view \t2\t", ["NAME"]),
    (with_another, "smap-view '\t2\t", ["NAME"]),
    (with_another, 'smap-view "\t2\t', ["NAME"]),
    (with_another, "smap-trace \t2\t", ["NAME"]),
    (with_another, "smap-trace http://h/a.js=\t2\t", ["http://h/a.js=NAME"]),
    (with_another, "smap-trace 'http://h/a.js=\t2\t", ["http://h/a.js=NAME"]),
    (with_another, 'smap-trace "http://h/a.js=\t2\t', ["http://h/a.js=NAME"]),
    (below, "smap-maps check \t\t", ["check", "NAME"]),
    (below, "smap-maps check '\t\t", ["check", "NAME"]),
    (below, 'smap-maps check "\t\t', ["check", "NAME"]),
    (below, "smap-trace \t\t", ["NAME"]),
    (below, "smap-trace http://h/a.js=\t\t", ["http://h/a.js=NAME"]),
    (below, "smap-trace 'http://h/a.js=\t\t", ["http://h/a.js=NAME"]),
    (below, 'smap-trace "http://h/a.js=\t\t', ["http://h/a.js=NAME"]),
]


def is_left(shell: str, name: str, fill: Callable[[pathlib.Path, str], str], typed: str) -> bool:
    """Whether a shell has no way to end such a line with the right name."""
    in_parts = fill != alone
    if shell == "zsh":
        # it leaves the quote open, and doesn't go on behind what it has escaped itself
        odd = "\\" in name or name[0] == "~" or not name.isprintable()
        return "'" in name and "'" in typed or in_parts and odd
    if shell == "fish":
        # it takes names line by line, each up to a tab, and finds patterns and ~ behind its own escapes
        return not name.isprintable() or in_parts and (name[0] == "~" or "*" in name)
    return False


def entered(shell: Shell, given: pathlib.Path, seconds: float) -> list[str]:
    """The arguments of the program, once the line is entered."""
    given.unlink(missing_ok=True)
    shell.send("\r")
    shell.expect_exact(b"\x06", timeout=seconds)
    return [word.removeprefix("./") for word in given.read_text().split("\0")[:-1]]


def fault(place: pathlib.Path, typed: str, wanted: list[str], command: list[str], seconds: float) -> str:
    """What is wrong after a line is typed in a folder."""
    os.chdir(place)
    with Shell(command) as shell:
        shell.send(typed)
        line = shell.line()
        if seconds < SECONDS and line.split() == typed.replace("\t", "").split():
            return ""
        try:
            words = entered(shell, place.parent / "given", seconds)
        except (pexpect.TIMEOUT, pexpect.EOF):
            return f"{line!r} runs nothing: {shell.before!r}"
    return "" if words == wanted else f"{line!r} has the arguments {words}"


def faults(folder: pathlib.Path, shell: str, command: list[str]) -> Iterator[str]:
    for number, (name, line) in enumerate((name, line) for name in NAMES for line in LINES):
        fill, typed, wanted = line
        place = folder / str(number)
        place.mkdir()
        full = fill(place, name)
        left = is_left(shell, name, fill, typed)
        words = [word.replace("NAME", full) for word in wanted]
        wrong = fault(place, typed, words, command, 0.5 if left or not name.isprintable() else SECONDS)
        if any(folder.rglob("PWNED")):
            yield f"{name!r}, {typed!r} runs what is in the name: {wrong}"
            os.remove(place / "PWNED")
        elif wrong and not left:
            yield f"{name!r}, {typed!r}: {wrong}"


def main() -> None:
    folder = pathlib.Path(sys.argv[1]).resolve()
    (folder / "bin").mkdir(parents=True)
    for program in "smap", "smap-trace", "smap-maps", "smap-view", "smap-events":
        (folder / "bin" / program).write_text(PROGRAM)
        (folder / "bin" / program).chmod(0o755)
    os.environ["PATH"] = f"{folder}/bin:{os.environ['PATH']}"
    os.environ["TERM"] = "dumb"
    shell = next(word for word in sys.argv[2:] if word in ("bash", "zsh", "fish"))
    wrong = list(faults(folder, shell, sys.argv[2:]))
    print(*wrong, sep="\n")
    sys.exit(1 if wrong else 0)


main()

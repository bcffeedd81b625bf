"""The files of the repository, which are read and written in part, and lines of them."""

import re
import textwrap
from pathlib import Path

TOP = Path(__file__).resolve().parents[2]
WRITTEN = "tools/write-bindings writes this out of capi/smap.h"

# How long lines may be, which may be indented once more.
WIDTH = 106


class Refused(Exception):
    """Nothing can be written: the sentence says what has to be done by hand first."""


def text_of(path):
    """What a file has, or nothing where there is none."""
    return (TOP / path).read_text() if (TOP / path).exists() else ""


def replaced(path, pattern, text):
    """A file in which the one place that fits the pattern has this text."""
    return replaced_in(text_of(path), path, pattern, text)


def replaced_in(old, path, pattern, text):
    if len(re.findall(pattern, old, re.M)) != 1:
        raise Refused(f"{path} has no place, or several, for what is written into it: {pattern}")
    return re.sub(pattern, lambda _: text, old, flags=re.M)


def bare(name):
    """A name without the prefix of the library."""
    return re.sub("^smap_", "", name, flags=re.I)


def camel(name):
    """A name without its prefix, in capitals and small letters: FrameParts of smap_frame_parts."""
    return "".join(word.capitalize() for word in bare(name).split("_"))


def small(name):
    """The same with a small letter first, as JavaScript has it: frameParts."""
    return camel(name)[:1].lower() + camel(name)[1:]


def wrapped(words, indent):
    """Words on lines, none of which is broken within a word."""
    text = " ".join(word.replace(" ", "\u00a0") for word in words)
    lines = textwrap.wrap(text, WIDTH, initial_indent=indent, subsequent_indent=indent)
    return "\n".join(lines).replace("\u00a0", " ")


def listed(start, words, end, indent=""):
    """Words between brackets, on one line or, if that is too long, on lines of their own."""
    line = f"{indent}{start}{', '.join(words)}{end}"
    if len(line) <= WIDTH:
        return line
    lines = wrapped([f"{word}," for word in words], indent + "    ")
    return f"{indent}{start}\n{lines}\n{indent}{end}"

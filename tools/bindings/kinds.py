"""The kinds of errors in smap.h, out of the definitions."""

import re

from .files import Refused, replaced, text_of

KINDS = "crates/smap_record/specs/Kinds.antt"


def meaning_of(kind):
    """What a kind of error means, by the page of errors."""
    page = text_of("docs/ERRORS.md").split("\n## Errors of a map\n")[-1].split("\n## ")[0]
    for names, meaning in re.findall(r"^\| ([^|]*) \| [^|]* \| ([^|]*) \|", page, re.M):
        if kind in re.findall(r"\w+", names):
            return meaning
    raise Refused(f"docs/ERRORS.md has no row for {kind}, which {KINDS} names")


def with_kinds():
    """The header with each kind of error that the definitions name. One that is new has its meaning."""
    text = text_of("capi/smap.h")
    said = dict(re.findall(r"^    (SMAP_FAULT_\w+) = \d+,? +/\* (.*) \*/$", text, re.M))
    lines = []
    for number, kind in re.findall(r'^    if n == (\d+) then codes "(\w+)"', text_of(KINDS), re.M):
        name = "SMAP_FAULT_" + re.sub("(?<=[a-z])(?=[A-Z])", "_", kind).upper()
        lines.append((f"{name} = {number},", f"/* {said.get(name) or meaning_of(kind)} */"))
    if not lines:
        raise Refused(f"{KINDS} names no kind of error")
    lines[-1] = (lines[-1][0][:-1], lines[-1][1])
    width = max(len(start) for start, _ in lines) + 1
    enum = "".join(f"    {start:{width}}{comment}\n" for start, comment in lines)
    return replaced("capi/smap.h", r"^(    SMAP_FAULT_\w+ = \d+,? +/\*.*\n)+", enum)

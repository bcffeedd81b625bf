"""pages.py COMMAND: what tests ask of the pages of the repository.

  blocks PAGE FOLDER   writes each block of sh to FOLDER/HEADING-N.sh, where HEADING is written as in links and
                       N counts the blocks below it, and lists these names without .sh. A block without a
                       language right behind it, which is what it writes, goes to FOLDER/HEADING-N.out
  column PAGE HEADING [N]  writes the code in the first column, or the one with this number, of the tables below
                       a heading, a line each
  links PAGE...        names each link of a page to a file or a heading that isn't there
  cells PAGE...        names each cell of a table that has more than 600 characters
"""

import re
import sys
from pathlib import Path
from urllib.parse import unquote

MOST = 600
CODE = re.compile(r"(?<!`)(`+)(?!`)(.*?)(?<!`)\1(?!`)")


def as_link(heading, counts):
    """A heading as links name it: the second of a name has `-1` behind it."""
    name = re.sub(r"[^\w\- ]", "", heading.lower()).replace(" ", "-")
    counts[name] = counts.get(name, -1) + 1
    return f"{name}-{counts[name]}" if counts[name] else name


def parts(page):
    """Each line outside of blocks, and each block with its language, after the name of their heading."""
    name, counts, language, block = "", {}, None, []
    for line in Path(page).read_text(encoding="utf-8").splitlines():
        fence = re.fullmatch(r"```(\w*)", line)
        if fence and language is None:
            language, block = fence[1], []
        elif fence:
            yield name, language, "".join(f"{one}\n" for one in block)
            language = None
        elif language is not None:
            block.append(line)
        else:
            heading = re.fullmatch(r"#+ (.*)", line)
            if heading:
                name = as_link(heading[1], counts)
            yield name, None, line


def headings(page):
    return {name for name, *_ in parts(page)}


def blocks(page, folder):
    Path(folder).mkdir(parents=True)
    counts, last = {}, None
    for heading, language, text in parts(page):
        if language == "sh":
            counts[heading] = counts.get(heading, 0) + 1
            last = f"{heading}-{counts[heading]}"
            Path(folder, f"{last}.sh").write_text(text, encoding="utf-8")
            print(last)
        elif language == "" and last:
            Path(folder, f"{last}.out").write_text(text, encoding="utf-8")
        if language != "sh" and text:
            last = None


def cells_of(row):
    return re.split(r"(?<!\\)\|", row)[1:-1]


def column(page, wanted, number=1):
    for heading, language, text in parts(page):
        if heading == wanted and language is None and text.startswith("|"):
            for _, code in CODE.findall(cells_of(text)[int(number) - 1]):
                print(code)


def cells(*pages):
    for page in pages:
        for _, language, text in parts(page):
            if language is None and text.startswith("|"):
                for cell in cells_of(text):
                    if len(cell.strip()) > MOST:
                        print(f"{page}: {len(cell.strip())} characters: {cell.strip()[:60]}")


def leads_somewhere(page, link):
    path, _, heading = link.partition("#")
    target = Path(page).parent / unquote(path) if path else Path(page)
    return target.exists() and (not heading or heading in headings(target))


def links(*pages):
    for page in pages:
        for _, language, text in parts(page):
            if language is not None:
                continue
            for link in re.findall(r"\]\(([^)\s]+)\)", CODE.sub("", text)):
                if not re.match(r"[a-z]+:", link) and not leads_somewhere(page, link):
                    print(f"{page}: {link}")


if __name__ == "__main__":
    command = {"blocks": blocks, "column": column, "links": links, "cells": cells}[sys.argv[1]]
    command(*sys.argv[2:])

"""readme.py PAGE FOLDER: writes the programs of a page and what they print to files, and lists them.

A program is a block of c, python or rust. What it prints is the last of the blocks of plain text that come
after it in its section and before the next program, or, where there are none, what the next program prints.
There is a program in each language; where there are several, they are program.py, program2.py and so on.
"""

import re
import sys
from pathlib import Path

ENDINGS = {"c": "c", "python": "py", "rust": "rs"}

page, folder = Path(sys.argv[1]).read_text(), Path(sys.argv[2])
folder.mkdir(parents=True, exist_ok=True)
found = []
for section in re.split(r"^## ", page, flags=re.M):
    printed, is_next, in_section = None, False, []
    for language, text in reversed(re.findall(r"^```(\w*)\n(.*?)^```$", section, flags=re.M | re.S)):
        if not language and (printed is None or is_next):
            printed, is_next = text, False
        elif language in ENDINGS:
            in_section.insert(0, (ENDINGS[language], text, printed))
            is_next = True
    found += in_section
written = {}
for ending, text, printed in found:
    written[ending] = written.get(ending, 0) + 1
    program = folder / f"program{written[ending] if written[ending] > 1 else ''}.{ending}"
    program.write_text(text)
    program.with_suffix(program.suffix + ".out").write_text(printed)
    print(program)
sys.exit(set(written) != set(ENDINGS.values()))

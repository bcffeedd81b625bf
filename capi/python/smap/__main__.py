"""python -m smap: the program smap, where it is installed, with the arguments of the process."""

from __future__ import annotations

import importlib.util
import os
import shutil
import sys
from pathlib import Path
from typing import Optional


def program() -> Optional[str]:
    """The program: that of the wheel smap-programs, or one installed with this module, or one on the PATH."""
    folders = []
    wheel = importlib.util.find_spec("smap_programs")
    if wheel is not None and wheel.origin:
        folders.append(Path(wheel.origin).parent)
    # tools/install puts this folder into PREFIX/share/smap, and the program into PREFIX/bin
    folders.append(Path(__file__).resolve().parent.parent.parent.parent / "bin")
    for folder in folders:
        found = shutil.which("smap", path=str(folder))
        if found:
            return found
    return shutil.which("smap")


def main() -> int:
    found = program()
    if found is None:
        print("python -m smap: there is no program smap: install the wheel smap-programs", file=sys.stderr)
        return 127
    os.execv(found, ["smap", *sys.argv[1:]])


if __name__ == "__main__":
    sys.exit(main())

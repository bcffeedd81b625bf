"""The programs smap, smap-trace, smap-maps and smap-view: one file, which looks at the name it is called by."""

import os
import sys
from pathlib import Path

__all__ = ["path", "smap", "smap_maps", "smap_trace", "smap_view"]


def path() -> Path:
    """The program's file."""
    return Path(__file__).resolve().parent / "smap"


def _run(name: str) -> None:
    """Becomes the program of this name, with the arguments of the process."""
    os.execv(path(), [name, *sys.argv[1:]])


def smap() -> None:
    _run("smap")


def smap_trace() -> None:
    _run("smap-trace")


def smap_maps() -> None:
    _run("smap-maps")


def smap_view() -> None:
    _run("smap-view")

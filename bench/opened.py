"""Opens the map on standard input by the C library, and writes how many sources it lists, or why it is refused.

    python3 bench/opened.py LIBRARY BASE [URL_BYTES]

LIBRARY is the file of the shared library. URL_BYTES bounds the bytes of the URLs of the map's sources.
"""

import os
import sys
from pathlib import Path

os.environ["SMAP_LIBRARY"] = sys.argv[1]
sys.path.insert(0, str(Path(__file__).resolve().parent.parent / "capi" / "python"))

import smap  # noqa: E402  (the library is named above)


def main():
    base, bounds = sys.argv[2], [int(word) for word in sys.argv[3:]]
    try:
        with smap.Map.open(sys.stdin.buffer.read(), base, url_bytes=bounds[0] if bounds else None) as opened:
            print(opened.counts().listed_sources, "sources")
    except smap.Error as error:
        print("refused:", error)
        return 1
    return 0


if __name__ == "__main__":
    sys.exit(main())

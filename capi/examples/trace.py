"""trace.py URL=MAP .. <LOG: as trace.c, over the Python module."""

import sys
from pathlib import Path

sys.path.insert(0, str(Path(__file__).resolve().parent.parent / "python"))
import smap  # noqa: E402

scripts = smap.Scripts()
for word in sys.argv[1:]:
    url, _, path = word.rpartition("=")
    try:
        with smap.Map.open(Path(path).read_bytes(), url + ".map") as script:
            scripts.add(url, script)
    except smap.Error as fault:
        sys.exit(f"trace: {word}: {fault}")
told, counts = scripts.translate(sys.stdin.buffer.read())
sys.stdout.buffer.write(told)
print(f"{counts.lines} lines, {counts.translated} translated", file=sys.stderr)

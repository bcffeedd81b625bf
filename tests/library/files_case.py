"""A test case with a folder of maps and scripts, for the tests of the Python module."""

import stat
import sys
import tempfile
import unittest
from pathlib import Path
from types import SimpleNamespace

sys.path.insert(0, str(Path(__file__).resolve().parents[2] / "capi" / "python"))
import smap  # noqa: E402

# In a log, 1:1 to 1:4 come from a.js:11:3, and 1:5 from a.js:13:3.
MAP = b'{"version":3,"sources":["a.js"],"mappings":"AAUE,IAEA"}'


def status(size, changed):
    """What a file is, so large and changed then, for calls that ask for it."""
    return SimpleNamespace(st_size=size, st_mtime_ns=changed, st_mode=stat.S_IFREG)


class FilesCase(unittest.TestCase):
    """A folder with a map, and what may be put there."""

    def setUp(self):
        made = tempfile.TemporaryDirectory()
        self.addCleanup(made.cleanup)
        self.temp = Path(made.name)
        self.dist = self.put("dist/out.js").parent

    def put(self, name, data=MAP):
        return self.write(name + ".map", data)

    def write(self, name, data):
        file = self.temp / name
        file.parent.mkdir(parents=True, exist_ok=True)
        file.write_bytes(data)
        return file

    def found(self, key, script, folder="dist"):
        """The base of the map that is found for a script, or None."""
        found = smap.Folders({key: self.temp / folder})(script)
        return found and found.base

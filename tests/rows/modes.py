"""modes.py FOLDER COMMAND..: runs a command, and says whether group or others ever had a permission for a
file of FOLDER. What the command writes comes first."""

import os
import stat
import subprocess
import sys


def had_any(folder: str) -> bool:
    for entry in os.scandir(folder):
        try:
            if entry.stat(follow_symlinks=False).st_mode & (stat.S_IRWXG | stat.S_IRWXO):
                return True
        except FileNotFoundError:  # it was renamed meanwhile
            pass
    return False


command = subprocess.Popen(sys.argv[2:])
seen = False
while command.poll() is None:
    seen = seen or had_any(sys.argv[1])
print("somebody else had a permission" if seen else "nobody else had a permission")

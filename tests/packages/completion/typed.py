"""typed.py KEYS COMMAND..: types KEYS into a shell on a terminal of its own, and writes the line there.

COMMAND runs the shell, with a prompt and a key as shells.py wants them, as the start files of
tests/packages/run tell bash and zsh to have.
"""

import sys

from shells import Shell

with Shell(sys.argv[2:]) as shell:
    shell.send(sys.argv[1])
    print(shell.line())

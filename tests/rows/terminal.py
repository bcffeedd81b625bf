"""Runs a command on a terminal, and prints what that shows. Its arguments are a file and the command: what the
command writes goes into the file as it comes. `shown: TEXT` is a line's text that something is written over, and a
line without that is what the terminal shows in the end. The status is that of the command."""
import os
import pty
import sys


def run(command, log):
    process, terminal = pty.fork()
    if process == 0:
        os.execvp(command[0], command)
    with open(log, "wb", buffering=0) as seen:
        while piece := read(terminal):
            seen.write(piece)
    return os.waitstatus_to_exitcode(os.waitpid(process, 0)[1])


def read(terminal):
    try:
        return os.read(terminal, 1024)
    except OSError:  # how Linux says that the other side is closed
        return b""


def show(line):
    """A carriage return takes the cursor to the line's beginning, and what follows covers what is there."""
    shown = ""
    for text in line.split("\r"):
        before = shown.rstrip()
        shown = text + shown[len(text):]
        if text and before and shown.rstrip() != before:
            print("shown:", before)
    print(shown.rstrip())


status = run(sys.argv[2:], sys.argv[1])
with open(sys.argv[1], newline="") as written:
    for line in written.read().removesuffix("\r\n").split("\r\n"):
        show(line)
sys.exit(status)

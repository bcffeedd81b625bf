"""Shells on terminals of their own, for the tests of completion."""

import signal

import pexpect

SECONDS = 20


class Shell(pexpect.spawn):
    """A shell whose prompt is the character \\005, and which on ^X^L writes the line that is being edited
    between \\002 and \\003."""

    def __init__(self, command: list[str]) -> None:
        super().__init__(command[0], command[1:], timeout=SECONDS)
        self.delaybeforesend = None
        self.ptyproc.delayafterclose = 0
        self.expect_exact(b"\x05")

    def close(self, force: bool = True) -> None:
        self.kill(signal.SIGKILL)
        self.wait()
        super().close(force)

    def line(self) -> str:
        """The line that stands there."""
        self.send("\x18\x0c")
        self.expect_exact(b"\x03")
        return self.before.rpartition(b"\x02")[2].decode(errors="replace")

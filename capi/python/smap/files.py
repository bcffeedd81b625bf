"""Files of maps and of scripts: only regular ones are read, and of each a bounded number of bytes."""

from __future__ import annotations

import errno
import os
import stat
from typing import BinaryIO, Callable, Optional, TypeVar

__all__ = ["MOST_BYTES", "from_end", "read_file", "too_large"]

# How many bytes a map has at most, as for the program smap.
MOST_BYTES = 268_435_456

# How much of a script is looked at first.
FIRST_LOOK = 65_536

Value = TypeVar("Value")


def too_large(most: int, path: Optional[str] = None) -> OSError:
    """The error of a map that isn't read, or not opened, since it has too many bytes."""
    return OSError(errno.EFBIG, f"a map of more than {most} bytes", path)


def _opener(path: str, flags: int) -> int:
    # a pipe would be waited for; where there is no such flag there are no such pipes
    return os.open(path, flags | getattr(os, "O_NONBLOCK", 0))


def _unchanged(path: str, read: Callable[[BinaryIO, int], Value]) -> Value:
    """What is read of a regular file, by the file and its size. Raises OSError.

    If the file changes meanwhile, or `read` raises EOFError since it has another size, it is read again, and
    an OSError after the third time.
    """
    for _ in range(3):
        with open(path, "rb", opener=_opener) as file:
            before = os.fstat(file.fileno())
            if not stat.S_ISREG(before.st_mode):
                raise OSError(errno.EINVAL, "no regular file", path)
            try:
                found = read(file, before.st_size)
            except EOFError:
                continue
            after = os.fstat(file.fileno())
        if before.st_mtime_ns == after.st_mtime_ns and before.st_size == after.st_size:
            return found
    raise OSError(errno.EBUSY, "it changes while it is read", path)


def read_file(path: str, most: int = MOST_BYTES) -> bytes:
    """The bytes of a regular file of so many at most. Raises OSError."""

    def read(file: BinaryIO, size: int) -> bytes:
        if size > most:
            raise too_large(most, path)
        data = file.read(size + 1)
        if len(data) != size:
            raise EOFError
        return data

    return _unchanged(path, read)


def from_end(
    path: str, ask: Callable[[bytes], Optional[Value]], most: int = MOST_BYTES
) -> Optional[Value]:
    """What the last lines of a script say: of so many that `ask` doesn't give None for them, or of all.

    The file is read from its end, as far as it is needed, and so much of it at most that a map of `most`
    bytes has room in its last line, as base64. Raises OSError.
    """
    bound = most * 4 // 3 + FIRST_LOOK
    return _unchanged(path, lambda file, size: _from_end(file, size, ask, bound, path))


def _from_end(
    file: BinaryIO, size: int, ask: Callable[[bytes], Optional[Value]], bound: int, path: str
) -> Optional[Value]:
    """The same of an open file. More and more of its end is read, until the whole lines of that decide."""
    many = FIRST_LOOK
    while True:
        many = min(many, size, bound)
        file.seek(size - many)
        end = file.read(many)
        if len(end) < many:
            raise EOFError
        # what is before the first line feed may be the rest of a line
        lines = end if many == size else end.partition(b"\n")[2]
        del end
        found = ask(lines)
        if found is not None or many == size:
            return found
        if many == bound:
            raise OSError(errno.EFBIG, f"the last {many} bytes don't say which map it has", path)
        many *= 4

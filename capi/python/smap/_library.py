"""The C library by ctypes: its structs, its functions, its errors."""

from __future__ import annotations

import ctypes
import operator
import os
import threading
from array import array
from ctypes import POINTER, addressof, byref, c_char, c_size_t, c_uint8
from pathlib import Path
from typing import Any, Callable, ClassVar, Iterable, NoReturn, Optional, Tuple, Type, TypeVar, Union

from . import _declarations as declared
from ._declarations import ANYWHERE, HIDE_IGNORED, IGNORE_QUERY, LIMITS, MEMORY, NAMES, OK, RANGE, REFUSED
from ._declarations import Fault

# The greatest numbers that the types of the library hold. ctypes cuts off the bits above them.
LARGEST_U32, LARGEST_SIZE = 0xFFFFFFFF, c_size_t(-1).value

# The greatest number of a mapping, and what stands for one that it doesn't have.
LARGEST_NUMBER, NO_NUMBER = 0x7FFFFFFF, 0xFFFFFFFF


Owned = TypeVar("Owned", bound="Owner")


class Owner:
    """What owns memory of the library through a handle, until it is closed. A copy would free that a second
    time, so there is none.

    All threads may use it at once: each call of the library has the handle to itself.
    """

    # the function of the library that closes the handle
    _free: ClassVar[Any]

    def __init__(self, handle: ctypes.Structure) -> None:
        # A thread may come again while it has the lock, by a finalizer or a signal handler. Python runs these
        # before the library is called or behind that, when the handle is whole.
        self._lock = threading.RLock()
        self._handle = handle

    def __reduce__(self) -> NoReturn:
        raise TypeError(f"cannot copy or pickle '{type(self).__name__}' object: it owns memory of libsmap")

    def _call(self, call: Callable[..., int], *words: object) -> int:
        """The code of a call of the library, whose first parameter is the handle."""
        with self._lock:
            return call(byref(self._handle), *words)

    def close(self) -> None:
        """Frees what it owns, once no call of another thread uses it. Closing it twice does nothing."""
        self._call(self._free)

    def __enter__(self: Owned) -> Owned:
        return self

    def __exit__(self, *error: object) -> None:
        self.close()

    def __del__(self) -> None:
        # at the end of the interpreter the module may be empty
        if "byref" in globals() and byref is not None:
            self.close()


def shown(numbers: ctypes.Structure) -> str:
    """Numbers by name."""
    named = (f"{field[0]}={getattr(numbers, field[0])}" for field in numbers._fields_)
    return f"{type(numbers).__name__}({', '.join(named)})"


class TraceCounts(declared.TraceCounts):
    """How many lines a trace has, and how many of them were translated and dropped."""

    __repr__ = shown


class Counts(declared.Counts):
    """How much a map holds: distinct sources, sources and names as listed, mappings, and generated lines."""

    __repr__ = shown


class Error(Exception):
    """A call that isn't done; `code` is one of the library's."""

    __module__ = "smap"

    def __init__(self, code: int, text: str = ""):
        super().__init__(text or code_name(code))
        self.code = code

    def __reduce__(self) -> Tuple[Type[Error], Tuple[Any, ...]]:
        return type(self), (self.code, str(self))


class RefusedError(Error):
    """A map or a mappings text with a fault.

    `kind` is one of smap.h's SMAP_FAULT_.., and `kind_name` what docs/ERRORS.md calls it, such as
    "SourceUrl"; `section` is the path of the section that it is in, () for none; `line` and `segment` say
    where in the mappings text it is, or are None; `number` is that of the source, or that in the segment,
    where the kind has one.
    """

    __module__ = "smap"

    def __init__(self, fault: Fault):
        super().__init__(REFUSED, fault.text.decode())
        self._fault = fault
        self.kind: int = fault.kind
        self.kind_name: str = fault_name(fault.kind)
        self.section: Tuple[int, ...] = tuple(fault.section[: fault.depth])
        self.line: Optional[int] = fault.line if fault.has_place else None
        self.segment: Optional[int] = fault.segment if fault.has_place else None
        self.number: int = fault.number

    def __reduce__(self) -> Tuple[Type[RefusedError], Tuple[Fault]]:
        return type(self), (self._fault,)


def library_file() -> str:
    """The library's file, or its name for the system: the module's comment says where it is looked for."""
    named = os.environ.get("SMAP_LIBRARY")
    if named:
        return named
    beside = Path(__file__).resolve().parent
    # tools/install puts this folder into PREFIX/share/smap, and the library into PREFIX/lib
    installed = beside.parent.parent.parent / "lib"
    for place in (beside / "libsmap.so.0", beside / "libsmap.so", installed / "libsmap.so.0"):
        if place.exists():
            return str(place)
    return "libsmap.so.0"


# What to do about a library that can't be loaded.
HAVE_ANOTHER = "Set SMAP_LIBRARY to the file of libsmap.so.0, or to nothing."
HAVE_ONE = (
    "Install the wheel of smap or Debian's libsmap0, or name the file of libsmap.so.0 in SMAP_LIBRARY. "
    "It is built for Linux on x86-64 and aarch64."
)
HAVE_THE_SAME = "It is of another release than the module: install both of the same."


def load() -> ctypes.CDLL:
    """The library. Raises ImportError, which says what to do."""
    file = library_file()
    try:
        return declare(ctypes.CDLL(file))
    except OSError as error:
        reason, advice = str(error), HAVE_ANOTHER if os.environ.get("SMAP_LIBRARY") else HAVE_ONE
    except AttributeError as error:
        reason, advice = str(error), HAVE_THE_SAME
    raise ImportError(f"smap can't load its library: {reason}. {advice}", name="smap", path=file)


def declare(lib: ctypes.CDLL) -> ctypes.CDLL:
    """Gives the functions of the library their types."""
    for name, result, *parameters in declared.FUNCTIONS:
        function = getattr(lib, name)
        function.restype, function.argtypes = result, parameters
    return lib


lib = load()


def code_name(code: int) -> str:
    """What the library calls a code, such as "closed handle"; "" if it is none."""
    if not 0 <= code <= LARGEST_U32:
        return ""
    out = ctypes.create_string_buffer(64)
    n = lib.smap_code_name(code, out, 64)
    return out.raw[:n].decode()


def fault_name(kind: int) -> str:
    """What docs/ERRORS.md calls a kind of fault, such as "SourceUrl"."""
    out = ctypes.create_string_buffer(64)
    n = lib.smap_fault_name(kind, out, 64)
    return out.raw[:n].decode()


def check(code: int, fault: Optional[Fault] = None) -> None:
    """Raises what a code other than OK stands for."""
    if code == REFUSED and fault is not None:
        raise RefusedError(fault)
    if code == MEMORY:
        raise MemoryError
    if code == RANGE:
        raise IndexError("number out of range")
    if code != OK:
        raise Error(code)


def as_data(name: str, value: bytes) -> bytes:
    """Bytes for the library. Raises TypeError where they are a str, or nothing of that kind."""
    if isinstance(value, bytes):
        return value
    if isinstance(value, (bytearray, memoryview)):
        return bytes(value)
    raise TypeError(f"{name} is bytes, not {type(value).__name__}")


def as_words(numbers: Union[bytes, Iterable[int]]) -> bytes:
    """Numbers of 32 bits for the library. Raises TypeError where they are none, and OverflowError where they
    have more bits."""
    try:
        view = memoryview(numbers)  # type: ignore[arg-type]
    except TypeError:
        view = memoryview(array("I", numbers))
    if view.itemsize > 1 and view.format not in ("I", "<I"):
        view = memoryview(array("I", view.tolist()))
    return view.tobytes()


def as_url(name: str, value: str) -> bytes:
    """A URL for the library. Raises TypeError where it is no str."""
    if isinstance(value, str):
        return value.encode()
    raise TypeError(f"{name} is a URL in a str, not {type(value).__name__}")


def as_text(name: str, value: Optional[str]) -> bytes:
    """A text for the library; None is empty. Raises TypeError where it is neither."""
    if value is None or isinstance(value, str):
        return (value or "").encode()
    raise TypeError(f"{name} is a str, not {type(value).__name__}")


def number_of(name: str, value: int) -> int:
    """A number of a mapping. Raises TypeError where it is no int, and ValueError where it is out of range."""
    try:
        number = operator.index(value)
    except TypeError:
        raise TypeError(f"{name} is an int, not {type(value).__name__}") from None
    if number < 0:
        raise ValueError(f"{name} is below 0")
    if number > LARGEST_NUMBER:
        raise ValueError(f"{name} is above {LARGEST_NUMBER}")
    return number


def index_of(value: int) -> int:
    """A number by which the library counts. Raises IndexError where it has none so small or so large."""
    number = operator.index(value)
    if not 0 <= number <= LARGEST_SIZE:
        raise IndexError("number out of range")
    return number


def limit_of(name: str, value: int) -> int:
    """A limit. Raises ValueError where it is below 0, and what the library says where it is too large."""
    number = operator.index(value)
    if number < 0:
        raise ValueError(f"{name} is below 0")
    if number > LARGEST_U32:
        raise Error(LIMITS)
    return number


def bound_of(name: str, value: int) -> int:
    """A greatest number of bytes. Raises ValueError where it is below 0."""
    number = operator.index(value)
    if number < 0:
        raise ValueError(f"{name} is below 0")
    return min(number, LARGEST_SIZE)


def are_position(line: int, column: int) -> bool:
    """Whether the library has such numbers of lines and columns."""
    return 0 <= operator.index(line) <= LARGEST_U32 and 0 <= operator.index(column) <= LARGEST_U32


def written(call: Callable[..., int], *words: object) -> bytes:
    """The bytes that a call writes, whose last parameter is their handle."""
    out = declared.Bytes()
    check(call(*words, byref(out)))
    return taken(out)


def taken(out: declared.Bytes) -> bytes:
    """The bytes of a handle, which is freed."""
    at, n = POINTER(c_uint8)(), c_size_t()
    lib.smap_bytes_data(byref(out), byref(at), byref(n))
    try:
        # an array has any size, while that of ctypes.string_at is a C int
        return bytes((c_char * n.value).from_address(addressof(at.contents)))
    finally:
        lib.smap_bytes_free(byref(out))


def how_bits(hide: bool, anywhere: bool, ignore_query: bool, names: bool) -> int:
    """How a trace is translated, as one number."""
    found = HIDE_IGNORED * bool(hide) | ANYWHERE * bool(anywhere) | IGNORE_QUERY * bool(ignore_query)
    return found | NAMES * bool(names)


def version() -> str:
    """The library's version, three numbers as "0.3.0"; `__version__` is the module's."""
    n: int = lib.smap_version()
    return f"{n // 10000}.{n // 100 % 100}.{n % 100}"



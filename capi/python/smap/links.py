"""Which map a script names, and which names are those of one script. docs/LINKING.md has the rules.

All of them are asked of the library. A script's name is its URL, or its absolute path. A str gives a str, and
bytes give bytes. Bytes that aren't UTF-8 are in a str what Python's own names of files have for them. A str
with any other half of a surrogate pair isn't UTF-8, which raises Error (its code is 10, SMAP_NOT_UTF8).
"""

from __future__ import annotations

from ctypes import byref, c_bool, c_size_t, c_uint32, create_string_buffer
from typing import AnyStr, Callable, Iterable, Optional, Tuple, Union

from ._declarations import NONE, NOT_UTF8, Bytes
from ._library import Error, check, lib, taken, written

__all__ = ["alike", "as_bytes", "data_url", "file_kind", "file_path", "file_url", "normal_form", "resolve"]
__all__ += ["script_link", "script_map", "script_name", "script_url"]


def as_bytes(text: Union[str, bytes]) -> bytes:
    """A text as the library takes it. Raises TypeError where it is neither a str nor bytes."""
    if isinstance(text, str):
        try:
            return text.encode("utf-8", "surrogateescape")
        except UnicodeEncodeError:
            raise Error(NOT_UTF8) from None
    if isinstance(text, bytes):
        return text
    raise TypeError(f"a text is a str or bytes, not {type(text).__name__}")


def _like(found: bytes, text: AnyStr) -> AnyStr:
    """What the library has found, as the text that it was asked about."""
    if isinstance(text, str):
        return found.decode("utf-8", "surrogateescape")
    return found


def _words(texts: Iterable[bytes]) -> Iterable[object]:
    """The parameters for some texts."""
    return (word for text in texts for word in (text, len(text)))


def _given(call: Callable[..., int], *texts: bytes) -> Optional[bytes]:
    """The bytes that a call gives for some texts; None where there is nothing."""
    out = Bytes()
    code = call(*_words(texts), byref(out))
    if code == NONE:
        return None
    check(code)
    return taken(out)


def script_link(text: AnyStr, css: bool = False) -> Optional[AnyStr]:
    """The URL of its map that a script, or with `css` a style sheet, names in its last comment; or None.

    It stands there like this, and may be empty. Of the text no more is read than its last lines, up to one
    that has more than white space and comments.
    """
    data, n, room = as_bytes(text), c_size_t(), 512
    while True:
        out = create_string_buffer(room)
        code = lib.smap_script_link(data, len(data), bool(css), out, room, byref(n))
        if code == NONE:
            return None
        check(code)
        if n.value <= room:
            return _like(out.raw[: n.value], text)
        room = n.value


def resolve(script: AnyStr, url: AnyStr) -> AnyStr:
    """A URL that a script names, resolved against the script's own.

    Raises Error where the script's name is neither a URL nor an absolute path, or the two make no URL (2,
    SMAP_NOT_URL), or one of them isn't UTF-8 (10, SMAP_NOT_UTF8).
    """
    return _like(written(lib.smap_resolve, *_words([as_bytes(script), as_bytes(url)])), url)


def data_url(url: Union[str, bytes]) -> Optional[bytes]:
    """The bytes that a data: URL holds, as those of a map inside its script; None for another URL.

    Raises Error where it has no comma (2, SMAP_NOT_URL), or says that it is base64 and isn't (9,
    SMAP_NOT_BASE64).
    """
    return _given(lib.smap_data_url, as_bytes(url))


def file_url(path: AnyStr) -> Optional[AnyStr]:
    """The file: URL of an absolute path; None for any other. Raises Error where it isn't UTF-8."""
    found = _given(lib.smap_file_url, as_bytes(path))
    return None if found is None else _like(found, path)


def file_path(url: AnyStr) -> Optional[AnyStr]:
    """The path of a file: URL, without its query and its fragment; None for any other URL.

    Raises Error where it names another host, or an escape stands for a slash or a NUL (2, SMAP_NOT_URL), or
    the path isn't UTF-8 (10, SMAP_NOT_UTF8).
    """
    found = _given(lib.smap_file_path, as_bytes(url))
    return None if found is None else _like(found, url)


def script_url(folder: AnyStr, name: AnyStr) -> AnyStr:
    """The URL, or the path, of the script with this name below a folder, whose own ends in a slash."""
    return _like(written(lib.smap_script_url, *_words([as_bytes(folder), as_bytes(name)])), name)


def script_name(folder: AnyStr, url: AnyStr) -> Optional[AnyStr]:
    """The name below a folder of which `script_url` makes this URL, or this path.

    None where the script isn't below the folder, as with `..`, or the URL is spelled otherwise.
    """
    found = _given(lib.smap_script_name, as_bytes(folder), as_bytes(url))
    return None if found is None else _like(found, url)


def script_map(folder: bytes, name: bytes, text: bytes, tried: int = 0) -> Tuple[int, Optional[bytes]]:
    """The next of the maps that the script, or the style sheet, with this name below a folder may have, after
    so many that can't be had: the one that it names, then the file next to it. The first that can be had is
    its map.

    The number says what it names, one of SMAP_NAMED_.. in smap.h; the bytes are the map, if that is
    SMAP_NAMED_INLINE and none was tried, or else the name of its file below the folder; None where there are
    no more. The folder's own name ends in a slash. The text is the script's, or its last lines.
    """
    kind = c_uint32()

    def call(*words: object) -> int:
        return int(lib.smap_script_map(*words[:-1], tried, words[-1], byref(kind)))

    found = _given(call, folder, name, text)
    return kind.value, found


def file_kind(name: bytes) -> int:
    """What a file is by the end of its name, one of SMAP_FILE_.. in smap.h."""
    return int(lib.smap_file_kind(name, len(name)))


def normal_form(name: AnyStr, with_query: bool = False) -> AnyStr:
    """What all names of a script have in common: those are alike for which this is the same.

    With `with_query` it is what those have in common that have the same query too: a script with another one
    is another script.
    """
    text = as_bytes(name)
    return _like(written(lib.smap_normal_form, text, len(text), with_query), name)


def alike(one: Union[str, bytes], other: Union[str, bytes]) -> bool:
    """Whether two names differ at most in the query, the fragment, the default port, the capitals of the
    host, in percent escapes that no character needs, in being a path or its file: URL, and in the case of the
    drive.
    """
    out = c_bool()
    check(lib.smap_alike(*_words([as_bytes(one), as_bytes(other)]), byref(out)))
    return out.value

# tools/write-bindings writes this out of capi/smap.h.
"""What smap.h declares, by ctypes: its numbers, its structs and its functions."""

from __future__ import annotations

from ctypes import (
    POINTER, Structure, c_bool, c_char, c_char_p, c_size_t, c_uint32, c_uint64, c_uint8, c_void_p,
)
from typing import Any, List, Tuple

OK = 0
REFUSED = 1
NOT_URL = 2
LIMITS = 3
MEMORY = 4
CLOSED = 5
NONE = 6
RANGE = 7
URL_BYTES = 8
NOT_BASE64 = 9
NOT_UTF8 = 10
TOO_MANY = 11
FAULT_PREFIX = 1
FAULT_JSON = 2
FAULT_NOT_OBJECT = 3
FAULT_VERSION = 4
FAULT_FILE = 5
FAULT_BOTH = 6
FAULT_SOURCE_ROOT = 7
FAULT_SOURCES = 8
FAULT_SOURCES_CONTENT = 9
FAULT_NAMES = 10
FAULT_IGNORE_LIST = 11
FAULT_MAPPINGS = 12
FAULT_SECTIONS = 13
FAULT_OFFSET = 14
FAULT_SECTION_MAP = 15
FAULT_NESTED = 16
FAULT_ORDER = 17
FAULT_OVERLAP = 18
FAULT_TOO_MANY = 19
FAULT_SOURCE_URL = 20
FAULT_UNSTABLE_URL = 21
FAULT_EMPTY = 22
FAULT_UNFINISHED = 23
FAULT_CHARACTER = 24
FAULT_TOO_LARGE = 25
FAULT_NEGATIVE_ZERO = 26
FAULT_COUNT = 27
FAULT_GENERATED_LINE = 28
FAULT_COLUMN = 29
FAULT_SOURCE = 30
FAULT_ORIGINAL_LINE = 31
FAULT_ORIGINAL_COLUMN = 32
FAULT_NAME = 33
KEPT = 0
TRANSLATED = 1
DROPPED = 2
HIDE_IGNORED = 1
ANYWHERE = 2
IGNORE_QUERY = 4
NAMES = 8
FILE_OTHER = 0
FILE_SCRIPT = 1
FILE_STYLE_SHEET = 2
FILE_MAP = 3
NAMED_UNSAID = 0
NAMED_NOTHING = 1
NAMED_INLINE = 2
NAMED_FILE = 3
NAMED_GARBLED = 4
NAMED_NO_NAME = 5
NAMED_NOT_URL = 6
NAMED_LEAVES = 7


class Fault(Structure):
    _fields_ = [
        ("kind", c_uint32), ("line", c_uint32), ("segment", c_uint32), ("has_place", c_bool),
        ("number", c_size_t), ("depth", c_size_t), ("section", c_size_t * 8), ("text_len", c_size_t),
        ("text", c_char * 264),
    ]


class Map(Structure):
    _fields_ = [("is_open", c_bool), ("at", c_void_p)]


class Limits(Structure):
    _fields_ = [("items", c_uint32), ("lines", c_uint32)]


class Counts(Structure):
    _fields_ = [
        ("sources", c_size_t), ("listed_sources", c_size_t), ("names", c_size_t), ("mappings", c_size_t),
        ("lines", c_uint32),
    ]


class Mapping(Structure):
    _fields_ = [
        ("line", c_uint32), ("column", c_uint32), ("has_source", c_bool), ("has_name", c_bool),
        ("is_ignored", c_bool), ("source_line", c_uint32), ("source_column", c_uint32),
        ("source", c_size_t),
    ]


class ListedMapping(Structure):
    _fields_ = [
        ("line", c_uint32), ("column", c_uint32), ("has_source", c_bool), ("has_name", c_bool),
        ("source_line", c_uint32), ("source_column", c_uint32), ("source", c_uint32), ("name", c_uint32),
    ]


class Builder(Structure):
    _fields_ = [("is_open", c_bool), ("at", c_void_p)]


class Bytes(Structure):
    _fields_ = [("is_open", c_bool), ("at", c_void_p)]


class FrameParts(Structure):
    _fields_ = [("url_from", c_size_t), ("url_len", c_size_t), ("line", c_uint32), ("column", c_uint32)]


class Scripts(Structure):
    _fields_ = [("is_open", c_bool), ("at", c_void_p)]


class TraceCounts(Structure):
    _fields_ = [("lines", c_uint64), ("translated", c_uint64), ("dropped", c_uint64)]


# The functions: their names, what they return, and their parameters.
FUNCTIONS: List[Tuple[Any, ...]] = [
    ("smap_version", c_uint32),
    ("smap_code_name", c_size_t, c_uint32, c_char_p, c_size_t),
    ("smap_fault_name", c_size_t, c_uint32, c_char_p, c_size_t),
    (
        "smap_open", c_uint32, POINTER(Map), c_char_p, c_size_t, c_char_p, c_size_t, POINTER(Limits),
        POINTER(Fault),
    ),
    (
        "smap_open_within", c_uint32, POINTER(Map), c_char_p, c_size_t, c_char_p, c_size_t,
        POINTER(Limits), c_size_t, POINTER(Fault),
    ),
    ("smap_close", None, POINTER(Map)),
    ("smap_share", c_uint32, POINTER(Map), POINTER(Map)),
    ("smap_same", c_uint32, POINTER(Map), POINTER(Map), POINTER(c_bool)),
    ("smap_count", c_uint32, POINTER(Map), POINTER(Counts)),
    ("smap_held", c_uint32, POINTER(Map), POINTER(c_size_t)),
    ("smap_file", c_uint32, POINTER(Map), c_char_p, c_size_t, POINTER(c_size_t)),
    ("smap_lookup", c_uint32, POINTER(Map), c_uint32, c_uint32, POINTER(Mapping)),
    ("smap_find", c_uint32, POINTER(Map), c_uint32, c_uint32, POINTER(c_size_t)),
    ("smap_name_at", c_uint32, POINTER(Map), c_uint32, c_uint32, c_char_p, c_size_t, POINTER(c_size_t)),
    ("smap_token", c_uint32, POINTER(Map), c_size_t, POINTER(Mapping)),
    ("smap_source_url", c_uint32, POINTER(Map), c_size_t, c_char_p, c_size_t, POINTER(c_size_t)),
    ("smap_source_content", c_uint32, POINTER(Map), c_size_t, c_char_p, c_size_t, POINTER(c_size_t)),
    ("smap_is_ignored", c_uint32, POINTER(Map), c_size_t, POINTER(c_bool)),
    ("smap_listed_source", c_uint32, POINTER(Map), c_size_t, POINTER(c_size_t)),
    ("smap_written_source", c_uint32, POINTER(Map), c_size_t, c_char_p, c_size_t, POINTER(c_size_t)),
    ("smap_written_root", c_uint32, POINTER(Map), c_size_t, c_char_p, c_size_t, POINTER(c_size_t)),
    ("smap_listed_name", c_uint32, POINTER(Map), c_size_t, c_char_p, c_size_t, POINTER(c_size_t)),
    ("smap_listed_token", c_uint32, POINTER(Map), c_size_t, POINTER(ListedMapping)),
    (
        "smap_compose", c_uint32, POINTER(Map), POINTER(Map), c_size_t, POINTER(c_size_t), c_size_t,
        POINTER(Limits), POINTER(Map),
    ),
    ("smap_thin", c_uint32, POINTER(Map), POINTER(Map)),
    ("smap_only_used", c_uint32, POINTER(Map), POINTER(Map)),
    ("smap_builder_open", c_uint32, POINTER(Builder), c_char_p, c_size_t, POINTER(Limits)),
    ("smap_builder_file", c_uint32, POINTER(Builder), c_bool, c_char_p, c_size_t),
    ("smap_builder_source", c_uint32, POINTER(Builder), c_bool, c_char_p, c_size_t, POINTER(c_uint32)),
    ("smap_builder_content", c_uint32, POINTER(Builder), c_uint32, c_bool, c_char_p, c_size_t),
    ("smap_builder_ignore", c_uint32, POINTER(Builder), c_uint32, c_bool),
    ("smap_builder_name", c_uint32, POINTER(Builder), c_char_p, c_size_t, POINTER(c_uint32)),
    ("smap_builder_add", c_uint32, POINTER(Builder), POINTER(c_uint32), c_size_t, POINTER(c_size_t)),
    ("smap_builder_finish", c_uint32, POINTER(Builder), POINTER(Map)),
    ("smap_builder_close", None, POINTER(Builder)),
    ("smap_bytes_data", c_uint32, POINTER(Bytes), POINTER(POINTER(c_uint8)), POINTER(c_size_t)),
    ("smap_bytes_copy", c_size_t, POINTER(Bytes), c_size_t, c_char_p, c_size_t),
    ("smap_bytes_free", None, POINTER(Bytes)),
    ("smap_canonical", c_uint32, POINTER(Map), POINTER(Bytes)),
    ("smap_canonical_relative", c_uint32, POINTER(Map), POINTER(Bytes)),
    ("smap_canonical_mappings", c_uint32, POINTER(Map), POINTER(Bytes)),
    ("smap_flatten", c_uint32, POINTER(Map), POINTER(Bytes)),
    ("smap_respell", c_uint32, c_char_p, c_size_t, POINTER(Bytes), POINTER(Fault)),
    ("smap_spell", c_uint32, POINTER(c_uint32), c_size_t, POINTER(Bytes), POINTER(c_size_t)),
    ("smap_frame", c_uint32, c_char_p, c_size_t, POINTER(FrameParts)),
    (
        "smap_translate_line", c_uint32, POINTER(Map), c_char_p, c_size_t, c_char_p, c_size_t, c_uint8,
        c_char_p, c_size_t, POINTER(c_size_t), POINTER(c_uint32),
    ),
    ("smap_add_script", c_uint32, POINTER(Scripts), c_char_p, c_size_t, POINTER(Map)),
    ("smap_close_scripts", None, POINTER(Scripts)),
    (
        "smap_translate", c_uint32, POINTER(Scripts), c_char_p, c_size_t, c_uint8, POINTER(Bytes),
        POINTER(TraceCounts),
    ),
    ("smap_script_link", c_uint32, c_char_p, c_size_t, c_bool, c_char_p, c_size_t, POINTER(c_size_t)),
    ("smap_resolve", c_uint32, c_char_p, c_size_t, c_char_p, c_size_t, POINTER(Bytes)),
    ("smap_data_url", c_uint32, c_char_p, c_size_t, POINTER(Bytes)),
    ("smap_file_url", c_uint32, c_char_p, c_size_t, POINTER(Bytes)),
    ("smap_file_path", c_uint32, c_char_p, c_size_t, POINTER(Bytes)),
    ("smap_script_url", c_uint32, c_char_p, c_size_t, c_char_p, c_size_t, POINTER(Bytes)),
    ("smap_script_name", c_uint32, c_char_p, c_size_t, c_char_p, c_size_t, POINTER(Bytes)),
    ("smap_file_kind", c_uint32, c_char_p, c_size_t),
    (
        "smap_named_map", c_uint32, c_char_p, c_size_t, c_char_p, c_size_t, c_char_p, c_size_t,
        POINTER(Bytes), POINTER(c_uint32),
    ),
    (
        "smap_script_map", c_uint32, c_char_p, c_size_t, c_char_p, c_size_t, c_char_p, c_size_t, c_size_t,
        POINTER(Bytes), POINTER(c_uint32),
    ),
    ("smap_normal_form", c_uint32, c_char_p, c_size_t, c_bool, POINTER(Bytes)),
    ("smap_alike", c_uint32, c_char_p, c_size_t, c_char_p, c_size_t, POINTER(c_bool)),
]

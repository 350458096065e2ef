"""The calls of the C library gix_glob_c as its header gix_glob.h declares them: numbers, structures, parameters and answers.

A structure of a pointer and a count that is passed by value is declared as two parameters, and one of a number as that number: the
header says that they are passed so.
"""

from __future__ import annotations

import ctypes
from typing import Any, Tuple

#: The version of the header that is declared here, and of this package.
VERSION = "0.4.0"
#: GIX_GLOB_NONE: no place, and no index.
NONE = ctypes.c_size_t(-1).value
#: GIX_GLOB_NEGATIVE: the bit of a pattern's mode.
NEGATIVE = 8
#: GIX_GLOB_AS_CRATE and GIX_GLOB_AS_GIT: whose reading a pattern is.
AS_CRATE, AS_GIT = 0, 1
#: GIX_GLOB_LINE_END, GIX_GLOB_LINE_NOTHING and GIX_GLOB_LINE_PATTERN: what a line of an ignore file gives.
END, NOTHING, PATTERN = 0, 1, 2


class Parts(ctypes.Structure):
    """struct gix_glob_pattern: a pattern that was read, whose text lies in the line's memory."""

    _fields_ = [
        ("text", ctypes.c_void_p),
        ("text_len", ctypes.c_size_t),
        ("first_wildcard_pos", ctypes.c_size_t),
        ("mode", ctypes.c_uint32),
        ("reading", ctypes.c_uint32),
    ]


class ListParts(ctypes.Structure):
    """struct gix_glob_list: patterns, their folder, and what was prepared for them."""

    _fields_ = [
        ("patterns", ctypes.c_void_p),
        ("count", ctypes.c_size_t),
        ("base", ctypes.c_void_p),
        ("base_len", ctypes.c_size_t),
        ("rows", ctypes.c_void_p),
        ("row_count", ctypes.c_size_t),
        ("heads", ctypes.c_void_p),
        ("head_count", ctypes.c_size_t),
    ]


class Place(ctypes.Structure):
    """struct gix_glob_decision: the index of a list, and that of a pattern in it."""

    _fields_ = [("list", ctypes.c_size_t), ("pattern", ctypes.c_size_t)]


class Lines(ctypes.Structure):
    """struct gix_glob_lines: what is left to read of an ignore file."""

    _fields_ = [("rest", ctypes.c_void_p), ("rest_len", ctypes.c_size_t), ("number", ctypes.c_size_t)]


#: The calls that are used, each with its parameters and its answer. A `bytes` is handed over as c_char_p, an address as c_void_p.
CALLS = {
    "gix_glob_version": ([], ctypes.c_uint32),
    "gix_glob_wildmatch": (
        [ctypes.c_char_p, ctypes.c_size_t, ctypes.c_char_p, ctypes.c_size_t, ctypes.c_uint8],
        ctypes.c_bool,
    ),
    "gix_glob_matches": (
        [ctypes.POINTER(Parts), ctypes.c_char_p, ctypes.c_size_t, ctypes.c_uint8],
        ctypes.c_bool,
    ),
    "gix_glob_parse": ([ctypes.c_void_p, ctypes.c_size_t, ctypes.POINTER(Parts)], ctypes.c_bool),
    "gix_glob_parse_as_git": ([ctypes.c_void_p, ctypes.c_size_t, ctypes.POINTER(Parts)], None),
    "gix_glob_parse_ignore_line": ([ctypes.POINTER(Lines), ctypes.POINTER(Parts)], ctypes.c_uint32),
    "gix_glob_parse_ignore_line_as_git": ([ctypes.POINTER(Lines), ctypes.POINTER(Parts)], ctypes.c_uint32),
    "gix_glob_pattern_matches_path": (
        [ctypes.POINTER(Parts), ctypes.c_char_p, ctypes.c_size_t, ctypes.c_bool, ctypes.c_bool],
        ctypes.c_bool,
    ),
    "gix_glob_prepared_size": ([ctypes.c_size_t], ctypes.c_size_t),
    "gix_glob_rows_at": ([], ctypes.c_size_t),
    "gix_glob_prepare": (
        [ctypes.c_void_p, ctypes.c_size_t, ctypes.c_void_p, ctypes.c_size_t, ctypes.c_void_p],
        ctypes.c_bool,
    ),
    "gix_glob_last_match": (
        [ctypes.POINTER(ListParts), ctypes.c_char_p, ctypes.c_size_t, ctypes.c_bool, ctypes.c_bool],
        ctypes.c_size_t,
    ),
    "gix_glob_decide_in_tree": (
        [
            ctypes.c_void_p,
            ctypes.c_size_t,
            ctypes.c_char_p,
            ctypes.c_size_t,
            ctypes.c_bool,
            ctypes.c_bool,
            ctypes.POINTER(Place),
        ],
        ctypes.c_bool,
    ),
}

#: The header's other calls: a library of this version has them, too.
OTHERS = (
    "gix_glob_last_matches",
    "gix_glob_parse_attribute_line",
    "gix_glob_parse_attribute_line_as_git",
    "gix_glob_attribute_of",
    "gix_glob_matches_path",
)


_EMPTY = ctypes.create_string_buffer(1)


def blank() -> Parts:
    """GIX_GLOB_PATTERN_INIT: a pattern before one was read."""
    return Parts(ctypes.addressof(_EMPTY), 0, NONE, 0, AS_CRATE)


def prepared(library: Any, patterns: int, count: int, base: int, base_len: int) -> Tuple[ListParts, Any]:
    """gix_glob_list_of and gix_glob_prepare_list: so many patterns at an address as a list, whose base lies at another one, and the block in
    which it is prepared.

    Raises:
        OverflowError: there are 2^32 patterns or more.
    """
    size = library.gix_glob_prepared_size(count)
    if size == NONE:
        raise OverflowError("a file is to have fewer than 2^32 patterns")
    block = (ctypes.c_uint64 * (size // 8 + 1))()
    heads = ctypes.addressof(block)
    rows = heads + library.gix_glob_rows_at()
    if not library.gix_glob_prepare(patterns, count, rows, count, heads):
        raise OverflowError("the library didn't prepare as many patterns as it said")
    return ListParts(patterns, count, base, base_len, rows, count, heads, 1), block

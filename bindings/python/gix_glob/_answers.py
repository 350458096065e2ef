"""Whether a library answers as one of this version does: each call that is used is asked what tells it from another one.

The library tells its version. A file may still have calls of these names that answer otherwise, or that write to other structures; so
each is asked a few questions, the plain ones first, and nothing more after a wrong answer. What a call writes to has room behind it
that is to stay as it was. A call that harms memory elsewhere, or never ends, isn't seen by this.
"""

from __future__ import annotations

import ctypes
from typing import Any, Callable, List, NamedTuple, Optional, Sequence, Tuple

from ._calls import AS_CRATE, AS_GIT, END, NONE, NOTHING, PATTERN, VERSION, Lines, ListParts, Parts, Place, blank

#: The bytes behind what a call writes to.
_MARK = b"\xa5" * 256
#: An ignore file, and the texts of its lines' patterns.
_FILE = b"\xef\xbb\xbf*.log\r\n#x\n!k/a**/b \n \nbuild/"
_BY_CRATE = (b"*.log", None, b"k/a**/b", None, b"build")
_BY_GIT = (b"*.log", None, b"k/a**/b", b"", b"build")
#: Paths, whether each is a directory's, whether case counts, and the place of the last pattern that matches it.
_PATHS = (
    (b"x/a.log", False, True, 0),
    (b"k/ax/b", False, True, 1),
    (b"K/AX/B", False, False, 1),
    (b"K/AX/B", False, True, NONE),
    (b"x/build", True, True, 2),
    (b"x/build", False, True, NONE),
    (b"k/a/x/b", False, True, NONE),
)
#: Paths, whether each is a directory's, and the places of the list and of the pattern that decide, of the file's patterns at the top and
#: once more in the folder `k`.
_IN_TREE = (
    (b"x/a.log", False, (0, 0)),
    (b"k/a.log", False, (1, 0)),
    (b"k/ax/b", False, (0, 1)),
    (b"k/build/a.log", False, (1, 2)),
    (b"k/a/x/b", False, (NONE, NONE)),
)


class _Room:
    """What a call writes to, with bytes behind it that aren't the call's."""

    def __init__(self, kind: Any, first: bytes = b"") -> None:
        self._size = ctypes.sizeof(kind)
        self._memory = bytearray(first or self._size) + _MARK
        self.it: Any = kind.from_buffer(self._memory)
        self.address = ctypes.addressof(self.it)

    def is_kept(self) -> bool:
        """Whether the bytes behind are as they were."""
        return self._memory[self._size :] == _MARK


class _Text:
    """A text at an address."""

    def __init__(self, text: bytes) -> None:
        self._memory = ctypes.create_string_buffer(text, len(text) + 1)
        self.address, self.length = ctypes.addressof(self._memory), len(text)

    def part(self, parts: Parts) -> Optional[bytes]:
        """The pattern's bytes; None where they aren't some of this text."""
        begin = (parts.text or 0) - self.address
        end = begin + parts.text_len
        if begin == end:
            return b""
        return self._memory.raw[begin:end] if 0 <= begin < end <= self.length else None


def _version(c: Any) -> bool:
    major, minor, patch = map(int, VERSION.split("."))
    return bool(c.gix_glob_version() == major * 10000 + minor * 100 + patch)


def _wildmatch(c: Any) -> bool:
    rows = (
        (b"*.[ch]", b"src/main.c", 0, True),
        (b"*.[ch]", b"src/main.c", 1, False),
        (b"**/*.[CH]", b"src/main.c", 3, True),
        (b"**/*.[CH]", b"src/main.c", 1, False),
        (b"a\\", b"a\\", 0, False),
    )
    return all(c.gix_glob_wildmatch(it, len(it), value, len(value), mode) is told for it, value, mode, told in rows)


def _matches(c: Any) -> bool:
    # (of a text without a slash that ends with a literal, and of one with both)
    rows = ((b"*.o", 3, 0, b"a.o", 1, True), (b"*.o", 3, 0, b"a.c", 1, False), (b"a/[bc]", 0, 2, b"a/c", 1, True))
    for line, bits, place, value, mode, told in rows:
        text = _Text(line)
        parts = Parts(text.address, text.length, place, bits, AS_CRATE)
        if c.gix_glob_matches(parts, value, len(value), mode) is not told:
            return False
    return True


def _parse(c: Any) -> bool:
    line, blanks, room = _Text(b"!/a*.o/"), _Text(b" \t"), _Room(Parts, bytes(blank()))
    has_pattern = c.gix_glob_parse(line.address, line.length, ctypes.byref(room.it))
    it = room.it
    read = (line.part(it), it.first_wildcard_pos, it.mode, it.reading)
    if has_pattern is not True or read != (b"a*.o", 1, 29, AS_CRATE):
        return False
    return c.gix_glob_parse(blanks.address, blanks.length, ctypes.byref(it)) is False and room.is_kept()


def _parse_as_git(c: Any) -> bool:
    room = _Room(Parts, bytes(blank()))
    for text, place in ((b"a**/b", 1), (b" ", NONE)):
        line = _Text(text)
        c.gix_glob_parse_as_git(line.address, line.length, ctypes.byref(room.it))
        if (line.part(room.it), room.it.first_wildcard_pos) != (text, place):
            return False
    return bool(room.it.reading == AS_GIT and room.is_kept())


def _matches_path(c: Any) -> bool:
    by_git, by_crate, line = blank(), blank(), _Text(b"a**/b")
    c.gix_glob_parse_as_git(line.address, line.length, ctypes.byref(by_git))
    c.gix_glob_parse(line.address, line.length, ctypes.byref(by_crate))
    path = b"ax/y/b"
    found = [c.gix_glob_pattern_matches_path(it, path, len(path), False, False) for it in (by_git, by_crate)]
    return found == [True, False]


class _Read(NamedTuple):
    """What a call has read of the file: its texts, and the patterns among them, as long as their memory is there."""

    texts: Sequence[Optional[bytes]]
    patterns: Sequence[Parts]
    memory: _Text


def _read(take_line: Any) -> Optional[_Read]:
    """The file, as a call reads it line by line; None where the call counts otherwise, or writes past its structures."""
    file = _Text(_FILE)
    lines, out = _Room(Lines), _Room(Parts, bytes(blank()))
    lines.it.rest, lines.it.rest_len = file.address, file.length
    told = ctypes.byref(lines.it), ctypes.byref(out.it)
    texts: List[Optional[bytes]] = []
    patterns = []
    for number in range(1, len(_BY_CRATE) + 1):
        line = take_line(*told)
        if line not in (NOTHING, PATTERN) or lines.it.number != number:
            return None
        texts.append(file.part(out.it) if line == PATTERN else None)
        if line == PATTERN:
            patterns.append(Parts.from_buffer_copy(out.it))
    if take_line(*told) != END or lines.it.rest_len or not (lines.is_kept() and out.is_kept()):
        return None
    return _Read(texts, patterns, file)


def _parse_ignore_line(c: Any) -> bool:
    read = _read(c.gix_glob_parse_ignore_line)
    return read is not None and tuple(read.texts) == _BY_CRATE


def _parse_ignore_line_as_git(c: Any) -> bool:
    read = _read(c.gix_glob_parse_ignore_line_as_git)
    return read is not None and tuple(read.texts) == _BY_GIT


class _Prepared:
    """The file's patterns, as the library reads and prepares them."""

    def __init__(self, c: Any) -> None:
        read = _read(c.gix_glob_parse_ignore_line)
        patterns = read.patterns if read else ()
        count = len(patterns)
        self._kept = (read, (Parts * count)(*patterns), _Text(b""))
        self.rows, self.heads = _Room(ctypes.c_uint64 * (2 * count)), _Room(ctypes.c_uint64 * 256)
        told = ctypes.addressof(self._kept[1]), count
        self.has_room = [c.gix_glob_prepare(*told, self.rows.address, rows, self.heads.address) for rows in (count - 1, count)]
        self.index = ListParts(*told, self._kept[2].address, 0, self.rows.address, count, self.heads.address, 1)


def _prepared_size(c: Any) -> bool:
    sizes = [c.gix_glob_prepared_size(count) for count in (0, 3, 1 << 32)]
    return sizes == [2048, 2096, NONE]


def _rows_at(c: Any) -> bool:
    return bool(c.gix_glob_rows_at() == 2048)


def _prepare(c: Any) -> bool:
    prepared = _Prepared(c)
    return prepared.has_room == [False, True] and prepared.rows.is_kept() and prepared.heads.is_kept()


def _last_match(c: Any) -> bool:
    prepared = _Prepared(c)
    asked = ((path, len(path), is_dir, not counts) for path, is_dir, counts, _ in _PATHS)
    found = [c.gix_glob_last_match(ctypes.byref(prepared.index), *path) for path in asked]
    return found == [told for _, _, _, told in _PATHS]


def _decide_in_tree(c: Any) -> bool:
    # (two lists, the second one in a folder)
    prepared, base, room = _Prepared(c), _Text(b"k/"), _Room(Place)
    lists = (ListParts * 2)(prepared.index, prepared.index)
    lists[1].base, lists[1].base_len = base.address, base.length
    for path, is_dir, found in _IN_TREE:
        room.it.list = room.it.pattern = NONE
        told = path, len(path), is_dir, False, ctypes.byref(room.it)
        decides = c.gix_glob_decide_in_tree(ctypes.addressof(lists), 2, *told)
        if decides is not (found[0] != NONE) or (room.it.list, room.it.pattern) != found or not room.is_kept():
            return False
    return True


#: The calls, each with what it is asked; one that takes what another one writes comes behind that one.
QUESTIONS: Sequence[Tuple[str, Callable[[Any], bool]]] = (
    ("gix_glob_version", _version),
    ("gix_glob_wildmatch", _wildmatch),
    ("gix_glob_matches", _matches),
    ("gix_glob_parse", _parse),
    ("gix_glob_parse_as_git", _parse_as_git),
    ("gix_glob_pattern_matches_path", _matches_path),
    ("gix_glob_parse_ignore_line", _parse_ignore_line),
    ("gix_glob_parse_ignore_line_as_git", _parse_ignore_line_as_git),
    ("gix_glob_prepared_size", _prepared_size),
    ("gix_glob_rows_at", _rows_at),
    ("gix_glob_prepare", _prepare),
    ("gix_glob_last_match", _last_match),
    ("gix_glob_decide_in_tree", _decide_in_tree),
)


def first_wrong(c: Any) -> Optional[str]:
    """The name of the first call that answers otherwise than this version's, or None."""
    return next((name for name, is_right in QUESTIONS if not is_right(c)), None)

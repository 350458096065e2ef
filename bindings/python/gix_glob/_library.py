"""What the package asks of the C library, with the memory that it asks about. All that could harm memory is in this module, and in
the questions of `_answers`, which are the same ones each time.

What the header asks of a caller, and who keeps it:

- A text can be read for its whole length, and isn't written: a call is handed a `bytes` itself (no object of a subclass, whose
  length could be another one), which can't change, and which the call refers to.
- What a structure leads to stays where it is: a line, a file, or what was prepared for its patterns, are in memory of ctypes' own,
  which the object that has the pointer refers to.
- No pointer is NULL, also where a count is 0, and each is aligned: ctypes' memory and structures are.
- What a call writes is initialised, and overlaps nothing else: each is a ctypes structure of its own.

Objects of this module don't change once they are made, so threads may share them. A call lets other threads run.
"""

from __future__ import annotations

import ctypes
from array import array
from functools import partial
from typing import Any, Optional, Sequence, Tuple

from . import _loading
from ._calls import AS_CRATE, END, NEGATIVE, NONE, PATTERN, Lines, ListParts, Parts, Place, blank, prepared
from ._reading import Reading

_c: Any = _loading.load()
_decide_in_tree: Any = _c.gix_glob_decide_in_tree
#: False and True, as a call takes them.
_BOOLS = ctypes.c_bool(False), ctypes.c_bool(True)


def _check(*texts: bytes) -> None:
    for text in texts:
        if type(text) is not bytes:
            raise TypeError(f"C is handed bytes alone, and no {type(text).__name__}")


class Memory:
    """A copy of some bytes, at an address that stays the same as long as this object is there."""

    __slots__ = ("_buffer", "address", "length")

    def __init__(self, text: bytes) -> None:
        _check(text)
        # (its last byte is 0, so it is never empty)
        self._buffer = ctypes.create_string_buffer(text, len(text) + 1)
        self.address = ctypes.addressof(self._buffer)
        self.length = len(text)

    def text(self) -> bytes:
        return ctypes.string_at(self.address, self.length)


class Line:
    """What was read of a line, and the memory that its text lies in."""

    __slots__ = ("_memory", "_parts")

    def __init__(self, memory: Memory, parts: Parts) -> None:
        self._memory = memory
        self._parts = parts

    @property
    def text(self) -> bytes:
        return ctypes.string_at(self._parts.text, self._parts.text_len)

    @property
    def mode(self) -> int:
        return int(self._parts.mode)

    @property
    def reading(self) -> Reading:
        """Whose reading it is."""
        return Reading.CRATE if self._parts.reading == AS_CRATE else Reading.GIT

    @property
    def first_wildcard_pos(self) -> Optional[int]:
        place = int(self._parts.first_wildcard_pos)
        return None if place == NONE else place

    def matches_path(self, path: bytes, is_dir: bool, fold: bool) -> bool:
        _check(path)
        return bool(_c.gix_glob_pattern_matches_path(self._parts, path, len(path), is_dir, fold))

    def matches(self, value: bytes, mode: int) -> bool:
        _check(value)
        return bool(_c.gix_glob_matches(self._parts, value, len(value), mode))


def parse(line: bytes, reading: Reading) -> Optional[Line]:
    """Reads a pattern line; None where it is blank, which no line is for Git."""
    memory, parts = Memory(line), blank()
    told = memory.address, memory.length, ctypes.byref(parts)
    if reading is Reading.GIT:
        _c.gix_glob_parse_as_git(*told)
    elif not _c.gix_glob_parse(*told):
        return None
    return Line(memory, parts)


class Rules:
    """The patterns of an ignore file, in order and prepared, each with the number of its line, and the folder that the file lies in."""

    __slots__ = ("_base", "_block", "_memory", "_negative", "_patterns", "_pointer", "base", "list", "numbers")

    def __init__(self, file: bytes, reading: Reading, base: bytes = b"") -> None:
        memory = Memory(file)
        is_gits = reading is Reading.GIT
        take_line = _c.gix_glob_parse_ignore_line_as_git if is_gits else _c.gix_glob_parse_ignore_line
        lines, parts = Lines(memory.address, memory.length, 0), blank()
        told = ctypes.byref(lines), ctypes.byref(parts)
        readings, negative = bytearray(), bytearray()
        numbers = array("Q")
        for line in iter(partial(take_line, *told), END):
            if line == PATTERN:
                readings += parts
                negative.append(parts.mode & NEGATIVE)
                numbers.append(lines.number)
        # (one more, so that there is an address where there is no pattern)
        readings += blank()
        self._memory = memory
        # (this keeps `readings`, and from then on they stay where they are)
        self._patterns = (Parts * (len(numbers) + 1)).from_buffer(readings)
        self.numbers: Sequence[int] = numbers
        self._negative = bytes(negative)
        self.base, self._base = base, Memory(base)
        told = ctypes.addressof(self._patterns), len(numbers), self._base.address, self._base.length
        self.list, self._block = prepared(_c, *told)
        self._pointer = ctypes.pointer(self.list)

    @property
    def text(self) -> bytes:
        """The bytes of the file."""
        return self._memory.text()

    def line(self, index: int) -> Line:
        """What was read of the pattern at an index."""
        return Line(self._memory, Parts.from_buffer_copy(self._patterns[range(len(self.numbers))[index]]))

    def is_negative(self, index: int) -> bool:
        """Whether the pattern at an index began with `!`."""
        return bool(self._negative[index])

    def last_match(self, path: bytes, is_dir: bool, fold: bool) -> Optional[int]:
        """The index of the last pattern that matches the path, which is relative to the top, or None."""
        _check(path)
        index = _c.gix_glob_last_match(self._pointer, path, len(path), is_dir, fold)
        return None if index == NONE else index


class Lists:
    """The patterns of several ignore files, all of one reading. Those of a later file come after those of an earlier one."""

    __slots__ = ("_lists", "_rules", "_told")

    def __init__(self, rules: Sequence[Rules]) -> None:
        # (what these lead to, they keep)
        self._rules = tuple(rules)
        # (one more, so that there is an address where there is no list)
        self._lists = (ListParts * (len(rules) + 1))(*(it.list for it in rules))
        # (that these are what the call takes saves a fifth of its time)
        self._told = ctypes.c_void_p(ctypes.addressof(self._lists)), ctypes.c_size_t(len(rules))

    def decide(self, path: bytes, is_dir: bool, fold: bool) -> Optional[Tuple[int, int]]:
        """The places of the file and of its pattern that decide about a path of a tree, or None."""
        if type(path) is not bytes:
            _check(path)
        place = Place()
        if _decide_in_tree(*self._told, path, len(path), _BOOLS[is_dir], _BOOLS[fold], ctypes.byref(place)):
            return place.list, place.pattern
        return None


def wildmatch(pattern: bytes, value: bytes, mode: int) -> bool:
    """Whether a pattern's text matches the whole of a value."""
    _check(pattern, value)
    return bool(_c.gix_glob_wildmatch(pattern, len(pattern), value, len(value), mode))

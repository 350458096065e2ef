"""Patterns, and matching a text against a value."""

from __future__ import annotations

import enum
import operator
from typing import Optional, Tuple

from . import _library
from ._reading import Reading, checked
from ._texts import Path, Text, encoded, split


class Mode(enum.IntFlag):
    """How a text is matched. Other bits than these change no answer."""

    #: Values are paths: a wildcard matches no slash, save two or more `*` that stand alone between slashes or ends.
    NO_MATCH_SLASH_LITERAL = 1
    #: The case of ASCII letters doesn't count.
    IGNORE_CASE = 2


class PatternMode(enum.IntFlag):
    """What was read of a line."""

    #: The text has no slash.
    NO_SUB_DIR = 1
    #: The text is a `*`, and after it a literal.
    ENDS_WITH = 2
    #: The line ended in a slash: the pattern is for directories only.
    MUST_BE_DIR = 4
    #: The line began with `!`: what it matches isn't ignored.
    NEGATIVE = 8
    #: The line began with a slash.
    ABSOLUTE = 16


def _bits(mode: int) -> int:
    return operator.index(mode) & 3


class Pattern:
    r"""A pattern line that was read.

    The line is one of an attribute file: a `#` begins no comment, and white space at the end belongs to the text. `IgnoreFile`
    reads the lines of ignore files.

    >>> pattern = Pattern("!/*.o/")
    >>> pattern.text, pattern.is_negative, pattern.is_absolute, pattern.is_for_directories
    (b'*.o', True, True, True)
    >>> Pattern("src/**/*.rs").matches_path("src/deep/lib.rs")
    True

    It is read as Git reads it, or, with `Reading.CRATE`, as the Rust crate does, for which a line that is empty or white space alone, also
    behind a `!`, has no pattern:

    >>> Pattern("a**/b").matches_path("ax/y/b"), Pattern("a**/b", Reading.CRATE).matches_path("ax/y/b")
    (True, False)
    >>> Pattern(" \t", Reading.CRATE)
    Traceback (most recent call last):
    ValueError: the line b' \t' is blank
    """

    __slots__ = ("_line",)
    _line: _library.Line

    def __init__(self, line: Text, reading: Reading = Reading.GIT) -> None:
        text = encoded(line, "a line")
        read = _library.parse(text, checked(reading))
        if read is None:
            raise ValueError(f"the line {text[:40]!r} is blank")
        self._line = read

    @classmethod
    def _of(cls, line: _library.Line) -> "Pattern":
        pattern = cls.__new__(cls)
        pattern._line = line
        return pattern

    @property
    def text(self) -> bytes:
        """What is matched: the line without its `!` and without the slash at each end."""
        return self._line.text

    @property
    def mode(self) -> PatternMode:
        """What else was read of the line."""
        return PatternMode(self._line.mode)

    @property
    def reading(self) -> Reading:
        """Whose reading it is."""
        return self._line.reading

    @property
    def first_wildcard_pos(self) -> Optional[int]:
        """The place of the first `*`, `?`, `[` or `\\` in the text, or None."""
        return self._line.first_wildcard_pos

    @property
    def is_negative(self) -> bool:
        """Whether the line began with `!`."""
        return PatternMode.NEGATIVE in self.mode

    @property
    def is_absolute(self) -> bool:
        """Whether the line began with a slash."""
        return PatternMode.ABSOLUTE in self.mode

    @property
    def is_for_directories(self) -> bool:
        """Whether the line ended in a slash, so that it matches directories only."""
        return PatternMode.MUST_BE_DIR in self.mode

    def matches_path(self, path: Path, is_dir: bool = False, *, ignore_case: bool = False) -> bool:
        """Whether the pattern matches a path, relative to the folder of the pattern's file. Its `!` isn't looked at.

        >>> Pattern("*.log").matches_path("web/debug.log")
        True
        >>> Pattern("build/").matches_path("build"), Pattern("build/").matches_path("build/")
        (False, True)

        Args:
            path: the path; one that ends in a slash is a directory's.
            is_dir: whether it is a directory's also without a slash.
            ignore_case: whether the case of ASCII letters doesn't count.

        Raises:
            ValueError: the path is empty, begins with a slash, or has two in a row.
        """
        text, has_slash = split(path)
        return self._line.matches_path(text, bool(is_dir or has_slash), bool(ignore_case))

    def matches(self, value: Text, mode: int = Mode(0)) -> bool:
        """Whether the text matches the whole of a value, as `wildmatch` answers.

        >>> Pattern("*.RS").matches("src/lib.rs", Mode.IGNORE_CASE)
        True
        """
        return self._line.matches(encoded(value, "a value"), _bits(mode))

    def __bytes__(self) -> bytes:
        r"""A line that is read back to this pattern.

        >>> bytes(Pattern("!a/")), bytes(Pattern(r"\!a")), bytes(Pattern(r"\#a", Reading.CRATE))
        (b'!a/', b'\\!a', b'#a')
        """
        text, mode = self.text, self.mode
        sign = b"!" if PatternMode.NEGATIVE in mode else b""
        slash = b"/" if PatternMode.ABSOLUTE in mode else b""
        # (else the text's own `!` would be the sign)
        escape = b"\\" if text.startswith(b"!") and not sign and not slash else b""
        return sign + slash + escape + text + (b"/" if PatternMode.MUST_BE_DIR in mode else b"")

    def __repr__(self) -> str:
        return f"Pattern({bytes(self)!r})" if self.reading is Reading.GIT else f"Pattern({bytes(self)!r}, {self.reading})"

    def _parts(self) -> Tuple[bytes, int, Reading]:
        return self._line.text, self._line.mode, self._line.reading

    def __eq__(self, other: object) -> bool:
        if not isinstance(other, Pattern):
            return NotImplemented
        return self._parts() == other._parts()

    def __hash__(self) -> int:
        return hash(self._parts())

    def __reduce__(self) -> Tuple[type, Tuple[bytes, Reading]]:
        return type(self), (bytes(self), self.reading)


def wildmatch(pattern: Text, value: Text, mode: int = Mode(0)) -> bool:
    """Whether a text matches the whole of a value.

    `?` is any byte, `*` any bytes, `[..]` one byte of a set, and a backslash takes the meaning off the byte behind it. A
    backslash at the end, and a set that doesn't close, match nothing.

    >>> wildmatch("*.[ch]", "src/main.c")
    True
    >>> wildmatch("*.[ch]", "src/main.c", Mode.NO_MATCH_SLASH_LITERAL)
    False
    >>> wildmatch("**/*.[CH]", "src/main.c", Mode.NO_MATCH_SLASH_LITERAL | Mode.IGNORE_CASE)
    True
    """
    return _library.wildmatch(encoded(pattern, "a pattern"), encoded(value, "a value"), _bits(mode))

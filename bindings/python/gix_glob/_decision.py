"""What decides about a path: a line, or the place of its pattern."""

from __future__ import annotations

from dataclasses import dataclass
from typing import TYPE_CHECKING, Generic, NamedTuple, Optional, TypeVar

from ._pattern import Pattern

if TYPE_CHECKING:
    from ._ignore import IgnoreFile

_P = TypeVar("_P")


class Decision(NamedTuple):
    """The line that decides about a path, to ignore it or to keep it. It is true where the path is ignored.

    >>> from gix_glob import IgnoreFile
    >>> decision = IgnoreFile.from_lines(["*.log", "!keep.log"]).decide("keep.log")
    >>> decision.line, decision.pattern, decision.is_ignored, bool(decision)
    (2, Pattern(b'!keep.log'), False, False)
    """

    #: The file that has the line.
    file: "IgnoreFile"
    #: The number of the line, from 1.
    line: int
    #: What was read of the line.
    pattern: Pattern

    @property
    def is_ignored(self) -> bool:
        """Whether the path is ignored: the line doesn't begin with `!`."""
        return not self.pattern.is_negative

    def __bool__(self) -> bool:
        return self.is_ignored


@dataclass(frozen=True)
class CheckResult(Generic[_P]):
    """What `check_file` and `check_files` say of a path, as `pathspec` calls it."""

    #: The path, as it was asked about.
    file: _P
    #: Whether the path is ignored; None where no pattern decides.
    include: Optional[bool]
    #: The place of the pattern that decides in `patterns`, from 0; None where none does.
    index: Optional[int]

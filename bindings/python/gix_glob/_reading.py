"""Whose reading of a line counts."""

from __future__ import annotations

import enum


class Reading(enum.Enum):
    """Whose reading of a line counts, and of what its pattern matches."""

    #: Git's own, the default.
    GIT = "git"
    #: That of the Rust crate `gix-glob`. What a pattern with a slash has before its first `*`, `?`, `[` or `\\` isn't compared by itself,
    #: so that `a**/b` doesn't match `ax/y/b`; and where the case of letters doesn't count, it doesn't either in sets and behind a `\\`.
    CRATE = "crate"


def checked(reading: Reading) -> Reading:
    """The same, where it is one: any other value would be read as one of both."""
    if not isinstance(reading, Reading):
        raise TypeError(f"a reading is to be Reading.CRATE or Reading.GIT, and not {reading!r}")
    return reading

"""Texts as bytes: lines, values, paths and folders, as callers hand them in."""

from __future__ import annotations

import os
from typing import Collection, Optional, Sequence, Tuple, Union

#: A line or a value: `str` is encoded by `os.fsencode`.
Text = Union[str, bytes]
#: A path: `str` is encoded by `os.fsencode`, and an `os.PathLike` is asked for its path.
Path = Union[str, bytes, "os.PathLike[str]", "os.PathLike[bytes]"]
#: What stands between the parts of a path beside the slash; None for what the system has beside it, which is nothing on Linux.
Separators = Optional[Collection[Text]]


def _exact(text: bytes) -> bytes:
    """The bytes themselves, where an object of a subclass could tell something else of them."""
    return text if type(text) is bytes else bytes(memoryview(text))


def encoded(text: Text, what: str = "a text", hint: str = "") -> bytes:
    """The bytes of a text."""
    if not isinstance(text, (str, bytes)):
        raise TypeError(f"{what} is to be str or bytes, and no {type(text).__name__}{hint}")
    return _exact(os.fsencode(text))


def separators_of(separators: Separators) -> Sequence[bytes]:
    """The bytes of separators other than the slash, which is the only one of Linux."""
    if separators is None:
        return ()
    found = [encoded(it, "a separator") for it in separators]
    if b"" in found:
        raise ValueError("a separator is empty")
    return [it for it in found if it != b"/"]


def bare(path: Path, separators: Sequence[bytes] = ()) -> Tuple[bytes, bool]:
    """The bytes of a path without a `./` in front and the slash at its end, and whether that was there. Each separator is a slash, too."""
    text = os.fsencode(path)
    if type(text) is not bytes:
        text = _exact(text)
    for separator in separators:
        text = text.replace(separator, b"/")
    if text[:2] == b"./":
        text = text[2:]
    return (text[:-1], True) if text[-1:] == b"/" else (text, False)


def split(path: Path, separators: Sequence[bytes] = ()) -> Tuple[bytes, bool]:
    """The same of a path below a folder. (About any other the library says that no pattern matches it.)

    Raises:
        ValueError: it is empty, begins with a slash, or has two in a row."""
    text, is_dir = bare(path, separators)
    # (with slashes around it a path has an empty part where two meet)
    if b"//" in b"/" + text + b"/":
        raise ValueError(f"{path!r} is no path below a folder: it is empty, begins with a slash, or has two in a row")
    return text, is_dir


def folder(path: Path) -> bytes:
    """The bytes of a folder with one slash at its end; empty for the top, which is also called `.`."""
    text = _exact(os.fsencode(path))
    return b"" if text in (b"", b".", b"./") else split(text)[0] + b"/"

"""Ignore files, and lists of them: how they are made, what they hold, and how they are joined and compared."""

from __future__ import annotations

import os
from typing import Any, Iterable, Iterator, Optional, Sequence, Tuple

from . import _library
from ._deciding import Files, Found
from ._decision import Decision
from ._matching import Matching
from ._pattern import Pattern
from ._reading import Reading, checked
from ._texts import Path, Text, encoded, folder


class _Ignoring(Matching):
    """What one ignore file has as well as several: patterns in order, of which the last one that matches decides."""

    __slots__ = ()

    def _listed(self) -> Sequence["IgnoreFile"]:
        """The files, in order."""
        raise NotImplementedError

    def _told(self, found: Optional[Found]) -> Optional[Decision]:
        if found is None:
            return None
        file = self._listed()[found.file]
        return Decision(file, file._rules.numbers[found.at], Pattern._of(file._rules.line(found.at)))

    @property
    def patterns(self) -> Sequence[Pattern]:
        """The patterns of all files, in order. Blank lines and comments have none.

        >>> IgnoreFile.from_lines(["# logs", "*.log", "!keep.log"]).patterns
        (Pattern(b'*.log'), Pattern(b'!keep.log'))
        """
        return tuple(pattern for file in self._listed() for _, pattern in file)

    def __len__(self) -> int:
        """The number of patterns."""
        return self._by_folder.starts[-1]

    def __bool__(self) -> bool:
        return True

    def _lines(self) -> Sequence[Tuple[bytes, Pattern]]:
        return tuple((file.base, pattern) for file in self._listed() for _, pattern in file)

    def __eq__(self, other: object) -> bool:
        """Whether the same patterns, of the same folders and readings, stand in the same order, so that both decide alike. Names,
        numbers of lines and comments don't count, and neither does it into which files the patterns are put."""
        if not isinstance(other, _Ignoring):
            return NotImplemented
        return self is other or (len(self) == len(other) and self._lines() == other._lines())

    def __hash__(self) -> int:
        return hash(self._lines())

    def __add__(self, other: "_Ignoring") -> "IgnoreList":
        """The files of both in one list, in which those of the other decide over these.

        >>> rules = IgnoreFile.from_lines(["*.o"]) + IgnoreFile.from_lines(["!a.o"])
        >>> list(rules.match_files(["a.o", "b.o"])), rules == IgnoreFile.from_lines(["*.o", "!a.o"])
        (['b.o'], True)
        """
        if not isinstance(other, _Ignoring):
            return NotImplemented
        return IgnoreList((*self._listed(), *other._listed()))


class IgnoreFile(_Ignoring):
    r"""The lines of an ignore file, of which the last one that matches a path decides about it.

    A line that begins with `#` is a comment, one that begins with `!` keeps what it matches, one that ends in a slash is for
    directories only. `docs/PATTERNS.md` of the library has all rules.

    >>> rules = IgnoreFile.from_lines(["# logs", "*.log", "!keep.log"])
    >>> rules.decide("debug.log").line
    2
    >>> [(line, pattern.text) for line, pattern in rules]
    [(2, b'*.log'), (3, b'keep.log')]

    A file is for the folder `base` that it lies in, and paths are relative to the top:

    >>> web = IgnoreFile.from_lines(["/dist"], base="web")
    >>> web.decide("web/dist").line, web.decide("dist")
    (1, None)

    A text, its lines, and a file that holds them, are told apart by the call that makes the object: `from_text`, `from_lines` and
    `from_file`. Each takes the folder `base`, and the `reading` of its lines.
    """

    __slots__ = ("_name", "_reading", "_rules", "__weakref__")
    _name: Optional[Path]
    _reading: Reading
    _rules: _library.Rules

    def __init__(self, *_: object, **__: object) -> None:
        raise TypeError(
            "IgnoreFile(..) can't tell a path from a text: IgnoreFile.from_file(path) reads a file, IgnoreFile.from_text(text) a "
            "text, IgnoreFile.from_lines(lines) lines"
        )

    @classmethod
    def from_text(
        cls, text: Text, base: Path = "", name: Optional[Path] = None, reading: Reading = Reading.GIT
    ) -> "IgnoreFile":
        r"""The file that holds a text.

        >>> len(IgnoreFile.from_text("*.o\n\n*.a"))
        2

        Args:
            text: the bytes of the file.
            base: the folder that the file lies in, from the top of the tree.
            name: what the file is called, for whoever asks where a line stands.
            reading: whose reading of its lines counts.

        Raises:
            TypeError: `text` is a path's object or another one that is no text, or the reading is none.
            ValueError: `base` begins with a slash, or has two in a row.
            UnicodeEncodeError: a `str` is one that `os.fsencode` doesn't encode.
        """
        hint = "; IgnoreFile.from_file(path) reads the file at a path, IgnoreFile.from_lines(lines) lines"
        for word, it in (("base", base), ("name", name)):
            if isinstance(it, Reading):
                raise TypeError(f"the {word} is to be a path, and is {it}: a reading is given by its name, reading={it}")
        file = cls.__new__(cls)
        file._name = name
        file._reading = checked(reading)
        file._rules = _library.Rules(encoded(text, "the file's text", hint), reading, folder(base))
        file._by_folder = Files((file._rules,))
        return file

    @classmethod
    def from_lines(
        cls, lines: Iterable[Text], base: Path = "", name: Optional[Path] = None, reading: Reading = Reading.GIT
    ) -> "IgnoreFile":
        r"""The file of some lines, each with its line feed or without, as `str.splitlines` and an open file give them.

        >>> len(IgnoreFile.from_lines(["*.o\n", "", "*.a"]))
        2

        Raises:
            TypeError: `lines` is one text or a path, or has something else than texts.
            ValueError: a line has a line feed before its end.
        """
        if isinstance(lines, (str, bytes, os.PathLike)):
            raise TypeError(
                f"the lines are to be an iterable of lines, and not {lines!r:.60}; IgnoreFile.from_text(text) reads a text, "
                "IgnoreFile.from_file(path) the file at a path"
            )
        texts = []
        for line in lines:
            text = encoded(line, "a line")
            text = text[:-1] if text.endswith(b"\n") else text
            if b"\n" in text:
                raise ValueError(f"the line {text[:40]!r} has a line feed before its end")
            texts.append(text + b"\n")
        return cls.from_text(b"".join(texts), base, name, reading)

    @classmethod
    def from_file(cls, path: Path, base: Path = "", reading: Reading = Reading.GIT) -> "IgnoreFile":
        """The file at a path, which is read whole; its name is the path.

        Raises:
            OSError: it can't be read.
            TypeError: `path` is no path.
            ValueError: there is no such file, and its name has a line feed, as a text has.
        """
        if not isinstance(path, (str, bytes, os.PathLike)):
            raise TypeError(
                f"the path is to be str, bytes or os.PathLike, and no {type(path).__name__}; IgnoreFile.from_lines(lines) reads "
                "lines, also those of an open file"
            )
        try:
            with open(os.fspath(path), "rb") as opened:
                text = opened.read()
        except OSError:
            if b"\n" in os.fsencode(path):
                raise ValueError(
                    f"there is no file {os.fsencode(path)[:40]!r}; IgnoreFile.from_text(text) reads a text"
                ) from None
            raise
        return cls.from_text(text, base, path, reading)

    @property
    def base(self) -> bytes:
        """The folder that the file lies in, with a slash at its end; empty for the top."""
        return self._rules.base

    @property
    def name(self) -> Optional[Path]:
        """What the file is called."""
        return self._name

    @property
    def reading(self) -> Reading:
        """Whose reading of its lines counts."""
        return self._reading

    def _listed(self) -> Sequence["IgnoreFile"]:
        return (self,)

    def __iter__(self) -> Iterator[Tuple[int, Pattern]]:
        """Each pattern with the number of its line."""
        rules = self._rules
        return ((line, Pattern._of(rules.line(index))) for index, line in enumerate(rules.numbers))

    def __repr__(self) -> str:
        name = "" if self._name is None else f" {self._name!r}"
        return f"<IgnoreFile{name} of {len(self)} patterns, base {self.base!r}>"

    def __reduce__(self) -> Tuple[Any, ...]:
        return type(self).from_text, (self._rules.text, self.base, self._name, self._reading)


class IgnoreList(_Ignoring):
    """Several ignore files, of which a later one decides over an earlier one.

    Name them in Git's order: the excludes of the user and of the repository first, then the file at the top, then those of
    nested folders.

    >>> top = IgnoreFile.from_lines(["*.o"], name=".gitignore")
    >>> web = IgnoreFile.from_lines(["!web.o"], base="web", name="web/.gitignore")
    >>> rules = IgnoreList([top, web])
    >>> list(rules.match_files(["a.o", "web/web.o", "web/a.o"]))
    ['a.o', 'web/a.o']
    >>> rules.decide("web/web.o").file.name
    'web/.gitignore'
    """

    __slots__ = ("_files", "__weakref__")

    def __init__(self, files: Iterable[IgnoreFile]) -> None:
        self._files: Sequence[IgnoreFile] = tuple(files)
        for file in self._files:
            if not isinstance(file, IgnoreFile):
                raise TypeError(f"the files are to be IgnoreFiles, and no {type(file).__name__}")
        if len({file.reading for file in self._files}) > 1:
            raise ValueError("the files of a list are to be of one reading, and some are Reading.GIT, others Reading.CRATE")
        self._by_folder = Files([file._rules for file in self._files])

    def _listed(self) -> Sequence[IgnoreFile]:
        return self._files

    @property
    def files(self) -> Sequence[IgnoreFile]:
        """The files, in order."""
        return self._files

    def __repr__(self) -> str:
        return f"IgnoreList({list(self._files)!r})"

    def __reduce__(self) -> Tuple[Any, ...]:
        return type(self), (self._files,)

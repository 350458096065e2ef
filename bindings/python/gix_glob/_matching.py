"""The calls that ask about paths, for one ignore file and for several: by itself, in a tree, and many at a time."""

from __future__ import annotations

import os
from typing import AnyStr, Iterable, Iterator, Optional, Protocol, TypeVar, Union

from ._deciding import Files, Found
from ._decision import CheckResult, Decision
from ._texts import Path, Separators, bare, separators_of, split
from ._walking import OnError, TreeEntry, walk


class Entry(Protocol):
    """What `match_entries` asks about: a `TreeEntry`, an `os.DirEntry`, or an entry of `pathspec`."""

    @property
    def path(self) -> Path:
        """The path, from the top of the tree."""

    def is_dir(self) -> bool:
        """Whether it is a directory's."""


_P = TypeVar("_P", bound=Path)
_E = TypeVar("_E", bound=Entry)


def _several(items: Iterable[_P]) -> Iterator[_P]:
    if isinstance(items, (str, bytes, os.PathLike)):
        raise TypeError(f"the paths are to be an iterable of paths, and not the path {items!r}")
    return iter(items)


class Matching:
    """The calls that ask about paths, for one file and for several."""

    __slots__ = ("_by_folder",)
    _by_folder: Files

    def _told(self, found: Optional[Found]) -> Optional[Decision]:
        """The line of a pattern."""
        raise NotImplementedError

    def decide(self, path: Path, is_dir: bool = False, *, ignore_case: bool = False) -> Optional[Decision]:
        """The line that decides about a path by itself: the last one that matches it; None where no line does.

        What lies in an ignored folder isn't ignored by this call: ask `decide_in_tree`, as `match_files` does.

        >>> from gix_glob import IgnoreFile
        >>> rules = IgnoreFile.from_lines(["build/"])
        >>> rules.decide("build/").line, rules.decide("build"), rules.decide("build/x")
        (1, None, None)

        Args:
            path: the path, from the top of the tree; one that ends in a slash is a directory's.
            is_dir: whether it is a directory's also without a slash.
            ignore_case: whether the case of ASCII letters doesn't count.

        Raises:
            ValueError: the path is empty, begins with a slash, or has two in a row.
            UnicodeEncodeError: it is a `str` that `os.fsencode` doesn't encode. This is a ValueError, too.
        """
        text, has_slash = split(path)
        return self._told(self._by_folder.last_match(text, bool(is_dir or has_slash), bool(ignore_case)))

    def decide_in_tree(self, path: Path, is_dir: bool = False, *, ignore_case: bool = False) -> Optional[Decision]:
        """The line that decides about a path of a tree, as `git check-ignore` prints it: that of the topmost folder above the path
        that is ignored, or, where none is, that of the path itself.

        >>> from gix_glob import IgnoreFile
        >>> rules = IgnoreFile.from_lines(["build/", "!build/x"])
        >>> rules.decide_in_tree("build/x").line, rules.decide("build/x").line
        (1, 2)

        Its arguments and errors are those of `decide`.
        """
        text, has_slash = split(path)
        return self._told(self._by_folder.decide(text, bool(is_dir or has_slash), bool(ignore_case)))

    def match_file(
        self, path: Path, is_dir: bool = False, *, separators: Separators = None, ignore_case: bool = False
    ) -> bool:
        """Whether a path of a tree is ignored: by the line that `decide_in_tree` gives.

        >>> from gix_glob import IgnoreFile
        >>> IgnoreFile.from_lines(["build/"]).match_file("build/x")
        True

        Its arguments and errors are those of `decide`; `separators` are those of `match_files`.
        """
        if type(is_dir) is not bool and isinstance(is_dir, (str, bytes, list, tuple, set, frozenset)):
            raise TypeError("is_dir is to be a bool; separators are given by their name")
        text, has_slash = split(path, separators_of(separators))
        return self._by_folder.ignores(text, bool(is_dir or has_slash), bool(ignore_case))

    def match_files(
        self,
        paths: Iterable[_P],
        separators: Separators = None,
        *,
        ignore_case: bool = False,
        negate: bool = False,
    ) -> Iterator[_P]:
        """The paths that are ignored, of many paths of a tree, in their order; each as `match_file` answers.

        A path that ends in a slash is a directory's, any other one a file's. No pattern matches a path that is empty, begins with
        a slash, or has two in a row.

        >>> from gix_glob import IgnoreFile
        >>> rules = IgnoreFile.from_lines(["*.log", "!keep.log", "build/"])
        >>> list(rules.match_files(["debug.log", "keep.log", "/x.log", "build/x", "src/main.c"]))
        ['debug.log', 'build/x']
        >>> list(rules.match_files(["build\\\\x"], separators=["\\\\"]))
        ['build\\\\x']

        Args:
            paths: the paths, from the top of the tree.
            separators: what stands between the parts of a path, beside the slash. On Linux, that is nothing else.
            ignore_case: whether the case of ASCII letters doesn't count.
            negate: whether the other paths are asked for, which aren't ignored.

        Raises:
            TypeError: `paths` is one path, or no iterable; behind the paths before it, where one is no path.
            UnicodeEncodeError: behind the paths before it, where one is a `str` that `os.fsencode` doesn't encode.
        """
        others, fold, kept, ignores = separators_of(separators), bool(ignore_case), bool(negate), self._by_folder.ignores

        return (path for path in _several(paths) if ignores(*bare(path, others), fold) is not kept)

    def match_entries(
        self,
        entries: Iterable[_E],
        separators: Separators = None,
        *,
        ignore_case: bool = False,
        negate: bool = False,
    ) -> Iterator[_E]:
        """The entries that are ignored, of many, as `match_files` says of their paths. An entry that says by `is_dir()` that it
        is a directory is asked about as one. Arguments and errors are those of `match_files`."""
        others, fold, kept, ignores = separators_of(separators), bool(ignore_case), bool(negate), self._by_folder.ignores

        def is_ignored(entry: _E) -> bool:
            path, has_slash = bare(entry.path, others)
            return ignores(path, bool(has_slash or entry.is_dir()), fold)

        return (entry for entry in entries if is_ignored(entry) is not kept)

    def match_tree_entries(
        self,
        root: Union[AnyStr, "os.PathLike[AnyStr]"],
        on_error: OnError = None,
        follow_links: bool = False,
        *,
        ignore_case: bool = False,
        negate: bool = False,
    ) -> Iterator[TreeEntry[AnyStr]]:
        """The files and folders below a folder that are ignored, each folder before what it holds, in the order of their names.

        All folders are walked, also those that are ignored, and `.git`. No file of rules is read: the rules are those that are
        asked.

        Args:
            root: the folder, which is the top of the tree.
            on_error: what is called with an error of the file system, which then is passed over, or raised by what is called.
                Errors are passed over by default, but for that of the folder itself, which is raised.
            follow_links: whether links are followed, as Git doesn't: a link is then what it leads to, and a folder is walked also
                over a link, but over links only once. One that leads out of the root stays a link.
            ignore_case: whether the case of ASCII letters doesn't count.
            negate: whether the others are asked for, which aren't ignored.
        """
        return self.match_entries(walk(root, on_error, follow_links), (), ignore_case=ignore_case, negate=negate)

    def match_tree_files(
        self,
        root: Union[AnyStr, "os.PathLike[AnyStr]"],
        on_error: OnError = None,
        follow_links: bool = False,
        *,
        ignore_case: bool = False,
        negate: bool = False,
    ) -> Iterator[AnyStr]:
        """The paths of the files below a folder that are ignored, without those of folders; all else is as
        `match_tree_entries` has it."""
        files = (entry.path for entry in walk(root, on_error, follow_links) if not entry.is_dir())
        return self.match_files(files, ignore_case=ignore_case, negate=negate)

    def check_file(self, path: _P, separators: Separators = None, *, ignore_case: bool = False) -> CheckResult[_P]:
        """Whether a path of a tree is ignored, and by which of the `patterns`.

        >>> from gix_glob import IgnoreFile
        >>> IgnoreFile.from_lines(["# logs", "*.log", "!keep.log"]).check_file("keep.log")
        CheckResult(file='keep.log', include=False, index=1)

        Its arguments are those of `match_files`, its errors those of `decide`.
        """
        return self._result(path, self._by_folder.decide(*split(path, separators_of(separators)), bool(ignore_case)))

    def check_files(
        self, paths: Iterable[_P], separators: Separators = None, *, ignore_case: bool = False
    ) -> Iterator[CheckResult[_P]]:
        """The same for many paths, each as it comes. Its arguments and errors are those of `match_files`."""
        others, fold, decide = separators_of(separators), bool(ignore_case), self._by_folder.decide
        return (self._result(path, decide(*bare(path, others), fold)) for path in _several(paths))

    def _result(self, path: _P, found: Optional[Found]) -> CheckResult[_P]:
        if found is None:
            return CheckResult(path, None, None)
        files = self._by_folder
        return CheckResult(path, files.is_ignored(found), files.starts[found.file] + found.at)

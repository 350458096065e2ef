"""The files and folders below a folder, as `pathspec` walks a tree."""

from __future__ import annotations

import os
from typing import Any, AnyStr, Callable, Generic, Iterator, List, NamedTuple, Optional, Set, Tuple, Union

#: What is called with an error of the file system.
OnError = Optional[Callable[[OSError], Any]]


class TreeEntry(Generic[AnyStr]):
    """A file or folder that was found in a tree.

    Where the walk didn't follow a link, that is a link, and no folder, whatever it points to.
    """

    __slots__ = ("name", "path", "_found", "_follows")
    #: The last part of the path.
    name: AnyStr
    #: The path from the folder that was walked, without a slash at its end.
    path: AnyStr

    def __init__(self, path: AnyStr, found: "os.DirEntry[AnyStr]", follows: bool) -> None:
        self.name = found.name
        self.path = path
        self._found = found
        self._follows = follows

    def _is_followed(self, follow_links: Optional[bool]) -> bool:
        return self._follows and (follow_links is None or bool(follow_links))

    def stat(self, follow_links: Optional[bool] = None) -> os.stat_result:
        """What the system tells when it is asked first: of what a link points to that was followed, or with False of the link."""
        return self._found.stat(follow_symlinks=self._is_followed(follow_links))

    def is_dir(self, follow_links: Optional[bool] = None) -> bool:
        """Whether it is a folder; a link to one that was followed is one, too, but with False."""
        return self._found.is_dir(follow_symlinks=self._is_followed(follow_links))

    def is_file(self, follow_links: Optional[bool] = None) -> bool:
        """Whether it is a regular file; a link to one that was followed is one, too, but with False."""
        return self._found.is_file(follow_symlinks=self._is_followed(follow_links))

    def is_symlink(self) -> bool:
        """Whether it is a link."""
        return self._found.is_symlink()

    def __repr__(self) -> str:
        return f"TreeEntry({self.path!r})"


class _Level(NamedTuple):
    """A folder that the walk is in: what stands before its names, what it holds that wasn't walked yet, and whether a link led to it."""

    front: Any
    rest: Iterator[Any]
    is_linked: bool


class _Walk(Generic[AnyStr]):
    """A walk through a tree, in the order of names."""

    def __init__(self, root: AnyStr, on_error: OnError, follow_links: bool) -> None:
        self._on_error = on_error
        self._follow_links = follow_links
        self._top: AnyStr = os.path.join(os.path.realpath(root), root[:0])
        self._slash: AnyStr = self._top[-1:]
        # (the folders that were walked over links)
        self._linked: Set[Tuple[int, int]] = set()
        # (the tree's own folder is to be there, so its errors aren't passed over)
        self._levels: List[_Level] = [_Level(root[:0], iter(_listed(root)), False)]

    def entries(self) -> Iterator[TreeEntry[AnyStr]]:
        while self._levels:
            level = self._levels[-1]
            found = next(level.rest, None)
            if found is None:
                self._levels.pop()
                continue
            try:
                entry = self._entry(found, level.front + found.name)
            except OSError as error:
                self._told(error)
                continue
            if entry:
                yield entry
                if entry.is_dir():
                    self._enter(entry, found, level.is_linked or entry.is_symlink())

    def _entry(self, found: "os.DirEntry[AnyStr]", path: AnyStr) -> Optional[TreeEntry[AnyStr]]:
        """The entry; None where it is no file, folder or link."""
        follows = self._follow_links and (not found.is_symlink() or self._is_inside(found))
        is_known = found.is_dir(follow_symlinks=follows) or found.is_file(follow_symlinks=follows)
        return TreeEntry(path, found, follows) if is_known or found.is_symlink() and not follows else None

    def _is_inside(self, link: "os.DirEntry[AnyStr]") -> bool:
        """Whether a link leads to somewhere in the tree. An OSError tells that it leads nowhere."""
        link.stat()
        return os.path.join(os.path.realpath(link.path), self._top[:0]).startswith(self._top)

    def _enter(self, entry: TreeEntry[AnyStr], found: "os.DirEntry[AnyStr]", is_linked: bool) -> None:
        try:
            if is_linked:
                told = entry.stat()
                identity = told.st_dev, told.st_ino
                if identity in self._linked:
                    return
                self._linked.add(identity)
            rest = _listed(found.path)
        except OSError as error:
            self._told(error)
            return
        self._levels.append(_Level(entry.path + self._slash, iter(rest), is_linked))

    def _told(self, error: OSError) -> None:
        if self._on_error is not None:
            self._on_error(error)


def _listed(folder: AnyStr) -> List["os.DirEntry[AnyStr]"]:
    with os.scandir(folder) as found:
        return sorted(found, key=lambda entry: os.fsencode(entry.name))


def walk(
    root: Union[AnyStr, "os.PathLike[AnyStr]"], on_error: OnError = None, follow_links: Optional[bool] = False
) -> Iterator[TreeEntry[AnyStr]]:
    """What lies below a folder: each folder before what it holds, and in one the names in the order of their bytes."""
    if on_error is not None and not callable(on_error):
        raise TypeError(f"on_error is to be called with an error, and is {on_error!r}")
    return _Walk(os.fspath(root), on_error, bool(follow_links)).entries()

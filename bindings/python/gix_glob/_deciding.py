"""Which pattern decides about a path, of the ignore files on the way to it: a question is one call of the library."""

from __future__ import annotations

from itertools import accumulate
from typing import Dict, List, NamedTuple, Optional, Sequence

from ._library import Lists, Rules

#: How many lists are kept for questions to come, as a multiple of the files.
LISTS_KEPT = 64


class Found(NamedTuple):
    """A pattern that decides: the place of its file among all, and its own place in the file."""

    file: int
    at: int


class _Way(NamedTuple):
    """The files that may speak of what lies in a folder: their places among all, in order, and their patterns."""

    places: Sequence[int]
    lists: Lists


class _Folder:
    """A folder on the way to files: those that lie in it, by their places, and the folders in it that lead to others."""

    __slots__ = ("below", "places")

    def __init__(self) -> None:
        self.below: Dict[bytes, _Folder] = {}
        self.places: List[int] = []


class Files:
    """The patterns of ignore files, by the folders that the files lie in."""

    def __init__(self, rules: Sequence[Rules]) -> None:
        self._rules = rules
        #: how many patterns the files before each have
        self.starts = [0, *accumulate(len(it.numbers) for it in rules)]
        #: what is asked about all that lies in a folder, once that was asked
        self._ways: Dict[_Folder, _Way] = {}
        self._lists_kept = 0
        self._top = _Folder()
        for place, it in enumerate(rules):
            folder = self._top
            # (the library looks at the base again, and at case where it counts)
            for part in it.base.lower().split(b"/")[:-1]:
                folder = folder.below.setdefault(part, _Folder())
            folder.places.append(place)

    def _way(self, path: bytes) -> _Way:
        """The files that may speak of a path."""
        top = self._top
        if not top.below:
            return self._ways.get(top) or self._made([top])
        folders, begin, end = [top], 0, path.find(b"/")
        while end >= 0:
            below = folders[-1].below.get(path[begin:end].lower())
            if below is None:
                break
            folders.append(below)
            begin, end = end + 1, path.find(b"/", end + 1)
        while not folders[-1].places and len(folders) > 1:
            folders.pop()
        return self._ways.get(folders[-1]) or self._made(folders)

    def _made(self, folders: Sequence[_Folder]) -> _Way:
        places = sorted(place for folder in folders for place in folder.places)
        way = _Way(places, Lists([self._rules[place] for place in places]))
        # (many files above many folders would take memory for each pair)
        self._lists_kept += len(places)
        if self._lists_kept > LISTS_KEPT * len(self._rules):
            self._ways.clear()
            self._lists_kept = len(places)
        self._ways[folders[-1]] = way
        return way

    def last_match(self, path: bytes, is_dir: bool, fold: bool) -> Optional[Found]:
        """The last pattern that matches a path by itself."""
        for place in reversed(self._way(path).places):
            at = self._rules[place].last_match(path, is_dir, fold)
            if at is not None:
                return Found(place, at)
        return None

    def decide(self, path: bytes, is_dir: bool, fold: bool) -> Optional[Found]:
        """The pattern that decides about a path of a tree."""
        way = self._way(path)
        found = way.lists.decide(path, is_dir, fold)
        return Found(way.places[found[0]], found[1]) if found else None

    def ignores(self, path: bytes, is_dir: bool, fold: bool) -> bool:
        """Whether a path of a tree is ignored."""
        found = self.decide(path, is_dir, fold)
        return found is not None and self.is_ignored(found)

    def is_ignored(self, found: Found) -> bool:
        """Whether a path is ignored about which this pattern decides."""
        return not self._rules[found.file].is_negative(found.at)

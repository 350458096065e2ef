"""Which of its arguments a work tree ignores, as `git check-ignore --no-index` prints them: check_ignore.py PATH..

It is called at the top of the work tree, and reads .git/info/exclude and the .gitignore of each folder on the way to a PATH, which is
told from the top. The status is 0 where a PATH is ignored, 1 where none is, and 2 where a file can't be read.
"""

from __future__ import annotations

import os
import stat
import sys
from typing import List, Optional

from gix_glob import IgnoreFile, IgnoreList


def read(path: bytes, base: bytes = b"") -> Optional[IgnoreFile]:
    """The ignore file at a path, as that of a folder; None where there is none."""
    try:
        return IgnoreFile.from_file(path, base)
    except (FileNotFoundError, NotADirectoryError, IsADirectoryError):
        return None


def rules_for(paths: List[bytes]) -> IgnoreList:
    """The ignore files on the way to some paths. None is looked for in a folder that is ignored, which those of the folders above it
    tell."""
    rules = IgnoreList(it for it in (read(b".git/info/exclude"), read(b".gitignore")) if it is not None)
    ways = [path.split(b"/") for path in paths]
    for depth in range(1, max(map(len, ways), default=0)):
        folders = sorted({b"/".join(way[:depth]) for way in ways if len(way) > depth})
        found = (read(it + b"/.gitignore", it) for it in folders if not rules.match_file(it, is_dir=True))
        rules = IgnoreList([*rules.files, *(it for it in found if it is not None)])
    return rules


def is_folder(path: bytes) -> bool:
    """Whether a path is a folder's, by its slash or by what stands there."""
    try:
        return path.endswith(b"/") or stat.S_ISDIR(os.lstat(path).st_mode)
    except OSError:
        return False


def main(words: List[bytes]) -> int:
    paths = [word.rstrip(b"/") for word in words]
    rules = rules_for(paths)
    found = [word for word, path in zip(words, paths) if rules.match_file(path, is_dir=is_folder(word))]
    sys.stdout.buffer.write(b"".join(word + b"\n" for word in found))
    return 0 if found else 1


if __name__ == "__main__":
    try:
        sys.exit(main([os.fsencode(word) for word in sys.argv[1:]]))
    except OSError as error:
        print(f"check_ignore: {error}", file=sys.stderr)
        sys.exit(2)

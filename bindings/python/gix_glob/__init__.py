"""Glob patterns of Git's ignore and attribute files, by a library that is proved.

>>> from gix_glob import IgnoreFile
>>> rules = IgnoreFile.from_lines(["*.log", "!keep.log", "build/"])
>>> list(rules.match_files(["debug.log", "keep.log", "build/x"]))
['debug.log', 'build/x']

`IgnoreFile` and `IgnoreList` decide about paths, `Pattern` is one line, and `wildmatch` matches any text. Every object may be used
by several threads at once.

Lines and paths are `bytes`, or `str` as `os.fsencode` encodes it; paths are `os.PathLike`, too. A `str` that `os.fsdecode` has made of
bytes that are no UTF-8 (which has U+DC80 to U+DCFF in it) stands for those bytes. Any other surrogate, or on a system of another
encoding a letter that it lacks, is no name of a file: it raises UnicodeEncodeError, which is a ValueError, in every call.
"""

from ._calls import VERSION
from ._decision import CheckResult, Decision
from ._ignore import IgnoreFile, IgnoreList
from ._pattern import Mode, Pattern, PatternMode, wildmatch
from ._reading import Reading
from ._walking import TreeEntry

__all__ = [
    "CheckResult",
    "Decision",
    "IgnoreFile",
    "IgnoreList",
    "Mode",
    "Pattern",
    "PatternMode",
    "Reading",
    "TreeEntry",
    "wildmatch",
]
__version__ = VERSION

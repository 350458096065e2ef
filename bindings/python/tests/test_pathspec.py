"""Beside `pathspec` (version 0.11, Debian's python3-pathspec): the same answers, but for the differences that are named here.

`pathspec` has two classes: `GitIgnoreSpec`, and `PathSpec` with the patterns "gitwildmatch". Each row of DIFFERENCES is asked of
both. Random lists are compared with both, too: without the lines that rows speak of there is no difference; and with lines that
keep there is none after the rule of a tree is put on what `pathspec`'s own regular expressions match.
"""

import random
import unittest
import warnings

from gix_glob import IgnoreFile

try:
    import pathspec
except ImportError:
    pathspec = None

#: Reasons, each with lines, a path, and whether it is ignored here, by GitIgnoreSpec and by PathSpec; an error where one is raised.
DIFFERENCES = {
    # Git doesn't enter an ignored folder, so no line takes back what lies in it. The last match decides in PathSpec; in
    # GitIgnoreSpec a line that matches the path itself goes before one that matches a folder above it.
    "what lies in an ignored folder": [
        (["build/", "!build/x"], "build/x", True, False, False),
        (["*", "!*.py"], "a/b.py", True, False, False),
        (["?", "!**"], "c/bb/a", False, True, False),
    ],
    # a folder that is kept passes nothing on
    "what lies in a folder that is kept": [
        (["*.log", "!a/"], "a/x.log", True, True, False),
        (["a", "!b"], "b/a/c", True, False, False),
    ],
    # `a/**` matches what lies in the folder, and not the folder; `a/**/` matches the folders in it, and no file
    "a last part of two stars": [
        (["a/**"], "a/", False, True, True),
        (["a/**/"], "a/b", False, True, True),
        (["/**/"], "a/", True, False, False),
    ],
    "three stars": [(["***/b"], "x/y/b", True, False, False)],
    # [^..] is [!..], there are classes, a backslash takes the meaning off the byte behind it; a set matches no slash but may
    # hold one; one that doesn't close matches nothing, and neither does a range that is the wrong way round
    "sets": [
        (["[^a]"], "b", True, False, False),
        (["[[:digit:]]"], "7", True, False, False),
        ([r"[\]]"], "]", True, False, False),
        ([r"[\a]"], "\\", False, True, True),
        (["a[!c]b"], "a/b", False, True, True),
        (["[a/b]"], "a", True, False, False),
        (["[a"], "[a", False, True, True),
        (["[b-a]"], "a", False, "error", "error"),
    ],
    # only spaces at the end aren't read, but for one behind a backslash
    "white space in a line": [
        ([" a"], "a", False, True, True),
        ([" a"], " a", True, False, False),
        (["a\t"], "a", False, True, True),
        (["a\\ "], "a ", True, "error", "error"),
    ],
    "a byte order mark": [(["\ufeffa"], "a", True, False, False)],
    "a backslash at the end of a line or a part": [
        (["a\\"], "a", False, "error", "error"),
        (["a\\/b"], "a/b", True, "error", "error"),
    ],
    "a line that is a ! alone": [(["!"], "a", False, "error", "error")],
    # as in Git, which sees bytes, `?` and `[é]` stand for one byte
    "letters of several bytes": [
        (["?"], "é", False, True, True),
        (["[é]"], "é", False, True, True),
    ],
    "a line feed in a path": [
        (["a"], "a\n", False, True, True),
        (["a"], "x\ny/a", True, False, False),
    ],
    # a path is one below the top; pathspec takes a slash off its front
    "a path that begins with a slash": [(["a"], "/a", "error", True, True)],
}

PARTS = ("a", "b", "ab", "*", "?", "**", "a*", "*b", "[ab]", "[!a]", "a?", "**b")


def answer(make, lines, path):
    try:
        with warnings.catch_warnings():
            warnings.simplefilter("ignore")  # (`re` warns of some sets)
            return make(lines).match_file(path)
    except Exception:
        return "error"


def random_line(draw):
    parts = [draw.choice(PARTS) for _ in range(draw.choice((1, 1, 2, 2, 3)))]
    if parts[-1] == "**":
        parts[-1] = "a"  # (DIFFERENCES has these)
    return draw.choice(("", "", "/")) + "/".join(parts) + draw.choice(("", "", "/"))


def random_path(draw):
    return "/".join(draw.choice(("a", "b", "ab", "c")) for _ in range(draw.randrange(1, 5))) + draw.choice(
        ("", "", "/")
    )


def in_tree(patterns, path):
    """Whether a path is ignored by Git's rule for trees, where a pattern matches as pathspec's regular expression does."""
    ends = [at for at, letter in enumerate(path) if letter == "/" and at + 1 < len(path)]
    for end in ends:
        if by_itself(patterns, path[: end + 1]):
            return True
    return by_itself(patterns, path)


def by_itself(patterns, path):
    for pattern in reversed(patterns):
        found = pattern.include is not None and pattern.regex.match(path)
        # the group stands where the folder ends whose content matches
        if found and found.end("ps_d") in (-1, len(path)):
            return pattern.include
    return False


@unittest.skipUnless(pathspec, "pathspec is left out: it isn't installed (Debian's package is python3-pathspec)")
class BesidePathspec(unittest.TestCase):
    def setUp(self):
        self.makers = (
            pathspec.GitIgnoreSpec.from_lines,
            lambda lines: pathspec.PathSpec.from_lines("gitwildmatch", lines),
        )
        self.is_known = pathspec.__version__.startswith("0.11.")

    def test_differences(self):
        for reason, rows in DIFFERENCES.items():
            for lines, path, here, *theirs in rows:
                with self.subTest(reason, lines=lines, path=path):
                    self.assertEqual(answer(IgnoreFile.from_lines, lines, path), here)
                    if self.is_known:
                        self.assertEqual([answer(make, lines, path) for make in self.makers], theirs)

    def test_lists_without_lines_that_keep(self):
        draw = random.Random(1)
        for _ in range(3000):
            lines, paths = [random_line(draw) for _ in range(draw.randrange(4))], [random_path(draw) for _ in range(10)]
            here = list(IgnoreFile.from_lines(lines).match_files(paths))
            for make in self.makers:
                self.assertEqual(list(make(lines).match_files(paths)), here, (lines, paths))

    def test_lists_with_lines_that_keep(self):
        draw = random.Random(2)
        different = 0
        for _ in range(3000):
            lines = [draw.choice(("", "", "!")) + random_line(draw) for _ in range(draw.randrange(2, 5))]
            paths = [random_path(draw) for _ in range(10)]
            here = list(IgnoreFile.from_lines(lines).match_files(paths))
            theirs = self.makers[0](lines)
            different += list(theirs.match_files(paths)) != here
            self.assertEqual([path for path in paths if in_tree(theirs.patterns, path)], here, (lines, paths))
        self.assertGreater(different, 100)

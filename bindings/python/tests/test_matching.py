"""Many paths, entries and trees, as `pathspec` asks about them; beside `pathspec` itself where it is there."""

import os
import pathlib
import random
import sys
import tempfile
import unittest

from gix_glob import CheckResult, IgnoreFile, IgnoreList, Reading, TreeEntry

try:
    import pathspec
except ImportError:
    pathspec = None

#: Paths that aren't below the top, or not as patterns ask about them.
NOT_PLAIN = ("", "/", "./", "/a", "//", "a//b", "a//", b"/a", b"", ".//a")


class Files(unittest.TestCase):
    def test_what_is_no_plain_path_is_passed_over(self):
        rules = IgnoreFile.from_text("*\n!keep")
        for path in NOT_PLAIN:
            with self.subTest(path=path):
                self.assertEqual(list(rules.match_files(["a", path, "keep", "b"])), ["a", "b"])
                self.assertEqual(list(rules.match_files(["a", path, "keep", "b"], negate=True)), [path, "keep"])
                found = list(rules.check_files([path, "b"]))
                self.assertEqual(found, [CheckResult(path, None, None), CheckResult("b", True, 0)])
                with self.assertRaisesRegex(ValueError, "is no path"):
                    rules.check_file(path)
        paths = [draw for at in range(20000) for draw in (f"d{at}/x", "/", "keep")]
        self.assertEqual(list(rules.match_files(paths)), paths[::3])

    def test_what_is_no_path_is_raised_behind_the_others(self):
        def paths():
            yield "a"
            raise KeyError("mine")

        rules = IgnoreFile.from_text("*")
        for given, error in ((["a", 1, "b"], TypeError), (["a", None], TypeError), (paths(), KeyError)):
            found = rules.match_files(given)
            self.assertEqual(next(found), "a")
            with self.assertRaises(error):
                next(found)

    def test_separators(self):
        rules = IgnoreFile.from_text("build/\n/a/b\n")
        for separators in (["\\"], "\\", ("\\", "/"), {b"\\"}, iter(["\\"]), ["\\", "|"]):
            paths = ["build\\x", b"build\\x", "a\\b", "x\\build\\", "build", ".\\a\\b", "\\a\\b"]
            with self.subTest(separators=separators):
                self.assertEqual(list(rules.match_files(paths, separators)), [*paths[:4], ".\\a\\b"])
        self.assertEqual(list(rules.match_files(["a|b", "a\\b"], ["|", "\\"])), ["a|b", "a\\b"])
        windows = [pathlib.PureWindowsPath("build/x")]
        self.assertEqual(list(rules.match_files(windows, ["\\"])), windows)
        # (Linux has none but the slash)
        for separators in (None, (), ["/"]):
            self.assertEqual(list(rules.match_files(["build\\x", "a\\b", "a/b"], separators)), ["a/b"])
        self.assertTrue(rules.match_file("a\\b", separators=["\\"]))
        self.assertFalse(rules.match_file("a\\b"))
        self.assertEqual(rules.check_file("a\\b", ["\\"]), CheckResult("a\\b", True, 1))
        with self.assertRaisesRegex(TypeError, "by their name"):
            rules.match_file("a\\b", ["\\"])
        with self.assertRaisesRegex(ValueError, "empty"):
            rules.match_files([], [""])
        with self.assertRaises(TypeError):
            rules.match_files([], b"\\")

    def test_negated(self):
        rules = IgnoreFile.from_text("*.o\n!keep.o\nd/")
        paths = ["a.o", "keep.o", "a.c", "d/x", "d/", "d"]
        self.assertEqual(list(rules.match_files(paths)), ["a.o", "d/x", "d/"])
        self.assertEqual(list(rules.match_files(paths, negate=True)), ["keep.o", "a.c", "d"])
        self.assertEqual(list(rules.match_files(["A.O", "b.o"], ignore_case=True, negate=True)), [])


class Checks(unittest.TestCase):
    def test_places(self):
        one, two = IgnoreFile.from_lines(["#", "*.o", "!a.o"]), IgnoreFile.from_lines(["b.o", "*.c"], "web")
        rules = IgnoreList([one, two, one])
        rows = (("x.o", True, 4), ("a.o", False, 5), ("web/x.c", True, 3), ("x.c", None, None), ("web/b.o", True, 4))
        for path, include, index in rows:
            result = rules.check_file(path)
            self.assertEqual((result.file, result.include, result.index), (path, include, index))
            if index is not None:
                self.assertEqual(rules.patterns[index], rules.decide_in_tree(path).pattern)
                self.assertEqual(rules.patterns[index].is_negative, not include)
        self.assertEqual(list(rules.check_files(row[0] for row in rows)), [CheckResult(*row) for row in rows])

    def test_below_an_ignored_folder(self):
        rules = IgnoreFile.from_lines(["!build/x", "build/", "!build/y"])
        self.assertEqual(rules.check_file("build/y"), CheckResult("build/y", True, 1))


class Tree(unittest.TestCase):
    def setUp(self):
        made = tempfile.TemporaryDirectory()
        self.addCleanup(made.cleanup)
        self.top = made.name
        for path in ("b/x.o", "b/keep.o", "b/d/y.c", "a.o", "a.c", "build/z.c", "build/deep/z.c", ".git/HEAD"):
            self.write(path)
        os.symlink("../a.c", self.path("b/link.o"))
        os.symlink("b", self.path("build2"))
        os.symlink("missing", self.path("broken.o"))
        self.rules = IgnoreFile.from_text("*.o\n!keep.o\nbuild/\nbuild2/\n")

    def path(self, path):
        return os.path.join(self.top, path)

    def write(self, path):
        os.makedirs(os.path.dirname(self.path(path)), exist_ok=True)
        open(self.path(path), "wb").close()

    def test_files(self):
        ignored = ["a.o", "b/link.o", "b/x.o", "build/deep/z.c", "build/z.c"]
        below_link = ["build2/d/y.c", "build2/keep.o", "build2/link.o", "build2/x.o"]
        for top in (self.top, pathlib.Path(self.top)):
            # `broken.o` leads to no file
            self.assertEqual(list(self.rules.match_tree_files(top, follow_links=True)), ignored + below_link)
            for words in ({}, {"follow_links": False}, {"follow_links": None}):
                found = list(self.rules.match_tree_files(top, **words))
                self.assertEqual(found, ["a.o", "b/link.o", "b/x.o", "broken.o", "build/deep/z.c", "build/z.c"])
            kept = list(self.rules.match_tree_files(top, negate=True))
            self.assertEqual(kept, [".git/HEAD", "a.c", "b/d/y.c", "b/keep.o", "build2"])
        found = list(self.rules.match_tree_files(os.fsencode(self.top), follow_links=True))
        self.assertEqual(found, [os.fsencode(path) for path in ignored + below_link])

    def test_entries(self):
        found = list(self.rules.match_tree_entries(self.top))
        paths = ["a.o", "b/link.o", "b/x.o", "broken.o", "build", "build/deep", "build/deep/z.c", "build/z.c"]
        self.assertEqual([entry.path for entry in found], paths)
        self.assertEqual([entry.path for entry in found if entry.is_dir()], ["build", "build/deep"])
        link = found[1]
        self.assertIs(type(link), TreeEntry)
        self.assertEqual((link.name, link.is_symlink(), link.is_file()), ("link.o", True, False))
        self.assertEqual(repr(link), "TreeEntry('b/link.o')")
        found = self.rules.match_tree_entries(self.top, follow_links=True)
        followed = next(entry for entry in found if entry.path == "build2")
        self.assertEqual((followed.is_dir(), followed.is_dir(False), followed.is_symlink()), (True, False, True))
        self.assertNotEqual(followed.stat(), followed.stat(follow_links=False))
        self.assertEqual(followed.stat().st_ino, os.stat(self.path("b")).st_ino)

    def test_entries_of_others(self):
        with os.scandir(self.top) as found:
            names = sorted(entry.name for entry in self.rules.match_entries(map(Inside, found)))
        # (os.DirEntry follows links)
        self.assertEqual(names, ["a.o", "broken.o", "build", "build2"])
        with os.scandir(self.top) as found:
            names = sorted(entry.name for entry in self.rules.match_entries(map(Inside, found), negate=True))
        self.assertEqual(names, [".git", "a.c", "b"])

    def test_entries_of_scandir(self):
        before = os.getcwd()
        os.chdir(self.top)
        try:
            with os.scandir("b") as found:
                names = sorted(entry.name for entry in self.rules.match_entries(found))
        finally:
            os.chdir(before)
        self.assertEqual(names, ["link.o", "x.o"])

    def test_errors(self):
        with self.assertRaises(FileNotFoundError):
            self.rules.match_tree_files(self.path("none"))
        with self.assertRaises(NotADirectoryError):
            self.rules.match_tree_files(self.path("a.c"))
        with self.assertRaisesRegex(TypeError, "on_error"):
            self.rules.match_tree_files(self.top, "raise")
        errors = []
        list(self.rules.match_tree_files(self.top, errors.append))
        self.assertEqual(errors, [])
        list(self.rules.match_tree_files(self.top, errors.append, True))
        self.assertEqual([(type(it), it.filename) for it in errors], [(FileNotFoundError, self.path("broken.o"))])

        def fail(error):
            raise error

        with self.assertRaises(FileNotFoundError):
            list(self.rules.match_tree_files(self.top, fail, True))

    @unittest.skipIf(os.geteuid() == 0, "a folder that may not be read is left out: root may read all")
    def test_a_folder_that_may_not_be_read(self):
        os.chmod(self.path("b"), 0)
        self.addCleanup(os.chmod, self.path("b"), 0o700)
        errors = []
        found = list(self.rules.match_tree_files(self.top, errors.append))
        self.assertEqual(found, ["a.o", "broken.o", "build/deep/z.c", "build/z.c"])
        self.assertEqual([type(it) for it in errors], [PermissionError])

    def test_links_to_a_folder_above(self):
        os.symlink("..", self.path("b/d/up"))
        # (over links, `b` and `b/d` are walked where a link leads there first)
        found = list(IgnoreFile.from_text("b/").match_tree_files(self.top, follow_links=True))
        below = ["b/d/up/d/y.c", "b/d/up/keep.o", "b/d/up/link.o", "b/d/up/x.o"]
        self.assertEqual(found, [*below, "b/d/y.c", "b/keep.o", "b/link.o", "b/x.o"])

    def test_links_out_of_the_tree(self):
        os.symlink("..", self.path("b/d/top"))
        os.symlink("../x.o", self.path("b/d/file"))
        root = self.path("b/d")
        os.symlink("d", self.path("b/other"))
        for top in (root, self.path("b/other")):
            found = list(IgnoreFile.from_text("*").match_tree_entries(top, follow_links=True))
            links = [(path, False, False, True) for path in ("file", "top")]
            told = [(it.path, it.is_dir(), it.is_file(), it.is_symlink()) for it in found]
            self.assertEqual(told, [*links, ("y.c", False, True, False)])

    def test_links_are_walked_in_proportion(self):
        # (each folder leads to the next one over two links, so over links there are 2^levels ways to the last)
        for levels in (16, 32):
            top = os.path.join(self.top, f"ladder{levels}")
            for level in range(levels + 1):
                os.makedirs(os.path.join(top, f"d{level:02}"))
            for level in range(levels):
                for name in ("a", "b"):
                    os.symlink(f"../d{level + 1:02}", os.path.join(top, f"d{level:02}", name))
            found = list(IgnoreList([]).match_tree_entries(top, negate=True))
            self.assertEqual(len(found), 3 * levels + 1)
            # (each folder but the first is walked once more)
            found = list(IgnoreList([]).match_tree_entries(top, follow_links=True, negate=True))
            self.assertEqual(len(found), 3 * levels + 1 + 2 * (levels - 1))

    def test_a_deep_tree(self):
        deep = "d/" * 400 + "x.o"
        self.write(deep)
        limit = sys.getrecursionlimit()
        sys.setrecursionlimit(300)
        try:
            found = list(self.rules.match_tree_files(self.top))
        finally:
            sys.setrecursionlimit(limit)
        self.assertIn(deep, found)

    @unittest.skipUnless(pathspec, "pathspec is left out: it isn't installed (Debian's package is python3-pathspec)")
    def test_beside_pathspec(self):
        theirs = pathspec.GitIgnoreSpec.from_lines(["*.o", "!keep.o", "build/", "build2/"])
        for follow in (True, False):
            # (it leaves out a link that leads nowhere, also where links aren't followed; here what lies in an ignored folder is
            # ignored)
            here = {it for it in self.rules.match_tree_files(self.top, follow_links=follow) if it != "broken.o"}
            self.assertEqual(here - {"build2/keep.o"}, set(theirs.match_tree_files(self.top, follow_links=follow)))
        entries = list(pathspec.util.iter_tree_entries(self.top))
        self.assertEqual(
            sorted(it.path for it in self.rules.match_entries(entries)),
            sorted(it.path for it in self.rules.match_tree_entries(self.top, follow_links=True)),
        )


class Inside:
    """An entry of a folder, with its path from there."""

    def __init__(self, entry):
        self._entry = entry
        self.name = self.path = entry.name

    def is_dir(self):
        return self._entry.is_dir()


@unittest.skipUnless(pathspec, "pathspec is left out: it isn't installed (Debian's package is python3-pathspec)")
class BesidePathspec(unittest.TestCase):
    """What `pathspec` calls the same does the same, where both decide alike."""

    LINES = ["*.o", "build/", "/a/b"]

    def setUp(self):
        self.here = IgnoreFile.from_lines(self.LINES, reading=Reading.GIT)
        self.theirs = pathspec.GitIgnoreSpec.from_lines(self.LINES)

    def test_separators(self):
        draw = random.Random(1)
        parts, ends = ("a", "b", "build", "x.o", "c"), ("", "/", "\\")
        for _ in range(300):
            middles = [draw.choice(("/", "\\")).join(draw.choices(parts, k=3)) for _ in range(5)]
            paths = [draw.choice(("", "./", ".\\")) + middle + draw.choice(ends) for middle in middles]
            for separators in (None, [], ["\\"], "\\", ("/", "\\")):
                found = list(self.here.match_files(paths, separators))
                self.assertEqual(found, list(self.theirs.match_files(paths, separators)), (paths, separators))

    def test_numbers_sums_and_equality(self):
        make = (IgnoreFile.from_lines, pathspec.GitIgnoreSpec.from_lines)
        for lines in ([], ["a"], ["a", "!b"], ["a", "b/", "a"]):
            for others in ([], ["a"], ["b/", "a"]):
                told = []
                for it in make:
                    one, other = it(lines), it(others)
                    both = one + other
                    equal = [both == it(them) for them in (lines + others, others + lines)]
                    told.append((len(one), len(both), one == other, equal))
                self.assertEqual(*told, (lines, others))

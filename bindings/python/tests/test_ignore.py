"""Ignore files and lists of them, where no row of crates/rows/data asks which line decides."""

import copy
import io
import os
import pathlib
import pickle
import random
import tempfile
import tracemalloc
import unittest

from gix_glob import IgnoreFile, IgnoreList, Pattern, Reading, _deciding


def place(decision):
    """What decides, as (name, line, whether the path is ignored)."""
    return None if decision is None else (decision.file.name, decision.line, decision.is_ignored)


def random_list(draw):
    """Some files with lines of all kinds, which lie in folders of a small tree."""
    files = []
    for number in range(draw.randrange(1, 5)):
        lines = [
            draw.choice(("", "", "!", "/", "!/"))
            + "/".join(draw.choice(("a", "b", "A", "*", "?", "**", "a*")) for _ in range(draw.choice((1, 1, 2, 3))))
            + draw.choice(("", "", "/"))
            for _ in range(draw.randrange(4))
        ]
        base = "/".join(draw.choice("abA") for _ in range(draw.choice((0, 0, 1, 2))))
        files.append(IgnoreFile.from_lines(lines, base, str(number)))
    return IgnoreList(files)


def plainly(rules, path, is_dir, fold):
    """The line that decides about a path by itself, by each pattern in turn."""
    decides = None
    for file in rules.files:
        front, rest = path[: len(file.base)], path[len(file.base) :]
        if (front.lower() == file.base.lower() if fold else front == file.base) and rest:
            for line, pattern in file:
                if pattern.matches_path(rest, is_dir, ignore_case=fold):
                    decides = (file.name, line, not pattern.is_negative)
    return decides


def plainly_in_tree(rules, path, is_dir, fold):
    """The same for a path of a tree: the topmost folder that is ignored decides."""
    for end in range(len(path)):
        if path[end : end + 1] == b"/":
            above = plainly(rules, path[:end], True, fold)
            if above and above[2]:
                return above
    return plainly(rules, path, is_dir, fold)


class TwoReadings(unittest.TestCase):
    """What Git reads otherwise than the crate does."""

    ROWS = (
        # text, path, whether it is a folder, whether case doesn't count, the line that decides by the crate's reading, and by Git's
        ("a**/b\n", "ax/y/b", False, False, None, 1),
        ("[A].o\n", "a.o", False, True, 1, None),
        ("\\A\n", "a", False, True, 1, None),
        ("\\a\n", "A", False, True, 1, 1),
        ("x\r", "x", False, False, None, 1),
        ("a\0b\n", "a", False, False, None, 1),
    )

    def test_files(self):
        for text, path, is_dir, fold, by_crate, by_git in self.ROWS:
            for reading, line in ((Reading.CRATE, by_crate), (Reading.GIT, by_git)):
                with self.subTest(text=text, path=path, reading=reading):
                    file = IgnoreFile.from_text(text, reading=reading)
                    for rules in (file, IgnoreList([file]), pickle.loads(pickle.dumps(file))):
                        found = rules.decide_in_tree(path, is_dir, ignore_case=fold)
                        self.assertEqual(None if found is None else found.line, line)

    def test_git_where_none_is_told(self):
        for file in (IgnoreFile.from_text("a**/b"), IgnoreFile.from_lines(["a**/b"])):
            self.assertIs(file.reading, Reading.GIT)
            self.assertTrue(file.match_file("ax/y/b"))
        self.assertIs(Pattern("a**/b").reading, Reading.GIT)
        with tempfile.NamedTemporaryFile() as file:
            self.assertIs(IgnoreFile.from_file(file.name).reading, Reading.GIT)

    def test_a_list_is_of_one_reading(self):
        by_git, by_crate = IgnoreFile.from_text("a"), IgnoreFile.from_text("a", reading=Reading.CRATE)
        for make in (lambda: IgnoreList([by_git, by_crate]), lambda: by_crate + by_git):
            with self.assertRaisesRegex(ValueError, "of one reading"):
                make()
        self.assertTrue((by_crate + by_crate).match_file("a"))

    def test_a_reading_in_the_place_of_another_word(self):
        for word, words in (("base", [Reading.GIT]), ("name", ["", Reading.GIT])):
            for make in (IgnoreFile.from_text, lambda it, *words: IgnoreFile.from_lines([it], *words)):
                with self.subTest(word=word), self.assertRaisesRegex(TypeError, f"the {word} .*reading=Reading.GIT"):
                    make("a", *words)
        with tempfile.NamedTemporaryFile() as file, self.assertRaisesRegex(TypeError, "the base .*reading=Reading.GIT"):
            IgnoreFile.from_file(file.name, Reading.GIT)

    def test_other_values_are_no_reading(self):
        for call in (lambda it: IgnoreFile.from_text("a", reading=it), lambda it: Pattern("a", it)):
            for it in ("git", None, 1, True):
                with self.subTest(it=it), self.assertRaisesRegex(TypeError, "Reading.GIT"):
                    call(it)

    def test_patterns(self):
        for reading, matches in ((Reading.CRATE, False), (Reading.GIT, True)):
            pattern = Pattern("a**/b", reading)
            self.assertIs(pattern.reading, reading)
            self.assertIs(pattern.matches_path("ax/y/b"), matches)
        self.assertEqual(Pattern("", Reading.GIT).text, b"")


class Deciding(unittest.TestCase):
    def test_directories_are_told_in_two_ways(self):
        rules = IgnoreFile.from_text("*.log\n!keep.log\nbuild/\n")
        self.assertIsNone(rules.decide("build"))
        self.assertEqual(rules.decide("build/"), rules.decide("build", True))
        self.assertEqual(rules.decide("build", is_dir=True).pattern, Pattern("build/"))
        self.assertEqual(rules.decide(pathlib.PurePath("build/"), True).line, 3)
        self.assertTrue(rules.decide("debug.log").is_ignored)
        self.assertFalse(rules.decide("keep.log").is_ignored)

    def test_files_are_told(self):
        top, web = IgnoreFile.from_text("*.o\n", name="1"), IgnoreFile.from_text("!web.o\n", "web", "2")
        for rules in (IgnoreList([top, web]), IgnoreList(iter((top, web)))):
            self.assertEqual(place(rules.decide("web/web.o")), ("2", 1, False))
            self.assertEqual(place(rules.decide("web/a.o")), ("1", 1, True))
            self.assertEqual(rules.files, (top, web))

    def test_bases_are_written_in_several_ways(self):
        for base in ("web", "web/", b"web", b"./web/", pathlib.PurePath("web")):
            with self.subTest(base=base):
                file = IgnoreFile.from_text("/dist", base)
                self.assertEqual(file.base, b"web/")
                self.assertTrue(file.match_file("web/dist"))
                self.assertFalse(file.match_file("webdist"))
                self.assertFalse(file.match_file("WEB/dist"))
                self.assertTrue(file.match_file("WEB/dist", ignore_case=True))
        for base in ("", ".", "./", b"", pathlib.PurePath("")):
            self.assertEqual(IgnoreFile.from_text("/dist", base).base, b"")
        for base in ("/web", "a//b", "web//"):
            with self.subTest(base=base), self.assertRaises(ValueError):
                IgnoreFile.from_text("/dist", base)

    def test_match_files_yields_what_it_was_given(self):
        rules = IgnoreFile.from_text("build/\n*.o")
        paths = ["a.o", b"a.o", pathlib.PurePath("build/x"), "build", "build/", "a.c", "./build/x", "./a.o"]
        found = list(rules.match_files(paths))
        self.assertEqual(found, [paths[at] for at in (0, 1, 2, 4, 6, 7)])
        self.assertTrue(all(any(one is other for other in paths) for one in found))
        self.assertEqual(list(rules.match_files([])), [])
        # also without an end
        self.assertEqual(next(rules.match_files(iter(lambda: "a.o", None))), "a.o")
        self.assertEqual(list(rules.match_files(["A.O", "BUILD/x"])), [])
        self.assertEqual(list(rules.match_files(["A.O", "BUILD/x"], ignore_case=True)), ["A.O", "BUILD/x"])

    def test_random_lists_and_paths(self):
        draw = random.Random(1)
        kinds = set()
        for _ in range(1000):
            rules, fold = random_list(draw), draw.random() < 0.3
            paths = [
                "/".join(draw.choice("abA") for _ in range(draw.randrange(1, 5))) + draw.choice(("", "/"))
                for _ in range(12)
            ]
            wanted = []
            for path in paths:
                text, is_dir = path.rstrip("/").encode(), path.endswith("/")
                alone, in_tree = plainly(rules, text, is_dir, fold), plainly_in_tree(rules, text, is_dir, fold)
                self.assertEqual(place(rules.decide(path, ignore_case=fold)), alone)
                self.assertEqual(place(rules.decide_in_tree(path, ignore_case=fold)), in_tree)
                kinds.add((alone and alone[2], in_tree and in_tree[2], alone == in_tree))
                wanted += [path] if in_tree and in_tree[2] else []
            self.assertEqual(list(rules.match_files(paths, ignore_case=fold)), wanted)
        self.assertEqual(len(kinds), 6, kinds)

    def test_a_long_path_takes_little_memory(self):
        rules = IgnoreList([IgnoreFile.from_text("y"), IgnoreFile.from_text("x", "d/d")])
        for count in (1 << 15, 1 << 16):
            path = "d/" * count + "x"
            tracemalloc.start()
            try:
                self.assertTrue(rules.match_file(path))
                self.assertEqual(list(rules.match_files([path])), [path])
                # (some copies of the path, and nothing for each of its folders)
                self.assertLess(tracemalloc.get_traced_memory()[1], 10 * len(path))
            finally:
                tracemalloc.stop()

    def test_files_one_below_the_other(self):
        bases = ["d/" * depth for depth in range(200)]
        rules = IgnoreList([IgnoreFile.from_text("x%d" % (at % 7), base, str(at)) for at, base in enumerate(bases)])
        self.assertEqual(rules.decide_in_tree("d/" * 100 + "x1").file.name, "99")
        self.assertEqual(rules.decide("D/" * 20 + "x3", ignore_case=True).file.name, "17")
        self.assertIsNone(rules.decide("D/" * 20 + "x3"))
        # (each folder has as many files above it as it is deep, and a few of them are kept)
        for depth in range(1, 200):
            self.assertEqual(rules.decide_in_tree("d/" * depth + "x%d" % (depth % 7)).file.name, str(depth))
        kept = sum(len(way.places) for way in rules._by_folder._ways.values())
        self.assertLessEqual(kept, _deciding.LISTS_KEPT * len(bases))


class Constructors(unittest.TestCase):
    """A text, lines and a file each have a call of their own, and the wrong one tells the right one."""

    def test_the_class_itself_makes_none(self):
        for words in ((), (".gitignore",), (b"*.o\n",), (pathlib.Path("x"),), (["*.o"],)):
            with self.subTest(words=words), self.assertRaisesRegex(TypeError, "from_file.*from_text.*from_lines"):
                IgnoreFile(*words)
        with self.assertRaisesRegex(TypeError, "from_text"):
            IgnoreFile(text="*.o", base="web")

    def test_no_text(self):
        for it in (pathlib.Path(".gitignore"), ["*.o"], io.BytesIO(b"*.o"), None):
            with self.subTest(it=it), self.assertRaisesRegex(TypeError, r"from_file\(path\).*from_lines\(lines\)"):
                IgnoreFile.from_text(it)

    def test_no_lines(self):
        for it in ("*.o\n", b"*.o", pathlib.Path(".gitignore")):
            with self.subTest(it=it), self.assertRaisesRegex(TypeError, r"from_text\(text\).*from_file\(path\)"):
                IgnoreFile.from_lines(it)

    def test_no_path(self):
        for it in (["*.o"], io.BytesIO(b"*.o"), 0, None):
            with self.subTest(it=it), self.assertRaisesRegex(TypeError, r"from_lines\(lines\)"):
                IgnoreFile.from_file(it)
        # (the last name is longer than a file's can be)
        for it in ("*.o\n!a.o\n", b"*.o\n", "*.o\n" * 100000):
            with self.subTest(it=it[:20]), self.assertRaisesRegex(ValueError, r"no file.*from_text\(text\)"):
                IgnoreFile.from_file(it)
        with self.assertRaises(FileNotFoundError):
            IgnoreFile.from_file("there is no such file")

    def test_a_file_whose_name_has_a_line_feed(self):
        with tempfile.TemporaryDirectory() as top:
            name = os.path.join(top, "a\nb")
            with open(name, "wb") as file:
                file.write(b"*.o")
            self.assertEqual(len(IgnoreFile.from_file(name)), 1)


class Rules(unittest.TestCase):
    """Patterns, numbers of them, sums and equality, as `pathspec` has them."""

    def test_patterns(self):
        one, two = IgnoreFile.from_lines(["*.o", "", "# x", "!a.o"]), IgnoreFile.from_lines(["/b/"], "web")
        self.assertEqual(one.patterns, (Pattern("*.o"), Pattern("!a.o")))
        both = IgnoreList([one, two])
        self.assertEqual(both.patterns, (*one.patterns, Pattern("/b/")))
        self.assertEqual((len(one), len(both), len(IgnoreList([]))), (2, 3, 0))
        self.assertTrue(IgnoreList([]) and IgnoreFile.from_text(""))

    def test_equality(self):
        one = IgnoreFile.from_lines(["*.o", "!a.o"], "web", "name")
        same = IgnoreFile.from_text("# other\n*.o\n\n!a.o", "./web/", "other name")
        parts = IgnoreList([IgnoreFile.from_text("*.o", "web"), IgnoreFile.from_text("!a.o", "web")])
        for other in (one, same, parts, IgnoreList([one]), pickle.loads(pickle.dumps(one))):
            self.assertTrue(one == other and other == one and not one != other)
            self.assertEqual(hash(one), hash(other))
        others = [
            IgnoreFile.from_lines(["*.o", "!a.o"]),
            IgnoreFile.from_lines(["!a.o", "*.o"], "web"),
            IgnoreFile.from_lines(["*.o"], "web"),
            IgnoreFile.from_lines(["*.o", "!a.o/"], "web"),
            IgnoreFile.from_lines(["*.o", "!a.o"], "web", reading=Reading.CRATE),
            IgnoreList([one, one]),
            IgnoreFile.from_text(""),
        ]
        for other in others:
            self.assertFalse(one == other or other == one)
        self.assertEqual(len({one, same, parts, *others}), 1 + len(others))
        self.assertNotEqual(one, "*.o")
        self.assertEqual(IgnoreFile.from_text("", "a"), IgnoreList([]))

    def test_sums(self):
        one, two = IgnoreFile.from_lines(["*.o"], name="1"), IgnoreFile.from_lines(["!a.o"], "web", "2")
        both = one + two
        self.assertIs(type(both), IgnoreList)
        self.assertEqual(both.files, (one, two))
        self.assertEqual(place(both.decide("web/a.o")), ("2", 1, False))
        for other in (IgnoreList([one]) + two, one + IgnoreList([two]), IgnoreList([one]) + IgnoreList([two])):
            self.assertEqual(other.files, (one, two))
        rules = one
        rules += two
        self.assertEqual((rules, one.patterns), (both, (Pattern("*.o"),)))
        for it in (None, "*.o", ["*.o"], Pattern("*.o")):
            with self.assertRaises(TypeError):
                one + it

    def test_a_decision_that_keeps_is_false(self):
        rules = IgnoreFile.from_lines(["*.o", "!a.o"])
        ignored, kept = rules.decide("b.o"), rules.decide_in_tree("a.o")
        self.assertTrue(ignored)
        self.assertFalse(kept)
        self.assertIsNotNone(kept)
        self.assertEqual((kept.line, kept.is_ignored), (2, False))
        for fold in (False, True):
            self.assertEqual(bool(rules.decide("a.o", ignore_case=fold)), rules.match_file("a.o", ignore_case=fold))


class Lines(unittest.TestCase):
    def test_lines_and_texts(self):
        text = b"\xef\xbb\xbf*.o  \r\n\n# x\n a\\ \n!b\t\n\\#c"
        wanted = [(1, b"*.o"), (4, b" a\\ "), (5, b"b\t"), (6, b"\\#c")]
        for lines in (
            text.split(b"\n"),
            text.splitlines(),
            text.splitlines(True),
            io.BytesIO(text),
            iter(text.split(b"\n")),
        ):
            self.assertEqual([(line, it.text) for line, it in IgnoreFile.from_lines(lines)], wanted)
        self.assertEqual([(line, it.text) for line, it in IgnoreFile.from_text(text)], wanted)
        self.assertEqual(list(IgnoreFile.from_lines(text.decode().split("\n"))), list(IgnoreFile.from_text(text)))
        with self.assertRaisesRegex(ValueError, "line feed"):
            IgnoreFile.from_lines(["a\nb"])
        with self.assertRaisesRegex(ValueError, "line feed"):
            IgnoreFile.from_lines(["a\n\n"])

    def test_files(self):
        with tempfile.TemporaryDirectory() as top:
            name = os.path.join(top, "x.ignore")
            with open(name, "wb") as file:
                file.write(b"*.o\r\n\xff")
            for path in (name, os.fsencode(name), pathlib.Path(name)):
                rules = IgnoreFile.from_file(path, "d")
                self.assertEqual((len(rules), rules.name, rules.base), (2, path, b"d/"))
                self.assertIn("x.ignore", repr(rules))
            with open(name, "rb") as file:
                self.assertEqual(list(IgnoreFile.from_lines(file)), list(rules))
            with self.assertRaises(FileNotFoundError):
                IgnoreFile.from_file(name + ".none")
            with self.assertRaises(IsADirectoryError):
                IgnoreFile.from_file(top)

    def test_copies(self):
        file = IgnoreFile.from_text("*.o\n#\n!a.o", "d", "name")
        rules = IgnoreList([file, IgnoreFile.from_text("")])
        for other in (copy.deepcopy(rules), pickle.loads(pickle.dumps(rules))):
            self.assertEqual(place(other.decide("d/a.o")), ("name", 3, False))
        for other in (copy.copy(file), pickle.loads(pickle.dumps(file))):
            self.assertEqual((list(other), other.base, other.name), (list(file), b"d/", "name"))
        self.assertTrue(IgnoreFile.from_text(""))
        self.assertEqual((len(IgnoreFile.from_text("")), list(IgnoreFile.from_text(""))), (0, []))

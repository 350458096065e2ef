"""Patterns and `wildmatch`, where no row of crates/rows/data asks: types, lines that are read back, and modes."""

import copy
import itertools
import pathlib
import pickle
import unittest

from gix_glob import Mode, Pattern, PatternMode, Reading, wildmatch

#: lines of all kinds
LINES = ("!/*.o/", r"\#x", r"\!x", "#x", "a/b?c", "/", "a\\/", "a ", "\0", "é", b"\xe9")


class Patterns(unittest.TestCase):
    def test_parts(self):
        pattern = Pattern("!/*.o/")
        self.assertEqual((pattern.text, pattern.mode, pattern.first_wildcard_pos), (b"*.o", PatternMode(31), 0))
        self.assertIs(type(pattern.text), bytes)
        self.assertIs(type(pattern.mode), PatternMode)
        self.assertIsNone(Pattern("a").first_wildcard_pos)
        self.assertEqual(Pattern("é").text, b"\xc3\xa9")

    def test_blank_lines(self):
        for line in ("", " \t\r\n\f", "! ", b"!"):
            with self.subTest(line=line), self.assertRaisesRegex(ValueError, "is blank"):
                Pattern(line, Reading.CRATE)
            self.assertFalse(Pattern(line).matches_path("a"))

    def test_what_is_shown_is_read_back(self):
        lines = [*LINES, "!\\#x", "\\\\#", "!!x", "/!x", "\\!x/", "a/", "!a", "//a//"]
        for line, reading in itertools.product(lines, Reading):
            with self.subTest(line=line, reading=reading):
                pattern = Pattern(line, reading)
                others = Pattern(bytes(pattern), reading), copy.deepcopy(pattern), pickle.loads(pickle.dumps(pattern))
                for other in others:
                    self.assertEqual(pattern, other)
                    self.assertEqual(hash(pattern), hash(other))
                self.assertEqual(eval(repr(pattern)), pattern)

    def test_short_lines_are_read_back(self):
        count = 0
        for length in range(6):
            for line in itertools.product(b"!#/\\ a*", repeat=length):
                self.assertEqual(Pattern(bytes(Pattern(bytes(line)))), Pattern(bytes(line)), line)
                try:
                    pattern = Pattern(bytes(line), Reading.CRATE)
                except ValueError:
                    continue
                count += 1
                self.assertEqual(Pattern(bytes(pattern), Reading.CRATE), pattern, line)
        self.assertGreater(count, 19_000)

    def test_equality(self):
        self.assertNotEqual(Pattern("a"), Pattern("a/"))
        self.assertNotEqual(Pattern("a"), "a")
        self.assertNotEqual(Pattern("a"), Pattern("a", Reading.CRATE))

    def test_modes_may_have_other_bits(self):
        for mode, wanted in ((0x10000, True), (Mode.NO_MATCH_SLASH_LITERAL + 0x10000, False)):
            self.assertIs(wildmatch("*", "a/b", mode), wanted)
            self.assertIs(Pattern("*").matches("a/b", mode), wanted)
        self.assertTrue(wildmatch("é", "é") and Pattern("é").matches("é"))

    def test_kinds_of_paths(self):
        rows = (("build/", "build/", True), ("build/", "build", False), ("a/b", "./a/b", True), ("é", "é", True))
        for line, path, wanted in rows:
            with self.subTest(line=line, path=path):
                self.assertIs(Pattern(line).matches_path(path), wanted)
                self.assertIs(Pattern(line).matches_path(path.encode()), wanted)
                self.assertIs(Pattern(line).matches_path(pathlib.PurePosixPath(path), path.endswith("/")), wanted)
        self.assertTrue(Pattern("build/").matches_path("build", True))
        self.assertTrue(Pattern("build/").matches_path("BUILD/", ignore_case=True))

"""Compares what globtree and Git list by pathspecs, in repositories made at random: from folders, with repositories below, and with an index."""
import os
import random
import re
import shutil
import subprocess
import sys
import tempfile

from documents import kinds_in
from of_globtree import GLOBTREE, Pair, Told, shown
from trees import INFO, Tree, is_text, literal, make_repository, write

LISTS = 20
MAGIC = ("", "", "", "", ":!", ":!", ":^", ":/", ":/!", ":(glob)", ":(glob)", ":(literal)", ":(icase)", ":(exclude,glob)", ":(top,icase)", ":(exclude,icase)", ":(glob,icase)", ":(exclude,top)", "::", ":(,)")
OPTIONS = (["-co", "--exclude-standard"], ["-co", "--exclude-standard"], ["-o", "--exclude-standard"], ["-o"], ["-c"], ["-c"])
SETTINGS = ("--literal-pathspecs", "--glob-pathspecs", "--noglob-pathspecs", "--icase-pathspecs")
WORDS = (".", "..", "*", "**", "*/", "*/*", "?", "*.*", "**/*.o", "[a-z]*", "a/..", "./a", "b//a", "nothing", ":", ":/", "a*/b", "*a*", "\\a", "[")
# kinds of differences, which count as such where "From Git" in docs/DIFFERENCES.md names them
MET = "`--error-unmatch` with an index"
EMPTY = "a path from the top with two slashes in a row"
NAMED = kinds_in("From Git")
# a warning about a path, in which a line may end
WARNING = re.compile(rb"warning: .*?': [^\n]*\n", re.S)


def is_exclude(word):
    """Whether a word is an exclude, by its head."""
    head = word[:word.find(b")")]
    return b"exclude" in head if word.startswith(b":(") else word.startswith((b":!", b":^", b":/!"))


class Comparison:
    """The lists that were asked, what Git listed, and what differed."""

    def __init__(self, with_globtree):
        self.with_globtree = with_globtree
        self.asked, self.listed, self.faults, self.differences = 0, 0, 0, 0
        self.named = 0

    def tree(self, seed, room):
        self.seed, self.random = seed, random.Random(seed ^ 0x5EED)
        tree = Tree(seed)
        # (no name that can't be opened)
        tree.files = {path: text for path, text in tree.files.items() if is_text(path)}
        tree.links = {path: target for path, target in tree.links.items() if is_text(path)}
        tree.folders = [folder for folder in tree.folders if is_text(folder)]
        self.pair = Pair(tree, room, self.with_globtree)
        self.nested = self.repositories(tree)
        self.indexed = self.index(tree) if self.random.random() < 0.5 else []
        for _ in range(LISTS):
            self.one(tree)

    def repositories(self, tree):
        """Makes some folders repositories of their own."""
        nested = [folder for folder in tree.folders if folder and self.random.random() < 0.15 and folder + b".git/" not in tree.folders]
        for folder in nested:
            git = os.path.join(self.pair.top, folder, b".git")
            if not os.path.lexists(git):
                make_repository(git)
        return nested

    def index(self, tree):
        """Tracks some files, and some folders as submodules."""
        inside = [path for path in tree.files if path != INFO and not any(path.startswith(folder) for folder in self.nested)]
        paths = [path for path in [*inside, *tree.links] if b"\n" not in path and self.random.random() < 0.4]
        paths = [path for path in paths if not any(path.startswith(folder) for folder in self.nested)]
        blob, commit = b"e69de29bb2d1d6434b8b29ae775ad8c2e48c5391", b"1" * 40
        lines = [b"100644 %s 0\t%s" % (blob, path) for path in paths]
        lines += [b"160000 %s 0\t%s" % (commit, folder[:-1]) for folder in self.nested if self.random.random() < 0.3 and b"\n" not in folder]
        run = subprocess.run(["git", "-C", self.pair.top, "update-index", "-z", "--index-info"], input=b"".join(line + b"\0" for line in lines), env=self.pair.environment, stderr=subprocess.PIPE)
        return paths

    def word(self, tree, folder):
        kind = self.random.random()
        if kind < 0.2:
            text = self.random.choice(WORDS).encode()
        elif kind < 0.55:
            text = self.path(tree, folder)
        elif kind < 0.8:
            text = tree.pattern(folder)
        else:
            text = tree.known(folder)
        if self.random.random() < 0.15 and not text.endswith(b"/"):
            text += b"/"
        return self.random.choice(MAGIC).encode() + text

    def path(self, tree, folder):
        """A path of the tree, as it is told from a folder."""
        path = self.random.choice([*tree.files, *tree.links, *tree.folders, *tree.folders])
        path = literal(path) if self.random.random() < 0.2 else path
        if path.startswith(folder):
            return path[len(folder):] or b"."
        return b"../" * folder.count(b"/") + path

    def one(self, tree):
        """Asks a list."""
        folder = self.random.choice(tree.folders) if self.random.random() < 0.5 else b""
        if any(folder.startswith(nested) for nested in self.nested) or any(folder.startswith(link + b"/") for link in tree.links):
            folder = b""
        count = self.random.choice((1, 1, 1, 2, 2, 3, 4))
        words = [word for word in (self.word(tree, folder) for _ in range(count)) if is_text(word) and b"\0" not in word]
        # (with an index Git holds excludes against paths without their front, unless an exclude stands first)
        words.sort(key=lambda word: not is_exclude(word))
        options = list(self.random.choice(OPTIONS)) + ["-z"]
        if self.random.random() < 0.2:
            options.append("--error-unmatch")
        settings = [self.random.choice(SETTINGS)] if self.random.random() < 0.12 else []
        self.ask(os.path.join(self.pair.top, folder), settings, [*options, "--", *words])

    def ask(self, folder, settings, words):
        pair = self.pair
        expected = pair.run(["git", *settings, *pair.git_options(), *pair.leading_to(folder), "ls-files", *words], b"")
        self.asked += 1
        self.listed += expected.output.count(b"\0")
        self.faults += expected.status == 128
        if not self.with_globtree:
            return
        found = pair.run([GLOBTREE, *pair.leading_to(folder), *settings, *pair.globtree_options(), "files", *words], b"")
        if self.is_same(expected, found):
            return
        if self.is_named([*settings, *words], expected, found):
            self.named += 1
        else:
            self.tell(folder, settings, words, expected, found)

    def is_named(self, words, expected, found):
        """Whether Git ends with an internal error; or, with an index and `--error-unmatch`, it alone counts elements as met, and lists paths, by
        what an exclude takes, or passes over an element whose text an entry was."""
        if EMPTY in NAMED and expected.errors == b"fatal: oops in prep_exclude\n":
            return True
        if MET not in NAMED or not self.indexed or "--error-unmatch" not in words:
            return False
        listed, here = set(expected.output.split(b"\0")), set(found.output.split(b"\0"))
        has_exclude = any(is_exclude(word) for word in words if isinstance(word, bytes))
        return has_exclude and here <= listed or listed <= here

    def is_same(self, expected, found):
        errors = [WARNING.sub(b"", told.errors) for told in (expected, found)]
        return expected.status == found.status and expected.output == found.output and (expected.status == 128 or errors[0] == errors[1])

    def tell(self, folder, settings, words, expected, found):
        self.differences += 1
        below = os.path.relpath(folder, self.pair.top)
        print("--pathspecs --seed %d --count 1, in %s: %s files %s" % (self.seed, shown(below), " ".join(settings), " ".join(shown(word) for word in words)))
        one, other = expected.output.split(b"\0")[:-1], found.output.split(b"\0")[:-1]
        print("    git alone: %s" % " ".join(shown(path) for path in one if path not in other))
        print("    globtree alone: %s" % " ".join(shown(path) for path in other if path not in one))
        if expected.status != found.status or expected.errors != found.errors:
            print("    git %d %s\n    globtree %d %s" % (expected.status, shown(expected.errors), found.status, shown(found.errors)))


def compare_pathspecs(count, seed, with_globtree, kept):
    """Compares so many repositories, the first made from the seed. The status is 1 where anything differs."""
    comparison = Comparison(with_globtree)
    for number in range(seed, seed + count):
        room = os.fsencode(tempfile.mkdtemp())
        try:
            comparison.tree(number, room)
        finally:
            if kept:
                print("tree %d: %s" % (number, os.fsdecode(room)))
            else:
                shutil.rmtree(room)
    print("%d lists of pathspecs in %d repositories: git listed %d paths, and refused %d; %d differences, and %d that are named" % (comparison.asked, count, comparison.listed, comparison.faults, comparison.differences, comparison.named))
    return 1 if comparison.differences else 0

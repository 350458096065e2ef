"""Repositories made at random, each from a number: how they are found, configuration, variables, words and faults."""
import os
import random

from configuration_texts import Writer
from repository_faults import Faults
from repository_indexes import Indexes
from repository_settings import STRANGER, Settings
from repository_shapes import Shapes
from trees import write

IGNORE_LINES = [
    b"a", b"b", b"c", b"e", b"*.o", b"!a", b"!b", b"!*.o", b"/c", b"d/", b"A", b"E", b"/d/b", b"d/*", b"!d/a", b"[ab]", b"!c", b"f", b"# x", b"",
    b" ", b"!", b"*",
]
NAMES = [b"a", b"b", b"c", b"e", b"f", b"x.o", b"A", b"E", b"B.O", b"ig", b"d", b"d/", b"d/a", b"d/b", b"d/x.o", b"d/e/c", b"n/a", b"s/b"]


class Repository(Shapes, Settings, Faults, Indexes):
    """The repository of a number. In all texts `@` stands for the folder in which it is made. `inside` are folders from which it
    answers, `outside` others; `options` are words in front of a command, and `standing` such as stand for configuration, as Git and as
    globtree has them."""

    def __init__(self, seed):
        super().__init__(random.Random(seed), set())
        self.files, self.links, self.folders, self.strangers = {}, {}, set(), set()
        self.variables = {b"HOME": b"@/home", b"GIT_CONFIG_NOSYSTEM": b"1", b"GIT_ATTR_NOSYSTEM": b"1", b"LC_ALL": b"C"}
        self.entries, self.texts, self.options, self.standing = {}, {}, [], ([], [])
        self.writer = Writer(self.random, self.constructs)
        self.seed, self.is_sound = seed, seed % 3 != 0
        self.has_stranger = self.chance(0.18) and os.geteuid() == 0
        if self.marked(0.06, "no HOME"):
            del self.variables[b"HOME"]
        self.draw_shape()
        self.draw_trees()
        self.draw_sources()
        self.draw_settings()
        self.draw_includes()
        self.draw_words()
        self.draw_owner()
        self.draw_pathspecs()
        self.draw_index()
        if not self.is_sound:
            self.draw_faults()
        self.write_configuration()

    def draw_pathspecs(self):
        """A variable by which Git reads words otherwise, which check-ignore doesn't take where it is true."""
        if self.marked(0.05, "a variable of pathspecs"):
            name = self.random.choice((b"LITERAL", b"GLOB", b"NOGLOB", b"ICASE"))
            self.variables[b"GIT_%s_PATHSPECS" % name] = self.random.choice((b"1", b"true", b"0", b"no", b"", b"maybe"))

    # ---- work trees

    def draw_trees(self):
        """Files in all folders that a fault of reading could take for the work tree."""
        for top in sorted({b"r", b"t", b"q", b"home", self.top, *(folder for folder in self.inside if folder in (b"r/n", b"r/s"))}):
            for folder in (top, top + b"/d"):
                for name in self.random.sample([b"a", b"b", b"c", b"e", b"x.o", b"A", b"b.o", b"ig"], 3):
                    self.files.setdefault(folder + b"/" + name, self.ignore_text(folder))
                if self.chance(0.6):
                    self.files[folder + b"/.gitignore"] = self.ignore_text(folder)
                if self.chance(0.5):
                    self.files[folder + b"/.gitattributes"] = self.attribute_text(folder)
        if self.marked(0.06, ".gitignore: a link"):
            self.files.pop(self.top + b"/d/.gitignore", None)
            self.links[self.top + b"/d/.gitignore"] = b"a"
        for folder in (b"home", b"t", b"t/d", self.top, self.top + b"/d"):
            self.files[folder + b"/ig"] = self.ignore_text(folder + b"/ig")
            self.files[folder + b"/at"] = self.attribute_text(folder + b"/at")
        self.links[b"home/ig-link"], self.links[b"home/at-link"] = b"ig", b"at"

    def ignore_text(self, name):
        is_in_tree = name in (self.top, self.top + b"/d")
        lines = self.random.sample(IGNORE_LINES, self.one_of(1, 1, 2) if is_in_tree else self.one_of(2, 3, 4, 5))
        return b"\n".join(lines) + self.one_of(b"\n", b"\n", b"\n", b"", b"\r\n")

    def attribute_text(self, name):
        """Lines whose values are the file's own name."""
        name = name.replace(b" ", b"_")
        patterns, states = [b"a", b"b", b"c", b"*", b"*.o", b"A", b"/e", b"d/*"], [b"one=" + name, b"one", b"-two", b"two=" + name, b"!one"]
        return b"".join(self.random.choice(patterns) + b" " + self.random.choice(states) + b"\n" for _ in range(self.one_of(1, 2, 3)))

    # ---- in a folder

    def write_configuration(self):
        for path, entries in sorted(self.entries.items()):
            if path not in self.folders:
                text = self.writer.text(entries)
                self.files[path] = self.texts[path](text) if path in self.texts else text

    def placed(self, room, text):
        return text.replace(b"@", room)

    def make(self, room):
        """Makes all in the folder."""
        for path in self.folders:
            os.makedirs(os.path.join(room, path), exist_ok=True)
        for path, text in sorted(self.files.items()):
            path = os.path.join(room, path)
            os.makedirs(os.path.dirname(path), exist_ok=True)
            if not os.path.isdir(path):
                write(path, self.placed(room, text))
        for path, target in sorted(self.links.items()):
            path = os.path.join(room, path)
            os.makedirs(os.path.dirname(path), exist_ok=True)
            if not os.path.lexists(path):
                os.symlink(self.placed(room, target), path)
        if self.index is not None and not os.path.isdir(os.path.join(room, self.index_file)):
            write(os.path.join(room, self.index_file), self.index)
            for path, text in self.shared.items():
                write(os.path.join(room, path), text)
        for path in self.strangers:
            os.chown(os.path.join(room, path), STRANGER, STRANGER)

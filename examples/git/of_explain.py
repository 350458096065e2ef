"""Compares `globtree explain` and Git on trees made at random: each first line, each change that it says to try, and all lines to add."""
import collections
import os
import random
import re
import shutil
import subprocess
import tempfile

from of_globtree import GLOBTREE, decisions, shown
from trees import ALONE, IGNORE_FILE, INFO, literal, make_repository, write

NAMES = [b"a", b"b.o", b"A", b"c d", b"e*", b"[f]", b"\xc3\xa9", b"#g", b"!h", b"i ", b"j\\", b"k\t", b'"l"', b"m.log", b"build", b"src"]
PLACE = rb"(?P<file>[^:]*):(?P<line>\d+): (?P<pattern>.*)"
IGNORED = re.compile(rb"ignored(?:, since its folder (?P<folder>.*)/ is)?: " + PLACE, re.S)
TAKEN_BACK = re.compile(rb"not ignored: taken back by " + PLACE, re.S)
NEARLY = re.compile(rb"not ignored; nearly by " + PLACE, re.S)
TRACKED = re.compile(rb"not ignored, since it is tracked(?:; else by " + PLACE + rb")?", re.S)
SILENT = {b"not ignored: no line matches", b"not ignored, but empty: Git keeps files alone", b"not ignored, but all its files are"}
TRY = re.compile(rb"  (?:(?P<file>[^:]*):(?P<line>\d+): .*: )?[^:]*; try (?P<text>.*)", re.S)
CASE = re.compile(rb"  (?:(?P<file>[^:]*):(?P<line>\d+): .*: )?case counts here, and its letters differ", re.S)
ADD = re.compile(rb"  to keep it, add to (?P<file>.*):", re.S)
COUNTS = re.compile(rb"  to keep it: (?P<file>.*) would count then", re.S)


class NearTree:
    """The tree of a number, of three names on three levels, with lines that match its paths or nearly do."""

    def __init__(self, seed):
        self.random = random.Random(seed)
        self.is_folding = self.random.random() < 0.3
        # (where case is folded, no two names may be one)
        self.names = self.random.sample([name for name in NAMES if not (self.is_folding and name == b"A")], 3)
        self.paths = [b""]
        levels = [b""]
        for _ in range(3):
            levels = [os.path.join(above, name) for above in levels for name in self.names]
            self.paths += levels
        self.paths.remove(b"")
        self.folders = {path for path in self.paths if path.count(b"/") < 2 and self.random.random() < 0.7}
        self.files = {path for path in self.paths if path not in self.folders and self.random.random() < 0.7 and self.is_in_folders(path)}
        self.folders = {path for path in self.folders if self.is_in_folders(path)}
        self.texts = {IGNORE_FILE: self.text()}
        for folder in sorted(self.folders):
            if self.random.random() < 0.2:
                self.texts[os.path.join(folder, IGNORE_FILE)] = self.text()
        if self.random.random() < 0.2:
            self.texts[INFO] = self.text()
        self.tracked = self.random.sample(sorted(self.files), min(len(self.files), 2)) if self.random.random() < 0.3 else []

    def is_in_folders(self, path):
        parts = path.split(b"/")
        return all(b"/".join(parts[:at]) in self.folders for at in range(1, len(parts)))

    def text(self):
        return b"".join(self.line() + b"\n" for _ in range(self.random.randrange(1, 5)))

    def line(self):
        line = self.with_a_slip(self.pattern())
        return b"!" + line if self.random.random() < 0.3 else line

    def pattern(self):
        name, other = literal(self.random.choice(self.names)), literal(self.random.choice(self.names))
        shapes = [name, name, b"/" + name, name + b"/", name + b"/" + other, name + b"/" + other + b"/", name + b"/*", b"*", b"/*", b"*/" + name]
        return self.random.choice(shapes + [b"**/" + name, name + b"/**", name[:1] + b"*", b"*" + name[-1:], b"?" + name[1:], b"/" + name + b"/*.o"])

    def with_a_slip(self, pattern):
        """The pattern, or what people write who think of another language."""
        braces = b"{" + b",".join(map(literal, self.names)) + b"}"
        slips = [pattern + b" # why", pattern + b"\t", b" " + pattern, b'"' + pattern + b'"', b"^" + pattern + b"$", braces, b"./" + pattern]
        slips += [pattern.replace(b"/", b"\\"), pattern + b"/", pattern.swapcase()]
        return self.random.choice(slips) if self.random.random() < 0.5 else pattern

    def make(self, top):
        make_repository(os.path.join(top, b".git"))
        for folder in sorted(self.folders):
            os.mkdir(os.path.join(top, folder))
        for path in self.files:
            write(os.path.join(top, path), b"")
        for path, text in self.texts.items():
            write(os.path.join(top, path), text)


class Comparison:
    """The trees, what was found right, and what was not."""

    def __init__(self):
        self.right, self.wrong = collections.Counter(), 0

    def tree(self, seed, room):
        self.seed, self.tree_of_seed, self.top = seed, NearTree(seed), os.path.join(room, b"top")
        home = os.path.join(room, b"home")
        kept = {name: value for name, value in os.environ.items() if not name.startswith("GIT_")}
        self.environment = {**kept, **ALONE, "HOME": home, "XDG_CONFIG_HOME": home, "LC_ALL": "C"}
        self.tree_of_seed.make(self.top)
        if self.tree_of_seed.tracked:
            self.git(["--literal-pathspecs", "add", "-f", "--", *self.tree_of_seed.tracked])
        self.answers = self.asked_of_git()
        paths = self.tree_of_seed.paths
        options = ["--ignore-case"] if self.tree_of_seed.is_folding else []
        output = self.run([GLOBTREE, "-C", self.top, *options, "explain", "-z", "--stdin"], b"".join(path + b"\0" for path in paths))
        told = re.split(rb"\0(?!  )", output)
        for path, block in zip(paths, told):
            first, *more = block.rstrip(b"\0").split(b"\0")
            self.path(path, first, more)
        self.judge(b"", "paths", len(told) == len(paths) + 1)

    # ---- Git

    def run(self, command, given):
        return subprocess.run(command, input=given, stdout=subprocess.PIPE, env=self.environment, check=False).stdout

    def git(self, words, given=b""):
        case = "core.ignorecase=%s" % ("true" if self.tree_of_seed.is_folding else "false")
        return self.run(["git", "-c", case, "-C", self.top, *words], given)

    def asked_of_git(self, paths=None):
        """What decides about each path: the file, the line, and the pattern."""
        paths = self.tree_of_seed.paths if paths is None else paths
        output = self.git(["check-ignore", "-v", "-n", "-z", "--no-index", "--stdin"], b"".join(path + b"\0" for path in paths))
        return {answer[3]: answer[:3] for answer in decisions(collections.namedtuple("Told", "output")(output))}

    def is_ignored(self, path, answers):
        return answers[path][0] != b"" and not answers[path][2].startswith(b"!")

    # ---- what is told of a path

    def path(self, path, first, more):
        told = first[len(path):].removeprefix(b"/").removeprefix(b": ")
        self.judge(path, "first lines", first.startswith(path) and self.is_first(path, told), first)
        nearly = NEARLY.fullmatch(told)
        for line in more:
            change, case = TRY.fullmatch(line), CASE.fullmatch(line)
            if change or case:
                place = (change or case) if (change or case)["file"] else nearly
                text = change["text"] if change else either_case(self.line_at(place))
                self.judge(path, "tries", self.turns(path, place, text), line)
            elif COUNTS.fullmatch(line):
                self.judge(path, "files that would count", COUNTS.fullmatch(line)["file"] in self.tree_of_seed.texts, line)
        added = next((at for at, line in enumerate(more) if ADD.fullmatch(line)), None)
        if added is not None:
            lines = [line[4:] for line in more[added + 1:] if line.startswith(b"    ")]
            self.judge(path, "lists of lines to add", self.keeps(path, ADD.fullmatch(more[added])["file"], lines), b"|".join(lines))

    def is_first(self, path, told):
        """Whether Git says what the first line does."""
        tracked, ignored, back = TRACKED.fullmatch(told), IGNORED.fullmatch(told), TAKEN_BACK.fullmatch(told)
        if tracked:
            by_git = self.answers[path] if self.is_ignored(path, self.answers) else None
            # (which entries a path names is for Git's pathspecs to say, as check-ignore asks them)
            return self.git(["ls-files", "--", path]) != b"" and (place_of(tracked) if tracked["file"] else None) == by_git
        if ignored:
            return self.is_ignored(path, self.answers) and place_of(ignored) == self.answers[path] and self.is_topmost(path, ignored["folder"])
        if back:
            return place_of(back) == self.answers[path] and not self.is_ignored(path, self.answers)
        return self.answers[path][0] == b"" and (told in SILENT or NEARLY.fullmatch(told) is not None) and self.is_silent(path, told)

    def is_topmost(self, path, folder):
        """Whether Git ignores this folder above the path, and none above it; None stands for none. One that isn't there can't be asked."""
        ignored = [it for it in above(path) if self.is_ignored(it, self.answers) and it in self.tree_of_seed.folders]
        return folder == (ignored or [None])[0] or not ignored and folder in above(path) and folder not in self.tree_of_seed.folders

    def is_silent(self, path, told):
        """Whether a folder has files that aren't ignored, or none, or ignored ones alone, as told."""
        below = [it for it in list(self.tree_of_seed.files) + list(self.tree_of_seed.texts) if it.startswith(path + b"/")]
        if path not in self.tree_of_seed.folders or NEARLY.fullmatch(told):
            return not told.startswith(b"not ignored, but")
        left = [it for it, by in self.asked_of_git(below).items() if by[0] == b"" or by[2].startswith(b"!")] if below else []
        return told == (b"not ignored: no line matches" if left else b"not ignored, but all its files are" if below else b"not ignored, but empty: Git keeps files alone")

    def line_at(self, place):
        return self.tree_of_seed.texts[place["file"]].split(b"\n")[int(place["line"]) - 1]

    def turns(self, path, place, text):
        """Whether Git's answer turns with this text in the place of a line."""
        lines = self.tree_of_seed.texts[place["file"]].split(b"\n")
        lines[int(place["line"]) - 1] = text
        after = self.with_text(place["file"], b"\n".join(lines), [path])
        return self.is_ignored(path, after) != self.is_ignored(path, self.answers)

    def keeps(self, path, file, lines):
        """Whether Git doesn't ignore the path with these lines added, and of all other paths says what it said before."""
        text = self.tree_of_seed.texts.get(file, b"") + b"".join(line + b"\n" for line in lines)
        after = self.with_text(file, text, self.tree_of_seed.paths)
        others = [it for it in self.tree_of_seed.paths if it != path and it not in above(path) and not it.startswith(path + b"/")]
        return not self.is_ignored(path, after) and all(self.is_ignored(it, after) == self.is_ignored(it, self.answers) for it in others)

    def with_text(self, file, text, paths):
        """What Git says of the paths with this text in a file."""
        name, before = os.path.join(self.top, file), self.tree_of_seed.texts.get(file)
        write(name, text)
        answers = self.asked_of_git(paths)
        if before is None:
            os.remove(name)
        else:
            write(name, before)
        return answers

    def judge(self, path, what, is_right, told=b""):
        if is_right:
            self.right[what] += 1
            return
        self.wrong += 1
        print("--explain --seed %d --count 1: %s: %s: %s" % (self.seed, what, shown(path), shown(told)))


def place_of(match):
    return match["file"], match["line"], match["pattern"]


def above(path):
    parts = path.split(b"/")
    return [b"/".join(parts[:at]) for at in range(1, len(parts))]


def either_case(line):
    """The line with a set of both cases for each letter that stands for itself."""
    return re.sub(rb"\\.|\[[!^]?\]?[^]]*\]|([A-Za-z])", lambda it: b"[%s%s]" % (it[1].lower(), it[1].upper()) if it[1] else it[0], line, flags=re.S)


def compare_explanations(count, seed, with_globtree, kept):
    """Compares so many trees, the first made from the seed. The status is 1 where anything is wrong."""
    if not with_globtree:
        return 0
    comparison = Comparison()
    for number in range(seed, seed + count):
        room = os.fsencode(tempfile.mkdtemp())
        try:
            comparison.tree(number, room)
        finally:
            if kept:
                print("tree %d of explanations: %s" % (number, os.fsdecode(room)))
            else:
                shutil.rmtree(room)
    right = comparison.right
    print("%d trees explained: %s right, %d wrong" % (count, ", ".join("%d %s" % (right[it], it) for it in sorted(right)), comparison.wrong))
    return 1 if comparison.wrong else 0

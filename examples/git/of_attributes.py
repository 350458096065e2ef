"""Compares `globtree check-attr` and Git on trees made at random, byte by byte. `tools/vectors` asks both the rows of attributes."""
import collections
import os
import random
import shutil
import subprocess
import tempfile

from attribute_trees import ATTRIBUTE_FILE, ATTRIBUTES_INFO, BYTE_ORDER_MARK, NAMES, AttributeTree
from of_globtree import DOTTED, GLOBTREE, NO_TEXT, Told, lines_with_zeros, quoted, shown
from trees import ALONE, is_text, write

FROM_INPUT = ["--stdin a b c m n", "-z --stdin a text eol", "--stdin -a", "-a -z --stdin", "--all --stdin -z --", "--stdin binary diff --", "-az --stdin"]
# words that paths follow
FROM_WORDS = ["a", "-a", "a --", "-z m n p --", "-a --", "--all", "a b m --", "-az --"]
# words for where Git's own folder is the current one
WITHIN_GIT = ["a x", "-a -- ../x .", "--stdin a", "-az --stdin"]
# words as they stand
WRONG = [
    "", "a", "--", "-- a", "-a", "-a --", "-a a -- b", "a --", "--stdin", "--stdin -- a", "--stdin a -- b", "--stdin -a b", "a:b x", "a b:c -- x",
    "- x", "-x a", "--unknown a b", "a x ../y", "a / x", "-a ../x", "a -- x ../../y z", "-z", "=v x", "a x -- y", "a x -z", "x -a", "a -- -a",
]


class Pair:
    """Git and globtree in one repository. `outer` has the files that lie outside: their bytes, or None."""

    def __init__(self, room, tree):
        self.room, self.top = room, os.path.join(room, b"top")
        system, user = tree.system, tree.user
        self.is_named, self.is_folding = tree.is_named, tree.is_folding
        home = os.path.join(room, b"home")
        kept = {name: value for name, value in os.environ.items() if not name.startswith("GIT_")}
        self.environment = {**kept, **ALONE, "HOME": home, "XDG_CONFIG_HOME": home, "LC_ALL": "C"}
        os.makedirs(os.path.join(home, b"git"))
        self.has_system = system is not None
        if self.has_system:
            write(os.path.join(room, b"system"), system)
        self.user = os.path.join(room, b"user") if self.is_named else os.path.join(home, b"git", b"attributes")
        if user is not None:
            write(self.user, user)
        # Git's own file of the system can't be named: so the user's has its lines, too
        self.both_files = os.path.join(room, b"both")
        if self.has_system:
            write(self.both_files, joined(system, user or b""))

    def git(self, folder, words, asked=b""):
        named = self.both_files if self.has_system else self.user if self.is_named else None
        options = ["-c", b"core.attributesFile=" + named] if named else []
        return self.run(["git", "-c", "core.ignorecase=%s" % ("true" if self.is_folding else "false"), *options, "-C", folder, "check-attr", *words], asked)

    def globtree(self, folder, words, asked=b"", options=()):
        more = ["--system", os.path.join(self.room, b"system")] if self.has_system else []
        more += ["--attributes", self.user] if self.is_named else []
        more += ["--ignore-case"] if self.is_folding else []
        return self.run([GLOBTREE, "-C", folder, *more, *options, "check-attr", *words], asked)

    def run(self, command, asked):
        run = subprocess.run(command, input=asked, stdout=subprocess.PIPE, stderr=subprocess.PIPE, env=self.environment)
        return Told(run.returncode, run.stdout, run.stderr)


def joined(front, behind):
    """The lines of two files as those of one. A carriage return at the end of the first is a blank, and no line's end."""
    if not front:
        return behind
    if front.endswith(b"\r"):
        front = front[:-1] + b" "
    return front + (b"" if front.endswith(b"\n") else b"\n") + behind.removeprefix(BYTE_ORDER_MARK)


def is_nul(words):
    """Whether -z is among the words, alone or with other letters."""
    options = [os.fsdecode(word) for word in words]
    options = options[:options.index("--")] if "--" in options else options
    return any(word.startswith("-") and not word.startswith("--") and "z" in word for word in options)


def given(paths, words):
    """The paths as a run with these words reads them."""
    if is_nul(words):
        return b"".join(path + b"\0" for path in paths)
    return b"".join(quoted(path) + b"\n" for path in paths)


# ---- trees

class Comparison:
    """The runs over the trees, what Git answered, and what differed."""

    def __init__(self, with_globtree):
        self.with_globtree = with_globtree
        self.kinds = collections.Counter()
        self.warned, self.runs, self.differences, self.refused = 0, 0, 0, 0

    def tree(self, seed, room):
        self.seed, self.random = seed, random.Random(~seed)
        self.tree_of = AttributeTree(seed)
        self.pair = Pair(room, self.tree_of)
        self.tree_of.make(self.pair.top)
        paths = self.paths()
        self.from_top(paths)
        for words in self.random.sample(FROM_INPUT, 3):
            folder, told = self.seen_from(paths)
            self.both(folder, words.split(), told)
        for words in self.random.sample(FROM_WORDS, 2):
            texts = [path for path in paths if is_text(path)]
            folder, told = self.seen_from(self.random.sample(texts, min(len(texts), 30)))
            told = [os.path.join(b".", path) if path.startswith(b"-") else path for path in told]
            self.both(folder, words.split(), [], told)
        for words in self.random.sample(WRONG, 3):
            self.both(self.pair.top, words.split(), self.random.sample(paths, 3))
        at = self.random.randrange(len(paths))
        bad = self.random.choice([b"../x", b"/", b"a/../../x"])
        self.both(self.pair.top, ["-z", "--stdin", "a", "m"], paths[:at] + [bad] + paths[at:])
        self.both(self.pair.top, ["--stdin", "a"], [], asked=b'x\n"bad\ny\n')
        self.both(self.pair.top, ["--stdin", "a", "m"], [], asked=lines_with_zeros(self.random, self.random.sample(paths, 12)))
        for folder in (b".git", b".git/info", b".git/objects"):
            self.both(os.path.join(self.pair.top, folder), self.random.choice(WITHIN_GIT).split(), [b"x"])
        self.folders()

    def paths(self):
        """Paths of the tree and others, some with a slash at the end."""
        paths = self.tree_of.asked() + [ATTRIBUTE_FILE, b"no/such/file"]
        return [path + b"/" if self.random.random() < 0.25 else path for path in paths]

    def from_top(self, paths):
        told = self.both(self.pair.top, ["-z", "--stdin", *[name for name in NAMES if not name.startswith(b"-")]], paths)
        answers = told.output.split(b"\0")[2::3]
        self.kinds.update("value" if answer not in (b"set", b"unset", b"unspecified") else answer.decode() for answer in answers)
        self.warned += bool(told.errors)
        self.both(self.pair.top, ["-a", "-z", "--stdin"], paths)
        self.with_top(paths)

    def with_top(self, paths):
        """The same where the words say which folder is the top: its file of attributes counts where it is there."""
        words = ["-a", "-z", "--stdin"]
        expected = self.pair.git(self.pair.top, words, given(paths, words))
        self.judge(self.pair.top, words, given(paths, words), expected, ["--top", self.pair.top])
        if ATTRIBUTES_INFO not in self.tree_of.files:
            repository, hidden = os.path.join(self.pair.top, b".git"), os.path.join(self.pair.room, b"hidden")
            os.rename(repository, hidden)
            self.judge(self.pair.top, words, given(paths, words), expected, ["--top", self.pair.top])
            os.rename(hidden, repository)

    def folders(self):
        """A folder and those above it, told with dots."""
        below = self.random.choice(self.tree_of.folders)
        folder, names = os.path.join(self.pair.top, below), [b"a", b"m", b"text"]
        paths = [told for told in [*DOTTED, self.pair.top, self.pair.top + b"/"] if not os.path.relpath(os.path.join(folder, told), self.pair.top).startswith(b"..")]
        self.both(folder, ["-z", "--stdin", *names], paths)
        self.both(folder, ["-a", "-z", "--stdin"], paths)

    # ---- paths as they are told

    def seen_from(self, paths):
        """A folder of the tree, and the paths as they are told from there."""
        folder = self.random.choice(self.tree_of.folders) if self.random.random() < 0.6 else b""
        return os.path.join(self.pair.top, folder), [self.seen(path, folder) for path in paths]

    def seen(self, path, folder):
        if self.random.random() < 0.02:
            return os.path.join(self.pair.top, path)
        told = path[len(folder):] if path.startswith(folder) and path != folder and self.random.random() < 0.95 else b"../" * folder.count(b"/") + path
        if self.random.random() < 0.1:
            told = self.random.choice((b"./", b".//", b"no/../", b"././")) + told
        if self.random.random() < 0.1:
            told = told.replace(b"/", self.random.choice((b"//", b"/./", b"/no/../")))
        if self.random.random() < 0.03:
            told += self.random.choice((b"/.", b"/x/..", b"//"))
        return told

    # ---- both

    def both(self, folder, words, paths, more=(), asked=None):
        words = words + list(more)
        asked = given(paths, words) if asked is None else asked
        expected = self.pair.git(folder, words, asked)
        self.judge(folder, words, asked, expected)
        return expected

    def judge(self, folder, words, asked, expected, options=()):
        if not self.with_globtree:
            return
        found = self.pair.globtree(folder, words, asked, options)
        self.runs += 1
        if found.is_as(expected):
            return
        # the file of a folder can't be opened by a name that is no text
        if found.status == 128 and NO_TEXT in found.errors and expected.output.startswith(found.output):
            self.refused += 1
            return
        self.differences += 1
        self.tell(folder, words, expected, found)

    def tell(self, folder, words, expected, found):
        below = os.path.relpath(folder, self.pair.top)
        print("--seed %d --count 1, in %s: check-attr %s" % (self.seed, shown(below), " ".join(shown(word) for word in words)))
        end = b"\0" if is_nul(words) else b"\n"
        one, other = records(expected.output, end), records(found.output, end)
        at = next((at for at in range(min(len(one), len(other))) if one[at] != other[at]), min(len(one), len(other)))
        if one != other:
            print("    git:      %s" % (shown(one[at]) if at < len(one) else "the end, after %d" % at))
            print("    globtree: %s" % (shown(other[at]) if at < len(other) else "the end, after %d" % at))
        if expected.status != found.status:
            print("    status of git %d, of globtree %d: %s" % (expected.status, found.status, shown(found.errors)))
        if bool(expected.errors) != bool(found.errors):
            print("    %s alone tells an error: %s" % (("git", shown(expected.errors)) if expected.errors else ("globtree", shown(found.errors))))


def records(output, end):
    parts = output.split(end)
    step = 3 if end == b"\0" else 1
    return [end.join(parts[at:at + step]) for at in range(0, len(parts), step)]


def compare_trees(count, seed, with_globtree, kept):
    """Compares so many trees, the first made from the seed. The status is 1 where anything differs."""
    comparison = Comparison(with_globtree)
    for number in range(seed, seed + count):
        room = os.fsencode(tempfile.mkdtemp())
        try:
            comparison.tree(number, room)
        finally:
            if kept:
                print("tree %d of attributes: %s" % (number, os.fsdecode(room)))
            else:
                shutil.rmtree(room)
    kinds = comparison.kinds
    print("%d trees, %d states by git: %d set, %d unset, %d values, %d unspecified; something passed over in %d" % (
        count, sum(kinds.values()), kinds["set"], kinds["unset"], kinds["value"], kinds["unspecified"], comparison.warned))
    if with_globtree:
        print("%d runs of globtree check-attr, %d ended at a name that is no text; %d differences" % (comparison.runs, comparison.refused, comparison.differences))
    return 1 if comparison.differences else 0


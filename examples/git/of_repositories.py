"""Compares globtree and Git in repositories made at random, byte by byte, with the same variables, files and words."""
import collections
import os
import random
import re
import shutil
import subprocess
import tempfile

from documents import kinds_in
from of_globtree import GLOBTREE, Told, pieces, shown, told_kinds
from repositories import NAMES, Repository
from repository_indexes import ASKED

HOW_MANY_SHOWN = 3
# how check-ignore is asked by words, and check-attr, config, files and status
BY_WORDS = [["--"], ["-v", "--"], ["-v", "-n", "--"], ["--no-index", "--"], ["--no-index", "-v", "--"]]
SHOWN = [["--list", "--show-origin", "-z"], ["--list"], ["--show-origin", "--get-all", "core.excludesFile"], ["-z", "CORE.ignorecase"]]
LISTED = [
    ["-c"], ["-o"], ["-c", "-o"], ["-co", "--exclude-standard"], ["-oi", "--exclude-standard"], ["-c", "-i", "--exclude-standard"],
    ["--cached", "-oi", "--exclude-standard"], ["-o", "--directory"], ["--others", "--directory", "--exclude-standard"], ["--exclude-standard"],
    ["-o", "--directory", "--no-empty-directory"], ["-o", "--exclude-standard", "--directory", "--no-empty-directory"],
    ["-oi", "--exclude-standard", "--directory", "--no-empty-directory"], ["-oi", "--exclude-standard", "--directory"],
]
STATUS = [["-uall"], ["-uall", "--ignored"], ["-u", "--ignored=matching"], ["--untracked-files=all", "--ignored=traditional"], ["-uno", "--ignored"], ["-unormal"], ["-unormal", "--ignored=matching"], ["--untracked-files=normal", "--ignored"]]
ATTRIBUTES = [["-a", "--"], ["one", "two", "--"], ["-z", "two", "--"], ["-a", "-z", "--"]]
OUTSIDE = [b"../../../../../../x", b"/", b"", b"../../x", b"l/x"]
# words that spell a path behind a colon, and words that spell none
SPELT = [b":x", b"::x", b":()x", b":", b":/", b":/x", b"://:x", b":(top)x", b":(,top)d/x", b":/d/x", b":/k*/x", b":/a*", b":(top)./x", b":a:b", b":$x", b":/d/"]
UNSPELT = [b":!x", b":^x", b":-x", b":/~", b":(top", b":(x)x", b":(exclude)x", b":(glob)x", b":(icase,top)x", b":(literal)x", b":(attr:a)x", b":(Top)x"]
# kinds of differences; some count as such where "From Git" in docs/DIFFERENCES.md names them
MESSAGES, BARE, UNKNOWN, CRASH = "messages", "no work tree", "another's folder", "Git crashes"
LOCK, NOWHERE = "Git's lock file", "a GIT_DIR that leads nowhere"
NAMED = kinds_in("From Git")
OF_CONFIG, OF_STATUS = "`config`", "`status`"
NO_OBJECT = re.compile(rb"fatal: (bad object HEAD|unable to read [0-9a-f]+|'git status --porcelain=2' failed in submodule .*)\n")
# what isn't read, by the fault that names it
UNREAD = {
    "relative files of the environment": b"is a relative path of a file of configuration",
    "a relative GIT_COMMON_DIR": b"GIT_COMMON_DIR is a relative path",
    "a GIT_CONFIG_SYSTEM over which Git writes": b"a path that leads above its front",
    "a reference that may lead on": b"no condition 'onbranch' can be answered",
}
UNKNOWN_FOLDER = re.compile(rb"fatal: failed to expand user dir in: '%\(prefix\)/[^\n]*\n")
WARNINGS = re.compile(rb"(warning: [^\n]*\n(\t[^\n]*\n)*)+")
UNCOUNTED = re.compile(rb"warning: repo version is 0, but v1-only extensions? found:\n")
LOCK_FILE = re.compile(rb"[^\0\n]*(index\.lock|sharedindex\.[0-9a-f]+)\"?[\0\n]")
NO_GIT_FOLDER = re.compile(rb"not a git repository: '(.*)'")
RELATIVE_CONDITION = b"error: relative config include conditionals must come from files\n"
NO_WORK_TREE = b"fatal: this operation must be run in a work tree\n"
FILES_OF_GIT = ["ls-files", "-co", "--exclude-standard"]

Question = collections.namedtuple("Question", "folder words asked")


class Pair:
    """Git and globtree in one repository."""

    def __init__(self, made, room):
        self.made, self.room = made, room
        self.environment = {b"PATH": os.fsencode(os.environ["PATH"])}
        self.environment.update((name, made.placed(room, value)) for name, value in made.variables.items())

    def git(self, question, is_there):
        told = self.run(["git"], self.made.standing[0], question, words_of_git(question.words), is_there)
        return untracked_alone(told, question.words) if question.words[0] == "status" else told

    def globtree(self, question, is_there):
        return self.run([GLOBTREE], self.made.standing[1], question, question.words, is_there)

    def run(self, program, standing, question, words, is_there):
        """Runs a program in a folder, or with a word that leads to it."""
        folder = os.path.join(self.room, question.folder)
        # (what stands for configuration isn't the same for both)
        words_before = self.made.options + ([] if question.words[0] == "config" else standing)
        options = [self.made.placed(self.room, word) if isinstance(word, bytes) else word for word in words_before]
        front = program if is_there else [*program, "-C", folder]
        at = folder if is_there else self.room
        ran = subprocess.run([*front, *options, *words], cwd=at, input=question.asked, env=self.environment, capture_output=True)
        return Told(ran.returncode, ran.stdout, ran.stderr)


def words_of_git(words):
    """The words by which Git is asked the same."""
    if words[0] == "status":
        return ["status", "--porcelain", *words[1:]]
    if words[0] != "files":
        return words
    return ["ls-files", *words[1:]] if set(words[1:]) - {"-z"} else FILES_OF_GIT + words[1:]


def untracked_alone(told, words):
    """What `git status` tells of files that aren't tracked."""
    lines = re.findall(rb"[^\0]*\0" if "-z" in words else rb"[^\n]*\n", told.output)
    return told._replace(output=b"".join(line for line in lines if line.startswith((b"?? ", b"!! "))))


# ---- what is told

def fault(told):
    """What a run says that failed: its line of a fault."""
    lines = re.findall(rb"^fatal: (.*)$", told.errors, re.M)
    return lines[0] if lines else b""


def is_answer(told):
    return told.status < 2


class Comparison:
    """The runs in all repositories, what Git answered, and what differed."""

    def __init__(self, with_globtree):
        self.with_globtree = with_globtree
        self.constructs, self.faults, self.named, self.texts = (collections.Counter() for _ in range(4))
        self.examples = {}
        self.asked, self.answered, self.decided, self.differences = 0, 0, 0, 0

    def repository(self, seed, room):
        self.seed, self.random, self.room = seed, random.Random(~seed), room
        made = Repository(seed)
        made.make(room)
        self.constructs.update(made.constructs)
        self.pair = Pair(made, room)
        for folder in self.those_there(made.inside):
            self.ask_some(folder, 5 if made.is_sound else 2)
        outside = self.those_there(made.outside)
        for folder in self.random.sample(outside, min(len(outside), 2)):
            self.ask_some(folder, 1)

    def those_there(self, folders):
        return [folder for folder in folders if os.path.isdir(os.path.join(self.room, folder))]

    def ask_some(self, folder, count):
        """Asks so many questions of different kinds from a folder."""
        for words, asked in self.random.sample(self.questions(), min(count, 5)):
            self.ask(Question(folder, words, asked))

    # ---- questions

    def questions(self):
        """Words of each kind, with what they read."""
        questions = [] if self.pair.made.index is not None else [(["files", *self.random.choice(([], ["-z"]))], b"")]
        return questions + [
            (["files", *self.random.choice(LISTED), *self.random.choice(([], ["-z"]))], b""),
            (["status", *self.random.choice(STATUS), *self.random.choice(([], ["-s"], ["-z"], ["-s", "-z"]))], b""),
            (["check-ignore", *self.random.choice(([], ["--no-index"])), "-v", "-n", "-z", "--stdin"], self.records()),
            (["check-ignore", *self.random.choice(BY_WORDS), *self.names()], b""),
            (["check-ignore", "-q", self.random.choice(self.names())], b""),
            (["check-attr", "-z", "--stdin", "one", "two"], self.records()),
            (["check-attr", *self.random.choice(ATTRIBUTES), *self.names()], b""),
            (["config", *self.random.choice(SHOWN)], b""),
        ]

    def records(self):
        return b"".join(name + b"\0" for name in self.names() + [b"\xc3\xa4"])

    def names(self):
        names = self.random.sample(NAMES, 7)
        if self.pair.made.index is not None:
            names = self.random.sample(NAMES + ASKED, 9)
        if self.random.random() < 0.04:
            names.insert(self.random.randrange(8), self.random.choice(OUTSIDE))
        if self.random.random() < 0.2:
            names += self.random.sample(SPELT, 3)
        if self.random.random() < 0.04:
            names.insert(self.random.randrange(8), self.random.choice(UNSPELT))
        return names + [b"\xc3\xa4"]

    # ---- both

    def ask(self, question):
        is_there = self.random.random() < 0.5
        expected = self.pair.git(question, is_there)
        self.asked += 1
        self.answered += is_answer(expected)
        self.decided += expected.status == 0
        if not is_answer(expected):
            self.faults[self.kind(fault(expected))] += 1
        if self.with_globtree:
            self.judge(question, expected, self.pair.globtree(question, is_there))

    def judge(self, question, expected, found):
        kind = self.named_kind(question, expected, found)
        if kind:
            self.named[kind] += 1
        elif not found.is_as(expected):
            self.differences += 1
            self.tell(question, expected, found)
        elif not is_answer(expected):
            self.compare_texts(question, fault(expected), fault(found))

    def named_kind(self, question, expected, found):
        """What the documents call a difference, or None."""
        command = question.words[0]
        if command in ("check-attr", "files") and found.errors == NO_WORK_TREE and expected.errors != found.errors:
            return BARE
        if UNKNOWN_FOLDER.fullmatch(found.errors) and expected.errors != found.errors:
            return UNKNOWN
        if found.is_as(expected):
            return None
        if expected.status < 0:
            return CRASH
        is_warned = RELATIVE_CONDITION in expected.errors or WARNINGS.fullmatch(expected.errors)
        quiet = expected._replace(errors=found.errors) if is_warned else expected
        if found.is_as(quiet):
            return MESSAGES
        one, other = (it._replace(output=LOCK_FILE.sub(b"", it.output)) for it in (found, quiet))
        if one.is_as(other):
            return LOCK
        if self.leads_nowhere(question, found):
            return NOWHERE
        if command == "config" and OF_CONFIG in NAMED and self.is_shown_otherwise(expected, found):
            return OF_CONFIG
        if command == "status" and OF_STATUS in NAMED and NO_OBJECT.search(expected.errors):
            return OF_STATUS
        return next((kind for kind, words in UNREAD.items() if words in fault(found)), None)

    def leads_nowhere(self, question, found):
        """Whether a fault tells of a path that is empty or leads nowhere."""
        told = NO_GIT_FOLDER.fullmatch(fault(found))
        return told and not (told[1] and os.path.isdir(os.path.join(self.room, question.folder, os.path.dirname(told[1]))))

    def is_shown_otherwise(self, expected, found):
        """Whether `config` answers otherwise as "From Git" says."""
        if WARNINGS.fullmatch(expected.errors) and found.is_as(expected._replace(errors=found.errors)):
            return True
        if UNCOUNTED.match(expected.errors) and not is_answer(expected):
            return True
        is_fault = not is_answer(expected) and not is_answer(found) and not found.output
        one, other = (re.sub(rb"'[^'\n]*'", b"", text) for text in (fault(found), expected.errors))
        return is_fault or WARNINGS.fullmatch(expected.errors) and one and one in other

    # ---- texts of faults

    def compare_texts(self, question, text, other):
        # (what Git tells in more lines is one line here)
        if text and other.startswith(text):
            return
        kinds = self.kind(text), self.kind(other)
        self.texts[kinds] += 1
        if self.texts[kinds] <= HOW_MANY_SHOWN:
            self.examples.setdefault(kinds, []).append((self.seed, question, self.in_room(text), self.in_room(other)))

    def in_room(self, text):
        return text.replace(self.room, b"@")

    def kind(self, text):
        """A fault's text without what is its own."""
        text = re.sub(rb"'[^']*'", b"'..'", self.in_room(text))
        text = re.sub(rb"(?<=in file )(?!directly).*?(?= at line|$)|@\S*|(?<=: )\S*/.*", b"..", text)
        return os.fsdecode(re.sub(rb"\b\d+\b", b"N", text)).encode("ascii", "backslashreplace").decode() or "no text"

    # ---- what is printed

    def where(self, seed, question):
        """A question as a line."""
        words = " ".join(shown(word)[1:-1] or "''" for word in question.words)
        asked = " <%s" % shown(question.asked) if question.asked else ""
        return "--repositories --seed %d --count 1, in %s: %s%s" % (seed, shown(question.folder), words, asked)

    def tell(self, question, expected, found):
        print(self.where(self.seed, question))
        end = b"\0" if "-z" in question.words else b"\n"
        step = 4 if "-n" in question.words else 3 if question.words[0] == "check-attr" else 1
        one, other = (pieces(self.in_room(it.output), end, step if end == b"\0" else 1) for it in (expected, found))
        if one != other:
            at = next((at for at in range(min(len(one), len(other))) if one[at] != other[at]), min(len(one), len(other)))
            print("    git:      %s" % (shown(one[at]) if at < len(one) else "the end, after %d" % at))
            print("    globtree: %s" % (shown(other[at]) if at < len(other) else "the end, after %d" % at))
        if expected.status != found.status:
            print("    status of git %d, of globtree %d" % (expected.status, found.status))
        for name, told in (("git", expected), ("globtree", found)):
            if told.errors:
                print("    %s tells: %s" % (name, shown(self.in_room(told.errors))))

    def summary(self, count):
        part = 100 * self.answered // max(1, self.asked)
        print("%d repositories, %d runs of git: %d answers (%d %%), of which %d with status 0, and %d faults:" % (
            count, self.asked, self.answered, part, self.decided, self.asked - self.answered))
        for kind, number in self.faults.most_common():
            print("    %4d  %s" % (number, kind))
        rare = ["%s: %d" % it for it in sorted(self.constructs.items()) if it[1] < count // 40]
        print("%d constructs; in fewer repositories than one in forty: %s" % (len(self.constructs), ", ".join(rare) or "none"))
        if not self.with_globtree:
            return
        for (text, other), number in self.texts.most_common():
            print("faults in other words: %d\n    git:      %s\n    globtree: %s" % (number, text, other))
            for seed, question, one, two in self.examples[text, other]:
                print("    as in %s\n        git:      %s\n        globtree: %s" % (self.where(seed, question), shown(one), shown(two)))
        print("differences that documents name: " + told_kinds(self.named))
        print("%d runs of globtree, %d faults in other words; %d differences" % (self.asked, sum(self.texts.values()), self.differences))


def compare_repositories(count, seed, with_globtree, kept):
    """Compares in so many repositories, the first made from the seed. The status is 1 where anything differs but the words of faults."""
    comparison = Comparison(with_globtree)
    for number in range(seed, seed + count):
        room = os.path.realpath(os.fsencode(tempfile.mkdtemp()))
        try:
            comparison.repository(number, room)
        finally:
            if kept:
                print("repository %d: %s" % (number, os.fsdecode(room)))
            else:
                shutil.rmtree(room)
    comparison.summary(count)
    return 1 if comparison.differences else 0

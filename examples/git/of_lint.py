"""Compares `globtree lint` and Git on trees made at random: which lines may go, alone and together, why, and that no other one may."""
import collections
import json
import os
import re
import shlex
import shutil
import subprocess
import tempfile

from ignore_stacks import Asker, differ, paths_in, shared_samples, sign_and_pattern
from lint_trees import LintTree
from of_globtree import GLOBTREE, shown
from trees import ALONE, BYTE_ORDER_MARK, IGNORE_FILE

# names of findings of lines that make no difference
COVERED = {"repeated", "covered", "overruled"}
IDLE = COVERED | {"matches-nothing", "below-ignored", "nothing-to-take-back"}
NO_VERDICT = re.compile(rb"warning: (\d+) lines? got no verdict\n")
TRACKED = re.compile(r"(\d+) tracked files? that it matches stays? tracked")
MOST_ROUNDS = 8


class Comparison:
    """The trees, what was found right, and what was not."""

    def __init__(self):
        self.right, self.wrong, self.counts = collections.Counter(), 0, collections.Counter()

    def tree(self, seed, room):
        self.seed, self.tree_of_seed, self.top = seed, LintTree(seed), os.path.join(room, b"top")
        self.environment = environment_in(room)
        self.tree_of_seed.make(self.top)
        if self.tree_of_seed.tracked:
            run(["git", "-C", self.top, "--literal-pathspecs", "add", "-f", "--", *self.tree_of_seed.tracked], self.environment)
        os.mkdir(os.path.join(room, b"asked"))
        self.asker = Asker(os.path.join(room, b"asked"), self.environment, self.tree_of_seed.is_folding)
        self.stack = self.stack_read()
        self.questions = self.all_questions()
        self.before = self.asker.ask(self.stack, self.questions)
        findings, _ = self.linted(["--all"])
        self.findings(findings)
        self.tracked(findings)
        self.fixed(["--all"], findings)
        self.fixed([], self.linted([])[0])
        self.below_a_folder()
        self.rounds(findings)

    # ---- what is asked

    def stack_read(self):
        """The ignore files that are read: none below an ignored folder."""
        stack = self.tree_of_seed.stack
        answers = self.asker.ask(stack, [(folder[:-1], True) for folder in stack.files if folder])
        self.asker.answer()
        return stack.within(lambda folder: not folder or not answers[folder[:-1], True][1])

    def all_questions(self):
        """Each path of three names on three levels below each file, samples of the lines, and some more, as a file and as a folder."""
        tree, (samples, joined) = self.tree_of_seed, shared_samples(self.stack)
        some = tree.random.sample(sorted(joined), min(len(joined), 60))
        below = {folder + path for folder in self.stack.files for path in tree.paths}
        return self.questions_about({*below, *samples, *some, *tree.distant_paths(40)})

    def questions_about(self, paths):
        return [(path, is_dir) for path in sorted(filter(self.is_clear, paths)) for is_dir in (False, True)]

    def is_clear(self, path):
        """Whether it lies below no folder whose name differs in case alone from one that has a file: where case is folded, they are one."""
        is_folding = self.tree_of_seed.is_folding
        return all(path.startswith(it) or not is_folding or not path.lower().startswith(it.lower()) for it in self.stack.files)

    # ---- what runs

    def globtree(self, words):
        options = ["--ignore-case"] if self.tree_of_seed.is_folding else []
        return run([GLOBTREE, "-C", self.top, *options, "lint", *words], self.environment)

    def linted(self, words):
        """The findings, and how many lines got no verdict."""
        findings, unknown, fault = linted(self.globtree([*words, "--json"]))
        self.judge("runs", not fault, fault)
        return findings, unknown

    def judge(self, what, is_right, *told):
        if is_right:
            self.right[what] += 1
            return
        self.wrong += 1
        print("--lint --seed %d --count 1: %s: %s" % (self.seed, what, " ".join(shown(it if isinstance(it, bytes) else str(it).encode()) for it in told)))

    # ---- what is found

    def findings(self, findings):
        """Each line that makes no difference, as it is said, and all of them together."""
        asked = []
        for finding in findings:
            place, line = place_of(finding), self.stack.line(place_of(finding))
            is_line = finding["text"] == line.decode(errors="replace") and 1 <= finding["column"] <= finding["end"] <= len(line) + 1
            self.judge("lines of findings", is_line, json.dumps(finding))
            if finding["name"] in IDLE:
                asked.append((finding, self.asker.ask(self.stack.without([place]), self.questions), *self.reasons(finding)))
        together = self.asker.ask(self.stack.without(idle_places(findings)), self.questions)
        self.asker.answer()
        for finding, after, matched, others in asked:
            place = place_of(finding)
            self.judge("lines that may go", not differ(self.before, after), *place, finding["name"], *differ(self.before, after)[:1])
            self.judge("reasons", self.is_reason(finding, matched, others), json.dumps(finding))
        self.judge("sets of lines that may go together", not differ(self.before, together), *differ(self.before, together)[:1])

    def reasons(self, finding):
        """What the line matches alone, and what the other line of its reason does."""
        because = finding.get("because")
        return self.matched(place_of(finding)), self.matched(place_of(because)) if because else None

    def matched(self, place):
        return self.asker.matched(place, self.stack.line(place), self.questions)

    def is_reason(self, finding, matched, others):
        """Whether the reason holds for all paths that were asked."""
        place, paths = place_of(finding), paths_in(matched)
        name, because = finding["name"], finding.get("because")
        if name in ("matches-nothing", "nothing-to-take-back"):
            return because is None and (name == "nothing-to-take-back" or not paths)
        if because is None or because["text"] != self.stack.line(place_of(because)).decode(errors="replace"):
            return False
        other, by = place_of(because), paths_in(others)
        if name == "below-ignored":
            return all(self.before[question] == (other, True) for question in paths)
        signs = {sign_and_pattern(self.stack.line(it))[0] for it in (place, other)}
        is_later = self.order(other) > self.order(place)
        is_right = len(signs) == 2 and is_later if name == "overruled" else len(signs) == 1
        return is_right and (paths == by if name == "repeated" else paths <= by)

    def order(self, place):
        return list(self.stack.files).index(place[0]), place[1]

    def below_a_folder(self):
        """What is found where one of the folders is asked about: of its files and those below alone, and all these lines may go, too."""
        folders = [folder for folder in self.stack.files if folder]
        for folder in folders and self.tree_of_seed.random.sample(folders, 1):
            findings, _ = self.linted(["--all", folder])
            after = self.asker.ask(self.stack.without(idle_places(findings)), self.questions)
            self.asker.answer()
            is_below = all(place_of(it)[0].startswith(folder) for it in findings)
            self.judge("folders", is_below and not differ(self.before, after), folder, *differ(self.before, after)[:1])

    # ---- tracked files

    def tracked(self, findings):
        """Whether of each line is told how many tracked files it decides, and which is the first."""
        tracked = sorted(self.tree_of_seed.tracked)
        answers = self.asker.ask(self.stack, [(path, False) for path in tracked])
        self.asker.answer()
        of_lines = collections.defaultdict(list)
        for path in tracked:
            place, is_ignored = answers[path, False]
            if is_ignored:
                of_lines[place].append(path)
        told = {}
        for finding in findings:
            if finding["name"] == "tracked":
                count = TRACKED.fullmatch(finding["message"])
                told[place_of(finding)] = (int(count[1]), os.fsencode(shlex.split(finding["try"])[-1]))
        self.judge("tracked files", told == {place: (len(paths), paths[0]) for place, paths in of_lines.items()}, told)

    # ---- without the lines

    def fixed(self, words, findings):
        """Whether --fixed prints each file without the lines of which a warning says that they may go, and no answer changes by that."""
        gone = {place_of(it) for it in findings if it["name"] in IDLE and it["level"] == "warning"}
        left = self.stack.without(gone)
        for folder in self.stack.files:
            ran = self.globtree([*words, "--fixed", folder + IGNORE_FILE])
            wanted = b"".join(left.files[folder])
            self.judge("fixed files", ran.returncode == 0 and is_as(ran.stdout, wanted) and not ran.stderr, folder, ran.stdout + ran.stderr)
        after = self.asker.ask(left, self.questions)
        self.asker.answer()
        self.judge("sets of fixed files", not differ(self.before, after), *differ(self.before, after)[:1])

    def without_effect(self, places, questions):
        """The lines at these places without which no answer to the questions is another one."""
        left = self.asker.ask(self.stack, questions)
        without = {place: self.asker.ask(self.stack.without([place]), questions) for place in places}
        self.asker.answer()
        return [place for place in places if not differ(left, without[place])]

    def rounds(self, findings):
        """Takes out what may go until there is nothing. Then a path shows of each line that it changes an answer, or so many got no verdict."""
        unknown = 0
        for _ in range(MOST_ROUNDS):
            gone = idle_places(findings)
            self.counts["rounds"] += 1
            self.stack = self.stack.without(gone)
            self.stack.make(self.top)
            findings, unknown = self.linted(["--all"])
            if not idle_places(findings):
                break
        left = self.asker.ask(self.stack, self.questions)
        self.asker.answer()
        self.judge("rounds", not idle_places(findings) and not differ(self.before, left), *differ(self.before, left)[:1])
        places = self.stack.places()
        idle = self.without_effect(places, self.questions)
        if len(idle) > unknown:
            idle = self.without_effect(idle, self.questions_about(shared_samples(self.stack)[1]))
        self.right["lines that change an answer"] += len(places) - len(idle)
        self.counts["lines without a verdict"] += unknown
        self.judge("numbers of lines without a verdict", len(idle) <= unknown, unknown, *(b"%s:%d: %s" % (*place, self.stack.line(place)) for place in idle))


# ---- runs, for of_packages, too

def environment_in(room):
    """The variables of a run that sees nothing of the machine's settings."""
    home = os.path.join(room, b"home")
    kept = {name: value for name, value in os.environ.items() if not name.startswith("GIT_")}
    return {**kept, **ALONE, "HOME": home, "XDG_CONFIG_HOME": home, "LC_ALL": "C"}


def run(command, environment):
    return subprocess.run(command, stdin=subprocess.DEVNULL, stdout=subprocess.PIPE, stderr=subprocess.PIPE, env=environment, check=False)


def linted(ran):
    """The findings of a run with --json, how many lines got no verdict, and what was reported beside that, or a status that doesn't fit."""
    findings = [json.loads(line) for line in ran.stdout.splitlines()]
    unknown = NO_VERDICT.fullmatch(ran.stderr)
    fault = b"" if unknown else ran.stderr
    if ran.returncode != (1 if findings else 0):
        fault += b"status %d" % ran.returncode
    return findings, int(unknown[1]) if unknown else 0, fault


def place_of(finding):
    """The folder of a finding's file, and its line."""
    return os.fsencode(finding["file"]).removesuffix(IGNORE_FILE), finding["line"]


def idle_places(findings):
    return [place_of(it) for it in findings if it["name"] in IDLE]


def is_as(text, wanted):
    """Whether two files have the same lines; a byte order mark says nothing."""
    return text.removeprefix(BYTE_ORDER_MARK) == wanted.removeprefix(BYTE_ORDER_MARK)


def compare_lint(count, seed, with_globtree, kept):
    """Compares so many trees, the first made from the seed. The status is 1 where anything is wrong."""
    if not with_globtree:
        return 0
    comparison = Comparison()
    for number in range(seed, seed + count):
        room = os.fsencode(tempfile.mkdtemp())
        try:
            comparison.tree(number, room)
        finally:
            if kept:
                print("tree %d of lint: %s" % (number, os.fsdecode(room)))
            else:
                shutil.rmtree(room)
    right, told = comparison.right, comparison.counts
    print("%d trees linted: %s right, %d lines without a verdict, %d wrong" % (
        count, ", ".join("%d %s" % (right[it], it) for it in sorted(right)), told["lines without a verdict"], comparison.wrong))
    return 1 if comparison.wrong else 0

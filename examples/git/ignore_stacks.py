"""Ignore files by the folders that they lie in, sample paths of their lines, and Git, asked about many such stacks at once."""
import collections
import os
import re
import subprocess

from trees import BYTE_ORDER_MARK, IGNORE_FILE, make_repository, write


class Stack:
    """Ignore files by the folder that each lies in, which ends in a slash or is empty: the lines of each, with their ends."""

    def __init__(self, files):
        self.files = {folder: files[folder] for folder in sorted(files, key=lambda it: (it.count(b"/"), it))}

    def texts(self):
        return {folder: b"".join(lines) for folder, lines in self.files.items()}

    def places(self):
        """The folder and the number, from 1, of each line that isn't blank to a reader, and no comment."""
        return [(folder, at + 1) for folder, lines in self.files.items() for at, line in enumerate(lines) if not is_silent(line)]

    def line(self, place):
        """The line at a place, as a reader sees it."""
        return shown_line(self.files[place[0]][place[1] - 1])

    def without(self, places):
        """The files without the lines at these places."""
        gone = set(places)
        return Stack({folder: [line for at, line in enumerate(lines) if (folder, at + 1) not in gone] for folder, lines in self.files.items()})

    def within(self, is_kept):
        """The files in some of the folders."""
        return Stack({folder: lines for folder, lines in self.files.items() if is_kept(folder)})

    def make(self, top):
        for folder, text in self.texts().items():
            os.makedirs(os.path.join(top, folder), exist_ok=True)
            write(os.path.join(top, folder, IGNORE_FILE), text)


def shown_line(line):
    line = line.removesuffix(b"\n").removesuffix(b"\r")
    return line.removeprefix(BYTE_ORDER_MARK)


def is_silent(line):
    line = shown_line(line)
    return not line.strip(b" \t\r\v\f") or line.startswith(b"#")


def sign_and_pattern(line):
    """Whether a line takes back, and its pattern."""
    return line.startswith(b"!"), line.removeprefix(b"!")


class Asker:
    """Git, asked about many stacks of ignore files at once: each lies in folders of its own below one top.

    Whether a folder is ignored is asked of a file in it that the last line of each ignore file takes back, so that it needn't be there."""

    FILE = b"@@"

    def __init__(self, top, environment, is_folding):
        self.top, self.environment, self.is_folding = top, environment, is_folding
        self.rooms, self.asked = 0, []
        make_repository(os.path.join(top, b".git"))

    def room(self, stack):
        """Lays a stack down; the name of its folder."""
        self.rooms += 1
        room = b"%d/" % self.rooms
        os.mkdir(os.path.join(self.top, room))
        for folder, text in stack.texts().items():
            os.makedirs(os.path.join(self.top, room, folder), exist_ok=True)
            write(os.path.join(self.top, room, folder, IGNORE_FILE), text + b"\n!" + self.FILE)
        return room

    def ask(self, stack, questions):
        """Keeps questions about a stack, each of a path and whether it is a folder's. The answers are a dict, filled by `answer`."""
        answers, rooms = {}, collections.defaultdict(list)
        for path, is_dir in questions:
            # a path that is a file's has no ignore files below
            is_apart = not is_dir and any(folder.startswith(path + b"/") for folder in stack.files)
            rooms[path + b"/" if is_apart else None].append((path, is_dir))
        for apart, those in rooms.items():
            room = self.room(stack if apart is None else stack.within(lambda folder: not folder.startswith(apart)))
            self.asked += [(room, question, answers) for question in those]
        return answers

    def answer(self):
        """Asks Git what was kept: of each question the folder and the number of the line that decides, or None, and whether the path is ignored."""
        paths = [room + path + (b"/" + self.FILE if is_dir else b"") for room, (path, is_dir), _ in self.asked]
        case = "core.ignorecase=%s" % ("true" if self.is_folding else "false")
        words = ["git", "-c", case, "-C", self.top, "check-ignore", "-v", "-n", "-z", "--no-index", "--stdin"]
        output = subprocess.run(words, input=b"".join(path + b"\0" for path in paths), stdout=subprocess.PIPE, env=self.environment, check=False).stdout
        for (room, question, answers), (file, line, pattern, _) in zip(self.asked, zip(*[iter(output.split(b"\0")[:-1])] * 4), strict=True):
            is_told = file != b"" and pattern != b"!" + self.FILE
            place = (file[len(room):].removesuffix(IGNORE_FILE), int(line)) if is_told else None
            answers[question] = (place, is_told and not pattern.startswith(b"!"))
        self.asked = []

    def matched(self, place, line, questions):
        """Keeps questions which paths a line at a place matches, whatever lies above: with `!` in front it ignores nothing."""
        pattern = trimmed(sign_and_pattern(line)[1])
        # (a slash at its end, which is for folders, is taken off where folders are asked)
        files = self.ask(Stack({place[0]: [b"!" + pattern]}), [(path, False) for path, is_dir in questions if not is_dir])
        folders = self.ask(Stack({place[0]: [b"!" + pattern.removesuffix(b"/")]}), [(path, False) for path, is_dir in questions if is_dir])
        return files, folders


def trimmed(pattern):
    """A pattern without the spaces at its end, but an escaped one."""
    left = pattern.rstrip(b" ")
    return left + b" " if left != pattern and re.search(rb"(?<!\\)(?:\\\\)*\\$", left) else left


def paths_in(matched):
    """The paths that answers say are matched."""
    files, folders = ({path for (path, _), answer in answers.items() if answer[0]} for answers in matched)
    return {(path, False) for path in files} | {(path, True) for path in folders}


def differ(left, right):
    """The questions to which one answers that the path is ignored, and the other that it isn't."""
    return [question for question in left if left[question][1] != right[question][1]]


# ---- sample paths

def filled(pattern, name, folder):
    """A path that a pattern may match, in which stars stand for a name, and folders of any name for a folder."""
    path, at = b"", 0
    # (a run of stars directly behind the literal front is as one at the beginning)
    front = re.match(rb"[^*?[\\]*", pattern).end()
    while at < len(pattern):
        is_bounded = at in (0, front) or pattern[at - 1:at] == b"/"
        token = re.compile(rb"\*\*+/|" * is_bounded + rb"\\(.)|\*+|\?|\[[!^]?\]?(?:\[:\w+:\]|\\.|[^]\\])*\]|.", re.S).match(pattern, at)
        text, at = token[0], token.end()
        if text.startswith(b"*"):
            path += folder if text.endswith(b"/") else name
        elif text == b"?":
            path += b"x"
        else:
            path += of_set(text) if text.startswith(b"[") and len(text) > 2 else token[1] or text
    return path


def of_set(text):
    """A byte that a set of this kind may hold, where case is folded, too."""
    try:
        held = re.compile(b"[" + re.sub(rb"^!", b"^", text[1:]).replace(b"[:alpha:]", b"a-zA-Z").replace(b"[", b"\\["), re.I)
    except re.error:
        return b"a"
    return next((bytes([byte]) for byte in b"abcdefghijklmnopqrstuvwxyzABC019-_." if held.match(bytes([byte]))), b"a")


def samples(folder, line):
    """Paths that the line of the file in a folder may match."""
    pattern = trimmed(sign_and_pattern(line)[1]).removesuffix(b"/")
    if b"/" not in pattern:
        pattern = b"**/" + pattern
    found = {folder + filled(pattern.removeprefix(b"/"), *by) for by in ((b"", b""), (b"x", b""), (b"x", b"x/"), (b"xx", b"x/x/"))}
    return {path for path in found if is_real(path)}


def shared_samples(stack):
    """Samples of each line; and the last part of some of them in the folders of others."""
    alone = {path for folder, number in stack.places() for path in samples(folder, stack.line((folder, number)))}
    joined = {os.path.join(os.path.dirname(one), os.path.basename(other)) for one in alone for other in alone}
    return alone, {path for path in joined if is_real(path)} - alone


def is_real(path):
    """Whether a work tree can have the path."""
    return all(part not in (b"", b".", b"..", b".git", IGNORE_FILE) for part in path.split(b"/")) and b"\0" not in path and b"\n" not in path

"""Compares globline and Git on one work tree: which line of which ignore file decides about each path."""
import collections
import os
import subprocess
import sys
import tempfile

from documents import kinds_in
from trees import BYTE_ORDER_MARK, IGNORE_FILE, has_stars_after_a_literal_front, is_white

HERE = os.path.dirname(os.path.realpath(__file__))
CHAPTER = "From Git, by the crate's reading"
NAMED, UNNAMED = kinds_in(CHAPTER), f"not named in {CHAPTER}"
# of each kind of differences that is named, so many are shown
SHOWN = 3
GLOBLINE = os.environ.get("GLOBLINE") or os.path.join(HERE, "..", "..", "globline")


# ---- the two programs

def git(folder, words, lines=None):
    """What Git writes in the folder, with case kept and no excludes from outside the tree."""
    command = ["git", "-c", "core.ignorecase=false", "-c", "core.excludesFile=/dev/null", "-C", folder] + words
    run = subprocess.run(command, input=lines, stdout=subprocess.PIPE, stderr=subprocess.PIPE)
    if run.returncode > 1:
        sys.exit("compare: " + os.fsdecode(run.stderr).strip())
    return run.stdout


def git_answers(folder, paths):
    """For each path the file and the number of the line that decides, and its text; None where no line does."""
    if not paths:
        return []
    asked = b"".join(path + b"\0" for path in paths)
    # -z only keeps paths and patterns as they are: without it Git quotes some of them
    fields = git(folder, ["check-ignore", "-v", "-n", "--no-index", "--stdin", "-z"], asked).split(b"\0")[:-1]
    answers = []
    for source, number, pattern, _path in zip(*[iter(fields)] * 4):
        answers.append((source, int(number), pattern) if source else None)
    if len(answers) != len(paths):
        sys.exit("compare: git answered %d of %d paths" % (len(answers), len(paths)))
    return answers


def globline_answers(folder, files, paths):
    """For each path the file and the number of the line that decides, and the word about it; None where no line does."""
    if not files:
        return [None for _ in paths]
    names = [os.path.join(folder, file) for file in files]
    asked = b"".join(path + b"\n" for path in paths)
    command = [os.fsencode(GLOBLINE), b"ignore", b"sensitive", folder] + names
    run = subprocess.run(command, input=asked, stdout=subprocess.PIPE)
    lines = run.stdout.split(b"\n")[:-1]
    if run.returncode != 0 or len(lines) != len(paths):
        sys.exit("compare: globline ended with status %d after %d of %d lines" % (run.returncode, len(lines), len(paths)))
    answers = []
    for line in lines:
        if line == b"none":
            answers.append(None)
            continue
        word, place = line.split(b" ")
        list_number, number = place.split(b":")
        answers.append((files[int(list_number) - 1], int(number), word))
    return answers


# ---- the paths of a tree

def is_excluded(answer):
    return answer is not None and not answer[2].startswith(b"!")


def within_the_tree(answer):
    """The answer, but for one of `.git/info/exclude`, which globline is not given: then no line of the tree decides."""
    return answer if answer is not None and os.path.basename(answer[0]) == IGNORE_FILE else None


def walk(folder):
    """The ignore files and the paths below the folder, each with whether it is a folder, and what Git answers for them."""
    files, entries, answers = [], [], []
    level = [b""]
    while level:
        files += [below + IGNORE_FILE for below in level if is_ignore_file(os.path.join(folder, below + IGNORE_FILE))]
        found = [entry for below in level for entry in children(folder, below)]
        told = git_answers(folder, [path for path, _ in found])
        entries += found
        answers += told
        level = [
            path + b"/"
            for (path, is_folder), answer in zip(found, told)
            if is_folder and not is_excluded(answer) and not os.path.lexists(os.path.join(folder, path, b".git"))
        ]
    return files, entries, answers


def is_ignore_file(name):
    return os.path.isfile(name) and not os.path.islink(name)


def children(folder, below):
    """The paths directly below a folder. One with a line feed in its name can't be asked about in lines."""
    for entry in sorted(os.scandir(os.path.join(folder, below)), key=lambda entry: entry.name):
        if entry.name != b".git" and b"\n" not in entry.name:
            yield below + entry.name, entry.is_dir(follow_symlinks=False)


def ways_to_tell(path, is_folder):
    """The path as users write it."""
    below = os.path.dirname(path) + b"/" if b"/" in path else b""
    ways = {path: None, b"./" + path: None, b"no/../" + path: None, below + b"./" + os.path.basename(path): None}
    return [*ways, *[path + behind for behind in (b"/", b"/.", b"/./", b"/no/..", b"/no/../") if is_folder]]


# ---- differences

def reason(folder, path, answers, of_folder):
    """Why the two answers may differ, by the bold words of the chapter, or None. `of_folder` has the two answers
    about the folder that the path names, Git's without its slash and globline's with it, or is None."""
    if set(path.rstrip(b"/").split(b"/")) & {b".", b".."}:
        return "paths"
    for answer in answers:
        why = reason_of_line(folder, answer) if answer else None
        if why:
            return why
    if of_folder and same_line(*of_folder):
        return "a slash at the end"
    return None


def reason_of_line(folder, answer):
    with open(os.path.join(folder, answer[0]), "rb") as file:
        lines = file.read().removeprefix(BYTE_ORDER_MARK).split(b"\n")
    line = lines[answer[1] - 1]
    if b"\0" in line:
        return "a byte 0"
    if is_white(line):
        return "a line of white space other than spaces"
    if answer[1] == len(lines) and line.endswith(b"\r"):
        return "a last carriage return without a line feed"
    if has_stars_after_a_literal_front(line):
        return "two stars directly after a literal front"
    return None


def shown(answer):
    if answer is None:
        return "no line"
    return "%s:%d (%s)" % (os.fsdecode(answer[0]), answer[1], ascii(os.fsdecode(answer[2])))


def compare(folder):
    if git(folder, ["rev-parse", "--show-prefix"]).strip():
        sys.exit("compare: %s is not the top of a work tree" % os.fsdecode(folder))
    files, entries, without_slash = walk(folder)
    asked = [(told, path) for path, is_folder in entries for told in ways_to_tell(path, is_folder)] + [(b".", b""), (b"./", b"")]
    of_git = git_answers(folder, [told for told, _ in asked])
    of_globline = globline_answers(folder, files, [told for told, _ in asked])
    with_slash = {told: found for (told, _), found in zip(asked, of_globline) if told.endswith(b"/")}
    of_folders = {
        path: (within_the_tree(answer), with_slash[path + b"/"])
        for (path, is_folder), answer in zip(entries, without_slash) if is_folder
    }
    kinds = collections.Counter()
    for (told, path), answer, found in zip(asked, of_git, of_globline):
        expected = within_the_tree(answer)
        if same_line(expected, found):
            continue
        why = reason(folder, told, [expected, found], of_folders.get(path))
        kind = why if why in NAMED else UNNAMED
        kinds[kind] += 1
        if kind == UNNAMED or kinds[kind] <= SHOWN:
            print("%s: git %s, globline %s: %s" % (ascii(os.fsdecode(told)), shown(expected), shown(found), kind))
    for kind, count in sorted(kinds.items()):
        print("%s: %d" % (kind, count))
    print("%d paths, asked in %d ways, %d differences" % (len(entries), len(asked), sum(kinds.values())))
    return 1 if kinds[UNNAMED] else 0


def same_line(expected, found):
    if expected is None or found is None:
        return expected is found
    word = b"kept" if expected[2].startswith(b"!") else b"ignored"
    return (expected[0], expected[1], word) == found


# ---- a trial tree

TRIAL_FILES = {
    b".gitignore": BYTE_ORDER_MARK + b"*.o\n"
    b"# a comment\n"
    b"\n"
    b"!keep.o\r\n"
    b"/rooted\n"
    b"build/\n"
    b"/out/\n"
    b"doc/*.txt\n"
    b"!doc/read.txt\n"
    b"**/deep\n"
    b"logs/**\n"
    b"!logs/**/\n"
    b"!logs/**/keep.log\n"
    b"a/**/z\n"
    b"*.[ch]\n"
    b"![!a-m]*.c\n"
    b"[[:digit:]]*.dat\n"
    b"set[]x]\n"
    b"neg[^a]\n"
    b"q?\n"
    b"\\#hash\n"
    b"\\!bang\n"
    b"star\\*\n"
    b"back\\\\slash\n"
    b"spaces  \n"
    b"kept\\ \n"
    b"   \n"
    b"crlf\r\n"
    b"tab\t\n"
    b"!/nested/special.tmp\n"
    b"*.tmp\n"
    b"Case\n"
    b"x/y/z/\n"
    b"/*.top\n"
    b"mid*dle\n"
    b"***/three\n"
    b"trail\\\n"
    b"un[closed\n"
    b"high\xc3\xa9\n"
    b"last",
    b"nested/.gitignore": b"!*.o\n/anchored\ninner/\n!special.tmp\nsub/file\n",
    b"nested/inner2/.gitignore": b"*\n!.gitignore\n!*/\n!*.keep\n",
    b"white/.gitignore": b"\t\nend\r",
    b"stars/.gitignore": b"front**/x\n",
}

TRIAL_PATHS = [
    b"a.o", b"keep.o", b"dir/keep.o", b"dir/a.o", b"rooted", b"dir/rooted", b"build/x", b"dir/build/x", b"file/build",
    b"out/x", b"dir/out/x", b"doc/a.txt", b"doc/read.txt", b"doc/sub/a.txt", b"deep/x", b"d/e/deep", b"logs/a.log",
    b"logs/keep.log", b"logs/x/keep.log", b"logs/x/b.log", b"a/z", b"a/b/z", b"a/b/c/z", b"b/a/z", b"m.c", b"n.c", b"m.h",
    b"n.h", b"1.dat", b"x1.dat", b"set]", b"setx", b"sety", b"nega", b"negb", b"q", b"qq", b"qqq", b"#hash", b"!bang",
    b"star*", b"starx", b"back\\slash", b"spaces", b"spaces ", b"kept", b"kept ", b"crlf", b"crlf\r", b"tab", b"tab\t",
    b"# a comment", b"other.tmp", b"special.tmp", b"nested/special.tmp", b"nested/other.tmp", b"Case", b"case",
    b"x/y/z/w", b"w/x/y/z/w", b"a.top", b"dir/a.top", b"middle", b"midxdle", b"mid", b"three", b"s/t/three", b"trail",
    b"trail\\", b"un[closed", b"unc", b"high\xc3\xa9", b"last", b"dir/last", b"nested/a.o", b"nested/anchored",
    b"nested/x/anchored", b"nested/inner/x", b"nested/sub/file", b"nested/sub/sub/file", b"nested/inner2/a",
    b"nested/inner2/a.keep", b"nested/inner2/b/a.keep", b"nested/inner2/b/a", b"white/\t", b"white/end", b"white/end\r",
    b"stars/front/a/x", b"stars/fronta/x", b"stars/front/x", b"none", b"dir/none",
]


def make_trial_tree(folder):
    git(folder, ["init", "-q"])
    for path, text in list(TRIAL_FILES.items()) + [(path, b"") for path in TRIAL_PATHS]:
        name = os.path.join(folder, path)
        os.makedirs(os.path.dirname(name), exist_ok=True)
        with open(name, "wb") as file:
            file.write(text)


def compare_trial_tree():
    with tempfile.TemporaryDirectory() as folder:
        make_trial_tree(os.fsencode(folder))
        return compare(os.fsencode(folder))

#!/usr/bin/env python3
"""Answers rows of work trees, of attributes, of configuration, of repositories and of tracked paths by Git: tools/vectors examples/vectors/git.py [PROGRAM [LIBRARY]]

PROGRAM is another one that takes Git's words, as `globtree` does. LIBRARY is what a C compiler makes of .ci/exchange.c: by it also what
`globtree` looks at is asked."""
import contextlib
import os
import re
import subprocess
import sys
import tempfile

import rows

PROGRAM = os.path.abspath(sys.argv[1]) if sys.argv[1:] else "git"
IS_GIT = PROGRAM == "git"
LIBRARY = [os.path.abspath(it) for it in sys.argv[2:]]
ALONE = {"PATH": os.environ["PATH"], "HOME": "/nonexistent", "GIT_CONFIG_NOSYSTEM": "1"}
# What Git reads from its configuration is an option of globtree. The system's file has a place that is built into Git.
FOLDS = ["-c", "core.ignoreCase=true"] if IS_GIT else ["--ignore-case"]
EXCLUDES = ["-c", "core.excludesFile=.excludes"] if IS_GIT else ["--excludes", ".excludes"]
OUTER = ["-c", "core.attributesFile=user"] if IS_GIT else ["--system", "system", "--attributes", "user"]
NO_INDEX = ["--no-index"] if IS_GIT else []
# Git compares a literal front first, and then the stars as if they stood at the front: no row of matching asks that.
STARS_BEHIND_FRONT = re.compile(rb"[^*?[\\]*[^*?[\\/]\*\*")
WORDS_OF_STATES = (b"=set", b"=unset", b"=unspecified")


def ask(top, options, words, asked):
    """What is written for the bytes that are asked; no bytes where the program fails."""
    ran = subprocess.run([PROGRAM, "-C", top, *options, *words], input=asked, env=ALONE, capture_output=True, check=False)
    return ran.stdout if ran.returncode < 2 else b""


def trees(case, path, *fields):
    return check_ignore(case, path, path.rstrip(b"/"), fields)


def trees_told(case, there, path, *fields):
    return check_ignore(case, path if there == b"folder" else b"other", path, fields)


def git_told(case, there, told, *fields):
    return check_ignore(case, there or b"other", told, fields)


def check_ignore(case, there, path, fields):
    """Which line decides about a path, of a repository with these files that has what is there."""
    files = rows.ignore_files(fields)
    if not IS_GIT and not rows.is_text(path):
        return ()
    with rows.repository_of(files) as top:
        for each in there.split(b"\n"):
            rows.make(top, each)
        options = [*(FOLDS if case == b"fold" else []), *(EXCLUDES if files and files[0][0] == b".excludes" else [])]
        told = ask(top, options, ["check-ignore", "-v", "-n", "-z", *NO_INDEX, "--stdin"], path + b"\0").split(b"\0")
        names = [name for name, _ in files]
        return [f"{names.index(told[0]) + 1}:{told[1].decode()}" if told[0] else None if told[1:] else "a fault"]


# How a run of check-ignore ends that tells a fault.
ENDINGS = (
    # (of a folder that isn't there Git tells nothing else)
    (rb"outside (repository|the work tree)|Invalid path '", b"outside"),
    (rb"empty string|empty text", b"empty"),
    (rb"badly quoted", b"badly quoted"),
    (rb"beyond a symbolic link", b"link"),
    (rb"pathspec magic|another sign", b"unspelt"),
)
# Where a record is told from the root, behind the sign of a path that is no pattern.
FROM_ROOT = re.compile(rb"^(|::|:\([a-z]*\))/(?=[^.\n])", re.M)
IGNORE_FILE = b".gitignore"
NAME_OF_FILE = re.compile(rb"(^|(?<=[\n\0]))[^\n\0:]*\.gitignore(?=[\0:])")


def run_in_tree(root, here, letters, records, **variables):
    """Runs check-ignore in the folder of a tree, with the letters of options, on records that tell a path from the root of the row."""
    options = [b"-" + letters[at : at + 1] for at in range(len(letters))]
    command = [PROGRAM, "check-ignore", *NO_INDEX, "--stdin", *options]
    asked = FROM_ROOT.sub(lambda it: it[1] + root + b"/", records)
    return subprocess.run(command, cwd=os.path.join(root, b"w/t", here), input=asked, env={**ALONE, **variables}, capture_output=True, check=False)


def ignore_runs(here, letters, there, records, *fields):
    # (Git tells whatever else is wrong with a path from the root that is told from the top)
    if IS_GIT and records.startswith(b":(top)/"):
        return ()
    with rows.tree_of(there, fields) as root:
        ran = run_in_tree(root, here, letters, records)
        told = {0: b"some", 1: b"none"}.get(ran.returncode)
        ending = told or next((it for complaint, it in ENDINGS if re.search(rb"^fatal: .*(%s)" % complaint, ran.stderr, re.M)), ran.stderr)
        return [NAME_OF_FILE.sub(b"", ran.stdout.replace(root, b"")), ending]


def looked_at(here, letters, there, records, *fields):
    """A line for each path that is looked at, but for ignore files and, right before them, their folders."""
    if not LIBRARY:
        return ()
    with rows.tree_of(there, fields) as root:
        looks = looks_of(root, run_in_tree(root, here, letters, records, LD_PRELOAD=LIBRARY[0], ASKED="yes"))
    files = {at for at, it in enumerate(looks) if os.path.basename(it) == IGNORE_FILE}
    folders = {at - 1 for at in files if looks[at - 1] == os.path.dirname(looks[at])}
    return [b"".join(it + b"\n" for at, it in enumerate(looks) if at not in files | folders)]


def looks_of(root, ran):
    """What a run looked at behind the files of the repository: paths from the top, and with a slash in front those from the root."""
    _, _, told = ran.stderr.rpartition(b"\n.git/info/exclude\n")
    paths = [it.removeprefix(root) for it in told.split(b"\n") if it not in (b"", b".") and not it.startswith(b"fatal: ")]
    return [it for it in paths if it == b"/" or not (root + b"/").startswith(it + b"/")]


def trees_asked(paths, *fields):
    """Which line decides about each path, and the folders in brackets whose ignore files are looked at."""
    if not LIBRARY:
        return ()
    asked = paths.split(b"\n")
    folders = [path[: path.rfind(b"/") + 1] for path in asked]
    with rows.tree_of(b"\n".join(filter(None, folders)), fields) as root:
        ran = run_in_tree(root, b"", b"vnz", b"".join(path.removesuffix(b"/") + b"\0" for path in asked), LD_PRELOAD=LIBRARY[0], ASKED="yes")
    told = ran.stdout.split(b"\0")
    decisions = [file.removesuffix(IGNORE_FILE) + b":" + line if file else b"-" for file, line in zip(told[::4], told[1::4])]
    read = [os.path.dirname(it) for it in looks_of(root, ran) if os.path.basename(it) == IGNORE_FILE]
    return [b" ".join(decisions), b"".join(b"<" + it + b">" for it in read)]


def matching(mode, pattern, value):
    if not rows.is_lone(mode, pattern, value) or STARS_BEHIND_FRONT.match(pattern):
        return ()
    line = re.sub(rb'(["\\])', rb"\\\1", pattern).replace(b"\n", b"\\n")
    told = check_attributes(rows.case_of(mode), ["a"], value, [b".gitattributes", b'"/' + line + b'" a'])
    return () if told is None else rows.told(told[2:3] == [b"set"])


def git_paths(case, line, path, place, kind):
    # (what a line of attributes matches, it matches by itself; one that begins with ! is refused)
    if line.startswith(b"!") or not path or kind not in (b"file", b"folder"):
        return ()
    told = check_attributes(case, ["a"], path.removesuffix(b"/") + (b"/" if kind == b"folder" else b""), [b".gitattributes", quoted(line) + b" a"])
    return () if told is None else rows.told(told[2:3] == [b"set"])


def quoted(line):
    """The pattern of a line, as attribute files quote it."""
    return b'"' + re.sub(rb'(["\\])', rb"\\\1", line).replace(b"\n", b"\\n") + b'"'


def git_attributes(case, file, told, names):
    fields = check_attributes(case, names.split(b" "), told, [b".gitattributes", file])
    return () if fields is None else [b"".join(b" " + word(name, state) for name, state in zip(fields[1::3], fields[2::3]))]


def check_attributes(case, words, paths, fields):
    """The fields that check-attr writes for paths, each ended by a byte 0; None where it can't be asked."""
    files = rows.attribute_files(fields)
    if not IS_GIT and not all(rows.is_text(os.path.dirname(path)) for path in paths.split(b"\0")):
        return None
    if IS_GIT:
        # (so the lines of the system's file stand before the user's)
        outer = b"\n".join(text for name, text in sorted(files) if name in (b"system", b"user"))
        files = [*(file for file in files if file[0] != b"user"), (b"user", outer)]
    with rows.repository_of(files) as top:
        options = [*OUTER, *(FOLDS if case == b"fold" else [])]
        return ask(top, options, ["check-attr", "-z", "--stdin", *words], paths).split(b"\0")


def attribute_states(case, path, names, *fields):
    # (such values can't be told from the states of these names; and a command goes to the folder that `.` or `..` means)
    is_ambiguous = any(value in text for text in fields[1::2] for value in WORDS_OF_STATES)
    if is_ambiguous or not IS_GIT and not rows.is_plain(path):
        return ()
    told = check_attributes(case, names.split(b" "), path, fields)
    return () if told is None else [b"".join(b" " + word(name, state) for name, state in zip(told[1::3], told[2::3]))]


def all_states(path, file, stronger):
    told = check_attributes(b"sensitive", ["-a"], path, [b".gitattributes", file, b"info", stronger]) or []
    # (no attribute that is told is unspecified, so here this is a value)
    words = (name + b"=" + state if state == b"unspecified" else word(name, state) for name, state in zip(told[1::3], told[2::3]))
    return [b"".join(b" " + it for it in words)] if told else ()


def word(name, state):
    """A word that assigns the state."""
    return {b"set": name, b"unset": b"-" + name, b"unspecified": b"!" + name}.get(state, name + b"=" + state)


def attribute_streams(case, names, paths, *fields):
    if names is None or not all(map(rows.is_plain, paths.removesuffix(b"\0").split(b"\0"))):
        return ()
    told = check_attributes(case, names.split(b"\0"), paths, fields)
    return () if told is None else [b"\0".join(told)]


def attribute_names(name):
    if name.startswith(b"-"):
        return ()
    return rows.told(len(check_attributes(b"sensitive", [name], b"x", [])) > 1)


def read_configuration(text, words):
    """What Git tells of a file of configuration, and what it complains of."""
    with rows.folder_of([(b"file", text)]) as top:
        ran = subprocess.run(["git", "config", "--file", "file", *words], cwd=top, env=ALONE, capture_output=True, check=False)
    return ran.stdout, ran.stderr


def config_files(text):
    """What the user's file says, outside of a repository."""
    with rows.folder_of([(b".gitconfig", text)]) as top:
        ran = subprocess.run([PROGRAM, "config", "--list", "-z"], cwd=top, env={**ALONE, "HOME": top}, capture_output=True, check=False)
    line = re.search(rb"bad config line (\d+)", ran.stderr)
    return [b"bad " + line[1] if line else b"".join(entry.replace(b"\n", b"=", 1) + b"\n" for entry in ran.stdout.split(b"\0")[:-1])]


# What Git complains of where a file or a word includes what can't be had, or is wrong, and the words for it.
COMPLAINTS = (
    (rb"missing value for 'include.path'\n.*line (\d+) in file (.*)", b"no path \\1 \\2"),
    (rb"could not expand include path .*\n.*line (\d+) in file (.*)", b"no folder \\1 \\2"),
    (rb"bad config line (\d+) in file (.*)", b"bad \\1 \\2"),
    (rb"exceeded maximum include depth \(10\) while including[\n?]\t.*[\n?]from[\n?]\t([^\n?]*)", b"too deep \\1"),
    (rb"relative config includes must come from files", b"relative word"),
    (rb"unable to parse command-line config", b"bad word"),
    (rb"remote URLs cannot be configured in file directly or indirectly included", b"url in an included file"),
)
# The files that Git reads by itself, which have this place in a row.
READ = {b"/top/sys", b"/top/home/.config/git/config", b"/top/home/.gitconfig", b"/top/r/.git/config"}


def make_git_folder(git_folder, branch):
    """Makes a git folder, that of a linked work tree or one of its own, and tells a folder that Git finds it from."""
    head = b"ref: refs/heads/" + branch if branch else b"1" * 40
    main, _, linked = git_folder.partition(b"/worktrees/")
    for name in (b"objects/x", b"refs/x"):
        rows.write(os.path.join(main, name), b"")
    rows.write(main + b"/HEAD", head + b"\n")
    if not linked:
        return os.path.dirname(git_folder)
    rows.write(git_folder + b"/HEAD", head + b"\n")
    rows.write(git_folder + b"/commondir", b"../..\n")
    work_tree = os.path.join(os.path.dirname(os.path.dirname(main)), linked)
    rows.write(work_tree + b"/.git", b"gitdir: " + git_folder + b"\n")
    return work_tree


def config_includes(git_folder, branch, sources, words, *fields):
    """What files and words say with what they include, in a folder that stands for `/top`."""
    if not set(sources.split()) <= READ:
        return ()
    with rows.folder_of([]) as folder:
        top = os.path.realpath(os.fsencode(folder))
        here = [None if it is None else it.replace(b"/top", top) for it in (git_folder, words, *fields)]
        for path, text in zip(here[2::2], here[3::2]):
            rows.write(path, text)
        start = make_git_folder(here[0], branch) if here[0] else top
        is_told = b"/top/sys" in sources
        environment = {**ALONE, "HOME": os.fsdecode(top + b"/home"), "GIT_CONFIG_NOSYSTEM": str(int(not is_told)), "GIT_CONFIG_SYSTEM": os.fsdecode(top + b"/sys")}
        options = [part for word in here[1].split(b"\n") if word for part in (b"-c", word)]
        ran = subprocess.run([PROGRAM, *options, "config", "--list", "--show-origin", "-z"], cwd=start, env=environment, capture_output=True, check=False)
        told = listed(ran, start).replace(top, b"/top")
        return [told if IS_GIT else told_as_git(told, words, fields)]


def told_as_git(told, words, fields):
    """What is told by globtree, in the words for what Git tells: globtree tells where a line or word stands that is wrong, and no more."""
    if told == b"bad word\n" and b"include.path=" in words:
        return b"relative word\n"
    if wrong := re.match(rb"bad (\d+) (.*)\n", told):
        lines = dict(rows.pairs(fields))[wrong[2]].split(b"\n")
        line = b"".join(lines[int(wrong[1]) - 1 :][:1])
        return {b"path": b"no path", b"path=~": b"no folder"}.get(line[:6], b"bad") + told.removeprefix(b"bad")
    # (a long message is cut)
    front, cut, _ = told.partition(b"...\n")
    return next(b"too deep " + name + b"\n" for name in fields[::2] if (b"too deep " + name).startswith(front)) if cut else told


def listed(ran, start):
    """The entries that Git listed, or what it complained of."""
    for complaint, words in COMPLAINTS:
        if found := re.search(complaint, ran.stderr):
            return found.expand(words) + b"\n"
    told = ran.stdout.split(b"\0")[:-1]
    lines = []
    for origin, entry in zip(told[::2], told[1::2]):
        kind, _, path = origin.partition(b":")
        name = os.path.normpath(os.path.join(start, path)) if kind == b"file" else b""
        lines.append(name + b" " + entry.replace(b"\n", b"=", 1) + b"\n")
    return b"".join(lines)


# paths that Git writes over while it reads them, as `./a/../../b`: a fault here
WRITTEN_OVER = re.compile(rb"GIT_CONFIG_SYSTEM=(?:\.|\w+/)/\S*/\.\./\.\./")


def config_sources(variables, repository, work_tree, words):
    """Which files and words Git reads: each file that variables name has an entry."""
    if not IS_GIT or b"installed=" in variables or WRITTEN_OVER.search(variables):
        return ()
    with rows.folder_of([]) as folder:
        top = os.path.realpath(os.fsencode(folder))
        told = dict(line.replace(b"/top", top).split(b"=", 1) for line in variables.split(b"\n") if line)
        start = make_git_folder(top + b"/r/.git", b"main") if repository else top
        home, config_home = told.get(b"HOME"), told.get(b"XDG_CONFIG_HOME")
        files = [told.get(b"GIT_CONFIG_SYSTEM"), told.get(b"GIT_CONFIG_GLOBAL"), config_home and config_home + b"/git/config"]
        files += [home + b"/.config/git/config", home + b"/.gitconfig"] if home else []
        for path in filter(None, files):
            rows.write(os.path.join(start, path), b"[a]b")
        if repository:
            rows.write(start + b"/.git/config", b"[core]repositoryFormatVersion=0\n[extensions]worktreeConfig=" + rows.told(work_tree)[0].encode())
            rows.write(start + b"/.git/config.worktree", b"[a]b")
        ran = list_configuration(start, words, {b"GIT_CONFIG_NOSYSTEM": b"%d" % (b"GIT_CONFIG_SYSTEM" not in told), **told})
        origins, entries = ran.stdout.split(b"\0")[:-1:2], ran.stdout.split(b"\0")[1::2]
        sources = []
        for origin, entry in zip(origins, entries):
            kind, _, path = origin.partition(b":")
            line = path if kind == b"file" else b" " + entry.replace(b"\n", b"=", 1)
            if kind != b"file" or sources[-1:] != [line]:
                sources.append(line)
        complaints = re.findall(rb"^(?:error|fatal): (.*\n)", ran.stderr, re.M)
        return [None, b"".join(complaints)] if complaints else [b"".join(line + b"\n" for line in sources).replace(top, b"/top"), None]


def list_configuration(start, words, variables):
    """What Git lists of its configuration in a folder, with these words of its command line."""
    options = [part for word in words.split(b"\n") if word for part in (b"-c", word)]
    environment = {b"PATH": os.fsencode(os.environ["PATH"]), **variables}
    return subprocess.run(["git", *options, "config", "--list", "--show-origin", "-z"], cwd=start, env=environment, capture_output=True, check=False)


def core_settings(home, config_home, sources, words, *fields):
    """What Git matches and prints by its settings: each file that may be set has a line that tells its own name."""
    if not set(sources.split()) <= READ:
        return ()
    with rows.folder_of([]) as folder:
        top = os.path.realpath(os.fsencode(folder))
        home, config_home, words, *fields = (it and it.replace(b"/top", top) for it in (home, config_home, words, *fields))
        start = make_git_folder(top + b"/r/.git", b"main")
        for path, text in rows.pairs(fields):
            rows.write(path, text)
        rows.write(start + b"/.gitignore", b"a\n")
        folders = [config_home and config_home + b"/git", home and home + b"/.config/git"]
        values = re.findall(rb"(?i)(?:excludes|attributes)file *= *([^\s]+)", b"\n".join([words, *fields]))
        set_files = [(home or b"") + value[1:] if value.startswith(b"~/") else value for value in values if not value.startswith(b"~") or value.startswith(b"~/")]
        for path in [*set_files, *(it + name for it in filter(None, folders) for name in (b"/ignore", b"/attributes"))]:
            rows.write(os.path.join(start, path), b"x n=" + os.path.normpath(path).replace(top, b"/top") + b"\nx\n")
        given = {b"HOME": home, b"XDG_CONFIG_HOME": config_home, b"GIT_CONFIG_NOSYSTEM": b"%d" % (b"/top/sys" not in sources), b"GIT_CONFIG_SYSTEM": top + b"/sys"}
        environment = {b"PATH": os.fsencode(os.environ["PATH"]), **{key: value for key, value in given.items() if value is not None}}
        options = [part for word in words.split(b"\n") if word for part in (b"-c", word)]
        asked = lambda *its: subprocess.run([PROGRAM, *options, *its], cwd=start, env=environment, capture_output=True, check=False)
        ran = asked("check-ignore", "-v", "-n", "A", "\u00e4", "x")
        if fault := re.search(rb"^fatal: (.*)$", ran.stderr, re.M):
            return [fault[1].replace(top, b"/top"), None, None, None]
        folded, quoted, excluded = ran.stdout.split(b"\n")[:3]
        named = asked("check-attr", "n", "x").stdout.removeprefix(b"x: n: ").rstrip(b"\n")
        excludes = excluded.rsplit(b"\t", 1)[0].rsplit(b":", 2)[0].replace(top, b"/top")
        return [*rows.told(folded.startswith(b".gitignore")), *rows.told(b"\\303" in quoted), excludes or None, None if named == b"unspecified" else named]


def status_settings(home, sources, words, *fields):
    """Which files status tells where no option says it: in a folder with a file, or by the folder's name."""
    if not set(sources.split()) <= READ:
        return ()
    with rows.folder_of([]) as folder:
        top = os.path.realpath(os.fsencode(folder))
        home, words, *fields = (it and it.replace(b"/top", top) for it in (home, words, *fields))
        start = make_git_folder(top + b"/r/.git", b"main")
        for path, text in rows.pairs(fields):
            rows.write(path, text)
        rows.write(start + b"/d/x", b"")
        given = {b"PATH": os.fsencode(os.environ["PATH"]), b"HOME": home, b"GIT_CONFIG_NOSYSTEM": b"%d" % (b"/top/sys" not in sources), b"GIT_CONFIG_SYSTEM": top + b"/sys"}
        environment = {key: value for key, value in given.items() if value is not None}
        options = [part for word in words.split(b"\n") if word for part in (b"-c", word)]
        ran = subprocess.run([PROGRAM, *options, "status", "--porcelain"], cwd=start, env=environment, capture_output=True, check=False)
        if fault := re.search(rb"^fatal: (.*)$", ran.stderr, re.M):
            return [fault[1].replace(top, b"/top")]
        return [{b"": b"no", b"?? d/\n": b"normal", b"?? d/x\n": b"all"}[ran.stdout]]


def config_booleans(value):
    quoted = b"" if value is None else b'="' + re.sub(rb'(["\\])', rb"\\\1", value) + b'"'
    if IS_GIT:
        told, _ = read_configuration(b"[a]b" + quoted, ["--type=bool", "a.b"])
        return [{b"true\n": "yes", b"false\n": "no"}.get(told)]
    with rows.repository_of([(b".git/config", b"[core]ignoreCase" + quoted), (b".gitignore", b"a\n")]) as top:
        ran = subprocess.run([PROGRAM, "-C", top, "check-ignore", "A"], env=ALONE, capture_output=True, check=False)
        return [{0: "yes", 1: "no"}.get(ran.returncode)]


def tracked_paths(format_, index, asked, literal):
    """Whether no line decides about a path, though one ignores all: it is told from the folder of its literal front."""
    folder, told = asked[:int(literal)], asked[int(literal):].lstrip(b"/")
    config = b"[core]\nrepositoryFormatVersion=1\n[extensions]\nobjectFormat=%s\n" % format_
    with rows.repository_of([(b".git/config", config), (b".git/index", index), (b".gitignore", b"*\n")]) as top:
        start = os.path.join(os.fsencode(top), folder)
        os.makedirs(start, exist_ok=True)
        ran = subprocess.run([PROGRAM, "check-ignore", "-v", "-n", "-z", "--stdin"], cwd=start, input=(told or b".") + b"\0", env=ALONE, capture_output=True, check=False)
    if b"submodule" in ran.stderr:
        named = re.search(rb"is in submodule '(.*)'$", ran.stderr, re.M)
        return [*rows.told(False), named[1]] if named else ()
    return [*rows.told(ran.stdout.startswith(b"\0")), None]


def folded_paths(format_, index, front, path):
    """What is listed of a file of this path, and of a file in a folder of this path, by a listing of the folder of the front."""
    if not IS_GIT and not rows.is_text(path):
        return ()
    config = b"[core]\nrepositoryFormatVersion=1\nignoreCase=true\n[extensions]\nobjectFormat=%s\n" % format_
    folder = [front + b"/"] if front else []

    def lists(name, *words):
        with rows.repository_of([(b".git/config", config), (b".git/index", index), (name, b"")]) as top:
            ran = subprocess.run([PROGRAM, "ls-files" if IS_GIT else "files", "-o", "-z", *words, *folder], cwd=top, env=ALONE, capture_output=True, check=False)
        return name in ran.stdout.split(b"\0")

    below = path + b"/~"
    return [*rows.told(not lists(path)), *rows.told(lists(below, "--directory")), *rows.told(not lists(below))]


def pathspecs(word):
    """Which end of a word is the path, by a line for each end: its file says whence it is told. Paths with `.` or `..` aren't asked."""
    if re.search(rb"[:/)]\.\.?(/|$)", word):
        return ()
    ends = [word[at:] for at in range(len(word))]
    lines = b"".join(b"/" + re.sub(rb"([*?[\\ ])", rb"\\\1", end) + b"\n" for end in ends)
    with rows.repository_of([(b".gitignore", lines), (b"d/.gitignore", lines)]) as top:
        command = [PROGRAM, "check-ignore", "-v", "-n", "-z", *NO_INDEX, "--stdin"]
        ran = subprocess.run(command, cwd=os.path.join(top, "d"), input=word + b"\0", env=ALONE, capture_output=True, check=False)
    if ran.returncode == 128:
        return [None, None] if re.search(rb"pathspec magic|another sign", ran.stderr) else ()
    file, line = ran.stdout.split(b"\0")[:2]
    return [*rows.told(file == b".gitignore"), ends[int(line) - 1]] if file in (b".gitignore", b"d/.gitignore") else ()


COMMON = ["rev-parse", "--path-format=absolute", "--git-common-dir"]
OTHER_OWNER = "GIT_TEST_ASSUME_DIFFERENT_OWNER"
# Runs a command in a folder, while another one is a file system of its own: the folder of the second, that of the first, the command
ON_A_DEVICE = 'cp -a "$0" "$0~" && mount -t tmpfs none "$0" && cp -a "$0~/." "$0" && cd "$1" && shift && exec "$@"'


@contextlib.contextmanager
def files_of(fields, words, has_marks):
    """The top of a folder with the files of a row of repositories, the words of Git that ask there, and what lines say; the first
    fields' paths and those in files begin at the top. A mark in a folder is a file with the folder's name in its own."""
    with tempfile.TemporaryDirectory() as top:
        top = os.path.realpath(top)
        placed = lambda text: re.sub(rb"(^|[ =:\n])/", rb"\1" + os.fsencode(top) + b"/", text)
        for name, text in rows.pairs(fields):
            put(top, name.decode(), None if text is None else placed(text))
        for folder, _, _ in os.walk(top) if has_marks else ():
            put(folder, folder.removeprefix(top).replace("/", "~") or "~", b"")
        lines = [line.partition("=") for line in placed(words).decode().split("\n") if line]
        options = [it for key, _, value in lines if key.startswith("safe.") for it in ("-c", f"{key}={value}")]
        said = {key: value for key, _, value in lines}
        if OTHER_OWNER in said and not IS_GIT:
            for path, folders, files in os.walk(top):
                for it in (path, *(os.path.join(path, name) for name in (*folders, *files))):
                    os.chown(it, 65534, 65534, follow_symlinks=False)
        yield top, options, said


def put(top, name, text):
    """Makes what a name says: a git folder, a folder, a link or a file."""
    path = os.path.join(top, name.rstrip("/@").lstrip("/"))
    os.makedirs(path if name.endswith("/") else os.path.dirname(path), exist_ok=True)
    if name.endswith("//"):
        put(top, name[:-1] + "objects/", None)
        put(top, name[:-1] + "refs/", None)
        put(top, name[:-1] + "HEAD", b"ref: refs/heads/main")
    elif name.endswith("@"):
        os.symlink(text, path)
    elif not name.endswith("/"):
        with open(path, "wb") as it:
            it.write(text)


def ask_repository(current, words, fields, *asked, has_marks=False):
    """What Git tells of the repository of a folder, with paths from the top, or the first words of its fault."""
    with files_of(fields, words, has_marks) as (top, options, said):
        folder = os.path.join(top, current.decode().lstrip("/"))
        command = [PROGRAM, *options, *asked]
        if "device" in said:
            command = ["unshare", "-m", "sh", "-c", ON_A_DEVICE, said["device"], folder, *command]
        variables = {key: value for key, value in said.items() if key.startswith("GIT_")}
        ran = subprocess.run(command, cwd=folder, env={**ALONE, **variables}, capture_output=True, check=False)
    told, wrong = (text.decode().replace(top, "") for text in (ran.stdout, ran.stderr))
    fault = re.search(r"^fatal: (.*(\n\t.*)*)", wrong, re.M)
    return told.rstrip("\n"), fault and re.sub(r": (Success|Numerical result out of range|No such file or directory|Not a directory)$", "", fault[1].replace("\n\t", " "))


def repositories(current, words, *fields):
    """The git folder, by its index: that of each has a version of its own, which the fault tells."""
    if os.geteuid() != 0 and re.search(b"device=|" + OTHER_OWNER.encode(), words):
        return ()
    if IS_GIT:
        told, fault = ask_repository(current, words, fields, "rev-parse", "--absolute-git-dir")
        return [fault or told]
    folders = git_folders(fields)
    indexes = [it for at, folder in enumerate(folders) for it in (folder + b"/index", b"DIRC\0\0\0%c" % (100 + at) + bytes(24))]
    _, fault = ask_repository(current, words, [*fields, *indexes], "files", "-c")
    if version := re.search(r"bad index version (\d+)", fault or ""):
        return [folders[int(version[1]) - 100]]
    # (of a path that leads nowhere globtree tells all, Git a part)
    return () if "Invalid path" in fault else [fault]


def git_folders(fields):
    """Folders that are git folders by the names of files."""
    return [found[1] for name in fields[::2] if (found := re.match(rb"(.*)/(HEAD@?|objects/|/)$", name))]


def work_trees(current, words, *fields):
    """The common folder, by its configuration, which is cut off; and the top, by the mark that lies in no folder."""
    if IS_GIT:
        common, fault = ask_repository(current, words, fields, *COMMON)
        top, none = ask_repository(current, words, fields, "rev-parse", "--show-toplevel")
        return [fault or common, None if none else top]
    told, fault = ask_repository(current, words, fields, "status", "-uall", "-z", has_marks=True)
    if fault and "must be run in a work tree" not in fault:
        return [fault, None]
    # (a top that isn't there is no file's)
    if fault and any(b"worktree=" in (text or b"") for text in fields[1::2]):
        return ()
    top = next((it[3:].replace("~", "/") for it in told.split("\0") if it and "/" not in it), None)
    said = dict(rows.pairs(fields))
    cut_off = [it for folder in git_folders(fields) for it in (folder + b"/config", said.get(folder + b"/config", b"") + b"\n[")]
    _, wrong = ask_repository(current, words, [*fields, *cut_off], "check-ignore", "x")
    common = re.search(r"bad config line \d+ in file (.*)/config$", wrong or "")
    return [common and os.path.normpath(os.path.join(current.decode(), common[1])), top]


def exclude_names(current, words, *fields):
    every = [part for name in fields[::2] if name.endswith(b"//") for part in (name[:-1] + b"info/exclude", b"*")]
    told, fault = ask_repository(current, words, [*fields, *every], "check-ignore", "-v", "-n", "x")
    return [fault or told.split(":")[0]]


def pathspec_listings(folder, options, words, there, *fields):
    """What is listed by pathspecs from a folder of a repository with these ignore files and what is there."""
    set_, asked = [], ["-c", "-o", "--exclude-standard", "-z"]
    variables = dict(ALONE)
    for option in options.decode().split():
        if option.startswith("GIT_"):
            variables.__setitem__(*option.split("=", 1))
        else:
            (asked if option == "--error-unmatch" else set_).append(option)
    files = [(name if name.endswith(b"exclude") else name + b".gitignore", text) for name, text in rows.pairs(fields)]
    nested = [line[:-5] for line in there.split(b"|") if line.endswith(b".git/")]
    files += [(each + name, text) for each in nested for name, text in rows.REPOSITORY]
    with rows.repository_of(files) as top:
        for each in filter(None, there.split(b"|")):
            rows.make(top, each)
        command = "ls-files" if IS_GIT else "files"
        words = [word.replace(b"/top", os.fsencode(os.path.realpath(top))) for word in words.split(b"|") if words]
        ran = subprocess.run([PROGRAM, "-C", os.path.join(os.fsencode(top), folder), *set_, command, *asked, "--", *words], env=variables, capture_output=True, check=False)
    told = re.findall(rb"^error: pathspec '(.*?)' did not match any file\(s\) known to git$", ran.stderr, re.M | re.S)
    return [str(ran.returncode), b"|".join(ran.stdout.split(b"\0")[:-1]), b"|".join(told)]


OF_PATTERNS = (matching, git_paths, trees, trees_told, git_told, trees_asked, ignore_runs, looked_at, git_attributes, attribute_states, all_states, attribute_streams, attribute_names)
OF_CONFIGURATION = (config_files, config_includes, config_sources, core_settings, status_settings, config_booleans)
rows.answer({it.__name__: it for it in (*OF_PATTERNS, *OF_CONFIGURATION, repositories, work_trees, exclude_names, tracked_paths, folded_paths, pathspecs, pathspec_listings)})

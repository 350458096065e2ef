"""Stands for `git` in Git's own tests: hands each call of check-ignore, check-attr and ls-files to globtree, with the same words.

Only a call with a word that globtree doesn't have goes to the machine's git. Each call is noted, with the reason.

Of the variables, REAL_GIT and GLOBTREE name the programs, and STAND_IN_CALLS the file of notes. With STAND_IN_MESSAGES, what git prints
on standard error replaces what globtree prints there.
"""
import os
import subprocess
import sys

COMMANDS = ("check-ignore", "check-attr", "ls-files")
# the options of ls-files that globtree has, those with a value apart
LISTING = {"-c", "--cached", "-o", "--others", "-i", "--ignored", "--exclude-standard", "--directory", "--no-empty-directory", "-z", "--error-unmatch"}
VALUED = ("-x", "--exclude", "-X", "--exclude-from")


class IsForGit(Exception):
    """The call is git's, for this reason."""


def without_command(words):
    """The words before the command, the command, and those behind it."""
    at = 0
    while words[at] in ("-C", "-c"):
        at += 2
    if words[at] not in COMMANDS:
        raise IsForGit("another option before the command")
    return words[:at], words[at], words[at + 1 :]


def options_in(words):
    """The options among the words of ls-files, without values and paths."""
    words = iter(words)
    for word in words:
        if word == "--":
            return
        if word in VALUED:
            next(words, None)
        elif word.startswith("-") and not word.startswith(tuple(f"{it}=" for it in VALUED if it.startswith("--"))):
            yield word


def for_globtree(words):
    """The words of globtree that ask for the same."""
    front, command, words = without_command(words)
    if command == "check-attr" and "--cached" in words:
        raise IsForGit("--cached")
    if command != "ls-files":
        return [*front, command, *words]
    for option in options_in(words):
        if option not in LISTING:
            raise IsForGit(option.split("=")[0])
    # (`files` without options prints what isn't ignored)
    return [*front, "files", *([] if any(options_in(words)) else ["-c"]), *words]


def note(text):
    with open(os.environ["STAND_IN_CALLS"], "a", encoding="utf-8") as file:
        file.write(text + "\n")


def main():
    git = [os.environ["REAL_GIT"], *sys.argv[1:]]
    command = next(word for word in sys.argv if word in COMMANDS)
    try:
        words = for_globtree(sys.argv[1:])
    except IsForGit as reason:
        note("%s: git, for %s" % (command, reason))
        os.execv(git[0], git)
    note("%s: globtree" % command)
    run = subprocess.run([os.environ["GLOBTREE"], *words], stderr=subprocess.PIPE)
    errors = run.stderr
    if errors and "STAND_IN_MESSAGES" in os.environ:
        errors = subprocess.run(git, stdin=subprocess.DEVNULL, stdout=subprocess.DEVNULL, stderr=subprocess.PIPE).stderr or errors
    os.write(2, errors)
    return run.returncode


if __name__ == "__main__":
    sys.exit(main())

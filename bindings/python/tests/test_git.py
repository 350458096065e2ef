"""Beside `git check-ignore`: the line that decides about each path of random trees with an ignore file in some folders."""

import os
import random
import shutil
import subprocess
import tempfile
import unittest

from gix_glob import IgnoreFile, IgnoreList

NAMES = (b"a", b"b", b"ab", b"c.o", b"\xc3\xa9")
PARTS = (b"a", b"b", b"ab", b"*", b"?", b"**", b"a*", b"*.o", b"[ab]", b"[!a]", b"[[:alpha:]]", b"??")
FILE = b".gitignore"


def random_line(draw):
    parts = [draw.choice(PARTS) for _ in range(draw.choice((1, 1, 1, 2, 3)))]
    return (
        draw.choice((b"", b"", b"!")) + draw.choice((b"", b"", b"/")) + b"/".join(parts) + draw.choice((b"", b"", b"/"))
    )


def fill(draw, top, folder=b"", depth=3):
    """Makes a tree; yields its paths, with whether each is a folder's."""
    if draw.random() < 0.5 or not folder:
        with open(os.path.join(top, folder, FILE), "wb") as file:
            file.write(b"".join(random_line(draw) + b"\n" for _ in range(draw.randrange(5))))
    for name in draw.sample(NAMES, 3):
        path = os.path.join(folder, name)
        is_dir = depth > 0 and draw.random() < 0.6
        yield path, is_dir
        if is_dir:
            os.mkdir(os.path.join(top, path))
            yield from fill(draw, top, path, depth - 1)
        else:
            open(os.path.join(top, path), "wb").close()


def git(top, *words, given=None):
    environment = {"PATH": os.environ.get("PATH", ""), "GIT_CONFIG_GLOBAL": os.devnull, "GIT_CONFIG_NOSYSTEM": "1"}
    words = ["git", "-c", "core.ignorecase=false", "-c", "core.excludesFile=" + os.devnull, *words]
    return subprocess.run(words, cwd=top, input=given, env=environment, stdout=subprocess.PIPE, stderr=subprocess.PIPE)


def git_tells(top, paths):
    """For each path the file and the line that decide, or None."""
    said = git(
        top, "check-ignore", "-v", "-n", "-z", "--no-index", "--stdin", given=b"".join(it + b"\0" for it in paths)
    )
    fields = said.stdout.split(b"\0")[:-1]
    return [(source, int(line)) if source else None for source, line, _, _ in zip(*[iter(fields)] * 4)]


@unittest.skipUnless(shutil.which("git"), "Git is left out: it isn't installed")
class BesideGit(unittest.TestCase):
    def test_trees(self):
        draw = random.Random(1)
        count = 0
        for _ in range(40):
            with tempfile.TemporaryDirectory() as folder:
                top = os.fsencode(folder)
                self.assertEqual(git(top, "init", "-q").returncode, 0)
                paths = list(fill(draw, top))
                folders = sorted(path for path, is_dir in paths if is_dir)
                files = [os.path.join(top, folder, FILE) for folder in [b"", *folders]]
                rules = IgnoreList(
                    IgnoreFile.from_file(file, os.path.relpath(os.path.dirname(file), top))
                    for file in files
                    if os.path.exists(file)
                )
                found = [rules.decide_in_tree(path, is_dir) for path, is_dir in paths]
                here = [None if it is None else (os.path.relpath(it.file.name, top), it.line) for it in found]
                there = git_tells(top, [path for path, _ in paths])
                self.assertEqual(len(here), len(there))
                self.assertEqual([row for row in zip(paths, here, there) if row[1] != row[2]][:3], [])
                count += len(paths)
        self.assertGreater(count, 1000)

#!/usr/bin/env python3
"""Answers by the program globline: tools/vectors examples/vectors/globline.py PROGRAM"""
import os
import subprocess
import sys

import rows

PROGRAM = os.path.abspath(sys.argv[1])
# of a word of a command line under Linux
MOST_BYTES = 1 << 17


def is_word(bytes_):
    return rows.is_text(bytes_) and b"\0" not in bytes_ and len(bytes_) < MOST_BYTES


def run(words, lines, files=()):
    """What globline writes, in a folder with these files, as the answer; none where a word can't be one of a command line."""
    if not all(is_word(word) for word in words):
        return ()
    with rows.folder_of(files) as top:
        ran = subprocess.run([PROGRAM, *words], input=lines, cwd=top, stdout=subprocess.PIPE, check=False)
        return [f"status {ran.returncode}"] if ran.returncode else [ran.stdout]


def matching(mode, pattern, value):
    return () if b"\n" in value else tuple(text.strip() for text in answered(mode, pattern, value + b"\n"))


def answered(mode, pattern, values):
    return run([b"wild", mode.replace(b"+", b"-"), pattern], values)


def listed(case, source, root, patterns, paths):
    return () if not rows.is_plain(source) or not is_word(source) else run([b"list", case, source, b"-" if root is None else root], paths, [(source, patterns)])


def decided(case, paths, *fields):
    # (under the empty root a file has the base of its folder; one that isn't there is passed over)
    files = [((base or b"") + b"ignore%d" % at, text) for at, (base, text) in enumerate(rows.pairs(fields))]
    names = [name for name, _ in files]
    return run([b"ignore", case, b"", *names, b"none"], paths, files) if all(map(rows.is_plain, names)) else ()


rows.answer({"matching": matching, "answered": answered, "listed": listed, "decided": decided})

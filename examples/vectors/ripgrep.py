#!/usr/bin/env python3
"""Answers by ripgrep whether paths are ignored, which it tells of the files that it passes over:
tools/vectors examples/vectors/ripgrep.py"""
import os
import re
import subprocess

import rows

IGNORING = re.compile(rb"ignoring \./(.*?): Ignore\(")


def ignored(case, path, *fields):
    if not path.isascii() or b"\n" in path:
        # (what it tells of such names isn't their bytes)
        return ()
    names = {b".excludes": b".user/git/ignore"}
    files = [(names.get(name, name), text) for name, text in rows.ignore_files(fields)]
    with rows.repository_of(files) as top:
        rows.make(top, path)
        folds = ["--ignore-file-case-insensitive"] if case == b"fold" else []
        environment = {"PATH": os.environ["PATH"], "XDG_CONFIG_HOME": f"{top}/.user"}
        words = ["rg", "--files", "--hidden", "--no-config", "--debug", *folds, "./"]
        said = subprocess.run(words, cwd=top, env=environment, capture_output=True, check=False).stderr
        parts = path.rstrip(b"/").split(b"/")
        above = {b"/".join(parts[: at + 1]) for at in range(len(parts))}
        return rows.told(above & {it.strip(b"/") for it in IGNORING.findall(said)})


rows.answer({"ignored": ignored, "matching": rows.by_line(ignored)})

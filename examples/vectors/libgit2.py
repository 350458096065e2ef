#!/usr/bin/env python3
"""Answers by libgit2, through `pygit2`, whether paths are ignored, and which states attributes have:
tools/vectors examples/vectors/libgit2.py"""
import os

import pygit2
import rows

# (so that no file of this machine is read)
for level in (pygit2.GIT_CONFIG_LEVEL_SYSTEM, pygit2.GIT_CONFIG_LEVEL_GLOBAL, pygit2.GIT_CONFIG_LEVEL_XDG):
    pygit2.settings.search_path[level] = "/nonexistent"


def ask(case, path, files, question):
    """The answer of a repository with these files to a question; none where `pygit2` would have to read or tell what is no text."""
    with rows.repository_of(files) as top:
        rows.make(top, path)
        made = pygit2.init_repository(top)
        made.config["core.ignoreCase"] = case == b"fold"
        for name, outer in (("excludesFile", b".excludes"), ("attributesFile", b"user")):
            if outer in dict(files):
                made.config[f"core.{name}"] = f"{top}/{outer.decode()}"
        try:
            return question(made)
        except UnicodeError:
            return ()


def ignored(case, path, *fields):
    if any(line.lstrip(b"!").isspace() and line.strip(b"! ") for text in fields[1::2] for line in text.split(b"\n")):
        # (it doesn't come to an end at a line of tabs or form feeds)
        return ()
    return ask(case, path, rows.ignore_files(fields), lambda made: rows.told(made.path_is_ignored(os.fsdecode(path))))


def attribute_states(case, path, names, *fields):
    if b"system" in fields[::2] or not rows.is_plain(path):
        return ()
    names = names.decode().split(" ")
    states = ask(case, path, rows.attribute_files(fields), lambda made: [made.get_attr(os.fsdecode(path), it) for it in names])
    return [b"".join(b" " + word(name.encode(), state) for name, state in zip(names, states))] if states else ()


def word(name, state):
    """A word that assigns the state."""
    if state is None:
        return b"!" + name
    if isinstance(state, bool):
        return name if state else b"-" + name
    return name + b"=" + os.fsencode(state)


rows.answer({"ignored": ignored, "matching": rows.by_line(ignored), "attribute_states": attribute_states})

#!/usr/bin/env python3
"""Answers by the binding for Python: tools/vectors examples/vectors/python.py, with bindings/python on PYTHONPATH.

Of several calls that answer a question all are asked: where they don't agree, the answer is `differs`. With the word `as-git`, and
tools/vectors --git, the rows of work trees are asked, of files that are read as Git reads them."""
import sys

import rows
from gix_glob import IgnoreFile, IgnoreList, Mode, Pattern, Reading, wildmatch

CRATE = Reading.CRATE
READING = Reading.GIT if sys.argv[1:] == ["as-git"] else CRATE
MODES = {
    b"plain": Mode(0),
    b"path": Mode.NO_MATCH_SLASH_LITERAL,
    b"fold": Mode.IGNORE_CASE,
    b"path+fold": Mode.NO_MATCH_SLASH_LITERAL | Mode.IGNORE_CASE,
}


def agreed(found, *others):
    return ["differs"] if any(other != found for other in others) else found


def matching(mode, pattern, value):
    # (a line takes a slash off each end)
    line = Pattern(b"/" + pattern + b"/", CRATE)
    return agreed(rows.told(wildmatch(pattern, value, MODES[mode])), rows.told(line.matches(value, MODES[mode])))


def values(mode, line, value):
    pattern = Pattern(line, CRATE)
    return agreed(rows.told(pattern.matches(value, MODES[mode])), rows.told(wildmatch(pattern.text, value, MODES[mode])))


def reading(how, line):
    if how != b"line":
        return ()
    try:
        return parts(Pattern(line, CRATE))
    except ValueError:
        return [None, None, None]


def git_reading(line):
    return parts(Pattern(line, Reading.GIT))


def parts(pattern):
    place = pattern.first_wildcard_pos
    return [pattern.text, str(int(pattern.mode)), None if place is None else str(place)]


def repository_paths(case, mode, line, path, place, kind):
    # (patterns always match as `path` does)
    return matches(CRATE, b"fold" in (case, mode[-4:]), line, path, place, kind) if mode in (b"path", b"path+fold") else ()


def git_paths(case, line, path, place, kind):
    return matches(Reading.GIT, case == b"fold", line, path, place, kind)


def matches(read_by, fold, line, path, place, kind):
    last = b"%d" % (path.rfind(b"/") + 1) if b"/" in path else None
    if kind == b"unknown" or place != last or path.endswith(b"/") or not rows.is_plain(path):
        # (patterns find the last part themselves, and take no other paths)
        return ()
    asked, options = (path, kind == b"folder"), {"ignore_case": fold}
    is_decided = IgnoreFile.from_lines([line], reading=read_by).decide(*asked, **options) is not None
    return agreed(rows.told(Pattern(line, read_by).matches_path(*asked, **options)), rows.told(is_decided))


def shown(file):
    """The patterns of a file as their lines would show them, each behind the number of its line."""
    text = b""
    for line, it in file:
        signs = b"!" * it.is_negative + b"/" * it.is_absolute
        text += b"%d:%s%s%s\n" % (line, signs, it.text, b"/" * it.is_for_directories)
    return [text]


def ignore_files(text):
    return patterns_of(text, CRATE)


def git_files(text):
    return patterns_of(text, Reading.GIT)


def patterns_of(text, read_by):
    found = shown(IgnoreFile.from_text(text, reading=read_by))
    # (each of the lines of from_lines ends in a line feed)
    return agreed(found, shown(IgnoreFile.from_lines(text[:-1].split(b"\n"), reading=read_by))) if text.endswith(b"\n") else found


def list_of(fields):
    """The files of a row, or None: the binding takes no base that isn't a folder's below the top."""
    files = [(base or b"", text) for base, text in rows.pairs(fields)]
    are_folders = all(not base or base.endswith(b"/") and rows.is_plain(base) for base, _ in files)
    return IgnoreList([IgnoreFile.from_text(text, base, reading=READING) for base, text in files]) if are_folders else None


def place_of(rules, found):
    # (two files with the same patterns are equal)
    place = next(at for at, file in enumerate(rules.files, 1) if file is found.file)
    return f"{place}:{found.line}"


def decided(case, paths, *fields):
    rules, text = list_of(fields), ""
    if rules is None or b"./" in (path[:2] for path in paths.split(b"\n")):
        # (the binding passes over a `./` in front)
        return ()
    for path in paths.removesuffix(b"\n").split(b"\n") if paths else []:
        try:
            found = rules.decide(path, ignore_case=case == b"fold")
            text += f"{'ignored' if found.is_ignored else 'kept'} {place_of(rules, found)}\n" if found is not None else "none\n"
        except ValueError:
            text += "!\n"
    return [text]


def trees(case, path, *fields):
    rules, fold = list_of(fields), case == b"fold"
    if rules is None or not rows.is_plain(path):
        return ()
    found = rules.decide_in_tree(path, ignore_case=fold)
    is_ignored = found is not None and found.is_ignored
    matched = list(rules.match_files([path, path], ignore_case=fold))
    if rules.match_file(path, ignore_case=fold) != is_ignored or matched != [path, path] * is_ignored:
        return ["differs"]
    return [None if found is None else place_of(rules, found)]


def trees_told(case, _there, path, *fields):
    return trees(case, path, *fields)


OF_GIT = (git_reading, git_paths, git_files)
OTHERS = (matching, values, reading, repository_paths, ignore_files, decided, trees, trees_told, *OF_GIT)
rows.answer({it.__name__: it for it in ((trees,) if READING is not CRATE else OTHERS)})

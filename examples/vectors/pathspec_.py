#!/usr/bin/env python3
"""Answers by the Python package `pathspec` whether paths are ignored: tools/vectors examples/vectors/pathspec_.py"""
import os
import re
import warnings

import pathspec
import rows

# (`re` warns of some sets)
warnings.simplefilter("ignore")


def ignored(case, path, *fields):
    if case != b"sensitive" or fields[::2] != (None,):
        # (it knows neither folding nor files in folders)
        return ()
    try:
        spec = pathspec.GitIgnoreSpec.from_lines(os.fsdecode(fields[1]).split("\n"))
    except (ValueError, re.error):
        return ["refused"]
    return rows.told(spec.match_file(os.fsdecode(path)))


rows.answer({"ignored": ignored, "matching": rows.by_line(ignored)})

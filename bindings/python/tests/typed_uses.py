"""What callers write, for mypy, which holds it to the types of the package. Nothing runs it."""

import os
from pathlib import Path
from typing import List

from gix_glob import CheckResult, IgnoreFile, IgnoreList, Pattern, TreeEntry


def uses(rules: IgnoreFile) -> None:
    """Each call, with what it gives."""
    names: List[str] = [path.upper() for path in rules.match_files(["a"], ["\\"], negate=True)]
    paths: List[Path] = list(rules.match_files([Path("a")], ignore_case=True))
    files: List[str] = list(rules.match_tree_files(Path(".")))
    texts: List[bytes] = list(rules.match_tree_files(b"."))
    entries: List[TreeEntry[str]] = list(rules.match_tree_entries(".", on_error=print, follow_links=False))
    with os.scandir(".") as found:
        others: List["os.DirEntry[str]"] = list(rules.match_entries(found))
    result: CheckResult[str] = rules.check_file("a")
    results: List[CheckResult[Path]] = list(rules.check_files(paths))
    both: IgnoreList = rules + IgnoreFile.from_file(Path("x"))
    both += rules
    patterns: List[Pattern] = list(both.patterns)
    decision = both.decide("a")
    if decision:
        print(decision.line, names, files, texts, entries, others, result, results, patterns)

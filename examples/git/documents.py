"""The kinds of differences that docs/DIFFERENCES.md names."""
import os
import re

DIFFERENCES = os.path.join(os.path.dirname(os.path.realpath(__file__)), "..", "..", "docs", "DIFFERENCES.md")


def kinds_in(heading):
    """The bold words with which the points of a chapter begin."""
    with open(DIFFERENCES, encoding="utf-8") as file:
        section = file.read().split(f"\n## {heading}\n")[1].split("\n## ")[0]
    return set(re.findall(r"^- \*\*(.+?)\*\*", section, re.M))

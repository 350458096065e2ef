#!/usr/bin/env python3
"""Counts the handle of gix_glob_rules.h beside the calls that it stands on: bench/rules.py

What is printed is instructions a path, by valgrind's callgrind, less what the harness takes, of one list by the number of its patterns: the
last match of the prepared list; the decision in a work tree, by the prepared list, by each pattern in turn, and by the handle. The status is 1
where the handle takes more than 1.2 of what the prepared list takes."""
import os
import subprocess
import sys
import tempfile

from matcher import HERE, LIBRARY, once
from rust import SIZES, counted, make

WHATS = ("last", "prepared", "turn", "rules")
MOST = 1.2


def main():
    missed = 0
    with tempfile.TemporaryDirectory() as folder:
        program = f"{folder}/rules"
        include = os.path.join(os.path.dirname(HERE), "crates", "gix_glob_c", "include")
        subprocess.run([os.environ.get("CC", "cc"), "-O2", "-I", include, "-o", program, f"{HERE}/rules.c", LIBRARY], check=True)
        print("| Patterns | Last match | Prepared | In turn | By the rules |\n|---|---|---|---|---|")
        for size in SIZES:
            make(folder, size)
            nothing, *asked = (counted(program, what, folder) for what in ("nothing", *WHATS))
            _, prepared, _, rules = (it - nothing for it in asked)
            missed += rules > MOST * prepared
            print(f"| {size:,} | {' | '.join(f'{it - nothing:,.0f}' for it in asked)} |", flush=True)
    sys.exit(1 if missed else 0)


if __name__ == "__main__":
    main()

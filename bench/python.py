#!/usr/bin/env python3
"""Times the binding for Python beside `pathspec`: bench/python.py

It takes the shared library that GIX_GLOB_LIBRARY names or that `.ci/python` has made, and Debian's python3-pathspec, without which the
binding is timed alone. Both sides are given the same lists, of `lists.py`, in turns, in one process; what is printed is the shortest of
several turns, of the processor: first microseconds a path by few patterns, then milliseconds by many. The status is 1 where `match_files`
isn't as many times as fast by many patterns as the load's goal."""
import argparse
import glob
import os
import subprocess
import sys
import tempfile
import time

HERE = os.path.dirname(os.path.abspath(__file__))
TOP = os.path.dirname(HERE)
for made in glob.glob(os.path.join(TOP, "out", "python", "libgix_glob_c.so.*")):
    os.environ.setdefault("GIX_GLOB_LIBRARY", made)
sys.path.insert(0, os.path.join(TOP, "bindings", "python"))

# how many patterns are few
FEW = (2, 10, 150)
# by many patterns, how many times as fast `match_files` is to be
GOALS = {"mixture": 10, "no match, 500 folders": 10, "no match": 10}


def words():
    args = argparse.ArgumentParser(description=__doc__, formatter_class=argparse.RawDescriptionHelpFormatter)
    args.add_argument("--patterns", type=int, default=1000)
    args.add_argument("--paths", type=int, default=10000)
    args.add_argument("--seed", type=int, default=5)
    args.add_argument("--turns", type=int, default=3)
    return args.parse_args()


def drawn(options):
    """The patterns and the paths of `lists.py`."""
    with tempfile.TemporaryDirectory() as folder:
        sizes = ["--sizes", str(options.patterns), "--paths", str(options.paths), "--seed", str(options.seed)]
        subprocess.run([sys.executable, f"{HERE}/lists.py", "--make", folder, *sizes], check=True)
        texts = []
        for name in ("patterns", "paths"):
            with open(f"{folder}/{name}", encoding="ascii") as file:
                texts.append(file.read().splitlines())
        return texts


def in_folders(paths, count):
    """As many paths, in so many folders of theirs."""
    folders = sorted({os.path.dirname(path) for path in paths} - {""})[:count]
    return [f"{folders[at % len(folders)]}/{os.path.basename(path)}" for at, path in enumerate(paths)]


def turn(make, patterns, paths):
    """Milliseconds of preparing and of matching, and how many paths match."""
    start = time.process_time()
    rules = make(patterns)
    prepared = time.process_time()
    matched = len(list(rules.match_files(paths)))
    return (prepared - start) * 1000, (time.process_time() - prepared) * 1000, matched


def one_by_one(rules, paths):
    for path in paths:
        rules.match_file(path)


def all_at_once(rules, paths):
    for _ in rules.match_files(paths):
        pass


def microseconds(call, rules, paths):
    start = time.process_time()
    call(rules, paths)
    return (time.process_time() - start) * 1e6 / len(paths)


def few(makers, patterns, paths, turns):
    """Microseconds a path by few patterns, of each side."""
    print(f"| Patterns | Call | {' | '.join(makers)} |\n|---|---{'|---' * len(makers)}|")
    for count in FEW:
        sides = [make(patterns[:count]) for make in makers.values()]
        for name, call in (("match_file", one_by_one), ("match_files", all_at_once)):
            best = (min(microseconds(call, rules, paths) for _ in range(turns)) for rules in sides)
            print(f"| {count} | `{name}` | {' | '.join(f'{it:.1f}' for it in best)} |", flush=True)


def main():
    options = words()
    # (after the words, so that --help needs neither)
    from gix_glob import IgnoreFile

    makers = {"Here": IgnoreFile.from_lines}
    try:
        import pathspec

        makers = {f"pathspec {pathspec.__version__}": pathspec.GitIgnoreSpec.from_lines, **makers}
    except ImportError:
        print("There is no pathspec here: its times are left out.")
    patterns, paths = drawn(options)
    few(makers, patterns, paths, options.turns)
    return many(makers, patterns, paths, options.turns)


def many(makers, patterns, paths, turns):
    """Milliseconds by many patterns, of each side; answers whether a goal was missed."""
    # In upper case no path matches, so each pattern is asked about each path and, here, each folder. Almost each path of the
    # mixture has folders of its own, 17,018 in all.
    upper = [path.upper() for path in paths]
    loads = dict(zip(GOALS, (paths, in_folders(upper, 500), upper)))
    print(f"\n{len(patterns):,} patterns by {len(paths):,} paths; milliseconds of preparing and of matching, and the paths that match\n")
    print(f"| Load | {' | '.join(makers)} | Times as fast | Goal |\n|---{'|---' * len(makers)}|---|---|")
    missed = 0
    for load, given in loads.items():
        runs = [[turn(make, patterns, given) for make in makers.values()] for _ in range(turns)]
        best = [tuple(min(one[side][at] for one in runs) for at in range(3)) for side in range(len(makers))]
        ratio = best[0][1] / best[-1][1] if len(best) > 1 else None
        missed += ratio is not None and ratio < GOALS[load]
        cells = [f"{prepared:.1f} + {matched:,.1f} ({count:,})" for prepared, matched, count in best]
        print(f"| {load} | {' | '.join(cells)} | {'' if ratio is None else f'{ratio:.1f}'} | {GOALS[load]} |", flush=True)
    return missed > 0


sys.exit(main())

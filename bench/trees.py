#!/usr/bin/env python3
"""Counts and times `globtree check-ignore` beside `git check-ignore --no-index`: bench/trees.py

Each of the folders has an ignore file of ten lines, and the paths lie in them, once in random order and once sorted; with `--below`
they lie deeper, mostly in folders that aren't there, as those of `lists.py --folders`. First come instructions a path, by valgrind's callgrind, from a run over all paths and one over half of
them. Then come the seconds of the processor, user and system, that both programs take for all paths, in turns: the least of several
turns. At last so many paths, all different, go through one run, and the most memory that it held is printed. The status is 1 where
a goal is missed. `out/globtree` has to be there, or what `--program` names; without `git` only globtree is counted."""
import argparse
import os
import shutil
import subprocess
import sys
import tempfile

sys.dont_write_bytecode = True
from lists import cost_of_path, make_tree, write
from mixture import Load

HERE = os.path.dirname(os.path.abspath(__file__))
PROGRAM = os.path.join(os.path.dirname(HERE), "out", "globtree")

# with paths in order: instructions a path at most, and the most of all trees by the least
MOST_INSTRUCTIONS, SPREAD = 1600, 1.1
# the least that Git's seconds are to be of globtree's
TIMES = {"random": 10, "sorted": 5}
MOST_MEMORY = 50_000_000


def words():
    args = argparse.ArgumentParser(description=__doc__, formatter_class=argparse.RawDescriptionHelpFormatter)
    args.add_argument("--program", default=PROGRAM)
    args.add_argument("--folders", default="20,200,2000")
    args.add_argument("--paths", type=int, default=50_000)
    args.add_argument("--seed", type=int, default=5)
    args.add_argument("--below", action="store_true", help="the paths lie deeper than the folders")
    args.add_argument("--turns", type=int, default=5)
    args.add_argument("--memory", type=int, default=10_000_000, metavar="PATHS", help="how many paths go through one run for its memory; 0 for none")
    options = args.parse_args()
    if not os.access(options.program, os.X_OK):
        sys.exit(f"trees: there is no {options.program}: ./globtree --prove builds it")
    options.program = os.path.abspath(options.program)
    return options


def programs(program):
    """For each program, its words in the tree at `root`."""
    rows = {"globtree": lambda root: [program, "-C", root, "check-ignore", "-v", "-n", "--stdin"]}
    git = shutil.which("git")
    if git:
        rows["git"] = lambda root: [git, "-C", root, "check-ignore", "-v", "-n", "--no-index", "--stdin"]
    return rows


# ---- time

def ended(process, command):
    """What the process took. Its status is 1 where no line decides about any path."""
    _, status, took = os.wait4(process.pid, 0)
    process.returncode = os.waitstatus_to_exitcode(status)
    if process.returncode not in (0, 1):
        sys.exit(f"trees: {' '.join(command)} ended with status {process.returncode}")
    return took


def seconds(command, paths):
    """User and system time of a run over the file of paths."""
    with open(paths, "rb") as given:
        took = ended(subprocess.Popen(command, stdin=given, stdout=subprocess.DEVNULL, env={**os.environ, "GIT_CONFIG_GLOBAL": "/dev/null"}), command)
    return took.ru_utime, took.ru_stime


def least_seconds(rows, root, turns):
    """The least of each program, all in turns."""
    least = {}
    for _ in range(turns):
        for name, command in rows.items():
            took = seconds(command(root), f"{root}/paths")
            least[name] = min(least.get(name, took), took, key=sum)
    return least


# ---- memory

def memory(command, paths, count):
    """The most bytes that a run held over so many paths, all different: the paths again and again, with numbers at their ends."""
    block = "".join(path + "\n" for path in paths).encode("ascii")
    process = subprocess.Popen(command, stdin=subprocess.PIPE, stdout=subprocess.DEVNULL)
    for number in range(count // len(paths)):
        process.stdin.write(block.replace(b"\n", b"%d\n" % number))
    process.stdin.close()
    return ended(process, command).ru_maxrss * 1024


# ---- the tables

class Goals:
    def __init__(self):
        self.missed = 0

    def check(self, is_met, what):
        if not is_met:
            self.missed += 1
            print(f"trees: missed: {what}", file=sys.stderr)


def count_tree(rows, root, folders, paths, goals, turns):
    """A row for each order. The instructions of globtree in order are given back."""
    for order, ordered in (("random", paths), ("sorted", sorted(paths))):
        costs = {name: cost_of_path(command(root), ordered, root) for name, command in rows.items()}
        write(f"{root}/paths", ordered)
        took = least_seconds(rows, root, turns)
        cells = [f"{cost:,.0f}" for cost in costs.values()] + [f"{user:.3f} + {system:.3f}" for user, system in took.values()]
        if "git" in took:
            times = sum(took["git"]) / max(sum(took["globtree"]), 0.001)
            cells.append(f"{times:.1f}")
            goals.check(times >= TIMES[order], f"{folders} folders, {order}: {times:.1f} times as fast, and not {TIMES[order]}")
        print(f"| {folders:,} | {order} | " + " | ".join(cells) + " |", flush=True)
    goals.check(costs["globtree"] <= MOST_INSTRUCTIONS, f"{folders} folders, sorted: {costs['globtree']:,.0f} instructions a path, and not {MOST_INSTRUCTIONS:,}")
    return costs["globtree"]


def main():
    options = words()
    rows, goals = programs(options.program), Goals()
    heads = list(rows) + [f"{name}, seconds" for name in rows] + (["times as fast"] if "git" in rows else [])
    print("| Folders | Order | " + " | ".join(heads) + " |\n|---|---" + "|---" * len(heads) + "|")
    sizes, costs = [int(count) for count in options.folders.split(",")], []
    for count in sizes:
        load = Load(options.seed)
        with tempfile.TemporaryDirectory() as root:
            paths = make_tree(load, load.tree(count), options.paths, root, load.path_below if options.below else load.path_in)
            costs.append(count_tree(rows, root, count, paths, goals, options.turns))
            if options.memory and count == max(sizes):
                held = memory(rows["globtree"](root), paths, options.memory)
                print(f"{options.memory:,} paths in {count:,} folders: {held / 1e6:,.1f} MB at most")
                goals.check(held < MOST_MEMORY, f"{held / 1e6:,.1f} MB")
    goals.check(max(costs) <= SPREAD * min(costs), f"sorted: {min(costs):,.0f} to {max(costs):,.0f} instructions a path")
    return 1 if goals.missed else 0


if __name__ == "__main__":
    sys.exit(main())

#!/usr/bin/env python3
"""Counts `globtree check-attr` beside `git check-attr`: bench/attributes.py

The attribute file of the top has so many lines: patterns as in `lists.py`, each with one to three attributes, and a macro in fifty
lines. The paths lie in a hundred folders, in random order. Two attributes are asked for of each path. Two runs by valgrind's callgrind, over all paths and over half of them, give the
instructions a path. The status is 1 where a goal is missed. `out/globtree` has to be there, or what `--program` names; without `git`
only globtree is counted. `--all` asks for all attributes, `--folders N` gives so many folders a file of ten lines each besides."""
import argparse
import os
import shutil
import subprocess
import sys
import tempfile

sys.dont_write_bytecode = True
from lists import cost_of_path, write
from mixture import Load

HERE = os.path.dirname(os.path.abspath(__file__))
PROGRAM = os.path.join(os.path.dirname(HERE), "out", "globtree")

NAMES = "text eol diff merge binary filter ident linguist-generated linguist-vendored export-ignore whitespace working-tree-encoding".split()
ASKED = ["text", "eol"]
# Git's instructions are to be so many times globtree's at this number of lines
GOAL_LINES, GOAL_TIMES = 1000, 20
# how many folders the paths lie in
TREE = 100


def words():
    args = argparse.ArgumentParser(description=__doc__, formatter_class=argparse.RawDescriptionHelpFormatter)
    args.add_argument("--program", default=PROGRAM)
    args.add_argument("--sizes", default="10,100,1000")
    args.add_argument("--paths", type=int, default=5_000)
    args.add_argument("--folders", type=int, default=0)
    args.add_argument("--seed", type=int, default=5)
    args.add_argument("--all", action="store_true")
    options = args.parse_args()
    if not os.access(options.program, os.X_OK):
        sys.exit(f"attributes: there is no {options.program}: ./globtree --prove builds it")
    options.program = os.path.abspath(options.program)
    return options


def programs(options):
    """For each program, its words in the tree at `root`."""
    asked = ["check-attr", "--stdin"] + (["-a"] if options.all else ASKED)
    rows = {"globtree": lambda root: [options.program, "-C", root, *asked]}
    git = shutil.which("git")
    if git:
        rows["git"] = lambda root: [git, "-C", root, *asked]
    return rows


def entry(load):
    name = load.random.choice(NAMES)
    kind = load.random.random()
    return name if kind < 0.5 else f"-{name}" if kind < 0.8 else f"{name}={load.word(1)}"


def line(load):
    head = f"[attr]{load.word(2)}" if load.random.random() < 0.02 else load.pattern().removeprefix("!")
    return " ".join([head] + [entry(load) for _ in range(load.random.choice((1, 1, 2, 3)))])


def make_tree(load, size, folders, count, root):
    """Makes a repository with so many lines at its top; the answer is so many paths, in random order."""
    subprocess.run(["git", "init", "-q", root], check=False)
    os.makedirs(f"{root}/.git", exist_ok=True)
    write(f"{root}/.gitattributes", [line(load) for _ in range(size)])
    tree = load.tree(folders or TREE)
    for folder in tree[1:]:
        os.makedirs(f"{root}/{folder}", exist_ok=True)
        if folders:
            write(f"{root}/{folder}.gitattributes", [line(load) for _ in range(10)])
    return [load.random.choice(tree) + load.path().split("/")[-1] for _ in range(count)]


def main():
    options = words()
    rows, missed = programs(options), 0
    print("| Lines | " + " | ".join(rows) + " | ratio |\n|---" + "|---" * (len(rows) + 1) + "|")
    for size in [int(size) for size in options.sizes.split(",")]:
        with tempfile.TemporaryDirectory() as root:
            paths = make_tree(Load(options.seed), size, options.folders, options.paths, root)
            costs = {name: cost_of_path(command(root), paths, root) for name, command in rows.items()}
        times = costs["git"] / costs["globtree"] if "git" in costs else None
        print(f"| {size:,} | " + " | ".join(f"{cost:,.0f}" for cost in costs.values()) + (f" | {times:.1f} |" if times else " | |"), flush=True)
        if times and size == GOAL_LINES and times < GOAL_TIMES:
            missed += 1
            print(f"attributes: missed: git takes {times:.1f} times the instructions, and not {GOAL_TIMES}", file=sys.stderr)
    return 1 if missed else 0


if __name__ == "__main__":
    sys.exit(main())

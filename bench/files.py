#!/usr/bin/env python3
"""Times `globtree files` beside `git ls-files -co --exclude-standard`, ripgrep, fd and a bare walk: bench/files.py

Each tree is a repository without an index. In turns, seven times, each program lists it; the medians of the seconds of the processor,
user and system, are printed, and each by Git's. Ripgrep and fd use one thread, and print names in no order, as the bare walk by `find`
does, which reads no ignore file. Then come the calls of the system that globtree makes, where `strace` is there, and how many names it
meets in how many folders. Where what globtree prints isn't what Git prints, that is told. The status is 1 then, and where a goal is missed.
`out/globtree` has to be there, or what `--program` names; a program that isn't there is left out."""
import argparse
import os
import re
import shutil
import statistics
import subprocess
import sys
import tempfile

sys.dont_write_bytecode = True
from lists import make_tree, write
from mixture import Load

HERE = os.path.dirname(os.path.abspath(__file__))
PROGRAM = os.path.join(os.path.dirname(HERE), "out", "globtree")

# For each tree, the most that globtree's seconds are to be of Git's.
TREES = {"10,000 files": 0.9, "100,000 files": 0.9, "3,000 ignore files": 0.9, "100,000 in one folder": 1.3, "20,000 folders of a file": 1.0, "300 levels deep": 1.0}
# the most calls for each name, beside them for each folder, and before the first one
CALLS_OF_NAME, CALLS_OF_FOLDER, CALLS_OF_START = 1.1, 3, 100


def words():
    args = argparse.ArgumentParser(description=__doc__, formatter_class=argparse.RawDescriptionHelpFormatter)
    args.add_argument("--program", default=PROGRAM)
    args.add_argument("--trees", default=";".join(TREES), help="the names of trees, with ; between them")
    args.add_argument("--seed", type=int, default=5)
    args.add_argument("--turns", type=int, default=7)
    args.add_argument("--keep", metavar="FOLDER", help="makes the trees there, or takes those that stand there")
    options = args.parse_args()
    if not os.access(options.program, os.X_OK):
        sys.exit(f"files: there is no {options.program}: ./globtree --prove builds it")
    options.program = os.path.abspath(options.program)
    return options


# ---- trees

def fill(load, root, folders, count):
    """So many files in each folder, all of different names."""
    for folder in folders:
        os.makedirs(f"{root}/{folder}", exist_ok=True)
        names = set()
        while len(names) < count:
            names.add(f"{folder}{load.word(2)}.{load.ending()}")
        for name in names:
            open(f"{root}/{name}", "wb").close()


def make(load, name, root):
    """Makes the tree of this name. Each has an ignore file of 15 lines at its top."""
    if name == "3,000 ignore files":
        tree = load.tree(3000)
        make_tree(load, tree, 0, root, load.path_in)
        return fill(load, root, tree, 10)
    subprocess.run(["git", "init", "-q", root], check=True)
    write(f"{root}/.gitignore", [load.pattern() for _ in range(15)])
    if name == "10,000 files":
        fill(load, root, load.tree(500), 20)
    elif name == "100,000 files":
        fill(load, root, load.tree(5000), 20)
    elif name == "100,000 in one folder":
        for number in range(100_000):
            open(f"{root}/{load.word(2)}{number}.{load.ending()}", "wb").close()
    elif name == "20,000 folders of a file":
        fill(load, root, [f"f{number // 142}/{load.word(2)}{number}/" for number in range(20_000)], 1)
    else:
        fill(load, root, ["d/" * depth for depth in range(301)], 10)


# ---- figures

def programs(program):
    """For each program, its words in the tree that it stands in."""
    rows = {
        "globtree": [program, "files"],
        "git": ["git", "ls-files", "-co", "--exclude-standard"],
        "rg": ["rg", "--files", "--hidden", "-j1", "--no-messages", "-g", "!.git/"],
        "fd": [shutil.which("fd") or "fdfind", "-H", "-j1", "-t", "f", "-t", "l", "-E", ".git/"],
        "bare walk": ["find", ".", "-type", "f"],
    }
    return {name: row for name, row in rows.items() if shutil.which(row[0])}


def environment():
    return {**{name: value for name, value in os.environ.items() if not name.startswith("GIT_")}, "GIT_CONFIG_GLOBAL": "/dev/null", "HOME": "/nonexistent"}


def listed(row, root):
    done = subprocess.run(row, cwd=root, stdout=subprocess.PIPE, stderr=subprocess.PIPE, env=environment(), check=False)
    if done.returncode:
        sys.exit(f"files: {' '.join(row)} ended with status {done.returncode}\n{done.stderr.decode()}")
    return done.stdout


def seconds(row, root):
    """User and system time of a run."""
    process = subprocess.Popen(row, cwd=root, stdout=subprocess.DEVNULL, stderr=subprocess.DEVNULL, env=environment())
    _, status, took = os.wait4(process.pid, 0)
    process.returncode = os.waitstatus_to_exitcode(status)
    return took.ru_utime + took.ru_stime


def medians(rows, root, turns):
    took = {name: [] for name in rows}
    for _ in range(turns):
        for name, row in rows.items():
            took[name].append(seconds(row, root))
    return {name: statistics.median(each) for name, each in took.items()}


def calls(row, root):
    """How many calls of the system a run makes."""
    with tempfile.NamedTemporaryFile() as said:
        subprocess.run(["strace", "-c", "-f", "-o", said.name, *row], cwd=root, stdout=subprocess.DEVNULL, stderr=subprocess.DEVNULL, env=environment(), check=False)
        return int(re.search(r"(\d+)\s+(?:\d+\s+)?total$", open(said.name, encoding="ascii").read().strip())[1])


def entries(root):
    """How many names and folders a listing meets: none of an ignored folder's, nor `.git`."""
    inside = subprocess.run(["git", "ls-files", "-o", "-i", "--exclude-standard", "--directory"], cwd=root, stdout=subprocess.PIPE, env=environment(), check=True)
    ignored = {os.fsdecode(line) for line in inside.stdout.splitlines() if line.endswith(b"/")}
    files = folders = 0
    for here, below, names in os.walk(root):
        at = os.path.relpath(here, root)
        prefix = "" if at == "." else at + "/"
        files += len(names) + len(below)
        below[:] = [name for name in below if name != ".git" and f"{prefix}{name}/" not in ignored]
        folders += 1
    return files, folders


def main():
    options = words()
    rows, missed = programs(options.program), 0
    print("| Tree | " + " | ".join(rows) + " | of Git's | calls | names | folders |\n|---|---" + "|---" * (len(rows) + 3) + "|")
    with tempfile.TemporaryDirectory() as room:
        for name in options.trees.split(";"):
            root = f"{options.keep or room}/{name.replace(' ', '_')}"
            if not os.path.isdir(root):
                make(Load(options.seed), name, root)
            if "git" in rows and listed(rows["globtree"], root) != listed(rows["git"], root):
                print(f"files: {name}: globtree lists otherwise than Git", file=sys.stderr)
                missed += 1
            took = medians(rows, root, options.turns)
            cells = [f"{each:.3f}" for each in took.values()]
            if "git" in took:
                ratio = took["globtree"] / took["git"]
                cells.append(f"{ratio:.2f}")
                if ratio > TREES[name]:
                    print(f"files: missed: {name}: {ratio:.2f} of Git's seconds, and not {TREES[name]}", file=sys.stderr)
                    missed += 1
            if shutil.which("strace"):
                count, (met, folders) = calls(rows["globtree"], root), entries(root)
                cells += [f"{count:,}", f"{met:,}", f"{folders:,}"]
                if count > CALLS_OF_NAME * met + CALLS_OF_FOLDER * folders + CALLS_OF_START:
                    print(f"files: missed: {name}: {count:,} calls at {met:,} names in {folders:,} folders", file=sys.stderr)
                    missed += 1
            print(f"| {name} | " + " | ".join(cells) + " |", flush=True)
    return 1 if missed else 0


if __name__ == "__main__":
    sys.setrecursionlimit(10_000)
    sys.exit(main())

#!/usr/bin/env python3
"""Counts what a path costs against an ignore file, by the number of patterns: bench/lists.py

It counts `globline`, which `./globline --prove` builds, and beside it `git check-ignore` and ripgrep's matcher, where git, and
cargo with Debian's librust-ignore-dev, are there. Two runs by valgrind's callgrind, over the paths and over half of them, give
the instructions a path; what is left, less an empty run, is reading and preparing, a pattern. `--make FOLDER` writes
FOLDER/patterns and FOLDER/paths of the first size, and runs nothing."""
import argparse
import itertools
import os
import re
import shutil
import subprocess
import sys
import tempfile

sys.dont_write_bytecode = True
from mixture import Load

HERE = os.path.dirname(os.path.abspath(__file__))
PROGRAM = os.path.join(os.path.dirname(HERE), "out", "globline")
# the kinds of lists: how a pattern is made, how many there are, and the most instructions that a path may take `globline ignore`
KINDS = {
    "mixture": (Load.pattern, "10,100,1000,10000", None),
    "sets": (Load.set_pattern, "1000", 7_000),
    "open": (Load.open_pattern, "100", 35_000),
}


def write(file, lines):
    with open(file, "w", encoding="ascii") as out:
        out.writelines(line + "\n" for line in lines)


def instructions(words, paths):
    with open(paths, "rb") as given:
        done = subprocess.run(
            ["valgrind", "--tool=callgrind", "--callgrind-out-file=/dev/null", *words],
            stdin=given, stdout=subprocess.DEVNULL, stderr=subprocess.PIPE, text=True, env={**os.environ, "GIT_CONFIG_GLOBAL": "/dev/null"})
    # git's status is 1 where no path is ignored
    found = re.search(r"Collected : (\d+)", done.stderr)
    if done.returncode > 1 or not found:
        sys.exit(f"lists: {' '.join(words)}\n{done.stderr}")
    return int(found[1])


def ripgrep():
    """The program over ripgrep's matcher, built; None where it can't be."""
    if not shutil.which("cargo") or not os.path.isdir("/usr/share/cargo/registry/ignore-0.4.18"):
        return None
    target = f"{HERE}/out/ripgrep"
    subprocess.run(["cargo", "build", "--quiet", "--release", "--offline", "--target-dir", target], cwd=f"{HERE}/ripgrep", check=True)
    return f"{target}/release/ripgrep"


def programs():
    """For each program, its words for the file FOLDER/.gitignore of patterns."""
    rows = {}
    if not os.path.isfile(PROGRAM):
        sys.exit(f"lists: there is no {PROGRAM}: ./globline --prove builds it")
    for command, words in (("list", ["{}", "-"]), ("ignore", ["-", "{}"])):
        rows[f"globline {command}"] = lambda folder, c=command, w=words: [PROGRAM, c, "sensitive", *[f"{folder}/.gitignore" if it == "{}" else it for it in w]]
    if shutil.which("git"):
        rows["git check-ignore"] = lambda folder: [shutil.which("git"), "-C", folder, "check-ignore", "-v", "-n", "--no-index", "--stdin"]
    matcher = ripgrep()
    if matcher:
        rows["ripgrep's matcher"] = lambda folder: [matcher, f"{folder}/.gitignore"]
    return rows


def counted(words, size, folder, paths):
    """Instructions a path, and of reading and preparing a pattern."""
    half = paths[: len(paths) // 2]
    write(f"{folder}/paths", paths)
    write(f"{folder}/half", half)
    whole, part = (instructions(words(folder), f"{folder}/{name}") for name in ("paths", "half"))
    a_path = (whole - part) / (len(paths) - len(half))
    write(f"{folder}/none", [])
    os.makedirs(f"{folder}/empty", exist_ok=True)
    subprocess.run(["git", "init", "-q", f"{folder}/empty"], check=False)
    write(f"{folder}/empty/.gitignore", [])
    start = instructions(words(f"{folder}/empty"), f"{folder}/none")
    return a_path, (part - start - a_path * len(half)) / size


def make_tree(load, tree, count, root, place):
    """Makes the folders in a repository, each with an ignore file of ten lines; and so many paths, each placed by a folder of them, in
    random order."""
    patterns = {folder: [load.pattern() for _ in range(10)] for folder in tree}
    paths = [place(load.random.choice(tree)) for _ in range(count)]
    subprocess.run(["git", "init", "-q", root], check=False)
    for folder in tree:
        os.makedirs(f"{root}/{folder}", exist_ok=True)
        write(f"{root}/{folder}.gitignore", patterns[folder])
    return paths


def cost_of_path(words, paths, root):
    """Instructions a path. Each second one is left out of the other run, so that both go through all folders."""
    half = paths[::2]
    write(f"{root}/paths", paths)
    write(f"{root}/half", half)
    whole, part = (instructions(words, f"{root}/{name}") for name in ("paths", "half"))
    return (whole - part) / (len(paths) - len(half))


def count_folders(o):
    """What a path costs among the ignore files of many folders, ten lines each: in random order, and sorted."""
    git = shutil.which("git")
    rows = {"globline ignore": lambda folder, files: [PROGRAM, "ignore", "sensitive", folder, *files]}
    if git:
        rows["git check-ignore"] = lambda folder, files: [git, "-C", folder, "check-ignore", "-v", "-n", "--no-index", "--stdin"]
    points = {}
    print("| Folders | Order | " + " | ".join(rows) + " |\n|---|---" + "|---" * len(rows) + "|")
    for count in [int(count) for count in o.folders.split(",")]:
        load = Load(o.seed)
        tree = load.tree(count)
        with tempfile.TemporaryDirectory() as root:
            paths = make_tree(load, tree, o.paths, root, load.path_below)
            files = [f"{root}/{folder}.gitignore" for folder in tree]
            for order, ordered in (("random", paths), ("sorted", sorted(paths))):
                costs = {name: cost_of_path(words(root, files), ordered, root) for name, words in rows.items()}
                for name, cost in costs.items():
                    points.setdefault((name, order), []).append((count, cost))
                print(f"| {count:,} | {order} | " + " | ".join(f"{cost:,.0f}" for cost in costs.values()) + " |", flush=True)
    if o.draw:
        import draw

        draw.folders(points)


def count_names(o):
    """What a path costs against plain names and literal ends alone; of the last size once more by the clock, with 10,000 paths."""
    print("| Patterns | Instructions a path |\n|---|---|")
    sizes = [int(size) for size in o.names.split(",")]
    costs = []
    for size in sizes[:-1]:
        load = Load(o.seed)
        names = [load.name_pattern() for _ in range(size)]
        paths = [load.path() for _ in range(o.paths)]
        with tempfile.TemporaryDirectory() as folder:
            write(f"{folder}/.gitignore", names)
            costs.append(counted(lambda folder: [PROGRAM, "ignore", "sensitive", "-", f"{folder}/.gitignore"], size, folder, paths)[0])
        print(f"| {size:,} | {costs[-1]:,.0f} |", flush=True)
    load = Load(o.seed)
    with tempfile.TemporaryDirectory() as folder:
        write(f"{folder}/.gitignore", [load.name_pattern() for _ in range(sizes[-1])])
        write(f"{folder}/paths", [load.path() for _ in range(10_000)])
        with open(f"{folder}/paths", "rb") as given:
            run = subprocess.Popen([PROGRAM, "ignore", "sensitive", "-", f"{folder}/.gitignore"], stdin=given, stdout=subprocess.DEVNULL)
            used = os.wait4(run.pid, 0)[2]
    seconds, megabytes = used.ru_utime + used.ru_stime, used.ru_maxrss * 1024 / 1e6
    print(f"{sizes[-1]:,} patterns by 10,000 paths: {seconds:.2f} seconds of the processor, {megabytes:.1f} MB")
    sys.exit(1 if costs[-1] > 2 * costs[0] or seconds > 3 or megabytes > 130 else 0)


def hostile_stacks(load, root, count):
    """Stacks on which prepared lists have most to lose, made below a folder: for each its name, how case counts, its files and its paths."""

    def files(folders, patterns):
        made = []
        for k, folder in enumerate(folders):
            os.makedirs(f"{root}/{folder}", exist_ok=True)
            made.append(f"{root}/{folder}/{k}")
            write(made[-1], [load.pattern() for _ in range(patterns)])
        return made

    names = ["".join(letters) for letters in itertools.islice(itertools.product(*[(it, it.upper()) for it in "abcdefghijklmn"]), count)]
    deep = min(count, 1000)
    one, below = files(["one"] * count, 1), files(["/".join("d" * k) for k in range(1, deep + 1)], 1)
    cased, empty = files(names, 1), files([f"e{k}" for k in range(count)], 0)
    paths = [load.path() for _ in range(40)]
    yield "one base", "sensitive", one, [f"one/{path}" for path in paths]
    yield "another base than the paths'", "sensitive", one, [f"other/{path}" for path in paths]
    yield "one below the other", "sensitive", below, ["d/" * deep + path for path in paths]
    yield "case alone", "sensitive", cased, [f"{load.random.choice(names)}/{path}" for path in paths]
    yield "case alone, folded", "fold", cased, [f"{load.random.choice(names)}/{path}" for path in paths]
    yield "empty lists", "sensitive", empty, [f"e{load.random.randrange(count)}/{path}" for path in paths]


def count_hostile(o):
    """What a path costs among hostile stacks, and of a program that tests each pattern in turn."""
    print("| Lists | Case | Here | Each in turn | Ratio |\n|---|---|---|---|---|")
    missed = 0
    # a thousand folders, one below the other, are removed by recursion
    sys.setrecursionlimit(10_000)
    with tempfile.TemporaryDirectory() as root:
        for name, case, files, paths in hostile_stacks(Load(o.seed), f"{root}/r", o.lists):
            here, in_turn = (cost_of_path([program, "ignore", case, f"{root}/r", *files], paths, root) for program in (PROGRAM, o.hostile_stacks))
            missed += here > 1.05 * in_turn
            print(f"| {name} | {case} | {here:,.0f} | {in_turn:,.0f} | {here / in_turn:.2f} |", flush=True)
    sys.exit(1 if missed else 0)


def main():
    args = argparse.ArgumentParser(description=__doc__, formatter_class=argparse.RawDescriptionHelpFormatter)
    args.add_argument("--kind", choices=KINDS, default="mixture", help="of what patterns: realistic ones; names, and sets in three of a hundred; or without a literal end; status 1 where a goal of the last two is missed")
    args.add_argument("--sizes", help="how many patterns, as 10,100,1000")
    args.add_argument("--paths", type=int, default=1000)
    args.add_argument("--seed", type=int, default=5)
    args.add_argument("--make", metavar="FOLDER")
    args.add_argument("--draw", action="store_true", help="with --folders: put the figures into docs/pictures, and draw them")
    args.add_argument("--folders", metavar="COUNTS", help="count paths among the ignore files of so many folders, as 20,200,2000, and nothing else")
    args.add_argument("--names", metavar="COUNTS", help="count paths against so many plain names and literal ends alone, as 100,1000,100000,1000000, of which the last is timed, and nothing else; status 1 where a goal is missed")
    args.add_argument("--hostile-stacks", metavar="PROGRAM", help="count paths among hostile stacks of lists, beside a PROGRAM that tests each pattern in turn, and nothing else; status 1 where one takes more than 1.05 of that")
    args.add_argument("--lists", type=int, default=10000, help="of how many lists a hostile stack is")
    o = args.parse_args()
    if o.hostile_stacks:
        return count_hostile(o)
    if o.folders:
        return count_folders(o)
    if o.names:
        return count_names(o)
    pattern, sizes, most = KINDS[o.kind]
    sizes = [int(size) for size in (o.sizes or sizes).split(",")]
    missed = 0
    rows = {} if o.make else programs()
    if rows:
        print("| Patterns | " + " | ".join(rows) + " |\n|---" + "|---" * len(rows) + "|")
    for size in sizes:
        load = Load(o.seed)
        patterns = [pattern(load) for _ in range(size)]
        paths = [load.path() for _ in range(o.paths)]
        if o.make:
            os.makedirs(o.make, exist_ok=True)
            write(f"{o.make}/patterns", patterns)
            write(f"{o.make}/paths", paths)
            return
        with tempfile.TemporaryDirectory() as folder:
            subprocess.run(["git", "init", "-q", folder], check=False)
            write(f"{folder}/.gitignore", patterns)
            found = {name: counted(words, size, folder, paths) for name, words in rows.items()}
        missed += most is not None and found["globline ignore"][0] > most
        # what git reads before the first path isn't the patterns alone, and among the other kinds the paths' costs differ too much for a rest
        cells = [f"{a_path:,.0f}" + ("" if most or name.startswith("git") else f" ({a_pattern:,.0f})") for name, (a_path, a_pattern) in found.items()]
        print(f"| {size:,} | " + " | ".join(cells) + " |", flush=True)
    sys.exit(1 if missed else 0)


if __name__ == "__main__":
    main()

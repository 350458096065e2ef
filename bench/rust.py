#!/usr/bin/env python3
"""Counts the binding for Rust beside the C library: bench/rust.py

The library is crates/gix_glob_c/out/libgix_glob_c.a, which `examples/c/install PREFIX` or `rt lib` builds. What is printed is
instructions a call, by valgrind's callgrind, less what the harness takes: of each load from C and from Rust; then of a list from C,
each pattern in turn and prepared, by the number of patterns, and both again as Git reads the patterns. The status is 1 where a call through the binding takes more than 1.05
of what it takes from C."""
import argparse
import os
import subprocess
import sys
import tempfile

from matcher import HERE, LIBRARY, once, rustc

# what is counted: how a driver calls it, and the loads of matcher.py
LOADS = (("match", "ignore"), ("match", "ignore_fold"), ("match", "plain"), ("decide", "lines"), ("decide", "lines_fold"))
# what is asked of a prepared list of 1,000 patterns, from C and from Rust: by itself, and about each folder on the way
QUESTIONS = {"index": ("c_index", "rust_index"), "tree": ("c_prepared_tree", "rust_tree")}
OF_LIST = ("c_in_turn", "c_in_turn_as_git", "c_index", "c_index_as_git")
SIZES = (10, 100, 1000, 10000)
MOST = 1.05


def build(out, library):
    """Builds the binding, over small stubs of its dependencies, and the drivers."""
    os.makedirs(out, exist_ok=True)
    kind = ["--crate-type=rlib", "--out-dir", out]
    for stub in ("bitflags", "bstr"):
        rustc(out, stub, f"{HERE}/stubs/{stub}.rs", *kind)
    uses = [word for it in ("bitflags", "bstr") for word in ("--extern", f"{it}={out}/lib{it}.rlib")]
    rustc(out, "gix_glob", f"{HERE}/../bindings/rust/src/lib.rs", *kind, *uses)
    for name in ("binding", "lists"):
        rustc(out, name, f"{HERE}/{name}.rs", "--extern", f"gix_glob={out}/libgix_glob.rlib", "-o", f"{out}/{name}", f"-Clink-arg={os.path.abspath(library)}")


def counted(*words):
    """Instructions a call: two rounds less one."""
    (one, calls), (two, _) = (once([*words, str(rounds)]) for rounds in (1, 2))
    return (two - one) / calls


def make(folder, size):
    """The patterns and the paths of lists.py."""
    subprocess.run([sys.executable, f"{HERE}/lists.py", "--make", folder, "--sizes", str(size)], check=True)


def compared(load, nothing, c, rust):
    """Prints what a load takes, and answers whether Rust takes too much."""
    ratio = (rust - nothing) / (c - nothing)
    print(f"| `{load}` | {c - nothing:,.1f} | {rust - nothing:,.1f} | {ratio:.3f} |", flush=True)
    return ratio > MOST


def main():
    args = argparse.ArgumentParser(description=__doc__, formatter_class=argparse.RawDescriptionHelpFormatter)
    args.add_argument("--library", default=LIBRARY)
    args.add_argument("--out", default=f"{HERE}/out", help="a folder for what is built")
    options = args.parse_args()
    out = os.path.abspath(options.out)
    build(out, options.library)
    print("| Load | From C | From Rust | Ratio |\n|---|---|---|---|")
    missed = 0
    for kind, load in LOADS:
        missed += compared(load, *(counted(f"{out}/binding", kind, by, load) for by in ("nothing", "c", "rust")))
    with tempfile.TemporaryDirectory() as folder:
        make(folder, 1000)
        nothing = counted(f"{out}/lists", "nothing", folder)
        for what, asked in QUESTIONS.items():
            missed += compared(what, nothing, *(counted(f"{out}/lists", by, folder) for by in asked))
        print("\n| Patterns | In turn | As Git reads | Prepared | As Git reads | Preparing a pattern |\n|---|---|---|---|---|---|")
        for size in SIZES:
            make(folder, size)
            nothing, *asked = (counted(f"{out}/lists", what, folder) for what in ("nothing", *OF_LIST))
            print(f"| {size:,} | {' | '.join(f'{it - nothing:,.0f}' for it in asked)} | {counted(f'{out}/lists', 'prepare', folder):,.0f} |", flush=True)
    sys.exit(1 if missed else 0)


if __name__ == "__main__":
    main()

#!/usr/bin/env python3
"""Counts what the matcher takes, beside the Rust crate gix-glob: bench/matcher.py SOURCES

SOURCES is a checkout of gix-glob 0.28.0, or the folder src of one. Its files are read where they lie; none is kept here. The
library is crates/gix_glob_c/out/libgix_glob_c.a, which `examples/c/install PREFIX` or `rt lib` builds. Both are called on the
same inputs in one process. What is printed is instructions a call, or a unit of the load, by valgrind's callgrind, less what the
harness takes. With `--git FOLDER`, where Git's source lies, its wildmatch.c is counted too by the unit (it ends on those loads)."""
import argparse
import os
import re
import subprocess
import sys

HERE = os.path.dirname(os.path.abspath(__file__))
LIBRARY = os.path.join(os.path.dirname(HERE), "crates", "gix_glob_c", "out", "libgix_glob_c.a")
ENGINES = ("crate", "here")
# hostile sets, and the length at which they are counted
SETS = {"sets_by_pattern": 100, "sets_by_value": 200, "open_sets_by_pattern": 100, "open_sets_by_value": 200, "brackets": 5_000, "members_by_pattern": 500, "members_by_value": 500}


def said(words, **how):
    words = [str(word) for word in words]
    done = subprocess.run(words, stdout=subprocess.PIPE, stderr=subprocess.PIPE, text=True, **how)
    if done.returncode:
        sys.exit(f"matcher: {' '.join(words)}\n{done.stdout}{done.stderr}")
    return done


def source(folder, name):
    for file in (f"{folder}/src/{name}.rs", f"{folder}/{name}.rs", f"{folder}/src--src--{name}.rs.txt", f"{folder}/src/src--src--{name}.rs.txt"):
        if os.path.isfile(file):
            return os.path.abspath(file)
    sys.exit(f"matcher: there is no {name}.rs in {folder}: it is to be a checkout of gix-glob 0.28.0")


def memchr():
    """The sources of the crate memchr, of Debian's librust-memchr-dev or as MEMCHR names them."""
    if "MEMCHR" in os.environ:
        return os.environ["MEMCHR"]
    for folder in ("/usr/share/cargo/registry/memchr-2.5.0",):
        if os.path.isdir(folder):
            return folder
    sys.exit("matcher: install librust-memchr-dev, or name the sources of memchr 2.5 by MEMCHR")


def rustc(out, name, file, *more, edition="2024"):
    said(["rustc", f"--edition={edition}", "-Copt-level=3", "-Ccodegen-units=1", "-Cpanic=abort", "--cap-lints=allow",
          "-L", out, "--crate-name", name, *more, file], env={**os.environ, "BENCH_OUT": out})


def build(out, sources, library, git):
    """Builds the crate over small stubs of its dependencies, Git's matcher where its folder is told, and the driver over the engines."""
    if not os.path.isfile(library):
        sys.exit(f"matcher: there is no {library}: build it by `rt lib` in crates/gix_glob_c")
    os.makedirs(out, exist_ok=True)
    kind = ["--crate-type=rlib", "--out-dir", out]
    # what memchr's build script gives for x86-64
    flags = [f"--cfg={it}" for it in ("memchr_runtime_simd", "memchr_runtime_sse2", "memchr_runtime_sse42", "memchr_runtime_avx", 'feature="std"', 'feature="alloc"')]
    rustc(out, "memchr", f"{memchr()}/src/lib.rs", *kind, *flags, edition="2018")
    for stub in ("bitflags", "gix_utils", "gix_features"):
        rustc(out, stub, f"{HERE}/stubs/{stub}.rs", *kind)
    rustc(out, "bstr", f"{HERE}/stubs/bstr.rs", *kind, "--extern", f"memchr={out}/libmemchr.rlib", "--cfg=has_memchr")
    with open(f"{out}/upstream_mods.rs", "w", encoding="utf-8") as file:
        for name in ("wildmatch", "pattern", "parse"):
            file.write(f'#[path = "{source(sources, name)}"]\npub mod {name};\n')
    uses = [word for it in ("bitflags", "bstr", "gix_utils", "gix_features") for word in ("--extern", f"{it}={out}/lib{it}.rlib")]
    rustc(out, "upstream", f"{HERE}/upstream.rs", *kind, *uses)
    links = [f"-Clink-arg={os.path.abspath(library)}"]
    if git:
        said([os.environ.get("CC", "cc"), "-O3", "-c", "-include", f"{HERE}/stubs/git.h", "-o", f"{out}/wildmatch.o", f"{git}/wildmatch.c"])
        links += ["--cfg=git", f"-Clink-arg={out}/wildmatch.o"]
    rustc(out, "driver", f"{HERE}/driver.rs", "--extern", f"upstream={out}/libupstream.rlib", "-o", f"{out}/driver", *links)
    return f"{out}/driver"


def once(words):
    """The instructions of a run, and how many calls it says that it made in a round."""
    done = said(["valgrind", "--tool=callgrind", "--callgrind-out-file=/dev/null", *words])
    return int(re.search(r"Collected : (\d+)", done.stderr)[1]), int(done.stdout)


def counted(driver, *words):
    """Instructions a call: two rounds less one, and less those of an engine that does nothing."""
    rates = []
    for engine in (words[1], "nothing"):
        (one, calls), (two, _) = (once([driver, words[0], engine, *words[2:], str(rounds)]) for rounds in (1, 2))
        rates.append((two - one) / calls)
    return rates[0] - rates[1]


def goals(only):
    """The goals of the loads whose names hold a word: ratios to the crate's, and instructions a unit."""
    with open(f"{HERE}/goals.txt", encoding="utf-8") as file:
        lines = [line.partition("#")[0].strip().split(None, 3) for line in file]
    lines = [words for words in lines if words and only in words[0]]
    return {words[0]: float(words[1]) for words in lines if len(words) == 2}, [words for words in lines if len(words) > 2]


def judge(driver, loads):
    """Prints the figures of each load, and answers how many are above their goal."""
    print("| Load | The crate | Here | Ratio | Goal |\n|---|---|---|---|---|")
    missed = 0
    for load, goal in loads.items():
        how = "count_lines" if load.startswith("lines") else "count"
        crate, here = (counted(driver, how, engine, load) for engine in ENGINES)
        missed += here / crate > goal
        print(f"| `{load}` | {crate:,.0f} | {here:,.0f} | {here / crate:.{3 if here / crate < 0.01 else 2}f} | {goal:.2f} |", flush=True)
    return missed


def judge_units(driver, loads, engines):
    """Prints what a unit of each load takes each engine, and answers how many are above their goal."""
    print(f"\n| Load | Unit | {' | '.join(engines).title()} | At most |\n|---|---{'|---' * len(engines)}|---|")
    missed = 0
    for load, most, count, unit in loads:
        costs = {engine: counted(driver, "count", engine, load) / int(count) for engine in engines}
        missed += costs["here"] > float(most)
        print(f"| `{load}` | {unit} | {' | '.join(f'{cost:,.1f}' for cost in costs.values())} | {most} |", flush=True)
    return missed


def doubled(driver):
    """Prints what hostile sets cost at a length and at twice the length, and answers how many cost more than twice as much."""
    print("\n| Sets | Length | Here | Twice as long | Ratio |\n|---|---|---|---|---|")
    missed = 0
    for load, size in SETS.items():
        one, two = (counted(driver, "count_hostile", "here", load, str(size * times)) for times in (1, 2))
        missed += two / one > 2.02
        print(f"| `{load}` | {size:,} | {one:,.0f} | {two:,.0f} | {two / one:.2f} |", flush=True)
    return missed


def main():
    args = argparse.ArgumentParser(description=__doc__, formatter_class=argparse.RawDescriptionHelpFormatter)
    args.add_argument("sources")
    args.add_argument("--library", default=LIBRARY)
    args.add_argument("--git", metavar="FOLDER", help="where Git's source lies: its matcher is counted too")
    args.add_argument("--out", default=f"{HERE}/out", help="a folder for what is built")
    args.add_argument("--only", default="", help="a word that the names of the counted loads hold")
    args.add_argument("--fuzz", type=int, default=1_000_000, help="how many random inputs the answers are compared on")
    args.add_argument("--draw", action="store_true", help="count hostile inputs and values of several lengths too, put the figures into docs/pictures, and draw them")
    args.add_argument("--sets", action="store_true", help="count hostile sets of two lengths too: twice the length is to cost at most twice as much")
    options = args.parse_args()
    driver = build(os.path.abspath(options.out), options.sources, options.library, options.git)
    print("Answers that differ from the crate's, of a load or of random inputs:")
    print(said([driver, "agree"]).stdout + said([driver, "fuzz", options.fuzz, 1]).stdout)
    ratios, units = goals(options.only)
    missed = judge(driver, ratios) + judge_units(driver, units, ENGINES + ("git",) * bool(options.git))
    if options.sets:
        missed += doubled(driver)
    if options.draw:
        import draw

        for picture in (draw.hostile, draw.lengths):
            picture(lambda engine, load, size: counted(driver, "count_hostile", engine, load, str(size)))
    sys.exit(1 if missed else 0)


if __name__ == "__main__":
    main()

"""The figures of the pictures in the documents: docs/pictures/figures.tsv, which tools/pictures draws."""
import os
import subprocess

TOP = os.path.dirname(os.path.dirname(os.path.abspath(__file__)))
FIGURES = os.path.join(TOP, "docs", "pictures", "figures.tsv")


def put(picture, curves):
    """Puts the curves, each with its points, in the place of those of this picture, and draws it."""
    with open(FIGURES, encoding="utf-8") as it:
        head, *lines = it.read().rstrip("\n").split("\n")
    kept = [line for line in lines if not line.startswith(f"{picture}\t")]
    made = [f"{picture}\t{curve}\t{x}\t{y:.0f}" for curve, points in curves.items() for x, y in points]
    with open(FIGURES, "w", encoding="utf-8") as out:
        out.write("\n".join([head, *kept, *made]) + "\n")
    subprocess.run([os.path.join(TOP, "tools", "pictures")], check=True)


def by_engine(picture, loads, counted):
    """Counts both engines for each load at its sizes: `counted` gives the instructions, `length` where a size stands across."""
    curves = {}
    for load, name, length, sizes in loads:
        for engine, who in (("crate", "gix-glob"), ("here", "here")):
            points = [(length(size), counted(engine, load, size)) for size in sizes]
            print(f"{load} {who}: {' '.join(f'{cost:,.0f}' for _, cost in points)}", flush=True)
            curves[f"{name}: {who}"] = points
    put(picture, curves)


def hostile(counted):
    """What hostile input costs, by the bytes of pattern and value."""
    loads = (("dirs", "**/ n times, x", lambda n: 5 * n + 3, range(1, 13)), ("stars", "*a n times, xb", lambda n: 10 * n + 3, (1, 2, 4, 8, 12, 16, 24, 32)))
    by_engine("hostile", loads, counted)


def lengths(counted):
    """What a value costs by its length."""
    sizes = (16, 32, 64, 256, 1_024, 16_384, 100_000)
    loads = (("miss", "*xb"), ("miss_path", "*xb in path mode"), ("literal", "the value itself"))
    by_engine("lengths", [(load, name, lambda length: length, sizes) for load, name in loads], counted)


def folders(points):
    """What a path costs by the number of folders: for each program and order of paths, pairs of a number and a cost."""
    put("folders", {f"{program}, {'in order' if order == 'sorted' else order}": pairs for (program, order), pairs in points.items()})

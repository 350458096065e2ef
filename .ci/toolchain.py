"""The toolchain's own code, as scripts of the gate call it, and the folder in which they keep what this machine has passed."""
import importlib.machinery
import importlib.util
import os
import re
import shutil
import subprocess
import sys

sys.dont_write_bytecode = True
KIT = os.path.dirname(subprocess.run(["rt", "doc"], stdout=subprocess.PIPE, text=True, check=True).stdout.strip())
CACHE = os.path.join(os.environ.get("XDG_CACHE_HOME") or os.path.expanduser("~/.cache"), "girvuzhan")


def part(name):
    loader = importlib.machinery.SourceFileLoader(name, f"{KIT}/bin/{name}")
    made = importlib.util.module_from_spec(importlib.util.spec_from_loader(name, loader))
    loader.exec_module(made)
    return made


rt, readers = part("rt"), part("rt-plant-bodies")


# The one file of kept work that a check writes into, where it links a crate. All others it replaces.
WRITTEN = "linked-compared"


def link_or_copy(file, to):
    try:
        if os.path.basename(file) != WRITTEN:
            return os.link(file, to)
    except OSError:
        # (it is on another device)
        pass
    return shutil.copy2(file, to)


def linked(folder, to):
    """Gives a folder of kept work a second name, file by file, and a copy of what a check writes into."""
    shutil.rmtree(to, ignore_errors=True)
    shutil.copytree(folder, to, copy_function=link_or_copy)


# The file in a crate's folder out/ that has the names of its functions, as its proof called them, under the sum of what was proved.
FUNCTIONS = "functions"


def functions_in(said):
    """Returns the names of the functions that a check has proved, by what it said. (Where a library was built too, each stands twice.)"""
    return sorted({*re.findall(r"^fn (\S+): proved", said, re.M)})


def keep_functions(crate, said):
    with open(f"{crate.folder}/out/{FUNCTIONS}", "w", encoding="utf-8") as it:
        it.write("\n".join([crate.stamp(), *functions_in(said)]))


def kept_functions(crate):
    """Returns the names of the functions, if the crate was proved as it stands."""
    stamp, *names = (rt.rtlib.text_of(f"{crate.folder}/out/{FUNCTIONS}") or "").split("\n")
    return names if stamp == crate.stamp() else None

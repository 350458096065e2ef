"""The tags of a wheel for Linux, and the proof that a shared library keeps them: what it needs, as `readelf` tells it.

A wheel of these tags runs where glibc is 2.17 or later (PEP 600), so its library may need nothing but that: no other library, no
symbol of a later version, none whose version isn't told, no path to look for libraries, and no other machine.
"""

from __future__ import annotations

import os
import re
import shutil
import subprocess
from typing import Dict, List, Optional, Sequence

#: The tag, and the name that a pip before 20.3 knows it by.
TAGS = ("manylinux_2_17_x86_64", "manylinux2014_x86_64")
#: The tag of a wheel about which nothing is known. PyPI refuses it.
UNKNOWN = ("linux_x86_64",)
#: The latest version of glibc's symbols, and the libraries that are glibc's.
GLIBC = (2, 17)
LIBRARIES = ("ld-linux-x86-64.so.2", "libc.so.6", "libdl.so.2", "libm.so.6", "libpthread.so.0", "librt.so.1")


def _is_later(version: str) -> bool:
    """Whether a version of symbols isn't one that this glibc has."""
    found = re.fullmatch(r"GLIBC_([0-9.]+)", version)
    return not found or tuple(map(int, found[1].split("."))) > GLIBC


def _symbol_faults(table: str) -> List[str]:
    """What is wrong with the symbols of a library that another one is to have; a weak one may be missing."""
    faults = []
    for line in re.findall(r"^ *\d+: .* GLOBAL +\S+ +UND (\S+)", table, re.M):
        name, _, version = line.partition("@")
        if not version:
            faults.append(f"it needs {name}, of which no version is told")
    return faults


def faults(told: Dict[str, str]) -> List[str]:
    """What is wrong with a library: nothing where a wheel with it may have the tags.

    Args:
        told: what `readelf -W` says with each of the words of `WORDS`.
    """
    header, dynamic = told["--file-header"], told["--dynamic"]
    found = []
    for field, wanted in (("Class", "ELF64"), ("Machine", "Advanced Micro Devices X86-64"), ("Type", "DYN")):
        it = re.search(rf"^ *{field}: +(.*)$", header, re.M)
        if not it or not it[1].startswith(wanted):
            found.append(f"its {field.lower()} is {it[1] if it else 'not told'}, and not {wanted}")
    found += [f"it needs {it}" for it in re.findall(r"\(NEEDED\).*\[(.*)\]", dynamic) if it not in LIBRARIES]
    found += [f"it has a {it}" for it in re.findall(r"\((RPATH|RUNPATH|TEXTREL)\)", dynamic)]
    found += [f"it needs {it}" for it in re.findall(r"Name: (\S+) +Flags:", told["--version-info"]) if _is_later(it)]
    if re.search(r"^ *GNU_STACK .* RWE ", told["--program-headers"], re.M):
        found.append("its stack is to be executable")
    return found + _symbol_faults(told["--dyn-syms"])


#: What `readelf` is asked.
WORDS = ("--file-header", "--dynamic", "--version-info", "--program-headers", "--dyn-syms")


def _readelf(program: str, file: str, word: str) -> str:
    environment = {**os.environ, "LC_ALL": "C"}
    said = subprocess.run([program, "-W", word, "--", file], env=environment, capture_output=True, text=True)
    if said.returncode != 0 or "Error:" in said.stderr:
        raise ValueError(f"readelf doesn't read {file}: {said.stderr.strip()}")
    return said.stdout


def tags(file: str) -> Optional[Sequence[str]]:
    """The tags of a wheel with this library; None where there is no `readelf`, so that nothing is known.

    Raises:
        ValueError: the library needs more than the tags promise.
    """
    program = shutil.which("readelf")
    if program is None:
        return None
    found = faults({word: _readelf(program, file, word) for word in WORDS})
    if found:
        raise ValueError(f"no wheel of {TAGS[0]} can have {file}: {'; '.join(found)}")
    return TAGS

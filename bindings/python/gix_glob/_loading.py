"""Finds the shared library and loads it; a file that isn't the library of this version is refused."""

from __future__ import annotations

import ctypes
import os
from typing import Any

from ._answers import first_wrong
from ._calls import CALLS, OTHERS, VERSION

#: The file's name, with the version of its calls: the first number, and while that is 0 the second one, too.
NAME = "libgix_glob_c.so." + ".".join(VERSION.split(".")[: 2 if VERSION.startswith("0.") else 1])
#: The environment variable that names the file.
VARIABLE = "GIX_GLOB_LIBRARY"
_FOLDER = os.path.dirname(os.path.abspath(__file__))


def _file() -> str:
    """The file that the environment names, else the one beside this module, else the system's."""
    beside = os.path.join(_FOLDER, NAME)
    return os.environ.get(VARIABLE) or (beside if os.path.exists(beside) else NAME)


def _refused(why: object) -> OSError:
    return OSError(
        f"the shared library {NAME} can't be used: {why}. A checkout of Girvuzhan makes it by "
        f"`examples/c/install PREFIX`; then set {VARIABLE}=PREFIX/lib/{NAME}, or put the file into {_FOLDER}"
    )


def _declared(library: ctypes.CDLL) -> ctypes.CDLL:
    """The library with its calls declared. It is to have all calls of its header, not only those that are used."""
    for name in OTHERS:
        getattr(library, name)
    for name, (parameters, answer) in CALLS.items():
        call = getattr(library, name)
        call.argtypes, call.restype = parameters, answer
    return library


def load() -> Any:
    """The library. An OSError tells why there is none."""
    file = _file()
    try:
        library = _declared(ctypes.CDLL(file))
    except (OSError, AttributeError) as error:
        raise _refused(error) from None
    wrong = first_wrong(library)
    if wrong:
        raise _refused(f"{file}: {wrong} doesn't answer as that of version {VERSION}")
    return library

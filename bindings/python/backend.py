"""Makes what `pip` asks for: the wheel and the source distribution of this package (PEP 517), and an editable one (PEP 660).

It needs nothing but Python's own library, so `pip install` builds without a network. The shared library is the file that the
environment variable GIX_GLOB_LIBRARY names, else the one that lies beside the package's modules. It goes into a wheel after the
package has loaded it, which asks whether it is that of this version, and after `manylinux` has seen what it needs.
"""

from __future__ import annotations

import ast
import base64
import gzip
import hashlib
import io
import os
import re
import shutil
import subprocess
import sys
import tarfile
import zipfile
from typing import Any, Dict, List, NoReturn, Optional, Sequence

import manylinux

HERE = os.path.dirname(os.path.abspath(__file__))
PACKAGE = "gix_glob"
LICENCES = ("LICENSE-APACHE", "LICENSE-MIT")
AUTHOR = "Girvuzhan maintainers <maintainers@users.noreply.girvuzhan.example>"
#: One date, so that the same files make the same archive: the first one that a zip file can tell.
DATE = (1980, 1, 1, 0, 0, 0)
SECONDS = 315532800


def _refused(why: object) -> NoReturn:
    # (an exception would come with a traceback)
    sys.exit(f"gix-glob: {why}")


def _read(*parts: str) -> bytes:
    with open(os.path.join(HERE, *parts), "rb") as file:
        return file.read()


def _project(key: str) -> Any:
    """A value of the table `project`, a text or a list of texts, as this folder's pyproject.toml spells it.

    Python reads TOML from 3.11 on; what stands there is spelled as Python spells it, too."""
    table = re.search(r"^\[project\]\n(.*?)^\[", _read("pyproject.toml").decode(), re.M | re.S)
    found = table and re.search(rf'^{key} = (".*?"|\[.*?\])$', table[1], re.M | re.S)
    if not found:
        raise KeyError(f"pyproject.toml has no {key}")
    return ast.literal_eval(found[1])


# (as the package names it; it can't be asked before there is a library)
_VERSION = _project("version")
LIBRARY = "libgix_glob_c.so." + ".".join(_VERSION.split(".")[: 2 if _VERSION.startswith("0.") else 1])


def _modules() -> Dict[str, bytes]:
    names = (name for name in os.listdir(os.path.join(HERE, PACKAGE)) if name.endswith(".py") or name == "py.typed")
    return {f"{PACKAGE}/{name}": _read(PACKAGE, name) for name in sorted(names)}


def _library() -> str:
    """The shared library, which the package accepts."""
    file = os.path.abspath(os.environ.get("GIX_GLOB_LIBRARY") or os.path.join(HERE, PACKAGE, LIBRARY))
    if not os.path.isfile(file):
        _refused(
            f"there is no library {file}: `examples/c/install PREFIX` makes it in a checkout of Girvuzhan, with the Rattle "
            f"toolchain; then set GIX_GLOB_LIBRARY=PREFIX/lib/{LIBRARY}"
        )
    # (in a process of its own, as a wrong library may do anything)
    program = f"import sys; sys.dont_write_bytecode = True; sys.path.insert(0, {HERE!r}); import {PACKAGE}"
    environment = {**os.environ, "GIX_GLOB_LIBRARY": file}
    said = subprocess.run([sys.executable, "-c", program], env=environment, stderr=subprocess.PIPE, text=True)
    if said.returncode != 0:
        told = said.stderr.strip().rpartition("\n")[2] or f"it ended Python with status {said.returncode}"
        _refused(f"{file} is no library of this version: {told}")
    return file


def _tags(library: str) -> Sequence[str]:
    """The tags of a wheel with this library: those that PyPI takes are given after a look at what it needs alone."""
    try:
        tags = manylinux.tags(library)
    except ValueError as error:
        _refused(error)
    if tags is None:
        tags = manylinux.UNKNOWN
        print(f"gix-glob: there is no readelf here, so the wheel's tag is {tags[0]}, which PyPI refuses", file=sys.stderr)
    return tags


def _description() -> str:
    """The README without its links to other files, which aren't where it is shown."""
    return re.sub(r"\[([^\]\n]+)\]\((?!https?:)[^)\n]*\)", r"\1", _read("README.md").decode())


def _metadata() -> bytes:
    # (version 2.1 is known by every pip and twine that is about; 2.4 would have an expression for the licence)
    fields = [
        ("Metadata-Version", "2.1"),
        ("Name", _project("name")),
        ("Version", _project("version")),
        ("Summary", _project("description")),
        ("Keywords", ",".join(_project("keywords"))),
        ("Author-email", AUTHOR),
        ("License", "MIT OR Apache-2.0"),
        *(("Classifier", classifier) for classifier in _project("classifiers")),
        ("Requires-Python", _project("requires-python")),
        ("Description-Content-Type", "text/markdown"),
    ]
    return "".join([*(f"{name}: {value}\n" for name, value in fields), "\n", _description()]).encode()


def _record(files: Dict[str, bytes]) -> str:
    """What RECORD says of the files: each with its digest and its size."""
    lines = []
    for name, content in files.items():
        digest = base64.urlsafe_b64encode(hashlib.sha256(content).digest()).rstrip(b"=").decode()
        lines.append(f"{name},sha256={digest},{len(content)}\n")
    return "".join(lines)


def _write_wheel(folder: str, files: Dict[str, bytes], tags: Sequence[str], is_pure: bool) -> str:
    """Writes a wheel of files, and what a wheel has beside them; answers its name."""
    info = f"{PACKAGE}-{_project('version')}.dist-info"
    lines = ["Wheel-Version: 1.0", f"Generator: {PACKAGE}", f"Root-Is-Purelib: {str(is_pure).lower()}"]
    lines += [f"Tag: py3-none-{tag}" for tag in tags]
    files = {
        **files,
        **{f"{info}/licenses/{name}": _read(name) for name in LICENCES},
        f"{info}/METADATA": _metadata(),
        f"{info}/WHEEL": "".join(f"{line}\n" for line in lines).encode(),
    }
    files[f"{info}/RECORD"] = f"{_record(files)}{info}/RECORD,,\n".encode()
    wheel = f"{PACKAGE}-{_project('version')}-py3-none-{'.'.join(tags)}.whl"
    with zipfile.ZipFile(os.path.join(folder, wheel), "w", zipfile.ZIP_DEFLATED) as archive:
        for name, content in files.items():
            entry = zipfile.ZipInfo(name, DATE)
            entry.compress_type = zipfile.ZIP_DEFLATED
            entry.external_attr = 0o100644 << 16
            archive.writestr(entry, content)
    return wheel


def build_wheel(
    wheel_directory: str, config_settings: Optional[Dict[str, Any]] = None, metadata_directory: Optional[str] = None
) -> str:
    """Writes the wheel, with the shared library in it, and answers its name."""
    library = _library()
    tags = _tags(library)
    with open(library, "rb") as file:
        return _write_wheel(wheel_directory, {**_modules(), f"{PACKAGE}/{LIBRARY}": file.read()}, tags, False)


def build_editable(
    wheel_directory: str, config_settings: Optional[Dict[str, Any]] = None, metadata_directory: Optional[str] = None
) -> str:
    """Writes a wheel that leads to the modules where they lie, and answers its name. A library that GIX_GLOB_LIBRARY names is put
    beside them, so that it is found without the variable."""
    library, beside = _library(), os.path.join(HERE, PACKAGE, LIBRARY)
    if os.path.realpath(library) != os.path.realpath(beside):
        shutil.copyfile(library, beside)
    return _write_wheel(wheel_directory, {f"__editable__.{PACKAGE}.pth": f"{HERE}\n".encode()}, manylinux.UNKNOWN, True)


def _sources() -> Dict[str, bytes]:
    """The files of the source distribution: all that makes the wheel but the library, which a checkout makes, and the tests."""
    tests = sorted(name for name in os.listdir(os.path.join(HERE, "tests")) if name.endswith(".py"))
    names: List[str] = ["README.md", *LICENCES, "pyproject.toml", "backend.py", "manylinux.py"]
    return {
        "PKG-INFO": _metadata(),
        **{name: _read(name) for name in names},
        **_modules(),
        **{f"tests/{name}": _read("tests", name) for name in tests},
    }


def build_sdist(sdist_directory: str, config_settings: Optional[Dict[str, Any]] = None) -> str:
    """Writes the source distribution, and answers its name."""
    stem = f"{PACKAGE}-{_project('version')}"
    written = io.BytesIO()
    with tarfile.open(fileobj=written, mode="w", format=tarfile.USTAR_FORMAT) as archive:
        for name, content in _sources().items():
            entry = tarfile.TarInfo(f"{stem}/{name}")
            entry.size, entry.mtime, entry.mode = len(content), SECONDS, 0o644
            archive.addfile(entry, io.BytesIO(content))
    with open(os.path.join(sdist_directory, f"{stem}.tar.gz"), "wb") as file:
        file.write(gzip.compress(written.getvalue(), mtime=SECONDS))
    return f"{stem}.tar.gz"

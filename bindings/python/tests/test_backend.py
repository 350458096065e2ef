"""The wheel, the source distribution and the editable wheel: what is in them, and which libraries go into none."""

import base64
import email
import hashlib
import os
import re
import shutil
import subprocess
import sys
import tarfile
import tempfile
import unittest
import zipfile
from unittest import mock

import backend
import gix_glob
import manylinux
from gix_glob import _library

TOP = os.path.join(backend.HERE, "..", "..")
INFO = f"gix_glob-{gix_glob.__version__}.dist-info"
MODULES = {name for name in os.listdir(os.path.join(backend.HERE, "gix_glob")) if name.endswith(".py")}

#: What `readelf` says of a library that a wheel may have; parts of it.
GOOD = {
    "--file-header": "  Class:   ELF64\n  Type:    DYN (Shared object file)\n  Machine: Advanced Micro Devices X86-64\n",
    "--dynamic": f" 0x01 (NEEDED)   Shared library: [libc.so.6]\n 0x0e (SONAME)  Library soname: [{backend.LIBRARY}]\n",
    "--version-info": "  0x0010:   Name: GLIBC_2.2.5  Flags: none  Version: 3\n"
    "  0x0020:   Name: GLIBC_2.17  Flags: none  Version: 2\n",
    "--program-headers": "  GNU_STACK      0x000000 0x0 0x0 0x000000 0x000000 RW  0x10\n",
    "--dyn-syms": "   1: 0 0 FUNC    GLOBAL DEFAULT  UND memset@GLIBC_2.2.5 (2)\n"
    "   2: 0 0 NOTYPE  WEAK   DEFAULT  UND __gmon_start__\n"
    "   3: 0 9 FUNC    GLOBAL DEFAULT   12 gix_glob_parse\n",
}
#: Changes of it, and what is told of each.
BAD = (
    ("--file-header", "ELF64", "ELF32", "its class is ELF32"),
    ("--file-header", "Advanced Micro Devices X86-64", "AArch64", "its machine is AArch64"),
    ("--file-header", "DYN", "EXEC", "its type is EXEC"),
    ("--dynamic", "libc.so.6", "libffi.so.8", "it needs libffi.so.8"),
    ("--dynamic", "(SONAME)", "(RUNPATH)", "it has a RUNPATH"),
    ("--dynamic", "(SONAME)", "(TEXTREL)", "it has a TEXTREL"),
    ("--version-info", "GLIBC_2.17", "GLIBC_2.18", "it needs GLIBC_2.18"),
    ("--version-info", "GLIBC_2.17", "GLIBC_2.17.1", "it needs GLIBC_2.17.1"),
    ("--version-info", "GLIBC_2.17", "GLIBC_PRIVATE", "it needs GLIBC_PRIVATE"),
    ("--version-info", "GLIBC_2.17", "GCC_3.0", "it needs GCC_3.0"),
    ("--program-headers", "RW ", "RWE", "its stack"),
    ("--dyn-syms", "memset@GLIBC_2.2.5 (2)", "memset", "it needs memset, of which no version is told"),
)


class Folder(unittest.TestCase):
    def setUp(self):
        made = tempfile.TemporaryDirectory()
        self.addCleanup(made.cleanup)
        self.out = made.name

    def path(self, *names):
        return os.path.join(self.out, *names)

    def library(self, file):
        """What is built meanwhile takes this library."""
        changed = mock.patch.dict(os.environ, {"GIX_GLOB_LIBRARY": file})
        changed.start()
        self.addCleanup(changed.stop)

    def sources(self):
        """The folder that the source distribution is unpacked to."""
        with tarfile.open(self.path(backend.build_sdist(self.out))) as archive:
            # (an old Python has no filters, a new one asks for one)
            archive.extractall(self.out, **({"filter": "data"} if hasattr(tarfile, "data_filter") else {}))
        return self.path(f"gix_glob-{gix_glob.__version__}")

    def built(self, sources, call):
        """What the backend of other sources builds."""
        os.makedirs(self.path("built"), exist_ok=True)
        program = f"import backend; print(backend.{call}({self.path('built')!r}))"
        words, environment = [sys.executable, "-c", program], {**os.environ, "PYTHONPATH": ""}
        said = subprocess.run(words, cwd=sources, env=environment, stdout=subprocess.PIPE, text=True)
        self.assertEqual(said.returncode, 0)
        return self.path("built", said.stdout.strip())


def files_of(wheel):
    with zipfile.ZipFile(wheel) as archive:
        return {name: archive.read(name) for name in archive.namelist()}


class Wheel(Folder):
    def setUp(self):
        super().setUp()
        self.library(os.path.abspath(_library._c._name))

    def test_what_is_in_it(self):
        files = files_of(self.path(backend.build_wheel(self.out)))
        info = ("METADATA", "WHEEL", "RECORD", "licenses/LICENSE-APACHE", "licenses/LICENSE-MIT")
        modules = {f"gix_glob/{name}" for name in (*MODULES, "py.typed", backend.LIBRARY)}
        self.assertEqual(set(files), modules | {f"{INFO}/{name}" for name in info})
        with open(_library._c._name, "rb") as file:
            self.assertEqual(files[f"gix_glob/{backend.LIBRARY}"], file.read())
        self.assertIn(b"Permission is hereby granted", files[f"{INFO}/licenses/LICENSE-MIT"])
        self.assertIn(b"Apache License", files[f"{INFO}/licenses/LICENSE-APACHE"])

    def test_record(self):
        files = files_of(self.path(backend.build_wheel(self.out)))
        rows = [row.split(",") for row in files[f"{INFO}/RECORD"].decode().splitlines()]
        self.assertEqual([row[0] for row in rows], list(files))
        for name, digest, size in rows[:-1]:
            wanted = base64.urlsafe_b64encode(hashlib.sha256(files[name]).digest()).decode().rstrip("=")
            self.assertEqual((digest, size), (f"sha256={wanted}", str(len(files[name]))))
        self.assertEqual(rows[-1], [f"{INFO}/RECORD", "", ""])

    def test_metadata(self):
        told = email.message_from_bytes(files_of(self.path(backend.build_wheel(self.out)))[f"{INFO}/METADATA"])
        version = gix_glob.__version__
        fields = {"Name": "gix-glob", "Version": version, "License": "MIT OR Apache-2.0", "Requires-Python": ">=3.9"}
        fields["Author-email"] = "Girvuzhan maintainers <maintainers@users.noreply.girvuzhan.example>"
        self.assertEqual({field: told[field] for field in fields}, fields)
        classifiers = told.get_all("Classifier")
        self.assertEqual(len([it for it in classifiers if it.startswith("License :: OSI Approved :: ")]), 2)
        self.assertIn("Typing :: Typed", classifiers)
        self.assertFalse([it for it in classifiers if it.startswith("Private")])
        text = told.get_payload(decode=True).decode()
        self.assertIn("# `gix_glob` for Python", text)
        # no link leads out of the page
        self.assertNotRegex(text, r"\]\((?!https?:)")

    @unittest.skipUnless(shutil.which("readelf"), "the tag of a wheel is left out: there is no readelf")
    def test_tags(self):
        wheel = backend.build_wheel(self.out)
        named = "py3-none-manylinux_2_17_x86_64.manylinux2014_x86_64"
        self.assertEqual(wheel, f"gix_glob-{gix_glob.__version__}-{named}.whl")
        lines = files_of(self.path(wheel))[f"{INFO}/WHEEL"].decode().splitlines()
        tags = [line for line in lines if line.startswith("Tag: ")]
        self.assertEqual(tags, ["Tag: py3-none-manylinux_2_17_x86_64", "Tag: py3-none-manylinux2014_x86_64"])
        self.assertIn("Root-Is-Purelib: false", lines)

    def test_the_tag_where_nothing_is_known(self):
        with mock.patch.dict(os.environ, {"PATH": self.out}), mock.patch("sys.stderr"):
            wheel = backend.build_wheel(self.out)
        self.assertEqual(wheel, f"gix_glob-{gix_glob.__version__}-py3-none-linux_x86_64.whl")

    def test_the_same_files_make_the_same_archives(self):
        made = []
        for _ in range(2):
            found = []
            for name in (backend.build_wheel(self.out), backend.build_sdist(self.out)):
                with open(self.path(name), "rb") as file:
                    found.append(file.read())
            made.append(found)
        self.assertEqual(*made)

    def test_libraries_that_are_refused(self):
        text, other = self.path("text.so"), sys.modules["_ctypes"].__file__
        with open(text, "w", encoding="ascii") as file:
            file.write("no library")
        none, wrong = "there is no library", "is no library of this version"
        for name, told in ((self.path("none"), none), (text, wrong), (other, wrong)):
            with mock.patch.dict(os.environ, {"GIX_GLOB_LIBRARY": name}):
                for build in (backend.build_wheel, backend.build_editable):
                    with self.subTest(name=name), self.assertRaisesRegex(SystemExit, f"{re.escape(name)}.*") as refused:
                        build(self.out)
                    self.assertIn(told, str(refused.exception))
        with mock.patch.object(manylinux, "tags", side_effect=ValueError("it needs more")):
            with self.assertRaisesRegex(SystemExit, "it needs more"):
                backend.build_wheel(self.out)
        self.assertEqual(os.listdir(self.out), ["text.so"])


class Manylinux(unittest.TestCase):
    def test_faults(self):
        self.assertEqual(manylinux.faults(GOOD), [])
        for word, old, new, told in BAD:
            with self.subTest(new=new):
                self.assertIn(old, GOOD[word])
                found = manylinux.faults({**GOOD, word: GOOD[word].replace(old, new)})
                self.assertEqual(len(found), 1)
                self.assertIn(told, found[0])

    @unittest.skipUnless(shutil.which("readelf"), "what a library needs is left out: there is no readelf")
    def test_files(self):
        self.assertEqual(manylinux.tags(_library._c._name), manylinux.TAGS)
        # (Python's own needs libffi, or a later glibc)
        with self.assertRaisesRegex(ValueError, "no wheel of manylinux_2_17_x86_64 can have .*: it needs"):
            manylinux.tags(sys.modules["_ctypes"].__file__)
        with self.assertRaisesRegex(ValueError, "readelf doesn't read"):
            manylinux.tags(__file__)


class Sources(Folder):
    def test_what_is_in_them(self):
        sources = self.sources()
        walked = (os.path.join(top, name) for top, _, names in os.walk(sources) for name in names)
        found = {os.path.relpath(path, sources) for path in walked}
        tests = {name for name in os.listdir(os.path.join(backend.HERE, "tests")) if name.endswith(".py")}
        own = {"PKG-INFO", "README.md", "LICENSE-APACHE", "LICENSE-MIT", "pyproject.toml", "backend.py", "manylinux.py"}
        modules = {f"gix_glob/{name}" for name in (*MODULES, "py.typed")}
        self.assertEqual(found, own | modules | {f"tests/{name}" for name in tests})
        for name in found - {"PKG-INFO"}:
            with open(os.path.join(sources, name), "rb") as one, open(os.path.join(backend.HERE, name), "rb") as other:
                self.assertEqual(one.read(), other.read(), name)
        with open(os.path.join(sources, "PKG-INFO"), "rb") as file:
            self.assertEqual(email.message_from_bytes(file.read())["Version"], gix_glob.__version__)

    def test_they_make_the_same(self):
        self.library(os.path.abspath(_library._c._name))
        sources = self.sources()
        for call in ("build_wheel", "build_sdist"):
            here = self.path(getattr(backend, call)(self.out))
            with open(self.built(sources, call), "rb") as one, open(here, "rb") as other:
                self.assertEqual(one.read(), other.read())

    def test_editable(self):
        self.library(os.path.abspath(_library._c._name))
        sources = self.sources()
        files = files_of(self.built(sources, "build_editable"))
        (name,) = (name for name in files if name.endswith(".pth"))
        self.assertEqual(files[name].decode(), f"{os.path.realpath(sources)}\n")
        self.assertIn(f"{INFO}/RECORD", files)
        beside = os.path.join(sources, "gix_glob", backend.LIBRARY)
        with open(beside, "rb") as one, open(_library._c._name, "rb") as other:
            self.assertEqual(one.read(), other.read())
        # and once more from the library that lies there
        with mock.patch.dict(os.environ, {"GIX_GLOB_LIBRARY": ""}):
            self.built(sources, "build_editable")


class Project(unittest.TestCase):
    @unittest.skipIf(sys.version_info < (3, 11), "pyproject.toml is left out: this Python doesn't read TOML")
    def test_it_is_read_as_toml_is(self):
        import tomllib

        with open(os.path.join(backend.HERE, "pyproject.toml"), "rb") as file:
            project = tomllib.load(file)["project"]
        for key in ("name", "version", "description", "requires-python", "keywords", "classifiers"):
            self.assertEqual(backend._project(key), project[key])
        self.assertEqual(project["license"], {"text": "MIT OR Apache-2.0"})
        self.assertEqual([f"{it['name']} <{it['email']}>" for it in project["authors"]], [backend.AUTHOR])
        self.assertEqual(project["version"], gix_glob.__version__)
        with self.assertRaises(KeyError):
            backend._project("urls")

    @unittest.skipUnless(os.path.exists(os.path.join(TOP, "packaging", "debian")), "there is no checkout here")
    def test_the_author_is_that_of_debians_packages(self):
        with open(os.path.join(TOP, "packaging", "debian", "control"), encoding="utf-8") as file:
            self.assertIn(f"Maintainer: {backend.AUTHOR}\n", file.read())

    @unittest.skipUnless(os.path.exists(os.path.join(TOP, "LICENSE-MIT")), "there is no checkout here")
    def test_licences_are_the_checkouts(self):
        for name in backend.LICENCES:
            with open(os.path.join(TOP, name), "rb") as one, open(os.path.join(backend.HERE, name), "rb") as other:
                self.assertEqual(one.read(), other.read())

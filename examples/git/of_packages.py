#!/usr/bin/env python3
"""Lints the ignore files of Debian's source packages: for how many lines `globtree lint --all` has a reason, a path, or no verdict.

usage: of_packages.py [--in DIR] [PACKAGE..]

apt-get takes the sources of the packages, from where this machine has its packages, into DIR, where they stay, or else into a folder that is
removed. Nothing of the machine's own lists is changed. Of each source the ignore files alone are unpacked, each to its place. Then Git is
asked, with all lines and without those that have a reason, about sample paths of all lines, as files and as folders: no answer may change.

A line tells of each package the lines of its files, blank ones and comments apart, and what was found. The status is 1 where an answer
changes, or more than one line in 400 got no verdict. The variable GLOBTREE names another program than that of this repository."""
import collections
import getpass
import glob
import os
import re
import shutil
import subprocess
import sys
import tarfile
import tempfile

sys.dont_write_bytecode = True
sys.path.insert(0, os.path.dirname(os.path.realpath(__file__)))

from ignore_stacks import Asker, Stack, differ, samples
from of_globtree import GLOBTREE, shown
from of_lint import IDLE, environment_in, idle_places, linted, run
from trees import IGNORE_FILE

# of several languages; each has ignore files in its archive
PACKAGES = "git htop libgit2 mpv neovim php8.2 postgresql-15 redis ruby3.1 systemd u-boot vim".split()
KEYRING = "/usr/share/keyrings/debian-archive-keyring.gpg"
MOST_WITHOUT = 1 / 400


def download(packages, folder):
    """Has apt-get take the sources of packages into a folder, by lists of its own."""
    told = subprocess.run(["apt-get", "indextargets", "--format", "$(REPO_URI) $(RELEASE) $(COMPONENT)", "Created-By: Packages"], stdout=subprocess.PIPE, check=True, text=True)
    signed = f" [signed-by={KEYRING}]" if os.path.exists(KEYRING) else ""
    with tempfile.TemporaryDirectory() as room:
        with open(f"{room}/sources.list", "w", encoding="utf-8") as file:
            file.writelines(f"deb-src{signed} {line}\n" for line in sorted(set(told.stdout.splitlines())))
        for it in ("state/lists/partial", "cache/archives/partial"):
            os.makedirs(f"{room}/{it}")
        options = {"Dir::Etc::sourcelist": f"{room}/sources.list", "Dir::Etc::sourceparts": "-", "Dir::State": f"{room}/state", "Dir::Cache": f"{room}/cache"}
        # (who runs it may write there, and the user _apt not)
        options["APT::Sandbox::User"] = getpass.getuser()
        words = ["apt-get", "-qq", *(word for name, value in options.items() for word in ("-o", f"{name}={value}"))]
        subprocess.run([*words, "update"], check=True)
        subprocess.run([*words, "source", "--download-only", *packages], check=True, cwd=folder)


def archives(package, folder):
    """The archives of a package's source, and its version."""
    for name in glob.glob(os.path.join(folder, glob.escape(package) + "_*.dsc")):
        with open(name, encoding="utf-8") as file:
            text = file.read()
        parts = re.findall(r"^ \w{64} \d+ (\S+\.tar\.\w+)$", text, re.M)
        return [os.path.join(folder, part) for part in parts], re.search(r"^Version: (.*)$", text, re.M)[1]
    sys.exit(f"there is no source of {package} in {folder}")


def ignore_files(archive):
    """The ignore files of an archive, by the folder of the source that each lies in."""
    component = re.search(r"\.orig-([\w-]+)\.tar\.|\.(debian)\.tar\.", os.path.basename(archive))
    front = f"{component[1]}/" if component and component[1] else ""
    with tarfile.open(archive) as file:
        for it in file:
            path = it.name.removeprefix("./")
            if it.isfile() and os.path.basename(path) == os.fsdecode(IGNORE_FILE):
                # (the archive's first folder is the source, but that of Debian's part)
                path = path if component and component[2] else front + path.partition("/")[2]
                yield os.fsencode(path.removesuffix(os.fsdecode(IGNORE_FILE))), file.extractfile(it).read()


class Package:
    """The ignore files of a package's source, and what was found of them."""

    def __init__(self, name, folder):
        parts, self.version = archives(name, folder)
        files = {folder: text.splitlines(keepends=True) for part in parts for folder, text in ignore_files(part)}
        self.name, self.stack = name, Stack(files)

    def lint(self, room):
        top, environment = os.path.join(room, b"top"), environment_in(room)
        os.mkdir(top)
        self.stack.make(top)
        findings, self.unknown, self.fault = linted(run([GLOBTREE, "-C", top, "--top", ".", "lint", "--all", "--json"], environment))
        self.names = collections.Counter(it["name"] for it in findings)
        os.mkdir(os.path.join(room, b"asked"))
        asker = Asker(os.path.join(room, b"asked"), environment, False)
        questions = self.questions()
        before, after = asker.ask(self.stack, questions), asker.ask(self.stack.without(idle_places(findings)), questions)
        asker.answer()
        self.asked, self.changed = len(questions), differ(before, after)

    def questions(self):
        """Samples of the lines, as files and as folders, but no files that have ignore files below."""
        paths = {path for folder, number in self.stack.places() for path in samples(folder, self.stack.line((folder, number)))}
        folders = {folder[:at] for folder in self.stack.files for at, byte in enumerate(folder) if byte == ord("/")}
        return [(path, is_dir) for path in sorted(paths) for is_dir in (False, True) if is_dir or path not in folders]

    def reasons(self):
        return sum(self.names[name] for name in IDLE)

    def lines(self):
        return len(self.stack.places())

    def tell(self):
        found = ", ".join(f"{self.names[name]} {name}" for name in sorted(self.names))
        print(f"{self.name} {self.version}: {len(self.stack.files)} files, {self.lines()} lines, {self.reasons()} with a reason, {self.unknown} without a verdict; found: {found or 'nothing'}")
        if self.fault:
            print(f"{self.name}: {shown(self.fault)}")
        for path, is_dir in self.changed:
            print(f"{self.name}: Git says otherwise of {shown(path)}{'/' if is_dir else ''} without the lines that have a reason")


def lint_packages(names, folder):
    """Lints these packages, of which the sources lie in a folder. The status is 1 where anything is wrong."""
    packages = [Package(name, folder) for name in names]
    for package in packages:
        with tempfile.TemporaryDirectory() as room:
            package.lint(os.fsencode(room))
        package.tell()
    lines, reasons, unknown, asked = (sum(them) for them in zip(*((it.lines(), it.reasons(), it.unknown, it.asked) for it in packages)))
    print(f"{len(packages)} packages: {lines} lines, {reasons} with a reason, {lines - reasons - unknown} with a path, {unknown} without a verdict; {asked} paths asked of Git")
    return 1 if any(it.fault or it.changed for it in packages) or unknown > lines * MOST_WITHOUT else 0


def main(words):
    folder = None
    if words[:1] == ["--in"] and len(words) > 1:
        folder, words = os.path.abspath(words[1]), words[2:]
    if any(word.startswith("-") for word in words):
        sys.exit(__doc__)
    names = words or PACKAGES
    room = folder or tempfile.mkdtemp()
    try:
        os.makedirs(room, exist_ok=True)
        missing = [name for name in names if not glob.glob(os.path.join(room, glob.escape(name) + "_*.dsc"))]
        if missing:
            download(missing, room)
        return lint_packages(names, room)
    finally:
        if not folder:
            shutil.rmtree(room)


if __name__ == "__main__":
    sys.exit(main(sys.argv[1:]))

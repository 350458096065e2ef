"""Work trees made at random, each from a number: folders, files and links with names of all kinds, and ignore files."""
import os
import random

IGNORE_FILE = b".gitignore"
INFO = b".git/info/exclude"
BYTE_ORDER_MARK = b"\xef\xbb\xbf"
SPACES = b" \t\n\f\r"
# what keeps both programs from the files of the machine
ALONE = {"GIT_CONFIG_NOSYSTEM": "1", "GIT_ATTR_NOSYSTEM": "1", "GIT_CONFIG_GLOBAL": "/dev/null"}

PLAIN = b"a b c aa ab a.o b.o x.c x.h a.log keep.log build doc src dir Makefile .env a-b 1 12".split()
FOLDERS = b"a b aa dir src doc build lib.d x .cfg".split()
HOSTILE = [
    b"sp ace", b"end ", b" front", b"tab\ttab", b"line\nfeed", b"\n", b"quo\"te", b"\"all\"", b"back\\slash", b"\\", b"cr\r", b"\x01\x7f",
    b"\xc3\xa9", b"\xe2\x82\xac.o", b"#hash", b"!bang", b"star*", b"**", b"[set]", b"[a", b"que?", b"-dash", b"--", b":colon", b"~", b"{a,b}",
    b"$x", b"'", b"...", b"..a", b"\a\b\v\f",
]
NO_TEXT = [b"\xff", b"a\xfe.o", b"\xe2\x82"]
CASED = b"a A b B _ q aa Aa AA a_ a.o A.O a.O dir Dir DIR".split() + [b"\xc3\xa9", b"\xc3\x89"]
SETS = (b"[a-z]", b"[!a]", b"[[:alnum:]]", b"[]b]", b"[^[:space:]]", b"[\\a-c]", b"[!-~]")
# those in which the case of a letter counts where it is folded elsewhere
CASED_SETS = (
    b"[A]", b"[!A]", b"[aA]", b"[A-Z]", b"[a-z]", b"[A-a]", b"[a-B]", b"[B-A]", b"[_-a]", b"[Z-y]", b"[+-Z]", b"[[:upper:]]", b"[![:lower:]]", b"[\\A-b]",
)
# lines of white space, and such as end in a byte 0 or give an empty pattern
UNUSUAL = (b"\t", b"!\t", b"\x0b", b"\x0c ", b" \t", b"\r", b"!\r", b" ", b"\0", b"#\0", b"!\0a", b"a\0b", b"*\0", b" \0x")


class Tree:
    """The tree of a number. `files` has what each holds, `links` to where each leads; paths are told from the top."""

    def __init__(self, seed):
        self.random = random.Random(seed)
        self.is_folding = self.random.random() < 0.35
        self.draw_names()
        self.folders = [b""]
        self.files, self.links = {}, {}
        for _ in range(self.random.randrange(4, 14)):
            self.add_folder()
        for folder in self.folders:
            for _ in range(self.random.randrange(1, 5)):
                self.add_file(folder)
        for target in (b"a", b"../a", b".", b"nowhere", b"loop"):
            self.add_link(target)
        self.excludes = self.ignore_file(b"") if self.chance(0.6) else None
        # else the tree's user has one
        self.has_default = self.chance(0.4)
        if self.chance(0.6):
            self.files[INFO] = self.ignore_file(b"")
        for folder in list(self.folders):
            if self.chance(0.9 if folder == b"" else 0.5):
                self.add_ignore_file(folder)

    def chance(self, part):
        return self.random.random() < part

    # ---- names

    def draw_names(self):
        if self.is_folding:
            self.names, self.folder_names = CASED, CASED
            return
        some = self.random.sample
        self.names = some(PLAIN, 7) + some(HOSTILE, 3) + some(NO_TEXT, 1)
        # (globtree can't open a folder whose name is no text)
        self.folder_names = some(FOLDERS, 4) + some(HOSTILE, 1)

    def taken(self, path):
        return path in self.files or path in self.links or path + b"/" in self.folders

    def add_folder(self):
        parent = self.random.choice(self.folders)
        path = parent + self.random.choice(self.folder_names)
        if parent.count(b"/") < 5 and not self.taken(path):
            self.folders.append(path + b"/")

    def add_file(self, folder):
        path = folder + self.random.choice(self.names)
        if not self.taken(path):
            self.files[path] = b""

    def add_link(self, target):
        path = self.random.choice(self.folders) + self.random.choice(self.names)
        if self.chance(0.3) and not self.taken(path):
            self.links[path] = os.path.basename(path) if target == b"loop" else target

    def add_ignore_file(self, folder):
        path = folder + IGNORE_FILE
        kind = self.random.random()
        if kind < 0.02 and folder:
            self.links[path] = b"../" + IGNORE_FILE
        elif kind < 0.04:
            self.folders.append(path + b"/")
        else:
            self.files[path] = self.ignore_file(folder)

    # ---- ignore files

    def ignore_file(self, folder):
        """What an ignore file in the folder holds."""
        lines = []
        for _ in range(self.random.choice((0, 1, 1, 2, 3, 4, 6))):
            lines += self.some_lines(folder)
        ends = [b"\r\n" if self.chance(0.03) else b"\n" for _ in lines]
        if ends and self.chance(0.3):
            ends[-1] = b""
        text = b"".join(line + end for line, end in zip(lines, ends))
        return BYTE_ORDER_MARK + text if self.chance(0.1) else text

    def some_lines(self, folder):
        """A line, or some that go together."""
        kind = self.random.random()
        if kind < 0.08:
            return [self.random.choice((b"", b"# a comment", b"#", b"   ", b"!", b"/", b"!/", b"//", b"!#a", b"*/", b"!*/", b".gitignore"))]
        if kind < 0.11:
            return [self.random.choice(UNUSUAL)]
        name = self.piece()
        if kind < 0.13:
            return [b"/*", b"!/" + name + b"/"]
        if kind < 0.18:
            return [name + b"/**", b"!" + name + b"/**/" + self.piece()]
        if kind < 0.21:
            return [name + b"/", b"!" + name + b"/" + self.piece()]
        return [self.line(folder)]

    def line(self, folder):
        text = self.pattern(folder)
        if self.chance(0.3):
            text += b"/"
        if self.chance(0.03):
            text += b"\\ "
        if self.chance(0.05):
            text += b"  "
        if self.chance(0.02):
            text += b"\r"
        if self.chance(0.02):
            text += b"\0" + self.piece()
        return b"!" + text if self.chance(0.45) else text

    def pattern(self, folder):
        kind = self.random.random()
        if kind < 0.40:
            return self.piece()
        if kind < 0.54:
            return b"/" + self.piece()
        if kind < 0.72:
            return self.known(folder)
        if kind < 0.78:
            return b"**/" + self.piece()
        if kind < 0.81:
            return self.piece() + b"/**"
        if kind < 0.85:
            return self.stars_behind_front()
        if kind < 0.89:
            return self.piece() + b"/**/" + self.piece()
        if kind < 0.97:
            return self.piece() + b"/" + self.piece()
        return self.random.choice((b"*", b"/*", b"**", b"*/*", b"*.*", b"?", b"**/*.o", b"/**/a", b"a/**/**/b", b"*a*", b"\\", b"[", b"a//b"))

    def stars_behind_front(self):
        """Stars directly behind a front of letters, and what follows them."""
        front = literal(self.random.choice(self.names))
        front = front[: self.random.randrange(1, len(front) + 1)] if self.chance(0.7) else self.piece() + b"/" + front
        behind = self.random.choice((b"", b"/", b"/" + self.piece(), b"\\/" + self.piece(), self.piece(), b"/**/" + self.piece()))
        return (b"/" if self.chance(0.2) else b"") + front + b"*" * self.random.choice((1, 2, 2, 2, 3)) + behind

    def known(self, folder):
        """A path of the tree that lies below the folder, with pieces of any kind."""
        below = [path[len(folder):] for path in list(self.files) + self.folders if path.startswith(folder) and path != folder]
        if not below:
            return self.piece()
        parts = self.random.choice(below).rstrip(b"/").split(b"/")
        at = self.random.randrange(len(parts))
        parts = parts[: self.random.randrange(1, len(parts) + 1)]
        parts = [self.piece(part) if place == at else literal(part) for place, part in enumerate(parts)]
        return (b"/" if self.chance(0.2) else b"") + b"/".join(parts)

    def piece(self, name=None):
        """What matches a name: the name itself, or with a wildcard."""
        name = name or self.random.choice(self.names if self.chance(0.5) else self.folder_names)
        if self.is_folding and self.chance(0.5):
            name = name.swapcase()
        kind = self.random.random()
        at = self.random.randrange(len(name))
        front, back = literal(name[:at]), literal(name[at + 1:])
        if kind < 0.66:
            return literal(name)
        if kind < 0.76:
            return front + b"*"
        if kind < 0.84:
            return b"*" + back
        if kind < 0.88:
            return front + b"?" + back
        if self.is_folding and kind < 0.91:
            return front + b"\\" + name[at:at + 1] + back
        return front + self.random.choice(CASED_SETS if self.is_folding else SETS) + back

    # ---- paths

    def asked(self):
        """Paths of the tree, and such as aren't in it, without a slash at the end. None lies behind a link, or in `.git`."""
        paths = [path for path in self.files if path != INFO] + list(self.links) + [folder[:-1] for folder in self.folders if folder]
        for _ in range(60):
            path = self.random.choice(self.folders) + self.random.choice(self.names)
            for _ in range(self.random.choice((0, 0, 0, 1, 2))):
                if is_text(path):
                    path += b"/" + self.random.choice(self.names)
            if not self.is_behind_link(path):
                paths.append(path)
        self.random.shuffle(paths)
        return paths

    def is_behind_link(self, path):
        return any(path.startswith(link + b"/") for link in self.links)

    def is_below_file(self, path):
        return any(path.startswith(file + b"/") for file in self.files)

    # ---- in a folder

    def make(self, top):
        """Makes the tree at the top, with what Git needs."""
        make_repository(os.path.join(top, b".git"))
        for folder in self.folders:
            os.makedirs(os.path.join(top, folder), exist_ok=True)
        for path, text in self.files.items():
            write(os.path.join(top, path), text)
        for path, target in self.links.items():
            os.symlink(target, os.path.join(top, path))


def make_repository(folder):
    """Makes what Git needs to take the folder for a repository's files."""
    for name in (b"objects", b"refs", b"info"):
        os.makedirs(os.path.join(folder, name))
    write(os.path.join(folder, b"HEAD"), b"ref: refs/heads/main\n")
    write(os.path.join(folder, b"config"), b"[core]\n\trepositoryformatversion = 0\n\tbare = false\n")


def is_text(path):
    try:
        path.decode()
    except UnicodeDecodeError:
        return False
    return True


def write(name, text):
    with open(name, "wb") as file:
        file.write(text)


def literal(name):
    """The pattern of a name. A line feed can't stand in one."""
    text = b"".join(b"\\" + name[at:at + 1] if name[at] in b"*?[\\" else name[at:at + 1] for at in range(len(name)))
    if text.startswith((b"#", b"!")):
        text = b"\\" + text
    if text.endswith(b" "):
        text = text[:-1] + b"\\ "
    return text.replace(b"\n", b"?")


# ---- lines that Git and `globline` read in two ways

def is_white(line):
    """Whether it is a line of white space other than spaces."""
    text = line.removeprefix(b"!").rstrip(b" ")
    return text != b"" and not text.strip(SPACES)


def has_stars_after_a_literal_front(line):
    front = line.lstrip(b"!/")
    for place, byte in enumerate(front):
        if byte in b"*?[\\":
            return place > 0 and front[place:place + 2] == b"**" and front[place - 1:place] != b"/"
    return False

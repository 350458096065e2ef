"""Index files made at random, in versions 2 to 4, some of them split: which names are tracked, as what, and with which bits."""
import hashlib
import os
import struct

from configuration_texts import Chances

FILE, EXECUTABLE, LINK, SUBMODULE = 0o100644, 0o100755, 0o120000, 0o160000
TRACKED = [b"a", b"b", b"c", b"f", b"x.o", b"A", b"B.O", b"ig", b"d/a", b"d/b", b"d/x.o", b"d/e/c", b"n/a", b"D/b", b"D/E", b"F", b"N/b", b"e", b"a*", b"d*/a", b"k[1]/x", b"m/x/y.o", b"\xc3\xa4", b"b\\"]
# paths that are asked where there is an index
ASKED = [
    b".", b"*", b"a*", b"?", b"*.o", b"d/*", b"d*", b"[ab]", b"[ab]/x", b"\\a", b"d\\/a", b"*/x", b"m", b"m/", b"m/x", b"m/*.o", b"m*o", b"s", b"s/", b"s/x",
    b"a/", b"a/x", b"n", b"n/", b"n/*", b"b\\", b"b\\\\", b"./a", b"d/../a", b"d/../[a]", b"**", b"k[1]", b"k*", b"[", b"x.?", b"!(a)", b"*a",
]
EXTENSIONS = [b"", b"", b"REUC" + struct.pack(">I", 0), b"TREE" + struct.pack(">I", 0)]
WRONG_EXTENSION = b"abcd" + struct.pack(">I", 1) + b"x"


def entry_text(version, last, name, mode, stage, bits):
    """An entry, behind one of the name `last`. `bits` are assume-valid, skip-worktree and intent-to-add."""
    valid, skip, intent = bits
    extended = version > 2 and (skip or intent)
    flags = valid << 15 | extended << 14 | stage << 12 | min(len(name), 0xFFF)
    text = bytes(24) + struct.pack(">I", mode) + bytes(12) + bytes.fromhex("e69de29bb2d1d6434b8b29ae775ad8c2e48c5391") + struct.pack(">H", flags)
    if extended:
        text += struct.pack(">H", skip << 14 | intent << 13)
    if version < 4:
        return text + name + bytes(8 - (len(text) + len(name)) % 8)
    common = next((at for at, (one, other) in enumerate(zip(last, name)) if one != other), min(len(last), len(name)))
    return text + number(len(last) - common) + name[common:] + b"\0"


def number(left):
    """A number as version 4 has it."""
    text = bytes([left & 127])
    while left > 127:
        left = (left >> 7) - 1
        text = bytes([128 | left & 127]) + text
    return text


def index_text(version, entries, extension, is_summed):
    text, last = b"", b""
    for name, mode, stage, bits in entries:
        text += entry_text(version, last, name, mode, stage, bits)
        last = name
    text = b"DIRC" + struct.pack(">II", version, len(entries)) + text + extension
    return text + (hashlib.sha1(text).digest() if is_summed else b"\1" * 20)


def bitmap(places):
    """A bitmap in which these bits are set."""
    words = [sum(1 << place % 64 for place in places if place // 64 == at) for at in range(max(places, default=-1) // 64 + 1)]
    return struct.pack(">II%dQI" % (len(words) + 1), max(places, default=-1) + 1, len(words) + 1, len(words) << 33, *words, 0)


def link(hash_, deleted, replaced):
    content = hash_ + bitmap(deleted) + bitmap(replaced)
    return b"link" + struct.pack(">I", len(content)) + content


class Indexes(Chances):
    """What is tracked in a repository."""

    def draw_index(self):
        """An index, most often."""
        self.index, self.shared = None, {}
        if not self.marked(0.6, "an index"):
            return
        version = self.one_of(2, 3, 4)
        self.mark("an index of version %d" % version)
        entries, extension, is_summed = self.entries_of_index(), self.random.choice(EXTENSIONS), not self.marked(0.2, "an index with a wrong checksum")
        self.index_file = self.git + b"/index"
        if self.marked(0.08, "GIT_INDEX_FILE"):
            self.variables[b"GIT_INDEX_FILE"], self.index_file = b"@/home/other-index", b"home/other-index"
        if self.marked(0.3, "a split index"):
            entries, its_link = self.split(entries)
            extension = its_link + extension
        self.index = index_text(version, entries, extension, is_summed)

    def split(self, entries):
        """The entries and the link of an index that has these together with a shared file, which is put into a folder."""
        shared, added = [(b"no", FILE, 0, (0, 0, 0), "deleted")] * self.chance(0.3), []
        for name, mode, stage, bits in entries:
            kind = self.one_of("kept", "replaced", "added", "deleted", "put in place")
            self.mark("a split index, an entry " + kind)
            if kind == "deleted" or (kind == "put in place" and stage == 0):
                shared.append((name, self.random.choice((FILE, LINK)), stage or self.one_of(0, 1, 2), (0, 0, 0), kind))
            if kind in ("kept", "replaced"):
                shared.append((name, mode if kind == "kept" else FILE, stage, bits if kind == "kept" else (0, 0, 0), kind))
            if kind not in ("kept", "replaced"):
                added.append((name, mode, stage, bits))
        shared.sort(key=lambda entry: (entry[0], entry[2]))
        by_place = {(name, stage): (b"", mode, stage, bits) for name, mode, stage, bits in entries}
        new = [by_place[name, stage] for name, _, stage, _, kind in shared if kind == "replaced"]
        text = index_text(self.one_of(2, 4), [entry[:4] for entry in shared], b"", True)
        folder = self.git if self.chance(0.7) else os.path.dirname(self.index_file)
        self.shared = {folder + b"/sharedindex." + text[-20:].hex().encode(): text}
        marked = [[at for at, entry in enumerate(shared) if entry[4] == kind] for kind in ("deleted", "replaced")]
        return new + added, link(text[-20:], *marked)

    def entries_of_index(self):
        names = self.random.sample(TRACKED, self.one_of(0, 1, 2, 3, 5, 8))
        entries = []
        for name in names:
            if self.marked(0.1, "an entry of stages"):
                entries += [(name, FILE, stage, (0, 0, 0)) for stage in self.one_of((1, 2, 3), (2,), (1, 3))]
            else:
                bits = tuple(int(self.chance(0.15)) for _ in range(3))
                entries.append((name, self.random.choice((FILE, FILE, EXECUTABLE, LINK)), 0, bits))
        if self.marked(0.25, "a submodule in the index"):
            entries.append((self.one_of(b"s", b"s", b"S", b"N"), SUBMODULE, 0, (0, 0, 0)))
        return sorted(entries, key=lambda entry: (entry[0], entry[2]))

    def spoil_index(self):
        """Makes an index wrong that there is."""
        kinds = ("short", "version", "extension", "no name")
        kind = self.one_of(*kinds, "no shared file", "another shared file", "a place behind the last") if self.shared else self.one_of(*kinds, "cut")
        self.mark("fault: an index, " + kind)
        if kind == "cut":
            self.index = self.index[:self.random.randrange(32, 33 + len(self.index) // 2)]
        elif kind == "short":
            self.index = self.index[:self.one_of(0, 12, 31)]
        elif kind == "version":
            self.index = index_text(5, [], b"", True)
        elif kind == "no shared file":
            self.shared = {}
        elif kind == "another shared file":
            self.shared = {name: index_text(2, [(b"a", FILE, 0, (0, 0, 0))], b"", True) for name in self.shared}
        elif kind == "a place behind the last":
            self.index = index_text(2, [], link(next(iter(self.shared.values()))[-20:], [99], []), True)
        elif kind == "extension":
            self.index = index_text(2, [], WRONG_EXTENSION, True)
        else:
            self.index = b"dirc" + self.index[4:]

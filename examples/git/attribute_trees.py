"""Work trees made at random, each from a number, with attribute files at all depths."""
from trees import BYTE_ORDER_MARK, IGNORE_FILE, Tree

ATTRIBUTE_FILE = b".gitattributes"
ATTRIBUTES_INFO = b".git/info/attributes"
NAMES = b"a b c m n p text eol binary diff merge -1 .d _ A".split()
VALUES = [b"", b"v", b"w", b"set", b"unset", b"unspecified", b"\"q\"", b"x=y", b"\xff", b"\xc3\xa9", b"#", b"a\x0cb", b"\\n"]
WRONG_ENTRIES = [b"--a", b"a:b", b"=v", b"-", b"!", b"!-a", b"#", b"\xc3\xa9", b"a/b", b"-=v", b"a\x0c"]
ESCAPES = {7: b"\\a", 8: b"\\b", 9: b"\\t", 10: b"\\n", 11: b"\\v", 12: b"\\f", 13: b"\\r", 34: b'\\"', 92: b"\\\\"}
LIMIT = 2048


class AttributeTree(Tree):
    """The tree of a number, with attribute files in the place of its ignore files. `system` and `user` are files outside of it."""

    def __init__(self, seed):
        super().__init__(seed)
        self.drop(IGNORE_FILE)
        self.files.pop(b".git/info/exclude", None)
        self.system = self.attribute_file(b"") if self.chance(0.4) else None
        # else it is the one in the user's configuration folder
        self.is_named = self.chance(0.7)
        self.user = self.attribute_file(b"") if self.chance(0.5) else None
        if self.chance(0.5):
            self.files[ATTRIBUTES_INFO] = self.attribute_file(b"")
        for folder in list(self.folders):
            if self.chance(0.9 if folder == b"" else 0.5):
                self.add_attribute_file(folder)

    def drop(self, name):
        """Takes all files, links and folders of this name out."""
        for known in (self.files, self.links):
            for path in [path for path in known if path.split(b"/")[-1] == name]:
                del known[path]
        self.folders = [folder for folder in self.folders if folder.split(b"/")[-2:-1] != [name]]

    def add_attribute_file(self, folder):
        path = folder + ATTRIBUTE_FILE
        kind = self.random.random()
        if kind < 0.02 and folder:
            self.links[path] = b"../" + ATTRIBUTE_FILE
        elif kind < 0.04:
            self.folders.append(path + b"/")
        else:
            self.files[path] = self.attribute_file(folder)

    # ---- files

    def attribute_file(self, folder):
        lines = [self.attribute_line(folder) for _ in range(self.random.choice((0, 1, 2, 3, 4, 6, 9)))]
        text = b"".join(line + (b"\r\n" if self.chance(0.05) else b"\n") for line in lines)
        if self.chance(0.2):
            text = text.removesuffix(b"\n")
        marks = self.random.choice((0,) * 18 + (1, 1, 2))
        return BYTE_ORDER_MARK * marks + text

    def attribute_line(self, folder):
        kind = self.random.random()
        if kind < 0.05:
            return self.random.choice((b"", b"#", b"# * a", b"  ", b"\t#x a", b"\"", b"[attr]", b"\0x a", b"x", b"\"\" a", b"/ a", b"// a"))
        head = self.macro_head() if kind < 0.20 else self.pattern_head(folder)
        blank = self.random.choice((b" ", b" ", b" ", b"\t", b"  \t", b"" if head.endswith(b'"') else b" "))
        line = head + blank + self.entries()
        if self.chance(0.04):
            line = self.random.choice((b" ", b"\t", b" \r ")) + line
        if self.chance(0.03):
            line += self.random.choice((b" ", b"\0 c", b"\r", b"\t\r", b" # b"))
        if self.chance(0.03):
            line = self.long(line)
        return line

    def long(self, line):
        """The line with so many bytes that it is about as long as a line may be."""
        wanted = LIMIT - self.random.choice((0, 1, 1, 2))
        return line + (b" " if self.chance(0.5) else b" b=" + b"v" * LIMIT)[: wanted - len(line)].ljust(wanted - len(line))

    def macro_head(self):
        name = self.random.choice(NAMES)
        if self.chance(0.1):
            name = self.random.choice((b"-q", b"m:n", b"m=v", b"!m", b"\xc3\xa9"))
        head = b"[attr]" + name
        kind = self.random.random()
        if kind < 0.85:
            return head
        if kind < 0.90:
            return b"[attr] " + name
        return self.random.choice((b'"' + head + b'"', b'"[attr] ' + name + b' z"', b'"[attr]' + name + b"\\000x\"", b'"' + head))

    def pattern_head(self, folder):
        if self.chance(0.03):
            return self.random.choice((b'" "', b'"\t"', b"\x0c", b"\xa0", b'"\\000"', b'"x\\000y"', b'"x**/\\000y"', b'"\\400"', b'"a\\q"', b'"a"b'))
        pattern = b"*" if self.chance(0.12) else self.pattern(folder)
        if self.chance(0.15):
            pattern += b"/"
        if self.chance(0.03):
            pattern = b"!" + pattern
        if self.chance(0.25):
            return self.quoted(pattern)
        return pattern if not pattern.startswith(b'"') or self.chance(0.5) else self.quoted(pattern)

    def quoted(self, pattern):
        text = b""
        for byte in pattern:
            if byte in ESCAPES and (byte in b'"\\' or self.chance(0.9)):
                text += ESCAPES[byte]
            elif byte < 32 or byte > 126 and self.chance(0.7) or self.chance(0.03):
                text += b"\\%03o" % byte
            else:
                text += bytes([byte])
        return b'"' + text + (b'"' if self.chance(0.97) else b"")

    # ---- entries

    def entries(self):
        some = [self.entry() for _ in range(self.random.choice((0, 1, 1, 1, 2, 2, 3, 4)))]
        if self.chance(0.04):
            some.insert(self.random.randrange(len(some) + 1), self.random.choice(WRONG_ENTRIES))
        return self.random.choice((b" ", b" ", b"\t", b"  ")).join(some)

    def entry(self):
        name = self.random.choice(NAMES[:12] if self.chance(0.9) else NAMES)
        if name.startswith(b"-"):
            name = name[1:]
        kind = self.random.random()
        if kind < 0.5:
            return name
        if kind < 0.62:
            return b"-" + name
        if kind < 0.72:
            return b"!" + name
        value = name + b"=" + self.random.choice(VALUES)
        return value if kind < 0.95 else self.random.choice((b"-", b"!")) + value

"""Texts of files of configuration, made at random: the same entries in all the ways in which their grammar can say them."""
import collections
import re

from trees import BYTE_ORDER_MARK

# the files of configuration of the system and the user
SYSTEM, USER, SETTINGS, OTHER_SETTINGS, GLOBAL = b"sys", b"home/.gitconfig", b"home/.config/git/config", b"xdg/git/config", b"global"
TRUE = [None, b"true", b"TRUE", b"yes", b"On", b"1", b"-1", b"2k", b" 1", b"010", b"0x1f", b"2147483647", b"1M"]
FALSE = [b"", b"false", b"No", b"oFF", b"0", b"00", b"0x0k", b"-0", b"+0"]
Entry = collections.namedtuple("Entry", "section subsection name value")
ESCAPED = {9: b"\\t", 8: b"\\b", 10: b"\\n", 34: b'\\"', 92: b"\\\\"}
NEEDS_QUOTES = re.compile(rb"^[ \t]|[ \t]$|[#;]|[ \t]{2}")
OLD_FORM = re.compile(rb"[a-z0-9.-]+")
# lines that say nothing of interest
COMMENTS = [b"", b" ", b"\t", b"# a comment", b"; c = 1 \\", b"  # \"", b" \r"]
OTHERS = [
    b'[a "S.t"]\n\tb = 1', b'[A-1 "x\\"\\]"]\nb', b'[ "s"]\nb = 4', b'[user]\nname = "n # m"', b"[core]\npager = less", b"[x]\n\ty\nz = C:\\\\x\\t\\n\\b",
    b"[a.S]b=3", b"[alias] st = status", b'[core "x"] ignoreCase = wrong', b'[core "ignoreCase"]\nx=y', b'[a]\nb = "v \\\nw"',
    b"[a]\nb=v\tw  \t# c",
]
WRONG_LINES = [
    b"[a", b"[a ]", b"[]", b'[a "s" ]', b'[a "s', b'[a "s"', b"[a_b]", b"[a]\nb # c", b"[a]\nb_c = 1", b"[a]\n1 = 2", b"[a]\nb = C:\\Users",
    b'[a]\nb = "v', b"[a]\nc d", b"= v", b"core.excludesFile=~/ig", b"\xef\xbb", b"[a]\nb\0=1", b"[a]\nb = v \\x", b"]",
]


def entry(key, value):
    """The entry of a key such as `section.subsection.name`."""
    section, _, rest = key.partition(b".")
    subsection, dot, name = rest.rpartition(b".")
    return Entry(section, subsection if dot else None, name, value)


def key_of(it):
    """The key of an entry, as a word tells it."""
    return b".".join(part for part in it[:3] if part is not None)


class Chances:
    """Draws from a number, and keeps in a set which constructs were drawn."""

    def __init__(self, random, constructs):
        self.random, self.constructs = random, constructs

    def mark(self, construct):
        self.constructs.add(construct)

    def chance(self, part):
        return self.random.random() < part

    def marked(self, part, construct):
        """Whether a construct is there, which has this chance."""
        if not self.chance(part):
            return False
        self.mark(construct)
        return True

    def kind_of(self, kinds, of):
        """The value of one of these kinds."""
        kind = self.random.choice(list(kinds))
        self.mark("%s: %s" % (of, kind))
        return kinds[kind]

    def one_of(self, *values):
        return self.random.choice(values)


class Writer(Chances):
    """Writes entries, half of the files with constructs of all kinds."""

    is_odd = True

    def text(self, entries):
        """The text of a file with these entries."""
        self.is_odd = self.chance(0.5)
        pieces, last = [], None
        for it in entries:
            if self.odd(0.25, "comments and blank lines"):
                pieces.append(self.random.choice(COMMENTS) + b"\n")
            if self.odd(0.15, "other sections"):
                pieces.append(self.random.choice(OTHERS) + b"\n")
                last = None
            if it[:2] != last or self.odd(0.1, "a header again"):
                pieces.append(self.header(it) + (b" " if self.odd(0.2, "an entry behind a header") else b"\n"))
            pieces.append(self.line(it))
            last = it[:2]
        text = b"".join(pieces)
        if self.odd(0.2, "no line feed at the end"):
            text = text.removesuffix(b"\n")
        if self.odd(0.2, "carriage returns"):
            text = text.replace(b"\n", b"\r\n")
        return BYTE_ORDER_MARK + text if self.odd(0.2, "a byte order mark") else text

    def odd(self, part, construct):
        return self.is_odd and self.marked(part, "grammar: " + construct)

    def cased(self, word):
        if not self.odd(0.15, "other case"):
            return word
        return self.random.choice((word.upper(), word.lower(), word.swapcase()))

    def header(self, it):
        section = self.cased(it.section)
        if it.subsection is None:
            return b"[" + section + b"]"
        if OLD_FORM.fullmatch(it.subsection) and self.odd(0.4, "the old form of a subsection"):
            return b"[" + section + b"." + it.subsection + b"]"
        name = it.subsection.replace(b"\\", b"\\\\").replace(b'"', b'\\"')
        if self.odd(0.15, "a backslash in a subsection"):
            name = b"\\" + name if name[:1].isalpha() else name
        if self.odd(0.05, "a byte 0 in a subsection") and it.section != b"includeIf":
            name += b"\0x"
        blanks = self.random.choice((b"\t", b"  ")) if self.odd(0.1, "blanks before a subsection") else b" "
        return b"[" + section + blanks + b'"' + name + b'"]'

    def line(self, it):
        front = self.random.choice((b"\t", b"", b"  ")) + self.cased(it.name)
        if it.value is None:
            self.mark("grammar: no value")
            return front + self.random.choice((b"\n", b" \t\n"))
        sign = self.random.choice((b" = ", b"=", b" =", b"\t=\t"))
        if self.odd(0.03, "a byte 0 in a value"):
            return front + sign + self.value(it.value) + b"\0w\n"
        return front + sign + self.value(it.value) + self.random.choice((b"", b"", b"", b" ", b" \t")) + b"\n"

    def value(self, value):
        """A value, with quotes where they have to be."""
        if NEEDS_QUOTES.search(value):
            return b'"' + self.escaped(value) + b'"'
        text = self.escaped(value)
        if self.odd(0.15, "quotes"):
            return b'"' + text + b'"'
        at = self.random.randrange(len(text) + 1)
        if b"\\" not in text and self.odd(0.1, "quotes within a value"):
            return text[:at] + b'""' + text[at:]
        if b"\\" not in text and self.odd(0.1, "a continued line"):
            return text[:at] + b"\\\n" + text[at:]
        return text + (self.random.choice((b" # c", b";", b" ; \\ \"")) if self.odd(0.1, "a comment behind a value") else b"")

    def escaped(self, value):
        return b"".join(ESCAPED.get(byte) or bytes([byte]) for byte in value)

    def with_wrong_line(self, text):
        """The text with a wrong line in it, at the front, in the middle or at the end."""
        lines = text.split(b"\n")
        at = self.random.choice((0, self.random.randrange(len(lines)), len(lines)))
        lines.insert(at, self.random.choice(WRONG_LINES))
        return b"\n".join(lines)

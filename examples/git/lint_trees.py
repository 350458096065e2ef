"""Ignore files made at random, each stack of them from a number: lines over three names, many of which match what others do."""
import os
import random

from ignore_stacks import Stack, sign_and_pattern
from trees import BYTE_ORDER_MARK, literal, make_repository, write

NAMES = [b"a", b"b.o", b"bc", b"c d", b"e*", b"[f]", b"\xc3\xa9", b"#g", b"!h", b"i ", b"j\\", b'"l"', b"m.log", b"build", b"src", b".x"]
# what stands between the lines that are patterns
SILENT = [b"", b"# why", b"  ", b"#"]
SETS = [b"[a-e]", b"[!b]", b"[abm]", b"[^a]", b"[[:alpha:]]", b"[!-~]", b"[x-z]"]
SLIPS = [b"./", b"../", b"//"]
ENDS = [b"\t", b"\\", b" # why", b"[", b"/..", b"/.", b"  "]


class LintTree:
    """The work tree of a number: its ignore files, three names, all paths of these on three levels, and some of many names."""

    def __init__(self, seed):
        self.random = random.Random(seed)
        self.is_folding = self.chance(0.3)
        self.names = self.random.sample(NAMES, 3)
        self.paths, level = [], [b""]
        for _ in range(3):
            level = [os.path.join(above, name) for above in level for name in self.names]
            self.paths += level
        files = {b"": self.lines()}
        # (half of them are one file alone)
        for path in self.paths if self.chance(0.5) else []:
            if path.count(b"/") < 2 and self.chance(0.12) and len(files) < 5:
                files[path + b"/"] = self.lines()
        self.stack = Stack(files)
        may = [path for path in self.paths if not any(folder.startswith(path + b"/") for folder in files)]
        self.tracked = self.random.sample(may, 3) if self.chance(0.4) else []
        self.tracked = [path for path in self.tracked if not any(path.startswith(other + b"/") for other in self.tracked)]

    def chance(self, part):
        return self.random.random() < part

    def lines(self):
        """The lines of a file, with their ends."""
        lines = []
        for _ in range(self.random.randrange(1, 8)):
            if self.chance(0.1):
                lines.append(self.random.choice(SILENT))
            lines.append(self.line(lines))
        end = b"\r\n" if self.chance(0.1) else b"\n"
        lines = [line + end for line in lines]
        if self.chance(0.1):
            lines[-1] = lines[-1].removesuffix(end)
        return [BYTE_ORDER_MARK + lines[0], *lines[1:]] if self.chance(0.05) else lines

    def line(self, before):
        if before and self.chance(0.2):
            text = sign_and_pattern(self.random.choice(before))[1]
            text = self.random.choice([text, text, b"/" + text, text + b"/", b"**/" + text, text.rstrip(b"/")])
        else:
            text = self.pattern()
        if self.is_folding and self.chance(0.4):
            text = text.swapcase()
        if self.chance(0.03):
            text = self.random.choice(SLIPS) + text
        if self.chance(0.05):
            text += self.random.choice(ENDS)
        return b"!" + text if self.chance(0.35) else text or b"*"

    def pattern(self):
        one, two = (literal(self.random.choice(self.names)) for _ in range(2))
        first, last, some = one[:1].replace(b"\\", b"?"), one[-1:].replace(b"\\", b"?"), self.random.choice(SETS)
        shapes = [one, one, b"/" + one, one + b"/", one + b"/" + two, b"/" + one + b"/" + two, one + b"/" + two + b"/", one + b"/*", b"/" + one + b"/*"]
        shapes += [b"*/" + one, b"**/" + one, one + b"/**", one + b"/*/" + two, one + b"/**/" + two, b"**/" + one + b"/*"]
        shapes += [first + b"*", b"*" + last, b"?" + one[1:], b"*.o", b"*.*", b"*" + last + b"/", some + one[1:], some + b"*", b"*" + some]
        shapes += [first + b"**", first + b"**/" + two, b"**" + last, b"/*/" + one, one + b"/" + some + b"*", b"/**/" + one]
        # (behind one of these little makes a difference)
        return self.random.choice([b"*", b"/*", b"*/", b"/*/", b"*/*", b"**"] if self.chance(0.06) else shapes)

    def distant_paths(self, count):
        """Paths of more names, on more levels."""
        names = self.names + [b"x", b"a.o", b"zz.log", b"xx", b"Y", b"keep"] + [name + b"x" for name in self.names] + [b"x" + name for name in self.names]
        return {b"/".join(self.random.choice(names) for _ in range(self.random.randrange(1, 6))) for _ in range(count)}

    def make(self, top):
        make_repository(os.path.join(top, b".git"))
        self.stack.make(top)
        for path in self.tracked:
            os.makedirs(os.path.dirname(os.path.join(top, path)), exist_ok=True)
            write(os.path.join(top, path), b"")

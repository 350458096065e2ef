"""The patterns and paths that the benchmarks of lists and work trees are drawn from."""
import random

SYLLABLES = "ba co di fu ge ha jo ki lu me no pa qu ri so ta vu we xi za lib src test build node mod core util main app pkg data conf log tmp".split()
ENDINGS = "rs c h o py pyc js css html md txt log json toml lock png so a swp bak class gz yml tmp".split()


class Load:
    """A realistic mixture: names, endings, rooted paths and the rest, a fifth for folders, a twentieth negative."""

    def __init__(self, seed):
        self.random = random.Random(seed)
        self.names = [self.word() for _ in range(400)]

    def word(self, syllables=None):
        return "".join(self.random.choice(SYLLABLES) for _ in range(syllables or self.random.choice((1, 2, 2, 3))))

    def ending(self):
        return self.random.choice(ENDINGS) if self.random.random() < 0.5 else self.word(2)

    def folders(self, count):
        return "/".join(self.random.choice(self.names) for _ in range(count))

    def pattern(self):
        kind = self.random.random()
        if kind < 0.40:
            text = self.word(3) + ("" if self.random.random() < 0.5 else "." + self.ending())
        elif kind < 0.62:
            text = "*." + self.ending()
        elif kind < 0.74:
            text = "/" + self.folders(self.random.randrange(1, 4))
        elif kind < 0.82:
            text = self.folders(2) + "/*." + self.ending()
        elif kind < 0.88:
            text = "**/" + self.word(2) + "/" + self.word(2)
        elif kind < 0.93:
            text = self.word(1) + "*." + self.ending()
        elif kind < 0.96:
            text = "*" + self.word(1) + "*"
        elif kind < 0.98:
            text = self.word(2) + "[0-9]." + self.ending()
        else:
            text = self.folders(1) + "/**/" + self.word(2)
        if self.random.random() < 0.2:
            text += "/"
        return "!" + text if self.random.random() < 0.05 else text

    def name_pattern(self):
        """A plain name or a literal end."""
        return self.word(3) + ("" if self.random.random() < 0.5 else "." + self.ending()) if self.random.random() < 0.65 else "*." + self.ending()

    def two_letters(self):
        return f"[{''.join(self.random.sample('abcdefghijklmnopqrstuvwxyz', 2))}]"

    def set_pattern(self):
        """Three in a hundred begin with a set, the others are names as above."""
        return self.two_letters() + self.word(1) + "[0-9]" if self.random.random() < 0.03 else self.name_pattern()

    def open_pattern(self):
        """A pattern without a literal end."""
        kind = self.random.random()
        start = "*" if kind < 0.2 else "*[0-9]" if kind < 0.6 else self.two_letters() + "*"
        return start + self.word(1) + "*"

    def path(self):
        parts = [self.random.choice(self.names) for _ in range(self.random.choice((0, 1, 2, 3, 3, 4, 5)))]
        parts.append(self.word(2) + ("" if self.random.random() < 0.1 else "." + self.ending()))
        return "/".join(parts)

    def tree(self, count):
        """So many folders, each but the first below an earlier one, at most five deep."""
        folders = [""]
        known = {""}
        while len(folders) < count:
            folder = self.random.choice(folders) + self.random.choice(self.names) + "/"
            if folder.count("/") <= 5 and folder not in known:
                known.add(folder)
                folders.append(folder)
        return folders

    def path_in(self, folder):
        return folder + self.word(2) + ("" if self.random.random() < 0.1 else "." + self.ending())

    def path_below(self, folder):
        """A path below a folder, of three to six parts where the folder has fewer."""
        parts = self.random.randrange(3, 7) - 1
        while folder.count("/") < parts:
            folder += self.random.choice(self.names) + "/"
        return self.path_in(folder)

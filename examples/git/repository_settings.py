"""Configuration of the system, the user and the repository, what it includes, and words and variables that tell of it."""
import os

from configuration_texts import FALSE, GLOBAL, OTHER_SETTINGS, SETTINGS, SYSTEM, TRUE, USER, Chances, entry, key_of

KNOWN_EXTENSIONS = [b"noop", b"preciousObjects", b"partialClone"]
OTHER_BOOLEANS = [
    b"fileMode", b"trustCtime", b"symlinks", b"ignoreStat", b"preferSymlinkRefs", b"warnAmbiguousRefs", b"precomposeUnicode", b"protectHFS",
    b"protectNTFS", b"sparseCheckout", b"sparseCheckoutCone", b"useReplaceRefs",
]
# values of core.excludesFile and core.attributesFile, with `ig` or `at` for NAME
PATHS = {
    "below HOME": b"~/NAME", "absolute": b"@/home/NAME", "relative": b"NAME", "relative, below": b"d/NAME", "empty": b"", "missing": b"~/missing",
    "with a variable": b"$HOME/NAME", "of the installation": b"%(prefix)/nowhere/NAME", "below another's HOME": b"~root/nowhere/NAME",
    "with dots": b"./d/../NAME", "a link": b"~/NAME-link",
}
# those that Git alone knows
ELSEWHERE = ("of the installation", "below another's HOME")
CONDITIONS = {
    "gitdir": [
        b"gitdir:**", b"gitdir:r/", b"gitdir:@/r/", b"gitdir:@/r/.git", b"gitdir:~/../r/.git", b"gitdir:./", b"gitdir:./**", b"gitdir:/",
        b"gitdir:r/.git", b"gitdir:w/", b"gitdir:@/l/", b"gitdir:[qr]/", b"gitdir:*/.git", b"gitdir:q/**", b"gitdir:", b"gitdir:g", b"gitdir:../r/",
        b"gitdir:@/r/.git/worktrees/*",
    ],
    "gitdir/i": [b"gitdir/i:R/", b"gitdir/i:@/R/.GIT", b"gitdir/i:**/G"],
    "onbranch": [b"onbranch:main", b"onbranch:f/", b"onbranch:f*", b"onbranch:**", b"onbranch:f/**/y", b"onbranch:Main", b"onbranch:"],
    "hasconfig": [b"hasconfig:remote.*.url:https://h/**", b"hasconfig:remote.*.url:z", b"hasconfig:remote.*.url:https://*/x"],
    "unknown": [b"GitDir:**", b"day:x", b"gitdir", b"hasconfig:remote.o.url:**"],
}
# a user that isn't the one who asks
STRANGER = 12345


class Settings(Chances):
    """What the configuration of a repository says: it draws files, words and variables."""

    def draw_sources(self):
        """Which files the system and the user have, and which variables name others."""
        for path, part in ((USER, 0.6), (SETTINGS, 0.4), (SYSTEM, 0.4), (OTHER_SETTINGS, 0.4)):
            if self.marked(part, "configuration: " + path.decode()):
                self.entries.setdefault(path, [])
        if self.chance(0.45):
            self.draw_system()
        if self.chance(0.35):
            kinds = {"absolute": b"@/xdg", "absolute again": b"@/xdg", "with a slash": b"@/xdg/", "relative": b"../xdg"}
            self.variables[b"XDG_CONFIG_HOME"] = self.kind_of(kinds, "XDG_CONFIG_HOME")
        elif self.marked(0.1, "XDG_CONFIG_HOME: empty"):
            self.variables[b"XDG_CONFIG_HOME"] = b""
        if self.chance(0.25):
            kinds = {"a file": b"@/global", "a file again": b"@/global", "relative": b"../global", "nowhere": b"@/nowhere", "empty": b""}
            self.variables[b"GIT_CONFIG_GLOBAL"] = self.kind_of(kinds, "GIT_CONFIG_GLOBAL")
            self.entries[GLOBAL] = []
        for folder in (b"home/.config/git/", b"xdg/git/"):
            for name, text in ((b"ignore", self.ignore_text), (b"attributes", self.attribute_text)):
                if self.marked(0.5, "default " + name.decode()):
                    self.files[folder + name] = text(folder + name)
        self.draw_extensions()

    def draw_system(self):
        """The system's file, and whether it is left out."""
        del self.variables[b"GIT_CONFIG_NOSYSTEM"]
        kinds = {"a file": b"@/sys", "a file again": b"@/sys", "nowhere": b"@/nowhere", "with dots": b"@/x/.././sys", "written over": b"./d/../../sys"}
        self.variables[b"GIT_CONFIG_SYSTEM"] = self.kind_of(kinds, "GIT_CONFIG_SYSTEM")
        if self.marked(0.4, "GIT_CONFIG_NOSYSTEM and GIT_CONFIG_SYSTEM"):
            self.variables[b"GIT_CONFIG_NOSYSTEM"] = self.one_of(b"true", b"YES", b"3", b"no", b"0", b"", b"off")

    def draw_extensions(self):
        """Extensions of the format, and the file that one of them asks for."""
        if self.marked(0.25, "config.worktree"):
            self.entries[self.git + b"/config.worktree"] = own = []
            if self.marked(0.7, "extensions.worktreeConfig"):
                self.own().append(entry(b"extensions.worktreeConfig", self.one_of(b"true", b"true", b"yes", None, b"false", b"0")))
            if self.marked(0.15, "core.worktree in config.worktree"):
                own.append(self.one_of(entry(b"core.worktree", b"@/t"), entry(b"core.bare", b"true"), entry(b"core.bare", b"no")))
        if self.marked(0.15, "a known extension"):
            self.own().append(entry(b"extensions." + self.random.choice(KNOWN_EXTENSIONS), self.one_of(b"true", b"x", b"")))

    def draw_settings(self):
        """Settings in all files, the same ones in several, and others in none."""
        kept = [key for key, _, _ in self.settings() if self.chance(0.65)]
        for path, entries in self.entries.items():
            for key, part, value in self.settings():
                if key in kept and self.chance(part):
                    entries.append(entry(key, value()))
        if self.marked(0.12, "a remote's URL"):
            self.random.choice(list(self.entries.values())).append(entry(b"remote.o.url", self.one_of(b"https://h/x", b"https://h/x/y", b"z")))

    def settings(self):
        return [
            (b"core.excludesFile", 0.35, lambda: self.path_value(b"ig")),
            (b"core.attributesFile", 0.35, lambda: self.path_value(b"at")),
            (b"core.ignoreCase", 0.35, self.boolean),
            (b"core.quotePath", 0.05, self.boolean),
            (b"core." + self.random.choice(OTHER_BOOLEANS), 0.15, self.boolean),
            (b"core.hooksPath", 0.05, lambda: b"@/hooks"),
        ]

    def path_value(self, name):
        key = {b"ig": "core.excludesFile", b"at": "core.attributesFile"}[name]
        kinds = {kind: value for kind, value in PATHS.items() if b"HOME" in self.variables or not value.startswith(b"~/")}
        if self.chance(0.9):
            kinds = {kind: value for kind, value in kinds.items() if kind not in ELSEWHERE}
        return self.kind_of(kinds, key).replace(b"NAME", name)

    def boolean(self):
        value = self.random.choice(TRUE + TRUE + FALSE)
        self.mark("boolean: " + ("none" if value is None else ascii(value)[2:-1]))
        return value

    def some_settings(self, count=2):
        """Entries such as count everywhere."""
        keys = [(key, value) for key, _, value in self.settings() if key in (b"core.excludesFile", b"core.attributesFile", b"core.ignoreCase")]
        return [entry(key, value()) for key, value in self.random.sample(keys, min(count, 2))]

    # ---- what is included

    def draw_includes(self):
        for number in range(self.one_of(0, 0, 1, 1, 2, 3)):
            self.include(number)
        if self.marked(0.04, "ten files deep"):
            self.chain(10)

    def include(self, number):
        """A file that another one includes, with or without a condition."""
        path = self.random.choice(sorted(self.entries))
        name = b"i%d" % number
        told = {"from the file": b"", "below HOME": b"~/", "absolute": b"@/home/", "in a folder": b"j/", "nowhere": b"nowhere/"}
        value = self.kind_of(told, "include") + name
        places = {b"~": b"home/" + name, b"@": b"home/" + name, b"n": b"nowhere", b"j": os.path.dirname(path) + b"/j/" + name}
        place = places.get(value[:1], os.path.join(os.path.dirname(path), name)).lstrip(b"/")
        key = b"include.path"
        if self.chance(0.5):
            key = b"includeIf." + self.random.choice(self.kind_of(CONDITIONS, "condition")) + b".path"
        entries = self.entries[path]
        entries.insert(self.random.randrange(len(entries) + 1), entry(key, value))
        if place != b"nowhere":
            self.entries.setdefault(place, []).extend(self.some_settings())

    def chain(self, count):
        """Files that each include the next one."""
        self.entries.setdefault(USER, []).append(entry(b"include.path", b"chain1"))
        for number in range(1, count):
            self.entries[b"home/chain%d" % number] = [entry(b"include.path", b"chain%d" % (number + 1))]
        self.entries[b"home/chain%d" % count] = self.some_settings()

    # ---- words and pairs

    def draw_words(self):
        if self.marked(0.3, "words of -c"):
            for _ in range(self.one_of(1, 1, 2, 3)):
                self.options += [b"-c", self.word()]
        if self.marked(0.25, "pairs of the environment"):
            self.pairs([(key_of(it), it.value or b"") for it in self.some_settings(self.one_of(0, 1, 2))])
        if self.marked(0.2, "words that Git hands on"):
            self.hand_on([self.word() for _ in range(self.one_of(0, 1, 1, 2))])
        if self.marked(0.1, "options that stand for configuration"):
            of_git, own = self.random.choice([
                ([b"-c", b"core.excludesFile=@/home/ig"], [b"--excludes", b"@/home/ig"]),
                ([b"-c", b"core.ignoreCase=true"], [b"--ignore-case"]),
                ([b"-c", b"core.attributesFile=@/home/at"], [b"--attributes", b"@/home/at"]),
            ])
            self.standing = (of_git, own)

    def word(self):
        """A word behind -c."""
        if self.marked(0.2, "a word that includes"):
            condition = self.random.choice(self.kind_of(CONDITIONS, "condition"))
            self.entries[b"home/iw"] = self.some_settings()
            return self.one_of(b"include.path=", b"includeIf." + condition + b".path=") + self.one_of(b"~/iw", b"@/home/iw")
        if self.chance(0.2):
            return self.one_of(b"a.b", b"a.B.c=", b"A.S.t.B-2=v", b"a.b=c.d=e", b"push.default=simple")
        it = self.some_settings(1)[0]
        return self.writer.cased(key_of(it)) + (b"" if it.value is None else b"=" + it.value)

    def hand_on(self, words):
        """Words that another Git hands on, as it spells them, or in its old form."""
        spelt = [b"'%s'" % word.replace(b"'", b"'\\''") for word in words]
        if self.marked(0.6, "words that Git hands on: two parts"):
            spelt = [word.replace(b"=", b"'='", 1) if b"=" in word else word + b"=" for word in spelt]
        self.variables[b"GIT_CONFIG_PARAMETERS"] = self.one_of(b" ", b" ", b"  ", b"\t").join(spelt) + self.one_of(b"", b"", b" ") * bool(spelt)

    def pairs(self, pairs):
        for number, (key, value) in enumerate(pairs):
            self.variables[b"GIT_CONFIG_KEY_%d" % number], self.variables[b"GIT_CONFIG_VALUE_%d" % number] = key, value
        count = b"%d" % len(pairs)
        self.variables[b"GIT_CONFIG_COUNT"] = self.one_of(count, count, b" " + count, b"+0" + count) if pairs else self.one_of(b"", b"0", b"-0")

    # ---- the owner

    def draw_owner(self):
        """Another user's repository, which is safe or isn't."""
        if not self.has_stranger:
            return
        theirs = [path for path in (self.top, self.git, self.top + b"/.git") if self.is_there(path)]
        self.strangers.add(self.random.choice(theirs))
        top = b"@/" + self.top
        safe = {"any": [b"*"], "its path": [top], "its path behind an empty one": [b"", top], "the superuser's user": []}
        unsafe = {"none": [], "an empty one behind": [b"*", b""], "another path": [top + b"/", b"@/x"], "in its own file": [b"*"]}
        kind = self.random.choice([*safe, *([] if self.is_sound else unsafe)])
        self.mark("another user's: " + kind)
        if kind == "the superuser's user":
            self.variables[b"SUDO_UID"] = b"%d" % STRANGER
        self.tell_safe([entry(b"safe.directory", value) for value in {**safe, **unsafe}[kind]], kind == "in its own file")

    def is_there(self, path):
        return any(it == path or it.startswith(path + b"/") for it in [*self.files, *self.folders])

    def tell_safe(self, told, is_own):
        """Tells what is safe in a file that counts for it, by words, or in the repository's own file."""
        if is_own:
            self.own().extend(told)
        elif b"HOME" in self.variables and b"GIT_CONFIG_GLOBAL" not in self.variables and self.chance(0.6):
            self.entries.setdefault(USER, []).extend(told)
        else:
            self.options += [part for it in told for part in (b"-c", key_of(it) + b"=" + it.value)]

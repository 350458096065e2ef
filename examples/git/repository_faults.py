"""Faults of repositories and of what tells of them, one or several in one."""
from configuration_texts import SETTINGS, USER, Chances, entry
from repository_settings import OTHER_BOOLEANS
from repository_shapes import HEADS, WRONG_HEADS

WRONG_BOOLEANS = [b"maybe", b"2x", b"tru", b"1 2", b"2147483648", b"2g", b"0x", b"k", b"08", b"1 "]
WRONG_GITFILES = [
    b"", b"gitdir:../g", b"gitdir: ", b"gitdir: \n", b"gitdir: ../nowhere", b"gitdir: ../x", b"x", b"GITDIR: ../g", b" gitdir: ../g",
]
EXTENSIONS = [(b"1", b"refStorage"), (b"1", b"x"), (b"0", b"noop-v1"), (b"0", b"objectFormat"), (b"1", b"objectFormat"), (b"0", b"refStorage")]
WRONG_WORDS = [
    b"core", b"=x", b"", b".x", b"a.", b"core.1x=2", b"core.x_y=1", b"a b.c=1", b"core.excludesFile", b"include.path=i", b"include.path", b"a.\n.b=1",
    b"a.b\n=1",
]
WRONG_SETTINGS = [b"ignoreCase=maybe", b"excludesFile=~no-such-user/ig", b"attributesFile", b"excludesFile=~/.config", b"bare=x", b"symlinks=2x"]
WRONG_PARAMETERS = [
    b" ", b"x", b"'a.b=c", b"'a.b=c' x", b"'a.b=c''d.e=f'", b"'a.b'=c", b"'a.b'='c", b"'a.b'='c'='d'", b"'a.b=c'\\'", b" 'a.b=c'", b"'a'='c'", b"'core.ignoreCase=x'",
]
WRONG_COUNTS = [b"x", b"1x", b"2147483648", b"-1", b"0x1", b"9"]


class Faults(Chances):
    """Makes a repository wrong, in ways that its number tells."""

    def draw_faults(self):
        faults = [name for name in sorted(dir(self)) if name.startswith("fault_")]
        drawn = [faults[self.seed // 3 % len(faults)], *self.random.sample(faults, self.one_of(0, 1, 1, 2, 3))]
        self.random.shuffle(drawn)
        for name in drawn:
            getattr(self, name)()
            self.mark(name.replace("_", " ").replace("fault", "fault:"))

    def any_file(self):
        return self.random.choice(sorted(self.entries))

    def read_file(self):
        """A file of configuration that is read, most often."""
        return self.one_of(self.common + b"/config", USER, self.any_file())

    def fault_in_HEAD(self):
        path = self.git + b"/HEAD"
        self.files.pop(path, None)
        self.links.pop(path, None)
        kind = self.random.choice(["text", "text", "link", "folder", "none"])
        if kind == "text":
            self.files[path] = self.random.choice(WRONG_HEADS)
        elif kind == "link":
            self.links[path] = b"../x/HEAD"
            self.files[b"x/HEAD"] = HEADS["a branch"]
        elif kind == "folder":
            self.folders.add(path)

    def fault_in_objects_or_refs(self):
        path = self.common + self.one_of(b"/objects", b"/refs")
        self.folders.discard(path)
        self.outside = [folder for folder in self.outside if folder != path]
        if self.chance(0.5):
            self.files[path] = b""

    def fault_in_gitfile(self):
        path = self.top + b"/.git"
        if path in self.files or path in self.links:
            self.links.pop(path, None)
        elif not any(it.startswith(path + b"/") for it in self.files):
            return
        else:
            path = self.top + b"/d/.git"
        self.files[path] = self.random.choice(WRONG_GITFILES)

    def fault_in_index(self):
        if self.index is not None:
            self.spoil_index()

    def fault_in_commondir(self):
        self.files[self.git + b"/commondir"] = self.one_of(b"", b"\n", b"nowhere", b"@/x\n", b".. \n")

    def fault_in_GIT_DIR(self):
        self.variables[b"GIT_DIR"] = self.one_of(b"@/nowhere", b"@/x", b"@/r", b"", b"@/home/ig")

    def fault_in_GIT_WORK_TREE(self):
        self.variables[b"GIT_WORK_TREE"] = self.one_of(b"@/nowhere", b"", b"@/home/ig", b"nowhere/x")

    def fault_in_GIT_COMMON_DIR(self):
        self.variables[b"GIT_COMMON_DIR"] = self.one_of(b"@/nowhere", b"@/x", b"")

    def fault_of_a_ceiling(self):
        top = b"@/" + self.top
        self.variables[b"GIT_CEILING_DIRECTORIES"] = self.one_of(top, top + b"/", b"x:@/r:@/w", b"@/l", b":@/l", b"@/x/../r")

    def fault_in_version(self):
        self.own().append(entry(b"core.repositoryFormatVersion", self.one_of(b"2", b"0x2", b"1k", b"x", b"", None, b"1 ", b"99999999999")))

    def fault_of_an_extension(self):
        version, name = self.random.choice(EXTENSIONS)
        value = self.one_of(b"sha1", b"sha256", b"x") if name == b"objectFormat" else b"x"
        self.own().extend([entry(b"core.repositoryFormatVersion", version), entry(b"extensions." + name, value)])

    def fault_in_bare(self):
        self.own().append(entry(b"core.bare", self.one_of(b"true", None, b"maybe", b"2x")))

    def fault_in_worktree(self):
        self.own().append(entry(b"core.worktree", self.one_of(b"@/nowhere", b"nowhere", None, b"", b"../../home/ig")))

    def fault_in_worktreeConfig(self):
        self.own().append(entry(b"extensions.worktreeConfig", self.one_of(b"maybe", b"x")))

    def fault_in_a_line(self):
        self.texts[self.read_file()] = self.writer.with_wrong_line

    def fault_in_another_line(self):
        self.texts[self.any_file()] = self.writer.with_wrong_line

    def fault_in_a_boolean(self):
        """A wrong value, which a right one may follow."""
        key = b"core." + self.one_of(b"ignoreCase", b"quotePath", self.random.choice(OTHER_BOOLEANS))
        entries = self.entries.setdefault(self.read_file(), [])
        entries.insert(self.random.randrange(len(entries) + 1), entry(key, self.random.choice(WRONG_BOOLEANS)))
        if self.chance(0.5):
            entries.append(entry(key, b"true"))

    def fault_in_a_path(self):
        key = b"core." + self.one_of(b"excludesFile", b"attributesFile", b"hooksPath")
        entries = self.entries.setdefault(self.read_file(), [])
        entries.insert(self.random.randrange(len(entries) + 1), entry(key, self.one_of(None, b"~no-such-user/ig", b"~no-such-user")))

    def fault_of_a_folder_of_patterns(self):
        self.own().append(entry(b"core.excludesFile", self.one_of(b"~", b"@/home", b"d")))

    def fault_of_a_folder_info_exclude(self):
        path = self.common + b"/info/exclude"
        self.files.pop(path, None)
        self.links.pop(path, None)
        self.folders.add(path)

    def fault_of_a_folder_of_configuration(self):
        path = self.one_of(USER, self.common + b"/config", SETTINGS, self.any_file())
        self.entries.pop(path, None)
        self.folders.add(path)

    def fault_of_an_include(self):
        value = self.one_of(None, b"~no-such-user/i", b"~no-such-user", b"config", b".gitconfig", b"@/x", b"@/home/circle")
        self.entries[b"home/circle"] = [entry(b"include.path", b"circle")]
        self.entries.setdefault(self.read_file(), []).append(entry(self.one_of(b"include.path", b"include.path", b"includeIf.gitdir:**.path"), value))

    def fault_of_a_chain(self):
        self.chain(11)

    def fault_of_a_url(self):
        """A URL in a file that is included under a condition, where another condition asks for URLs."""
        self.mark("condition: hasconfig")
        entries = self.entries.setdefault(self.read_file(), [])
        key = self.one_of(b"includeIf.gitdir:**.path", b"include.path", b"includeIf.gitdir:no/.path")
        entries += [entry(b"includeIf.hasconfig:remote.*.url:z.path", b"@/home/url"), entry(key, b"@/home/url")]
        self.entries[b"home/url"] = [entry(b"remote.o.url", b"z")]

    def fault_of_a_pair(self):
        """A wrong number of pairs, a pair that isn't there, or a wrong key."""
        kind = self.random.choice(["number", "key", "value", "word"])
        self.pairs([(b"core.ignoreCase", b"true")])
        if kind == "number":
            self.variables[b"GIT_CONFIG_COUNT"] = self.random.choice(WRONG_COUNTS)
        elif kind == "word":
            self.variables[b"GIT_CONFIG_KEY_0"] = self.one_of(b"core", b"", b"a.1", b"core.ignoreCase=x", b"include.path")
        else:
            del self.variables[b"GIT_CONFIG_%s_0" % kind.upper().encode()]

    def fault_of_words_that_are_handed_on(self):
        self.variables[b"GIT_CONFIG_PARAMETERS"] = self.random.choice(WRONG_PARAMETERS)

    def fault_of_a_word(self):
        self.options += [b"-c", self.random.choice(WRONG_WORDS)]

    def fault_in_a_word(self):
        self.options += [b"-c", b"core." + self.random.choice(WRONG_SETTINGS)]

    def fault_in_GIT_CONFIG_NOSYSTEM(self):
        self.variables[b"GIT_CONFIG_NOSYSTEM"] = self.one_of(b"maybe", b"2x", b"tru")

    def fault_of_bareRepository(self):
        self.entries.setdefault(USER, []).append(entry(b"safe.bareRepository", self.one_of(b"explicit", b"explicit", b"all", b"x", None)))

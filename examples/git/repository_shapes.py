"""Git folders of all kinds, and what leads to them."""
from configuration_texts import FALSE, TRUE, SYSTEM, USER, Chances, entry

# how a repository is found, and how often
SHAPES = {
    "a folder": 10, "a link to a folder": 3, "a file": 5, "a link to a file": 3, "a broken one below": 5, "a nested repository": 3,
    "a linked work tree": 6, "a submodule": 4, "a bare folder": 4, "a variable": 7, "a common folder told": 3,
}  # (53, and each third number has faults)
HEADS = {
    "a branch": b"ref: refs/heads/main\n", "a branch of parts": b"ref: refs/heads/f/x/y\n", "no blank": b"ref:refs/x",
    "many blanks": b"ref: \t\r\n refs/heads/main", "a commit": b"0123456789abcdefABCD" * 2 + b"\n", "a commit and more": b"a" * 40 + b" and more",
}
WRONG_HEADS = [
    b"refs/heads/main\n", b"a" * 39 + b"\n", b"", b"ref: heads/main\n", b"Ref: refs/heads/main\n", b"ref:" + b" " * 250 + b"refs/heads/main\n",
]
VERSIONS = {"0": [b"0", b"0", b"0", b"0x0", b"-0"], "1": [b"1", b"01", b"+1"], "below 0": [b"-1"], "none": []}
# what GIT_DIR tells
TOLD = {
    "absolute": b"@/q/.git", "with a slash": b"@/q/.git/", "a file": b"@/x/file", "relative": b"../q/.git", "a link": b"@/q-link",
    "with dots": b"@/x/../q/./.git",
}


class Shapes(Chances):
    """How a repository is found: it draws the git folders, and what leads to them."""

    def draw_shape(self):
        shapes = [shape for shape, count in SHAPES.items() for _ in range(count)]
        shape = shapes[self.seed * 7 % len(shapes)]
        self.mark("found by " + shape)
        self.folders |= {b"home", b"r/d", b"t/d/e", b"x"}
        self.links[b"l"] = b"r"
        self.top, self.inside, self.outside = b"r", [b"r", b"r/d"], [b"home"]
        getattr(self, "find_by_" + shape.replace(" ", "_"))()
        if shape not in ("a bare folder", "a variable", "a common folder told") and self.marked(0.12, "GIT_WORK_TREE"):
            self.variables[b"GIT_WORK_TREE"] = self.one_of(b"@/t", b"@/t", b"@/r", b"../t", b"@/l")
            self.outside.append(b"t")
        if shape == "a folder" and self.marked(0.2, "a ceiling that hides"):
            self.fault_of_a_ceiling()
            self.inside, self.outside = [b"r"], [b"r/d"]
        elif self.marked(0.1, "ceilings that hide nothing"):
            self.variables[b"GIT_CEILING_DIRECTORIES"] = self.one_of(b"@", b"", b"::@/l", b"r:../r", b"@/x:@/home/", b"@/r/d/e/f:.", b"/")

    def git_folder(self, path):
        """A git folder with a configuration of its own."""
        self.head(path)
        self.folders |= {path + b"/objects", path + b"/refs"}
        self.entries[path + b"/config"] = own = []
        version = self.random.choices(list(VERSIONS), (12, 3, 1, 1))[0]
        self.mark("version: " + version)
        own.extend(entry(b"core.repositoryFormatVersion", value) for value in self.random.sample(VERSIONS[version], len(VERSIONS[version]) and 1))
        if self.chance(0.6):
            own.append(entry(b"core.bare", self.random.choice(FALSE)))
        self.information(path)

    def head(self, path):
        if self.chance(0.6):
            self.files[path + b"/HEAD"] = HEADS["a branch"]
        elif self.marked(0.2, "HEAD: a link"):
            self.links[path + b"/HEAD"] = b"refs/heads/nowhere"
        else:
            self.files[path + b"/HEAD"] = self.kind_of(HEADS, "HEAD")

    def information(self, path):
        """The git folder's files of patterns, some of them links."""
        for name, text in ((b"exclude", self.ignore_text), (b"attributes", self.attribute_text)):
            if not self.chance(0.5):
                continue
            if self.marked(0.1, "info/%s: a link" % name.decode()):
                self.links[path + b"/info/" + name] = b"@/" + name
                self.files[name] = text(name)
            else:
                self.mark("info/" + name.decode())
                self.files[path + b"/info/" + name] = text(path + b"/info")

    def own(self):
        """The entries of the repository's own file."""
        return self.entries.setdefault(self.common + b"/config", [])

    def is_folder(self, path, common=None):
        self.git, self.common = path, common or path

    # ---- each of them

    def find_by_a_folder(self):
        self.git_folder(b"r/.git")
        self.is_folder(b"r/.git")
        self.outside += [b"r/.git", b"r/.git/objects"]
        self.may_tell_work_tree()

    def may_tell_work_tree(self):
        """Settings of the work tree, which count or don't."""
        if self.marked(0.15, "core.worktree"):
            self.own().append(entry(b"core.worktree", self.one_of(b"../../t", b"@/t", b"@/r", b"@/l", b"../d", b"..")))
        if self.marked(0.08, "core.bare: true"):
            self.own().append(entry(b"core.bare", self.random.choice(TRUE)))
        if self.marked(0.12, "core.worktree and core.bare where they don't count"):
            path = self.one_of(USER, SYSTEM, b"r/d/included")
            if path == b"r/d/included":
                self.own().append(entry(b"include.path", b"@/r/d/included"))
            self.entries.setdefault(path, []).extend([entry(b"core.worktree", b"../../t"), entry(b"core.bare", b"true")])

    def find_by_a_link_to_a_folder(self):
        self.git_folder(b"g")
        self.is_folder(b"g")
        self.links[b"r/.git"] = self.one_of(b"../g", b"@/g")
        self.outside += [b"g", b"r/.git"]
        self.may_tell_work_tree()

    def find_by_a_file(self):
        name = self.one_of(b"g", b"g", b"g x", b"g ")
        self.git_folder(name)
        self.is_folder(name)
        front = self.kind_of({"relative": b"../", "absolute": b"@/", "with dots": b".././x/..//"}, "gitdir")
        behind = self.kind_of({"a line feed": b"\n", "nothing": b"", "many ends": b"\r\n\n\r"}, "behind gitdir")
        self.files[b"r/.git"] = b"gitdir: " + front + name + behind
        self.outside.append(name)
        self.may_tell_work_tree()

    def find_by_a_link_to_a_file(self):
        self.git_folder(b"g")
        self.is_folder(b"g")
        self.links[b"r/.git"] = b"../x/file"
        self.files[b"x/file"] = b"gitdir: " + self.one_of(b"../g", b"@/g") + b"\n"

    def find_by_a_broken_one_below(self):
        """A `.git` below that is no git folder is passed over."""
        self.find_by_a_folder()
        kind = self.random.choice(["an empty folder", "no refs", "a wrong HEAD", "a link to nowhere", "a file within"])
        self.mark("passed over: " + kind)
        below = b"r/d/.git"
        if kind == "a link to nowhere":
            self.links[below] = b"nowhere"
            return
        self.folders.add(below)
        if kind != "an empty folder":
            self.files[below + b"/HEAD"] = WRONG_HEADS[0] if kind == "a wrong HEAD" else HEADS["a branch"]
            self.folders |= {below + b"/objects"} | (set() if kind in ("no refs", "a file within") else {below + b"/refs"})
        if kind == "a file within":
            self.files[below + b"/refs"] = b""

    def find_by_a_nested_repository(self):
        self.git_folder(b"r/.git")
        self.is_folder(b"r/.git")
        self.git_folder(b"r/n/.git")
        self.folders.add(b"r/n/d")
        self.inside += [b"r/n", b"r/n/d"]

    def find_by_a_linked_work_tree(self):
        self.git_folder(b"r/.git")
        self.is_folder(b"r/.git/worktrees/w", b"r/.git")
        self.head(self.git)
        kinds = {"relative": b"../..\n", "absolute": b"@/r/.git", "with dots": b".././..\r\n\n"}
        self.files[self.git + b"/commondir"] = self.kind_of(kinds, "commondir")
        self.files[self.git + b"/gitdir"] = b"@/w/.git\n"
        self.files[b"w/.git"] = b"gitdir: " + self.one_of(b"@/", b"../") + b"r/.git/worktrees/w\n"
        self.folders.add(b"w/d")
        self.information(self.git)
        self.top = b"w"
        self.inside = [b"w", b"w/d", b"r"]
        self.outside.append(self.git)
        self.may_tell_work_tree()

    def find_by_a_submodule(self):
        self.git_folder(b"r/.git")
        self.git_folder(b"r/.git/modules/s")
        self.is_folder(b"r/.git/modules/s")
        self.files[b"r/s/.git"] = b"gitdir: ../.git/modules/s\n"
        if self.marked(0.8, "a submodule's core.worktree"):
            self.own().append(entry(b"core.worktree", self.one_of(b"../../../s", b"../../../s", b"@/r/s", b"../../../../t")))
        self.folders.add(b"r/s/d")
        self.top = b"r/s"
        self.inside = [b"r/s", b"r/s/d", b"r"]
        self.outside.append(self.git)

    def find_by_a_bare_folder(self):
        self.git_folder(b"g")
        self.is_folder(b"g")
        self.top, self.inside, self.outside = b"t", [], [b"home", b"g", b"g/objects"]
        if self.marked(0.8, "a bare folder with GIT_WORK_TREE"):
            self.variables[b"GIT_WORK_TREE"] = self.one_of(b"@/t", b"@/t", b"@/r", b"../t")
            self.inside, self.outside = [b"g", b"g/objects"], [b"home"]
        if self.marked(0.25, "a bare folder and safe.bareRepository"):
            self.entries.setdefault(USER, []).append(entry(b"safe.bareRepository", self.one_of(b"explicit", b"all", b"all")))
        if self.marked(0.5, "a bare folder with core.worktree"):
            self.own().append(entry(b"core.worktree", b"../t"))
        if self.marked(0.3, "core.bare: true"):
            self.own().append(entry(b"core.bare", self.random.choice(TRUE)))

    def find_by_a_variable(self):
        """GIT_DIR, or the word for it; with the work tree told or not."""
        self.git_folder(b"r/.git")
        self.git_folder(b"q/.git")
        self.is_folder(b"q/.git")
        self.files[b"x/file"] = b"gitdir: ../q/.git\n"
        self.inside = [b"r", b"r/d", b"home"]
        self.links[b"q-link"] = b"q/.git"
        told = self.kind_of(TOLD, "GIT_DIR")
        if told.startswith(b".."):
            self.inside = [b"r", b"home"]
        self.tell(b"GIT_DIR", b"--git-dir", told)
        kind = self.random.choice(["the current folder", "GIT_WORK_TREE", "GIT_WORK_TREE", "core.worktree"])
        self.mark("work tree with GIT_DIR: " + kind)
        if kind == "GIT_WORK_TREE":
            self.tell(kind.encode(), b"--work-tree", self.one_of(b"@/t", b"@/q", b"../t", b"@/r", b"@/l"))
        elif kind == "core.worktree":
            self.own().append(entry(b"core.worktree", self.one_of(b"../../t", b"..", b"@/t")))
        self.outside = [b"x", b"q"]

    def tell(self, variable, word, value):
        """Tells a variable's value by itself, or by a word."""
        if self.marked(0.4, word.decode()):
            self.options += [word, value]
        else:
            self.variables[variable] = value

    def find_by_a_common_folder_told(self):
        self.git_folder(b"c")
        self.is_folder(b"r/.git", b"c")
        self.head(b"r/.git")
        self.information(b"r/.git")
        self.entries[b"r/.git/config"] = [entry(b"core.ignoreCase", b"true")]
        self.variables[b"GIT_COMMON_DIR"] = b"@/c"
        if self.marked(0.25, "GIT_COMMON_DIR: relative"):
            self.variables[b"GIT_COMMON_DIR"] = b"../c"
            self.inside, self.outside = [b"r"], [b"r/d", b"t"]
        if self.marked(0.5, "a common folder told twice"):
            self.files[b"r/.git/commondir"] = b"nowhere\n"

"""Questions and answers of tools/vectors: the spelling of fields, a loop that answers, and folders with the files of a row."""
import contextlib
import os
import re
import sys
import tempfile


def read(field):
    """The bytes of a field, or None."""
    if field == "\\N":
        return None
    # (each escape is two or four signs long, and none begins within another)
    return re.sub(r"\\(\\|x..)", lambda it: "\\" if it[1] == "\\" else chr(int(it[1][1:], 16)), field).encode("latin-1")


def spelt(value):
    """A field of bytes, a text, or None."""
    if value is None:
        return "\\N"
    bytes_ = value.encode() if isinstance(value, str) else value
    signs = ["\\\\" if b == 92 else chr(b) if 32 <= b < 127 else f"\\x{b:02x}" for b in bytes_]
    for end in (0, -1):
        if signs and signs[end] == " ":
            signs[end] = "\\x20"
    return "".join(signs)


def told(is_so):
    """The answer to a question by yes or no."""
    return ["yes" if is_so else "no"]


def answer(calls):
    """Answers each question by the call of its subject, which takes the fields and returns those of the answer: none of them, (),
    where it can't ask."""
    for line in sys.stdin:
        subject, *fields = line.rstrip("\n").split("\t")
        found = calls[subject](*map(read, fields)) if subject in calls else ()
        print("\t".join(map(spelt, found)) if found != () else "?", flush=True)


def is_text(bytes_):
    try:
        bytes_.decode()
    except UnicodeDecodeError:
        return False
    return True


def is_plain(path):
    """Whether the path is one below the top, with no part that names the same or another folder."""
    return not {b"", b".", b".."} & set(path.removesuffix(b"/").split(b"/"))


def write(path, text):
    """Writes a file, and makes the folders above it."""
    os.makedirs(os.path.dirname(path), exist_ok=True)
    with open(path, "wb") as it:
        it.write(text)


@contextlib.contextmanager
def folder_of(files):
    """A folder with these files, each a name and its bytes."""
    with tempfile.TemporaryDirectory() as top:
        for name, text in files:
            assert is_plain(name), name
            write(os.path.join(os.fsencode(top), name), text)
        yield top


# what makes a folder a repository
REPOSITORY = [(b".git/HEAD", b"ref: refs/heads/main\n"), (b".git/objects/x", b""), (b".git/refs/x", b"")]


def repository_of(files):
    """The same, with what makes it a repository."""
    return folder_of([*REPOSITORY, *files])


@contextlib.contextmanager
def tree_of(there, files):
    """A folder that stands for the root, with a repository in `w/t` that has these ignore files, each its folder and its bytes. A line of
    what is there is a folder of it, which ends in a slash, a link in it, which ends in @, or a path from the root that leads to it, with
    a = at its end."""
    names = [(folder + b"/" * bool(folder) + b".gitignore", text) for folder, text in pairs(files)]
    with folder_of([(b"w/t/" + name, text) for name, text in [*REPOSITORY, *names]]) as root:
        root = os.path.realpath(os.fsencode(root))
        top = root + b"/w/t"
        for line in filter(None, there.split(b"\n")):
            path = os.path.join(root if line.endswith(b"=") else top, line[:-1])
            os.makedirs(path if line.endswith(b"/") else os.path.dirname(path), exist_ok=True)
            if not line.endswith(b"/"):
                os.symlink(top if line.endswith(b"=") else root, path)
        yield root


def make(top, path):
    """Makes what a path names: a folder where it ends in a slash, else a file."""
    assert is_plain(path), path
    path = os.path.join(os.fsencode(top), path)
    os.makedirs(os.path.dirname(path), exist_ok=True)
    if not path.endswith(b"/") and not os.path.lexists(path):
        with open(path, "wb"):
            pass


def pairs(fields):
    """Fields two by two."""
    return list(zip(fields[::2], fields[1::2]))


def ignore_files(fields):
    """Names of the ignore files of a row, whose bases are none or a folder, and their bytes: with no base, at most the file of
    excludes, the repository's own and that of the top, the last of these last."""
    files = pairs(fields)
    outer = [b".excludes", b".git/info/exclude", b".gitignore"]
    names = iter(outer[-sum(base is None for base, _ in files) :])
    return [(next(names) if base is None else base + b".gitignore", text) for base, text in files]


def by_line(ignored):
    """A call that answers rows of `matching` by one that answers those of `ignored`: the pattern is that of a line."""

    def matching(mode, pattern, value):
        if not is_lone(mode, pattern, value) or pattern.endswith((b" ", b"\r")) or b"\n" in pattern:
            return ()
        file = (None, b"/" + pattern + b"\n")
        above = [value[:end] + b"/" for end in range(len(value)) if value[end] == ord("/")]
        # (what lies in an ignored folder is ignored, whatever the pattern says of itself)
        return () if any(ignored(case_of(mode), it, *file) != ["no"] for it in above) else ignored(case_of(mode), value, *file)

    return matching


def is_lone(mode, pattern, value):
    """Whether the pattern can stand in a line, alone but for a slash before it, and the value can be the path of a file."""
    is_path = is_plain(value) and not value.endswith(b"/") and b"\0" not in value and max(map(len, value.split(b"/"))) < 256
    # (in an attribute file Git passes over a line of 2,048 bytes)
    return mode.startswith(b"path") and is_path and not pattern.endswith(b"/") and b"\0" not in pattern and len(pattern) < 1000


def case_of(mode):
    return b"fold" if mode.endswith(b"fold") else b"sensitive"


def attribute_files(fields):
    """Names of the attribute files of a row, and their bytes: `system` and `user` lie at the top."""
    return [(b".git/info/attributes" if name == b"info" else name, text) for name, text in pairs(fields)]

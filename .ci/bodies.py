"""What .ci/edits reads of the edits that change bodies alone: which functions each changes, and which edits can go into one check."""
import collections
import os
import subprocess
import tempfile

from toolchain import readers, rt

# How many edits go into one check: enough to share what each check reads, and few enough that no check is long alone in the end.
MOST = 48

# An edit that changes bodies alone: each function, and its new body.
Edit = collections.namedtuple("Edit", "path bodies")


class Texts:
    """The sources of a crate: each function's body, and all that no body has."""

    def __init__(self, folder, file=None):
        self.folder, self.source = folder, readers.Source(folder, follows=file is None)
        self.source.read(file or ("src/main.rt" if os.path.isfile(f"{folder}/src/main.rt") else "src/lib.rt"))

    def functions(self, file):
        return sorted((it for it in self.source.functions if it.file == file and it.has_body), key=lambda it: it.opens)

    def body(self, function):
        return self.source.data[function.file][function.opens : function.end]

    def outside(self, file):
        kept, at = [], 0
        for it in self.functions(file):
            kept.append(self.source.data[file][at : it.opens])
            at = it.end
        return [*kept, self.source.data[file][at:]]

    def changed(self, path, texts):
        """Returns the edit if it changes bodies and nothing else."""
        bodies = []
        for file, text in texts.items():
            after = file in self.source.data and self.alike(file, text)
            if not after:
                return None
            pairs = zip(self.functions(file), map(after.body, after.functions(file)))
            bodies += [it for it in pairs if self.body(it[0]) != it[1]]
        return Edit(path, bodies) if bodies else None

    def alike(self, file, text):
        """Returns the file with this text, if it is the same outside bodies."""
        with tempfile.TemporaryDirectory() as folder:
            os.makedirs(os.path.dirname(f"{folder}/{file}"))
            with open(f"{folder}/{file}", "w", encoding="utf-8") as it:
                it.write(text)
            try:
                after = Texts(folder, file)
            except (subprocess.CalledProcessError, IndexError):
                return None
        return after if after.outside(file) == self.outside(file) else None

    def with_bodies(self, edits):
        """Returns the texts of the files that these edits change."""
        texts, changes = {}, [it for edit in edits for it in edit.bodies]
        for function, body in sorted(changes, key=lambda it: -it[0].opens):
            text = texts.get(function.file, self.source.data[function.file])
            texts[function.file] = text[: function.opens] + body + text[function.end :]
        return {file: text.decode() for file, text in texts.items()}

    def lines(self, edits):
        """Returns the lines of the functions that these edits change, with the proof files of their names: about what a check of them takes."""
        found, names = 0, {it.name for edit in edits for it, _ in edit.bodies}
        for at, _, files in os.walk(f"{self.folder}/proofs"):
            found += sum(rt.rtlib.text_of(f"{at}/{it}").count("\n") for it in files if os.path.basename(at) in names)
        return found + sum(self.body(it).count(b"\n") for edit in edits for it, _ in edit.bodies)


def batches(edits):
    """Returns the edits in as few lists as may be, so that no two edits of a list change what has one proof."""
    lists, changed = [], []
    for edit in edits:
        # (functions that call one another have one proof)
        proofs = {"a cycle" if it.in_cycle else (it.file, it.opens) for it, _ in edit.bodies}
        at = next((at for at, it in enumerate(changed) if not it & proofs and len(lists[at]) < MOST), len(lists))
        if at == len(lists):
            lists.append([])
            changed.append(set())
        lists[at].append(edit)
        changed[at] |= proofs
    return lists


def name_of(function, names):
    """Returns the name by which a check calls the function, if there is no doubt."""
    found = [it.split("::") for it in names if it.endswith(f"::{function.name}")]
    if function.in_trait:
        found = [it for it in found if it[1:-2] == [*function.module]]
        # (the name of an impl for a reference fits nothing, and often stands alone in its module)
        found = [it for it in found if function.block.fits(it[-2])] or found
    elif function.block:
        found = [it for it in found if it[-2] == function.owner]
    else:
        found = [it for it in found if it[1:-1] == [*function.module]]
    return "::".join(found[0]) if len(found) == 1 else None

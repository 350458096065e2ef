"""What isn't the library of this version is refused, by what each of its calls answers and writes."""

import ctypes
import os
import shutil
import subprocess
import tempfile
import unittest

from gix_glob import _answers, _calls, _library
from tests.test_library import run


class Changed:
    """The library, but for one call."""

    def __init__(self, name, call):
        self._name, self._call = name, call

    def __getattr__(self, name):
        return self._call if name == self._name else getattr(_library._c, name)


def other_answer(call):
    """A call that answers otherwise, and writes the same."""

    def changed(*words):
        answer = call(*words)
        return not answer if isinstance(answer, bool) else answer + 1

    return changed


def silent(call):
    """A call that answers the same, and writes nothing."""

    def changed(*words):
        written = [it._obj for it in words if hasattr(it, "_obj")]
        before = [bytes(it) for it in written]
        answer = call(*words)
        for it, kept in zip(written, before):
            ctypes.memmove(ctypes.addressof(it), kept, len(kept))
        return answer

    return changed


def past(call, end):
    """A call that writes past what it is given, whose end is told of its arguments."""

    def changed(*words):
        answer = call(*words)
        ctypes.memset(end(words), 0, 1)
        return answer

    return changed


def end_of(words, at):
    it = words[at]._obj
    return ctypes.addressof(it) + ctypes.sizeof(it)


class Answers(unittest.TestCase):
    def assert_refused(self, name, change):
        wrong = _answers.first_wrong(Changed(name, change(getattr(_library._c, name))))
        self.assertEqual(wrong, name)

    def test_the_library_is_taken(self):
        self.assertIsNone(_answers.first_wrong(_library._c))

    def test_other_answers(self):
        for name, (_, answer) in _calls.CALLS.items():
            if answer is not None:
                with self.subTest(call=name):
                    self.assert_refused(name, other_answer)

    def test_nothing_is_written(self):
        for name in (name for name in _calls.CALLS if "parse" in name or "decide" in name):
            with self.subTest(call=name):
                self.assert_refused(name, silent)

    def test_more_is_written(self):
        ends = {
            "gix_glob_parse": [lambda words: end_of(words, 2)],
            "gix_glob_parse_as_git": [lambda words: end_of(words, 2)],
            "gix_glob_parse_ignore_line": [lambda words, at=at: end_of(words, at) for at in range(2)],
            "gix_glob_parse_ignore_line_as_git": [lambda words, at=at: end_of(words, at) for at in range(2)],
            "gix_glob_prepare": [lambda words: words[2] + 16 * words[1], lambda words: words[4] + 2048],
            "gix_glob_decide_in_tree": [lambda words: end_of(words, 6)],
        }
        for name, places in ends.items():
            for at, end in enumerate(places):
                with self.subTest(call=name, at=at):
                    self.assert_refused(name, lambda call, end=end: past(call, end))

    def test_one_reading_for_both(self):
        for one in ("gix_glob_parse", "gix_glob_parse_ignore_line"):
            for name, it in ((one, f"{one}_as_git"), (f"{one}_as_git", one)):
                with self.subTest(call=name):
                    self.assert_refused(name, lambda _, it=it: getattr(_library._c, it))


@unittest.skipUnless(shutil.which("cc"), "libraries of other answers are left out: there is no C compiler (cc)")
class OtherLibraries(unittest.TestCase):
    """Files with all the names, which answer one number always."""

    def test_files(self):
        names = [*_calls.CALLS, *_calls.OTHERS]
        with tempfile.TemporaryDirectory() as folder:
            for answer in (0, 1, -1):
                source, library = os.path.join(folder, "other.c"), os.path.join(folder, f"other{answer}.so")
                with open(source, "w", encoding="ascii") as file:
                    file.write("".join(f"long {name}(void) {{ return {answer}; }}\n" for name in names))
                subprocess.run(["cc", "-shared", "-fPIC", "-o", library, source], check=True)
                said = run("import gix_glob", GIX_GLOB_LIBRARY=library)
                with self.subTest(answer=answer):
                    self.assertEqual(said.returncode, 1)
                    wanted = f"{library}: gix_glob_version doesn't answer as that of version {_calls.VERSION}"
                    self.assertIn(wanted, said.stderr)
                    self.assertIn("examples/c/install PREFIX", said.stderr)
            # one name is missing, which this package doesn't use
            names.remove("gix_glob_attribute_of")
            with open(source, "w", encoding="ascii") as file:
                file.write("".join(f"int {name}(void) {{ return 0; }}\n" for name in names))
            subprocess.run(["cc", "-shared", "-fPIC", "-o", library, source], check=True)
            self.assertIn("gix_glob_attribute_of", run("import gix_glob", GIX_GLOB_LIBRARY=library).stderr)

"""The examples in the modules and in the README's code for Python."""

import contextlib
import doctest
import io
import os
import re
import unittest

import gix_glob
from gix_glob import _decision, _ignore, _matching, _pattern

TOP = os.path.join(os.path.dirname(os.path.abspath(__file__)), "..", "..", "..")


def load_tests(loader, tests, pattern):
    for module in (gix_glob, _decision, _ignore, _matching, _pattern):
        tests.addTests(doctest.DocTestSuite(module))
    return tests


def printed(file):
    """What the code of a file prints, and what it is to print."""
    with open(file, encoding="utf-8") as opened:
        text = opened.read()
    for code, wanted in re.findall(r"^```python\n(.*?)^```\n.*?^```text\n(.*?)^```$", text, re.S | re.M):
        said = io.StringIO()
        with contextlib.redirect_stdout(said):
            exec(compile(code, file, "exec"), {})
        yield said.getvalue(), wanted


class Documents(unittest.TestCase):
    def test_the_code_prints_what_follows_it(self):
        for file in ("README.md", os.path.join("bindings", "python", "README.md")):
            file = os.path.join(TOP, file)
            if os.path.exists(file):
                found = list(printed(file))
                self.assertTrue(found, file)
                for said, wanted in found:
                    self.assertEqual(said, wanted)

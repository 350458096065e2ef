"""The shared library: how it is found, that its calls are declared as in its header, and that its memory is kept."""

import ctypes
import gc
import os
import re
import subprocess
import sys
import tempfile
import threading
import unittest
import weakref

from gix_glob import IgnoreFile, IgnoreList, Pattern, Reading, _answers, _calls, _library, _loading, wildmatch

HERE = os.path.dirname(os.path.abspath(__file__))
PACKAGE = os.path.dirname(HERE)
HEADER = os.path.join(PACKAGE, "..", "..", "crates", "gix_glob_c", "include", "gix_glob.h")

#: types of the header, and those that declare them here
TYPES = {
    "const uint8_t *": (ctypes.c_void_p, ctypes.c_char_p),
    "const struct gix_glob_pattern *": (ctypes.c_void_p, ctypes.POINTER(_calls.Parts)),
    "const struct gix_glob_list *": (ctypes.c_void_p, ctypes.POINTER(_calls.ListParts)),
    "void *": (ctypes.c_void_p,),
    "const void *": (ctypes.c_void_p,),
    "struct gix_glob_pattern *": (ctypes.POINTER(_calls.Parts),),
    "struct gix_glob_lines *": (ctypes.POINTER(_calls.Lines),),
    "struct gix_glob_decision *": (ctypes.POINTER(_calls.Place),),
    "void ": (None,),
    "bool ": (ctypes.c_bool,),
    "size_t ": (ctypes.c_size_t,),
    "uint64_t ": (ctypes.c_uint64,),
    "uint32_t ": (ctypes.c_uint32,),
    "uint8_t ": (ctypes.c_uint8,),
    "enum gix_glob_line ": (ctypes.c_uint32,),
}


def run(program, **variables):
    """What a program of Python says, with other variables than these; None leaves one out."""
    environment = {**os.environ, "PYTHONPATH": PACKAGE, **variables}
    environment = {name: value for name, value in environment.items() if value is not None}
    return subprocess.run(
        [sys.executable, "-c", program],
        cwd="/",  # (where -c looks for modules, too)
        env=environment,
        stdout=subprocess.PIPE,
        stderr=subprocess.PIPE,
        text=True,
    )


#: structures of a pointer and a count, or of a number, which are passed as what they have
PASSED = {
    "struct gix_glob_text ": ("const uint8_t *", "size_t "),
    "struct gix_glob_patterns ": ("const struct gix_glob_pattern *", "size_t "),
    "struct gix_glob_rows ": ("void *", "size_t "),
    "struct gix_glob_lists ": ("const struct gix_glob_list *", "size_t "),
    "struct gix_glob_match_mode ": ("uint8_t ",),
    "struct gix_glob_pattern_mode ": ("uint32_t ",),
    "void": (),
}


def parameters(text):
    """The types of a list of C parameters."""
    types = [re.sub(r"(?<=[ *])\w+$", "", one.strip()) for one in re.sub(r"\s+", " ", text).split(",")]
    return [it for one in types for it in PASSED.get(one, (one,))]


def fields_of(body):
    """The types and names of the fields of a C structure, of which those of a text have the names of ctypes' structures."""
    for kind, all_fields in re.findall(r"(\S.*?[ *])(\w+(?:, \w+)*);", body):
        for field in all_fields.split(", "):
            if kind == "struct gix_glob_text ":
                yield "const uint8_t *", field
                yield "size_t ", f"{field}_len"
            else:
                for it in PASSED.get(kind, (kind,)):
                    yield it, field


class Declarations(unittest.TestCase):
    @unittest.skipUnless(os.path.exists(HEADER), "there is no header here")
    def test_calls_are_those_of_the_header(self):
        with open(HEADER, encoding="utf-8") as file:
            code = re.sub(r"/\*.*?\*/", "", file.read(), flags=re.S)
        calls = {name: (words, answer) for answer, name, words in re.findall(r"^GIX_GLOB_[A-Z]+ ((?:enum )?\w+ )(\w+)\(([^)]*)\);", code, re.M)}
        self.assertEqual({*_calls.CALLS, *_calls.OTHERS}, set(calls))
        self.assertEqual({name for name, _ in _answers.QUESTIONS}, set(_calls.CALLS))
        version = [re.search(rf"GIX_GLOB_VERSION_{part} (\d+)", code)[1] for part in ("MAJOR", "MINOR", "PATCH")]
        self.assertEqual(_calls.VERSION, ".".join(version))
        for name, (types, answer) in _calls.CALLS.items():
            with self.subTest(call=name):
                wanted = parameters(calls[name][0])
                self.assertEqual(len(wanted), len(types))
                for one, it in zip(wanted, types):
                    self.assertIn(it, TYPES[one])
                self.assertIn(answer, TYPES[calls[name][1]])
        structs = {
            "gix_glob_pattern": _calls.Parts,
            "gix_glob_list": _calls.ListParts,
            "gix_glob_decision": _calls.Place,
            "gix_glob_lines": _calls.Lines,
        }
        for name, struct in structs.items():
            body = re.search(r"struct %s \{(.*?)\}" % name, code, re.S)[1]
            fields = list(fields_of(body))
            with self.subTest(struct=name):
                self.assertEqual([field for _, field in fields], [field for field, _ in struct._fields_])
                for (one, _), (_, it) in zip(fields, struct._fields_):
                    self.assertIn(it, TYPES[one])
        for name, number in (("NEGATIVE", _calls.NEGATIVE), ("AS_CRATE", _calls.AS_CRATE), ("AS_GIT", _calls.AS_GIT)):
            self.assertEqual(int(re.search(rf"GIX_GLOB_{name} (\d+)u", code)[1]), number)
        self.assertEqual(_calls.NONE, 2**64 - 1)

    def test_the_package_exports_what_it_says(self):
        said = run(
            "from gix_glob import *; import gix_glob; print(len([globals()[name] for name in gix_glob.__all__]))"
        )
        self.assertEqual(said.stdout, "10\n", said.stderr)


class Finding(unittest.TestCase):
    def assert_told(self, said, *words):
        self.assertEqual(said.returncode, 1)
        last = said.stderr.strip().rpartition("\n")[2]
        for word in ("OSError: ", "examples/c/install PREFIX", "GIX_GLOB_LIBRARY=", *words):
            self.assertIn(word, last)

    def test_the_variable_names_the_file(self):
        with tempfile.TemporaryDirectory() as folder:
            missing, text, other = (os.path.join(folder, name) for name in ("missing.so", "text.so", "other.so"))
            with open(text, "w", encoding="ascii") as file:
                file.write("no library")
            self.assert_told(run("import gix_glob", GIX_GLOB_LIBRARY=missing), missing)
            self.assert_told(run("import gix_glob", GIX_GLOB_LIBRARY=text), text)
            self.assert_told(run("import gix_glob", GIX_GLOB_LIBRARY=folder), folder)
            # a library without the calls
            os.symlink(sys.modules["_ctypes"].__file__, other)
            self.assert_told(run("import gix_glob", GIX_GLOB_LIBRARY=other), "gix_glob_last_matches")

    def test_the_file_beside_the_package_and_the_systems(self):
        program = "import gix_glob; print(gix_glob.wildmatch('*', 'a'))"
        with tempfile.TemporaryDirectory() as folder:
            package, libraries = os.path.join(folder, "gix_glob"), os.path.join(folder, "lib")
            os.mkdir(package)
            os.mkdir(libraries)
            for name in os.listdir(os.path.join(PACKAGE, "gix_glob")):
                if name.endswith(".py"):
                    os.symlink(os.path.join(PACKAGE, "gix_glob", name), os.path.join(package, name))
            loaded = os.path.abspath(_library._c._name)
            self.assertTrue(os.path.exists(loaded), "run the tests with GIX_GLOB_LIBRARY")
            system = {"GIX_GLOB_LIBRARY": "", "PYTHONPATH": folder}
            self.assert_told(run(program, **system), _loading.NAME)
            os.symlink(loaded, os.path.join(libraries, _loading.NAME))
            said = run(program, LD_LIBRARY_PATH=libraries, **system)
            self.assertEqual(said.stdout, "True\n", said.stderr)
            os.symlink(loaded, os.path.join(package, _loading.NAME))
            said = run(program, **system)
            self.assertEqual(said.stdout, "True\n", said.stderr)


class Memory(unittest.TestCase):
    """Run by PYTHONMALLOC=debug, which overwrites memory that is given back."""

    def test_a_pattern_keeps_its_line(self):
        pattern = Pattern(bytes(bytearray(b"ab*" * 1000)))
        other = [bytes(3000) for _ in range(1000)]
        self.assertEqual(pattern.text, b"ab*" * 1000)
        self.assertTrue(pattern.matches("ab" * 1000))
        del other

    def test_a_pattern_outlives_its_file(self):
        file = IgnoreFile.from_text(b"\n".join(b"name%d*" % number for number in range(1000)), name="x")
        gone = weakref.ref(file)
        patterns = [pattern for _, pattern in file]
        matched = IgnoreList([file]).match_files(["name7/x", "name8", "other"])
        del file
        self.assertEqual(list(matched), ["name7/x", "name8"])
        del matched
        gc.collect()
        self.assertIsNone(gone())
        other = [bytes(10000) for _ in range(1000)]
        for number, pattern in enumerate(patterns):
            self.assertEqual(pattern.text, b"name%d*" % number)
            self.assertTrue(pattern.matches_path("name%dx" % number))
        del other

    def test_a_file_is_gone_with_its_last_name(self):
        # (no cycle keeps it until a collection)
        gc.disable()
        try:
            file = IgnoreFile.from_text("a")
            gone = weakref.ref(file)
            file.decide("a"), file.match_file("a"), list(file.match_files(["a", "a/b"]))
            del file
            self.assertIsNone(gone())
        finally:
            gc.enable()

    def test_a_pattern_may_be_made_anew(self):
        pattern = Pattern("a")
        pattern.__init__("b*")
        self.assertEqual((pattern.text, pattern.matches("bc")), (b"b*", True))

    def test_threads_share_objects(self):
        rules = IgnoreList([IgnoreFile.from_text("*.o\n!keep.o\nbuild/"), IgnoreFile.from_text("!x.o", "web")])
        paths = ["a.o", "keep.o", "build/x", "web/x.o", "web/y.o", "c"] * 200
        wanted, found = ["a.o", "build/x", "web/y.o"] * 200, []
        threads = [threading.Thread(target=lambda: found.append(list(rules.match_files(paths)))) for _ in range(8)]
        for thread in threads:
            thread.start()
        for thread in threads:
            thread.join()
        # (what differs is long, and `assertEqual` would compare it line by line)
        self.assertEqual(len(found), 8)
        self.assertTrue(all(one == wanted for one in found))

    def test_other_threads_run_meanwhile(self):
        # what takes long to match doesn't hold the interpreter
        done = threading.Event()
        pattern, value = Pattern("*" + "a" * 3000 + "b*"), b"a" * 100000
        thread = threading.Thread(target=lambda: (pattern.matches(value), done.set()))
        thread.start()
        turns = 0
        while not done.wait(0.005):
            turns += 1
        thread.join()
        self.assertGreater(turns, 5)


class Misuse(unittest.TestCase):
    def test_types(self):
        rules = IgnoreFile.from_text("a")
        calls = [
            lambda it: Pattern(it),
            lambda it: wildmatch(it, "a"),
            lambda it: wildmatch("a", it),
            lambda it: Pattern("a").matches(it),
            lambda it: Pattern("a").matches_path(it),
            lambda it: IgnoreFile.from_text(it),
            lambda it: IgnoreFile.from_text("a", it),
            lambda it: IgnoreFile.from_lines(it),
            lambda it: IgnoreFile.from_lines([it]),
            lambda it: IgnoreFile.from_file(it),
            lambda it: IgnoreList(it),
            lambda it: IgnoreList([it]),
            lambda it: rules.decide(it),
            lambda it: rules.decide_in_tree(it),
            lambda it: rules.match_file(it),
            lambda it: rules.check_file(it),
            lambda it: list(rules.match_files(it)),
            lambda it: list(rules.match_files([it])),
            lambda it: list(rules.check_files(it)),
            lambda it: list(rules.check_files([it])),
            lambda it: rules.match_tree_files(it),
            lambda it: rules.match_files([], [it]),
        ]
        for at, call in enumerate(calls):
            for it in (None, 0, 1.5, object(), [1], bytearray(b"a")):
                with self.subTest(at=at, it=it), self.assertRaises(TypeError):
                    call(it)
        for paths in ("a", b"a", os.fspath("a")):
            with self.assertRaises(TypeError):
                rules.match_files(paths)
            with self.assertRaises(TypeError):
                rules.check_files(paths)
            with self.assertRaises(TypeError):
                IgnoreFile.from_lines(paths)
        with self.assertRaises(TypeError):
            wildmatch("a", "a", "1")

    def test_paths_that_are_none(self):
        rules = IgnoreFile.from_text("*\na")
        for path in ("", "/", "./", "/a", "//", "a//b", "a//", b"/a", ".//a"):
            for call in (rules.decide, rules.decide_in_tree, rules.match_file, Pattern("*").matches_path):
                with self.subTest(path=path), self.assertRaisesRegex(ValueError, "is no path"):
                    call(path)

    def test_texts_that_lie(self):
        class Bytes(bytes):
            def __len__(self):
                return 1 << 40

            def __bytes__(self):
                return b"other"

            def __getitem__(self, at):
                return self

        class Str(str):
            def encode(self, *_):
                return Bytes(b"ab")

        class Path:
            def __fspath__(self):
                return Bytes(b"ab")

        for text in (Bytes(b"ab"), Str("ab")):
            self.assertEqual(Pattern(text).text, b"ab")
            self.assertTrue(wildmatch(text, text))
            self.assertEqual([it.text for _, it in IgnoreFile.from_text(text)], [b"ab"])
        for path in (Bytes(b"ab"), Str("ab"), Path()):
            self.assertEqual(IgnoreFile.from_text("/ab").decide(path).line, 1)
            self.assertEqual(list(IgnoreFile.from_text("/ab").match_files([path])), [path])
            self.assertEqual(IgnoreFile.from_text("x", path).base, b"ab/")
        others = (lambda it: _library.Rules(it, Reading.CRATE), lambda it: _library.wildmatch(b"", it, 0))
        parses = [lambda it, reading=reading: _library.parse(it, reading) for reading in Reading]
        for call in (*parses, _library.Memory, *others):
            with self.assertRaises(TypeError):
                call(Bytes(b"ab"))
        rules = _library.Rules(b"a", Reading.CRATE)
        for call in (rules.last_match, _library.Lists([rules]).decide, _library.parse(b"a", Reading.CRATE).matches_path):
            with self.assertRaises(TypeError):
                call(Bytes(b"ab"), False, False)

    def test_lists(self):
        rules = [_library.Rules(b"a\n!b/", Reading.CRATE), _library.Rules(b"", Reading.CRATE), _library.Rules(b"!a", Reading.CRATE, b"d/")]
        lists = _library.Lists(rules)
        asked = ((b"x/a", False, (0, 0)), (b"b", True, (0, 1)), (b"b", False, None), (b"d/a", False, (2, 0)), (b"", False, None))
        for path, is_dir, found in asked:
            self.assertEqual(lists.decide(path, is_dir, False), found)
        self.assertIsNone(_library.Lists([]).decide(b"a", False, False))
        # (they keep what they lead to)
        del rules
        self.assertEqual(lists.decide(b"d/a", False, False), (2, 0))

    def test_places_outside_a_file(self):
        rules = _library.Rules(b"a\nb", Reading.CRATE)
        for at in (2, -3, 1 << 70):
            for call in (rules.line, rules.is_negative):
                with self.assertRaises(IndexError):
                    call(at)

    def test_objects_that_were_not_made(self):
        with self.assertRaises(AttributeError):
            Pattern.__new__(Pattern).matches("a")
        with self.assertRaises(AttributeError):
            IgnoreFile.__new__(IgnoreFile).decide("a")

    def test_bytes_of_all_kinds(self):
        for number in range(256):
            byte = bytes([number])
            if byte != b"/":
                self.assertEqual(Pattern(b"x" + byte).matches(b"x" + byte), byte not in b"\\[")
            if byte not in b"/":
                self.assertTrue(Pattern("a?").matches_path(b"d/a" + byte))
        text, crate = b"a\0b\n\0\n\0", Reading.CRATE
        self.assertEqual([it.text for _, it in IgnoreFile.from_text(text, reading=crate)], [b"a\0b", b"\0", b"\0"])
        self.assertEqual(IgnoreFile.from_text(b"a\0b", reading=crate).decide("a\0b").line, 1)
        self.assertIsNone(IgnoreFile.from_text(b"a\0b", reading=crate).decide("a"))

    def test_names_that_are_no_text(self):
        name = os.fsdecode(b"caf\xe9.o")
        rules = IgnoreFile.from_text("caf?.o")
        self.assertEqual(list(rules.match_files([name, "café.o"])), [name])
        self.assertEqual(list(IgnoreFile.from_text(b"caf\xe9.o").match_files([name])), [name])
        self.assertEqual(list(IgnoreFile.from_lines([name]).match_files([name])), [name])

    def test_texts_that_are_no_names(self):
        rules = IgnoreFile.from_text("*")
        calls = [
            Pattern,
            IgnoreFile.from_text,
            IgnoreFile.from_file,
            lambda it: IgnoreFile.from_text("a", it),
            lambda it: IgnoreFile.from_lines([it]),
            lambda it: wildmatch(it, "a"),
            lambda it: wildmatch("a", it),
            Pattern("a").matches,
            Pattern("a").matches_path,
            rules.decide,
            rules.decide_in_tree,
            rules.match_file,
            rules.check_file,
            lambda it: rules.match_files([], [it]),
            lambda it: list(rules.check_files([it])),
        ]
        for it in ("\ud800", "a\udfff", "\udc7f", "\ud83d\ude00"):
            for at, call in enumerate(calls):
                with self.subTest(at=at, it=it), self.assertRaises(UnicodeEncodeError):
                    call(it)
            found = rules.match_files(["a", it, "b"])
            self.assertEqual(next(found), "a")
            with self.assertRaises(UnicodeEncodeError):
                next(found)

    def test_empty_files(self):
        blank = IgnoreFile.from_text(" \n!\n", reading=Reading.CRATE)
        for rules in (blank, *map(IgnoreFile.from_text, ("", "\n", "#", "\ufeff", "\ufeff#"))):
            self.assertEqual((len(rules), rules.decide("a"), list(rules.match_files(["a/b"]))), (0, None, []))
        self.assertEqual(list(IgnoreList([]).match_files(["a", "b/c"])), [])
        self.assertIsNone(IgnoreList([]).decide("a"))
        self.assertEqual(len(IgnoreFile.from_lines([])), 0)

    def test_long_lines_and_paths(self):
        long = b"a" * 100_000_000
        self.assertTrue(Pattern(long).matches(long))
        self.assertFalse(Pattern(long + b"b").matches(long))
        rules = IgnoreFile.from_text(b"x\n" + long)
        self.assertEqual((len(rules), rules.decide(long).line, rules.decide(b"d/" + long[1:])), (2, 2, None))
        self.assertEqual(len(IgnoreFile.from_text(b"\n" * 1_000_000 + b"a")), 1)
        # a path of many folders costs one decision for each
        deep = "d/" * 2000 + "x"
        self.assertEqual(list(IgnoreFile.from_text("x").match_files([deep, deep])), [deep, deep])

"""Whether the rows of `bindings/table.py` are held against the proved table of calls and against the exports: words of these are
changed, one in each call or export at once, and each change has to be reported; so has each limit and each threshold that
differs. And what is written where: for a build, and in the repository. Some seconds, without the kit."""

import importlib.machinery
import importlib.util
import os
import pathlib
import subprocess
import sys
import tempfile
import unittest
from unittest import mock

sys.dont_write_bytecode = True
TOP = pathlib.Path(__file__).resolve().parents[2]
sys.path[:0] = [str(TOP / "bindings"), str(TOP / "bindings/generator")]

import call_table
import cures
import elsewhere
import exports
import foreign
import generated
import in_map
import in_sheet
import limits
import packages
import rows
import table

# in an order in which the two behind a kind differ from it in what they are, or in how many
KINDS = ("Integers", "Booleans", "Integer", "Boolean", "Descriptor")
TYPES = ("&[i32]", "&mut [i32]", "&mut [u8]", "i64", "usize")
MOST_OPERANDS = 8


def replaced(words, k, word):
    """The words with another one at a place."""
    return [*words[:k], word, *words[k + 1 :]]


def other_kind(kind, by):
    return KINDS[(KINDS.index(kind) + by) % len(KINDS)]


def alike(kind):
    """The types that are one in C: bytes and booleans of an array. Which of them a row may have is told where it copies none."""
    return {kind, kind.replace("u8", "bool"), kind.replace("bool", "u8")} if "[" in kind else {kind}


class Held(unittest.TestCase):
    def setUp(self):
        self.exports = exports.read(TOP)
        calls = call_table.read(TOP)
        self.calls = {row.name: calls[row.name] for row in rows.CALLS}
        self.others = {name: said for name, said in calls.items() if name not in self.calls}

    def test_the_rows_are_those_of_the_library(self):
        self.assertEqual(rows.differences({**self.calls, **self.others}, self.exports), [])
        self.assertEqual(list(packages.differences(self.calls)), [])

    def calls_told(self, changed):
        """Each call that was changed is told."""
        calls = {**self.calls, **self.others, **changed}
        found = [*rows.call_differences(calls), *packages.differences(calls)]
        self.assertEqual(set(changed), {line.split()[0] for line in found})

    def test_each_kind_of_each_call(self):
        for k in range(MOST_OPERANDS):
            for by in (1, 2):
                takes = {name: said[0] for name, said in self.calls.items() if k < len(said[0])}
                self.calls_told(
                    {name: (replaced(kinds, k, other_kind(kinds[k], by)), self.calls[name][1]) for name, kinds in takes.items()}
                )
        for by in (1, 2, 3, 4):
            self.calls_told({name: (takes, [other_kind(gives[0], by)]) for name, (takes, gives) in self.calls.items()})

    def test_each_number_of_operands_and_each_name(self):
        self.calls_told({name: (takes[:-1], gives) for name, (takes, gives) in self.calls.items()})
        self.calls_told({name: ([*takes, "Integers"], gives) for name, (takes, gives) in self.calls.items()})
        self.calls_told({"new_wuz": (["Integers"], ["Integers"])})
        self.assertEqual({line.split()[0] for line in rows.call_differences(self.others)}, set(self.calls))

    def exports_told(self, changed):
        """Each export that was changed is told."""
        found = rows.export_differences({**self.exports, **changed})
        self.assertEqual(set(changed), {line.split()[0] for line in found})

    def test_each_parameter_of_each_export(self):
        # those without a row are declared as they are exported, and the compiler compares their calls
        held = {name: said for name, said in self.exports.items() if name not in rows.WITHOUT_A_ROW}
        for k in range(2 * MOST_OPERANDS):
            some = {name: said for name, said in held.items() if k < len(said)}
            self.exports_told({name: said[:k] + said[k + 1 :] for name, said in some.items()})
            named = {name: said for name, said in some.items() if said[k][1] != "Global"}
            self.exports_told({name: replaced(said, k, (f"{said[k][0]}_other", said[k][1])) for name, said in named.items()})
            for kind in TYPES:
                typed = {name: said for name, said in some.items() if kind not in alike(said[k][1])}
                self.exports_told({name: replaced(said, k, (said[k][0], kind)) for name, said in typed.items()})

    def test_each_export(self):
        self.assertEqual({line.split()[0] for line in rows.export_differences({})}, set(self.exports))
        self.exports_told({"new": []})

    def test_each_limit(self):
        found = limits.read(TOP)
        self.assertEqual(list(limits.differences(found)), [])
        for name, definition in limits.DEFINITIONS.items():
            for other in (found[definition] - 1, found[definition] + 1, None):
                told = list(limits.differences({**found, definition: other}))
                self.assertEqual([line.split()[0] for line in told], [name])

    def test_each_threshold(self):
        proved, in_c = limits.read_thresholds(TOP)
        self.assertEqual((len(in_c), list(limits.threshold_differences(proved, in_c))), (6, []))
        for name in in_c:
            for other in (in_c[name] - 1, in_c[name] + 1, None):
                told = list(limits.threshold_differences({**proved, name: other}, in_c))
                self.assertEqual([line.split()[0] for line in told], [f"CVL_{name}"])

    def test_what_a_family_leaves_unsaid(self):
        """A family that does not say how it goes over ranks, an unknown way to cut it, and an operand of an unknown use."""
        a, room = table.ints("a"), table.room("ints")
        for operands, said, words in (
            ((a, room), {}, "say by `over_ranks` how the family goes over ranks"),
            ((a, room), {"cut": ("segments", "n")}, "say by `over_ranks` how the family goes over ranks"),
            ((a, room), {"cut": ("places by places", "n")}, "neither USES nor CUTS has places by places"),
            ((table.ints("a", use="keys"), room), {"cut": ("places", "n")}, "neither USES nor CUTS has keys"),
        ):
            with self.assertRaisesRegex(SystemExit, f"^new in bindings/table.py: {words}"):
                table.family("new", "place by place", operands, "What it does.", **said)
        self.assertEqual(
            table.family("new", "place by place", (a, room), "What it does.", cut=("places", "n")).over_ranks, table.OWN_PLACES
        )


class Versions(unittest.TestCase):
    """Under which version the linker has each name, over versions that follow one another."""

    def after(self, *steps):
        """What stands in the file after versions with their names, and what was told of the last."""
        text, told = "", []
        for version, names in steps:
            told = list(in_map.differences(text, names.split(), version))
            text = in_map.symbol_versions(text, names.split(), version)
        return {node: " ".join(sorted(names)) for node, names in in_map.nodes(text).items()}, told, text

    def test_a_name_stays_under_the_version_that_it_came_with(self):
        first, later = ("1.0.0", "cvl_a cvl_b"), ("1.1.0", "cvl_a cvl_b cvl_c")
        self.assertEqual(self.after(first)[0], {"CVL_1.0": "cvl_a cvl_b"})
        self.assertEqual(self.after(first, later)[0], {"CVL_1.0": "cvl_a cvl_b", "CVL_1.1": "cvl_c"})
        last = "1.2.3", "cvl_a cvl_b cvl_c cvl_d"
        found, told, text = self.after(first, later, ("1.1.1", later[1]), last, last)
        self.assertEqual((found, told), ({"CVL_1.0": "cvl_a cvl_b", "CVL_1.1": "cvl_c", "CVL_1.2": "cvl_d"}, []))
        self.assertEqual(text.count("local: *;"), 1)
        self.assertTrue(text.endswith("} CVL_1.1;\n"))

    def test_a_version_without_new_names_has_no_node(self):
        found, _, text = self.after(("1.0.0", "cvl_a"), ("1.1.0", "cvl_a"))
        self.assertEqual((found, text), (self.after(("1.0.0", "cvl_a"))[0], self.after(("1.0.0", "cvl_a"))[2]))

    def test_names_of_the_version_at_hand_may_change(self):
        found, told, _ = self.after(("1.0.0", "cvl_a"), ("1.1.0", "cvl_a cvl_b"), ("1.1.0", "cvl_a cvl_c"))
        self.assertEqual((found, told), ({"CVL_1.0": "cvl_a", "CVL_1.1": "cvl_c"}, []))
        found, _, _ = self.after(("1.0.0", "cvl_a"), ("1.1.0", "cvl_a cvl_b"), ("1.1.0", "cvl_a cvl_b cvl_c"))
        self.assertEqual(found, {"CVL_1.0": "cvl_a", "CVL_1.1": "cvl_b cvl_c"})

    def test_a_name_of_an_earlier_version_that_is_gone_is_told(self):
        _, told, _ = self.after(("1.0.0", "cvl_a cvl_b"), ("1.1.0", "cvl_a"))
        self.assertEqual([line.split()[0] for line in told], ["cvl_b"])

    def test_another_first_number_begins_anew(self):
        found, told, _ = self.after(("1.0.0", "cvl_a cvl_b"), ("1.1.0", "cvl_a cvl_b cvl_c"), ("2.0.0", "cvl_a cvl_d"))
        self.assertEqual((found, told), ({"CVL_2.0": "cvl_a cvl_d"}, []))


def program(path):
    """A program of the repository as a module."""
    loader = importlib.machinery.SourceFileLoader(pathlib.Path(path).name, str(TOP / path))
    module = importlib.util.module_from_spec(importlib.util.spec_from_loader(loader.name, loader))
    loader.exec_module(module)
    return module


generate = program("bindings/generate")


class Folder(unittest.TestCase):
    def setUp(self):
        folder = tempfile.TemporaryDirectory(prefix="a blank ")
        self.addCleanup(folder.cleanup)
        self.top = pathlib.Path(folder.name)

    def found(self, folder):
        return {str(path.relative_to(folder)) for path in folder.rglob("*") if path.is_file()}


class Places(Folder):
    """Where a small generator puts its files, over a repository of its own."""

    TEXTS = {"include/one.h": "one\n", "bindings/c/cvl.map": "names\n", "include.md": "a page\n", "docs/two.3": "two\n"}
    FOR_BUILD = {"include.md", "docs/two.3"}

    def run_it(self, *words, differences=()):
        """What it tells, and nothing where all is well."""
        found = mock.patch.object(generate, "texts", lambda: (dict(self.TEXTS), list(differences)))
        with found, mock.patch.object(generate, "TOP", self.top / "repository"):
            try:
                generate.main([str(word) for word in words])
            except SystemExit as stopped:
                return stopped.code
        return None

    def test_a_build_gets_what_the_repository_has_not(self):
        self.assertIsNone(self.run_it())
        self.assertEqual(self.found(self.top), {f"repository/{name}" for name in set(self.TEXTS) - self.FOR_BUILD})
        self.assertIsNone(self.run_it("--check"))
        self.assertIsNone(self.run_it(self.top / "build"))
        self.assertEqual(self.found(self.top / "build"), self.FOR_BUILD)
        for name in self.FOR_BUILD:
            self.assertEqual((self.top / "build" / name).read_text(), self.TEXTS[name])

    def test_a_file_for_a_build_in_the_repository_is_told_and_nothing_is_written(self):
        for name in self.FOR_BUILD:
            path = self.top / "repository" / name
            generate.write(path, self.TEXTS[name])
            for words in ((), ("--check",), (self.top / "build",)):
                self.assertIn(f"{name} is in the repository, but", self.run_it(*words))
            self.assertEqual(self.found(self.top), {f"repository/{name}"})
            path.unlink()

    def test_rows_that_differ_are_told_and_nothing_is_written(self):
        for words in ((), ("--check",), (self.top / "build",)):
            self.assertIn("a row differs", self.run_it(*words, differences=["a row differs"]))
        self.assertEqual(self.found(self.top), set())

    def test_another_text_in_the_repository_is_told(self):
        self.run_it()
        for name in set(self.TEXTS) - self.FOR_BUILD:
            generate.write(self.top / "repository" / name, "another\n")
            self.assertIn(name, self.run_it("--check"))
            self.run_it()

    def test_names_of_other_libraries_lead_to_calls_and_tasks(self):
        self.assertEqual(list(elsewhere.differences()), [])
        wrong = {"numpy": ("", (foreign.Names("cumsum", "sum_suz"), foreign.Names("sort", "sort", "Sort it")))}
        with mock.patch.object(foreign, "LIBRARIES", wrong):
            told = list(elsewhere.differences())
        self.assertEqual(len(told), 2)
        self.assertIn("sum_suz", told[0])
        self.assertIn("Sort it", told[1])

    def test_the_cheat_sheet_has_a_cure_for_each_fault_and_fits_a_page(self):
        self.assertEqual(list(in_sheet.differences()), [])
        for change, wanted in (
            ({17: None}, "[17]"),
            ({40: "wait"}, "[40]"),
            ({12: "`min_wux` of it"}, "min_wux"),
            ({1: "again and " * 400}, "longer"),
        ):
            with mock.patch.object(in_sheet.cures, "CURES", {n: said for n, said in {**cures.CURES, **change}.items() if said}):
                [told] = in_sheet.differences()
            self.assertIn(wanted, told)

    def test_what_has_its_text_is_left_alone(self):
        for words, folder in ((), "repository"), ((self.top / "build",), "build"):
            self.run_it(*words)
            paths = [self.top / folder / name for name in self.found(self.top / folder)]
            for path in paths:
                os.utime(path, (1000, 1000))
            paths[0].write_text("another\n")
            self.run_it(*words)
            self.assertEqual([path.stat().st_mtime == 1000 for path in paths], [False] + [True] * (len(paths) - 1))

    def test_the_repository_is_no_folder_for_a_build(self):
        (self.top / "link").symlink_to(self.top / "repository")
        for folder in ("repository", "link", "repository/new/.."):
            self.assertIn("FOLDER is the repository", self.run_it(self.top / folder))
        self.assertEqual(self.found(self.top), set())

    def test_words(self):
        for words in (("--other",), ("-h",), ("a", "b"), ("--check", "a")):
            self.assertEqual(self.run_it(*words), generate.__doc__)


class Packages(Folder):
    """What builds find: what is written by hand and for a build, of this repository."""

    @classmethod
    def setUpClass(cls):
        folder = tempfile.TemporaryDirectory()
        cls.addClassCleanup(folder.cleanup)
        cls.written = generated.below(folder.name)

    def test_each_file_has_one_place(self):
        self.assertEqual(self.found(self.written), {path for path in generate.texts()[0] if not (TOP / path).exists()})

    def test_both_are_found(self):
        found = generated.files_of(self.written, "bindings/rust", "src/*.rs", "cvl-sys/src/*.rs")
        self.assertEqual(
            (found["src/lib.rs"], found["src/calls.rs"]),
            (TOP / "bindings/rust/src/lib.rs", self.written / "bindings/rust/src/calls.rs"),
        )
        self.assertEqual(list(found), sorted(found))
        self.assertIn("cvl-sys/src/functions.rs", found)

    def test_a_generator_that_fails_ends_the_build_with_its_words(self):
        (self.top / "file").touch()
        with self.assertRaisesRegex(SystemExit, "NotADirectoryError"):
            generated.below(self.top / "file")

    def test_the_crates_for_rust(self):
        for words in ((), ("--links",), ()):
            subprocess.run([TOP / "bindings/rust/package", *words, self.top / "crates"], check=True)
            paths = {
                str(path.relative_to(self.top / "crates")): path for path in (self.top / "crates").rglob("*") if path.is_file()
            }
            for name in (
                "Cargo.toml",
                "LICENSE",
                "src/lib.rs",
                "src/calls.rs",
                "tests/calls.rs",
                "cvl-sys/LICENSE",
                "cvl-sys/src/functions.rs",
            ):
                by_hand = (TOP / "bindings/rust" / name).exists()
                self.assertEqual(paths[name].is_symlink(), by_hand and bool(words), name)
                source = TOP if by_hand else self.written
                self.assertEqual(paths[name].read_bytes(), (source / "bindings/rust" / name).read_bytes(), name)

    def test_no_crates_without_a_folder_of_their_own(self):
        for words in ((), ("--links",), ("a", "b"), (TOP / "bindings/rust",), ("--links", TOP / "bindings/rust/src/..")):
            told = subprocess.run([TOP / "bindings/rust/package", *words], capture_output=True, text=True, cwd=self.top)
            self.assertEqual((told.returncode, told.stdout), (1, ""))
            self.assertIn("FOLDER", told.stderr)
        self.assertEqual(self.found(self.top), set())

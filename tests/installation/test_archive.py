"""When the archive is built again, where things are built, and which words compile and link it: on trees of files that are
made for it, without the kit, in a second."""

import os
import pathlib
import subprocess
import sys
import unittest
from unittest import mock

sys.dont_write_bytecode = True
TOP = pathlib.Path(__file__).resolve().parents[2]
sys.path.insert(0, str(TOP / "bindings"))

import archive
import generated
import mixed_builds
import proved
from installer import building
from trees import Tree


class Left(Tree):
    """Whether what was built is taken as it is."""

    def setUp(self):
        super().setUp()
        self.texts = [f"crates/sums/{name}" for name in ("src/lib.rt", "src/deep/er.rt", "specs/Sum.antt", "proofs/Sum.antt")]
        for name in self.texts:
            self.write(name, time=1000)
        self.write("crates/sums/out/rlib/sums.rlib", time=2000)
        for folder in self.top.glob("crates/sums/**"):
            os.utime(folder, (1000, 1000))
        self.crates = proved.Crates(self.top)

    def is_left(self):
        found = self.crates.is_left("sums", "rlib/sums.rlib")
        self.assertEqual(self.crates.gate_left({"sums"}), found)
        return found

    def test_what_is_newer_than_all_texts_is_taken(self):
        self.assertTrue(self.is_left())

    def test_an_edit_of_any_text_builds_anew(self):
        for name in self.texts:
            self.write(name, time=3000)
            self.assertFalse(self.is_left(), name)
            self.write(name, time=1000)

    def test_a_text_that_is_gone_builds_anew(self):
        for name in self.texts:
            (self.top / name).unlink()
            self.assertFalse(self.is_left(), name)
            self.write(name, time=1000)
            os.utime((self.top / name).parent, (1000, 1000))

    def test_what_was_not_built_is_not_taken(self):
        (self.top / "crates/sums/out/rlib/sums.rlib").unlink()
        self.assertFalse(self.crates.is_left("sums", "rlib/sums.rlib"))

    def test_what_the_command_lib_left_is_for_it_to_take(self):
        self.write("crates/sums/out/rlib/stamp")
        self.assertFalse(self.crates.gate_left({"sums"}))


class Stale(Tree):
    """Whether an archive that was built before is built again, over the libraries that `rt ci` left."""

    def setUp(self):
        super().setUp()
        self.write("crates.txt", "sums:\nscans: sums std\ncvl_c staticlib: scans\n")
        self.libraries = [self.write(f"crates/{name}/out/rlib/{name}.rlib") for name in ("sums", "scans")]
        self.text = self.write("crates/cvl_c/src/lib.rt")
        self.crates = proved.Crates(self.top)
        self.made = self.write("crates/cvl_c/out/libcvl_c.a")
        # a kit whose compiler writes what it is asked for
        self.program("kit/bin/rattle", 'echo "$@" > "$0.words"; while [ "$1" != -o ]; do shift; done; echo built > "$2"')
        for path in (*self.libraries, self.made, self.text, self.text.parent):
            os.utime(path, (1000, 1000))

    def is_built(self):
        """Whether it is built; then it is made older again."""
        with mock.patch.object(proved, "kit", lambda: self.top / "kit"):
            self.crates.build_over_gate(self.made)
        built = self.made.exists() and self.made.read_text() == "built\n"
        self.write("crates/cvl_c/out/libcvl_c.a", time=1000)
        return built

    def test_one_that_is_not_older_than_anything_is_taken(self):
        self.assertFalse(self.is_built())

    def test_one_over_which_a_library_is_newer(self):
        for library in self.libraries:
            os.utime(library, (1001, 1001))
            self.assertTrue(self.is_built(), library)
            os.utime(library, (1000, 1000))
        self.assertFalse(self.is_built())

    def test_one_over_which_the_text_of_the_exports_is_newer(self):
        os.utime(self.text, (1001, 1001))
        self.assertTrue(self.is_built())

    def test_none(self):
        self.made.unlink()
        self.assertTrue(self.is_built())
        said = self.top.joinpath("kit/bin/rattle.words").read_text()
        for library in self.libraries:
            self.assertIn(f"-L dependency={library.parent}", said)
        # what the exports use themselves, and no more
        self.assertIn(f"--extern scans={self.libraries[1]}", said)
        self.assertNotIn(f"--extern sums={self.libraries[0]}", said)


class Copied(Tree):
    """A checkout that is copied, to be built elsewhere."""

    def setUp(self):
        super().setUp()
        self.write("top/crates/sums/src/lib.rt", "text")
        self.write("top/crates/sums/out/rlib/sums.rlib", "made")
        self.write("top/cvl", "program").chmod(0o555)
        self.copy = self.top / "copy"

    def again(self):
        building.copied(self.top / "top", self.copy)
        return sorted(str(path.relative_to(self.copy)) for path in self.copy.rglob("*") if path.is_file())

    def test_all_but_what_was_built_is_copied(self):
        self.assertEqual(self.again(), ["crates/sums/src/lib.rt", "cvl"])
        self.assertTrue(os.stat(self.copy / "cvl").st_mode & 0o300 == 0o300)

    def test_what_is_the_same_is_left_alone_with_what_was_built_of_it(self):
        self.again()
        self.write("copy/crates/sums/out/rlib/sums.rlib", "built")
        os.utime(self.copy / "crates/sums/src/lib.rt", (1000, 1000))
        self.assertIn("crates/sums/out/rlib/sums.rlib", self.again())
        self.assertEqual((self.copy / "crates/sums/src/lib.rt").stat().st_mtime, 1000)

    def test_what_was_changed_or_is_gone_follows(self):
        self.write("top/crates/sums/src/more.rt", "more")
        self.again()
        self.write("top/crates/sums/src/lib.rt", "another text")
        (self.top / "top/crates/sums/src/more.rt").unlink()
        self.assertEqual(self.again(), ["crates/sums/src/lib.rt", "cvl"])
        self.assertEqual((self.copy / "crates/sums/src/lib.rt").read_text(), "another text")


class Built(Tree):
    """Where things are built."""

    def build(self, own, left):
        """The folders of the checkouts that are proved, and where the archive is built over what was left."""
        proved_in, over = [], []
        with mock.patch.object(proved.Crates, "build_all", lambda self, *given: proved_in.append(self.top)), \
                mock.patch.object(proved.Crates, "build_over_gate", lambda self, made, cpu: over.append((made, cpu))), \
                mock.patch.object(building.Build, "is_left", left), mock.patch("builtins.print"), mock.patch.dict(os.environ), \
                mock.patch.object(building, "copied", lambda top, copy: copy):  # fmt: skip
            os.environ.update(CVL_ARCHIVE="", CVL_PROGRAM="")
            build = building.Build("", 1, str(own) if own else "")
            build.both(self.top)
            return build, proved_in, over

    def test_in_the_checkout(self):
        build, proved_in, _ = self.build(None, False)
        self.assertEqual((proved_in, build.writes), ([TOP], TOP / "crates"))
        _, _, over = self.build(None, True)
        self.assertEqual(over, [(TOP / "crates/cvl_c/out/libcvl_c.a", "")])

    def test_in_a_folder_of_ones_own_the_checkout_is_not_written(self):
        build, proved_in, _ = self.build(self.top, False)
        self.assertEqual((proved_in, build.writes), ([self.top / "source"], self.top))
        _, _, over = self.build(self.top, True)
        self.assertEqual(over, [(self.top / "libcvl_c.a", "")])

    def test_what_is_given_is_taken(self):
        given = {"CVL_PROGRAM": "/some/cvl", "CVL_ARCHIVE": "/some/libcvl_c.a"}
        with mock.patch.dict(os.environ, given):
            build = building.Build("", 1, "")
            self.assertEqual((build.both(self.top), build.writes), (("/some/cvl", "/some/libcvl_c.a"), None))


class ForACpu(Tree):
    """What is built for other processors than the usual ones."""

    def setUp(self):
        super().setUp()
        self.log = self.top / "log"
        folder = self.top / "programs"
        folder.mkdir()
        patched = mock.patch.dict(os.environ, {"PATH": f"{folder}:{os.environ['PATH']}", "CVL_ARCHIVE": "", "CVL_PROGRAM": ""})
        patched.start()
        self.addCleanup(patched.stop)

    def logged(self):
        """The words of each program that was run, with the folder that it was run in."""
        return [line.split("|") for line in self.log.read_text().splitlines()]

    def test_the_libraries_that_the_gate_left_are_taken_and_its_program_is_not(self):
        built = []
        with mock.patch.object(proved.Crates, "gate_left", lambda *given: True), \
                mock.patch.object(proved.Crates, "is_left", lambda *given: True), mock.patch("builtins.print"), \
                mock.patch.object(proved.Crates, "build_over_gate", lambda self, made, cpu: built.append((made, cpu))), \
                mock.patch.object(proved.Crates, "build_program_over_gate", lambda self, made, cpu="": built.append((made, cpu))):  # fmt: skip
            for own in (TOP / "crates/cvl_c/out/x86-64-v3", self.top):
                built.clear()
                given = str(own) if own == self.top else ""
                found = building.Build("x86-64-v3", 1, given).both(self.top)
                self.assertEqual(found, (own / "cvl", own / "libcvl_c.a"))
                self.assertEqual(sorted(built), [(own / "cvl", "x86-64-v3"), (own / "libcvl_c.a", "x86-64-v3")])
            built.clear()
            # a release links the object again, which is built where `rt ci` writes nothing
            released = TOP / "crates/cvl_c/out/released/cvl"
            self.assertEqual(building.Build("", 1, "").compiled_program("a program"), released.with_name("cvl.o"))
            self.assertEqual(built, [(released, "")])
            built.clear()
            self.assertEqual(building.Build("", 1, "").both(self.top)[0], TOP / "crates/cvl/out/cvl")
            self.assertEqual(built, [(TOP / "crates/cvl_c/out/libcvl_c.a", "")])

    def test_the_program_and_the_archive_are_built_for_it_and_nothing_else(self):
        self.program("programs/rt", f"""echo "$(basename "$PWD")|$*" >> '{self.log}'""")
        self.write("crates.txt", "sums:\ncvl: sums\ncvl_c staticlib: sums\n")
        for name in ("sums", "cvl", "cvl_c"):
            (self.top / "crates" / name).mkdir(parents=True)
        for cpu, more in {"": "", "x86-64-v3": " --cpu=x86-64-v3"}.items():
            self.write("log")
            with mock.patch("builtins.print"):
                proved.Crates(self.top).build_all(cpu, 2, self.top)
            wanted = [["cvl", f"run{more} -- --help"], ["cvl_c", f"lib{more}"], ["sums", "lib"]]
            self.assertEqual(sorted(self.logged()), wanted)
            self.assertEqual(self.logged()[0][0], "sums")

    def test_the_c_is_compiled_for_it(self):
        # programs that write which words they were given, and make the file that is asked for
        (self.top / "c").mkdir()
        makes = {"nm": "", "objcopy": ': > "$word"', "ar": ': > "$2"', **dict.fromkeys(("cc", "ld"), ': > "$made"')}
        for name, make in makes.items():
            self.program(
                f"programs/{name}",
                f"""echo "{name}|$*" >> '{self.log}'
                for word in "$@"; do [ "$before" != -o ] || made=$word; before=$word; done
                {make}""",
            )
        sources = [*generated.files_of(generated.below(self.top / "written"), "bindings/c", "*.c")]
        given = {name: "" for name in ("CC", "CPPFLAGS", "CFLAGS", "LDFLAGS", "LD", "OBJCOPY", "NM", "AR")}
        given.update(CVL_ARCHIVE=str(self.write("libcvl_c.a")), CVL_PROGRAM=str(self.write("program")))
        for cpu in ("", "x86-64-v3"):
            self.write("log")
            (self.top / "work").mkdir(exist_ok=True)
            with mock.patch.dict(os.environ, given), mock.patch.object(proved, "kit", lambda: self.top):
                building.Build(cpu, 1, "").run(self.top / "work")
            compiled = [words.split() for name, words in self.logged() if name == "cc" and "-c" in words.split()]
            self.assertEqual(sorted(os.path.basename(words[words.index("-c") + 1]) for words in compiled), sources)
            for words in compiled:
                self.assertEqual([word for word in words if word.startswith("-march")], [f"-march={cpu}"] if cpu else [])


class Mixed(Tree):
    """A library for newer processors, which has those exports from the usual build that are slower by its own."""

    def built(self, name, answer, exports=("added", "seg_added")):
        """An archive of exports that answer a number, by a function that each archive has under the same name."""
        calls = "".join(f"int cvl_proved_{export}(void) {{ return answer(); }}\n" for export in exports)
        source = self.write(f"{name}.c", f"int answer(void) {{ return {answer}; }}\n{calls}")
        archive.run("cc", "-c", "-o", source.with_suffix(".o"), source)
        archive.run("ar", "rcs", source.with_suffix(".a"), source.with_suffix(".o"))
        return source.with_suffix(".a")

    def mixed(self, own, usual):
        (self.top / "work").mkdir()
        with mock.patch.object(archive, "kit_parts", lambda: []):
            return mixed_builds.mixed(self.top / "work", own, usual)

    def test_each_export_is_of_one_build(self):
        found = self.mixed(self.built("own", 3), self.built("usual", 2))
        main = self.write(
            "main.c",
            "int cvl_proved_added(void), cvl_proved_seg_added(void);\n"
            "int main(void) { return 10 * cvl_proved_added() + cvl_proved_seg_added(); }\n",
        )
        archive.run("cc", "-o", self.top / "main", main, *found)
        self.assertEqual(subprocess.run([self.top / "main"]).returncode, 32)
        self.assertEqual([archive.symbols(path) for path in found], [{"cvl_proved_seg_added"}, {"cvl_proved_added"}])

    def test_builds_of_other_revisions_are_refused(self):
        with self.assertRaisesRegex(SystemExit, "do not have the same exports"):
            self.mixed(self.built("own", 3), self.built("usual", 2, ["added"]))


class Words(unittest.TestCase):
    """What the caller's variables say to the compiler and the linker."""

    def words(self, function, **variables):
        unset = {name: "" for name in ("CC", "CPPFLAGS", "CFLAGS", "LDFLAGS")}
        with mock.patch.dict(os.environ, {**unset, **variables}):
            return function()

    def test_a_compiler_with_options(self):
        self.assertEqual(self.words(archive.compiling, CC="gcc -m64 '-DA=b c'")[:3], ["gcc", "-m64", "-DA=b c"])
        self.assertEqual(self.words(archive.linking, CC="gcc -m64")[:2], ["gcc", "-m64"])

    def test_options_of_the_caller_stand_in_the_place_of_the_usual(self):
        self.assertIn("-O2", self.words(archive.compiling))
        found = self.words(archive.compiling, CFLAGS="-O1 -g", CPPFLAGS="-DA")
        self.assertEqual(found[:4], ["cc", "-DA", "-O1", "-g"])
        self.assertNotIn("-O2", found)
        self.assertIn("-Wl,-x", self.words(archive.linking, LDFLAGS="-Wl,-x"))

    def test_what_the_library_needs_comes_after_the_options_of_the_caller(self):
        found = self.words(archive.compiling, CFLAGS="-flto -fno-PIC -std=c89")
        self.assertGreater(found.index("-fno-lto"), found.index("-flto"))
        self.assertGreater(found.index("-fPIC"), found.index("-fno-PIC"))
        self.assertGreater(found.index("-std=c11"), found.index("-std=c89"))

    def test_a_quote_that_is_left_open_is_told(self):
        with self.assertRaisesRegex(SystemExit, "CC cannot be read as words"):
            self.words(archive.compiling, CC="gcc '-m64")

    def test_a_program_that_is_not_there_is_told(self):
        with self.assertRaisesRegex(SystemExit, "no-such-program cannot be run"):
            archive.run("no-such-program")

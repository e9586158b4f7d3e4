"""Which checkouts may be released, that archives are the same bytes each time, which package of Debian has which file, what the
check of a release finds, and that the pages name the files of a release: on files that are made for it, without the kit, in a second."""

import json
import os
import pathlib
import re
import shutil
import subprocess
import sys
import tarfile
import tempfile
import time
import types
import unittest
from unittest import mock

sys.dont_write_bytecode = True
TOP = pathlib.Path(__file__).resolve().parents[2]
sys.path.insert(0, str(TOP / "bindings"))

import archive
import generated
from installer import files
from installer import over_ranks as installed_over_ranks
from installer.words import Places
import table
from releasing import (
    built,
    crates,
    debian,
    found_right,
    licences,
    linting,
    older_glibc,
    over_ranks,
    packed,
    receipt,
    recipes,
    shown,
    texts,
    trees,
    trying,
    writing,
)
from trees import Tree
from whole import Whole, command, written

RECORD = {"tree": "a tree", "kit": "a kit", "last_line": "5 passed, 0 failed", "not_tried": ""}


def at(moment):
    """A clock that stands, so many seconds after 1970."""
    return mock.patch.object(time, "time", lambda: float(moment))


class FoundRight(Tree):
    """The record of the check of the repository."""

    def read(self, changes=(), **found):
        record = self.top / "found-right"
        if found:
            record.write_text(json.dumps({**RECORD, **found}))
        with mock.patch.object(found_right, "RECORD", record), mock.patch.object(found_right, "changes", lambda: list(changes)), \
                mock.patch.object(found_right, "tree", lambda: "a tree"), mock.patch.object(found_right, "kit", lambda: "a kit"):  # fmt: skip
            return found_right.read()

    def refused(self, why, *changes, **found):
        with self.assertRaisesRegex(SystemExit, why):
            self.read(changes, **found)

    def test_this_tree_by_this_kit_is_taken(self):
        self.assertEqual(self.read(tree="a tree")._asdict(), RECORD)

    def test_anything_else_is_refused(self):
        self.refused("has not found this checkout right")
        self.refused("an earlier revision", tree="another tree")
        self.refused("by another kit, and the kit on the path is a kit", kit="another kit")
        self.refused("differs from its revision:\n M README.md", " M README.md", tree="a tree")


class Command(Tree):
    """The commands as a user calls them."""

    def test_a_checkout_that_may_not_be_released_leaves_no_folder(self):
        with mock.patch.object(found_right, "RECORD", self.top / "none"), mock.patch.object(found_right, "changes", list), \
                self.assertRaisesRegex(SystemExit, "has not found this checkout right"):  # fmt: skip
            command("release").main([str(self.top / "a/release")])
        self.assertEqual(self.found(self.top), [])

    def test_a_folder_that_is_none(self):
        made = self.write("a file")
        for words, why in ((made,), "is not a folder"), (("--check", made), "is not a folder"), (("--test", made), "is not a folder"), \
                (("--check", self.top / "nothing"), "is not there"), ((made / "below",), "is not a folder"), (("--jobs", "0", "x"), "at least 1"):  # fmt: skip
            told = subprocess.run([TOP / "release", *words], capture_output=True, text=True)
            self.assertNotIn("Traceback", told.stderr)
            self.assertIn(why, told.stderr)
            self.assertEqual((told.returncode, told.stdout), (1, ""), words)

    def test_help_that_nobody_reads_to_its_end(self):
        for name in ("release", "install"):
            reads, writes = os.pipe()
            os.close(reads)
            told = subprocess.run([TOP / name, "--help"], stdout=writes, stderr=subprocess.PIPE, text=True)
            os.close(writes)
            self.assertEqual((told.returncode, told.stderr), (0, ""), name)


class Packed(Tree):
    """Archives that are the same bytes whoever makes them."""

    def made(self, name, time):
        root = self.top / name
        for path in ("b/program", "a"):
            self.write(f"{name}/{path}", path, time)
        (root / "b/program").chmod(0o700)
        os.symlink("a", root / "link")
        made = self.top / f"{name}.tar"
        with at(time):
            packed.tar_gz(made.with_suffix(".gz"), packed.below(root), 1000)
            packed.tar_xz(made.with_suffix(".xz"), packed.below(root), 1000)
        return made

    def test_the_same_bytes_at_any_time(self):
        one, other = self.made("one", 5000), self.made("other", 7000)
        for end in (".gz", ".xz"):
            self.assertEqual(one.with_suffix(end).read_bytes(), other.with_suffix(end).read_bytes(), end)
        with tarfile.open(one.with_suffix(".gz")) as whole:
            found = [(entry.name, entry.mode, entry.mtime, entry.uid, entry.linkname) for entry in whole]
        self.assertEqual(
            found,
            [
                ("a", 0o644, 1000, 0, ""),
                ("b", 0o755, 1000, 0, ""),
                ("b/program", 0o755, 1000, 0, ""),
                ("link", 0o777, 1000, 0, "a"),
            ],
        )


class Packages(unittest.TestCase):
    """Debian's packages."""

    def test_each_file_has_a_package(self):
        places = Places("/usr", debian.LIBDIR)
        given, links = files.base(
            places, pathlib.Path("/work"), pathlib.Path("/written"), built.OWN, {"share/doc/cvl/README.md": None}
        )
        of = {name: debian._package_of(name) for name in (*given, *links)}
        self.assertEqual([name for name, package in of.items() if package is None], [])
        for name, package in (
            ("bin/cvl", "cvl"), ("share/man/man1/cvl.1", "cvl"), (f"{debian.LIBDIR}/{archive.SONAME}", "libcvl1"), ("include/cvl.h", "libcvl-dev"),
            (f"{debian.LIBDIR}/{archive.LINKED}", "libcvl-dev"),
            (f"{debian.LIBDIR}/glibc-hwcaps/x86-64-v3/{archive.SONAME}", "libcvl1"), (f"{debian.LIBDIR}/libcvl.a", "libcvl-dev"), ("share/doc/cvl/README.md", "cvl-doc"),
        ):  # fmt: skip
            self.assertEqual(of[name], package, name)
        self.assertIsNone(debian._package_of("share/cvl/installed"))

    def test_the_list_of_changes_is_newest_first(self):
        with mock.patch.dict(os.environ, SOURCE_DATE_EPOCH="1795392000"):
            said = texts.debian_changes("1.0.0-1")
        self.assertEqual(re.findall(r"^cimorelua \((.*)\)", said, re.M), ["1.0.0-1", "1.0.0~0-1"])
        self.assertEqual(
            re.findall(r"  (\w+, .*)$", said, re.M), ["Mon, 23 Nov 2026 00:00:00 -0000", "Sun, 22 Nov 2026 00:00:00 -0000"]
        )

    def test_symbols_have_the_version_that_they_came_with(self):
        lines = texts.scripts("libcvl1")["symbols"].splitlines()
        self.assertEqual(lines[0], "libcvl.so.1 libcvl1")
        self.assertIn(" cvl_add_wuz@CVL_1.0 1.0.0", lines)
        self.assertEqual(len(lines), len(set(lines)))

    def test_the_newest_glibc_that_is_needed(self):
        told = {"one": "GLIBC_2.4 (3)\nName: GLIBC_2.34  Flags", "other": "GLIBC_2.2.5 GLIBC_2.9"}
        with mock.patch.object(archive, "run", lambda *words: told[words[-1]]):
            self.assertEqual(built.needed_glibc("one", "other"), "2.34")
            self.assertEqual(built.needed_glibc("other"), "2.9")


@unittest.skipUnless(shutil.which("dpkg-deb"), "packages for Debian are made on Debian")
class Debian(Whole):
    """Debian's packages, as dpkg reads them, of a small program and a small library."""

    NUMPY = types.SimpleNamespace(stdout="python3-f2py, python3-numpy-abi9, python3-numpy-api14")

    def run_it(self, *words):
        return subprocess.run([str(word) for word in words], check=True, capture_output=True, text=True, cwd=self.top).stdout

    def build(self, work):
        self.write("program.c", '#include <stdio.h>\nint main(void) { return puts("") < 0; }\n')
        self.run_it("cc", "-o", work / "cvl", "program.c")
        self.run_it("cc", "-shared", "-fPIC", "-Wl,-soname,libcvl.so.1", "-o", work / archive.FULL, "program.c")
        self.run_it("cc", "-c", "-o", "program.o", "program.c")
        self.run_it("ar", "rcs", work / "libcvl.a", "program.o")

    def put_python(self, staged):
        self.built(None, staged / "lib/python3/dist-packages")
        (made,) = staged.rglob(self.module)
        self.run_it("cc", "-shared", "-fPIC", "-o", made, "program.c")

    def installed(self, name, prefix, *words):
        self.install(prefix, *words, destination=self.top / "staged")
        return self.top / "staged/usr"

    def build_over_ranks(self, folder, written, flags=(), compiler=None):
        """A small library over the other one, as a compiler of MPI would build it."""
        self.compilers.append(compiler)
        self.write("over.c", "#include <stdlib.h>\nint main(void);\nint over_ranks(void) { return main() + abs(1); }\n")
        linked = ["-shared", "-fPIC", "-fno-builtin", "-Wl,-soname,libcvl_mpi.so.1"]
        self.run_it("cc", *linked, "-o", folder / archive.MPI_FULL, "over.c", folder / archive.FULL)
        shutil.copyfile(self.top / "staged/usr" / debian.LIBDIR / "libcvl.a", folder / "libcvl_mpi.a")

    def written(self, moment):
        """The packages that are written at a moment, each by its name."""
        folder, work, self.compilers = self.top / f"written at {moment}", self.top / f"work at {moment}", []
        folder.mkdir()
        shared = self.top / "staged/usr" / debian.LIBDIR / archive.SONAME
        builds = types.SimpleNamespace(installed=self.installed, work=work, shared=lambda: shared)
        asked = types.SimpleNamespace(run=lambda *words, **more: self.NUMPY)
        with at(moment), mock.patch.object(texts, "copyright_of", lambda: "a licence\n"), \
                mock.patch.dict(os.environ, {"SOURCE_DATE_EPOCH": "1000"}), \
                mock.patch.object(archive, "over_ranks", self.build_over_ranks), mock.patch.object(generated, "below", lambda folder: written()), \
                mock.patch.object(debian, "_put_python", self.put_python), mock.patch.object(debian, "subprocess", asked):  # fmt: skip
            names = debian.write(folder, builds)
        return {name.partition("_")[0]: folder / name for name in names}

    def unpacked(self, packages):
        """The files and links of each package, by their names below its root."""
        found = {}
        for name, path in packages.items():
            self.run_it("dpkg-deb", "-x", path, name)
            below = {path: path.relative_to(self.top / name) for path in (self.top / name).rglob("*")}
            found[name] = {str(place): path for path, place in below.items() if path.is_symlink() or path.is_file()}
        return found

    def needed(self, paths):
        """The libraries that objects need, and the newest version of glibc of which they need something."""
        objects = (path for path in paths if not path.is_symlink() and path.read_bytes()[:4] == b"\x7fELF")
        told = "".join(self.run_it("objdump", "-p", path) for path in objects)
        versions = [tuple(map(int, found.split("."))) for found in re.findall(r"GLIBC_([\d.]+)", told)]
        return set(re.findall(r"NEEDED +(\S+)", told)), ".".join(map(str, max(versions, default=())))

    def test_the_packages(self):
        packages, later = self.written(5000), self.written(7000)
        for name, path in packages.items():
            self.assertEqual(path.read_bytes(), later[name].read_bytes(), name)
        unpacked = self.unpacked(packages)
        over_ranks = {name: unpacked.pop(name) for name in ("libcvl-openmpi", "libcvl-mpich")}
        self.check_fields(packages, unpacked)
        self.check_places(unpacked)
        for name, of_package in over_ranks.items():
            self.check_over_ranks(name, packages[name], of_package, unpacked)
        self.assertEqual(self.compilers, [["mpicc.openmpi"], ["mpicc.mpich"]])

    def check_over_ranks(self, name, package, of_package, others):
        """A package over an MPI has the files of that part of `./install`, stands over the library, and excludes the other one."""
        fields = {
            field: self.run_it("dpkg-deb", "-f", package, field).strip()
            for field in ("Depends", "Conflicts", "Provides", "Replaces")
        }
        self.assertEqual({fields.pop(field) for field in ("Conflicts", "Provides", "Replaces")}, {"libcvl-mpi"})
        of_mpi = {"libcvl-openmpi": "libopenmpi3, libopenmpi-dev", "libcvl-mpich": "libmpich12, libmpich-dev"}[name]
        libraries, glibc = self.needed(of_package.values())
        self.assertEqual(libraries, {"libc.so.6", "libcvl.so.1"})
        self.assertEqual(fields["Depends"], f"libc6 (>= {glibc}), libcvl-dev (= {debian.REVISION}), {of_mpi}")
        placed, links = installed_over_ranks.placed(Places("/usr", debian.LIBDIR))
        own = {f"share/doc/{name}/{file}" for file in ("copyright", "changelog.gz", "changelog.Debian.gz")} | {
            f"share/lintian/overrides/{name}"
        }
        self.assertEqual(set(of_package), {f"usr/{place}" for place in {*placed, *links, *own}})
        self.assertEqual(set(of_package) & {place for other in others.values() for place in other}, set())
        self.assertEqual(os.readlink(of_package[f"usr/{debian.LIBDIR}/{archive.MPI_LINKED}"]), archive.MPI_SONAME)
        told = self.run_it("dpkg-deb", "-I", package, "shlibs", "triggers")
        self.assertEqual(told, f"libcvl_mpi 1 {name} (>= 1.0.0)\nactivate-noawait ldconfig\n")

    def check_fields(self, packages, unpacked):
        """What a package depends on is what its files need."""
        depends = {name: self.run_it("dpkg-deb", "-f", path, "Depends").strip().split(", ") for name, path in packages.items()}
        places = {place: name for name, of_package in unpacked.items() for place in of_package}
        for name, of_package in unpacked.items():
            libraries, glibc = self.needed(of_package.values())
            own = [f"{name} (= {debian.REVISION})"]
            self.assertEqual(libraries, {"libc.so.6"} if name in ("cvl", "libcvl1", "python3-cvl") else set(), name)
            libc = [word for word in depends[name] if word.startswith("libc6")]
            self.assertEqual(libc, [f"libc6 (>= {glibc})"] if glibc else [], name)
            for place, path in of_package.items():
                if path.is_symlink():
                    owner = places[os.path.normpath(os.path.join(os.path.dirname(place), os.readlink(path)))]
                    self.assertIn(f"{owner} (= {debian.REVISION})", [*own, *depends[name]], place)
        major, minor = map(int, self.run_it(debian.PYTHON, "-c", "import sys; print(*sys.version_info[:2])").split())
        own = [
            f"libcvl1 (= {debian.REVISION})",
            f"python3 (>= {major}.{minor}~)",
            f"python3 (<< {major}.{minor + 1})",
            "python3-numpy",
            "python3-numpy-abi9",
        ]
        self.assertEqual([word for word in depends["python3-cvl"] if not word.startswith("libc6")], own)

    def check_places(self, unpacked):
        """Each file stands where Debian looks for it, in one package."""
        names = [place.removeprefix("usr/") for of_package in unpacked.values() for place in of_package]
        self.assertEqual(len(names), len(set(names)))
        staged = self.top / "staged/usr"
        made = {str(path.relative_to(staged)) for path in staged.rglob("*") if path.is_symlink() or path.is_file()}
        # the pages of the manual are packed, the lists of `./install` are not there, and zsh looks into another folder
        lists = {name for name in made if name.startswith("share/cvl/installed")}
        packed_ones = {name for name in made if name.startswith("share/man/") and not (staged / name).is_symlink()}
        zsh = {"share/zsh/site-functions/_cvl"}
        wanted = made - lists - packed_ones - zsh | {f"{name}.gz" for name in packed_ones} | {"share/zsh/vendor-completions/_cvl"}
        said = ("copyright", "changelog.gz", "changelog.Debian.gz")
        described = {f"share/doc/{name}/{file}" for name in unpacked for file in said}
        self.assertEqual(set(names), wanted | described)


class Environment(unittest.TestCase):
    """What a caller's variables change of a release: nothing."""

    def test_no_variable_reaches_what_is_built(self):
        names = ("bindings/archive.py", "bindings/python/package.py", "bindings/installer/words.py")
        sources = "".join((TOP / name).read_text() for name in names)
        # MPICC makes the calls over ranks, and PKG_CONFIG finds an installed library: a release has neither
        asked = {*re.findall(r'(?:words_of|environ.get)\("((?!CVL_)\w+)"', sources), *archive.USUAL} - {"MPICC", "PKG_CONFIG"}
        self.assertLess({"CC", "CFLAGS", "CPPFLAGS", "LDFLAGS", "DESTDIR"}, asked)
        imports = "import json, os, sys; sys.path.insert(0, 'bindings'); from releasing.built import Built"
        with tempfile.TemporaryDirectory() as folder:
            words = [
                sys.executable,
                "-c",
                f"{imports}; Built(sys.argv[1], 1000, 1, False); print(json.dumps(dict(os.environ)))",
                folder,
            ]
            given = {**os.environ, **dict.fromkeys(asked, "x"), "PYTHONPATH": "x"}
            said = json.loads(subprocess.run(words, cwd=TOP, env=given, capture_output=True, text=True, check=True).stdout)
            self.assertEqual(said.pop("LDFLAGS"), f"-L{folder}/glibc -Wl,-z,x86-64-v2 {folder}/glibc/level.o")
        self.assertEqual(set(said) & {*asked, "PYTHONPATH"}, set())
        self.assertEqual(said["SOURCE_DATE_EPOCH"], "1000")


class Builds(Tree):
    """The program and the exports, by what stands in for the kit."""

    def steps(self, is_left):
        """The steps of a build that writes each archive over the one before, as `rt lib` does."""

        def archive_for(cpu, made):
            self.write("out/libcvl_c.a", f"exports for {cpu}")
            return shutil.copy(self.top / "out/libcvl_c.a", made) if made else self.top / "out/libcvl_c.a"

        build = types.SimpleNamespace(
            is_left=is_left, both=lambda logs: (self.top / "out/cvl", archive_for("all", None)), exports_for=archive_for,
            compiled_program=lambda program: self.write("out/cvl.o", str(program)),
        )  # fmt: skip
        glibc = types.SimpleNamespace(linked=[], program=lambda compiled, made: compiled)
        (self.top / "work").mkdir()
        with mock.patch.object(built, "OlderGlibc", lambda folder: glibc), mock.patch.dict(os.environ):
            for named in ("CVL_ARCHIVE", "CVL_PROGRAM"):
                os.environ.pop(named, None)
            builds = built.Built(self.top / "work", 1000, 2, False)
            builds._build = build
            return builds, builds.steps()

    def test_the_usual_exports_stand_after_others_are_built(self):
        builds, steps = self.steps(False)
        self.assertEqual(list(steps), ["the program and the exports"])
        built.side_by_side(steps, 2, lambda name: None)
        said = {cpu: path.read_text() for (what, cpu), path in builds.given.items() if what == "exports"}
        self.assertEqual(said, {"": "exports for all", **{cpu: f"exports for {cpu}" for cpu in built.OWN}})
        self.assertEqual(builds.given["program", ""].read_text(), str(self.top / "out/cvl"))

    def test_each_is_a_step_of_its_own_over_what_the_gate_left(self):
        self.assertEqual(list(self.steps(True)[1]), ["the exports", "the exports for x86-64-v3", "the program"])


class Older(Tree):
    """What is linked so that it runs with an older glibc."""

    # a library that starts a thread and watches forks, in the words of the C library before and after 2.34
    SOURCE = """#include <pthread.h>
        #include <string.h>
        static void *same(void *given) { return given; }
        static void forked(void) {}
        int started(void) {
            pthread_t thread;
            void *found = NULL;
            if (pthread_atfork(NULL, NULL, forked) || pthread_create(&thread, NULL, same, &thread)) return 0;
            return pthread_join(thread, &found) == 0 && found == &thread;
        }
        """
    MAIN = "int started(void); int main(void) { return started() ? 7 : 0; }"

    def setUp(self):
        super().setUp()
        self.glibc = older_glibc.OlderGlibc(self.top / "glibc")

    def run_it(self, *words):
        return subprocess.run([str(word) for word in words], capture_output=True, text=True, cwd=self.top)

    def linked(self, text, made):
        self.write("linked.c", text)
        shared = ["-shared", "-fPIC", "-pthread", "-Wl,-z,defs", *self.glibc.linked]
        return self.run_it("cc", *shared, "-o", made, "linked.c")

    def needed(self, path):
        told = self.run_it("readelf", "--wide", "-V", "-d", path).stdout
        return set(re.findall(r"\(NEEDED\).*\[(.*)\]", told)), set(re.findall(r"GLIBC_([\d.]+)", told))

    def test_a_library_that_starts_threads_needs_no_newer_glibc(self):
        self.assertEqual(self.linked(self.SOURCE, "libstarted.so").returncode, 0)
        self.assertEqual(self.needed("libstarted.so"), ({"libc.so.6", "libpthread.so.0"}, {"2.2.5", "2.3.2"}))
        self.write("main.c", self.MAIN)
        self.assertEqual(self.run_it("cc", "-o", "main", "main.c", "-L.", "-lstarted", "-Wl,-rpath,$ORIGIN").stderr, "")
        self.assertEqual(self.run_it("./main").returncode, 7)

    def test_what_an_older_glibc_has_not_is_reported(self):
        told = self.linked(
            "#define _GNU_SOURCE\n#include <unistd.h>\nint closes(void) { return close_range(3, 4, 0); }", "libcloses.so"
        )
        self.assertNotEqual(told.returncode, 0)
        self.assertIn("undefined reference to `close_range'", told.stderr)

    def test_each_name_has_the_newest_version_of_that_time(self):
        rows = (
            ("close@@GLIBC_2.2.5", "FUNC"), ("environ@@GLIBC_2.2.5", "OBJECT"), ("memcpy@GLIBC_2.2.5", "FUNC"), ("memcpy@@GLIBC_2.14", "IFUNC"),
            ("statx@@GLIBC_2.28", "FUNC"), ("close_range@@GLIBC_2.34", "FUNC"), ("pthread_create@GLIBC_2.2.5", "FUNC"),
            ("pthread_create@@GLIBC_2.34", "FUNC"), ("__libc_start_main@GLIBC_2.2.5", "FUNC"), ("__libc_start_main@@GLIBC_2.34", "FUNC"),
            ("dlopen@GLIBC_2.2.5", "FUNC"), ("dlopen@@GLIBC_2.34", "FUNC"), ("old@GLIBC_2.2.5", "FUNC"), ("mine@@GLIBC_PRIVATE", "FUNC"),
        )  # fmt: skip
        lines = "".join(
            f"{k:>6}: 0000000000001000     8 {kind:<7} GLOBAL DEFAULT   15 {name}\n" for k, (name, kind) in enumerate(rows)
        )
        asked = "     9: 0000000000000000     0 FUNC    GLOBAL DEFAULT  UND calloc@GLIBC_2.2.5 (2)\n"
        found = {
            file: {name.name: name.version for name in of_file} for file, of_file in older_glibc.names(lines + asked).items()
        }
        self.assertEqual(found, {
            "libc.so.6": {"close": "2.2.5", "environ": "2.2.5", "memcpy": "2.14", "statx": "2.28", "__libc_start_main": "2.2.5"},
            "libpthread.so.0": {"pthread_create": "2.2.5"},
        })  # fmt: skip

    def test_what_the_program_asks_of_the_processor(self):
        self.write(
            "asks.c",
            """#include <stdint.h>
            #include <stdio.h>
            struct feature { uint32_t has[4], may[4]; };
            const struct feature *__x86_get_cpuid_feature_leaf(unsigned leaf);
            int main(void) {
                for (unsigned leaf = 0; leaf < 3; leaf++) {
                    const struct feature *const found = __x86_get_cpuid_feature_leaf(leaf);
                    for (int k = 1; k < 4; k++) printf("%x ", (leaf == 0 && k == 1) ? 0 : found->may[k]);
                }
                return 0;
            }""",
        )
        # the bits that the levels v2, v3 and v4 of x86-64 are about, in ebx, ecx and edx
        told = []
        for more in ((), (older_glibc.PROCESSOR,)):
            self.assertEqual(self.run_it("cc", "-Wall", "-Wextra", "-o", "asks", "asks.c", *more).stderr, "")
            told.append([int(word, 16) for word in self.run_it("./asks").stdout.split()])
        levels = [0, 0x38983201, 0, 0xD0030128, 0, 0, 0, 0x21, 0]
        self.assertEqual(*[[word & bits for word, bits in zip(found, levels)] for found in told])
        self.assertEqual(told[1][1] & 0x982201, 0x982201, "x86-64-v2")

    def test_what_a_shared_object_asks_of_the_processor(self):
        # each bit of the registers ecx that x86-64-v2 is about, one of them missing
        first, second = (0, 9, 13, 19, 20, 23), (0,)
        rows = [
            (-1, -1, 0),
            *((~(1 << bit), -1, 127) for bit in first),
            *((-1, ~(1 << bit), 127) for bit in second),
            (0x982201, 1, 0),
        ]
        self.write(
            "asks.c",
            f"""#include <cpuid.h>
            static unsigned registers[2];
            static int answered(unsigned leaf, unsigned *a, unsigned *b, unsigned *c, unsigned *d) {{
                *a = *b = *d = 0, *c = registers[leaf != 1];
                return 1;
            }}
            #define __get_cpuid answered
            #define constructor used
            #include "{older_glibc.LEVEL}"
            #include <stdlib.h>
            int main(int count, char **words) {{
                for (int k = 0; k < count - 1; k++) registers[k] = (unsigned)atoi(words[k + 1]);
                ask();
                return 0;
            }}""",
        )
        self.assertEqual(self.run_it("cc", "-Wall", "-Wextra", "-o", "asks", "asks.c").stderr, "")
        for one, other, status in rows:
            told = self.run_it("./asks", one, other)
            self.assertEqual(
                (told.returncode, told.stderr),
                (status, "libcvl: the processor lacks a feature of x86-64-v2\n" if status else ""),
                one,
            )

    def test_what_the_program_runs_before_main(self):
        self.write(
            "runs.c",
            """#include <stdio.h>
            static int begun;
            static void begin(int count, char **words) { begun += count == 2 && words[1][0] == 'w'; }
            __attribute__((section(".init_array"), used)) static void (*const first)(int, char **) = begin;
            int main(int count, char **words) { return printf("%d %d %s", begun, count, words[1]) < 0; }""",
        )
        self.assertEqual(self.run_it("cc", "-Wall", "-Wextra", "-o", "runs", "runs.c", older_glibc.START).stderr, "")
        self.assertEqual(self.run_it("./runs", "word").stdout, "1 2 word")

    def test_what_the_program_carries_of_its_build(self):
        self.write("main.c", '#include <stdio.h>\nint main(void) { return puts("it runs") < 0; }')
        self.assertEqual(self.run_it("cc", "-fPIE", "-c", "main.c").stderr, "")
        made = self.glibc.program(self.top / "main.o", self.top / "main")
        self.assertEqual(self.run_it(made).stdout, "it runs\n")
        self.run_it("strip", "--strip-all", made)
        trying.carries_its_build(made)


class Crates(Tree):
    """The crates for Rust, unpacked side by side."""

    def test_the_upper_one_finds_the_lower_one_beside_it(self):
        builds = types.SimpleNamespace(work=self.top, library=lambda: self.write("libcvl.a", "a library"))
        with mock.patch.object(generated, "below", lambda folder: written()):
            names = crates.write(self.top, builds, 1000)
        beside = self.top / "beside"
        for name in names:
            with tarfile.open(self.top / name) as whole:
                whole.extractall(beside)
        folders = {name: beside / name.removesuffix(".crate") for name in names}
        self.assertEqual(sorted(path.name for path in beside.iterdir()), sorted(folder.name for folder in folders.values()))
        upper, lower = (folders[crates.file_of(name)] for name in ("cvl", "cvl-sys"))
        described = (upper / "Cargo.toml").read_text()
        (place,) = re.findall(r'^cvl-sys = \{.*path = "([^"]*)"', described, re.M)
        self.assertEqual((upper / place).resolve(), lower.resolve())
        self.assertNotIn("[workspace]", described)
        self.assertIn('\nname = "cvl-sys"\n', (lower / "Cargo.toml").read_text())
        self.assertEqual((lower / "native/x86_64-unknown-linux-gnu/libcvl.a").read_text(), "a library")


class Parts(unittest.TestCase):
    """The list of parts."""

    def test_each_part_is_named_as_spdx_has_it(self):
        parts = [licences.Part("rattle-atomic_table", "MIT"), licences.Part("rattle-std", "NOASSERTION")]
        with mock.patch.object(licences, "parts", lambda: parts):
            text = licences.document("a kit", "2026-01-01T00:00:00Z")
        found = re.findall(r"^SPDXID: (.*)$", text, re.M)
        self.assertEqual(
            found, ["SPDXRef-DOCUMENT", "SPDXRef-cvl", "SPDXRef-rattle-atomic-table", "SPDXRef-rattle-std", "SPDXRef-sphinx"]
        )
        related = re.findall(r"^Relationship: (.*)$", text, re.M)
        self.assertEqual(
            related[:2], ["SPDXRef-DOCUMENT DESCRIBES SPDXRef-cvl", "SPDXRef-cvl STATIC_LINK SPDXRef-rattle-atomic-table"]
        )


class Recipes(Tree):
    """The recipes for other package managers, each over a small tree, by what stands in for the words of its tool."""

    PLACED = ("bin/cvl", "include/cvl.h", "lib/libcvl.a", "lib/pkgconfig/cvl.pc", "share/doc/cvl/LICENSE")

    def setUp(self):
        super().setUp()
        self.tree = self.write(trees.FILE, "a tree")
        self.recipes = recipes.recipes(self.tree)
        for name in self.PLACED:
            self.write(f"tree/{name}", name)
        self.made = self.top / "made"
        self.made.mkdir()

    def placed(self):
        return sorted(str(path.relative_to(self.made)) for path in self.made.rglob("*") if path.is_file())

    def test_each_takes_the_tree_by_its_sum_and_reads_as_its_language(self):
        self.assertEqual(
            sorted(self.recipes),
            ["conda/meta.yaml", "homebrew/cvl.rb", "spack/package.py", "vcpkg/portfile.cmake", "vcpkg/vcpkg.json"],
        )
        for place, text in self.recipes.items():
            if place.endswith((".yaml", ".rb", "package.py")):
                self.assertIn(receipt.sum_of(self.tree), text, place)
            self.assertNotRegex(text, r"\{(version|url|sha)")
        self.assertEqual(json.loads(self.recipes["vcpkg/vcpkg.json"])["version"], table.VERSION)
        self.assertEqual({lint.place for lint in linting.LINTS} | {"vcpkg/portfile.cmake"}, set(self.recipes))

    def faults(self):
        """What the programs that are here find."""
        for place, text in self.recipes.items():
            self.write(f"recipes/{place}", text)
        return linting.faults(self.top / "recipes", [lint for lint in linting.LINTS if shutil.which(lint.words[0])])

    def test_each_reads_as_its_language(self):
        self.assertEqual(self.faults(), [])

    def test_what_no_language_takes_is_found(self):
        self.recipes = {place: f"{text}  (\n" for place, text in self.recipes.items()}
        here = [lint for lint in linting.LINTS if shutil.which(lint.words[0])]
        self.assertEqual([text.partition(":")[0] for text in self.faults()], [lint.words[0] for lint in here])

    def test_what_conda_runs(self):
        recipe = self.write("meta.yaml", self.recipes["conda/meta.yaml"])
        self.assertEqual(linting.conda(recipe, self.top / "tree", self.made), "")
        self.assertEqual(self.placed(), sorted(self.PLACED))

    @unittest.skipUnless(shutil.which("cmake"), "no cmake")
    def test_what_vcpkg_runs(self):
        portfile = self.write("portfile.cmake", self.recipes["vcpkg/portfile.cmake"])
        self.assertEqual(linting.port(portfile, self.top / "tree", self.made), "")
        self.assertEqual(self.placed(), sorted(["include/cvl.h", "lib/libcvl.a", "lib/pkgconfig/cvl.pc", "share/cvl/copyright"]))

    def test_what_spack_runs(self):
        said = []
        words = {
            name: lambda *given, **named: said.append((given, named)) for name in ("license", "version", "conflicts", "requires")
        }
        module = types.ModuleType("spack.package")
        module.__dict__.update(
            words, Package=object, join_path=os.path.join, install_tree=lambda source, made: shutil.copytree(source, made)
        )
        found = {}
        with mock.patch.dict(sys.modules, {"spack": types.ModuleType("spack"), "spack.package": module}):
            exec(compile(self.recipes["spack/package.py"], "package.py", "exec"), found)
        was = os.getcwd()
        os.chdir(self.top / "tree")
        try:
            found["Cvl"]().install(None, str(self.made))
        finally:
            os.chdir(was)
        self.assertEqual(self.placed(), sorted(self.PLACED))
        self.assertIn(((table.VERSION,), {"sha256": receipt.sum_of(self.tree), "url": f"{texts.ADDRESS}/{trees.FILE}"}), said)


class Receipt(Tree):
    """What the receipt says of files of a release."""

    def text(self, is_given=False, not_tried="", order=1):
        given = {("program", ""): self.write("cvl", "a program"), ("exports", "x86-64-v3"): self.write("libcvl_c.a", "exports")}
        given = dict([*given.items()][::order])
        builds = types.SimpleNamespace(is_given=is_given, given=given)
        record = found_right.Record(**{**RECORD, "not_tried": not_tried})
        with mock.patch.object(receipt, "sources", lambda: {"crates/sums": "0" * 64, "docs": "1" * 64}), \
                mock.patch.object(found_right, "revision", lambda: "a revision"):  # fmt: skip
            return receipt.text(record, builds, self.top, [self.write("cvl_1.deb").name, self.write("cvl.whl", "a wheel").name])

    def test_each_file_has_its_sum_and_what_it_was_made_of(self):
        text = self.text()
        for name, made_of in (("cvl_1.deb", "program, bindings, docs"), ("cvl.whl", "exports, bindings, include")):
            self.assertIn(f"| `{name}` | {made_of} | `{receipt.sum_of(self.top / name)}` |", text)
        self.assertEqual(dict(writing.SOURCE.findall(text)), {"crates/sums": "0" * 64, "docs": "1" * 64})
        self.assertIn(f"| program | the usual processors | `{receipt.sum_of(self.top / 'cvl')}` |", text)
        self.assertIn(f"| exports | x86-64-v3 | `{receipt.sum_of(self.top / 'libcvl_c.a')}` |", text)
        for said in (
            "revision `a revision` by the kit `a kit`",
            "`5 passed, 0 failed`, and everything was tried.",
            "`shell::program`",
        ):
            self.assertIn(said, text)

    def test_which_step_ends_first_changes_no_byte(self):
        self.assertEqual(self.text(), self.text(order=-1))

    def test_what_was_not_tried_or_not_built_is_named(self):
        self.assertIn("and it did not try Rust (no cargo).", self.text(not_tried="Rust (no cargo)"))
        self.assertNotIn("No theorem covers these files", self.text())
        self.assertIn("**No theorem covers these files:**", self.text(is_given=True))


class Check(Tree):
    """What the check of a release finds."""

    def setUp(self):
        super().setUp()
        self.sources = {"crates/sums": "0" * 64, "docs": "1" * 64}
        self.made("release")

    def made(self, folder):
        """Writes a small release, as `writing.write` does."""
        self.write(f"{folder}/cvl.tar.xz", "a tree")
        rows = "".join(f"| `{name}` | `{its_sum}` |\n" for name, its_sum in self.sources.items())
        self.write(f"{folder}/{writing.RECEIPT}", rows)
        names = sorted(["cvl.tar.xz", writing.RECEIPT])
        self.write(f"{folder}/{writing.SUMS}", "".join(f"{receipt.sum_of(self.top / folder / name)}  {name}\n" for name in names))
        return [*names, writing.SUMS]

    def differences(self, sources=None, more=()):
        def again(folder, jobs, anew):
            self.assertTrue(anew)
            return [*self.made(os.path.relpath(folder, self.top)), *more]

        with mock.patch.object(receipt, "sources", lambda: sources or self.sources), mock.patch.object(writing, "write", again):
            return writing.differences(self.top / "release", 1)

    def test_what_this_checkout_makes_is_right(self):
        self.assertEqual(self.differences(), [])

    def test_a_changed_byte_is_found(self):
        self.write("release/cvl.tar.xz", "a Tree")
        self.assertEqual(self.differences(), ["cvl.tar.xz has another sum than SHA256SUMS says"])
        sums = self.top / "release" / writing.SUMS
        sums.write_text(
            sums.read_text().replace(
                receipt.sum_of(self.write("right", "a tree")), receipt.sum_of(self.top / "release/cvl.tar.xz")
            )
        )
        self.assertEqual(
            self.differences(), [f"{writing.SUMS} is not what this checkout makes", "cvl.tar.xz is not what this checkout makes"]
        )

    def test_a_changed_source_is_found(self):
        self.assertEqual(self.differences({**self.sources, "docs": "2" * 64}), ["docs is not as the receipt says"])
        self.assertEqual(self.differences({**self.sources, "include": "2" * 64}), ["include is not as the receipt says"])

    def test_a_file_that_is_gone_and_one_too_many_are_found(self):
        (self.top / "release/cvl.tar.xz").unlink()
        self.write("release/more", "a file")
        self.assertEqual(self.differences(), ["cvl.tar.xz is not there", "more has no sum"])

    def test_a_folder_that_is_no_release(self):
        for name in (writing.RECEIPT, writing.SUMS):
            (self.top / "release" / name).unlink()
            self.assertIn(f"{name} is not there", self.differences())

    def test_a_wheel_that_another_machine_makes(self):
        self.assertEqual(self.differences(more=["cvl.whl"]), ["cvl.whl is only what this checkout makes"])

    def test_a_line_of_the_sums_that_is_none(self):
        sums = self.top / "release" / writing.SUMS
        sums.write_text(sums.read_text().replace("  cvl.tar.xz", " cvl.tar.xz"))
        self.assertEqual(self.differences(), ["cvl.tar.xz has no sum"])

    def test_the_sources_are_all_that_a_release_has(self):
        with mock.patch.object(receipt, "sum_below", lambda folder: "a sum"):
            names = list(receipt.sources())
        for name in ("crates/cvl", "crates/cvl_c", "crates/operators", "bindings", "docs", "include", "LICENSE"):
            self.assertIn(name, names)
        for name in names:
            self.assertTrue((TOP / name).exists(), name)
            self.assertRegex(f"| `{name}` | `{'0' * 64}` |", writing.SOURCE)

    def test_a_sum_of_sources_knows_their_names_and_texts(self):
        for name in ("src/lib.rt", "specs/Sum.antt"):
            self.write(f"sums/{name}", name)
        found = receipt.sum_below(self.top / "sums")
        self.write("sums/out/built", "a file")
        self.assertEqual(receipt.sum_below(self.top / "sums"), found)
        (self.top / "sums/src/lib.rt").rename(self.top / "sums/src/other.rt")
        self.assertNotEqual(receipt.sum_below(self.top / "sums"), found)
        (self.top / "sums/src/other.rt").rename(self.top / "sums/src/lib.rt")
        self.write("sums/src/lib.rt", "another text")
        self.assertNotEqual(receipt.sum_below(self.top / "sums"), found)


class Shown(unittest.TestCase):
    """What the pages show of a release."""

    FILE = re.compile(r"[\w.-]+\.(?:tar\.xz|deb|crate|tar\.gz|spdx)\b")

    def test_the_pages_name_the_files_of_a_release(self):
        made = {
            trees.FILE,
            over_ranks.FILE,
            recipes.FILE,
            *map(debian.file_of, debian.PACKAGES),
            *map(crates.file_of, ("cvl", "cvl-sys")),
        }
        made |= {writing.PARTS, f"cvl-{table.VERSION}.tar.gz"}
        self.assertEqual(set(self.FILE.findall((TOP / shown.INSTALLING).read_text())), made)
        self.assertLess(set(self.FILE.findall((TOP / shown.FIRST).read_text())), made)

    def test_each_way_to_install_has_one_command(self):
        packages = {"cvl", "libcvl1", "cvl-doc", "python3-cvl"}
        words = [f"apt install ./{debian.file_of(package)}" for package in debian.PACKAGES if package.name in packages]
        for said in (*words, f"tar -xJf {trees.FILE}", "make -C", ".whl", "CVL_PREFIX=", "tar -xzf", "cargo add"):
            self.assertIn(said, shown.command(said))
        self.assertIn(trying.EXAMPLE, shown.block(shown.FIRST, "tar -xJf"))

    def test_a_command_that_is_not_there_or_twice_is_refused(self):
        for words in ("apt install ./nothing", "install"):
            with self.assertRaisesRegex(SystemExit, "should have one"):
                shown.command(words)


if __name__ == "__main__":
    unittest.main()

"""What the command install looks at before the first proof, and what it installs; what a program over it is told; and what the
installed pages name. On trees of files that are made for it, without the kit, in some seconds."""

import errno
import os
import pathlib
import re
import stat
import sys
from unittest import mock

sys.dont_write_bytecode = True
TOP = pathlib.Path(__file__).resolve().parents[2]
sys.path.insert(0, str(TOP / "bindings"))

import archive
import generated
import proved
from installer import building, checks, obstacles, package, pages, prefixes, putting, removing
from trees import Tree
from whole import Used, Whole, install, written


class Installs(Whole):
    """Which files are installed."""

    def test_nothing_names_the_prefix_or_where_it_was_put(self):
        self.install("/opt/vectors", destination=self.top)
        for path in (self.top / "opt/vectors").rglob("*"):
            for word in (str(self.top), "/opt/vectors", str(TOP)):
                self.assertFalse(path.is_file() and word in path.read_text(), f"{path} has {word}")

    def test_another_folder_for_the_library_leaves_none_in_the_first(self):
        self.install(self.root)
        self.install(self.root, "--libdir", "lib64")
        self.assertEqual([name for name in self.found() if "libcvl" in name and not name.startswith("lib64/")], [])

    def test_all_is_put_and_all_is_removed(self):
        self.install(self.root)
        site = self.root / "lib/python3.11/site-packages/cvl"
        for given, there in (("bindings/python/cvl", site), ("bindings/rust/src", self.root / "share/cvl/rust/src")):
            wanted = {*generated.files_of(written(), given, "*.py", "*.pyi", "*.rs", "*.typed")}
            self.assertEqual({path.name for path in there.iterdir()} - {self.module}, wanted)
            self.assertTrue({"calls.py", "calls.rs"} & wanted)
        self.assertTrue((site / self.module).is_file() and (site.parent / "cvl-1.0.0.dist-info/METADATA").is_file())
        for name in (
            "bin/cvl",
            "include/cvl.h",
            "include/cvl.f90",
            "share/man/man3/cvl_add_rez.3",
            "share/doc/cvl/html/index.html",
            "share/doc/cvl/LICENSE",
        ):
            self.assertIn(name, self.found())
        install.main([str(self.root), "--uninstall"])
        self.assertEqual(self.found(), [])

    def test_modes_whatever_the_mask_is(self):
        self.install(self.root)
        for name in self.found():
            path = self.root / name
            wanted = 0o755 if path.is_dir() or name.startswith("bin/") else 0o644
            self.assertTrue(path.is_symlink() or stat.S_IMODE(path.stat().st_mode) == wanted, name)

    def test_each_file_has_the_name_that_its_reader_looks_for(self):
        self.install(self.root, "--no-python")
        wanted = {
            "share/bash-completion/completions/cvl": "bindings/shell/cvl.bash",
            "share/zsh/site-functions/_cvl": "bindings/shell/_cvl",
            "share/fish/vendor_completions.d/cvl.fish": "bindings/shell/cvl.fish",
            "share/man/man1/cvl.1": "docs/man/cvl.1",
            **{f"share/man/man3/{path.name}": f"docs/man/{path.name}" for path in (written() / "docs/man").glob("*.3")},
            "include/cvl.f90": "bindings/fortran/cvl.f90",
            **{f"include/{path.name}": f"include/{path.name}" for path in (TOP / "include").glob("*.h*")},
        }  # fmt: skip
        for name, source in wanted.items():
            (source,) = (top / source for top in (TOP, written()) if (top / source).exists())
            self.assertEqual((self.root / name).read_bytes(), source.read_bytes(), name)
        for name, said in {"bin/cvl": "cvl", "lib/libcvl.a": "libcvl.a", "lib/libcvl.so.1.0.0": "libcvl.so.1.0.0"}.items():
            self.assertEqual((self.root / name).read_text(), said)
        links = {name: os.readlink(self.root / name) for name in self.found() if (self.root / name).is_symlink()}
        self.assertEqual(links, {"lib/libcvl.so": "libcvl.so.1", "lib/libcvl.so.1": "libcvl.so.1.0.0"})
        # no file beside them that a shell would take for another program's
        folders = {str(pathlib.PurePath(name).parent) for name in wanted if name.startswith("share/") and "man" not in name}
        self.assertEqual({name for name in self.found() if str(pathlib.PurePath(name).parent) in folders} - set(wanted), set())

    def test_the_calls_over_ranks(self):
        self.install(self.root, "--no-python")
        without = set(self.found())
        self.install(self.root, "--no-python", "--mpi")
        sources = {"include/cvl_mpi.h": "bindings/mpi/cvl_mpi.h", "include/cvl_mpi.f90": "bindings/fortran/cvl_mpi.f90"}
        texts = {name: (written() / source).read_text() for name, source in sources.items()}
        texts.update({f"lib/{name}": name for name in ("libcvl_mpi.a", "libcvl_mpi.so.1.0.0")})
        links = {"lib/libcvl_mpi.so": "libcvl_mpi.so.1", "lib/libcvl_mpi.so.1": "libcvl_mpi.so.1.0.0"}
        told = {"lib/pkgconfig/cvl-mpi.pc", "lib/cmake/cvl/cvl-mpi.cmake", "share/cvl/installed-mpi"}
        self.assertEqual(set(self.found()) - without, {*texts, *links, *told})
        self.assertEqual({name: (self.root / name).read_text() for name in texts}, texts)
        self.assertEqual({name: os.readlink(self.root / name) for name in links}, links)
        install.main([str(self.root), "--uninstall"])
        self.assertEqual(self.found(), [])

    def test_what_the_system_refuses_is_told_in_a_line(self):
        full = OSError(errno.ENOSPC, os.strerror(errno.ENOSPC), "some file")
        with mock.patch.object(putting.replacing, "copy", side_effect=full), self.assertRaises(SystemExit) as stopped:
            self.install(self.root, "--no-python")
        self.assertRegex(str(stopped.exception), ": .*No space left on device: 'some file'$")
        with mock.patch.object(pathlib.Path, "unlink", side_effect=full), self.assertRaises(SystemExit):
            install.main([str(self.root), "--uninstall"])

    def test_no_python(self):
        self.install(self.root, "--no-python")
        self.assertEqual([name for name in self.found() if "python3" in name], [])

    def test_the_folder_of_packages_is_that_which_the_python_reads(self):
        debian = ["/usr/local/lib/python3.11/dist-packages", "/usr/lib/python3/dist-packages"]
        python = {**self.python, "folders": debian}
        wanted = {
            "/usr": "lib/python3/dist-packages", "/usr/local": "lib/python3.11/dist-packages",
            "/opt/vectors": "lib/python3.11/site-packages",
        }  # fmt: skip
        self.assertEqual({prefix: package.folder(python, pathlib.Path(prefix)) for prefix in wanted}, wanted)
        fedora = {**self.python, "folders": ["/usr/lib64/python3.11/site-packages", "/usr/lib/python3.11/site-packages"]}
        self.assertEqual(package.folder(fedora, pathlib.Path("/usr")), "lib64/python3.11/site-packages")


class ForProcessors(Whole):
    """The library for some processors, beside the one for all."""

    FOLDER = "lib/glibc-hwcaps/x86-64-v3"

    def build(self, work):
        super().build(work)
        made = work / archive.for_processor("x86-64-v3") / archive.FULL
        made.parent.mkdir(parents=True)
        made.write_text("for x86-64-v3")

    def test_it_stands_where_the_loader_looks_first_and_is_removed(self):
        self.install(self.root, "--no-python", "--also", "x86-64-v3")
        self.assertEqual((self.root / self.FOLDER / archive.SONAME).read_text(), "for x86-64-v3")
        self.assertEqual((self.root / "lib" / archive.SONAME).read_text(), archive.FULL)
        # an install without it leaves no library of an earlier version there
        self.install(self.root, "--no-python")
        self.assertEqual([name for name in self.found() if "hwcaps" in name and (self.root / name).is_file()], [])
        install.main([str(self.root), "--uninstall"])
        self.assertEqual(self.found(), [])

    def test_processors_that_the_loader_has_no_folder_for_are_refused(self):
        with mock.patch("sys.stderr"), self.assertRaises(SystemExit) as caught:
            self.install(self.root, "--also", "haswell")
        self.assertEqual(caught.exception.code, 2)

    def test_an_archive_for_them_has_to_be_given_where_the_usual_one_is(self):
        given = {"CVL_PROGRAM": "/some/cvl", "CVL_ARCHIVE": "/some/libcvl_c.a", "CVL_ARCHIVE_V3": ""}
        with mock.patch.dict(os.environ, given):
            build = building.Build("", 1, "", ["x86-64-v3"])
            with self.assertRaisesRegex(SystemExit, "CVL_ARCHIVE_V3 none for x86-64-v3"):
                build.exports_for("x86-64-v3", self.top)
            os.environ["CVL_ARCHIVE_V3"] = "/some/other.a"
            self.assertEqual(build.exports_for("x86-64-v3", self.top), pathlib.Path("/some/other.a"))


class Read(Whole):
    """What pkg-config and CMake read of an installed library."""

    def of_pkg_config(self, path):
        """The variables and fields of cvl.pc, each as pkg-config reads it, with the way up out of it."""
        lines = [line for line in path.read_text().split("\n") if line and line[0] != "#"]
        pairs = [re.fullmatch(r"(\w[\w.]*)(?:=|: )(.*)", line) for line in lines]
        said = {"pcfiledir": str(path.parent), **{found[1]: found[2] for found in pairs}}
        for _ in said:
            said = {name: re.sub(r"\$\{(\w+)\}", lambda name: said[name.group(1)], value) for name, value in said.items()}
        root = path.parents[len(path.relative_to(self.top / "opt/vectors").parents) - 1]
        return {name: re.sub(rf"{re.escape(str(path.parent))}(/\.\.)+", str(root), value) for name, value in said.items()}

    def of_cmake(self, path):
        """The properties of each target of the package of CMake."""
        found = re.findall(r"set_target_properties\((\S+) PROPERTIES\s+([^)]*)\)", path.read_text())
        return {target: dict(re.findall(r'(\w+) "?([^"\s]+)"?', properties)) for target, properties in found}

    def test_what_compilers_are_told_leads_to_the_prefix(self):
        root = self.top / "opt/vectors"
        for libdir, options in (("lib", ()), ("lib64", ["--rpath"]), ("lib/x86_64-linux-gnu", ["--rpath"])):
            self.install("/opt/vectors", "--no-python", "--libdir", libdir, *options, destination=self.top)
            said, folder = self.of_pkg_config(root / libdir / "pkgconfig/cvl.pc"), root / libdir
            places = {"prefix": str(root), "libdir": str(folder), "includedir": f"{root}/include"}
            self.assertEqual({name: said[name] for name in places}, places)
            rpath = f" -Wl,-rpath,{folder}" if options else ""
            fields = {"Libs": f"-L{folder}{rpath} -lcvl", "Libs.private": "-pthread", "Cflags": f"-I{root}/include"}
            self.assertEqual({name: said[name] for name in fields}, fields)
            config = (folder / "cmake/cvl/cvl-config.cmake").read_text()
            up = re.search(r'"\$\{_cvl_folder\}/\.\./([./]+)"', config).group(1)
            self.assertEqual(pathlib.Path(os.path.normpath(folder / "cmake/cvl" / up)), root)
            self.assertNotIn("@", config + (folder / "cmake/cvl/cvl-config-version.cmake").read_text() + "".join(said.values()))

    def test_what_compilers_are_told_of_the_calls_over_ranks_leads_to_the_prefix(self):
        root = self.top / "opt/vectors"
        for libdir, options in (("lib", ()), ("lib/x86_64-linux-gnu", ["--rpath"])):
            self.install("/opt/vectors", "--no-python", "--mpi", "--libdir", libdir, *options, destination=self.top)
            said, folder = self.of_pkg_config(root / libdir / "pkgconfig/cvl-mpi.pc"), root / libdir
            rpath = f" -Wl,-rpath,{folder}" if options else ""
            fields = {"Requires": "cvl = 1.0.0", "Libs": f"-L{folder}{rpath} -lcvl_mpi", "Cflags": f"-I{root}/include"}
            self.assertEqual({name: said.get(name) for name in fields}, fields)
            config = (folder / "cmake/cvl/cvl-mpi.cmake").read_text()
            up = re.search(r'"\$\{_cvl_mpi_folder\}/\.\./([./]+)"', config).group(1)
            self.assertEqual(pathlib.Path(os.path.normpath(folder / "cmake/cvl" / up)), root)
            target = self.of_cmake(folder / "cmake/cvl/cvl-mpi.cmake")["cvl::mpi"]
            self.assertEqual(target["IMPORTED_LOCATION"], f"${{_cvl_mpi_prefix}}/{libdir}/libcvl_mpi.so.1.0.0")
            self.assertEqual(target["INTERFACE_LINK_LIBRARIES"], "cvl::cvl;MPI::MPI_C")
            self.assertNotIn("@", config + "".join(said.values()))

    def test_the_archive_and_no_other_target_of_cmake_links_threads(self):
        self.install("/opt/vectors", "--no-python", destination=self.top)
        said = self.of_cmake(self.top / "opt/vectors/lib/cmake/cvl/cvl-config.cmake")
        linked = {target: properties.get("INTERFACE_LINK_LIBRARIES") for target, properties in said.items()}
        self.assertEqual(linked, {"cvl::cvl": None, "cvl::cvl_static": "-pthread", "cvl::cvl_fortran": "cvl::cvl"})
        files = {target: properties.get("IMPORTED_LOCATION") for target, properties in said.items()}
        self.assertEqual(files["cvl::cvl"], "${_cvl_libraries}/libcvl.so.1.0.0")
        self.assertEqual(files["cvl::cvl_static"], "${_cvl_libraries}/libcvl.a")


class ByPkgConfig(Used):
    """A program that is compiled by what pkg-config says."""

    def test_pkg_config(self):
        self.install(self.root, "--no-python")
        compiles = 'eval "cc -o program program.c $(pkg-config --cflags --libs cvl)"'
        self.run_in_shell(f"{compiles}; ./program", status=7, LD_LIBRARY_PATH=f"{self.root}/lib")
        self.assertIn("-pthread", self.run_in_shell("pkg-config --static --libs cvl").split())
        # the folder of the library, as the page says it, and of itself with --rpath
        rpath = "-Wl,-rpath,$(pkg-config --variable=libdir cvl)"
        self.run_in_shell(f'eval "cc -o program program.c $(pkg-config --cflags --libs cvl) {rpath}"; ./program', status=7)
        self.install(self.root, "--no-python", "--rpath")
        self.run_in_shell(f"{compiles}; ./program", status=7)


class Stopped(Tree):
    """The command, stopped before anything is built."""

    def told(self, *given, **variables):
        """What the command says and stops at, with nothing built, nothing put and nothing removed."""

        def run(*given):
            raise AssertionError("something was built or removed before all was looked at")

        unset = {name: "" for name in ("CC", "CPPFLAGS", "CFLAGS", "LDFLAGS", "DESTDIR")}
        environment = {**unset, "CVL_PROGRAM": "a", "CVL_ARCHIVE": "b", **{name: str(said) for name, said in variables.items()}}
        with mock.patch.object(building.Build, "run", run), mock.patch.dict(os.environ, environment), \
                mock.patch.object(removing, "uninstall", run), mock.patch.object(generated, "below", lambda folder: written()), \
                mock.patch.object(checks, "command", lambda *given: None), mock.patch("sys.stderr"), \
                mock.patch.object(pages, "site", lambda folder: {}), self.assertRaises(SystemExit) as stopped:  # fmt: skip
            install.main([str(word) for word in given])
        self.assertFalse(self.root.exists())
        return str(stopped.exception)

    def passes(self, *given, **variables):
        """Asks that the command stops at nothing up to the build, or to what it removes."""
        with self.assertRaisesRegex(AssertionError, "something was built or removed"):
            self.told(*given, **variables)


class Prefixes(Stopped):
    """Which prefixes are refused."""

    def setUp(self):
        super().setUp()
        self.checkout = self.top.resolve() / "above/checkout"
        self.checkout.mkdir(parents=True)
        patched = mock.patch.object(proved, "TOP", self.checkout)
        patched.start()
        self.addCleanup(patched.stop)
        self.addCleanup(os.chdir, os.getcwd())
        os.chdir(self.checkout)

    def check_refused(self, wanted, *given, **variables):
        for more in ((), ("--uninstall",)):
            self.assertIn(wanted, self.told(*given, *more, **variables), given)

    def test_none(self):
        self.check_refused("PREFIX is empty", "")
        self.check_refused("PREFIX is empty", "", DESTDIR=self.top)

    def test_the_root_of_the_file_system(self):
        for given in ("/", "//", "/.", "/usr/.."):
            self.check_refused("PREFIX is the root of the file system", given)
            self.check_refused("PREFIX is the root of the file system", given, DESTDIR=self.top)

    def test_this_checkout(self):
        (self.top / "link").symlink_to(self.checkout)
        (self.top / "over").symlink_to(self.checkout.parent)
        same = (self.checkout, f"/{self.checkout}", ".", "./", "new/..", "../checkout", "../../link", "../../over/checkout")
        for given in same:
            self.check_refused("is this checkout", given)
        self.check_refused("is this checkout", "/checkout", DESTDIR=self.checkout.parent)
        self.check_refused("is this checkout", self.checkout, DESTDIR="/")

    def test_a_folder_above_this_checkout(self):
        (self.top / "over").symlink_to(self.checkout.parent)
        for given in (self.checkout.parent, "..", "../..", "../new/..", self.top / "over", self.checkout.parents[2]):
            self.check_refused("is a folder above this checkout", given)
        self.check_refused("is a folder above this checkout", "/above", DESTDIR=self.top)

    def test_folders_beside_and_below_are_none(self):
        for given in ("below", "../checkout2", "../check", self.root):
            self.passes(given, "--uninstall")
        # where a package is made the prefix names no folder of this machine
        self.passes(self.checkout, "--uninstall", DESTDIR=self.root)

    def test_what_shells_and_other_readers_take_apart(self):
        for letter in prefixes.SPECIAL:
            self.assertIn(f"has {letter} in it", self.told(f"{self.root}{letter}b"))
            self.passes(f"{self.root}{letter}b", "--uninstall")
        for letter in "\n\t\x1b\x7f\u2028\udce9":
            self.assertIn("cannot be printed", self.told(f"{self.root}{letter}b"))
        for libdir in ("a b", "a$b", "a'b", "a\nb", "a;b", "\xe9"):
            self.assertIn("may have only letters", self.told(self.root, "--libdir", libdir))


class Checked(Stopped):
    """What is told before anything is built."""

    def python(self, tells):
        return self.program("python", f"cat << 'END'\n{tells}\nEND")

    def test_words(self):
        for given in ("more",), ("--no-such",), ("--jobs", "many"), ("--pyth", "python3"):
            self.assertEqual(self.told(self.root, *given), "2")
        with mock.patch("builtins.print"):
            self.assertEqual(self.told(), "2")
        self.assertIn("at least 1", self.told(self.root, "--jobs", "0"))
        self.assertIn("is not below", self.told(self.root, "--libdir", "../lib"))
        self.assertIn("is not below", self.told(self.root, "--libdir", "/lib"))

    def test_a_prefix_that_cannot_be_written(self):
        self.write("file")
        self.assertIn(f"{self.top}/file is not a folder", self.told(self.top / "file/below"))
        closed = self.top / "closed"
        closed.mkdir(mode=0o555)
        with mock.patch.object(obstacles.os, "access", lambda folder, mode: folder != closed):
            self.assertIn("cannot be written", self.told(closed / "prefix"))

    def test_a_checkout_that_cannot_be_written_wants_a_folder_for_the_build(self):
        with mock.patch.object(obstacles.os, "access", lambda folder, mode: folder != TOP / "crates"):
            self.assertIn("crates cannot be written", self.told(self.root, "--no-python", CVL_PROGRAM="", CVL_ARCHIVE=""))
            # in a folder of one's own all is well up to the build
            self.passes(self.root, "--no-python", "--build", self.top / "build", CVL_PROGRAM="", CVL_ARCHIVE="")

    def test_a_folder_for_the_build_that_is_somebody_elses(self):
        self.assertIn("in this checkout", self.told(self.root, "--no-python", "--build", TOP))
        self.assertIn("in this checkout", self.told(self.root, "--no-python", "--build", TOP / "new/build"))
        (self.top / "build").mkdir()
        (self.top / "build/source").symlink_to(TOP)
        self.assertIn("in this checkout", self.told(self.root, "--no-python", "--build", self.top / "build"))
        self.write("other/source/text")
        self.assertIn("is no copy of a checkout", self.told(self.root, "--no-python", "--build", self.top / "other"))
        building.copied(self.write("small/text").parent, self.top / "earlier/source")
        self.passes(self.root, "--no-python", "--build", self.top / "earlier")

    def test_what_stands_in_the_way(self):
        for name in ("prefix/bin", "prefix/lib/libcvl.a/file", "prefix/lib/python3.9"):
            self.write(name)
        told = self.told(self.top / "prefix", "--no-python")
        self.assertIn(f"{self.top}/prefix/bin is not a folder\n{self.top}/prefix/lib/libcvl.a is a folder", told)
        python = '{"version": [3, 9], "tag": "cpython-39", "folders": [], "bits": 64}'
        (self.top / "prefix/bin").unlink()
        (self.top / "prefix/lib/libcvl.a/file").unlink()
        (self.top / "prefix/lib/libcvl.a").rmdir()
        self.assertIn("lib/python3.9 is not a folder", self.told(self.top / "prefix", "--python", self.python(python)))

    def test_a_compiler_that_does_not_work(self):
        self.assertIn("cannot be run", self.told(self.root, "--no-python", CC="no-such-compiler"))
        self.assertIn("no-such-option", self.told(self.root, "--no-python", CC="cc --no-such-option"))
        self.assertIn("no-such-option", self.told(self.root, "--no-python", CFLAGS="--no-such-option"))
        self.assertIn("no-such-option", self.told(self.root, "--no-python", LDFLAGS="--no-such-option"))
        self.assertIn("no-such-machine", self.told(self.root, "--no-python", "--cpu", "no-such-machine"))
        self.assertIn("cannot be run", self.told(self.root, "--no-python", OBJCOPY="no-such-objcopy"))

    def test_a_compiler_for_another_machine(self):
        heads = {
            "x86": r"\177ELF\001\001\001aaaaaaaaaaa\003\000", "aarch64": r"\177ELF\002\001\001aaaaaaaaaaa\267\000",
            "x32": r"\177ELF\001\001\001aaaaaaaaaaa\076\000", "s390x": r"\177ELF\002\002\001aaaaaaaaaaa\000\026",
            "riscv64": r"\177ELF\002\001\001aaaaaaaaaaa\363\000", "macos": r"\317\372\355\376\007\000\000\001", "nothing": "",
        }  # fmt: skip
        for machine, head in heads.items():
            other = self.program(machine, f"""while [ "$1" != -o ]; do shift; done; printf '{head}' > "$2" """)
            self.assertIn("another machine", self.told(self.root, "--no-python", CC=f"'{other}'"), machine)

    def test_a_compiler_with_options(self):
        self.passes(self.root, "--no-python", CC="cc -m64")

    def test_a_python_that_cannot_build(self):
        self.assertIn("cannot be run", self.told(self.root, "--python", self.top / "nowhere"))
        self.assertIn("does not run", self.told(self.root, "--python", self.program("broken", "echo broken >&2; exit 1")))
        tells = '{"version": [3, %d], "tag": "cpython-3", "folders": [], "bits": %d}'
        self.assertIn("3.8 is needed", self.told(self.root, "--python", self.python(tells % (7, 64))))
        self.assertIn("of 32 bits", self.told(self.root, "--python", self.python(tells % (9, 32))))
        lacks = (
            f'for word in "$@"; do [ "$word" != --check ] || {{ echo no headers >&2; exit 1; }}; done; echo \'{tells % (9, 64)}\''
        )
        self.assertIn("no headers", self.told(self.root, "--python", self.program("lacking", lacks)))


# a name of a file or folder: one with a slash that begins as those of the repository, a page, or a command at its top
FOLDERS = "crates|bindings|docs|examples|include|tests|\\.ci"
NAMED = re.compile(rf"(?<![\w/.~-])(?:\.{{0,2}}/?(?:{FOLDERS})/[\w./*-]*\w|[\w-]+\.md|\./install|\./cvl(?!-))(?![\w/])")
LINK = re.compile(r"\[[^\]]*\]\(([^)]*)\)")

# what a page says that names files of the repository throughout
OF_THE_REPOSITORY = "the files that this page names are in the repository"


# what a release has beside what it installs
OF_RELEASES = {"PROVED.md"}


class Installed:
    """What pages may name and lead to: files below the folder of pages, and headers."""

    def __init__(self, names):
        self.names = {"/".join(name.split("/")[:k]) for name in names for k in range(1, name.count("/") + 2)}

    def has(self, name):
        """Whether a page for users may name this file: from where it stands, from the folder of all pages, or a header."""
        beside = os.path.normpath(f"{pages.DOC}/{pages.USER}/{name}")
        return not {beside, os.path.normpath(f"{pages.DOC}/{name}"), name}.isdisjoint(self.names)

    def without(self, text):
        """The names and the links in a text of what is not there. A paragraph, with the code or table below it, may name
        what it says to be in the repository, and a page may say that of all."""
        targets = [target.split("#")[0] for target in LINK.findall(text) if not target.startswith(("#", "http"))]
        whole = OF_THE_REPOSITORY in text.lower()
        said = [
            part
            for part in re.split(r"\n\n(?!    |\|)", text)
            if not whole and not re.search(r"\b(?:repository|checkout)\b", part)
        ]
        found = [name for name in targets if name] + NAMED.findall(LINK.sub("", "\n\n".join(said)))
        return [name for name in found if not self.has(name) and name not in OF_RELEASES]


class Pages(Tree):
    """What the installed pages and headers name is installed."""

    def setUp(self):
        super().setUp()
        self.files = pages.files()
        headers = {f"include/{path.name}": path for path in (TOP / "include").glob("*.h*")}
        # the last two are there if --mpi puts them
        drawn = {
            "include/cvl.f90": "bindings/fortran/cvl.f90",
            "include/cvl_mpi.h": "bindings/mpi/cvl_mpi.h",
            "include/cvl_mpi.f90": "bindings/fortran/cvl_mpi.f90",
        }
        self.headers = {**headers, **{name: written() / path for name, path in drawn.items()}}
        self.crates = {str(path): path for path in (TOP / "bindings/rust").glob("**/README.md")}
        self.manual = {
            "share/man/man1/cvl.1": TOP / "docs/man/cvl.1",
            **{f"share/man/man3/{path.name}": path for path in (written() / "docs/man").glob("*.3")},
        }
        self.installed = Installed({*self.files, *self.headers})

    def test_each_name_is_there(self):
        for name, path in {**self.files, **self.headers, **self.manual, **self.crates}.items():
            if name.endswith((".md", ".h", ".hpp", ".f90", ".1", ".3")):
                # brackets in C++ are no links
                text = path.read_text().replace("](", "] (") if name.endswith(".hpp") else path.read_text()
                self.assertEqual(self.installed.without(text), [], name)

    def test_a_name_that_is_not_there_is_reported(self):
        wrong = (
            "see `crates/cvl_c`",
            "[page](no_page.md)",
            "run ./install",
            "(docs/user/no_page.md)",
            "* examples/c/run does",
            "[dev](../dev/DECISIONS.md)",
        )
        for text in (
            *wrong,
            "    pip install ./bindings/python",
            "In a checkout\n\nRun ./install",
            "In a checkout [a page](../dev/look-back.md)",
        ):
            self.assertTrue(self.installed.without(text), text)
        right = (
            "`docs/user/calls.md`",
            "[calls](calls.md#index)",
            "examples/c/quicksort.c",
            "[above](#above)",
            "include/cvl.h",
            "[it](../../examples/c/quicksort.c)",
        )
        for text in (*right, "In a checkout run ./install", "In a checkout\n\n    ./install"):
            self.assertEqual(self.installed.without(text), [], text)

    def test_the_pages_are_those_of_the_repository(self):
        for path in (TOP / pages.USER).rglob("*"):
            if path.is_file():
                self.assertEqual(self.files[f"{pages.DOC}/{path.relative_to(TOP)}"], path)

    def site(self, maker, makes):
        """Which files of a site are installed, and what is said, where Sphinx is `maker` and makes two files, or fails."""

        def build(folder):
            (folder / "calls").mkdir(parents=True)
            for name in ("index.html", "calls/add_rez.html"):
                (folder / name).write_text("page")
            return makes

        with mock.patch.object(pages.making, "maker", lambda: maker), mock.patch.object(pages.making, "build", build), mock.patch(
            "builtins.print"
        ) as said:
            return pages.site(self.top / "html"), " ".join(str(word) for call in said.call_args_list for word in call.args)

    def test_the_site_is_installed_where_it_can_be_made(self):
        found, said = self.site(("python3", "Sphinx 5"), True)
        names = {f"share/doc/cvl/html/{name}": self.top / "html" / name for name in ("index.html", "calls/add_rez.html")}
        self.assertEqual((found, said), (names, ""))

    def test_without_a_site_the_rest_is_installed_and_that_is_said(self):
        found, said = self.site(None, True)
        self.assertEqual(found, {})
        self.assertIn("python3-sphinx", said)
        found, said = self.site(("python3", "Sphinx 5"), False)
        self.assertEqual(found, {})
        self.assertIn("could not make", said)

    def test_what_an_example_includes_is_there(self):
        sources = {name: path.read_text() for name, path in self.files.items() if name.endswith((".c", ".cpp", ".h"))}
        for name, text in sources.items():
            for included in re.findall(r'^#include "(.*)"$', text, re.M):
                self.assertTrue(
                    f"{os.path.dirname(name)}/{included}" in sources or f"include/{included}" in self.headers,
                    f"{name}: {included}",
                )

    def test_what_help_names_is_there(self):
        told = (TOP / "crates/test_runs/src/programs.rt").read_text()
        named = re.findall(r"docs/\w+/\w+\.md", re.search(r'const HELP: &str = "(.*?)";', told, re.S).group(1))
        self.assertTrue(named)
        for name in named:
            self.assertIn(f"{pages.DOC}/{name}", self.files)

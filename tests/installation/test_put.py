"""What stands below a root once files were put there, what their lists say, what is removed and what is left alone, and what
stands in the way: on small trees of files, in some seconds."""

import contextlib
import io
import os
import pathlib
import re
import signal
import stat
import sys
from unittest import mock

sys.dont_write_bytecode = True
TOP = pathlib.Path(__file__).resolve().parents[2]
sys.path.insert(0, str(TOP / "bindings"))

from installer import lists, obstacles, putting, removing, replacing
from trees import Tree

LIST = "share/cvl/installed"


class Putting(Tree):
    """A root into which small files are put."""

    def put(self, *names, part="", text="text", links=None):
        source = self.write("source", text)
        putting.put(self.root, {part: ({name: source for name in names}, links or {})})

    def uninstall(self):
        """Uninstalls, and returns what that says."""
        with contextlib.redirect_stderr(io.StringIO()) as told:
            removing.uninstall(self.root)
        return told.getvalue()

    def without_sums(self, *names):
        """Has lists be as earlier versions wrote them."""
        for name in names or [LIST]:
            path = self.root / name
            lines = [re.sub("^[0-9a-f]{64}  ", "", line) for line in path.read_text().splitlines()]
            path.write_text("".join(f"{line}\n" for line in sorted([*lines, name])))

    def killed_at(self, holder, function, number, what, *given, **more):
        """Does something in a process that is killed where it makes the call of this number of a function."""
        calls, before = [], getattr(holder, function)

        def counted(*given, **more):
            calls.append(given)
            if len(calls) == number:
                os.kill(os.getpid(), signal.SIGKILL)
            return before(*given, **more)

        child = os.fork()
        if child == 0:
            with contextlib.suppress(BaseException), mock.patch.object(holder, function, counted):
                what(*given, **more)
            os._exit(1)
        self.assertEqual(os.waitpid(child, 0)[1], signal.SIGKILL)

    def killed(self, number, *names, **more):
        """Puts files in a process that is killed before the file of this number is moved to its place."""
        self.killed_at(replacing.os, "replace", number, self.put, *names, **more)

    def temporary(self):
        """What processes that were killed have left."""
        return [name for name in self.found() if os.path.basename(name).startswith(".cvl-")]


class Put(Putting):
    """What stands below a root, and is removed."""

    def test_uninstalling_leaves_what_was_there(self):
        self.write("root/bin/other")
        self.write("root/lib/python3.9/site-packages/__pycache__/other.pyc")
        self.write("root/lib/python3.9/site-packages/cvl/__pycache__/another.cpython-39.pyc")
        (self.root / "share/man").mkdir(parents=True)
        before = self.found()
        self.put("bin/cvl", "share/man/man1/cvl.1", "lib/python3.9/site-packages/cvl/__init__.py")
        self.write("root/lib/python3.9/site-packages/cvl/__pycache__/__init__.cpython-39.pyc")
        self.assertEqual(self.uninstall(), "")
        self.assertEqual(self.found(), before)

    def test_uninstalling_leaves_nothing_of_its_own(self):
        package = "lib/python3.9/site-packages/cvl"
        self.put("bin/cvl", f"{package}/__init__.py", f"{package}/calls.py", links={"lib/libcvl.so": "libcvl.so.1"})
        self.assertEqual(os.readlink(self.root / "lib/libcvl.so"), "libcvl.so.1")
        for made in ("__init__.cpython-39.pyc", "__init__.cpython-39.opt-2.pyc", "calls.cpython-310.pyc"):
            self.write(f"root/{package}/__pycache__/{made}")
        self.assertEqual(self.uninstall(), "")
        self.assertEqual(self.found(), [])

    def test_uninstalling_what_is_not_there_is_told(self):
        with self.assertRaisesRegex(SystemExit, "it is unknown what was installed"):
            self.uninstall()

    def test_a_newer_version_removes_what_it_has_no_more(self):
        self.put("bin/cvl", "include/old.h", "share/old/page")
        self.put("bin/cvl", "include/cvl.h")
        files = ["bin/cvl", "include/cvl.h", LIST]
        self.assertEqual(self.found(), sorted([*files, "bin", "include", "share", "share/cvl"]))
        self.uninstall()
        self.assertEqual(self.found(), [])

    def test_the_package_for_one_python_stands_beside_that_for_another(self):
        of = {tag: f"lib/python3.{tag[-2:]}/site-packages/cvl/__init__.py" for tag in ("cpython-311", "cpython-312")}
        for tag, name in of.items():
            self.put("bin/cvl")
            self.put(name, "lib/python3/shared.py", part=tag)
        self.assertTrue(all((self.root / name).exists() for name in of.values()))
        # what the second has no more, the first has still
        self.put(of["cpython-312"], part="cpython-312")
        self.assertTrue((self.root / "lib/python3/shared.py").exists())
        self.uninstall()
        self.assertEqual(self.found(), [])

    def test_modes_whatever_the_mask_is(self):
        os.umask(0o022)
        self.put("bin/cvl", "include/cvl.h", "lib/libcvl.so.1.0.0", "share/doc/cvl/README.md")
        modes = {name: stat.S_IMODE((self.root / name).stat().st_mode) for name in self.found()}
        folders = {name for name in self.found() if (self.root / name).is_dir()}
        self.assertEqual(modes, {name: 0o755 if name in folders or name == "bin/cvl" else 0o644 for name in modes})

    def test_who_has_the_earlier_file_open_keeps_it(self):
        self.put("lib/libcvl.so.1.0.0", text="earlier")
        with open(self.root / "lib/libcvl.so.1.0.0") as file:
            self.put("lib/libcvl.so.1.0.0", text="later")
            self.assertEqual(file.read(), "earlier")
        self.assertEqual((self.root / "lib/libcvl.so.1.0.0").read_text(), "later")

    def test_the_file_is_there_at_each_moment(self):
        self.put("lib/libcvl.so.1.0.0")
        seen, library = [], self.root / "lib/libcvl.so.1.0.0"
        with mock.patch.object(replacing.shutil, "copyfile", lambda *given: seen.append(library.exists())):
            self.put("lib/libcvl.so.1.0.0")
        self.assertEqual(seen, [True])


class Stopped(Putting):
    """What is left where something stops halfway."""

    def test_what_stops_halfway_is_removed(self):
        copies, copy = [], replacing.shutil.copyfile

        def full(source, made):
            copies.append(made)
            if len(copies) == 2:
                raise OSError("there is no room")
            copy(source, made)

        with mock.patch.object(replacing.shutil, "copyfile", full), self.assertRaises(OSError):
            self.put("bin/cvl", "include/cvl.h")
        self.assertEqual(self.temporary(), [])
        self.assertTrue((self.root / "bin/cvl").exists())
        self.uninstall()
        self.assertEqual(self.found(), [])

    def test_who_is_killed_leaves_a_file_that_the_next_run_removes(self):
        names = ("bin/cvl", "include/cvl.h", "lib/libcvl.a")
        for before in (1, 2, 4, 5):
            self.killed(before, *names)
            self.assertEqual(len(self.temporary()), 1)
            self.put(*names)
            self.assertEqual(self.temporary(), [])
            self.uninstall()
            self.assertEqual([name for name in self.found() if name not in ("share", "share/cvl")], [])

    def test_who_is_killed_leaves_nothing_once_that_is_uninstalled(self):
        for before in (2, 3, 4):
            self.killed(before, "bin/cvl", "include/cvl.h", "lib/libcvl.a")
            self.assertEqual(len(self.temporary()), 1)
            self.assertEqual(self.uninstall(), "")
            self.assertEqual(self.found(), [])

    def test_a_newer_version_that_is_killed_is_removed_with_the_earlier_one(self):
        self.put("bin/cvl", "include/cvl.h", "lib/old.a", text="earlier")
        self.killed(3, "bin/cvl", "include/cvl.h", "lib/new.a", text="later")
        self.assertEqual([(self.root / name).read_text() for name in ("bin/cvl", "include/cvl.h")], ["later", "earlier"])
        self.assertEqual(self.uninstall(), "")
        self.assertEqual(self.found(), [])

    def test_uninstalling_that_is_killed_goes_on(self):
        for number in (1, 2, 3):
            self.put("bin/cvl", "share/doc/cvl/README.md", "share/zsh/_cvl")
            self.killed_at(pathlib.Path, "unlink", number, removing.uninstall, self.root)
            self.assertEqual(self.uninstall(), "")
            self.assertEqual(self.found(), [])

    def test_only_names_of_its_own_are_removed_and_only_where_it_writes(self):
        names = (".cvl-mine", ".cvl-ABCDEFGH", ".cvl-abcdefghi", "cvl-abcdefgh", ".cvl-abcdefgh/file")
        kept = [self.write(f"root/bin/{name}") for name in names]
        kept += [self.write("root/.cvl-abcdefg1"), self.write("root/other/.cvl-abcdefg2"), self.write(".cvl-abcdefg3")]
        gone = self.write("root/bin/.cvl-a_cdefg4")
        self.put("bin/cvl")
        self.assertFalse(gone.exists())
        self.assertEqual([path for path in kept if not path.exists()], [])
        gone = self.write("root/bin/.cvl-a_cdefg5")
        self.uninstall()
        self.assertFalse(gone.exists())
        self.assertEqual([path for path in kept if not path.exists()], [])


class LeftAlone(Putting):
    """What uninstalling does not remove, and names."""

    def check_left(self, *names):
        """Uninstalls, and asks that these files are left and named, and no others."""
        told = self.uninstall().splitlines()
        left = [name for name in self.found() if not (self.root / name).is_dir() or (self.root / name).is_symlink()]
        self.assertEqual(left, sorted(names))
        self.assertEqual(len(told), len(names))
        for name, line in zip(sorted(names), told):
            self.assertIn(f"{self.root / name} is not as it was installed", line)

    def test_a_file_that_was_changed(self):
        self.put("bin/cvl", "include/cvl.h", "share/doc/cvl/README.md")
        self.write("root/include/cvl.h", "text of somebody else")
        self.check_left("include/cvl.h")
        self.assertEqual(self.found(), ["include", "include/cvl.h"])

    def test_a_module_that_was_changed_is_left_with_what_python_made_of_it(self):
        self.put("lib/cvl/calls.py", "lib/cvl/fault.py")
        self.write("root/lib/cvl/calls.py", "another text")
        for name in ("calls", "fault"):
            self.write(f"root/lib/cvl/__pycache__/{name}.cpython-311.pyc")
        self.uninstall()
        wanted = ["lib", "lib/cvl", "lib/cvl/__pycache__", "lib/cvl/__pycache__/calls.cpython-311.pyc", "lib/cvl/calls.py"]
        self.assertEqual(self.found(), wanted)

    def test_what_stands_in_its_stead(self):
        self.put("bin/cvl", "bin/link", "bin/folder", "bin/none", links={"lib/libcvl.so": "libcvl.so.1", "lib/file": "text"})
        same = self.write("same", "text")
        for name in ("bin/link", "bin/folder", "bin/none", "lib/libcvl.so", "lib/file"):
            (self.root / name).unlink()
        # a link to the same bytes, a folder, another link, and a file with what the link said
        (self.root / "bin/link").symlink_to(same)
        (self.root / "bin/folder").mkdir()
        (self.root / "lib/libcvl.so").symlink_to("libcvl.so.2")
        (self.root / "lib/file").write_text("text")
        told = self.uninstall()
        self.assertEqual(self.found(), ["bin", "bin/folder", "bin/link", "lib", "lib/file", "lib/libcvl.so"])
        named = re.findall(r"root/(\S+) is not as", told)
        self.assertEqual(sorted(named), ["bin/folder", "bin/link", "lib/file", "lib/libcvl.so"])
        self.assertTrue(same.exists())

    def test_a_file_that_a_newer_version_no_longer_has(self):
        self.put("bin/cvl", "include/old.h", "include/older.h")
        self.write("root/include/old.h", "text of somebody else")
        with contextlib.redirect_stderr(io.StringIO()) as told:
            self.put("bin/cvl")
        self.assertIn(f"{self.root}/include/old.h is not as it was installed", told.getvalue())
        self.assertNotIn("older.h", told.getvalue())
        # now it is no longer on the list
        self.assertEqual(self.uninstall(), "")
        self.assertEqual(self.found(), ["include", "include/old.h"])

    def test_a_line_without_a_sum_beside_lines_with_one(self):
        self.write("root/bin/other")
        self.put("bin/cvl")
        with open(self.root / LIST, "a") as file:
            file.write("bin/other\n")
        self.check_left("bin/other")

    def test_a_list_of_an_earlier_version_has_no_sums(self):
        self.write("root/bin/other")
        self.put("bin/cvl", "bin/folder", "lib/cvl/calls.py", links={"lib/libcvl.so": "libcvl.so.1"})
        self.put("lib/python/cvl.py", part="cpython-311")
        self.without_sums(LIST, f"{LIST}-cpython-311")
        self.write("root/lib/cvl/calls.py", "changed")
        (self.root / "bin/folder").unlink()
        (self.root / "bin/folder").mkdir()
        self.assertEqual(self.uninstall(), f"install: left alone, since {self.root}/bin/folder is not as it was installed\n")
        self.assertEqual(self.found(), ["bin", "bin/folder", "bin/other"])

    def test_a_newer_version_over_one_without_sums(self):
        self.put("bin/cvl", "include/old.h")
        self.without_sums()
        self.put("bin/cvl", "include/new.h", text="later")
        self.assertFalse((self.root / "include/old.h").exists())
        self.write("root/include/new.h", "changed")
        self.check_left("include/new.h")

    def test_a_newer_version_over_one_without_sums_that_is_killed(self):
        self.put("bin/cvl", "include/old.h", text="earlier")
        self.without_sums()
        self.killed(2, "bin/cvl", "include/new.h", text="later")
        self.assertEqual(self.uninstall(), "")
        self.assertEqual(self.found(), [])

    def test_another_file_beside_the_lists_is_no_list(self):
        self.put("bin/cvl")
        self.write("root/bin/other")
        self.write("root/share/cvl/installed.txt", "bin/other\n")
        self.uninstall()
        self.assertEqual(self.found(), ["bin", "bin/other", "share", "share/cvl", "share/cvl/installed.txt"])


class Outside(Putting):
    """Lines of a list that lead out of the root, and folders that do."""

    def setUp(self):
        super().setUp()
        self.put("bin/cvl", "lib/libcvl.a")
        self.write("beside/file", "text")
        self.write("beside/module.py", "text")
        self.write("beside/__pycache__/module.cpython-311.pyc")
        (self.top / "beside/empty").mkdir()
        (self.root / "out").symlink_to(self.top / "beside")
        (self.root / "lib/out").symlink_to("../../beside/empty")
        self.before = self.found(self.top / "beside")
        self.lines = ["../beside/file", "bin/../../beside/file", f"{self.top}/beside/file", "out/file", "out/module.py"]
        self.lines += [".", "..", "/", "bin/\0"]
        self.folders = ["../beside/empty/", f"{self.top}/beside/empty/", "out/empty/", "../", "./"]

    def check_not_followed(self, told):
        self.assertEqual(self.found(self.top / "beside"), self.before)
        for line in (*self.lines, *self.folders):
            self.assertIn(f"{line!r} leads out of {self.root}", told)

    def extended(self, lines):
        with open(self.root / LIST, "a") as file:
            file.write("".join(f"{line}\n" for line in [*lines, *self.folders, "lib/out/"]))

    def test_with_the_sums_of_what_is_there(self):
        its_sum = lists.sum_of_file(self.top / "beside/file")
        self.extended(f"{its_sum}  {line}" for line in self.lines)
        self.check_not_followed(self.uninstall())
        self.assertEqual(self.found(), ["lib", "lib/out", "out"])

    def test_without_sums(self):
        self.without_sums()
        self.extended(self.lines)
        self.check_not_followed(self.uninstall())
        self.assertEqual(self.found(), ["lib", "lib/out", "out"])

    def test_where_a_newer_version_is_installed(self):
        its_sum = lists.sum_of_file(self.top / "beside/file")
        self.extended(f"{its_sum}  {line}" for line in self.lines)
        with contextlib.redirect_stderr(io.StringIO()) as told:
            self.put("bin/cvl")
        self.check_not_followed(told.getvalue())
        self.assertNotIn("beside", (self.root / LIST).read_text())

    def test_what_python_made_elsewhere(self):
        self.put("lib/module.py")
        (self.root / "lib/__pycache__").symlink_to(self.top / "beside/__pycache__")
        self.uninstall()
        self.assertEqual(self.found(self.top / "beside"), self.before)

    def test_files_of_a_killed_run(self):
        self.write("beside/.cvl-abcdefgh")
        self.extended(["0" * 64 + "  out/file"])
        self.uninstall()
        self.assertTrue((self.top / "beside/.cvl-abcdefgh").exists())

    def test_nothing_is_put_through_a_link_that_leads_out(self):
        with self.assertRaisesRegex(SystemExit, re.escape(f"{self.root}/out leads out of {self.root}")):
            self.put("bin/cvl", "out/new")
        self.assertEqual(self.found(self.top / "beside"), self.before)

    def test_a_link_within_the_root_is_followed(self):
        (self.root / "lib64").symlink_to("lib")
        # the same file under another name: the newer version still has it
        self.put("bin/cvl", "lib64/libcvl.a")
        self.assertTrue((self.root / "lib/libcvl.a").exists())
        self.assertEqual(self.uninstall(), "")
        self.assertFalse((self.root / "lib/libcvl.a").exists())


class InTheWay(Putting):
    """What stands in the way is reported before anything is done."""

    def stopped(self, function, *given, **more):
        """What a function stops with, which has changed nothing."""
        before = self.found()
        with self.assertRaises(SystemExit) as stopped:
            function(*given, **more)
        self.assertEqual(self.found(), before)
        return str(stopped.exception)

    def test_folders_and_files_all_at_once(self):
        for name in ("root/bin/cvl/file", "root/share/cvl/installed/file", "root/include"):
            self.write(name)
        (self.root / "lib").symlink_to("nowhere")
        told = self.stopped(self.put, "bin/cvl", "include/cvl.h", "include/cvl.f90", "lib/cvl.a", "share/doc/README.md")
        for name in ("bin/cvl", "share/cvl/installed"):
            self.assertIn(f"{self.root / name} is a folder, and a file has to go there", told)
        for name in ("include", "lib"):
            self.assertEqual(told.count(f"{self.root / name} is not a folder"), 1)
        self.assertEqual(len(told.split("\n")), 4)

    def test_a_link_to_a_folder_is_replaced_where_a_file_goes(self):
        (self.root / "lib").mkdir(parents=True)
        (self.root / "lib/libcvl.so").symlink_to(self.top)
        self.put("bin/cvl", links={"lib/libcvl.so": "libcvl.so.1"})
        self.assertEqual(os.readlink(self.root / "lib/libcvl.so"), "libcvl.so.1")

    def test_a_root_that_is_a_file_or_leads_nowhere(self):
        self.root.symlink_to("nowhere")
        self.assertIn(f"{self.root} is not a folder", self.stopped(self.put, "bin/cvl"))
        self.root.unlink()
        self.write("root")
        self.assertIn(f"{self.root} is not a folder", self.stopped(self.put, "bin/cvl"))

    def test_folders_that_cannot_be_written(self):
        for name in ("bin", "share"):
            (self.root / name).mkdir(mode=0o555, parents=True)
        source = self.write("source")
        with self.without_rights():
            given = {name: source for name in ("bin/cvl", "share/doc/page", "lib/cvl.a")}
            told = self.stopped(putting.put, self.root, {"": (given, {})})
        self.assertEqual(told.split(": ", 1)[1], f"{self.root}/bin cannot be written\n{self.root}/share cannot be written")

    def test_a_root_below_a_folder_that_cannot_be_written(self):
        closed = self.top / "closed"
        closed.mkdir(mode=0o555)
        with self.without_rights():
            self.assertEqual(obstacles.of_folder(closed / "root/bin"), f"{closed} cannot be written")
            closed.chmod(0o300)
            self.assertEqual(obstacles.of_folder(closed / "root/bin"), "")
            closed.chmod(0o600)
            self.assertEqual(obstacles.of_folder(closed / "root/bin"), f"{closed} cannot be written")

    def test_a_folder_that_nothing_can_be_removed_from(self):
        self.put("bin/cvl", "include/cvl.h", "lib/cvl/calls.py")
        compiled = self.write("root/lib/cvl/__pycache__/calls.cpython-311.pyc").parent
        for closed in (self.root / "include", compiled):
            closed.chmod(0o555)
            with self.without_rights():
                self.assertIn(f"{closed} cannot be written", self.stopped(removing.uninstall, self.root))
                newer = {"": ({"bin/cvl": None}, {})}
                self.assertIn(f"{closed} cannot be written", self.stopped(putting.check, self.root, newer))
            closed.chmod(0o755)
        with self.without_rights():
            removing.uninstall(self.root)
        self.assertEqual(self.found(), [])

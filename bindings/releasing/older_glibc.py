"""What a release is linked with in the place of this machine's glibc, so that it runs with older ones too: shared objects without code,
which have the names of glibc, each under the version that it had in glibc OLDEST. If the linker finds a name there that glibc had not
yet, it reports it.

The names come from the glibc of the kit, so that each machine links the same. What glibc 2.34 moved into libc.so.6 stands where it stood:
the calls on threads in libpthread.so.0; of other libraries there is none.
"""

import collections
import pathlib
import re

import archive
import proved

OLDEST = "2.28"
LIBC, THREADS = "libc.so.6", "libpthread.so.0"
# a line of `readelf --dyn-syms`: size, type, name, and its version, which is the one for new programs behind two @
LINE = re.compile(
    r"^ *\d+: [0-9a-f]+ +(\w+) (FUNC|IFUNC|OBJECT) +(?:GLOBAL|WEAK) +DEFAULT +(?!UND)\w+ (\w+)@(@?)GLIBC_([\d.]+)$", re.M
)
# what the program and a shared object ask of the processor, of which glibc knows since 2.33, and what the program runs before `main`,
# which glibc does since 2.34; and what the program was built of
PROCESSOR, LEVEL, START, BUILD = (
    pathlib.Path(__file__).with_name(name) for name in ("processor.c", "level.c", "start.c", "build.c")
)

Name = collections.namedtuple("Name", "name version kind size")


def number(version):
    """A version as numbers, which compare as versions do."""
    return tuple(map(int, version.split(".")))


def _file_of(name, newest):
    """In which library of that time a name stood, or nothing if it is none that is linked here."""
    if number(newest) <= number(OLDEST) or name == "__libc_start_main":
        return LIBC
    return THREADS if name.startswith(("pthread_", "sem_")) else None


def names(symbols):
    """The names of each library of that time, from what `readelf` prints of a newer libc.so.6."""
    versions, known = collections.defaultdict(dict), {}
    for size, kind, name, is_newest, version in LINE.findall(symbols):
        versions[name][number(version)] = Name(name, version, kind, int(size, 0))
        if is_newest:
            known[name] = version
    found = {LIBC: [], THREADS: []}
    for name, of_name in sorted(versions.items()):
        there = [version for version in of_name if version <= number(OLDEST)]
        library = _file_of(name, known.get(name, OLDEST)) if there else None
        # a name that glibc dropped has no version for new programs
        if library and name in known:
            found[library].append(of_name[max(there)])
    return found


def _assembled(found):
    """A library without code in the assembler's words. Each name of data takes as much room as it has there."""
    for k, name in enumerate(found):
        kind = "object" if name.kind == "OBJECT" else "function"
        yield f".{'data' if kind == 'object' else 'text'}\n.globl name{k}\n.type name{k}, @{kind}\n.size name{k}, {name.size}"
        yield f"name{k}: .zero {name.size if kind == 'object' else 1}\n.symver name{k}, {name.name}@@GLIBC_{name.version}"


def _stub(folder, library, found):
    """Makes a library of these names."""
    source, script = folder / f"{library}.s", folder / f"{library}.map"
    source.write_text("".join(f"{line}\n" for line in _assembled(found)))
    versions = sorted({number(name.version) for name in found})
    script.write_text("".join(f"GLIBC_{'.'.join(map(str, version))} {{}};\n" for version in versions))
    hidden = ["-Wl,--no-undefined", f"-Wl,-soname,{library}", f"-Wl,--version-script={script}"]
    archive.run(*archive.program("CC"), "-shared", "-nostdlib", *hidden, "-o", folder / library, source)


def _both(*files):
    """What the linker reads where these files stand for one."""
    return "GROUP ( " + " ".join(f'"{file}"' for file in files) + " )\n"


class OlderGlibc:
    """The libraries, and what links over them."""

    def __init__(self, folder):
        self.folder, kit = pathlib.Path(folder), proved.kit()
        self.folder.mkdir(parents=True)
        for library, found in names(archive.run("readelf", "--dyn-syms", "--wide", kit / "toolchain/lib" / LIBC)).items():
            _stub(self.folder, library, found)
        (self.folder / "libc.so").write_text(_both(self.folder / LIBC, kit / "toolchain/lib/libc_nonshared.a"))
        (self.folder / "libpthread.so").symlink_to(THREADS)
        self._make_toolchain(kit / "toolchain")
        self.level = self._compiled(LEVEL)

    def _compiled(self, source):
        made = self.folder / source.with_suffix(".o").name
        archive.run(*archive.compiling(archive.told_of([])), "-c", source, "-o", made)
        return made

    def _make_toolchain(self, kits):
        """A toolchain as the kit's linker wants it."""
        self.toolchain = self.folder / "toolchain"
        for path in (path for path in sorted(kits.rglob("*")) if path.is_file()):
            made = self.toolchain / path.relative_to(kits)
            made.parent.mkdir(parents=True, exist_ok=True)
            made.symlink_to(path)
        # of the kit's other libraries, which stand over a newer glibc, nothing is linked
        for name, files in ((LIBC, (LIBC, THREADS)), ("libm.so.6", ()), ("libgcc_s.so.1", ())):
            made = self.toolchain / "lib" / name
            made.unlink()
            made.write_text(_both(*(self.folder / file for file in files)))

    @property
    def linked(self):
        """The words for a C compiler that links a shared object. On a processor before x86-64-v2 the loader of glibc from 2.33 on
        says that it is too old, and with an older one the object does."""
        return [f"-L{self.folder}", "-Wl,-z,x86-64-v2", str(self.level)]

    def program(self, compiled, made):
        """Links a program that the kit compiled."""
        proved.link(compiled, made, self.toolchain, *map(self._compiled, (PROCESSOR, START, BUILD)))
        return made

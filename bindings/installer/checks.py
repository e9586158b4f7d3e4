"""What is looked at before the first proof: whether all that the command needs is there."""

import json
import shutil
import subprocess

import archive
import proved

LEAST_PYTHON = (3, 8)


# a program in C that the shared object has to link as
PROBE = "#include <stdint.h>\n#include <pthread.h>\nint32_t cvl_probe(void) { return (int32_t)sizeof(pthread_t); }\n"


def compiler(work, flags):
    """Whether the C compiler, with its options, compiles and links for this kind of machine."""
    source, made = work / "probe.c", work / "probe.o"
    source.write_text(PROBE)
    archive.run(*archive.compiling(flags), "-c", source, "-o", made)
    head = made.read_bytes()[:20]
    # ELF of 64 bits, the lowest byte first, for the machine 62
    if head[:6] != b"\x7fELF\x02\x01" or head[18:20] != b"\x3e\x00":
        proved.stop(f"{' '.join(archive.program('CC'))} compiles for another machine than x86-64")
    archive.run(*archive.linking(), "-o", work / "probe.so", made)
    for name in ("LD", "OBJCOPY", "NM", "AR"):
        archive.run(*archive.program(name), "--version")


PYTHON_TELLS = """
import json, site, sys
print(json.dumps({
    "version": list(sys.version_info[:2]), "tag": sys.implementation.cache_tag, "bits": sys.maxsize.bit_length() + 1,
    "folders": site.getsitepackages() if hasattr(site, "getsitepackages") else [],
}))
"""


def python(name):
    """What a Python tells of itself: its version, its tag, and where it looks for packages."""
    try:
        told = subprocess.run([name, "-c", PYTHON_TELLS], capture_output=True, text=True, stdin=subprocess.DEVNULL)
    except OSError as error:
        proved.stop(f"the Python {name} cannot be run: {error.strerror}")
    if told.returncode != 0:
        proved.stop(f"the Python {name} does not run:\n{told.stderr.strip()}")
    found = json.loads(told.stdout)
    version = ".".join(map(str, found["version"]))
    if tuple(found["version"]) < LEAST_PYTHON:
        proved.stop(f"{name} is Python {version}, and {'.'.join(map(str, LEAST_PYTHON))} is needed")
    if found["bits"] != 64:
        proved.stop(f"{name} is a Python of {found['bits']} bits, and the library has 64")
    return found


def command(name, why):
    if not shutil.which(name):
        proved.stop(f"the command {name} {why} is not on the path")

"""The package for Python: a wheel for every Python, and a source archive, which builds over an installed library."""

import subprocess

import archive
import proved

BUILDS = proved.TOP / "bindings/python/package"
# Debian's own Python, which has the headers of 3.11
PYTHON = "/usr/bin/python3"


def check():
    """Stops where something is missing that the wheel is built with."""
    told = subprocess.run(
        [PYTHON, "-B", BUILDS, "--every-python", "--check"], capture_output=True, text=True, stdin=subprocess.DEVNULL
    )
    if told.returncode != 0:
        proved.stop(told.stderr.strip())


def write(folder, builds):
    """Writes both, and answers their names."""
    words = (PYTHON, "-B", BUILDS)
    wheel = archive.run(*words, "--every-python", f"--library={builds.shared()}", "--wheel", folder)
    return [wheel.strip(), archive.run(*words, "--source", folder).strip()]

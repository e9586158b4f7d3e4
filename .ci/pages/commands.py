"""The programs that pages name: those on lines of commands may be run, and each path that one is written with is there."""

import os
import re

from pages.paths import pages
from pages.texts import TOP, text_of

# a program of the repository: at the beginning of a line of commands, or of words of code
PROGRAM = r"(?:\.ci|bindings|crates|docs|examples|tests)/[\w./-]+|\./\w+"
LINE, WORDS = re.compile(rf"^(?: {{4}}|\$ )({PROGRAM})(?: |$)", re.M), re.compile(rf"`({PROGRAM})(?: [^`\n]*)?`")

# a path that a program in the shell and one in Python begin with the repository, or with the folder of their own
IN_SHELL, IN_PYTHON = re.compile(r"\$\{?(top|here)\}?/([\w./-]+)"), re.compile(r'\b(TOP|HERE) / "([\w./-]+)"')
FOLDER = re.compile(r"^HERE = pathlib\.Path\(__file__\)\.resolve\(\)\.parent$|^here=.*dirname \"\$0\"\)\" && pwd\)$", re.M)

# what a build puts there
BUILT = re.compile(r"(^|/)out(/|$)")


def programs(found):
    """The files that pages name in this form, each with one page that does."""
    named = {name.removeprefix("./"): page for page, lines in pages().items() for name in found.findall("\n".join(lines))}
    return {name: page for name, page in named.items() if not BUILT.search(name) and (TOP / name).is_file()}


def own_paths(program):
    """The paths of the repository that a program is written with."""
    text, here = text_of(program), (TOP / program).parent
    for base, path in IN_SHELL.findall(text) + IN_PYTHON.findall(text):
        if not BUILT.search(path) and (base.lower() == "top" or FOLDER.search(text)):
            yield (TOP if base.lower() == "top" else here) / path


def check_commands():
    """What a page shows as a line of commands may be run."""
    for program, page in programs(LINE).items():
        if not os.access(TOP / program, os.X_OK):
            yield f"{page}: {program} cannot be run"


def check_own_paths():
    """Each path of the repository that a program is written with is there."""
    for program in {**programs(LINE), **programs(WORDS)}:
        if os.access(TOP / program, os.X_OK):
            for path in own_paths(program):
                if not path.exists():
                    yield f"{program} names {path.relative_to(TOP)}, which is not there"

"""Pages against the source of the crates: definitions, and which crate stands on which; and how long lines are."""

import itertools
import os
import re
import subprocess
import sys

from pages.texts import TOP, text_of

sys.path.append(str(TOP / "docs/dev"))

import specs

CRATES = TOP / "crates"

DEFINITIONS, ARCHITECTURE, LIST = "docs/dev/definitions.md", "docs/dev/architecture.md", "crates.txt"

# what these define serves an example and a test
UNNAMED_CRATES = {"embedding", "test_sharing"}

# where programs stand
WITH_PROGRAMS = ("*", ".ci/**/*", "bindings/**/*", "crates/*/*", "docs/**/*", "examples/**/*", "tests/**/*")

MOST_COLUMNS = {"specs/**/*.antt": 140, "proofs/**/*.antt": 200, "src/**/*.rt": 130}


def cells_of(line):
    """The cells of a line of a table; none where the line is no line of a table."""
    return [cell.strip() for cell in line.strip().strip("|").split(" | ")] if line.startswith("| ") else []


def check_definitions():
    """Each file of definitions says what it is about, and each public definition and each law has a sentence."""
    for file in specs.files():
        if file.crate in UNNAMED_CRATES:
            continue
        if not file.said:
            yield f"crates/{file.path} does not say what it is about"
        for entry in file.entries:
            if entry.is_public and not entry.said:
                yield f"crates/{file.path} has no sentence on {entry.name}"
    for crate, name in re.findall(r"`(\w+)/(\w+)`", text_of(DEFINITIONS)):
        if not (CRATES / crate / "specs" / f"{name}.antt").is_file():
            yield f"{DEFINITIONS} names {crate}/{name}, which is not there"


def check_define():
    """`docs/dev/define` prints a definition with its sentence, for each word that docs/dev/definitions.md gives it."""
    for word in dict.fromkeys(re.findall(r"docs/dev/define (\w+)", text_of(DEFINITIONS))):
        done = subprocess.run([TOP / "docs/dev/define", word], capture_output=True, text=True)
        if done.returncode != 0 or not re.search(r"^-- .*\n(?:-- .*\n)*pub .*", done.stdout, re.M) or word not in done.stdout:
            yield f"{DEFINITIONS}: docs/dev/define {word} prints no definition with a sentence"


def crates_of(text):
    """The groups of crates.txt, each crate with those that it names, its flags and std's left out."""
    groups = [{}]
    for line in text.splitlines():
        crate = re.match(r"(\w+)[^:#]*:(.*)", line)
        if crate:
            groups[-1][crate[1]] = set(crate[2].split())
        elif groups[-1]:
            groups.append({})
    return [group for group in groups if group]


def drawn_in(page):
    """The groups of the page's first block from the bottom up, each a list of lines with their crates; blank lines part them."""
    groups = [[]]
    for line in reversed(re.search(r"^```\n(.*?)^```", page, flags=re.M | re.S)[1].splitlines()):
        crates = line[:41].split()
        if crates:
            groups[-1].append(crates)
        else:
            groups.append([])
    return groups


def check_drawing():
    """The page draws each crate of the list above those that it uses, in the list's groups, but none of the laws and the tests."""
    listed, page = text_of(LIST).partition("\n# Laws")[0], text_of(ARCHITECTURE)
    groups, drawn, below = crates_of(listed), drawn_in(page), set()
    needs = {crate: named for group in groups for crate, named in group.items()}
    for line in (line for group in drawn for line in group):
        for crate in line:
            for missing in sorted(needs.get(crate, set()) & set(needs) - below):
                yield f"{ARCHITECTURE} does not draw {crate} above {missing}, which it uses"
        below |= set(line)
    for have, want in itertools.zip_longest(drawn, groups, fillvalue=[]):
        crates = {crate for line in have for crate in line}
        if crates != set(want):
            yield f"{ARCHITECTURE} draws the group {' '.join(sorted(crates))}, and {LIST} has {' '.join(sorted(want))}"
            break


def check_heads():
    """The head of each crate says what the crate does."""
    for crate, said in specs.does().items():
        if not said:
            yield f"{specs.head_of(crate).relative_to(TOP)} does not say what the crate does"


def check_programs():
    """A program in Python has no ending, a line that says what runs it, and may be run; a module has the ending."""
    for path in sorted(path for files in WITH_PROGRAMS for path in TOP.glob(files) if path.is_file()):
        with open(path, "rb") as file:
            is_program = file.readline() == b"#!/usr/bin/env python3\n"
        may_run = os.access(path, os.X_OK)
        if is_program and (path.suffix or not may_run) or path.suffix == ".py" and may_run:
            yield f"{path.relative_to(TOP)} is a program with an ending, or one that cannot be run, or a module that can"


def check_columns():
    """An attribute stands on one line, however long it is: rt fmt lays it out so."""
    for files, most in MOST_COLUMNS.items():
        for path in sorted(CRATES.glob("*/" + files)):
            for number, line in enumerate(path.read_text().splitlines(), 1):
                if len(line) > most and not line.lstrip().startswith("#["):
                    yield f"{path.relative_to(TOP)}:{number} has {len(line)} columns, more than {most}"

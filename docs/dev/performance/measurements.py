"""What `measure` wrote into measured.txt: the numbers of each case, and the machine on which they were measured."""

import pathlib
import re

FILE = pathlib.Path(__file__).resolve().parent / "measured.txt"


class Unsteady(float):
    """The best of times that lie further than a fifth apart."""


def number(text):
    """A number as `written` of turns.py has it."""
    best, _, worst = text.partition("~")
    return Unsteady(best) if worst else float(best) if "." in best else int(best)


def marked(text, *numbers):
    """What a table has of some numbers, with a mark if one of them is unsteady."""
    return f"~{text}" if any(isinstance(found, Unsteady) for found in numbers) else text


def _numbers(fields):
    """The numbers of a line: a dict where each has a name, else a list."""
    parts = fields.split(", ")
    if all(" " in part for part in parts):
        return {name: number(found) for name, found in (part.rsplit(" ", 1) for part in parts)}
    return [number(part) for part in parts]


def read():
    """The numbers of each line by its subject and its case, and the comments on the machine and the programs, each once."""
    rows, comments, subject = {}, {}, ""
    for line in FILE.read_text().splitlines():
        if re.match(r"# (machine|compiler|Thrust|numpy|pandas|scipy)", line):
            comments[line[2:]] = None
        elif line.startswith("# "):
            subject = line[2:].split(", in ")[0]
        elif not line.endswith("differ"):
            case, fields = line.rsplit(": ", 1)
            rows[subject, case] = _numbers(fields)
    return rows, list(comments)


ROWS, COMMENTS = read()


def of(subject):
    """The lines of one subject, by their cases."""
    return {case: numbers for (about, case), numbers in ROWS.items() if about == subject}


def table(heads, lines):
    """A table in Markdown, whose columns but the first have numbers."""
    cells = [heads, ["---"] + ["---:"] * (len(heads) - 1), *lines]
    return "".join("| " + " | ".join(line) + " |\n" for line in cells)

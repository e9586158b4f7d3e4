"""What is written of all calls on one page: the cheat sheet, as a text and as a picture to print."""

import pathlib
import re
import textwrap
from xml.sax.saxutils import escape

import call_table
import cures
import elsewhere
import entries
import reference
import table

TOP = pathlib.Path(__file__).resolve().parent.parent.parent
FAULTS = "crates/cvl_base/specs/Faults.antt"

TITLE, INTRO = (
    "Cheat sheet",
    "A name is an operator and three letters: `add_rez` adds up, as a reduce, in each segment, integers.",
)
OPERATORS = "Before each end stand its operators. Calls come in C, C++, Fortran, Python and Rust too, but for `input`, `nested` and lengths."
STOPS = "A script stops at its first fault, a call returns it, with the place from 0. Those from 100 on are of programs."


def letters():
    """Each letter of a name: where it stands, and what it means."""
    return [(place, letter, meaning) for place, meanings in entries.LETTERS for letter, meaning in meanings.items()]


def families():
    """For each first letter its meaning, and the ends of names with the operators before them; ends with the same operators stand together."""
    names = [name for name in call_table.read(TOP) if re.fullmatch(r"\w{3}_\w{3}", name)]
    for letter, meaning in entries.LETTERS[0][1].items():
        found = {}
        for end in dict.fromkeys(name[3:] for name in names if name[4] == letter):
            found.setdefault(" ".join(name[:3] for name in names if name.endswith(end)), []).append(end)
        yield meaning, [(ends, operators) for operators, ends in found.items()]


def functions():
    """The functions that no script calls, the first of each entry, by their sections."""
    for title, _, found in reference.beside():
        if title not in ("Calls in parts", "Scans in parts, by threads of the caller's"):
            yield title, [f"cvl_{entry.name}" for entry in found if not entry.name.startswith("seg_")]


def faults():
    """The number and the name of each fault, and its cure."""
    named = re.findall(r"^number_of no\.(\w+) = (\d+)$", (TOP / FAULTS).read_text(), re.M)
    found = {**{int(number): name for name, number in named}, **{number: name for number, name in table.STATUSES if number}}
    return [(number, name, cures.CURES.get(number, "")) for number, name in sorted(found.items())]


def differences():
    """Faults without a cure, cures without a fault, calls that these name and that are not there, and a picture longer than a page."""
    if max(column.top for column in columns()) > HEIGHT:
        yield "docs/user/sheet.svg is longer than its page"
    numbers = {number for number, *_ in faults()}
    if numbers != set(cures.CURES):
        yield f"bindings/cures.py has not the faults of {FAULTS} and bindings/table.py: {sorted(numbers ^ set(cures.CURES))}"
    for number, cure in cures.CURES.items():
        for name in re.findall(r"`(?:cvl_)?([a-z]\w{4,})\b", cure):
            if name not in elsewhere.entries_of_calls() and not name.startswith("segments_"):
                yield f"bindings/cures.py names {name} for fault {number}, which is no call"


def _ends(ends, operators):
    return f"{' '.join(f'`{end}`' for end in ends)} {operators}"


def _meanings(found):
    return "; ".join(f"`{letter}` {meaning}" for letter, meaning in found.items())


def page():
    """`docs/user/sheet.md`."""
    lines = [
        f"# {TITLE}", f"{INTRO} Print the picture; the text below says the same.", "![All names, families and faults on one page](sheet.svg)", "## Names",
        "\n".join(["| Letter | Means |", "|---|---|", *(f"| {place} | {_meanings(found)} |" for place, found in entries.LETTERS)]),
        "## Families", OPERATORS,
        "\n".join(["| Family | Operators |", "|---|---|", *(f"| {meaning} | {'; '.join(_ends(*found) for found in rows)} |" for meaning, rows in families())]),
        "For programs only: " + "; ".join(" ".join(f"`{name}`" for name in names) for _, names in functions()) + ".",
        "## Faults", f"{STOPS} [Common mistakes](mistakes.md) has examples.",
        "\n".join(["| No. | Name | Cure |", "|---|---|---|", *(f"| {number} | {name} | {cure} |" for number, name, cure in faults())]),
    ]  # fmt: skip
    return "\n\n".join(lines) + "\n"


# ---- the picture ----

WIDTH, HEIGHT, LINE = 1120, 792, 14.5


def _spans(text):
    """A line in which words of code have their own letters."""
    return "".join(
        f'<tspan class="code">{escape(part)}</tspan>' if k % 2 else escape(part) for k, part in enumerate(text.split("`"))
    )


def _wrapped(text, width):
    """Lines of a text, none of which ends within words of code."""
    kept = re.sub(r"`[^`]*`", lambda found: found[0].replace(" ", "\0"), text)
    return [line.replace("\0", " ") for line in textwrap.wrap(kept, width, break_long_words=False, break_on_hyphens=False)]


class _Column:
    """Lines below one another."""

    def __init__(self, left, top):
        self.left, self.top, self.found = left, top, []

    def add(self, text, kind="", indent=0):
        self.found.append(
            f'<text x="{self.left + indent}" y="{self.top}"{f" class={chr(34)}{kind}{chr(34)}" if kind else ""}>{_spans(text)}</text>'
        )
        self.top += LINE

    def heading(self, text):
        self.top += 7
        self.add(text, "head")
        self.top += 3


def _names():
    column = _Column(24, 66)
    column.heading("Names")
    for line in _wrapped(INTRO, 50):
        column.add(line)
    last = ""
    for place, letter, meaning in letters():
        if place != last:
            column.top += 4
            column.add(place, "quiet")
        column.add(f"`{letter}`  {meaning}", indent=12)
        last = place
    column.heading("For programs only")
    for _, names in functions():
        for line in _wrapped(" ".join(f"`{name}`" for name in names), 54):
            column.add(line)
    return column


def _families():
    column = _Column(400, 66)
    column.heading("Families")
    for meaning, rows in families():
        column.add(meaning, "quiet")
        for ends, operators in rows:
            for k, line in enumerate(_wrapped(_ends(ends, operators), 46)):
                column.add(line, indent=12 + 18 * (k > 0))
        column.top += 4
    return column


def _put(column, title, found, width):
    """Faults with their cures below a heading of a column."""
    column.heading(title)
    for number, name, cure in found:
        column.add(f"{number} {name}", "quiet")
        for line in _wrapped(cure, width):
            column.add(line, "small", indent=12)
    return column


def columns():
    """The three columns; the faults of programs alone stand below the families."""
    last = [fault for fault in faults() if fault[0] >= 100]
    return (
        _names(),
        _put(_families(), "Faults of programs", last, 56),
        _put(_Column(724, 36), "Faults", [f for f in faults() if f not in last], 66),
    )


def picture():
    """`docs/user/sheet.svg`, for a page of A4 on its side."""
    style = "text{font:12px sans-serif;fill:#1b1f24}.head{font-weight:700;font-size:15px}.quiet{font-weight:700}.small{font-size:11px}.code{font-family:monospace}"
    return "\n".join([
        f'<svg xmlns="http://www.w3.org/2000/svg" width="{WIDTH}" height="{HEIGHT}" viewBox="0 0 {WIDTH} {HEIGHT}" role="img">',
        "<title>Cimorelua on one page</title>", "<desc>How names of calls are made, the operators of each family, and a cure for each fault.</desc>",
        f"<style>{style}</style>", '<rect width="100%" height="100%" fill="#ffffff"/>',
        '<text x="24" y="44" style="font-size:22px;font-weight:700">Cimorelua on one page</text>', *(line for column in columns() for line in column.found), "</svg>", "",
    ])  # fmt: skip

"""What is written of the calls of scripts on a page: `docs/user/calls.md`."""

import re

import entries
import reference

HEAD = """# The calls

The [cheat sheet](sheet.md) has all names on one page, the [glossary](glossary.md) those of other libraries. Programs have [more functions](#functions-that-no-script-calls).

The comment after an `input` shows what it holds. In the pictures a box is an element, and a frame a segment."""

READING = """## Reading an entry

- A name is an operator and [three letters](sheet.md#names): `bck_puz` is a back permute (`p`) of a flat vector (`u`) of integers (`z`).
- `Takes` has the arguments in order. *Integers* and *booleans* are vectors, an *integer* and a *boolean* single values; *elements* are either, by the name's last letter.
- A descriptor is the lengths of the segments that it *cuts* a vector into; its *total* is their sum. A segmented call does in each segment what the flat call does on a whole vector.
- Vectors whose elements go together have equal lengths, and so have a descriptor's total and each vector that it cuts; two descriptors have equally many segments. If not, the call stops with fault 7 LengthMismatch, without a place. Then come those under `Faults`, of the entry or its section. [Faults of any line](script.md#when-a-script-stops) come first.
- Places count from 0, in the whole vector. Of several bad elements the first is reported."""

# the faults that a section says for those of its entries that have no others
OF_FAULTS = {"Permutes": f"{entries.AT_INDICES}."}

BESIDE = """## Functions that no script calls

C, C++, Fortran, Python and Rust have them, in C and Fortran with `cvl_` before the name: see `man 3 cvl`, `cvl.hpp`, `help(cvl)` and `cargo doc`. With `seg_` they work in each segment, or on nested texts. Most with `int` have a form for booleans, with `bool`."""


def anchor(entry):
    return entry.heading.replace(" ", "-")


def index(found, leads_to):
    """A table of sections: of each entry the first name, with a link."""
    lines = [
        f"| {title} | {' '.join(f'[`{entry.name}`]({leads_to(entry)})' for entry in section)} |" for title, _, section in found
    ]
    return "\n".join(["| Section | The first call of each entry |", "|---|---|", *lines])


def said(entry):
    """What an entry takes and gives, and its faults, other than those that the page or its section says."""
    lines = [f"**Takes:** {entry.takes}. **Gives:** {entry.gives}."]
    others = re.sub(r"^7 LengthMismatch(?:\.|; )", "", entry.faults)
    lines += [f"**Faults:** {others}"] if others not in ("", "none.", OF_FAULTS.get(entry.section)) else []
    return " ".join(lines)


def also(entry, found, leads_to):
    """The calls of these sections that a reader may want instead, each with a link to its entry."""
    homes = {name: other for _, _, section in found for other in section for name in other.calls}
    return ", ".join(f"[`{name}`]({leads_to(homes[name])})" for name in entries.ALSO.get(entry.name, "").split() if name in homes)


def example(entry):
    script, text = entry.example
    return "\n\n".join([f"```\n{script}\n```\n\nwrites\n\n```\n{text}\n```", *shows(entry)])


def shows(entry):
    """What is to be seen in the example, if an entry says so."""
    return [entry.said.shows] if entry.said.shows else []


def picture(entry):
    return [f"![{entry.said.picture[1]}](pictures/{entry.said.picture[0]}.svg)"] if entry.said and entry.said.picture else []


def _leads_to(entry):
    return f"#{anchor(entry)}"


def _entry(entry):
    return "\n\n".join([f"### {entry.heading}", entry.said.said, said(entry), example(entry), *picture(entry)])


def _beside():
    """The functions that no script calls, by their sections: of those for integers and for booleans the first."""
    lines = [
        f"| {' '.join(f'`{entry.name}`' for entry in found)} | {entries.BESIDE[title]} |"
        for title, _, found in reference.beside()
    ]
    return "\n".join(["| Functions | What they do |", "|---|---|", *lines])


def page():
    """`docs/user/calls.md`."""
    found = reference.of_scripts()
    sections = [
        "\n\n".join([f"## {title}", *([intro] if intro else []), *map(_entry, section)]) for title, intro, section in found
    ]
    parts = [HEAD, "## Index", index(found, _leads_to), READING, *sections, BESIDE, _beside()]
    return "\n\n".join(parts) + "\n"

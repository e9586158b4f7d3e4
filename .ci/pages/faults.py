"""The sentences on faults of `bindings/table.py`, which the headers, the manual, the site and the packages have: each word of
them, and what they say of a function's arguments, against the table of faults and the function."""

import re
import sys

from pages.calls import FAULTS
from pages.texts import TOP, text_of

sys.path += [str(TOP / "bindings"), str(TOP / "bindings/generator")]

import rows
import table

TABLE = "bindings/table.py"

# The phrases of which a sentence is made. What stands in a group is compared with the function's arguments: see `is_right`.
PHRASES = [re.compile(phrase) for phrase in (
    r"(?P<named>\d+ [A-Z]\w+)",
    r"without a place", r"whatever they are", r"if the text ends too early", r"at the number of its words and brackets",
    # where
    r"at (?:0|the segment|the first bad index|the first (?P<item>index|segment|row|place|integer|column|word))",
    r"at the first divisor that is 0", r"at the first element of (?P<array>b) outside 0 to 31",
    r"whose (?:sum does not fit 32 bits|offset is above the next one)", r"(?:of the piece )?that is no (?:such )?integer",
    r"bracket that cannot stand there",
    # places
    r"(?:if (?:it|the index|(?P<value>count)) is )?below 0", r"above 255", r"(?P<bound>n|m|the number of true flags) or more",
    r"if an earlier one (?:of its segment )?is the same",
    r"(?:if it|that) is no place of (?P<within>the result|its segment(?: of the \w+)?)",
    r"that starts below 0", r"that held a sum below -2\^62, or 2\^62 or more", r"ends behind the (?P<read>source)", r"if it (?:is above (?P<most>\d+)|does not fit 32 bits)",
    # lengths
    r"(?:also )?if (?P<alike>\w+ and \w+) differ in length",
    r"(?:if )?the (?P<total>(?:\w+ )?lengths (?:do not add up )?to (?:the )?\w+(?:'s)?)",
    r"(?:also )?if out is too (?P<out>short|long)", r"with \*(?P<told>count) as it was", r"by the (?P<long>index|source)",
    r"if the range ends behind place (?P<last>n|\d+)", r"(?P<marks>marks)_len is not \(out_len \+ 31\) / 32",
    r"if (?P<sides>rows times columns) is not n",
    r"if (?P<first>when_true) does not have one element for each true flag", r"(?P<second>when_false) for each false one",
    r"whose true flags are not as many as its elements of (?P<third>when_true)",
    r"the false ones as those of (?P<fourth>when_false)",
    r"if there are more than (?P<words>\d+) words (?:between white space|other than brackets)",
    r"more than (?P<brackets>\d+) \"\[\"", r"also if there are more than (?P<offsets>\d+) offsets",
    r"if there is no offset", r"the first is not 0", r"the last offset is not n",
    r"if `(?P<carried>before)` is more than (?P<carry>\d+)", r"the piece itself has more words than that",
    r"You must check that all pieces together have at most (?P<whole>\d+) words",
    # others
    r"by the lengths those of each call on segments", r"those of cvl_(?P<others>\w+)",
)]  # fmt: skip
# what joins them: `else` stands before a fault, and the others before what else is one
JOINED = re.compile(r"\.? ?(?:[,;] ?)?(?:else (?=\d)|(?:or|and),? (?!\d))?")

GREATEST = (table.MOST_ELEMENTS, table.MOST_OF_TEXT)
# of these there is one more than elements
ONE_MORE = ("brackets", "offsets")


def names():
    """The faults of the source, each as its number and its name."""
    found = re.findall(r"^number_of no\.([A-Za-z]+) = ([0-9]+)$", text_of(FAULTS), re.M)
    return {f"{number} {name}" for name, number in found}


def operand(row, name):
    return next((found for found in row.operands if found.name == name), None)


def extent(row, said):
    """How many an array has, by its name, or the letter itself; the vector is the first array that is read, whatever its name."""
    named = next((other.name for other in row.operands if other.role == "reads"), None) if said == "vector" else said
    found = operand(row, said) or operand(row, named)
    return found.extent if found and found.role != "lengths" else said


def target(row):
    """How many places there are to which an index may lead: of what is read at an index, or else of the result."""
    if "back_permute" in row.family.name:
        return extent(row, "source")
    return extent(row, next((name for name in ("vector", "x") if operand(row, name)), row.result.name))


def is_total(row, said, before):
    """Whether some lengths add up to an array: to the one that is named, or to those that were named before."""
    of, whole = re.fullmatch(r"(?:(\w+) )?lengths (?:do not add up )?to (?:the )?(\w+)(?:'s)?", said).groups()
    cut = operand(row, f"{of}_lengths" if of else "lengths")
    return cut is not None and cut.extent == (before[-1] if whole == "them" and before else extent(row, whole))


def is_alike(row, said, before):
    """Whether two arrays are read or changed, as long as each other, and no third one is."""
    found = said.split(" and ")
    extents = {extent(row, name) for name in found}
    before += extents
    reads = {other.name for other in row.operands if (other.role == "reads" or other.over) and other.extent in extents}
    # a select permute of a range has the fault of the other one by the source, too
    return len(extents) == 1 and (reads == set(found) or row.name == "select_permute_int_range" and set(found) < reads)


def is_within(row, said, before):
    """Whether an index leads into the array that is named, of whose segments it names a place."""
    named = re.sub(r"its segment(?: of )?|the ", "", said) or "source"
    into = operand(row, named) or row.result
    return (named in ("result", into.name)) and into.extent == target(row) and said.startswith("its") == bool(row.cuts)


def has_item(row, said):
    """Whether a function reads or writes what a fault has its place at."""
    kinds = {found.kind for found in row.operands if found.role in ("reads", "room")}
    return {
        "index": operand(row, "index"), "column": operand(row, "columns"), "row": operand(row, "columns"), "segment": row.cuts,
        "word": "text" in kinds, "integer": "bytes" in kinds, "place": "scan" in row.family.name or any(found.over for found in row.operands),
    }[said]  # fmt: skip


def is_right(group, row, said, before):
    """Whether what a phrase says holds for a function."""
    if group == "named":
        return said in names()
    if group == "bound":
        return {"the number of true flags": "trues"}.get(said, said) == target(row)
    if group in ("total", "alike", "within"):
        return {"total": is_total, "alike": is_alike, "within": is_within}[group](row, said, before)
    if group == "item":
        return bool(has_item(row, said))
    if group == "out":
        # a room is too short for what is counted, and too long for a function that takes a room of any length
        return said == ("short" if any(found.role == "told" for found in row.operands) else "long")
    if group == "others":
        return row.name == f"select_{said}"
    if said.isdigit():
        return int(said) - (group in ONE_MORE) in GREATEST
    return all(operand(row, name) for name in said.split(" times ")) or said in {found.extent for found in row.operands}


def wrong_in(row, fault):
    """What is wrong in a sentence on a fault of a function."""
    place, before, numbers = JOINED.match(fault.said).end(), [], []
    while place < len(fault.said):
        found = max((phrase.match(fault.said, place) for phrase in PHRASES), key=lambda found: found.end() if found else 0)
        if not found:
            yield f"no phrase begins with `{fault.said[place:]}`"
            return
        for group, said in found.groupdict().items():
            numbers += [int(said.split()[0])] if group == "named" and said else []
            if said and not is_right(group, row, said, before):
                yield f"`{found[0]}` does not hold for its arguments"
        place = JOINED.match(fault.said, found.end()).end()
    if list(fault.numbers) != list(dict.fromkeys(numbers)) and "those of" not in fault.said:
        yield f"its numbers are {fault.numbers}"


def check_words():
    """Each sentence is made of known phrases, which hold for the function."""
    for row in [*rows.FAMILIES.values(), *rows.CALLS]:
        for fault in row.faults:
            yield from (f"{TABLE}: cvl_{row.name}, {fault.said}: {wrong}" for wrong in wrong_in(row, fault))

"""The entries of the reference, with what the rows of the table say of each: what a script hands over and gets, which lengths must
agree, the faults, and the example, which is a case of the tests."""

import functools
import itertools
import pathlib
import re

import entries
import packages
import rows
import table

TOP = pathlib.Path(__file__).resolve().parent.parent.parent
CASES = "crates/script_cases/data/reference.cases"

SEVERAL = {"ints": "integers", "flags": "booleans", None: "elements"}
ONE = {"int": "integer", "flag": "boolean", None: "element"}

# what a script is told of a fault, as far as it is not what the table says
IN_SCRIPTS = {
    table.BAD_INDEX: "at", table.BAD_SELECTED: "at", table.BAD_DEFAULTED: "at", table.BAD_IN_SEGMENT: "at", table.BAD_IN_RESULT: "at",
    table.BAD_IN_DEFAULTS: "at", table.BAD_BACK: "10 IndexOutOfRange at the index", table.BAD_IN_SOURCE: "10 IndexOutOfRange at the index",
    table.BAD_PLACE: "10 IndexOutOfRange at 0, whatever the index is", table.BAD_PLACES: "10 IndexOutOfRange at the segment",
    table.BAD_COUNT[0]: "12 NegativeLength, without a place, if the count is below 0",
    table.BAD_COUNT[1]: "13 TooLong, without a place, if it is above 4,194,304",
    table.OVERFLOW_AT_PLACE: "18 Overflow at the first result that does not fit",
    table.OVERFLOW_AT_0: "18 Overflow at 0",
    table.OVERFLOW_AT_SEGMENT: "18 Overflow at the first segment whose sum does not fit",
}  # fmt: skip


class Entry:
    """Calls that stand together: of scripts, with what the table says of them, or functions that no script calls."""

    def __init__(self, section, said, found):
        self.section, self.said, self.rows = section, said, found

    @property
    def calls(self):
        """The names in a script, or of functions."""
        return self.said.calls if self.said else tuple(row.name for row in self.rows)

    @property
    def name(self):
        """The name of its page."""
        return self.calls[0]

    @property
    def title(self):
        if self.said:
            return self.said.title
        words = re.sub(r"(?:^|_)(?:ints?|bools?)(?=_|$)", "", self.rows[0].name).strip("_").split("_")
        ends = ", by segments" if words[0] == "seg" else ""
        return " ".join(words[1:] if ends else words) + ends

    @property
    def heading(self):
        return " ".join(self.calls)

    @property
    def families(self):
        """The rows of its families, each once."""
        return list({row.family.name: rows.FAMILIES[row.family.name] for row in self.rows}.values())

    # ---- what a script has ----

    def _kind(self, operand, row_kind):
        """The kind of an operand in all rows, or nothing where they differ."""
        kinds = {next(o for o in row.operands if o.name == operand.name).kind for row in self.rows}
        return row_kind if len(kinds) == 1 else None

    @property
    def _cuts(self):
        """The names of descriptors: d, and e for the second one."""
        return dict(zip((o.name for o in self.rows[0].cuts), "de")) if self.rows else {}

    def _taken(self, operand):
        if operand.role == "lengths":
            if self.rows[0].result is None:
                return "lengths (integers)"
            whose = {"index_lengths": " of the index", "default_lengths": " of the defaults"}.get(
                operand.name, " of the source" if len(self._cuts) > 1 else ""
            )
            return f"{self._cuts[operand.name]} (descriptor{whose})"
        kind = self._kind(operand, operand.kind)
        if operand.role == "reads":
            each = ", one for each segment" if operand.extent == "segments" else ""
            return f"{operand.name} ({SEVERAL[kind]}{each})"
        return f"{operand.name} ({ONE[kind]})"

    @property
    def takes(self):
        """Its arguments in order; those of one kind that follow one another share its name."""
        if self.said.takes:
            return self.said.takes
        taken = (self._taken(operand).removesuffix(")").split(" (", 1) for operand in self.rows[0].takes)
        alike = ((kind, [name for name, _ in group]) for kind, group in itertools.groupby(taken, lambda pair: pair[1]))
        return ", ".join(f"{', '.join(names)} ({kind})" for kind, names in alike)

    @property
    def gives(self):
        if self.said.gives:
            return self.said.gives
        row = self.rows[0]
        if packages.Call(row).gives_segments:
            return "a descriptor"
        kind = self._kind(row.result, row.result.kind)
        if row.result.role == "single":
            return f"an {ONE[kind]}" if ONE[kind][0] in "aeio" else f"a {ONE[kind]}"
        return SEVERAL[kind] + self._as_many(row)

    def _as_many(self, row):
        """How many elements the result has."""
        extent, flat = row.result.extent, not row.cuts
        if extent == "segments":
            return ", one for each segment"
        if extent in ("trues", "room"):
            return ", as many as there are true flags" if flat else ", cut by `pck_fov` of the flags and d"
        if not flat:
            return f", cut by {next(name for cut, name in self._cuts.items() if self._extent_of(row, cut) == extent)}"
        if extent == "count":
            return ", as many as the count"
        alike = [operand for operand in row.takes if operand.role == "reads" and operand.extent == extent]
        if row.is_place_by_place:
            return ""
        return f", as many as {self._named(alike[-1] if extent == 'm' else alike[0])}"

    @staticmethod
    def _extent_of(row, name):
        return next(operand.extent for operand in row.operands if operand.name == name)

    @staticmethod
    def _named(operand):
        if operand.name.endswith("s"):
            return f"there are {operand.name}"
        return f"{operand.name if len(operand.name) == 1 else 'the ' + operand.name} has"

    @property
    def agree(self):
        """Which lengths must agree, or nothing."""
        if not self.rows or self.rows[0].result is None:
            return ""
        row, found = self.rows[0], []
        for extent in dict.fromkeys(operand.extent for operand in row.takes if operand.role == "reads"):
            names = [operand.name for operand in row.takes if operand.role == "reads" and operand.extent == extent]
            cut = [self._cuts[operand.name] for operand in row.cuts if operand.extent == extent]
            names += [f"the total of {name}" for name in cut]
            names += [f"the number of segments of {self._cuts[row.cuts[0].name]}"] if extent == "segments" else []
            if len(names) > 1:
                found.append(_and(names))
        if len(row.cuts) > 1:
            found.append(f"the numbers of segments of {_and(list(self._cuts.values()))}")
        return "; ".join(found)

    @property
    def faults(self):
        """What a script may be told, in the order in which it is looked for."""
        if self.said.faults:
            return self.said.faults
        found = ["7 LengthMismatch"] if self.agree else []
        for row in self.rows[:1]:
            for fault in row.faults:
                if fault in IN_SCRIPTS:
                    found.append(entries.AT_INDICES if IN_SCRIPTS[fault] == "at" else IN_SCRIPTS[fault])
                elif fault.numbers not in ((7,), (13,)):
                    found.append(fault.said)
        return f"{'; '.join(found)}." if found else "none."

    @property
    def example(self):
        """The script of its example, and what that writes."""
        return _cases()[self.heading]


def _and(names):
    return names[0] if len(names) == 1 else f"{', '.join(names[:-1])} and {names[-1]}"


@functools.lru_cache
def _cases():
    """The script and the text of each case, by its name."""
    found = {}
    for case in (TOP / CASES).read_text().split("\n== case ")[1:]:
        name, *parts = case.split("\n== ")
        texts = {head.split()[0]: text.strip("\n") for head, _, text in (part.partition("\n") for part in parts)}
        found[name.strip()] = texts["script"], texts["text"]
    return found


def of_scripts():
    """The sections with the calls of scripts: each title, what it says, and its entries."""
    named = {row.name: row for row in rows.CALLS}
    return [
        (
            section.title,
            section.said,
            [Entry(section.title, said, [named[name] for name in said.calls if name in named]) for said in section.entries],
        )
        for section in entries.SECTIONS
    ]


def beside():
    """The sections with functions that no script calls; those of integers and of booleans stand together."""
    found = {}
    for row in packages.BESIDE:
        plain = re.sub(r"(?:^|_)(ints?|bools?)(?=_|$)", "", row.name)
        found.setdefault(row.section, {}).setdefault(plain, []).append(row)
    return [
        (
            f"{section[0].upper()}{section[1:]}",
            table.OF_FAMILIES.get(section, ()),
            [Entry(section, None, group) for group in groups.values()],
        )
        for section, groups in found.items()
    ]


def differences():
    """Calls that no entry has, or two have."""
    names = [name for _, _, found in of_scripts() for entry in found for name in entry.calls]
    for row in rows.CALLS:
        if names.count(row.name) != 1:
            yield f"{row.name} stands in {names.count(row.name)} entries of bindings/entries.py"
    for name in (word for first, others in entries.ALSO.items() for word in (first, *others.split())):
        if name not in names:
            yield f"bindings/entries.py leads to {name}, which has no entry"
    for name in names:
        if name not in {row.name for row in rows.CALLS} | rows.OF_SCRIPTS | rows.OF_LENGTHS:
            yield f"{name} of bindings/entries.py is no call"

"""What the rows of the table say, for those who write files of them: the functions of C with their arguments, and what each gives."""

import collections
import pathlib
import sys

sys.path.insert(0, str(pathlib.Path(__file__).resolve().parent.parent))

import steps_table
import table

NOTE = "Written by the generator of the repository from its table of calls; edit the table and not this file."

# An argument of a function in C: its name, its type, the operand that it is of, and whether it is a number of elements, which
# then is that of the extent `size`.
Argument = collections.namedtuple("Argument", "name type operand size")

ARRAYS = {
    "ints": "int32_t *",
    "flags": "bool *",
    "bytes": "uint8_t *",
    "text": "char *",
    "marks": "uint32_t *",
    "sums": "int64_t *",
}
NUMBERS = {"int": "int32_t ", "flag": "bool ", "sum": "int64_t ", "size": "size_t "}

# How a number of elements is called where a call's arrays share it.
SIZES = {"n": "n", "m": "m", "trues": "m", "total": "n", "room": "room"}


def is_array(operand):
    return operand.role in ("reads", "room")


def type_of(operand):
    """The type in C of the argument, with the space or star before its name."""
    if operand.role == "reads":
        return f"const {ARRAYS[operand.kind]}"
    if operand.role == "lengths":
        return "CvlLengths "
    if operand.role == "room":
        return ARRAYS[operand.kind]
    if operand.role in ("single", "told"):
        return f"{NUMBERS[operand.kind]}*"
    return "int64_t " if operand.role in ("place", "count") else NUMBERS[operand.kind]


def argument(operand):
    return Argument(operand.name, type_of(operand), operand, None)


class Row:
    """A function in C: a family, or a call of one."""

    def __init__(self, family, call=None):
        self.family, self.call = family, call
        self.name = (call or family).name
        self.section = (call or family).section
        self.operator = call.operator if call else None
        self.operands = family.operands
        self.example = (call or family).example

    @property
    def takes(self):
        """The operands that a script has too."""
        return [operand for operand in self.operands if operand.role in ("reads", "lengths", "value", "place", "count")]

    @property
    def rooms(self):
        return [operand for operand in self.operands if operand.role == "room"]

    @property
    def written(self):
        """What is written: rooms, single values and what is told."""
        return [operand for operand in self.operands if operand.role in ("room", "single", "told")]

    @property
    def cuts(self):
        """The lengths of segments."""
        return [operand for operand in self.operands if operand.role == "lengths"]

    @property
    def result(self):
        """The room or the single value, or nothing, where lengths are made a descriptor."""
        return next((operand for operand in self.operands if operand.role in ("room", "single")), None)

    @property
    def is_place_by_place(self):
        """Whether each place of the result is made of the elements there, and of nothing else."""
        cut, extent = self.family.cut or (None, None)
        return cut == "places" and extent == "n" and all(o.extent == extent for o in self.operands if is_array(o))

    @property
    def arguments(self):
        """The arguments in C, in their order."""
        return _of_call(self) if self.call else _of_family(self.family)

    @property
    def faults(self):
        """The faults, in their order, beside those that all families of its kind have."""
        own = next((found.fault for found in table.OPERATORS if found.name == self.operator and found.fault), None)
        return [*self.family.faults, *([own] if own else [])]

    @property
    def sentences(self):
        """What it does, and how long its arrays are."""
        return " ".join(filter(None, [(self.call or self.family).sentence, self.family.shape]))


def _of_family(family):
    found = [Argument("op", "uint32_t ", None, None)] if family.operators else []
    for operand in family.operands:
        found.append(argument(operand))
        if is_array(operand):
            found.append(Argument(f"{operand.name}_len", "size_t ", operand, operand.extent))
    return found


def _of_call(row):
    """A number of elements stands behind the last array that has so many; that of segments is in their lengths, and a count is an
    operand."""
    found = []
    for k, operand in enumerate(row.operands):
        found.append(argument(operand))
        later = {other.extent for other in row.operands[k + 1 :] if is_array(other)}
        if is_array(operand) and operand.extent in SIZES and operand.extent not in later:
            found.append(Argument(SIZES[operand.extent], "size_t ", operand, operand.extent))
    return found


def said_by_lengths(row):
    """What lengths add up to and no array is that is read."""
    return {cut.extent for cut in row.cuts} - {operand.extent for operand in row.operands if operand.role == "reads"}


def limited(family):
    """The operand whose number of elements is limited: the index of a permute, the flags of a pack, else the first vector that is read, or
    written over where none is read."""
    arrays = [operand for operand in family.operands if operand.role == "reads" and operand.extent == family.limit]
    arrays = arrays or [operand for operand in family.operands if operand.over and operand.extent == family.limit]
    if not arrays:
        return None
    return next((o for use in ("index", "mask") for o in arrays if o.use == use), arrays[0])


def in_place_words(family):
    """Which operands may be the room, in words, or nothing."""
    if not family.in_place:
        return ""
    single = [names[0] for names in family.in_place if len(names) == 1]
    both = any(len(names) > 1 for names in family.in_place)
    if len(single) == 1:
        return f"{single[0]} may be out."
    return f"{', '.join(single)} or both may be out." if both else f"{' or '.join(single)} may be out, but not both."


FAMILIES = {family.name: Row(family) for family in table.FAMILIES}
IN_STEPS = {family.name: Row(family) for family in steps_table.IN_STEPS}
CALLS = [Row(FAMILIES[call.family].family, call) for call in table.CALLS]


def fault_text(row, of_room=True):
    """The faults as a sentence."""
    said = [fault.said for fault in row.faults if of_room or not fault.of_room]
    return "; ".join(said) + "." if said else ""


# ---- against the proved table of calls, and the exports ----

KINDS = {"ints": "Integers", "flags": "Booleans", "int": "Integer", "flag": "Boolean"}

# Calls of the table of calls that have no function: a line of a script alone, or a length that a caller has.
OF_SCRIPTS = {"input", "nested", "write"}
OF_LENGTHS = {"len_luz", "len_lub", "len_fos"}


def _kind(operand):
    return "Descriptor" if operand.role == "lengths" else KINDS[operand.kind]


def call_differences(calls):
    """In what the rows differ from the proved table of calls."""
    named = {row.name: row for row in CALLS}
    for name in sorted(set(calls) - set(named) - OF_SCRIPTS - OF_LENGTHS):
        yield f"{name} of the table of calls has no row"
    for name, row in named.items():
        takes, gives = calls.get(name, ([], []))
        operands = ["Integers"] if row.result is None else [_kind(operand) for operand in row.takes]
        if operands != takes:
            yield f"{name} takes {takes} in the table of calls and {operands} in its row"
        found = [KINDS[row.result.kind]] if row.result else ["Descriptor"]
        if gives != found and not (gives == ["Descriptor"] and found == ["Integers"]):
            yield f"{name} gives {gives} in the table of calls and {found} in its row"
        if (
            row.operator is not None
            and row.operator not in row.family.operators
            or (row.operator is None) == bool(row.family.operators)
        ):
            yield f"{name} has the operator {row.operator}, which is none of {row.family.name}"


READ_AS = {
    "ints": ("&[i32]",),
    "flags": ("&[u8]", "&[bool]"),
    "bytes": ("&[u8]",),
    "text": ("&[u8]",),
    "sums": ("&[i64]",),
    "sizes": ("&[usize]",),
    "marks": ("&[u32]",),
    "placed": ("&[Placed]",),
}
WRITTEN_AS = {
    "ints": ("&mut [i32]",), "flags": ("&mut [u8]", "&mut [bool]"), "bytes": ("&mut [u8]",), "text": ("&mut [u8]",), "marks": ("&mut [u32]",),
    "sums": ("&mut [i64]",), "sizes": ("&mut [usize]",), "placed": ("&mut [Placed]",),
}  # fmt: skip
ONE_AS = {"int": "i32", "flag": "bool", "sum": "i64", "size": "usize", "word": "u32"}


def _types(operand, is_room=False):
    """The types that an operand may have in an export."""
    if operand.role == "room" or is_room:
        return WRITTEN_AS[operand.kind]
    if operand.role == "reads":
        return READ_AS[operand.kind]
    if operand.role == "lengths":
        return ("&[i32]",)
    return (f"&mut {ONE_AS[operand.kind]}",) if operand.role in ("single", "told") else (ONE_AS[operand.kind],)


def in_place_exports(family):
    """The exports in place: each name, and the operands that are the room."""
    ends = ["_in"] if len(family.in_place) == 1 else ["_in_first", "_in_second", "_in_both"]
    return [(f"{family.exported}{end}", names) for end, names in zip(ends, family.in_place)]


def _export_differences(name, wanted, family, found):
    """In what an export differs from the operands `wanted`, each with the types that it may have."""
    parameters = [(left.replace("_out", ""), right) for left, right in found if right != "Global"]
    if family.operators:
        wanted = [("op", ("u32",)), *wanted]
    if [left for left, _ in parameters] != [left for left, _ in wanted]:
        yield f"{name} has the parameters {[left for left, _ in parameters]}, and its row {[left for left, _ in wanted]}"
    for (left, right), (_, types) in zip(parameters, wanted):
        if right not in types:
            yield f"{name} takes {left} as {right}, and its row says {' or '.join(types)}"
    for operand in family.operands:
        if dict(parameters).get(operand.name) == "&[bool]" and not operand.copied:
            yield f"{name} takes no flags but 0 and 1 as {operand.name}, and its row doesn't copy others"
    if any(right == "Global" for _, right in found) != family.asks:
        yield f"{name} {'asks' if not family.asks else 'does not ask'} for memory, and its row says the other"


# Exports that C calls by name: those that look at flags, and those that cut a call.
WITHOUT_A_ROW = ("are_flags", "make_flags", "even_places", "first_start", "white_places")


def export_differences(exports):
    """In what the rows differ from the exports."""
    named = {*WITHOUT_A_ROW}
    for row in [*FAMILIES.values(), *IN_STEPS.values()]:
        family = row.family
        named.add(family.exported)
        yield from _export_differences(
            family.exported, [(o.name, _types(o)) for o in family.operands], family, exports.get(family.exported, [])
        )
        for name, rooms in in_place_exports(family):
            named.add(name)
            left = [o for o in family.operands if o.role != "room" and (o.name not in rooms or o.name == rooms[0])]
            yield from _export_differences(
                name, [(o.name, _types(o, o.name in rooms)) for o in left], family, exports.get(name, [])
            )
    for name in sorted(named ^ set(exports)):
        yield f"{name} is {'no export' if name in named else 'an export without a row'}"


def extent_differences():
    """Examples that do not name each operand, or whose arrays are not as long as the row says."""
    for row in [*CALLS, *(found for found in FAMILIES.values() if found.example)]:
        lengths = collections.defaultdict(set)
        for operand in row.takes:
            if operand.name not in row.example:
                yield f"the example of {row.name} has no {operand.name}"
            elif is_array(operand) and operand.kind != "text":
                count = len(row.example[operand.name].split())
                lengths["segments" if operand.extent == "offsets" else operand.extent].add(count - (operand.extent == "offsets"))
            elif operand.role == "lengths":
                words = row.example[operand.name].split()
                lengths["segments"].add(len(words))
                lengths[operand.extent].add(sum(map(int, words)))
        for operand in row.rooms:
            if operand.over and table.before(operand.name) not in row.example:
                yield f"the example of {row.name} does not say what stands in {operand.name} before"
            elif operand.over:
                lengths[operand.extent].add(len(row.example[table.before(operand.name)].split()))
        if (
            row.result
            and row.result.role == "room"
            and row.result.kind not in ("text", "marks")
            and row.result.extent in ("n", "m", "segments", "total")
        ):
            lengths[row.result.extent].add(len(row.example[row.result.name].split()))
        for extent, found in lengths.items():
            if len(found) > 1:
                yield f"in the example of {row.name} what is as long as {extent} has the lengths {sorted(found)}"


def differences(calls, exports):
    return [*call_differences(calls), *export_differences(exports), *extent_differences()]

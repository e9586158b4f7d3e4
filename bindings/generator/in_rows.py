"""What is written in C under the headers: a row for each family, the function that calls its exports, and the public functions, which hand
their arguments to the driver."""

import in_c
import rows
import steps_table
import table
from in_c import indented, kept, parameters, wrapped

# What an array that is read is to a call, by its use; the first other one is A, and the second B.
READ = {"index": "INDEX", "columns": "INDEX", "mask": "FLAGS", "offsets": "OFFSETS"}

# What a number is to a call, by its use or else by its role.
NUMBERS = {"stride": "STRIDE", "lowest": "LOWEST", "row_count": "ROWS", "column_count": "COLUMNS"}

SIZES = {
    "ints": "sizeof(int32_t)",
    "flags": "sizeof(bool)",
    "bytes": "sizeof(uint8_t)",
    "text": "sizeof(char)",
    "marks": "sizeof(uint32_t)",
    "sums": "sizeof(int64_t)",
    "sizes": "sizeof(size_t)",
    "placed": "sizeof(CvlPlaced)",
    "int": "sizeof(int32_t)",
    "flag": "sizeof(bool)",
    "sum": "sizeof(int64_t)",
    "size": "sizeof(size_t)",
}

# The faults that an export tells of elements, behind those that it tells of lengths.
OF_ELEMENTS = {8, 9, 10, 11, 18}


class Family:
    """What the row of a family says."""

    def __init__(self, row):
        self.row, self.family, self.name = row, row.family, row.name
        self.operands = row.family.operands
        self.cut, self.extent = row.family.cut or (None, None)
        self.lengths = [k for k, operand in enumerate(self.operands) if operand.role == "lengths"]

    def place(self, test):
        """The place of the first operand for which a test is true, or None."""
        return next((k for k, operand in enumerate(self.operands) if test(operand)), None)

    def is_joined(self, operand):
        """Whether it is a room whose elements are joined with what is read."""
        return operand.over and any(o.role == "reads" for o in self.operands)

    @property
    def is_cut(self):
        """Whether the family is made in parts where it is long, by itself or as the one that takes lengths."""
        return bool(self.steps or self.family.by_lengths)

    # ---- operands ----

    def role(self, k):
        """What an operand is to the call, without CVL_AS_."""
        operand = self.operands[k]
        if operand.role == "reads":
            others = [o for o in self.operands if o.role == "reads" and o.use not in READ]
            return READ.get(operand.use) or ("A" if operand is others[0] else "B")
        if operand.role == "lengths":
            first = (
                operand.extent == self.extent or self.cut in (None, "lengths") and k == self.lengths[0] or len(self.lengths) == 1
            )
            return "LENGTHS" if first else "THIRD_LENGTHS" if k in self.lengths[2:] else "OTHER_LENGTHS"
        if operand.role in ("room", "single"):
            return "MARKS" if operand.kind == "marks" else "OUT" if k == self.out else "OTHER_OUT"
        if operand.role == "told":
            return "TOLD" if k == self.place(lambda o: o.role == "told") else "OTHER_TOLD"
        return {"place": "PLACE", "count": "COUNT"}.get(operand.role) or NUMBERS.get(operand.use, "VALUE")

    @property
    def out(self):
        """The place of the room, of the value that is written, or of what is told where there is neither."""
        found = self.place(lambda o: o.role in ("room", "single"))
        return self.place(lambda o: o.role == "told") if found is None else found

    def like(self, k):
        """The place of the operand whose number says what this one's has to be, and their CvlRelation without its prefix."""
        operand = self.operands[k]
        if operand.role == "lengths":
            return self.lengths[0], "SAME"
        if not rows.is_array(operand):
            return k, "SAME"
        if operand.extent in ("n", "m", "segments", "total"):
            return self.first_of(operand.extent), "SAME"
        if operand.extent == "offsets":
            return self.first_of("segments"), "ONE_MORE"
        if operand.extent == "count":
            return self.place(lambda o: o.role == "count"), "SAME"
        if operand.extent == "range":
            return self.place(lambda o: o.use == "lowest"), "FROM_LOWEST"
        return (self.out, "A_BIT_EACH") if operand.extent == "marks" else (k, "SAME")

    def first_of(self, extent):
        """The place of the first array of this extent; if it is that of segments, of the first lengths, where there are some."""
        if extent == "segments" and self.lengths:
            return self.lengths[0]
        return self.place(lambda o: rows.is_array(o) and o.extent == extent)

    def total(self, k):
        """The place of the array that has as many elements as lengths or offsets add up to; of any other operand its own."""
        operand = self.operands[k]
        if operand.extent == "offsets":
            return self.operands.index(rows.limited(self.family))
        if operand.role != "lengths":
            return k
        found = self.place(lambda o: rows.is_array(o) and o.extent == operand.extent)
        return k if found is None else found

    def by(self, k):
        """By which boundaries the parts of an operand are cut, where they make the call itself."""
        operand = self.operands[k]
        if self.cut == "places":
            return "FROM" if operand.extent == self.extent or operand.role == "count" else "NONE"
        if self.cut == "merge":
            return {"n": "FROM", "trues": "OTHER", "falses": "THIRD"}[operand.extent]
        if self.cut != "segments" or operand.role not in ("reads", "lengths", "room"):
            return "NONE"
        if operand.role == "lengths" or operand.extent == "segments":
            return "FIRST"
        if operand.extent == self.extent:
            return "START"
        if operand.extent in ("falses", "both"):
            return "THIRD"
        return (
            "OTHER"
            if operand.extent == "trues" or any(self.operands[j].extent == operand.extent for j in self.lengths)
            else "NONE"
        )

    def marks(self, k):
        """What is so of an operand."""
        operand = self.operands[k]
        if operand.role in ("reads", "lengths"):
            yield "READ"
        if operand.role in ("room", "single", "told"):
            yield "WRITTEN"
        if any(operand.name in names for names in self.family.in_place):
            yield "IN_PLACE"
        cut = (
            rows.is_array(operand)
            and self.first_of(operand.extent) == k
            and any(self.operands[j].extent == operand.extent for j in self.lengths)
        )
        limited = operand is rows.limited(self.family)
        if limited or k in self.lengths[:1] or cut or operand.over:
            yield "BOUNDED"
        if limited or operand.extent == "range" or self.is_joined(operand) and not self.lengths:
            yield "TOO_MANY"
        if operand.copied:
            yield "COPIED"
            if self.role(k) == "FLAGS" or not (operand.over or self.cut and table.CUTS[self.cut].any_bytes):
                yield "COPIED_IN_PARTS"

    def size(self, k):
        """The bytes of an element, or none of a number."""
        operand = self.operands[k]
        return (
            "sizeof(int32_t)"
            if operand.role == "lengths"
            else "0"
            if operand.role in ("value", "place", "count")
            else SIZES[operand.kind]
        )

    # ---- the family ----

    @property
    def cut_place(self):
        """The place of the operand whose elements are cut."""
        if self.cut == "lengths":
            return self.lengths[0]
        return self.place(lambda o: rows.is_array(o) and (o.extent == self.extent or self.cut == "read"))

    @property
    def room(self):
        return next((o for o in self.operands if o.role == "room"), None)

    @property
    def reads_text(self):
        return any(o.kind == "text" and o.role == "reads" for o in self.operands)

    @property
    def faulty(self):
        """The operators, by their numbers, whose elements may be at fault; 0 stands for a family without operators."""
        if any(OF_ELEMENTS & set(fault.numbers) for fault in self.family.faults):
            return [0]
        return [found.number for found in table.OPERATORS if found.name in self.family.operators and found.fault]

    @property
    def is_sure(self):
        """Whether the export does its work once all lengths fit: no element is at fault, and it asks for no memory."""
        return not (self.family.asks or self.faulty or any(fault.in_elements for fault in self.family.faults))

    @property
    def about(self):
        """The faults of elements whose place counts in an operand, the place of that operand, and of the one into which its indices lead."""
        operators = [found.fault for found in table.OPERATORS if found.name in self.family.operators and found.fault]
        found = [fault for fault in (*self.family.faults, *operators) if fault.about and OF_ELEMENTS & set(fault.numbers)]
        if len({(fault.about, fault.into) for fault in found}) > 1:
            raise ValueError(f"{self.name} has faults about several operands")
        tells = sorted({number for fault in found for number in fault.numbers})
        about, into = (found[0].about, found[0].into) if found else (None, None)
        return tells, self.place(lambda o: o.name == about), self.place(lambda o: o.name == into)

    @property
    def is_asked(self):
        """Whether what the export tells last has to be told before."""
        return not self.reads_text and bool(
            self.family.asks or any(o.copied for o in self.operands) or (self.faulty and self.room)
        )

    @property
    def is_late(self):
        """Whether the export asks for memory, or for a room whose length only a walk tells, which it asks behind the faults of elements."""
        by_lengths = self.row.result is not None and self.row.result.extent in rows.said_by_lengths(self.row)
        return self.is_asked and (self.family.asks or by_lengths or any(o.extent == "trues" for o in self.operands))

    @property
    def of_bools(self):
        """Whether the elements are booleans."""
        arrays = [o for o in self.operands if o.role == "reads"]
        items = arrays[0] if arrays and arrays[0].use != "mask" else self.row.result
        items = next((o for o in self.operands if o.role == "value"), items) if self.cut == "places" else items
        return items is not None and items.kind in ("flags", "flag")

    @property
    def steps(self):
        """The steps of its parts."""
        if self.cut is None or self.family.by_lengths:
            return ()
        if self.cut == "segments":
            return tuple(self.steps_between_segments())
        return steps_table.steps_of(self.cut, "bool" if self.of_bools else "int")

    def steps_between_segments(self):
        """Of a call that is cut between segments: if a part may fail, what stood in the rooms is kept."""
        roles, by = [self.role(k) for k in range(len(self.operands))], [self.by(k) for k in range(len(self.operands))]
        appends = any(o.extent == "both" for o in self.operands)
        counted = {
            "OTHER": "OTHER_LENGTHS" if "OTHER_LENGTHS" in roles else "FLAGS",
            "THIRD": "THIRD_LENGTHS",
        }
        others = [
            (found, counted[found], roles[by.index(found)])
            for found in ("OTHER", "THIRD")
            if found in by and not (appends and found == "THIRD")
        ]
        rooms = [(f"KEPT_{role}", o.kind) for role, o in zip(roles, self.operands) if o.role == "room"]
        return steps_table.between_segments(others, appends, [] if self.is_sure else rooms)

    @property
    def words(self):
        """What is so of the family."""
        measured = self.room is not None and (self.room.kind == "text" or any(o.use == "mask" for o in self.operands))
        by_elements = measured and self.room.extent in ("trues", "room") and not self.reads_text
        said = {
            "ASKED": self.is_asked,
            "LATE": self.is_late,
            "READS_TEXT": self.reads_text,
            "COUNTED": any(o.role == "count" for o in self.operands),
            "BY_TRUES": by_elements and self.room.kind != "text",
            "WRITES_TEXT": by_elements and self.room.kind == "text",
            "FRONT": by_elements and self.room.extent == "room",
            "OF_BOOLS": self.of_bools,
            "AT_PLACE": any(o.role == "place" for o in self.operands),
            "TOGETHER": any(len(names) > 1 for names in self.family.in_place),
            "MERGES": not self.lengths and any(o.extent == "falses" for o in self.operands),
            "APPENDS": any(o.extent == "both" for o in self.operands),
            "TURNS": any(o.use == "row_count" for o in self.operands),
            "ADDS": self.room is not None and self.is_joined(self.room) and not self.family.operators,
            "ONE_SEGMENT": self.cut in ("run_lengths", "run_starts") and not self.lengths,
        }
        return [word for word, is_so in said.items() if is_so]


def flags_of(words):
    return " | ".join(f"CVL_{word}" for word in words) or "0"


def bits_of(numbers):
    return " | ".join(f"1u << CVL_{in_c.name_of(number)}" for number in numbers) or "0"


def operand_row(found, k):
    like, relation = found.like(k)
    words = [f"CVL_AS_{found.role(k)}", found.size(k), str(like), f"CVL_{relation}", str(found.total(k)), f"CVL_BY_{found.by(k)}"]
    return "        " + "{" + ", ".join([*words, flags_of(found.marks(k))]) + "},"


def row_of(found):
    """The row of a family."""
    family = found.family
    numbers = [o.number for o in table.OPERATORS if o.name in family.operators]
    lines = [f".operands = {len(found.operands)}, .out = {found.out}, .is = {flags_of(found.words)}, .most = CVL_MOST_ELEMENTS,"]
    if numbers:
        lines.append(f".operators = {bits_of(numbers)},")
    if found.faulty:
        lines.append(f".faulty = {'1' if found.faulty == [0] else bits_of(found.faulty)},")
    tells, about, into = found.about
    said = f".names = {found.name}_names, .into = {'CVL_MOST_OPERANDS' if into is None else into},"
    lines.append(said + (f" .about = {about}, .tells = {' | '.join(f'1u << {number}' for number in tells)}," if tells else ""))
    if found.is_cut:
        least = f"CVL_{table.CUTS[found.cut].least}"
        each = f"{least.removesuffix('_SHARED')}_EACH"
        lines.append(f".cut = {found.cut_place}, .least = {least}, .each = {each},")
    made = f".make = make_{found.name}"
    if family.by_lengths:
        made += f", .by_lengths = &cvl_{family.by_lengths}_row"
    elif found.steps:
        made += f", .step = {found.name}_steps, .steps = {len(found.steps)}"
    names = f"static const char *const {found.name}_names[] = {{{', '.join(kept(chr(34) + o.name + chr(34)) for o in found.operands)}}};"
    head = f"{wrapped(names)}\nstatic const CvlRow cvl_{found.name}_row = {{\n    .operand = {{"
    return "\n".join(
        [
            head,
            *(operand_row(found, k) for k in range(len(found.operands))),
            "    },",
            *(indented(f"{line}") for line in [*lines, made + ","]),
            "};",
        ]
    )


# ---- the steps of a call in parts ----


def taken(found, step, called, k):
    """What a part has of an operand of what a step calls: its role, and by which boundaries it is cut."""
    name = called.operands[k].name
    source = step.operands.get(name, name)
    if isinstance(source, tuple):
        return source
    j = found.place(lambda o: o.name == source)
    if step.calls is None:
        return found.role(j), found.by(j)
    return found.role(j), "FROM" if found.operands[j].extent == found.extent or found.operands[j].role == "lengths" else "NONE"


def row_of_memory(step):
    """The row of a step that takes memory."""
    operands = [f"{{.as = CVL_AS_{role}, .size = {SIZES[kind]}, .by = CVL_BY_{by}}}" for role, kind, by in step.operands.values()]
    said = f".operands = {len(operands)}, .kind = CVL_TAKES, .when = {when_of(step)}"
    return "\n".join(
        [indented("{.operand = {"), *(indented(f"{operand},", 2) for operand in operands), indented(f"}}, {said}}},")]
    )


def when_of(step):
    return "CVL_ALWAYS" if step.when == "always" else f"CVL_IF_{step.when.upper().replace(' ', '_')}"


def step_row(found, step):
    if step.kind == "takes":
        return row_of_memory(step)
    called = found if step.calls is None else Family((rows.FAMILIES | rows.IN_STEPS)[step.calls])
    takes = [taken(found, step, called, k) for k in range(len(called.operands))]
    operands = [f"{{.as = CVL_AS_{role}, .size = {called.size(k)}, .by = CVL_BY_{by}}}" for k, (role, by) in enumerate(takes)]
    roles = {found.role(k) for k in range(len(found.operands))}
    on_flags = any(operand.copied and role in roles for operand, (role, _) in zip(called.operands, takes))
    op = f"CVL_{step.operator}" if step.operator else "CVL_OP_OF_CALL"
    said = f".operands = {len(operands)}, .kind = CVL_{step.kind.upper()}, .op = {op}, .on_flags = {int(on_flags)}, "
    said += f".when = {when_of(step)}, .make = make_{called.name}"
    return "\n".join(
        [indented("{.operand = {"), *(indented(f"{operand},", 2) for operand in operands), indented(f"}}, {said}}},")]
    )


def rows_of_steps(found):
    return "\n".join(
        [f"static const CvlStepRow {found.name}_steps[] = {{", *(step_row(found, step) for step in found.steps), "};"]
    )


# ---- the function that calls the exports of a family ----


def export_argument(found, k, is_room=False):
    operand = found.operands[k]
    if operand.role == "place":
        return f"cvl_place_of((int64_t)s[{k}].number)"
    if operand.role in ("value", "count"):
        return {
            "int": f"(int32_t)s[{k}].number",
            "flag": f"s[{k}].number != 0",
            "sum": f"(int64_t)s[{k}].number",
            "size": f"s[{k}].number",
            "word": f"(uint32_t)s[{k}].number",
        }[operand.kind]
    if operand.role in ("single", "told"):
        return f"({rows.NUMBERS[operand.kind]}*)s[{k}].at"
    kind = {
        "ints": "int32_t *",
        "flags": "bool *",
        "bytes": "bool *",
        "text": "bool *",
        "marks": "uint32_t *",
        "sums": "int64_t *",
        "sizes": "size_t *",
        "placed": "CvlPlaced *",
    }[operand.kind]
    cast = f"({kind})" if operand.role == "room" or is_room else ""
    return f"{cast}s[{k}].at, s[{k}].number"


def export_call(found, exported, rooms=()):
    """The call of an export: in place, without the operand that is the room but for the first, and without the room."""
    words = ["op"] if found.family.operators else []
    for k, operand in enumerate(found.operands):
        if not rooms or operand.role != "room" and (operand.name not in rooms or operand.name == rooms[0]):
            words.append(export_argument(found, k, operand.name in rooms))
    return f"cvl_proved_{exported}({', '.join(map(kept, words))})"


def make_function(found):
    lines = [] if found.family.operators else ["    (void)op;"]
    for exported, names in sorted(rows.in_place_exports(found.family), key=lambda option: -len(option[1])):
        places = [found.place(lambda o: o.name == name) for name in names]
        test = " && ".join(f"cvl_is_one(s[{k}], s[{found.out}])" for k in places)
        lines.append(in_c.guarded(test, export_call(found, exported, names)))
    head = f"static CvlStatus make_{found.name}(uint32_t op, const CvlSlot *s) {{"
    return "\n".join([head, *lines, indented(f"return {export_call(found, found.family.exported)};"), "}"])


# ---- public functions ----


def slot(row, operand):
    """The slot of an operand, of what a function is given."""
    if rows.is_array(operand):
        size = f"{operand.name}_len" if row.call is None else in_c.size_of(row, operand)
        return f"{{{operand.name}, {size}}}"
    if operand.role == "lengths":
        return f"{{{operand.name}.lengths, {operand.name}.segments}}"
    if operand.role in ("single", "told"):
        return f"{{{operand.name}, 1}}"
    return f"{{NULL, {operand.name} != 0}}" if operand.kind == "flag" else f"{{NULL, (size_t){operand.name}}}"


def handing(head, called, slots):
    return "\n".join(
        [wrapped(f"{head}{kept(' {')}"), indented(f"return {called}, CVL_SLOTS({', '.join(map(kept, slots))}));"), "}"]
    )


def operator_of(row):
    return f"CVL_{row.operator}" if row.operator else "op" if row.family.operators else "0"


def function(row):
    """A function of cvl.h: a family, or a call."""
    head = f"CvlStatus cvl_{row.name}({parameters(row.arguments)})"
    return handing(head, f"cvl_call(&cvl_{row.family.name}_row, {operator_of(row)}", [slot(row, o) for o in row.operands])


def function_on(row):
    """The same with a pool."""
    head = f"CvlStatus cvl_{row.name}_on({in_c.POOL}, {parameters(row.arguments)})"
    return handing(
        head, f"cvl_call_on(pool, &cvl_{row.family.name}_row, {operator_of(row)}", [slot(row, o) for o in row.operands]
    )


def segments_function(row):
    """A family on segments with a descriptor in the place of its lengths."""
    slots = [f"{{{o.name.replace('lengths', 'segments')}, 1}}" if o.role == "lengths" else slot(row, o) for o in row.operands]
    head = f"CvlStatus cvl_{in_c.segments_name(row)}({parameters(in_c.held(row.arguments))})"
    return handing(head, f"cvl_call_on_segments(&cvl_{row.name}_row, {operator_of(row)}", slots)


def fault_names():
    names = [f'    case CVL_{in_c.constant(name)}: return "{name}";' for _, name in table.STATUSES]
    return "\n".join(
        [
            "const char *cvl_fault_name(uint32_t number) {",
            "    switch (number) {",
            *names,
            '    default: return "Unknown";',
            "    }",
            "}",
        ]
    )


def calls_file():
    """`bindings/c/calls.c`."""
    families = [Family(row) for row in rows.FAMILIES.values()]
    whole = [*rows.FAMILIES.values(), *rows.CALLS]
    in_parts = [row for row in whole if row.family.cut is not None]
    head = in_c.comment(
        "The functions of cvl.h and cvl_parallel.h: a row for each family, with the function that calls its export, or the one in place; and each "
        "public function, which hands its arguments to the driver by the row of its family.",
        rows.NOTE,
    )
    blocks = [make_function(found) for found in [*families, *map(Family, rows.IN_STEPS.values())]]
    blocks += [block for found in families for block in ([rows_of_steps(found)] if found.steps else []) + [row_of(found)]]
    blocks += [
        fault_names(),
        *(
            "\n".join(found)
            for found in (map(function, whole), map(function_on, in_parts), map(segments_function, in_c.on_segments()))
        ),
    ]
    return "\n\n".join([f'{head}\n#include "driver.h"\n#include "parts.h"', *blocks]) + "\n"

"""What is written in C: the headers, the short names, and the checked functions."""

import itertools
import re
import textwrap

import about
import rows
import table

WIDTH = 128

# stands for a space at which no line ends
KEPT = "\0"


def kept(words):
    return words.replace(" ", KEPT)


def wrapped(line, indent="    ", width=WIDTH):
    return textwrap.fill(line, width, subsequent_indent=indent, break_long_words=False, break_on_hyphens=False).replace(KEPT, " ")


def comment(*paragraphs, width=WIDTH):
    """Paragraphs as a comment: on one line, where that is all."""
    whole = " ".join(paragraphs)
    if len(paragraphs) == 1 and len(whole) < width - 6:
        return f"/* {whole} */"
    lines = []
    for paragraph in paragraphs:
        indent = re.match(r" *(?:\d\. |- )?", paragraph).end()
        lines += textwrap.wrap(
            paragraph,
            width - 3,
            subsequent_indent=" " * indent,
            drop_whitespace=True,
            break_long_words=False,
            break_on_hyphens=False,
        ) or [""]
    return "\n".join(["/*", *(f" * {line}".rstrip() for line in lines), " */"])


def spaced(paragraphs):
    """Paragraphs with an empty line between each two, but not between the items of a list."""
    found = []
    for k, paragraph in enumerate(paragraphs):
        if k and not (paragraph.startswith(" ") and paragraphs[k - 1].startswith(" ")):
            found.append("")
        found.append(paragraph)
    return found


def parameters(arguments, alone=False):
    """Parameters in C; a room that may be no operand is marked."""
    found = []
    for argument in arguments:
        room = argument.operand is not None and argument.operand.role == "room" and argument.size is None
        found.append(kept(f"{argument.type}{'CVL_RESTRICT ' if room and alone else ''}{argument.name}"))
    return ", ".join(found)


def nonnull(arguments):
    """The places, from 1, of the pointers to single values, which may never be null."""
    single = [
        k
        for k, argument in enumerate(arguments, 1)
        if argument.operand is not None and argument.operand.role in ("single", "told")
    ]
    return f" CVL_NONNULL(({', '.join(map(str, single))}))" if single else ""


def given(arguments):
    return ", ".join(argument.name for argument in arguments)


# ---- cvl.h ----


def example_text(row):
    """The example as one line: what is given, a colon, and what it gives."""
    operands = [operand.name for operand in row.takes]
    before = {table.before(operand.name): operand.name for operand in row.rooms if operand.over}
    known = [name for name in row.example if name in operands or name in ("op", "out_len", *before)]
    gives = [operand for operand in row.written if operand.name in row.example]

    def shown(name):
        operand = next((found for found in row.operands if found.name == name), None)
        star = "*" if row.call and operand is not None and operand.role in ("single", "told") else ""
        return f"{star}{before.get(name, name)} = {'CVL_' if name == 'op' else ''}{row.example[name]}"

    return f"{', '.join(map(shown, known))}: {', '.join(shown(operand.name) for operand in gives)}"


def comment_of(row):
    """The comment before a function. The faults of lengths stand once at the top, and examples in the manual; and the arguments show arrays of
    one length."""
    family, call = row.family, row.call
    shape = "" if family.shape in (table.SHAPE_ONE, table.SHAPE_TWO) else family.shape
    said = [call.sentence, shape, family.told] if call else [family.sentence, family.told if row.example else ""]
    faults = "; ".join(fault.said for fault in row.faults if fault not in table.OF_LENGTHS) if call or row.example else ""
    said.append(f"Faults: {faults}." if faults else "")
    said.append(f"In place: {rows.in_place_words(family)}".replace(" may be out", "") if call and family.in_place else "")
    return comment(" ".join(filter(None, said)))


def declaration(row):
    alone = row.call is not None and not row.family.in_place
    marks = nonnull(row.arguments) if row.call else ""
    return wrapped(f"CVL_CHECKED CvlStatus cvl_{row.name}({parameters(row.arguments, alone)}){marks};")


def commented(pairs):
    """Declarations below their comments, which neighbours share if they have the same."""
    return [
        "\n".join([said, *(declared for _, declared in group)])
        for said, group in itertools.groupby(pairs, key=lambda pair: pair[0])
    ]


def sections(found, title, intros):
    """The functions of rows, each section with its title."""
    blocks = []
    for section, group in itertools.groupby(found, key=lambda row: row.section):
        blocks.append(f"/* ---- {section}: {title} ---- */")
        if section in intros:
            blocks.append(comment(*spaced(intros[section])))
        blocks += commented((comment_of(row), declaration(row)) for row in group)
    return "\n\n".join(blocks)


def on_segments():
    """The families on segments, each with a descriptor in the place of its lengths."""
    return [row for row in rows.FAMILIES.values() if row.cuts and row.name.startswith("seg_")]


def segments_name(row):
    return row.name.replace("seg_", "segments_", 1)


def held(arguments):
    """Arguments with a descriptor in the place of lengths: `segments` for `lengths`."""
    found = []
    for argument in arguments:
        if argument.operand is not None and argument.operand.role == "lengths":
            found.append(argument._replace(name=argument.name.replace("lengths", "segments"), type="const CvlSegments *"))
        else:
            found.append(argument)
    return found


def segments_declaration(row):
    return wrapped(f"CVL_CHECKED CvlStatus cvl_{segments_name(row)}({parameters(held(row.arguments))});")


def segments_declarations():
    return "\n\n".join(map(segments_declaration, on_segments()))


def operators():
    """The numbers of the operators, one a line."""
    last = table.OPERATORS[-1]
    return "\n".join(
        f"    CVL_{found.name} = {found.number}{' ' if found is last else ','} /* {found.sentence} */"
        for found in table.OPERATORS
    )


def of_operators():
    flags = ", ".join(f"CVL_{name}" for name in table.OF_FLAGS)
    return f"The numbers of operators. On two integers: {table.first_to_last(table.BINARY)}; on two booleans: {flags}."


def statuses():
    return ",\n".join(f"    CVL_{constant(name)} = {number}" for number, name in table.STATUSES)


def constant(name):
    """DivideByZero as DIVIDE_BY_ZERO."""
    return re.sub(r"(?<!^)(?=[A-Z])", "_", name).upper()


def declared(functions):
    """Functions without a row."""
    return "\n\n".join(f"{comment(*said)}\n{shown}" for _, said, shown in functions)


def filled(template, parts):
    """A template with each line `@name@` replaced."""
    return re.sub(r"^@(\w+)@$", lambda found: parts[found.group(1)], template, flags=re.M)


def header(template):
    """`include/cvl.h`."""
    major, minor, patch = table.VERSION.split(".")
    version = f'#define CVL_VERSION "{table.VERSION}"\n#define CVL_VERSION_MAJOR {major}\n#define CVL_VERSION_MINOR {minor}\n#define CVL_VERSION_PATCH {patch}'
    return filled(
        template,
        {
            "about": comment(*spaced((about.ABOUT[0], rows.NOTE, *about.ABOUT[1:], about.IN_HEADER))),
            "version": version,
            "status_type": about.STATUS_TYPE,
            "lengths_type": about.LENGTHS_TYPE,
            "segments_type": about.SEGMENTS_TYPE,
            "of_versions": declared(about.OF_VERSIONS),
            "threads": comment(*spaced(about.THREADS)),
            "of_threads": declared(about.OF_THREADS),
            "of_flags": declared(about.OF_FLAGS),
            "of_indices": declared(about.OF_INDICES),
            "descriptors": comment(*spaced(about.DESCRIPTORS)),
            "of_descriptors": declared(about.OF_DESCRIPTORS),
            "statuses": statuses(),
            "most": f"enum {{ CVL_MOST_ELEMENTS = {table.MOST_ELEMENTS}, CVL_MOST_OF_TEXT = {table.MOST_OF_TEXT}, CVL_MOST_STACK = {table.MOST_STACK} }};",
            "of_operators": comment(of_operators()),
            "operators": operators(),
            "families": sections(rows.FAMILIES.values(), "families", table.OF_FAMILIES),
            "calls": sections(rows.CALLS, "the calls of the table", table.OF_CALLS),
            "segments": segments_declarations(),
        },
    )


# ---- short names ----


def short_names():
    """`include/cvl_short_names.h`."""
    lines = [
        "/*",
        " * cvl_short_names.h: each call of the table without its prefix, as add_wuz(a, b, out, n), and in parts, as add_wuz_on(&pool, a, b, out, n).",
        " * cvl.h includes it if CVL_SHORT_NAMES is defined. A name is that of a call if a bracket follows it, else the program's own.",
        " *",
        f" * {rows.NOTE}",
        " */",
        "#ifndef CVL_SHORT_NAMES_H",
        "#define CVL_SHORT_NAMES_H",
        "",
        "/* older standards than C++11 warn of macros with any number of arguments, unless a header is the system's */",
        "#if defined(__GNUC__) && defined(__cplusplus) && __cplusplus < 201103L",
        "#pragma GCC system_header",
        "#endif",
        "",
    ]
    for end in ("", "_on"):
        lines += [f"#define {row.name}{end}(...) cvl_{row.name}{end}(__VA_ARGS__)" for row in rows.CALLS]
    return "\n".join([*lines, "", "#endif", ""])


# ---- the proved exports ----

TYPES = {
    "&[i32]": "const int32_t *",
    "&[u8]": "const bool *",
    "&[bool]": "const bool *",
    "&mut [i32]": "int32_t *",
    "&mut [u8]": "bool *",
    "&mut [bool]": "bool *",
    "&[u32]": "const uint32_t *",
    "&mut [u32]": "uint32_t *",
    "&[Placed]": "const CvlPlaced *",
    "&mut [Placed]": "CvlPlaced *",
    "&[i64]": "const int64_t *",
    "&[usize]": "const size_t *",
    "&mut [i64]": "int64_t *",
    "&mut [usize]": "size_t *",
    "&mut i32": "int32_t *",
    "&mut i64": "int64_t *",
    "&mut bool": "bool *",
    "&mut usize": "size_t *",
    "u32": "uint32_t ",
    "i32": "int32_t ",
    "i64": "int64_t ",
    "usize": "size_t ",
    "bool": "bool ",
}


def proved_declaration(name, found):
    """An export, under its name beneath: an allocator is nothing, a slice a pointer and a number of elements."""
    words = []
    for parameter, kind in found:
        if kind == "Global":
            continue
        words.append(kept(f"{TYPES[kind]}{parameter}"))
        if "[" in kind:
            words.append(kept(f"size_t {parameter}_len"))
    answer = {"are_flags": "bool", "make_flags": "void"}.get(name, "CvlStatus")
    return wrapped(f"CVL_HIDDEN {answer} cvl_proved_{name}({', '.join(words)});")


def proved_header(exports):
    """`bindings/c/proved.h`."""
    said = comment("proved.h: the proved exports of crates/cvl_c, under their names beneath those of the headers.", rows.NOTE)
    declared = [proved_declaration(name, found) for name, found in sorted(exports.items())]
    return "\n".join(
        [said, "#ifndef CVL_PROVED_H", "#define CVL_PROVED_H", "", '#include "internal.h"', "", *declared, "", "#endif", ""]
    )


# ---- the functions ----

POOL = kept("const CvlPool *pool")


def name_of(number):
    return next(found.name for found in table.OPERATORS if found.number == number)


def indented(text, depth=1):
    """A line of C, indented as deep as it stands in its function."""
    return textwrap.indent(wrapped(text), "    " * depth)


def guarded(test, answer, depth=1):
    """An answer under a condition, on one line where there is room."""
    line = f"if ({test}) return {answer};"
    if len(line) + 4 * depth <= WIDTH:
        return indented(line, depth)
    return "\n".join([indented(f"if ({test}){KEPT}{{", depth), indented(f"return {answer};", depth + 1), indented("}", depth)])


def size_of(row, operand):
    """How many elements a call gives its family for an array."""
    if operand.extent == "segments":
        return f"{row.cuts[0].name}.segments"
    return "cvl_room_of(count)" if operand.extent == "count" else rows.SIZES[operand.extent]


def public():
    """`bindings/c/public`: each name of the headers, one a line."""
    named = [
        name
        for functions in (about.OF_VERSIONS, about.OF_THREADS, about.OF_FLAGS, about.OF_INDICES, about.OF_DESCRIPTORS)
        for name, _, _ in functions
    ]
    named += ["cvl_pool_alone", "cvl_pool_posix", "cvl_threads_start", "cvl_threads_stop"]
    named += [f"cvl_{row.name}" for row in [*rows.FAMILIES.values(), *rows.CALLS]]
    named += [f"cvl_{row.name}_on" for row in [*rows.FAMILIES.values(), *rows.CALLS] if row.family.cut is not None]
    named += [f"cvl_{segments_name(row)}" for row in on_segments()]
    return "".join(f"{name}\n" for name in sorted(named))

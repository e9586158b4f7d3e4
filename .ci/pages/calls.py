"""The names of calls, faults and limits: those of the source, and those that pages have."""

import re
import sys

from pages.texts import TOP, held, lines_of, rows_of, text_of

sys.path[:0] = [str(TOP / "bindings/generator"), str(TOP / "crates/script_cases/generator")]

sys.path.append(str(TOP / "bindings"))

import call_table
import calls as plain_reading
import rows

CPP = "docs/user/cpp.md"

PAGE, SCRIPT, GLOSSARY, SHEET = (f"docs/user/{name}.md" for name in ("calls", "script", "glossary", "sheet"))

IN_PARTS, COSTS, STARTS = "docs/user/parallel.md", "docs/user/performance.md", "tests/process/resources"

FAULTS, LIMITS = "crates/cvl_base/specs/Faults.antt", "crates/cvl_base/src/limits.rt"


def headings():
    """The headings of docs/user/calls.md that have names of calls."""
    return [line.removeprefix("### ") for line in lines_of(PAGE) if line.startswith("### ")]


def check_names():
    """The names in the headings of docs/user/calls.md are those of the table of calls. A write is no call."""
    shown = sorted(name for heading in headings() for name in heading.split())
    yield from held(PAGE, "crates/call_table/specs/Calls.antt", shown, sorted(set(call_table.read(TOP)) - {"write"}))


def check_plain_reading():
    """The plain reading that writes cases has each call of the table, but those that read inputs."""
    read = sorted({*plain_reading.CALLS, "input", "nested"})
    yield from held(
        "crates/script_cases/generator/calls.py",
        "crates/call_table/specs/Calls.antt",
        read,
        sorted(set(call_table.read(TOP)) - {"write"}),
    )


def check_index():
    """The index of docs/user/calls.md has each entry's first name, and a link to its heading."""
    shown = [link for _, links in rows_of(lines_of(PAGE), "## Index") for link in re.findall(r"\[`(\w+`\]\(#[\w-]+)\)", links)]
    wanted = [f"{heading.split()[0]}`](#{heading.replace(' ', '-')}" for heading in headings()]
    yield from held(f"{PAGE}, its index", f"{PAGE}, its headings", shown, wanted)


def check_glossary():
    """Of each entry of docs/user/calls.md one name at least is in docs/user/glossary.md."""
    glossary = text_of(GLOSSARY)
    for heading in headings():
        if not any(f"`{name}`" in glossary for name in heading.split()):
            yield f"{GLOSSARY} has none of {heading}"


def check_cpp():
    """Each name in the namespace cvl that docs/user/cpp.md has is in the header for C++."""
    header = set(re.findall(r"\b(\w+)\b", re.sub(r"//[^\n]*|/\*.*?\*/", "", text_of("include/cvl.hpp"), flags=re.S)))
    for name in sorted(set(re.findall(r"\bcvl::(\w+)", re.sub(r"CMake's target.*", "", text_of(CPP)))) - header):
        yield f"{CPP} has cvl::{name}, which include/cvl.hpp has not"


def faults_of_page():
    """The number and the name of each fault, as docs/user/script.md has them."""
    rows = (cells for cells in rows_of(lines_of(SCRIPT)) if len(cells) > 1)
    return [f"{cells[0]} {cells[1]}" for cells in rows if cells[0].isdigit() and re.fullmatch(r"[A-Z][A-Za-z]+", cells[1])]


def sentence(page, begin, end):
    """What stands on a page between two texts, on one line."""
    found = re.search(f"{re.escape(begin)}(.*?){re.escape(end)}", " ".join(text_of(page).split()))
    return found[1] if found else ""


def check_letters():
    """docs/user/sheet.md explains each of the letters that names of calls end in, in its place."""
    shown = [
        f"{place} {letter}"
        for place, meanings in rows_of(lines_of(SHEET), "## Names")
        for letter in re.findall(r"`(\w)`", meanings)
    ]
    ends = {name[-3:] for name in set(call_table.read(TOP)) - {"input", "nested", "write"}}
    wanted = {f"{place} {end[k]}" for end in ends for k, place in enumerate(("first", "second", "third"))}
    yield from held(SHEET, "the names of calls", sorted(shown), sorted(wanted))


def check_without_c():
    """The header for C and docs/dev/embedding.md name the calls of a script that C does not have."""
    header, page, table = "include/cvl.h", "docs/dev/embedding.md", "bindings/table.py"
    wanted = sorted(set(call_table.read(TOP)) - {row.name for row in rows.CALLS})
    in_header = sentence(header, "with the prefix cvl_, such as cvl_add_wuz, except", ", for which").replace(" * ", " ")
    yield from held(header, table, sorted(re.findall(r"\w+", in_header.replace(" and ", " "))), sorted({*wanted} - {"write"}))
    on_page = next(line for line in lines_of(page) if "have no form in C" in line).split(" have no")[0]
    yield from held(page, table, sorted(re.findall(r"`(\w+)`", on_page)), wanted)


def check_without_on():
    """docs/user/parallel.md names the families that have no form on a pool, and those that have one and are not cut."""
    said = sentence(IN_PARTS, "These run on the calling thread:", " Calls on a descriptor")
    whole, _, without = said.partition("which have no form `_on`:")
    ends = tuple(re.findall(r"`(_\w+)`", without))
    families = rows.FAMILIES.values()
    uncut = sorted(f"cvl_{row.name}" for row in families if row.family.cut is None)
    shown = re.findall(r"`(cvl_\w+)`", without) + [name for name in uncut if name.endswith(ends)]
    yield from held(IN_PARTS, "bindings/table.py", sorted(shown), uncut)
    not_cut = sorted(f"cvl_{row.name}" for row in families if row.family.cut and row.family.cut[0] == "whole")
    yield from held(IN_PARTS, "bindings/table.py", sorted(re.findall(r"`(cvl_\w+)`", whole)), not_cut)


def check_starts():
    """The calls that docs/user/performance.md names to start their threads more than once: those of which the test counts that."""
    alike = {name: heading for heading in headings() for name in heading.split()}
    calls, others = text_of(STARTS).split("# vectors of other lengths than the result")
    lines = re.findall(r"^shares ([0-9]) 'r = (\w+) [^\n']*'", calls, re.M)
    lines += re.findall(r"^shares ([0-9]) '.*\\n(write) r'", others, re.M)
    for times, begin, end in (("2", "These do so twice:", "."), ("3", "Three times:", ".")):
        shown = {alike.get(name, name) for name in re.findall(r"`(\w+)`", sentence(COSTS, begin, end))}
        wanted = {alike.get(name, name) for number, name in lines if number == times}
        yield from held(COSTS, STARTS, sorted(shown), sorted(wanted))


LONG = ("LEAST_SHARED", "LEAST_READ", "LEAST_WRITTEN")

# what pages say of the lengths from which on threads share a call, and of each one's share: a text with numbers, and their constants
SAID_OF_THREADS = (
    (IN_PARTS, r"Each has at least (\S+) elements, so all four work from (\S+) on", ("LEAST_EACH", "FOUR")),
    (IN_PARTS, r"long from (\S+) elements on, from (\S+) bytes of a text that it reads, or from (\S+) elements", LONG),
    (IN_PARTS, r"below (\S+) elements is one part, and each part has at least (\S+)\.", ("LEAST_SHARED", "LEAST_EACH")),
    (IN_PARTS, r"Yours takes two from (\S+) on, and four from (\S+)\.", ("LEAST_SHARED", "FOUR")),
    ("include/cvl.h", r"from (\S+) elements on, from (\S+) bytes of a text that is read, and from (\S+) elements", LONG),
    (COSTS, r"first fault \| (\S+) elements, and (\S+) for each thread", ("LEAST_SHARED", "LEAST_EACH")),
    (COSTS, r"reduces \| (\S+) integers, (\S+) booleans", ("INTEGERS_REDUCED", "LEAST_REDUCED")),
    (COSTS, r"nested or not \| (\S+) bytes, (\S+) for each thread", ("LEAST_READ", "LEAST_READ_EACH")),
    (COSTS, r"a text \| (\S+) elements, and (\S+) for each thread", ("LEAST_WRITTEN", "LEAST_WRITTEN_EACH")),
)


def check_thresholds():
    """Pages and the header have the lengths of crates/sharing."""
    source = "crates/sharing/src/lib.rt"
    constants = re.findall(r"^pub const (\w+): \w+ = ([0-9_]+);$", text_of(source), re.M)
    most = {name: int(number.replace("_", "")) for name, number in constants}
    most |= {"FOUR": 4 * most["LEAST_EACH"], "INTEGERS_REDUCED": most["LEAST_REDUCED"] // 4}
    for page, said, names in SAID_OF_THREADS:
        found = re.search(said, " ".join(text_of(page).replace("\n * ", " ").split()))
        shown = [number.replace(",", "") for number in found.groups()] if found else []
        yield from held(page, source, shown, [str(most[name]) for name in names])


def check_faults():
    wanted = re.findall(r"^number_of no\.([A-Za-z]+) = ([0-9]+)$", text_of(FAULTS), re.M)
    yield from held(
        SCRIPT, FAULTS, faults_of_page(), [f"{number} {name}" for name, number in sorted(wanted, key=lambda fault: int(fault[1]))]
    )


def limits_of_page():
    """Each limit that is one number, as docs/user/script.md has it: what is limited, and the number."""
    return [(cells[0], cells[1]) for cells in rows_of(lines_of(SCRIPT), "## Limits") if re.fullmatch(r"[0-9,]+", cells[1])]


def check_limits():
    """The limits of docs/user/script.md are the constants of the source."""
    named = re.findall(r"^pub const MOST_(?:ELEMENTS|NAMES|SCRIPT_BYTES|WORD_BYTES)\b.* = ([0-9_]+);$", text_of(LIMITS), re.M)
    shown = {limit.replace(",", "") for _, limit in limits_of_page()}
    yield from held(SCRIPT, LIMITS, sorted(shown), sorted({limit.replace("_", "") for limit in named}))

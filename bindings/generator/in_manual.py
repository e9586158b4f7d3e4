"""What is written for the manual: the page of the library for C, and one for each entry of the reference."""

import functools
import re
import textwrap

import about
import elsewhere
import in_c
import reference
import rows
import signatures
import table

# when the version at hand was made
DATE = "2026-11-28"

INTRODUCTION = (
    "The library has the vector calls of CVL, the C Vector Library, on your own memory: elementwise calls, scans, "
    "reduces, permutes, packs and texts, flat and by segments, on integers of 32 bits and on booleans.",
    about.FROM_C,
)
CALLS = (
    "Each call takes its operands in the order of a script, see cvl(1). Each of these pages has several calls, and the families that make them.",
)
PARTS = (
    "The header cvl_parallel.h has each call again, with _on after its name and a pool of threads as its first argument, such as "
    "cvl_add_wuz_on(&pool, a, b, out, n): it cuts long vectors into parts, one for each thread. A pool has POSIX "
    "threads (cvl_threads_start, cvl_pool_posix), OpenMP (cvl_openmp.h), or your own threads.",
)
EXAMPLE = """#include <cvl.h>
#include <stdio.h>

int main(void) {
    const int32_t a[] = {3, 1, 4, 1, 5}, lengths[] = {2, 0, 3};
    const CvlLengths rows = {lengths, 3};
    int32_t sums[3];
    CvlStatus status = cvl_add_rez(a, 5, rows, sums);
    if (status.number != CVL_DONE) {
        fprintf(stderr, "fault %u %s\\n", status.number, cvl_fault_name(status.number));
        return 1;
    }
    printf("%d %d %d\\n", sums[0], sums[1], sums[2]);
}"""


def _roff(text):
    """A text as it is: its backslashes, and minus signs where no letter stands on both sides."""
    text = re.sub(r"(?<![A-Za-z])-|-(?![A-Za-z])", r"\\-", text.replace("\\", "\\e"))
    return f"\\&{text}" if text[:1] in (".", "'") else text


def _lines(sentence):
    return [_roff(line) for line in textwrap.wrap(sentence, 76, break_long_words=False, break_on_hyphens=False)]


def _sentences(text):
    """A paragraph, each sentence on a line of its own."""
    return [line for sentence in re.split(r"(?<=[.:;]) (?=[A-Z])", text) for line in _lines(sentence)]


def _paragraphs(paragraphs):
    """Paragraphs and the items of lists."""
    for paragraph in paragraphs:
        item = re.match(r" +(?:- |(\d)\. )", paragraph)
        if item:
            mark = f"{item.group(1)}." if item.group(1) else "\\(bu"
            yield from (f".IP {mark} 3", *_sentences(paragraph[item.end() :]))
        else:
            yield from (".PP", *_sentences(paragraph))


def _first(lines):
    """Lines without the mark of a paragraph before them."""
    lines = list(lines)
    return lines[1:] if lines[:1] == [".PP"] else lines


def _function(declaration, *said):
    """A function under its declaration."""
    yield ".TP"
    yield f'.B "{_roff(" ".join(declaration.split()))}"'
    for text in filter(None, said):
        yield from _sentences(text)


def _without_rows(functions):
    for _, said, shown in functions:
        yield from _function(shown.replace("CVL_CHECKED ", ""), " ".join(said))


def _shared():
    """What is said of all calls, but of files that stand elsewhere."""
    return [text for text in about.ABOUT[1:] if "./install" not in text and "docs/" not in text]


def _code(text):
    return [".PP", ".nf", ".RS", *(_roff(line) for line in text.split("\n")), ".RE", ".fi"]


def _statuses():
    for number, name in table.STATUSES:
        yield from (".TP", f'.BR {number} " (CVL_{in_c.constant(name)})"', name)


def _head(name, purpose, names=()):
    """The first lines of a page: what it is of, under all its names."""
    listed = ", ".join(_roff(found) for found in (name, *names))
    return [
        '.\\" ' + rows.NOTE, f'.TH {name.upper()} 3 "{DATE}" "cvl {table.VERSION}" "Library functions"',
        ".SH NAME", f"{listed} \\- {_roff(purpose)}", ".SH LIBRARY", "The vector library (libcvl, \\-lcvl)",
    ]  # fmt: skip


def _synopsis(declarations):
    yield from (".SH SYNOPSIS", ".nf", ".B #include <cvl.h>", ".PP")
    for declaration in declarations:
        plain = " ".join(signatures.MARKS.sub("", declaration).split())
        # a line ends between parameters
        whole = re.sub(r"(?<!,) ", in_c.KEPT, plain).replace(f"CvlStatus{in_c.KEPT}", "CvlStatus ")
        lines = textwrap.wrap(whole, 76, subsequent_indent="    ", break_long_words=False, break_on_hyphens=False)
        yield from (f'.B "{_roff(line.replace(in_c.KEPT, " "))}"' for line in lines)
    yield ".fi"


def _see(names):
    """Other pages."""
    *before, last = names
    yield from (".SH SEE ALSO", *(f".BR {_roff(name)} (3)," for name in before), f".BR {_roff(last)} (3)")


# ---- the page of each entry ----


@functools.lru_cache
def _homes():
    """The page of each family: that of the first entry that has it."""
    found = {}
    for _, _, entries in _sections():
        for entry in entries:
            for row in entry.families:
                found.setdefault(row.name, f"cvl_{entry.name}")
    return found


@functools.lru_cache
def _sections():
    """The sections of the reference, with the entries that C has."""
    found = [*reference.of_scripts(), *reference.beside()]
    return [
        (title, said, [entry for entry in entries if entry.rows])
        for title, said, entries in found
        if any(entry.rows for entry in entries)
    ]


def _families_of(entry):
    """The families whose page this is, and their forms with a descriptor."""
    own = [row for row in entry.families if row.call is None and _homes()[row.name] == f"cvl_{entry.name}"]
    named = {f"cvl_{row.name}": in_c.declaration(row) for row in own if row.name not in entry.calls}
    return {
        **named,
        **{f"cvl_{in_c.segments_name(row)}": in_c.segments_declaration(row) for row in in_c.on_segments() if row in own},
    }


def _described(entry):
    """What each function of an entry does, with its example."""
    for row in entry.rows:
        yield from (".TP", f".B cvl_{_roff(row.name)}", *_sentences(row.call.sentence if row.call else row.family.sentence))
        if row.example:
            yield from (".br", _roff(in_c.example_text(row)))


def _said(entry, of_section, shape):
    """What stands before the functions of an entry."""
    own = [entry.said.said.replace("`", ""), *table.OF_CALLS.get(entry.rows[0].section, ())] if entry.said else of_section
    return [*own, *([shape] if shape else [])]


def _purpose(entry):
    """What it gives, with the words by which one looks for it elsewhere, so that `man -k` finds them."""
    found = elsewhere.searched(entry.calls)
    return f"{entry.title} ({', '.join(found)})" if found else entry.title


def _elsewhere(entry):
    found = elsewhere.said(entry.calls)
    if found:
        yield from (".PP", *_sentences(f"Elsewhere: {found}"))


def _entry(entry, said):
    """The page of an entry, with what its section says."""
    name, row = f"cvl_{entry.name}", entry.rows[0]
    families, others = _families_of(entry), [f"cvl_{other}" for other in entry.calls[1:]]
    faults = rows.fault_text(row)
    shape = " ".join(filter(None, [row.family.shape, row.family.told]))
    homes = sorted({_homes()[found.name] for found in entry.families} - {name})
    lines = [
        *_head(name, _purpose(entry), (*others, *families)), *_synopsis([*map(in_c.declaration, entry.rows), *families.values()]),
        ".SH DESCRIPTION", *_first(_paragraphs(_said(entry, said, shape))), *_described(entry),
        *_of_families(entry, families), *_elsewhere(entry),
        ".SH RETURN VALUE", *_sentences("A CvlStatus: 0 if the call is done, or the number of the first fault and its place, and then nothing is written."),
        *([".PP", *_sentences(f"Faults: {faults}")] if faults else []), ".PP", *_sentences(f"In place: {rows.in_place_words(row.family) or 'no, 102 Overlap.'}"),
        ".PP", ".BR cvl (3)", "has the faults that all calls share, and their order.", *_see(["cvl", *homes]),
    ]  # fmt: skip
    return "\n".join(lines) + "\n"


def _of_families(entry, families):
    """What sets the functions of families apart from calls."""
    if families and entry.rows[0].call:
        operator = ", and first the number of an operator, such as CVL_ADD" if entry.rows[0].family.operators else ""
        yield from (".PP", *_sentences(f"The functions of families take the number of elements behind each array{operator}."))


# ---- the pages of functions without rows ----


def _page_of(functions, purpose, said, see):
    """A page of functions without a row, under the name of the first."""
    names = [name for name, *_ in functions]
    lines = [
        *_head(names[0], purpose, names[1:]), *_synopsis([declared for *_, declared in functions]), ".SH DESCRIPTION", *_first(_paragraphs(said)),
        *_without_rows(functions), *_see(see),
    ]  # fmt: skip
    return "\n".join(lines) + "\n"


OTHERS = {
    "cvl_set_threads": (about.OF_THREADS, "threads for long calls", about.THREADS, ["cvl"]),
    "cvl_segments_new": (about.OF_DESCRIPTORS, "descriptors of segments", about.DESCRIPTORS, ["cvl", "cvl_add_sez"]),
}


def _overview():
    """`docs/man/cvl.3`."""
    lines = [
        *_head("cvl", "vector calls on flat and nested data"),
        ".SH SYNOPSIS", ".nf", ".B #include <cvl.h>", ".B #include <cvl_parallel.h>", ".PP",
        ".B cc program.c $(pkg\\-config \\-\\-cflags \\-\\-libs cvl)", ".fi",
        ".SH DESCRIPTION", *_first(_paragraphs([*INTRODUCTION, *_shared()])),
        ".SH CALLS", *_first(_paragraphs(CALLS)), *_list_of_pages(),
        ".SH CALLS IN PARTS", *_first(_paragraphs(PARTS)),
        ".SH OTHER FUNCTIONS", *list(_without_rows([*about.OF_VERSIONS, *about.OF_FLAGS, *about.OF_INDICES])),
        ".SH RETURN VALUE",
        "A CvlStatus has the number of the outcome,", "and the place of a fault, counted from 0, or \\-1.",
        "The numbers, with their constants and the names that cvl_fault_name gives, are", *_statuses(),
        ".SH EXAMPLES", "The sums of the rows of 3 1, of an empty one, and of 4 1 5:", *_code(EXAMPLE), ".PP", "prints",
        *_code("4 0 10"),
        ".SH SEE ALSO", ".BR cvl (1),", ".BR cvl_set_threads (3),", ".BR cvl_segments_new (3),", ".BR pkg\\-config (1)",
    ]  # fmt: skip
    return "\n".join(lines) + "\n"


def _list_of_pages():
    """Each page under its section, with what it is of."""
    for title, _, entries in _sections():
        yield f".SS {title}"
        for entry in entries:
            yield from (".TP", f".BR cvl_{_roff(entry.name)} (3)", _roff(entry.title))


def pages():
    """Each page of the manual, and for each other name of it a file that leads there, by their paths."""
    found = {"cvl": _overview(), **{name: _page_of(*said) for name, said in OTHERS.items()}}
    leads = {name: "cvl" for functions in (about.OF_VERSIONS, about.OF_FLAGS, about.OF_INDICES) for name, *_ in functions}
    for name, (functions, *_) in OTHERS.items():
        leads.update({other: name for other, *_ in functions if other != name})
    for _, said, entries in _sections():
        for entry in entries:
            found[f"cvl_{entry.name}"] = _entry(entry, said)
            leads.update(
                {other: f"cvl_{entry.name}" for other in (*(f"cvl_{call}" for call in entry.calls[1:]), *_families_of(entry))}
            )
    links = {name: f".so man3/{page}.3\n" for name, page in leads.items()}
    return {f"docs/man/{name}.3": text for name, text in sorted({**links, **found}.items())}

"""docs/user/proved.md: the functions and laws that its table of crates names are theirs. docs/dev/wrong-bodies.md: what refuses each wrong
body is there, and each must-fail edit stands in the table; the crates of the kit that the proofs trust are listed, and the contracts in C without a proof."""

import re
import sys

from pages.source import cells_of
from pages.texts import CASES, TOP, lines_of, rows_of, text_of

sys.path.append(str(TOP / "bindings"))

import about

PAGE, CRATES = "docs/user/proved.md", "## Proved, crate by crate"

BODIES, HEADING = "docs/dev/wrong-bodies.md", "## What shows each promise"


def has_test(text, name):
    """Whether a file of Rattle has a test of this name."""
    return re.search(rf"^ *#\[test\]\n(?: *(?:#|//).*\n)* *(?:pub )?fn {name}\(", text, re.M)


def has_case(text, name):
    return f"== case {name}" in text.splitlines()


def has_line(text, words):
    """Whether a line of a script that is no comment has these words."""
    return any(words in line for line in text.splitlines() if not line.lstrip().startswith("#"))


def has_name(text, name):
    """Whether a program in Python has a function of this name, or one in another language the name at all."""
    if re.search("^(import|from) ", text, re.M):
        return re.search(rf"^ *def {re.escape(name)}\(", text, re.M)
    return re.search(rf"(?<!\w){re.escape(name)}(?!\w)", text)


# what may refuse a wrong body: its form, and what its file has then
FORMS = (
    (r"(crates/\w+/must-fail/\w+\.edit)", lambda text: True),
    (r"(bindings/tests/analysis/wrong/\w+\.edit)", lambda text: True),
    (r"(crates/\w+/src/[\w/]+\.rt)::(\w+)", has_test),
    (rf"({CASES}/[\w-]+\.cases): (.+)", has_case),
    (r"(tests/process/[\w-]+): (.+)", has_line),
    (r"((?!crates/)[\w./-]+)::(.+)", has_name),
)


def is_there(reference):
    """Whether what a row names stands in its file."""
    for form, has in FORMS:
        found = re.fullmatch(form, reference)
        if found and (TOP / found[1]).is_file():
            return bool(has(text_of(found[1]), *found.groups()[1:]))
    return False


def rows():
    """The number of each row of the table, its wrong body, and what refuses it: the words of code in its last column."""
    page, inside = lines_of(BODIES), False
    for number, (line, below) in enumerate(zip(page, [*page[1:], ""]), 1):
        if line.startswith("## "):
            inside = line == HEADING
        elif inside and cells_of(line) and not below.startswith("|-"):
            body, *_, references = cells_of(line)
            yield number, body, re.findall(r"`([^`]+)`", references)


def check_contracts():
    """Each crate of the page's first table is there, and one crate of its row has each name by whose contract the promise is proved."""
    for crates, _, contracts in rows_of(lines_of(PAGE), CRATES):
        folders = [TOP / "crates" / crate for crate in re.findall("`([^`]+)`", crates)]
        yield from (f"{PAGE} names the crate {folder.name}, which is not there" for folder in folders if not folder.is_dir())
        files = [path for folder in folders for path in folder.rglob("*") if path.suffix in (".rt", ".antt")]
        text = "".join(path.read_text() for path in files)
        for name in re.findall("`([^`]+)`", contracts):
            last = name.split("::")[-1]
            if last not in text if last.startswith("_") else not re.search(rf"\b{last}\b", text):
                yield f"{PAGE} says that {name} has a contract in {crates}, which do not have that name"


def check_promises():
    """Each row names what refuses its wrong body, and that is there."""
    for number, body, references in rows():
        if not references:
            yield f"{BODIES}:{number} names nothing that refuses this: {body}"
        for reference in references:
            if not is_there(reference):
                yield f"{BODIES}:{number} {reference}, which should refuse this, is not there: {body}"


def check_edits():
    """Each must-fail edit of the crates stands in the table, so that none goes unseen; and each of the C can be applied."""
    named = {reference for _, _, references in rows() for reference in references}
    for edit in sorted(str(path.relative_to(TOP)) for path in TOP.glob("crates/*/must-fail/*.edit")):
        if edit not in named:
            yield f"{BODIES} does not name {edit} below {HEADING}"
    for path in sorted(TOP.glob("bindings/tests/analysis/wrong/*.edit")):
        head, _, body = path.read_text().partition("\n<<<<\n")
        file, times = head.split()[1], (TOP / head.split()[1]).read_text().count(body.partition("\n====\n")[0])
        if times != 1:
            yield f"{path.relative_to(TOP)} changes a text that stands {times} times in {file}"


# names of crates.txt that stand for the standard library
OF_STANDARD = {"core", "std_alloc"}


def check_trusted():
    """The page lists, below what the proofs trust, exactly the crates of the kit that crates of the repository use."""
    rows = [line.partition(":") for line in lines_of("crates.txt") if line and not line.startswith("#")]
    own = {crate.split()[0] for crate, _, _ in rows}
    used = {name for _, _, names in rows for name in names.split()} - own - OF_STANDARD
    [line] = [line for line in lines_of(PAGE) if line.startswith("- What its standard library and its crates state: ")]
    listed = set(re.findall("`([^`]+)`", line))
    yield from (f"{PAGE} does not list {name} of crates.txt among what the proofs trust" for name in sorted(used - listed))
    yield from (
        f"{PAGE} lists {name} among what the proofs trust, and crates.txt does not have it" for name in sorted(listed - used)
    )


ANALYSED = "bindings/tests/analysis/proved"

# a contract in C that says something of the result or of what is written, and the function behind it
IN_C = re.compile(r"/\*@(?:(?!\*/).)*?\bensures\b(?:(?!\*/).)*\*/\n(?:[\w*]+ )*\**(\w+)\(", re.DOTALL)


def check_unproved():
    """The page names each function of the C over the exports whose contract the analysis takes without a proof."""
    proved = {name for line in lines_of(ANALYSED) for name in line.partition("#")[0].partition(":")[2].split()}
    [line] = [line for line in lines_of(PAGE) if line.startswith("These proofs rest on ")]
    named = set(re.findall("`([^`]+)`", line.partition("contracts that nothing proves: ")[2]))
    files = sorted(path for path in (TOP / "bindings/c").iterdir() if path.suffix in (".c", ".h"))
    taken = {
        name for path in [*files, TOP / "bindings/tests/analysis/exports.h"] for name in IN_C.findall(path.read_text())
    } - proved
    yield from (f"{PAGE} does not name {name}, whose contract nothing proves" for name in sorted(taken - named))
    yield from (f"{PAGE} names {name}, which is proved or has no contract" for name in sorted(named - taken))


# what each page says is proved of the library from other languages; the manual takes the words from the same place
SAID_FROM_C = {
    "README.md": about.FROM_C,
    "bindings/rust/README.md": about.FROM_C,
    **{f"docs/user/{name}.md": about.FROM_C_IN_SHORT for name in ("programs", "cpp", "python", "rust", "fortran")},
}


def check_from_c():
    """What is proved of the library from C, and what is not, stands on each of these pages in the same words."""
    for page, said in SAID_FROM_C.items():
        if said not in text_of(page):
            yield f"{page} does not have the sentences of bindings/about.py on what is proved from C"

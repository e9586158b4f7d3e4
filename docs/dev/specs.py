"""The definitions of the crates, read from their own files: what each one says of itself, and its text. A law is a function that does
nothing; its contract says what follows from the definitions."""

import dataclasses
import pathlib
import re

TOP = pathlib.Path(__file__).resolve().parents[2]
CRATES = TOP / "crates"

# the first line of a definition, and of a law
DEFINITION = re.compile(
    r"\s*(?:(?:abbrev|unfoldable) (?P<pub>pub )?(?!use )(?P<name>\S+)|(?P<public>pub )?(?:record|data) (?P<type>\S+))"
)
LAW = re.compile(r"pub fn (?P<name>\w+)")

# the name of a law that has a body, since a proof goes step by step
NAME_OF_LAW = re.compile(r"know_\w+|(\w+_)?laws?|\w+_reads_back")

# what brings in the definitions of other files
IMPORT = re.compile(r"(unfoldable )?(pub )?(use|mod) ")

# a title within a file
TITLE = re.compile(r"\s*-- ---- (.*)")


@dataclasses.dataclass
class Entry:
    """A definition or a law, or other lines of a file: what is said of it, and its lines. A title has no lines."""

    said: str
    lines: list
    name: str = ""
    is_public: bool = False

    @property
    def is_title(self):
        return not self.lines


@dataclasses.dataclass
class File:
    """A file: its subject, its source, and its entries in order."""

    path: pathlib.Path
    said: str
    source: str
    entries: list

    @property
    def crate(self):
        return self.path.parts[0]


def _blocks(lines):
    """The lines between blank ones."""
    block = []
    for line in [*lines, ""]:
        if line.strip():
            block.append(line)
        elif block:
            yield block
            block = []


def _comment(lines, mark):
    """The comment at the beginning of some lines as one sentence, and the lines behind it."""
    count = next((k for k, line in enumerate(lines) if not line.strip().startswith(mark)), len(lines))
    return " ".join(line.strip().removeprefix(mark).strip() for line in lines[:count]), lines[count:]


def _entry(block):
    """What one block of a file of definitions has."""
    title = TITLE.fullmatch(block[0]) if len(block) == 1 else None
    if title:
        return Entry(title[1], [])
    block = [line for line in block if not line.startswith("infix")]
    said, lines = _comment(block, "--")
    found = DEFINITION.match(lines[0]) if lines else None
    if not found:
        return Entry(said, lines)
    return Entry(said, lines, found["name"] or found["type"], bool(found["pub"] or found["public"]))


def read(path):
    """A file of definitions."""
    head, lines = _comment(path.read_text().splitlines(), "--")
    said, _, source = head.partition(" Source: ")
    entries = [_entry(block) for block in _blocks(line for line in lines if not IMPORT.match(line))]
    return File(path.relative_to(CRATES), said, source, entries)


def laws(path):
    """The laws of a file of code, without their bodies."""
    said, _ = _comment(path.read_text().splitlines(), "//!")
    found = []
    for block in _blocks(path.read_text().splitlines()):
        sentence, lines = _comment(block, "///")
        first = next((k for k, line in enumerate(lines) if not line.startswith("#[")), 0)
        law = LAW.match(lines[first]) if lines[first:] else None
        body = next((k for k, line in enumerate(lines) if line in ("{", "{}")), 0)
        if law and body and (lines[body] == "{}" or NAME_OF_LAW.fullmatch(law["name"])):
            found.append(Entry(sentence, lines[first:body], law["name"], True))
    return File(path.relative_to(CRATES), said, "", found)


def crates():
    """The crates in the order in which each stands on earlier ones, as crates.txt has them."""
    return re.findall(r"^(\w+)[^:#\n]*:", (TOP / "crates.txt").read_text(), re.M)


def files_of(crate):
    """The files of a crate with definitions or laws."""
    specs = [read(path) for path in sorted((CRATES / crate / "specs").glob("*.antt")) if path.stem != "Lib"]
    found = (*specs, *map(laws, sorted((CRATES / crate / "src").glob("*.rt"))))
    return [file for file in found if any(entry.name for entry in file.entries)]


def files():
    """All of them, the lowest crate first."""
    return [file for crate in crates() for file in files_of(crate)]


def _code(lines):
    """The lines as a block of code, without the blanks that all begin with."""
    indent = min(len(line) - len(line.lstrip()) for line in lines)
    return "```text\n" + "\n".join(line[indent:] for line in lines) + "\n```"


def _sentence(text):
    """A comment as a paragraph of a page."""
    text = re.sub(r"([*_<>[\]])(?=[^`]*(?:`[^`]*`[^`]*)*$)", r"\\\1", text)
    return f"{text[:1].upper()}{text[1:]}"


def _shown(entry):
    """An entry on a page."""
    if entry.is_title:
        return [f"**{_sentence(entry.said)}**"]
    name = f"`{entry.name}`" if entry.name else ""
    said = ": ".join(part for part in (name, entry.said and _sentence(entry.said)) if part)
    return [*([said] if entry.said else []), _code(entry.lines)]


def head_of(crate):
    """The file whose head says what a crate does."""
    library = CRATES / crate / "src/lib.rt"
    return library if library.is_file() else library.with_name("main.rt")


def does():
    """What each crate does: the first sentence of its head, or nothing."""
    heads = {crate: _comment(head_of(crate).read_text().splitlines(), "//!")[0] for crate in crates()}
    return {crate: re.split(r"(?<=\.) +(?=[A-Z`[])", head)[0] for crate, head in heads.items()}


def pages():
    """The page of each crate that has definitions or laws, by its name."""
    said = does()
    return {crate: _page(crate, said.get(crate, ""), found) for crate in crates() if (found := files_of(crate))}


def _page(crate, does, files):
    parts = [f"# {crate}", does]
    for file in files:
        parts += [f"## {file.path.stem}", _sentence(file.said), *([f"Source: {_sentence(file.source)}"] if file.source else [])]
        parts += [part for entry in file.entries for part in _shown(entry)]
    return "\n\n".join(part for part in parts if part) + "\n"

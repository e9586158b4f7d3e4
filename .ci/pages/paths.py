"""The paths, the pages and the links that pages name."""

import re

from pages.texts import TOP, lines_of, outside_blocks


def pages():
    """The lines of all pages, by their paths."""
    paths = sorted(
        str(path.relative_to(TOP)) for files in ("*.md", "docs/*/*.md", "bindings/*.md", "tests/*.md") for path in TOP.glob(files)
    )
    return {path: lines_of(path) for path in paths}


def anchors_of(page):
    """What a link names of each heading of a page."""
    headings = (re.match(r"#{1,6} (.*)", line) for line in page)
    return {"#" + re.sub(r"[^a-z0-9 _-]", "", heading[1].lower()).replace(" ", "-") for heading in headings if heading}


def check_paths():
    """A path below crates, docs, examples, tests or .ci that a page names is there, or was built."""
    for page, lines in pages().items():
        for number, line in outside_blocks(lines):
            for path in re.findall(r"`((?:crates|docs|examples|tests|\.ci)/[A-Za-z0-9_./-]+)`", line):
                if "/out/" not in path and not any((folder / path).exists() for folder in (TOP, (TOP / page).parent)):
                    yield f"{page}:{number} {path} is not there"


def check_links():
    """A link leads to a file, or to a heading of its page or of another one."""
    for page, lines in pages().items():
        folder, own = (TOP / page).parent, anchors_of(lines)
        for number, line in outside_blocks(lines):
            for link in re.findall(r"\]\(([^)]+)\)", line):
                path, _, heading = link.partition("#")
                if link.startswith("http"):
                    continue
                if path and not (folder / path).exists():
                    yield f"{page}:{number} {link} is not there"
                elif page.startswith("docs/user/") and "docs/dev" in str((folder / path).resolve()):
                    yield f"{page}:{number} leads to {link}, which is not installed"
                elif heading and f"#{heading}" not in (anchors_of((folder / path).read_text().splitlines()) if path else own):
                    yield f"{page}:{number} no heading {link}"


def check_tests():
    """tests/README.md names each program and each module of tests."""
    named = set(re.findall(r"`([\w./-]+)`", "\n".join(lines_of("tests/README.md"))))
    files = (path.relative_to(TOP / "tests") for path in TOP.glob("tests/*/*") if path.is_file() and path.suffix != ".h")
    for path in sorted(files):
        if path.name != "run" and not {path.name, path.stem, str(path), str(path.with_suffix(""))} & named:
            yield f"tests/README.md has no row for tests/{path}"


def check_named_pages():
    """A page that another names in a word of code is there."""
    for page, lines in pages().items():
        for number, line in outside_blocks(lines):
            for name in re.findall(r"`([a-z-]+\.md)`", line):
                if not any(
                    (folder / name).exists() for folder in ((TOP / page).parent, TOP / "docs/user", TOP / "docs/dev", TOP)
                ):
                    yield f"{page}:{number} {name} is not there"

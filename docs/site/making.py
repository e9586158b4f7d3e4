"""Makes the site: what Sphinx reads is written from the pages for users, the table of calls and the definitions, and Sphinx makes the
pages."""

import functools
import os
import pathlib
import re
import shutil
import subprocess
import sys
import tempfile

HERE = pathlib.Path(__file__).resolve().parent
TOP = HERE.parent.parent
USER, EXAMPLES = TOP / "docs/user", TOP / "examples"
sys.path[:0] = [str(TOP / "bindings"), str(TOP / "bindings/generator"), str(TOP / "docs/dev")]

import about
import in_notebook
import in_site
import reference
import specs

# the pages for users by what a reader wants; all others stand at the end
SHELVES = {
    "Start": ("tasks", "install", "tutorial", "segments", "examples", "script", "mistakes", "troubleshooting"),
    "Languages": ("programs", "cpp", "python", "ragged", "flattening", "rust", "fortran", "parallel"),
    "Reference": ("calls", "sheet", "glossary"),
    "Know": ("performance", "proved", "definitions", "versions", "support"),
}


# what makes the site, and what Debian calls it
NEEDED = "Sphinx and its reader of Markdown (Debian: python3-sphinx, python3-myst-parser)"

VERSIONS = "import sphinx, myst_parser; print(f'Sphinx {sphinx.__version__} and myst-parser {myst_parser.__version__}')"


@functools.lru_cache
def maker():
    """The Python that has Sphinx, and which versions; or nothing. The system's own may have what this one has not."""
    for python in dict.fromkeys((sys.executable, "/usr/bin/python3")):
        found = (
            subprocess.run([python, "-c", VERSIONS], stdout=subprocess.PIPE, stderr=subprocess.DEVNULL, text=True)
            if os.path.exists(python)
            else None
        )
        if found and found.returncode == 0:
            return python, found.stdout.strip()
    return None


def _without_last_lines(text):
    """A page whose blocks of code end with no empty line, which a doctest needs there."""
    lines, inside = [], False
    for line in text.split("\n"):
        if line.startswith("```"):
            while inside and not lines[-1]:
                lines.pop()
            inside = not inside
        lines.append(line)
    return "\n".join(lines)


LINK = re.compile(r"(!?\[[^]]*\]\([^)]*\))")


@functools.lru_cache
def _calls():
    """The name of each call, under which its page is found, as pages have it: in a script, and in C."""
    names = [name for _, _, found in (*reference.of_scripts(), *reference.beside()) for entry in found for name in entry.calls]
    others = [
        name.removeprefix("cvl_")
        for found in (about.OF_VERSIONS, about.OF_FLAGS, about.OF_INDICES, about.OF_THREADS, about.OF_DESCRIPTORS)
        for name, *_ in found
    ]
    in_c = {f"cvl_{name}": f"{{call}}`cvl_{name} <{name}>`" for name in (*names, *others)}
    return {**{name: f"{{call}}`{name}`" for name in names if "_" in name}, **in_c}


def _with_calls(text):
    """A page on which each name of a call leads to it: in prose and tables, but in no heading, link or block of code."""
    lines, inside = [], False
    for line in text.split("\n"):
        inside ^= line.startswith("```")
        if not inside and not line.startswith(("#", "    ", "```")):
            parts = LINK.split(line)
            parts[::2] = (
                re.sub(r"(?<![`}])`(\w+)`(?!`)", lambda found: _calls().get(found[1], found[0]), part) for part in parts[::2]
            )
            line = "".join(parts)
        lines.append(line)
    return "\n".join(lines)


def linked(text):
    """A page as it is on the site: calls have pages of their own, and examples stand beside the pages."""
    text = _with_calls(_without_last_lines(text))
    leads = in_site.leads()
    text = re.sub(r"\]\(calls\.md#([\w-]+)\)", lambda found: f"]({leads[found[1]]})" if found[1] in leads else found[0], text)
    text = re.sub(r"\[([^]]*)\]\(\.\./\.\./examples/?\)", r"\1", text)
    text = re.sub(r"(?<!\[)`tutorial\.ipynb`", "[`tutorial.ipynb`](tutorial.ipynb)", text)
    return text.replace("](../../examples/", "](examples/")


def home(names):
    """The first page: what the shelf says of itself, and the list of all pages."""
    others = sorted(set(names) - {name for shelf in SHELVES.values() for name in shelf} - {"README"})
    shelves = {**SHELVES, "Know": (*SHELVES["Know"], *others)}
    trees = [
        in_site._toctree([name for name in shelf if name in (*names, "definitions")], caption)
        for caption, shelf in shelves.items()
    ]
    return "\n\n".join([linked((USER / "README.md").read_text()).rstrip(), *trees]) + "\n"


def definitions():
    """The page on the definitions, whose files lead to a page for each crate, and these pages."""
    pages = specs.pages()
    text = (TOP / "docs/dev/definitions.md").read_text().replace("](../user/", "](")
    text = re.sub(r"`(\w+)/(\w+)`", lambda found: f"[`{found[0][1:-1]}`](definitions/{found[1]}.md#{found[2].lower()})", text)
    does = specs.does()
    crates = "\n".join(f"- [`{crate}`](definitions/{crate}.md): {does.get(crate, '')}" for crate in pages)
    tree = in_site._toctree([f"definitions/{crate}" for crate in pages])
    return {
        "definitions.md": f"{text}\n## All crates\n\n{crates}\n\n{tree}\n",
        **{f"definitions/{crate}.md": page for crate, page in pages.items()},
    }


def sources(folder):
    """Writes what Sphinx reads."""
    shutil.copytree(HERE / "theme", folder / "theme")
    for name in ("conf.py", "colours.py"):
        shutil.copy(HERE / name, folder)
    shutil.copytree(USER / "pictures", folder / "pictures")
    shutil.copytree(EXAMPLES, folder / "examples")
    for path in USER.iterdir():
        if path.is_file() and path.suffix != ".md":
            shutil.copy(path, folder)
    (folder / "tutorial.ipynb").write_text(in_notebook.text())
    names = {path.stem: path for path in USER.glob("*.md")}
    texts = {f"{name}.md": linked(path.read_text()) for name, path in names.items() if name not in ("README", "calls")}
    for name, text in {**texts, "index.md": home(names), **in_site.pages(), **definitions()}.items():
        (folder / name).parent.mkdir(exist_ok=True)
        (folder / name).write_text(text)


def build(folder):
    """Makes the site in a folder, and answers whether that went well; Sphinx says why not."""
    with tempfile.TemporaryDirectory() as work:
        work = pathlib.Path(work)
        (work / "source").mkdir()
        sources(work / "source")
        command = [
            maker()[0],
            "-m",
            "sphinx",
            "-b",
            "html",
            "-q",
            "-W",
            "--keep-going",
            "-j",
            "1",
            "-d",
            work / "read",
            work / "source",
            folder,
        ]
        variables = {
            **os.environ,
            "PYTHONHASHSEED": "0",
            "PYTHONPATH": str(work / "source"),
            "PYTHONDONTWRITEBYTECODE": "1",
            "LC_ALL": "C.UTF-8",
        }
        return subprocess.run(command, env=variables).returncode == 0

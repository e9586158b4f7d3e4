"""How Sphinx makes the site: every file comes from the machine itself, and the same pages give the same bytes."""

import json
import pathlib

from docutils import nodes
from pygments.formatters import HtmlFormatter

import colours

project = "Cimorelua"
copyright = ""
extensions = ["myst_parser"]
source_suffix = {".md": "markdown"}
exclude_patterns = ["examples", "theme"]
highlight_language = "none"
pygments_style = "colours.Light"

myst_heading_anchors = 4
suppress_warnings = ["myst.header"]

html_theme = "cvl"
html_theme_path = ["theme"]
html_title = "Cimorelua"
html_copy_source = False
html_show_sourcelink = False
html_show_search_summary = False
html_domain_indices = False
html_last_updated_fmt = None
html_permalinks_icon = "#"
smartquotes = False

# libraries of Sphinx's own that its scripts need no more
UNUSED = ("jquery", "underscore", "_sphinx_javascript_frameworks_compat")


def _left_out(name):
    return any(word in str(name) for word in UNUSED)


def without_unused(app, page, template, context, doctree):
    context["script_files"] = [name for name in context["script_files"] if not _left_out(name)]


def in_the_dark(app):
    """The colours of code on a dark screen."""
    folder = pathlib.Path(app.outdir) / "_static"
    folder.mkdir(parents=True, exist_ok=True)
    rules = HtmlFormatter(style=colours.Dark).get_style_defs(".highlight")
    (folder / "dark.css").write_text("@media (prefers-color-scheme: dark) {\n" + rules + "\n}\n")


def removed(app, failure):
    """What no page asks for."""
    out = pathlib.Path(app.outdir)
    for path in [out / ".buildinfo", *(out / "_static").glob("*")]:
        if path.name == ".buildinfo" or _left_out(path.name):
            path.unlink(missing_ok=True)


def scrolled(app, doctree):
    """A table scrolls by itself where a screen is too narrow for it."""
    for found in list(doctree.findall(nodes.table)):
        box = nodes.container(classes=["wide"])
        found.replace_self(box)
        box += found


# the lines of each page, by its name
LINES = {}


def kept(app, doctree, page):
    """Keeps the lines of a page, and of definitions their sentences alone, so that a search shows where its words stand."""
    kinds = (nodes.paragraph, nodes.title, *(() if page.startswith("definitions/") else (nodes.literal_block,)))
    found = doctree.findall(lambda node: isinstance(node, kinds))
    LINES[page] = [" ".join(node.astext().split()) for node in found]


def written(app, failure):
    """Writes the lines for the page of the search, which asks no server for them."""
    lines = json.dumps(LINES, ensure_ascii=False, sort_keys=True, separators=(",", ":"))
    (pathlib.Path(app.outdir) / "_static/lines.js").write_text(f"const LINES = {lines};\n")


def setup(app):
    app.add_object_type("call", "call", "pair: %s; call")
    app.connect("html-page-context", without_unused)
    app.connect("builder-inited", in_the_dark)
    app.connect("doctree-read", scrolled)
    app.connect("doctree-resolved", kept)
    app.connect("build-finished", removed)
    app.connect("build-finished", written)
    app.add_css_file("dark.css")

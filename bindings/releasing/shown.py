"""Commands that the pages show of a release, as a reader would copy them."""

import re

import proved

# the page that has a row for each way to install, and the one with the first example
INSTALLING, FIRST = "docs/user/install.md", "README.md"


def _text(page):
    return (proved.TOP / page).read_text()


def _only(found, page, words):
    if len(found) != 1:
        proved.stop(f"{page} has {len(found)} commands with `{words}`, and should have one")
    return found[0]


def block(page, words):
    """The block of indented lines of a page that has these words."""
    blocks = re.findall(r"(?:^    .*\n)+", _text(page), re.M)
    return _only([found for found in blocks if words in found], page, words).replace("\n    ", "\n").strip()


def command(words):
    """The command between backquotes of docs/user/install.md, in the part on releases, that has these words."""
    commands = re.findall(r"`([^`\n]+)`", _text(INSTALLING).partition("\n## From a release\n")[2].partition("\n## ")[0])
    return _only([found for found in commands if words in found], INSTALLING, words)


def glibc():
    """The oldest glibc with which a release runs, as the page says it."""
    return _only(re.findall(r"with glibc ([\d.]+) or later", _text(INSTALLING)), INSTALLING, "with glibc")

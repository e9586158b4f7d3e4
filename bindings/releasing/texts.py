"""What the packages for Debian say beside their files: licences, changes, and what is run when they are installed and removed."""

import email.utils
import os
import re
import textwrap

import proved

from . import licences

# the one place for addresses, as soon as there are some
ADDRESS = "https://cimorelua.invalid/releases"
MAINTAINER = "Cimorelua maintainers <maintainers@cimorelua.invalid>"


def paragraphs(said):
    """Paragraphs as a control file has them: each line behind a blank, and a dot between two."""
    found = []
    for k, paragraph in enumerate(said):
        found += [" ."] if k else []
        found += [f" {line}" for line in textwrap.wrap(paragraph, 78)]
    return found


# the licence of what Sphinx puts beside the pages in HTML
SITE_LICENCE = proved.TOP / "docs/site/theme/cvl/static/LICENSE.sphinx"


def _paragraph(text):
    """Lines as Debian's files of fields have them."""
    return "\n".join(f" {line}" if line else " ." for line in text.strip().split("\n"))


def copyright_of():
    """The licences of all that is inside, as Debian's copyright files have them."""
    whole = (proved.TOP / "LICENSE").read_text()
    holder = re.search(r"Copyright \(c\) (.*)", whole)[1]
    text = _paragraph(whole.partition("\n\n")[2])
    of_site, its_holder, its_text = SITE_LICENCE.read_text().split("\n\n", 2)
    parts = "\n".join(f" {part.name}: {part.licence}" for part in licences.parts())
    return (
        "Format: https://www.debian.org/doc/packaging-manuals/copyright-format/1.0/\nUpstream-Name: Cimorelua\n"
        f"Comment: Compiled into the objects are parts of the Rattle kit:\n{parts}\n\nFiles: *\nCopyright: {holder}\nLicense: MIT\n\n"
        f"Files: usr/share/doc/cvl/html/_static/*\nComment: {of_site}\nCopyright: {its_holder.removeprefix('Copyright (c) ')}\nLicense: BSD-2-Clause\n\n"
        f"License: MIT\n{text}\n\nLicense: BSD-2-Clause\n{_paragraph(its_text)}\n"
    )


# when work on the library began, at midnight
BEGAN = 1795305600


def _entry(version, said, moment):
    """An entry of Debian's list of changes."""
    return f"cimorelua ({version}) unstable; urgency=medium\n\n  * {said}\n\n -- {MAINTAINER}  {email.utils.formatdate(moment)}\n"


def debian_changes(revision):
    """The changes of the packages, newest first."""
    version, _, number = revision.partition("-")
    return "\n".join([
        _entry(revision, "New release.", int(os.environ["SOURCE_DATE_EPOCH"])),
        _entry(f"{version}~0-{number}", "First packages, made outside of Debian's archive, where no bug asks for them.", BEGAN),
    ])  # fmt: skip


def _symbols():
    """Each name of the shared object under the version that it came with."""
    version, lines = "", ["libcvl.so.1 libcvl1"]
    for line in (proved.TOP / "bindings/c/cvl.map").read_text().splitlines():
        opened, named = re.match(r"(CVL_([\d.]+)) \{", line), re.match(r" +(cvl_\w+);", line)
        if opened:
            version, number = opened[1], opened[2]
            lines.append(f" {version}@{version} {number}.0")
        elif named:
            lines.append(f" {named[1]}@{version} {number}.0")
    return "\n".join(lines) + "\n"


COMPILES = """#!/bin/sh
set -e
if command -v py3compile >/dev/null 2>&1; then
    py3compile -p python3-cvl
fi
"""
CLEANS = """#!/bin/sh
set -e
if command -v py3clean >/dev/null 2>&1; then
    py3clean -p python3-cvl
fi
"""


def scripts(package):
    """The files for `dpkg` that one package alone has, by their names."""
    triggers = "activate-noawait ldconfig\n"
    return {
        "libcvl1": {"shlibs": "libcvl 1 libcvl1 (>= 1.0.0)\n", "symbols": _symbols(), "triggers": triggers},
        "libcvl-openmpi": {"shlibs": "libcvl_mpi 1 libcvl-openmpi (>= 1.0.0)\n", "triggers": triggers},
        "libcvl-mpich": {"shlibs": "libcvl_mpi 1 libcvl-mpich (>= 1.0.0)\n", "triggers": triggers},
        "python3-cvl": {"postinst": COMPILES, "prerm": CLEANS},
    }.get(package, {})

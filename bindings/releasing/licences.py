"""The parts that are compiled into what a release hands on, each with its licence in the words of SPDX."""

import collections

import proved
import table

Part = collections.namedtuple("Part", "name licence")
OF_FILES = {"LICENSE-MIT": "MIT", "LICENSE-APACHE": "Apache-2.0", "LICENSE-UNICODE": "Unicode-3.0"}


def _kit_libraries():
    """The libraries of the kit that the program and the exports name."""
    found, wanted = set(), proved.Crates().wanted(proved.PROGRAM, proved.LIBRARY)
    for line in (proved.TOP / "crates.txt").read_text().split("\n"):
        head, colon, below = line.partition("#")[0].partition(":")
        if colon and head.split()[0] in wanted:
            found |= set(below.split()) - wanted
    return sorted(found | {"core", "std"})


def _licence(name):
    """What the files beside a library of the kit say of it."""
    folder = proved.kit() / "rattle" / name
    found = [spdx for file, spdx in OF_FILES.items() if (folder / file).exists()]
    if found:
        return " OR ".join(found)
    texts = [path.read_text(errors="replace") for path in sorted(folder.glob("LICENSE*"))]
    return "MIT" if texts and "Permission is hereby granted, free of charge" in texts[0] else "NOASSERTION"


def parts():
    """The parts of the kit that are compiled in."""
    found = [Part(f"rattle-{name}", _licence(name)) for name in _kit_libraries()]
    return [*found, Part("rattle-libc", "NOASSERTION"), Part("rattle-os", "NOASSERTION")]


def _identity(name):
    """What SPDX calls a part: letters, digits, dots and hyphens alone."""
    return f"SPDXRef-{name.replace('_', '-')}"


def document(kit, time):
    """The list of parts as SPDX has it, by tags and values."""
    head = [
        "SPDXVersion: SPDX-2.3", "DataLicense: CC0-1.0", "SPDXID: SPDXRef-DOCUMENT", f"DocumentName: cvl-{table.VERSION}",
        f"DocumentNamespace: urn:cimorelua:cvl-{table.VERSION}", "Creator: Tool: release", f"Created: {time}",
    ]  # fmt: skip

    def package(name, version, licence):
        return [
            "", f"PackageName: {name}", f"SPDXID: {_identity(name)}", f"PackageVersion: {version}", "PackageDownloadLocation: NOASSERTION",
            "FilesAnalyzed: false", f"PackageLicenseConcluded: {licence}", f"PackageLicenseDeclared: {licence}", "PackageCopyrightText: NOASSERTION",
        ]  # fmt: skip

    lines = [*head, *package("cvl", table.VERSION, "MIT"), f"Relationship: SPDXRef-DOCUMENT DESCRIBES {_identity('cvl')}"]
    for part in parts():
        lines += [*package(part.name, kit, part.licence), f"Relationship: {_identity('cvl')} STATIC_LINK {_identity(part.name)}"]
    # the scripts of the pages in HTML
    lines += [
        *package("sphinx", "NOASSERTION", "BSD-2-Clause"),
        f"Relationship: {_identity('cvl')} CONTAINS {_identity('sphinx')}",
    ]
    return "\n".join([*lines, ""])

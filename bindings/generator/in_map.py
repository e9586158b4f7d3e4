"""What is written for the linker: each public name of the shared object under the version that it came with. The file itself says
which that was, so a name stays under its version from then on."""

import re

import table

NODE = "CVL_{}.{}"
HEAD = "/* Written by bindings/generate. Each name stands under the version that it came with, and stays there. */\n"


def nodes(text):
    """The versions of a file, the oldest first, each with its names."""
    found = re.findall(r"^(CVL_[\d.]+) \{(.*?)^\}", text, re.M | re.S)
    return {name: set(re.findall(r"cvl_\w+(?=;)", body)) for name, body in found}


def _present(version):
    return NODE.format(*version.split(".")[:2])


def differences(text, public, version=table.VERSION):
    """The names that an earlier version has, of the same first number, and that are gone."""
    for node, names in nodes(text).items():
        for name in sorted(names - set(public)):
            if node != _present(version) and node.startswith(NODE.format(version.split(".")[0], "")):
                yield f"{name} came with {node} and is gone: programs that have it need the first number of the version to change"


def symbol_versions(text, public, version=table.VERSION):
    """The file with the names that are new under the version at hand, whose own names may still change."""
    major, present = version.split(".")[0], _present(version)
    earlier = {node: names for node, names in nodes(text).items() if node != present and node.startswith(NODE.format(major, ""))}
    old = {name for names in earlier.values() for name in names}
    found = {**earlier, present: set(public) - old} if set(public) - old or not earlier else earlier
    blocks, before = [], ""
    for node, names in found.items():
        hidden = "" if before else "    local: *;\n"
        listed = "".join(f"        {name};\n" for name in sorted(names))
        blocks.append(f"{node} {{\n    global:\n{listed}{hidden}}}{before};\n")
        before = f" {node}"
    return HEAD + "\n".join(blocks)

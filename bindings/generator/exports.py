"""The exports of `crates/cvl_c`, read from its source: each name without `cvl_proved_`, and its parameters with their types."""

import re

SOURCE = "crates/cvl_c/src"
EXPORT = re.compile(r'pub extern "C" fn cvl_proved_(\w+)\(([^)]*)\)')


def read(top):
    """Each export: its parameters in their order, each a name and a type of Rattle; an allocator is `Global`."""
    found = {}
    for path in sorted((top / SOURCE).glob("*.rt")):
        for name, parameters in EXPORT.findall(path.read_text()):
            pairs = [parameter.split(":") for parameter in parameters.split(",") if parameter.strip()]
            found[name] = [(left.strip(), right.strip()) for left, right in pairs]
    return found

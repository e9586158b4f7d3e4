"""The most elements of a vector and of a text, held against the definitions that the library is proved against; and the lengths
from which on threads share a call from C, held against those from which on they share a call from Rattle."""

import re

import table

SOURCE = "crates/cvl_base/specs/Limits.antt"

# The limits of the table, and the definition of each: a nested text that is read has the limit of scripts.
DEFINITIONS = {"MOST_ELEMENTS": "most_places", "MOST_OF_TEXT": "most_elements"}

THRESHOLDS, IN_C = "crates/sharing/src/lib.rt", "bindings/c/threads.h"


def read(top):
    """Each limit of the source, by the name of its definition."""
    return {name: int(number) for name, number in re.findall(r"^(\w+) = (\d+)$", (top / SOURCE).read_text(), re.M)}


def differences(limits):
    """The limits that the table has otherwise than the source."""
    for name, definition in DEFINITIONS.items():
        here, proved = getattr(table, name), limits.get(definition)
        if here != proved:
            yield f"{name} is {here} in bindings/table.py, and {definition} is {proved} in {SOURCE}"


def read_thresholds(top):
    """Each threshold of the source, and each of the C, by its name without a prefix."""
    proved = re.findall(r"^pub const (LEAST_\w+): usize = ([\d_]+);$", (top / THRESHOLDS).read_text(), re.M)
    in_c = re.findall(r"^#define CVL_(LEAST_\w+) (\d+)$", (top / IN_C).read_text(), re.M)
    return {name: int(number.replace("_", "")) for name, number in proved}, {name: int(number) for name, number in in_c}


def threshold_differences(proved, in_c):
    """The thresholds that the C has otherwise than the source."""
    for name, number in in_c.items():
        if number != proved.get(name):
            yield f"CVL_{name} is {number} in {IN_C}, and {name} is {proved.get(name)} in {THRESHOLDS}"

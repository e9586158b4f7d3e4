"""What is written in C of calls in parts: the header."""

import in_c
import rows
import table
from in_c import POOL, parameters, wrapped


def families():
    return [row for row in rows.FAMILIES.values() if row.family.cut is not None]


def declaration(row):
    return wrapped(f"CVL_CHECKED CvlStatus cvl_{row.name}_on({POOL}, {parameters(row.arguments)});")


def cut(row):
    """The comment on how a family is cut."""
    said = table.CUTS[row.family.cut[0]].said
    return in_c.comment(f"{said[0].upper()}{said[1:]}.")


def header(template):
    """`include/cvl_parallel.h`."""
    parts = {
        "note": f" * {rows.NOTE}",
        "families": "\n\n".join(in_c.commented((cut(row), declaration(row)) for row in families())),
        "calls": "\n".join(declaration(row) for row in rows.CALLS),
    }
    return in_c.filled(template, parts)

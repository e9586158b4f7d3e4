"""What is written in Fortran of calls over the ranks of MPI: a module beside that of the calls."""

import in_c
import in_fortran
import in_mpi
import rows
import table

KINDS = {
    "ints": "integer(c_int32_t)", "flags": "logical(c_bool)", "bytes": "integer(c_int8_t)", "sums": "integer(c_int64_t)", "int": "integer(c_int32_t)",
    "flag": "logical(c_bool)", "size": "integer(c_size_t)",
}  # fmt: skip


def _is_held(row, operand):
    return operand.role == "lengths" and in_mpi.is_held(row)


# ---- the families as C has them ----


def _c_declaration(row, argument):
    operand = argument.operand
    if operand is not None and _is_held(row, operand) and not argument.size:
        return "type(c_ptr), value", argument.name
    return in_fortran._c_declaration(argument)


def _interface(row):
    arguments = row.arguments
    names = ", ".join(["ranks", *(argument.name for argument in arguments)])
    head = f'function c_{row.name}({names}) result(answer) bind(c, name="cvl_{row.name}_mpi")'
    return [
        *in_fortran._folded(head, "        "),
        *in_fortran._folded("import :: c_bool, c_int32_t, c_int64_t, c_ptr, c_size_t, cvl_status, lengths_of", "            "),
        "            type(c_ptr), value :: ranks",
        *in_fortran._declared([_c_declaration(row, argument) for argument in arguments], "            "),
        "            type(cvl_status) :: answer",
        f"        end function c_{row.name}",
    ]


# ---- the calls ----


def _declaration(row, operand):
    written = operand.role in ("room", "single", "told")
    intent = f"intent({'inout' if written else 'in'})"
    if _is_held(row, operand):
        return f"type(cvl_rank_segments), {intent}", operand.name.replace("lengths", "segments")
    if rows.is_array(operand) or operand.role == "lengths":
        return (
            f"{KINDS['ints' if operand.role == 'lengths' else operand.kind]}, {intent}, target, contiguous",
            f"{operand.name}(:)",
        )
    kind = "integer(c_int64_t)" if operand.role in ("place", "count") else KINDS[operand.kind]
    return f"{kind}, {intent}", operand.name


def _given(row, argument):
    operand = argument.operand
    if operand is None:
        return str(table.NUMBERS[row.operator]) if row.operator else "op"
    if argument.size:
        return f"size({operand.name}, kind=c_size_t)"
    if _is_held(row, operand):
        return f"{operand.name.replace('lengths', 'segments')}%at"
    if operand.role == "lengths":
        return f"lengths_of(at({operand.name}), size({operand.name}, kind=c_size_t))"
    return f"at({operand.name})" if rows.is_array(operand) else operand.name


def _procedure(row):
    """A call, which hands its arguments to its family."""
    name, family = f"cvl_{row.name}_mpi", rows.FAMILIES[row.family.name]
    pairs = [("integer(c_int32_t), intent(in)", "op")] if in_mpi.takes_operator(row) else []
    pairs += [_declaration(row, operand) for operand in row.operands]
    names = ", ".join(["ranks", *(found.removesuffix("(:)") for _, found in pairs), "status"])
    given = ", ".join(["ranks%at", *(_given(row, argument) for argument in family.arguments)])
    return [
        *in_fortran._folded(f"subroutine {name}({names})", "    "),
        "        type(cvl_ranks), intent(in) :: ranks",
        *in_fortran._declared(pairs, "        "),
        "        type(cvl_status), intent(out), optional :: status",
        "",
        *in_fortran._folded(f'call tell("{name}", c_{family.name}({given}), status)', "        "),
        f"    end subroutine {name}",
        "",
    ]


def module(template, both):
    """`bindings/fortran/cvl_mpi.f90`."""
    found = in_mpi.of_python()
    used = {row.family.name: rows.FAMILIES[row.family.name] for row in found}
    parts = {
        "note": f"! {rows.NOTE}",
        "publics": "\n".join(f"    public :: cvl_{row.name}_mpi" for row in found),
        "families": in_fortran._text(map(_interface, used.values())),
        "procedures": in_fortran._text(map(_procedure, found)),
        "in_both": both.rstrip(),
    }
    return in_c.filled(template, parts)

"""How a call is written in each language: the lines of its declaration, as the generator writes it for that language."""

import re

import in_c
import in_cpp
import in_fortran
import in_python
import in_rust
import packages
import rows

LANGUAGES = ("Script", "C", "C++", "Python", "Rust", "Fortran")

# what only compilers read
MARKS = re.compile(r"CVL_CHECKED |CVL_RESTRICT | CVL_NONNULL\(\([^)]*\)\)")

# the functions of Python that have no row
OF_LENGTHS = {
    name: (operand, "numpy.ndarray" if gives == "LENGTHS" else "int") for name, operand, _, gives, *_ in in_python.LENGTHS
}


def in_script(entry, name):
    """A line of a script, for a call of a script."""
    if not entry.said:
        return ""
    result = "vector descriptor" if name == "nested" else "result"
    taken = [word.split(" (")[0] for word in re.findall(r"(?:^|, )(\w+ \([^)]*\))", entry.takes)]
    return f"{result} = {name} {' '.join(taken)}"


def of_c(row):
    return re.sub(r"\s+", " ", MARKS.sub("", in_c.declaration(row)))


def of_cpp(row):
    return in_cpp.declaration(in_cpp.Function(row))


def _function_of_python(row):
    return next(call for call in in_python.FUNCTIONS if call.name == row.name)


def of_python(row):
    call = _function_of_python(row)
    gives = {
        **{kind: f"array of {name.removeprefix('numpy.')}" for kind, name in in_python.NUMPY.items()},
        "int": "int",
        "flag": "bool",
        "sum": "int",
    }
    direct = {"WRITTEN": "int", "TEXT": "str", "READ_NESTED": "array of int32, Segments"}.get(getattr(call, "gives", None))
    given = direct or ("Segments" if call.gives_segments else gives[call.result.kind])
    return f"cvl.{call.name}({', '.join(in_python._names(call))})  # gives {given}"


def of_rust(row):
    """The declaration in Rust; of what is written by hand, that of its file."""
    if row.call is None and packages.Call(row).gives_two:
        code = "\n".join(
            path.read_text() for path in sorted((rows.pathlib.Path(__file__).resolve().parents[1] / "rust/src").glob("*.rs"))
        )
    else:
        code = in_rust._written(packages.Call(row))
    found = re.search(rf"pub fn {row.name}\b.*?(?= \{{)", code, re.S)[0]
    return re.sub(r",? \)", ")", re.sub(r"\( ", "(", re.sub(r"\s+", " ", found)))


def of_fortran(row):
    """The subroutine with its declarations."""
    procedure = in_fortran.Procedure(row)
    lines = procedure.lines()
    first = next(k for k, line in enumerate(lines) if line.strip().startswith("subroutine "))
    words = ", ".join(procedure.words)
    return "\n".join(
        [
            f"call {procedure.public}({words})",
            *(f"{line.strip()}" for line in lines[first + 1 : lines.index("", first)] if "::" in line),
        ]
    )


def of_row(row):
    """The declarations of a function by its language."""
    return {"C": of_c(row), "C++": of_cpp(row), "Python": of_python(row), "Rust": of_rust(row), "Fortran": of_fortran(row)}


def of_entry(entry):
    """How the first call of an entry is written in each language that has it."""
    found = {"Script": in_script(entry, entry.calls[0])}
    if entry.rows:
        found.update(of_row(entry.rows[0]))
    elif entry.calls[0] in OF_LENGTHS:
        operand, given = OF_LENGTHS[entry.calls[0]]
        found["Python"] = f"cvl.{entry.calls[0]}({operand})  # gives {'int' if given == 'int' else 'array of int32'}"
    return {language: found[language] for language in LANGUAGES if found.get(language)}

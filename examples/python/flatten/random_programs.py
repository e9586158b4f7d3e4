"""Nested programs at random, each with inputs: what they give as vector calls, as scripts, and what Python gives.

    python3 -m flatten.random_programs COUNT [FIRST [PROGRAM]]

compares so many from a number on, by the program `cvl` too if that is named, and tells what their runs were.

Python runs the same text with integers that raise an `OverflowError` where they leave 32 bits, as the compiler's do.
"""

import ast
import builtins
import collections
import linecache
import random
import sys
import traceback

from flatten.language import GREATEST, LEAST
from flatten.decorator import Nested, nested

# ---- Python, with integers of 32 bits ----


def fits(number):
    if not LEAST <= number <= GREATEST:
        raise OverflowError("a result leaves 32 bits")
    return Checked(number)


class Checked(int):
    """An integer of 32 bits. A result that leaves them raises an error."""

    __neg__ = lambda a: fits(-int(a))
    __add__ = __radd__ = lambda a, b: fits(int(a) + int(b))
    __mul__ = __rmul__ = lambda a, b: fits(int(a) * int(b))
    __sub__, __rsub__ = (lambda a, b: fits(int(a) - int(b))), (lambda a, b: fits(int(b) - int(a)))
    __floordiv__, __rfloordiv__ = (lambda a, b: fits(int(a) // int(b))), (lambda a, b: fits(int(b) // int(a)))
    __mod__, __rmod__ = (lambda a, b: fits(int(a) % int(b))), (lambda a, b: fits(int(b) % int(a)))


def checked_range(*ends):
    found = builtins.range(*map(int, ends))
    first, last, step = found.start, found.stop, found.step
    if len(ends) > 1:
        fits(last - first if step > 0 else first - last)
    return [*map(Checked, found)]


CHECKED = {
    "nested": lambda function: function,
    "number": Checked,
    "len": lambda values: Checked(builtins.len(values)),
    "sum": lambda values: fits(builtins.sum(map(int, values))),
    "enumerate": lambda values: [(Checked(k), value) for k, value in builtins.enumerate(values)],
    "range": checked_range,
}


class _Numbers(ast.NodeTransformer):
    def visit_Constant(self, node):
        if type(node.value) is not int:
            return node
        return ast.copy_location(ast.Call(ast.Name("number", ast.Load()), [node], []), node)


def deep(value):
    """A value whose integers are checked."""
    if isinstance(value, (list, tuple)):
        return type(value)(map(deep, value))
    return value if isinstance(value, bool) else Checked(value)


def outcome(function, given, file):
    """What a function gives, or the kind of its error and the line in its file."""
    try:
        return "gives", function(*given)
    except (IndexError, ValueError, ZeroDivisionError, OverflowError) as error:
        line = [frame.lineno for frame in traceback.extract_tb(error.__traceback__) if frame.filename == file][-1]
        return "stops", type(error).__name__, line


# ---- programs ----

INT, BOOL, INTS, BOOLS, NEST = "int", "bool", "[int]", "[bool]", "[[int]]"
TYPES = (INT, BOOL, INTS, BOOLS, NEST)
ELEMENT = {INTS: INT, BOOLS: BOOL, NEST: INTS}


class Writer:
    """Writes a program at random: functions, the last of which is run."""

    def __init__(self, seed):
        self.random = random.Random(seed)
        self.functions, self.names = [], 0
        self.features = collections.Counter()

    def pick(self, *words):
        return self.random.choice(words)

    def name(self):
        self.names += 1
        return f"x{self.names}"

    # ---- expressions ----

    def of(self, kind, names, depth):
        """An expression of a type."""
        variables = [name for name, has in names.items() if has == kind]
        if depth <= 0 or self.random.random() < 0.15:
            if variables and self.random.random() < 0.8:
                return self.pick(*variables)
            return self.plain(kind)
        ways = [getattr(self, name) for name in WAYS[kind]]
        return self.pick(*ways)(kind, names, depth - 1)

    def plain(self, kind):
        if kind == INT:
            return str(self.pick(0, 0, 1, 1, 2, 3, 5, -1, -2, 7, 1000, 65536, -65537, GREATEST, LEAST))
        if kind == BOOL:
            return self.pick("True", "False")
        if kind == NEST:
            return self.pick("[]", "[[]]", "[[1, 2], [], [3]]")
        return self.pick("[]", "[1, 2, 3]", "[4]") if kind == INTS else self.pick("[]", "[True, False]")

    def arithmetic(self, kind, names, depth):
        op = self.pick("+", "-", "*", "//", "%", "+", "-")
        right = self.pick("2", "3", "-3") if op in "//%" and self.random.random() < 0.6 else self.of(INT, names, depth)
        return f"({self.of(INT, names, depth)} {op} {right})"

    def fragile(self, kind, names, depth):
        """What fails for some numbers, and is cheap."""
        numbers = [name for name, has in names.items() if has == INT] or ["2"]
        lists = [name for name, has in names.items() if has == INTS] or ["[1, 2]"]
        x, y, v = self.pick(*numbers), self.pick(*numbers), self.pick(*lists)
        quotients, elements = (f"(9 // {x})", f"({x} % {y})"), (f"[5, 6, 7][{x}]", f"{v}[{x}]", f"{v}[-1]")
        return self.pick(*quotients, *elements, f"max({v}[{x}:])", f"({x} * 999999999)")

    def negative(self, kind, names, depth):
        return f"(-{self.of(INT, names, depth)})" if kind == INT else f"(not {self.of(BOOL, names, depth)})"

    def small(self, kind, names, depth):
        return f"({self.of(INT, names, depth)} % {self.pick(3, 5, 7)})"

    def index(self, kind, names, depth):
        source = {INT: INTS, BOOL: BOOLS, INTS: NEST}[kind]
        place = self.pick(self.of(INT, names, depth), self.small(INT, names, depth), "0", "-1")
        return f"{self.of(source, names, depth)}[{place}]"

    def length(self, kind, names, depth):
        return f"len({self.of(self.pick(INTS, BOOLS, NEST), names, depth)})"

    def reduce(self, kind, names, depth):
        if kind == BOOL:
            name = self.pick("any", "all", "max", "min")
            return f"{name}({self.of(BOOLS, names, depth)})"
        name = self.pick("sum", "sum", "max", "min")
        source = self.pick(INTS, BOOLS) if name == "sum" else INTS
        if self.random.random() < 0.4:
            return f"{name}({self.comprehension(source, names, depth)[1:-1]})"
        return f"{name}({self.of(source, names, depth)})"

    def choice(self, kind, names, depth):
        return f"({self.of(kind, names, depth)} if {self.of(BOOL, names, depth)} else {self.of(kind, names, depth)})"

    def extreme(self, kind, names, depth):
        return f"{self.pick('min', 'max')}({self.of(INT, names, depth)}, {self.of(INT, names, depth)})"

    def compare(self, kind, names, depth):
        op = self.pick("<", "<=", ">", ">=", "==", "!=")
        if self.random.random() < 0.2:
            return f"({self.of(INT, names, depth)} <= {self.of(INT, names, 0)} < {self.of(INT, names, depth)})"
        return f"({self.of(INT, names, depth)} {op} {self.of(INT, names, depth)})"

    def logic(self, kind, names, depth):
        op = self.pick("and", "or")
        return f"({op.join(f' {self.of(BOOL, names, depth)} ' for _ in range(self.pick(2, 2, 3)))})"

    def display(self, kind, names, depth):
        return f"[{', '.join(self.of(ELEMENT[kind], names, depth) for _ in range(self.pick(1, 2, 3)))}]"

    def joined(self, kind, names, depth):
        return f"({self.of(kind, names, depth)} + {self.of(kind, names, depth)})"

    def slice(self, kind, names, depth):
        ends = [self.pick("", self.of(INT, names, depth)) for _ in range(2)]
        return f"{self.of(kind, names, depth)}[{self.pick(':'.join(ends), '::-1')}]"

    def order(self, kind, names, depth):
        return f"sorted({self.of(kind, names, depth)})"

    def taken(self, kind, names, depth):
        """A part of a tuple."""
        others = [self.of(self.pick(*TYPES), names, depth) for _ in range(self.pick(1, 2))]
        place = self.random.randrange(len(others) + 1)
        others.insert(place, self.of(kind, names, depth))
        return f"({', '.join(others)})[{place}]"

    def source(self, names, depth):
        """What a `for` walks: its target, its text and the types of its names."""
        way = self.pick("list", "list", "list", "range", "zip", "enumerate", "reversed", "steps")
        kind, name = self.pick(INTS, INTS, BOOLS, NEST), self.name()
        text = self.of(kind, names, depth)
        if way == "range":
            return name, f"range({self.small(INT, names, depth)})", {name: INT}
        if way == "steps":
            step = self.pick("2", "-1", "3", self.small(INT, names, depth), f"-{self.small(INT, names, depth)}")
            return name, f"range({self.small(INT, names, depth)}, {self.small(INT, names, depth)}, {step})", {name: INT}
        if way == "zip":
            other, second = self.pick(INTS, BOOLS, NEST), self.name()
            text = f"zip({text}, {self.of(other, names, depth)})"
            return f"{name}, {second}", text, {name: ELEMENT[kind], second: ELEMENT[other]}
        if way == "enumerate":
            place = self.name()
            return f"{place}, {name}", f"enumerate({text})", {place: INT, name: ELEMENT[kind]}
        return name, f"reversed({text})" if way == "reversed" else text, {name: ELEMENT[kind]}

    def comprehension(self, kind, names, depth):
        text = ""
        for _ in range(self.pick(1, 1, 1, 2)):
            target, source, more = self.source(names, depth - 1 if text else depth)
            names = {**names, **more}
            text += f" for {target} in {source}"
            text += "".join(f" if {self.of(BOOL, names, depth)}" for _ in range(self.pick(0, 0, 1, 1, 2)))
        makes = self.call if self.random.random() < 0.4 else self.of
        return f"[{makes(ELEMENT[kind], names, depth)}{text}]"

    def call(self, kind, names, depth):
        found = [one for one in self.functions if one[2] == kind]
        if not found:
            return self.of(kind, names, depth)
        name, kinds, _ = self.pick(*found)
        given = (self.of(of, names, depth) for of in kinds)
        return f"{name}({', '.join(given)})"

    # ---- statements ----

    def block(self, names, indent, depth):
        """Some statements; they do not return."""
        lines = []
        for _ in range(self.pick(0, 1, 1, 2)):
            if depth and self.random.random() < 0.3:
                kind, name = self.pick(*TYPES), self.name()
                lines.append(f"{indent}if {self.of(BOOL, names, 2)}:")
                for word in ("", "else:"):
                    lines += [indent + word] if word else []
                    some, inner = self.block(names, indent + "    ", depth - 1)
                    lines += [*some, f"{indent}    {name} = {self.of(kind, inner, 2)}"]
            elif self.random.random() < 0.2:
                first, second = self.name(), self.name()
                lines.append(f"{indent}{first}, {second} = {self.of(INT, names, 2)}, {self.of(INTS, names, 2)}")
                names, kind, name = {**names, first: INT}, INTS, second
            elif self.random.random() < 0.1:
                first, name, kind = self.name(), self.name(), INT
                lines.append(f"{indent}{first}, {name} = {self.of(INTS, names, 2)}")
                names = {**names, first: INT}
            else:
                old = [name for name, has in names.items() if has == INT]
                kind, name = self.pick(*TYPES), self.name()
                if old and self.random.random() < 0.3:
                    kind, name = INT, self.pick(*old)
                    lines.append(f"{indent}{name} {self.pick('+', '-', '*')}= {self.of(INT, names, 2)}")
                else:
                    lines.append(f"{indent}{name} = {self.of(kind, names, 3)}")
            names = {**names, name: kind}
        return lines, names

    def function(self):
        """A function of some arguments, which may return early."""
        kinds, result = [self.pick(*TYPES, INTS, NEST) for _ in range(self.pick(1, 2, 3))], self.pick(*TYPES, INTS)
        names = {self.name(): kind for kind in kinds}
        name = f"f{len(self.functions)}"
        lines = ["@nested", f"def {name}({', '.join(names)}):"]
        more, inner = self.block(names, "    ", 1)
        lines += more
        if self.random.random() < 0.4:
            early, within = self.block(inner, "        ", 0)
            lines += [f"    if {self.of(BOOL, inner, 2)}:", *early, f"        return {self.of(result, within, 2)}"]
        more, inner = self.block(inner, "    ", 1)
        lines += [*more, f"    return {self.of(result, inner, 3)}"]
        self.functions.append((name, kinds, result))
        return lines

    def steps(self):
        """A function of integers each of whose lines fails for some of them: run for all elements of a list, the first error is
        not that of the first line."""
        name, names = f"f{len(self.functions)}", {self.name(): INT for _ in range(self.pick(1, 2))}
        kinds, lines = [INT] * len(names), ["@nested", f"def {name}({', '.join(names)}):"]
        for _ in range(self.pick(2, 3, 4)):
            found = self.name()
            lines.append(f"    {found} = {self.fragile(INT, names, 0)}")
            if self.random.random() < 0.3:
                lines[-1:] = [f"    {found} = 1", f"    if {self.of(BOOL, names, 1)}:"]
                lines.append(f"        {found} = {self.fragile(INT, names, 0)}")
            names[found] = INT
        lines.append(f"    return {self.pick(*names)}")
        self.functions.append((name, kinds, INT))
        return lines

    def recursion(self):
        """A function that calls itself, once or for each of some lists, as often as its first argument says."""
        kind, result = self.pick(INTS, NEST, INT), self.pick(INT, INTS, BOOL)
        name, depth, other = f"f{len(self.functions)}", self.name(), self.name()
        names = {depth: INT, other: kind}
        end = f"{depth} % 4 == 0" if self.random.random() < 0.5 else f"{depth} % 3 == 0 or {self.of(BOOL, names, 2)}"
        lines = ["@nested", f"def {name}({depth}, {other}):", f"    if {end}:", f"        return {self.of(result, names, 2)}"]
        less, found = f"{depth} % 4 - 1", self.name()
        if self.random.random() < 0.5:
            lines.append(f"    {found} = {name}({less}, {self.of(kind, names, 2)})")
            names[found] = result
        elif self.random.random() < 0.4:
            lines.append(f"    {found}, {found}b = {name}({less}, {self.of(kind, names, 1)}), {name}({less}, {other})")
            names.update({found: result, found + "b": result})
        else:
            each = self.name()
            several = f"[{self.of(kind, names, 2)}, {self.of(kind, names, 2)}]"
            lines.append(f"    {found} = [{name}({less}, {each}) for {each} in {several}]")
            names[found] = {INT: INTS, BOOL: BOOLS, INTS: NEST}[result]
        lines.append(f"    return {self.of(result, names, 2)}")
        self.functions.append((name, [INT, kind], result))
        return lines

    def program(self):
        """The text of a program, and whether a function in it calls itself."""
        lines, recurs = [], False
        for _ in range(self.pick(0, 1, 1, 2)):
            make = self.pick(self.recursion, self.function, self.steps)
            recurs = recurs or make == self.recursion
            lines += [*make(), ""]
        lines += self.function()
        return "".join(f"{line}\n" for line in lines), recurs

    def value(self, kind):
        if kind == INT:
            return self.pick(0, 1, 2, 3, 1, 2, -1, -3, 100, GREATEST, LEAST, *range(-3, 4))
        if kind == BOOL:
            return self.pick(True, False)
        return [self.value(ELEMENT[kind]) for _ in range(self.pick(0, 1, 2, 3, 5, 6))]


WAYS = {
    INT: (
        "arithmetic",
        "arithmetic",
        "fragile",
        "fragile",
        "fragile",
        "negative",
        "small",
        "index",
        "index",
        "length",
        "reduce",
        "reduce",
        "choice",
        "extreme",
        "taken",
        "call",
        "call",
    ),
    BOOL: ("compare", "compare", "compare", "logic", "logic", "negative", "index", "reduce", "choice", "call"),
    INTS: (
        "display",
        "joined",
        "slice",
        "order",
        "comprehension",
        "comprehension",
        "comprehension",
        "comprehension",
        "comprehension",
        "choice",
        "index",
        "taken",
        "call",
    ),
    BOOLS: ("display", "joined", "slice", "order", "comprehension", "comprehension", "choice"),
    NEST: ("display", "joined", "slice", "comprehension", "comprehension", "choice", "taken"),
}


# ---- comparisons ----


class Program:
    """A program at random with its inputs, as vector calls and in Python."""

    def __init__(self, seed):
        writer = Writer(seed)
        self.text, self.recurs = writer.program()
        self.name, kinds, _ = writer.functions[-1]
        self.file = f"<program {seed}>"
        linecache.cache[self.file] = len(self.text), None, self.text.splitlines(True), self.file
        self.inputs = [[writer.value(kind) for kind in kinds] for _ in range(3)]
        names = {"nested": nested, "__name__": self.file}
        exec(compile(self.text, self.file, "exec"), names)
        self.nested = names[self.name]
        tree = ast.fix_missing_locations(_Numbers().visit(ast.parse(self.text)))
        names = dict(CHECKED)
        exec(compile(tree, self.file, "exec"), names)
        self.plain = names[self.name]

    def wanted(self, given):
        return outcome(self.plain, deep(given), self.file)

    def found(self, given):
        return outcome(self.nested, given, self.file)


def compare(seed, run_script=None):
    """Compares one program; returns what its runs were, or raises an `AssertionError` that shows it."""
    program, seen = Program(seed), collections.Counter()
    for given in program.inputs:
        shown = f"{program.text}\n{program.name}{tuple(given)}\n   "
        wanted, found = program.wanted(given), program.found(given)
        assert found == wanted, f"{shown} {found}\nand in Python\n    {wanted}"
        seen[wanted[1] if wanted[0] == "stops" else "a value"] += 1
        if run_script and not program.recurs:
            script = program.nested.script(*given)
            printed, stopped = run_script(script)
            if wanted[0] == "gives":
                result = stopped or program.nested.value(given, script.vectors(printed))
                assert result == wanted[1], f"{shown} {result}\nand in Python\n    {wanted}\n{script.text}"
            else:
                assert stopped, f"{shown} the script stops nowhere\nand in Python\n    {wanted}"
                script.error(stopped)
            seen["a script"] += 1
    return seen


def main(count, first=0, program=None):
    """Compares programs, the scripts too where a program `cvl` is named, and tells what their runs were."""
    seen = collections.Counter()
    for seed in range(int(first), int(first) + int(count)):
        seen += compare(seed, program and (lambda script: script.run(program)))
    print(f"{count} programs:", ", ".join(f"{count} times {what}" for what, count in seen.most_common()))


if __name__ == "__main__":
    main(*sys.argv[1:])

"""Compiles a function to lifted form: the code of each expression computes it for all iterations at once.

A comprehension is a block that runs for all elements of all its lists; what it reads from outside is spread over them. A
condition is two blocks, each for its own iterations. A call of a function runs it once for all iterations.
"""

import ast
import functools
import itertools

from flatten.code import Apply, Block, Function, Inside, Lists, Same, Tuple, Vector, Whole, form, leaves, renamed, stays, tidied
from flatten.functions import Functions
from flatten.infer import Instances
from flatten.kinds import BOOL, List, final
from flatten.kinds import Tuple as TupleKind
from flatten.language import LEAST, assigned, called, free_names, may_return, returns
from flatten.safe import cannot_fail, side_by_side

OPERATORS = {ast.Add: "add", ast.Sub: "sub", ast.Mult: "mul"}
COMPARISONS = {ast.Lt: "les_wuz", ast.LtE: "leq_wuz", ast.Gt: "grt_wuz", ast.GtE: "geq_wuz"}
COMPARISONS |= {ast.Eq: "eql_wuz", ast.NotEq: "neq_wuz"}


def compiled(function, kinds, straight=False):
    """The function that runs once, for arguments of these types, and its instance."""
    instance = Instances().of(function, kinds, None)
    program = Program(straight)
    return program.function(instance, [program.value_of(kind) for kind in instance.arguments], True), instance


class Program:
    """The functions of a program, each compiled once for each form of its arguments, and the names of all its vectors. In
    `straight` code blocks run even without iterations, as in a script."""

    def __init__(self, straight):
        self.names, self.functions = (f"v{k}" for k in itertools.count(1)), {}
        self.straight = straight

    def value_of(self, kind):
        """A value of a type, by new names."""
        kind = final(kind)
        if isinstance(kind, List):
            return Lists(Vector(next(self.names), "z"), self.value_of(kind.of))
        if isinstance(kind, TupleKind):
            return Tuple(tuple(map(self.value_of, kind.parts)))
        return Vector(next(self.names), "b" if kind == BOOL else "z")

    def function(self, instance, given, single):
        """The code of an instance for values of the form of those given. It may call itself, so it is noted before it is
        compiled."""
        key = instance, tuple(map(form, given)), single
        if key not in self.functions:
            parameters = [renamed(value, self.names) for value in given]
            made = self.functions[key] = Function(instance.function.name, Block(next(self.names), parameters))
            body = Body(self, instance, made.block, single)
            names = [argument.arg for argument in instance.function.source.tree.args.args]
            made.block.result = body.statements(instance.function.source.tree.body, dict(zip(names, parameters)))
            made.block = tidied(made.block)
        return self.functions[key]


class Body(Functions):
    """Compiles what one block does. `names` maps each name of the program to its value; an assignment makes a new map."""

    def __init__(self, program, instance, block, single):
        super().__init__(program.names, block, Same(block.count, "z"), single)
        self.program, self.instance, self.done = program, instance, {}

    # ---- blocks ----

    def inside(self, names, nodes, enter, count, compile_block, single=False, **of):
        """Runs a block for other iterations. It takes the names that its nodes read, as `enter` makes them."""
        block = Block(count.value)
        body = Body(self.program, self.instance, block, single)
        read = free_names(*nodes)
        inner = {name: enter(value) for name, value in names.items() if name in read}
        block.inputs = [*inner.values()]
        block.result = compile_block(body, inner)
        if not block.steps and not single:
            return block.result
        result = renamed(block.result, self.names)
        self.block.steps.append(Inside(block, result, **of))
        return result

    def where(self, names, nodes, flags, compile_block):
        """Runs a block for the iterations whose flag is true. If there is one iteration, the block runs for this or does not
        run."""
        single = self.single and not self.program.straight
        enter = (lambda value: value) if single else (lambda value: self.pack(value, flags))
        return self.inside(names, nodes, enter, self.call("cnt_lub", flags), compile_block, single, flags=flags.name)

    def branch(self, names, flags, sides):
        """Two blocks, for the iterations whose flag is true and for the others, and both results put together. A side is what
        its block reads, and what compiles it."""
        flags = self.vector(flags)
        ways = [self.where(names, nodes, way, make) for way, (nodes, make) in zip((flags, self.call("not_wub", flags)), sides)]
        return self.merge(flags, *ways)

    # ---- statements ----

    def statements(self, lines, names):
        """The value that statements return. Where some way through an `if` returns, what follows belongs to the other ways."""
        for k, line in enumerate(lines):
            if isinstance(line, ast.Return):
                return self.settled(self.of(line.value, names))
            if may_return([line]):
                ways = [side if returns(side) else side + lines[k + 1 :] for side in (line.body, line.orelse)]
                sides = [(way, lambda body, inner, way=way: body.statements(way, inner)) for way in ways]
                return self.branch(names, self.of(line.test, names), sides)
            names = self.after(line, names)

    def after(self, line, names):
        """The names behind a statement that does not return."""
        if isinstance(line, ast.Assign):
            return {**names, **self.assign(line.targets[0], self.of(line.value, names), line)}
        return self.joined(line, names) if isinstance(line, ast.If) else names

    def joined(self, line, names):
        """The names behind an `if` that does not return."""
        bound = [{*names, *assigned(side)} for side in (line.body, line.orelse)]
        changed = [name for name in assigned([line]) if name in bound[0] & bound[1]]

        def side(lines):
            def compile_side(body, inner):
                inner = functools.reduce(lambda found, one: body.after(one, found), lines, inner)
                return Tuple(tuple(body.settled(inner[name]) for name in changed))

            return [*lines, *(ast.Name(name, ast.Load()) for name in changed)], compile_side

        result = self.branch(names, self.of(line.test, names), [side(line.body), side(line.orelse)])
        return {**names, **dict(zip(changed, result.parts))}

    def assign(self, target, value, near):
        """The names that a target binds. A list is taken apart if it has as many elements in each iteration."""
        if isinstance(target, ast.Name):
            return {target.id: value}
        if isinstance(value, (Lists, Whole)):
            value = self.lists(value)
            wrong = self.call("neq_wuz", value.lengths, Same(len(target.elts), "z"))
            self.check(wrong, self.error(near, ValueError, "a list of another length is taken apart"))
            begin = self.offsets(value)
            places = [self.call("add_wuz", begin, Same(k, "z")) for k in range(len(target.elts))]
            value = Tuple(tuple(self.take(value.inner, place) for place in places))
        parts = (self.assign(node, part, near) for node, part in zip(target.elts, value.parts))
        return {name: part for found in parts for name, part in found.items()}

    # ---- expressions ----

    def of(self, node, names):
        """The value of an expression. Calls of one function that stand side by side in it are made together."""
        if node not in self.done:
            calls = side_by_side(node, self.instance)
            if calls:
                self.together(calls, names)
        return self.done.pop(node) if node in self.done else getattr(self, type(node).__name__)(node, names)

    def Name(self, node, names):
        return names[node.id]

    def Constant(self, node, names):
        return Same(node.value, "b" if isinstance(node.value, bool) else "z")

    def Tuple(self, node, names):
        return Tuple(tuple(self.of(part, names) for part in node.elts))

    def List(self, node, names):
        if not node.elts:
            return Lists(self.vector(Same(0, "z")), self.empty(self.instance.kind(node).of))
        return self.row([self.of(part, names) for part in node.elts])

    def row(self, parts):
        """The list of some values of each iteration."""
        one = self.vector(Same(1, "z"))
        lists = [Lists(one, self.settled(part)) for part in parts]
        return functools.reduce(self.append, lists)

    def BinOp(self, node, names):
        a, b = self.of(node.left, names), self.of(node.right, names)
        if isinstance(self.instance.kind(node), List):
            return self.append(a, b)
        if self.ordered(node, a).kind == "b":
            self.instance.function.source.refuse(node, "arithmetic takes integers", "write 1 if x else 0")
        if isinstance(node.op, (ast.FloorDiv, ast.Mod)):
            return self.quotient(node, a, b)
        op = OPERATORS[type(node.op)]
        result = self.call(f"{op}_wuz", a, b)
        self.fits(node, op, a, b, result)
        return result

    def fits(self, node, op, a, b, wrapped):
        """Checks that a result has not wrapped, unless it may or never does."""
        never = op == "div" and (a.is_written and a.value != LEAST or b.is_written and b.value != -1)
        if not self.instance.function.wraps and not never:
            self.check(self.leaves_32_bits(op, a, b, wrapped), self.error(node, OverflowError, "a result leaves 32 bits"))

    def quotient(self, node, a, b):
        is_quotient = isinstance(node.op, ast.FloorDiv)
        said = "integer division or modulo by zero" if is_quotient else "integer modulo by zero"
        result = self.floor(a, b, self.error(node, ZeroDivisionError, said), is_quotient)
        if is_quotient:
            self.fits(node, "div", a, b, result)
        return result

    def UnaryOp(self, node, names):
        value = self.of(node.operand, names)
        if isinstance(node.op, ast.Not):
            return self.call("not_wub", self.vector(value))
        if not self.instance.function.wraps:
            least = self.call("eql_wuz", value, Same(LEAST, "z"))
            self.check(least, self.error(node, OverflowError, "a result leaves 32 bits"))
        return self.call("sub_wuz", Same(0, "z"), value)

    def Compare(self, node, names):
        a, b = (self.ordered(node, self.of(part, names)) for part in (node.left, node.comparators[0]))
        if self.instance.kind(node.left) == BOOL:
            a, b = (self.call("int_wub", self.vector(value)) for value in (a, b))
        return self.call(COMPARISONS[type(node.ops[0])], a, b)

    def BoolOp(self, node, names):
        """`a and b` is `b if a else False`. If b can't fail, it is computed in all iterations."""
        is_and = isinstance(node.op, ast.And)
        result = self.of(node.values[0], names)
        for k, value in enumerate(node.values[1:], 1):
            if not cannot_fail(value, self.instance):
                rest = [ast.copy_location(ast.BoolOp(node.op, node.values[k:]), node)] if node.values[k + 1 :] else [value]
                other = [], lambda body, inner: body.vector(Same(not is_and, "b"))
                right = rest, lambda body, inner: body.settled(body.of(rest[0], inner))
                return self.branch(names, result, [right, other] if is_and else [other, right])
            result = self.call("and_wub" if is_and else "ior_wub", result, self.of(value, names))
        return result

    def IfExp(self, node, names):
        sides = [([way], lambda body, inner, way=way: body.settled(body.of(way, inner))) for way in (node.body, node.orelse)]
        return self.branch(names, self.of(node.test, names), sides)

    def ListComp(self, node, names):
        return self.walk(node, node.generators, names)

    GeneratorExp = ListComp

    def walk(self, node, generators, names):
        """The list that a comprehension makes by these of its generators: a block for all elements of the first. The others
        make a list in each of these iterations, and the lists of one iteration are joined."""
        first, rest = generators[0], generators[1:]
        source = self.tight(self.of(first.iter, names))

        def compile_block(body, inner):
            elements = source.inner
            if {*leaves(elements)} & {name for value in inner.values() for name in stays(value)}:
                elements = self.again(elements)
            body.block.inputs.append(elements)
            return body.kept(node, first.ifs, rest, {**inner, **body.assign(first.target, elements, node)})

        outer = {name: value for name, value in names.items() if name not in bound_by(first.target)}
        count = self.call("add_ruz", source.lengths)
        nodes = nodes_of(node, first.ifs, rest)

        def enter(value):
            return self.spread(value, source.lengths)

        result = self.inside(outer, nodes, enter, count, compile_block, lengths=source.lengths.name)
        if first.ifs or rest:
            return Lists(self.call("add_rez", result.lengths, source.lengths), result.inner)
        return Lists(source.lengths, result)

    def kept(self, node, conditions, rest, names):
        """What a comprehension makes behind its condition: a list, of one element at most if there are no other generators."""
        if not conditions:
            return self.walk(node, rest, names) if rest else self.settled(self.of(node.elt, names))
        flags = self.vector(self.of(conditions[0], names))
        result = self.where(names, nodes_of(node, [], rest), flags, lambda body, inner: body.kept(node, [], rest, inner))
        if not rest:
            return Lists(self.call("int_wub", flags), result)
        gone = self.call("not_wub", flags)
        none = self.call("dis_vuz", Same(0, "z"), self.call("cnt_lub", gone))
        return Lists(self.merge(flags, result.lengths, none), result.inner)

    def Subscript(self, node, names):
        value = self.of(node.value, names)
        if isinstance(value, Tuple):
            return value.parts[node.slice.value]
        if isinstance(node.slice, ast.Slice):
            ends = [end and self.of(end, names) for end in (node.slice.lower, node.slice.upper)]
            return self.turned(value) if node.slice.step else self.cut(value, *ends)
        return self.element(node, value, self.of(node.slice, names))

    # ---- calls ----

    def Call(self, node, names):
        given = [self.of(value, names) for value in node.args]
        if node in self.instance.calls:
            return self.apply(self.instance.calls[node], given)
        return getattr(self, f"call_{called(node)}")(node, *given)

    def apply(self, instance, given):
        """A function runs once, for all iterations."""
        result = self.program.value_of(instance.result)
        self.block.steps.append(Apply(self.program.function(instance, given, self.single), given, result, self.count.value))
        return result

    def together(self, calls, names):
        """Calls of one function are made as one, for a list of arguments of each iteration."""
        instance, many = self.instance.calls[calls[0]], len(calls)
        given = [self.row([self.of(value, names) for value in values]) for values in zip(*(call.args for call in calls))]
        lengths = self.vector(Same(many, "z"))

        def compile_block(body, _):
            body.block.inputs += [value.inner for value in given]
            return body.apply(instance, [value.inner for value in given])

        result = self.inside({}, [], None, self.call("add_ruz", lengths), compile_block, lengths=lengths.name)
        for k, call in enumerate(calls):
            self.done[call] = self.take(result, self.call("ind_luz", Same(k, "z"), Same(many, "z"), self.count))


def nodes_of(node, conditions, rest):
    """What the elements of a comprehension are made by, behind one of its generators."""
    return [node.elt, *conditions, *(part for generator in rest for part in (generator.iter, *generator.ifs))]


def bound_by(target):
    return {name.id for name in ast.walk(target) if isinstance(name, ast.Name)}

"""The types of each expression of a function, for the types of its arguments. A function that is called with other types is
inferred again, so one text serves several types; a call of a function within itself has the types of the call around it, if
they agree."""

import ast

from flatten.kinds import BOOL, INT, List, Tuple, Unknown, final, known, take_apart, unify
from flatten.language import BUILTINS, called
from flatten.safe import cannot_fail

# so deep may types nest; a recursion whose arguments are deeper in each call would never end
DEEPEST = 8


def _depth(kind):
    kind = known(kind)
    parts = [kind.of] if isinstance(kind, List) else kind.parts if isinstance(kind, Tuple) else []
    return 1 + max(map(_depth, parts), default=0)


class Instance:
    """A function with the types of its arguments, of its result and of each expression, and the instance that each call calls."""

    def __init__(self, function, arguments):
        self.function, self.arguments, self.result = function, arguments, Unknown()
        self.kinds, self.calls, self.is_done = {}, {}, False

    def kind(self, node):
        return final(self.kinds[node])


class Instances:
    """The instances of all functions that a program calls."""

    def __init__(self):
        self.made = []

    def of(self, function, arguments, refuse):
        for instance in self.made:
            if instance.function is function and len(arguments) == len(instance.arguments):
                exact = [str(final(kind)) for kind in arguments] == [str(final(kind)) for kind in instance.arguments]
                if exact or not instance.is_done:
                    if all([unify(one, other) for one, other in zip(arguments, instance.arguments)]):
                        return instance
        if refuse and max(map(_depth, arguments), default=0) > DEEPEST:
            refuse("the arguments nest deeper in each call", "keep their types")
        instance = Instance(function, arguments)
        self.made.append(instance)
        Inference(self, instance).infer()
        instance.is_done = True
        return instance


class Inference:
    """Infers one instance, statement by statement."""

    def __init__(self, instances, instance):
        self.instances, self.instance, self.function = instances, instance, instance.function
        self.refuse = self.function.source.refuse

    def infer(self):
        tree = self.function.source.tree
        names = [argument.arg for argument in tree.args.args]
        if len(names) != len(self.instance.arguments):
            raise TypeError(f"{tree.name} takes {len(names)} arguments, and {len(self.instance.arguments)} are given")
        self.body(tree.body, dict(zip(names, self.instance.arguments)))

    def same(self, node, a, b, what):
        """Makes two types the same, or refuses."""
        said = f"{what}: {known(a)} and {known(b)}"
        if not unify(a, b):
            self.refuse(node, said, "make them the same")

    def expect(self, node, wanted, names, what):
        found = self.of(node, names)
        self.same(node, found, wanted, f"{what} has another type")
        return wanted

    # ---- statements ----

    def body(self, lines, names):
        """Infers statements, and returns the types of all names behind them."""
        for line in lines:
            if isinstance(line, ast.Return):
                self.same(line, self.of(line.value, names), self.instance.result, "two returns differ")
            elif isinstance(line, ast.Assign):
                names = {**names, **self.bound(line.targets[0], self.of(line.value, names), line)}
            elif isinstance(line, ast.If):
                names = self.branch(line, names)
        return names

    def branch(self, line, names):
        self.expect(line.test, BOOL, names, "a condition")
        ways = [self.body(side, names) for side in (line.body, line.orelse)]
        for name in ways[0].keys() & ways[1].keys():
            self.same(line, ways[0][name], ways[1][name], f"{name} differs behind the branches")
        return {name: ways[0][name] for name in ways[0] if name in ways[1]}

    def bound(self, target, kind, near):
        """The names of a target with their types. A list may be taken apart, too."""
        self.instance.kinds[target] = kind
        if isinstance(target, ast.Name):
            return {target.id: kind}
        if not isinstance(target, (ast.Tuple, ast.List)):
            self.refuse(near, "this assigns to a part of a value", "make a new list by a comprehension")
        parts = [Unknown() for _ in target.elts]
        if not take_apart(kind, parts):
            self.refuse(near, f"{known(kind)} is taken apart into {len(parts)}", "take apart a list, or a tuple of so many parts")
        return {name: part for node, part in zip(target.elts, parts) for name, part in self.bound(node, part, near).items()}

    # ---- expressions ----

    def of(self, node, names):
        kind = getattr(self, type(node).__name__)(node, names)
        self.instance.kinds[node] = kind
        return kind

    def Name(self, node, names):
        if node.id not in names:
            self.refuse(node, f"{node.id} has no value on each way to here", "give it one before, or as an argument")
        return names[node.id]

    def Constant(self, node, names):
        return BOOL if isinstance(node.value, bool) else INT

    def BinOp(self, node, names):
        left, right = known(self.of(node.left, names)), known(self.of(node.right, names))
        if isinstance(node.op, ast.Add) and (isinstance(left, List) or isinstance(right, List)):
            if getattr(node, "in_place", False):
                self.refuse(node, "+= changes a list that may have other names", "write x = x + ..")
            self.same(node, left, right, "a list is joined with something else")
            return left
        if isinstance(node.op, ast.Add) and isinstance(left, Unknown) and isinstance(right, Unknown):
            self.same(node, left, right, "two types are added")
            return left
        for kind in (left, right):
            self.same(node, kind, INT, "arithmetic takes integers")
        return INT

    def UnaryOp(self, node, names):
        return self.expect(node.operand, BOOL if isinstance(node.op, ast.Not) else INT, names, "what the sign is before")

    def BoolOp(self, node, names):
        for value in node.values:
            self.expect(value, BOOL, names, "a condition")
        return BOOL

    def Compare(self, node, names):
        left, right = self.of(node.left, names), self.of(node.comparators[0], names)
        self.same(node, left, right, "two types are compared")
        if isinstance(known(left), (List, Tuple)):
            instead = "compare their parts, as by all([x == y for x, y in zip(v, w)])"
            self.refuse(node, "lists and tuples have no comparison", instead)
        return BOOL

    def IfExp(self, node, names):
        self.expect(node.test, BOOL, names, "a condition")
        kind = self.of(node.body, names)
        self.same(node, kind, self.of(node.orelse, names), "the branches differ")
        return kind

    def Tuple(self, node, names):
        return Tuple(tuple(self.of(part, names) for part in node.elts))

    def List(self, node, names):
        kind = Unknown()
        for part in node.elts:
            self.same(part, self.of(part, names), kind, "elements of a list differ")
        return List(kind)

    def ListComp(self, node, names):
        for part in node.generators:
            source = self.of(part.iter, names)
            element = Unknown()
            self.same(part.iter, source, List(element), "for walks what is no list")
            names = {**names, **self.bound(part.target, element, part.iter)}
            for condition in part.ifs:
                self.expect(condition, BOOL, names, "a condition")
        return List(self.of(node.elt, names))

    GeneratorExp = ListComp

    def Subscript(self, node, names):
        value = known(self.of(node.value, names))
        if isinstance(value, Tuple):
            if not isinstance(node.slice, ast.Constant) or not -len(value.parts) <= node.slice.value < len(value.parts):
                self.refuse(node, "a tuple is indexed by no number of a part", "take it apart: a, b = t")
            return value.parts[node.slice.value]
        element = Unknown()
        self.same(node, value, List(element), "what is indexed is no list")
        if not isinstance(node.slice, ast.Slice):
            self.expect(node.slice, INT, names, "an index")
            return element
        for bound in (node.slice.lower, node.slice.upper, node.slice.step):
            if bound is not None:
                self.expect(bound, INT, names, "an end of a slice")
        return value

    def Call(self, node, names):
        name = called(node)
        if name in names:
            self.refuse(node, f"{name} is a value", "call a function")
        given = [self.of(value, names) for value in node.args]
        function = self.function.lookup(name)
        if function is not None:
            if len(given) != len(function.source.tree.args.args):
                self.refuse(node, f"{name} takes {len(function.source.tree.args.args)} arguments", "give each of them")
            instance = self.instances.of(function, given, lambda *said: self.refuse(node, *said))
            self.instance.calls[node] = instance
            return instance.result
        if name not in BUILTINS:
            self.refuse(node, f"{name} is no nested function", "decorate it, or call one of " + ", ".join(BUILTINS))
        return getattr(self, f"call_{name}")(node, given)

    # ---- the functions of Python ----

    def one_list(self, node, given):
        """The type of the elements of the only argument."""
        element = Unknown()
        if len(given) != 1:
            self.refuse(node, f"{called(node)} takes one list here", "give one list")
        self.same(node, given[0], List(element), f"{called(node)} takes a list")
        return element

    def call_len(self, node, given):
        self.one_list(node, given)
        return INT

    def call_list(self, node, given):
        return List(self.one_list(node, given))

    call_reversed = call_list

    def call_sorted(self, node, given):
        return List(self.basic(node, self.one_list(node, given)))

    def basic(self, node, kind):
        """A type that has an order."""
        if isinstance(known(kind), (List, Tuple)):
            self.refuse(node, f"{called(node)} takes integers or booleans", "sort or reduce a part of each")
        return kind

    def call_sum(self, node, given):
        self.basic(node, self.one_list(node, given))
        return INT

    def call_min(self, node, given):
        if len(given) == 1:
            return self.basic(node, self.one_list(node, given))
        for kind in given:
            self.same(node, kind, INT, f"{called(node)} of several takes integers")
        return INT

    call_max = call_min

    def call_any(self, node, given):
        if isinstance(node.args[0], ast.GeneratorExp) and not cannot_fail(node.args[0], self.instance):
            instead = "compute all of them: put the elements into [..]"
            self.refuse(node, f"{called(node)} may stop before an element that fails", instead)
        self.same(node, self.one_list(node, given), BOOL, f"{called(node)} takes booleans")
        return BOOL

    call_all = call_any

    def call_range(self, node, given):
        for kind in given:
            self.same(node, kind, INT, "range takes integers")
        if not 1 <= len(given) <= 3:
            self.refuse(node, f"range takes no {len(given)} numbers", "give one to three")
        return List(INT)

    def call_enumerate(self, node, given):
        return List(Tuple((INT, self.one_list(node, given))))

    def call_zip(self, node, given):
        if not given:
            self.refuse(node, "zip takes a list at least", "give one")
        return List(Tuple(tuple(self.one_list(node, [kind]) for kind in given)))

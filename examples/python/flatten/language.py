"""The language: which Python a nested function may be written in. All else is refused, with its line, its column and what to
write."""

import ast
import inspect
import textwrap

LEAST, GREATEST = -(2**31), 2**31 - 1

# what stands where a list is expected, and is none in Python: it can be walked once
WALKED = ("zip", "enumerate", "range", "reversed")
REDUCES = ("sum", "min", "max", "any", "all")
BUILTINS = ("len", "sorted", "list", *REDUCES, *WALKED)

ALLOWED = (
    ast.FunctionDef, ast.arguments, ast.arg, ast.Return, ast.Assign, ast.If, ast.Pass,
    ast.Name, ast.Load, ast.Store, ast.Constant, ast.Tuple, ast.List, ast.Subscript, ast.Slice,
    ast.BinOp, ast.Add, ast.Sub, ast.Mult, ast.FloorDiv, ast.Mod, ast.UnaryOp, ast.USub, ast.Not, ast.BoolOp, ast.And, ast.Or,
    ast.Compare, ast.Lt, ast.LtE, ast.Gt, ast.GtE, ast.Eq, ast.NotEq, ast.IfExp,
    ast.Call, ast.ListComp, ast.GeneratorExp, ast.comprehension,
)  # fmt: skip

INSTEAD = {
    ast.For: "write a comprehension",
    ast.While: "write a recursion",
    ast.Div: "write // for a whole quotient",
    ast.Pow: "write a product",
    ast.In: "write any([y == x for y in v])",
    ast.NotIn: "write all([y != x for y in v])",
    ast.Is: "write ==",
    ast.IsNot: "write !=",
    ast.Lambda: "write a nested function",
    ast.Dict: "write a list of tuples",
    ast.Set: "write a list",
    ast.SetComp: "write [..]",
    ast.DictComp: "write a list of tuples",
    ast.Attribute: "nothing here has attributes; for x.append(y) write x + [y]",
    ast.keyword: "give arguments by their places",
    ast.Starred: "name each part",
    ast.UAdd: "leave the + out",
    ast.NamedExpr: "write an assignment before",
    ast.Expr: "a statement has to assign or to return",
    ast.Assert: "return what you find",
    ast.Raise: "return what you find",
    ast.Global: "give it as an argument",
    ast.Nonlocal: "give it as an argument",
}


class Refused(SyntaxError):
    """What the language does not have; where it stands, and what to write instead."""


class Source:
    """The text of a function: its tree, with the lines and columns of its file."""

    def __init__(self, function):
        try:
            lines, first = inspect.getsourcelines(function)
        except OSError:
            raise OSError(f"the text of {function.__name__} is not kept here; write it into a file") from None
        text = textwrap.dedent("".join(lines))
        self.file, self.lines, self.first = function.__code__.co_filename, lines, first
        self.indent = len(lines[0]) - len(lines[0].lstrip())
        self.tree = ast.increment_lineno(ast.parse(text).body[0], first - 1)
        if not isinstance(self.tree, ast.FunctionDef):
            self.refuse(self.tree, "this is no function", "write def")

    def refuse(self, node, said, instead):
        text = self.lines[node.lineno - self.first] if 0 <= node.lineno - self.first < len(self.lines) else ""
        raise Refused(f"{said}; {instead}", (self.file, node.lineno, node.col_offset + self.indent + 1, text))


def read(function):
    """The tree of a function, which is in the language, with what is short for something else written out."""
    source = Source(function)
    tree = source.tree
    if isinstance(tree.body[0], ast.Expr) and isinstance(tree.body[0].value, ast.Constant):
        tree.body = tree.body[1:] or source.refuse(tree, "the function has no body", "return a value")
    tree.decorator_list, tree.returns = [], None
    _Longhand().visit(tree)
    _check(source, tree, tree)
    if not returns(tree.body):
        source.refuse(tree.body[-1], "the function may end here without a value", "end each way with a return")
    return source


class _Longhand(ast.NodeTransformer):
    """Writes out what is short for something else: `x += 1`, `a < b < c` and `if a if b`; makes `-1` a number, and leaves
    annotations out."""

    def visit_arg(self, node):
        node.annotation = None
        return node

    def visit_UnaryOp(self, node):
        self.generic_visit(node)
        number = node.operand.value if isinstance(node.operand, ast.Constant) else None
        if isinstance(node.op, ast.USub) and type(number) is int and number > 0:
            return ast.copy_location(ast.Constant(-number), node)
        return node

    def visit_comprehension(self, node):
        self.generic_visit(node)
        if len(node.ifs) > 1:
            node.ifs = [ast.copy_location(ast.BoolOp(ast.And(), node.ifs), node.ifs[0])]
        return node

    def visit_AugAssign(self, node):
        name = ast.Name(node.target.id, ast.Load()) if isinstance(node.target, ast.Name) else node.target
        value = ast.copy_location(ast.BinOp(ast.copy_location(name, node), node.op, node.value), node)
        value.in_place = True
        return self.generic_visit(ast.copy_location(ast.Assign([node.target], value), node))

    def visit_Compare(self, node):
        self.generic_visit(node)
        if len(node.ops) == 1:
            return node
        ends = [node.left, *node.comparators]
        parts = [ast.copy_location(ast.Compare(left, [op], [right]), node) for left, op, right in zip(ends, node.ops, ends[1:])]
        chain = ast.copy_location(ast.BoolOp(ast.And(), parts), node)
        chain.middles = ends[1:-1]
        return chain


def _check(source, node, near, outer=None):
    """Refuses what the language does not have, in a node and below it. `near` is the last node above that has a place."""
    near = node if hasattr(node, "lineno") else near
    if not isinstance(node, ALLOWED):
        instead = INSTEAD.get(type(node), "see docs/user/flattening.md")
        source.refuse(near, f"{type(node).__name__} is not in the language", instead)
    if isinstance(node, ast.Constant):
        _check_constant(source, node)
    elif isinstance(node, ast.arguments):
        if node.defaults or node.vararg or node.kwarg or node.kwonlyargs or node.posonlyargs:
            source.refuse(near, "an argument is more than a name", "give each argument a name, and each call all arguments")
    elif isinstance(node, ast.Assign) and len(node.targets) > 1:
        source.refuse(near, "this assigns twice", "write two assignments")
    elif isinstance(node, ast.Return) and node.value is None:
        source.refuse(near, "this returns nothing", "return a value")
    elif isinstance(node, ast.Call) and not isinstance(node.func, ast.Name):
        source.refuse(near, "this calls what is no name", "call a nested function, or one of " + ", ".join(BUILTINS))
    elif isinstance(node, ast.Slice) and node.step is not None and not _turns_round(node):
        source.refuse(near, "a slice has a step", "write [::-1], or a comprehension over a range")
    elif any(not isinstance(middle, (ast.Name, ast.Constant)) for middle in getattr(node, "middles", ())):
        source.refuse(near, "the middle of a comparison is computed", "give it a name first")
    elif _is_walked(node) and not _walks(outer, node):
        source.refuse(near, "this can be walked only once", "write list(..) or [..]")
    for child in ast.iter_child_nodes(node):
        _check(source, child, near, node)


def _check_constant(source, node):
    if type(node.value) not in (int, bool):
        source.refuse(node, f"{type(node.value).__name__} is not in the language", "write integers, booleans, lists and tuples")
    if not LEAST <= node.value <= GREATEST:
        source.refuse(node, f"{node.value} does not fit 32 bits", "write a number from -2147483648 to 2147483647")


def _turns_round(node):
    return isinstance(node.step, ast.Constant) and node.step.value == -1 and not node.lower and not node.upper


def called(node):
    """The name that a node calls, or none."""
    return node.func.id if isinstance(node, ast.Call) and isinstance(node.func, ast.Name) else None


def _is_walked(node):
    return isinstance(node, ast.GeneratorExp) or called(node) in WALKED


def _walks(outer, node):
    """Whether a node walks another that stands in it, at once and to its end, so that it may be a list."""
    if isinstance(outer, ast.comprehension):
        return outer.iter is node and not isinstance(node, ast.GeneratorExp)
    if isinstance(node, ast.GeneratorExp):
        return called(outer) in (*REDUCES, "sorted", "list") and len(outer.args) == 1
    if called(outer) == "reversed":
        return called(node) == "range"
    return called(outer) in (*REDUCES, "sorted", "list", "zip", "enumerate")


def returns(body):
    """Whether statements return on each way."""
    ends = (isinstance(line, ast.If) and returns(line.body) and returns(line.orelse) for line in body)
    return any(isinstance(line, ast.Return) for line in body) or any(ends)


def may_return(body):
    return any(isinstance(node, ast.Return) for line in body for node in ast.walk(line))


def assigned(body):
    """The names that statements assign, each once, in their order."""
    found = []
    for line in body:
        if isinstance(line, ast.If):
            found += assigned(line.body + line.orelse)
        elif isinstance(line, ast.Assign):
            found += [name.id for name in ast.walk(line.targets[0]) if isinstance(name, ast.Name)]
    return list(dict.fromkeys(found))


def free_names(*nodes):
    """The names that nodes read, those that their comprehensions bind among them."""
    return {name.id for node in nodes for name in ast.walk(node) if isinstance(name, ast.Name) and isinstance(name.ctx, ast.Load)}

"""Which expressions cannot fail, so that they may be computed where Python would not, or before what Python computes first."""

import ast

from flatten.kinds import List, Tuple, known
from flatten.language import called

NEVER = ("len", "list", "sorted", "zip", "enumerate", "reversed", "any", "all")


def cannot_fail(node, instance, made=()):
    """Whether an expression has a value in any case. Those in `made` have been computed."""
    if node in made:
        return True
    if isinstance(node, ast.BinOp):
        sure = _sum_cannot_fail(node, instance)
    elif isinstance(node, ast.UnaryOp):
        sure = isinstance(node.op, ast.Not) or instance.function.wraps
    elif isinstance(node, ast.Subscript):
        sure = isinstance(node.slice, ast.Slice) or not isinstance(known(instance.kinds[node.value]), List)
    elif isinstance(node, ast.Call):
        name = called(node)
        sure = name in NEVER or name == "sum" and instance.function.wraps or name in ("min", "max") and len(node.args) > 1
        sure = node not in instance.calls and (sure or name == "range" and len(node.args) == 1)
        return sure and all(cannot_fail(part, instance, made) for part in node.args)
    elif isinstance(node, ast.comprehension):
        sure = isinstance(node.target, ast.Name) or isinstance(known(instance.kinds[node.target]), Tuple)
        return sure and all(cannot_fail(part, instance, made) for part in (node.iter, *node.ifs))
    else:
        sure = True
    parts = (part for part in ast.iter_child_nodes(node) if isinstance(part, (ast.expr, ast.comprehension)))
    return sure and all(cannot_fail(part, instance, made) for part in parts)


def _sum_cannot_fail(node, instance):
    if isinstance(node.op, (ast.FloorDiv, ast.Mod)) and isinstance(node.right, ast.Constant):
        return node.right.value not in (0, -1)
    if isinstance(node.op, (ast.FloorDiv, ast.Mod)):
        return False
    return instance.function.wraps or isinstance(known(instance.kinds[node]), List)


def _always(node):
    """The nodes that are computed whenever this one is, itself among them."""
    yield node
    if isinstance(node, (ast.ListComp, ast.GeneratorExp)):
        parts = [node.generators[0].iter]
    elif isinstance(node, ast.IfExp):
        parts = [node.test]
    elif isinstance(node, ast.BoolOp):
        parts = node.values[:1]
    else:
        parts = [part for part in ast.iter_child_nodes(node) if isinstance(part, ast.expr)]
    for part in parts:
        yield from _always(part)


def side_by_side(node, instance):
    """The calls of one function in an expression that may be made together: nothing that Python computes between them can fail,
    so the first error is the same."""
    calls = [part for part in _always(node) if part in instance.calls]
    alike = len(calls) > 1 and len({instance.calls[call] for call in calls}) == 1
    arguments = (argument for call in calls for argument in call.args)
    if alike and all(cannot_fail(part, instance) for part in arguments) and cannot_fail(node, instance, calls):
        return calls
    return []

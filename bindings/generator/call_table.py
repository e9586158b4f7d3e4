"""The table of calls, read from the definitions that the library is proved against: each name, and the kinds of what the call takes
and gives, in the order of a script; and each operator with its number."""

import itertools
import pathlib
import re

TABLE = pathlib.Path("crates/call_table")

# The families of operators, with the definitions of their labels.
LABELS = {
    "IntBinary": "int_binary_label",
    "IntMonoid": "int_monoid_label",
    "BoolBinary": "bool_binary_label",
    "Comparison": "comparison_label",
    "Unary": "unary_label",
}

# The fields of a label, each with its place among what `label` is given.
FIELDS = {"letters": 1, "number": 2}


def _enums(text):
    """Each enum's variants, as their names with the types of their fields."""
    found = {}
    for name, body in re.findall(r"pub enum (\w+) \{(.*?)\n\}", text, re.S):
        body = re.sub(r"//.*", "", body)
        variants = re.findall(r"(\w+)(?:\(([^)]*)\))?\s*,", body)
        found[name] = [(variant, [field.strip() for field in fields.split(",") if field.strip()]) for variant, fields in variants]
    return found


def _values(enums, kind):
    """Each value of an enum, as a list of its variant and the values of its fields."""
    for variant, fields in enums[kind]:
        for arguments in itertools.product(*(list(_values(enums, field)) for field in fields)):
            yield [variant, *arguments]


def _tokens(text):
    return re.findall(r'"[^"]*"|∷|\+\+|\[\]|[()]|[\w.]+', text)


def _parsed(tokens, level=0):
    """An expression of applications, `∷` and `++`, both to the right."""
    if level < 2:
        mark = ("++", "∷")[level]
        left = _parsed(tokens, level + 1)
        if tokens and tokens[0] == mark:
            tokens.pop(0)
            return [mark, left, _parsed(tokens, level)]
        return left
    parts = []
    while tokens and tokens[0] not in (")", "∷", "++"):
        token = tokens.pop(0)
        if token == "(":
            parts.append(_parsed(tokens))
            tokens.pop(0)
        else:
            parts.append(token)
    return parts[0] if len(parts) == 1 else parts


class _Definitions:
    """Functions by equations, each a list of patterns and an expression. A row, which is a record, stays `row` of its fields."""

    def __init__(self, texts):
        self.equations = {}
        for line in itertools.chain(*(text.split("\n") for text in texts)):
            head = re.match(r"(\w+) (?!:)(.*?) = (.*)$", line)
            if head and not line.startswith(("--", " ")) and "record {" not in line:
                patterns = self._patterns(head.group(2))
                self.equations.setdefault(head.group(1), []).append((patterns, _parsed(_tokens(head.group(3)))))

    @staticmethod
    def _patterns(text):
        parsed = _parsed(_tokens(f"f {text}"))
        return parsed[1:]

    def value(self, expression, names):
        if isinstance(expression, str):
            return self._word(expression, names)
        if expression[0] in ("∷", "++"):
            left, right = (self.value(part, names) for part in expression[1:])
            return [left, *right] if expression[0] == "∷" else left + right
        head, *rest = expression
        arguments = [self.value(part, names) for part in rest]
        if head == "codes":
            return arguments[0]
        if head in self.equations:
            return self._applied(head, arguments)
        return [head, *arguments]

    def _word(self, word, names):
        if word in names:
            return names[word]
        if word.startswith('"'):
            return word.strip('"')
        if word == "[]":
            return []
        name, _, field = word.partition(".")
        if name in names and field in FIELDS:
            return names[name][FIELDS[field]]
        return [word.split(".")[-1]] if word[0].isupper() or "." in word else word

    def _applied(self, name, arguments):
        for patterns, expression in self.equations[name]:
            names = {}
            if len(patterns) == len(arguments) and all(map(lambda p, a: self._fits(p, a, names), patterns, arguments)):
                return self.value(expression, names)
        raise ValueError(f"no equation of {name} fits {arguments}")

    def _fits(self, pattern, value, names):
        if isinstance(pattern, str):
            last = pattern.split(".")[-1]
            if last[0].isupper():
                return value == [last]
            names[pattern] = value
            return True
        return (
            len(pattern) == len(value)
            and pattern[0] == value[0]
            and all(map(lambda p, v: self._fits(p, v, names), pattern[1:], value[1:]))
        )


def _table(top):
    """The enums of the table, and its definitions."""
    sources, specs = top / TABLE / "src", top / TABLE / "specs"
    enums = _enums((sources / "families.rt").read_text() + (sources / "operation.rt").read_text())
    return enums, _Definitions([(specs / name).read_text() for name in ("Letters.antt", "Calls.antt")])


def operators(top):
    """The operators of each family, in its order: the name of each, with its number."""
    enums, definitions = _table(top)
    found = {}
    for family, label in LABELS.items():
        labels = [definitions.value([label, "operator"], {"operator": operator}) for operator in _values(enums, family)]
        found[family] = {letters.upper(): int(number) for _, letters, number in labels}
    return found


def read(top):
    """Each call of the table: its name, the kinds that it takes, and those that it gives."""
    enums, definitions = _table(top)
    found = {}
    for operation in _values(enums, "Op"):
        _, name, operands, results = definitions.value(["row_of", "operation"], {"operation": operation})
        found[name] = ([kind for kind, in operands], [kind for kind, in results])
    return found

"""What a script writes, and where it stops, by a plain reading of its lines, its inputs and its calls."""

import re
from functools import cache

from calls import CALLS, GREATEST, LEAST, MOST_ELEMENTS, Fault, agree, cut

WORD = re.compile(r"[A-Za-z][A-Za-z0-9_]{0,31}")
NUMBER = re.compile(r"-?[0-9]+")
BLANKS = str.maketrans("\t\n\r", "   ")
MOST_NAMES = 4096
MOST_SCRIPT_BYTES = 1048576


def is_word(token):
    return WORD.fullmatch(token) is not None


def is_name(token):
    return is_word(token) and token not in ("write", "T", "F")


def is_number_token(token):
    return token[0] == "-" or token[0] in "0123456789"


@cache
def number_of(token):
    """The number of 32 bits that a token writes, if it does."""
    digits = token.removeprefix("-").lstrip("0") or "0"
    if not NUMBER.fullmatch(token) or len(digits) > 10:
        return None
    number = -int(digits) if token.startswith("-") else int(digits)
    return number if LEAST <= number <= GREATEST else None


# lines


def tokens_of(line):
    return re.findall("=|[^ \t=]+", line.split("#")[0])


def call_of(line):
    """The names that a line binds, its call and its arguments, or none where it is empty."""
    tokens = tokens_of(line)
    if not tokens:
        return None
    if tokens[0] == "write" and tokens[1:2] != ["="]:
        if not all(map(is_name, tokens[1:])):
            raise Fault(1)
        if len(tokens) not in (2, 3):
            raise Fault(3)
        return [], "write", tokens[1:]
    names = 1 if tokens[1:2] == ["="] else 2
    bound, rest = tokens[:names], tokens[names:]
    args = rest[2:]
    if not all(map(is_name, bound)) or len(set(bound)) < len(bound) or len(rest) < 2 or rest[0] != "=" or not is_word(rest[1]):
        raise Fault(1)
    if not all(is_name(arg) or arg in ("T", "F") or is_number_token(arg) for arg in args):
        raise Fault(1)
    call = rest[1]
    if call not in CALLS and call not in ("input", "nested"):
        raise Fault(2)
    takes = len(CALLS[call][0]) if call in CALLS else 1
    if len(args) != takes or len(bound) != (2 if call == "nested" else 1):
        raise Fault(3)
    if any(is_number_token(arg) and number_of(arg) is None for arg in args):
        raise Fault(6)
    return bound, call, args


# inputs


def words_of(text, alone=""):
    """The tokens between white space, of which those of these letters stand alone."""
    for letter in alone:
        text = text.replace(letter, f" {letter} ")
    return list(filter(None, text.translate(BLANKS).split(" ")))


def input_of(text):
    tokens = words_of(text)
    if len(tokens) > MOST_ELEMENTS:
        raise Fault(13)
    numbers = list(map(number_of, tokens))
    if None in numbers:
        raise Fault(15, numbers.index(None))
    return numbers


def nested_of(text):
    """The numbers of a nested input, and how many each inner list has."""
    tokens = words_of(text, "[]")
    brackets = tokens.count("[") + tokens.count("]")
    if len(tokens) - brackets > MOST_ELEMENTS or tokens.count("[") > MOST_ELEMENTS + 1:
        raise Fault(13)
    lists, depth = [], 0
    for place, token in enumerate(tokens):
        if token == "[" and (depth == 1 or depth == 0 and place == 0):
            depth += 1
            if depth == 2:
                lists.append([])
        elif token == "]" and depth > 0:
            depth -= 1
        elif depth == 2 and token != "[" and number_of(token) is not None:
            lists[-1].append(number_of(token))
        else:
            raise Fault(15, place)
    if depth > 0 or not tokens:
        raise Fault(15, len(tokens))
    return [x for one in lists for x in one], list(map(len, lists))


# texts


def text_of(value):
    if isinstance(value, list):
        return "[" + " ".join(map(text_of, value)) + "]"
    if isinstance(value, bool):
        return "T" if value else "F"
    return str(value)


# runs


def argument(names, arg, wanted):
    """The value of an argument, which must be of this kind."""
    if arg in ("T", "F"):
        kind, value = "t", arg == "T"
    elif is_number_token(arg):
        kind, value = "i", number_of(arg)
    elif arg in names:
        kind, value = names[arg]
    else:
        raise Fault(4)
    if kind not in wanted:
        raise Fault(5)
    return value


def written(names, args):
    """The line that a write shows."""
    values = [argument(names, arg, wanted) for arg, wanted in zip(args, ("zbdit" if len(args) == 1 else "zb", "d"))]
    if len(values) == 2:
        agree(len(values[0]), sum(values[1]))
        values[0] = cut(*values)
    return f"{args[0]} = {text_of(values[0])}\n"


def numbered(inputs, number):
    if not 1 <= number <= len(inputs):
        raise Fault(14)
    return inputs[number - 1]


def bindings(names, inputs, bound, call, args):
    """What a call binds to each of its names."""
    kinds = CALLS[call][0] if call in CALLS else "i"
    values = [argument(names, arg, kind) for arg, kind in zip(args, kinds)]
    if len(set(names) | set(bound)) > max(len(names), MOST_NAMES):
        raise Fault(16)
    if call == "input":
        return [("z", input_of(numbered(inputs, *values)))]
    if call == "nested":
        return list(zip("zd", nested_of(numbered(inputs, *values))))
    return [(CALLS[call][1], CALLS[call][2](*values))]


def run(script, inputs):
    """The text that a script writes, and the line of its stop."""
    if len(script) > MOST_SCRIPT_BYTES:
        return "", f"line 0: {Fault(17)}\n"
    names, text = {}, ""
    for number, line in enumerate(script.split("\n"), 1):
        try:
            called = call_of(line[:-1] if line.endswith("\r") else line)
            if called is None:
                continue
            bound, call, args = called
            if call == "write":
                text += written(names, args)
            else:
                names |= dict(zip(bound, bindings(names, inputs, bound, call, args)))
        except Fault as fault:
            return text, f"line {number}: {fault}\n"
    return text, ""

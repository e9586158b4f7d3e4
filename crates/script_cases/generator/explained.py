"""What explains the stop of a script, by a plain reading of its lines and values, and cases of it.

It shares nothing with the library: the values at the stop are those of `scripts`, and the words are put together here. Input N is
of the file `N.txt`.
"""

import itertools
import re

import rows
import scripts
from calls import CALLS, FAULTS, MOST_ELEMENTS, Fault
from cases import number_lines, refused, tiles

KIND_WORDS = {"z": "integers", "b": "booleans", "d": "a descriptor", "i": "an integer", "t": "a boolean"}
WHOLE_KINDS = {
    "z": "vector of integers",
    "b": "vector of booleans",
    "d": "descriptor",
    "i": "single integer",
    "t": "single boolean",
}

# the calls that read an input, which the rows of calls leave out, with what they take and give
READING = {"input": ("i", "z"), "nested": ("i", "zd")}


def counted(count, thing):
    return f"{count} {thing}{'' if count == 1 else 's'}"


def shown(text):
    """A text, each of whose letters is a byte, with control bytes and what is no UTF-8 as the escapes of a literal."""
    characters = text.encode("latin-1").decode("utf-8", "backslashreplace")
    return re.sub("[\0-\x1f\x7f]", lambda byte: f"\\x{ord(byte[0]):02x}", characters).encode("utf-8").decode("latin-1")


def shortened(text, most=40):
    """A text as it is shown; of a long one the whole characters that end within so many bytes."""
    if len(text) <= most:
        return shown(text)
    ends = itertools.accumulate(
        len(character.encode("utf-8", "surrogateescape"))
        for character in text.encode("latin-1").decode("utf-8", "surrogateescape")
    )
    return shown(text[: max((end for end in ends if end <= most), default=0)]) + ".."


def listed(kinds):
    words = [KIND_WORDS[kind] for kind in kinds]
    return words[0] if len(words) == 1 else ", ".join(words[:-1]) + " and " + words[-1]


def call_words(name):
    if name == "write":
        return "write takes a value, or a vector and its descriptor, and shows it"
    takes, gives = READING.get(name) or CALLS[name][:2]
    return f"{name} takes {listed(takes)}, and gives {listed(gives)}"


def distance(a, b):
    """How many bytes have to be inserted, deleted or changed, by Levenshtein's rows."""
    row = list(range(len(b) + 1))
    for i, x in enumerate(a, 1):
        before, row[0] = row[0], i
        for j, y in enumerate(b, 1):
            before, row[j] = row[j], min(row[j] + 1, row[j - 1] + 1, before + (x != y))
    return row[-1]


def near(word, known):
    """The first of the known words at the least distance, if that is 1 or 2."""
    return min((one for one in known if distance(word, one) <= 2), key=lambda one: distance(word, one), default=None)


# arguments


def held(names, arg):
    """The kind and the value of an argument, if it has them."""
    if arg in ("T", "F"):
        return "t", arg == "T"
    if scripts.is_number_token(arg):
        return "i", scripts.number_of(arg)
    return names.get(arg)


def word(arg):
    """An argument as it is told: a number without what it may leave out."""
    return str(scripts.number_of(arg)) if scripts.is_number_token(arg) else arg


def value_words(bound):
    if bound is None:
        return "not bound"
    kind, value = bound
    if kind in "zb":
        return f"{KIND_WORDS[kind]}, {counted(len(value), 'element')}"
    if kind == "d":
        return f"a descriptor, {counted(len(value), 'segment')}, {counted(sum(value), 'element')}"
    return f"the {KIND_WORDS[kind].split()[1]} {scripts.text_of(value)}"


def binding_words(binding, inputs):
    """What bound a name: its line, and the number of the input that the line has."""
    line, number = binding
    by = "" if number is None else f" by input {number} ({number}.txt)"
    return f", bound at line {line}{by}"


# what is at fault in a call: the place of each argument counts from 0


def pairs(name):
    """The lengths that a call compares: elements `e`, segments `s` and the total `t` of the argument at a place, in its order."""
    kinds, family, form = CALLS[name][0] if name in CALLS else "", name[3:6], name[:3]
    d = len(kinds) - 1
    if family in ("_se", "_re") or form == "cnt" or name == "pck_fov":
        return ["t1 e0"]
    if family == "_pu":
        return {"smp": ["e0 e1"], "bck": [], "sel": ["e0 e1", "e1 e2"], "def": ["e0 e1"]}[form]
    if family == "_pe":
        return {
            "smp": ["t2 e0", "t2 e1"],
            "sel": ["t3 e0", "t3 e1", "t3 e2"],
            "bck": ["t2 e0", "t3 e1", "s2 s3"],
            "def": ["t3 e0", "t3 e1", "t4 e2", "s3 s4"],
        }[form]
    if family == "_le" and form == "pck":
        return ["t2 e0", "t2 e1"]
    if form == "dis":
        return ["e0 s1"]
    if form == "ind":
        return ["e0 e1", "e0 s2"]
    if form in ("ext", "rep"):
        return [f"t{d} e0", *(f"s{d} e{k}" for k in range(1, d))]
    if name == "write":
        return ["t1 e0"]
    return [f"e0 e{k}" for k in range(1, len(kinds))]


def extent(values, args, one):
    place = int(one[1])
    value = values[place][1]
    amount = sum(value) if one[0] == "t" else len(value)
    thing = counted(amount, "segment" if one[0] == "s" else "element") + (" in all" if one[0] == "t" else "")
    return amount, f"{args[place]} has {thing}"


def mismatch(name, args, values):
    for pair in pairs(name):
        (one, first), (other, second) = (extent(values, args, x) for x in pair.split())
        if one != other:
            return f"{first}, and {second}: these must agree"
    raise AssertionError(name)


def segment_at(lengths, place):
    """The segment that has a place, and where it starts."""
    start = 0
    for segment, length in enumerate(lengths):
        if place < start + length:
            return segment, start
        start += length
    raise AssertionError(place)


def cut_of(name, values, place):
    """The segment of a fault and where it starts, in a call that goes by segments."""
    if name[3:6] == "_pe":
        return segment_at(values[{"smp": 2}.get(name[:3], 3)][1], place)
    if name == "tot_sez":
        return segment_at(values[1][1], place)
    if name == "tot_rez" or name[4:6] == "ve":
        return place, None
    return None, 0


def room(name, args, values, place):
    """What an index counts among: the elements of a vector or of a segment of it, or its true flags."""
    vector = {"sel": 2, "def": 2}.get(name[:3], 0) if name[3:5] == "_p" else 0
    segment, _ = cut_of(name, values, place)
    elements = values[vector][1]
    part = args[vector]
    if segment is not None:
        lengths = values[{"def": 4, "sel": 3, "rep": 3}.get(name[:3], 2)][1]
        start = sum(lengths[:segment])
        elements = elements[start : start + lengths[segment]]
        part = f"segment {segment} of {part}"
    if name[:3] == "sel" and name[3:5] == "_p":
        return f"{part} has {counted(elements.count(True), 'true flag')}"
    return f"{part} has {counted(len(elements), 'element')}"


def repeated(name, args, values, place):
    """The first place of the same segment that has the same index, where its flag is true if there are flags."""
    index = values[1][1]
    _, start = cut_of(name, values, place)
    for earlier in range(start, place):
        if index[earlier] == index[place] and (name[:3] != "sel" or values[2][1][earlier]):
            return f"{args[1]}[{earlier}]"
    raise AssertionError(name)


def number(name, args, values, at, place, what):
    """The number at fault, with its name, or what it is to the call if the line itself has it."""
    kind, value = values[at]
    if kind == "z":
        return f"{args[at]}[{place}] is {value[place]}"
    return f"{args[at] if scripts.is_word(args[at]) else what} is {value}"


def length_at(name):
    return {"dis": 1, "ind": 2, "mke": 0}[name[:3]]


def not_bound(names, name, arg):
    """What to say of an argument that is no bound name."""
    if arg in CALLS or arg in READING:
        return f"{arg} is a call, and {name} takes names of values and not calls: bind its result first"
    if not names:
        return f"{arg} is not bound, and no name is bound"
    close = near(arg, names)
    return f"{arg} is not bound" + ("" if close is None else f"; the nearest name is {close}")


def other_kind(name, args, kinds):
    """What to say of the first argument whose kind is not the one that the call takes."""
    if name == "write":
        at = 0 if kinds[0] not in "zb" else 1
        wanted, takes = None, ["vector", "descriptor"][at]
    else:
        takes_kinds = READING[name][0] if name in READING else CALLS[name][0]
        at = next(at for at, pair in enumerate(zip(kinds, takes_kinds)) if pair[0] != pair[1])
        wanted, takes = takes_kinds[at], WHOLE_KINDS[takes_kinds[at]]
    one, kind = word(args[at]), WHOLE_KINDS[kinds[at]]
    holds = f", {one}, holds a {kind}" if scripts.is_name(one) else f" is the {kind} {one}"
    repeated_by = {("i", "z"): "dis_vuz", ("t", "b"): "dis_vub"}.get((kinds[at], wanted))
    repeats = f"; `{repeated_by} {one} N` makes N copies" if repeated_by else ""
    return f"argument {at + 1}{holds}, and {name} takes a {takes}{repeats}"


def call_fault(names, inputs, name, args, fault):
    """What is wrong with the arguments of a call."""
    values = [held(names, arg) for arg in args]
    place = fault.place or 0
    if fault.number == 4:
        return not_bound(names, name, next(arg for arg, value in zip(args, values) if value is None))
    if fault.number == 5:
        return other_kind(name, args, [kind for kind, _ in values])
    if fault.number == 7:
        return mismatch(name, args, values)
    if fault.number == 8:
        return number(name, args, values, 1, place, "") + f", and {args[0]}[{place}] cannot be divided by it"
    if fault.number == 9:
        return number(name, args, values, 1, place, "") + ", and a shift is from 0 to 31"
    if fault.number == 10:
        return number(name, args, values, 1, place, "the index") + ", and " + room(name, args, values, place)
    if fault.number == 11:
        return number(name, args, values, 1, place, "") + ", which " + repeated(name, args, values, place) + " sent to before"
    if fault.number == 12:
        return number(name, args, values, length_at(name), place, "the length") + ", and a length is 0 or more"
    if fault.number == 13 and name == "mke_fov":
        return f"the lengths in {args[0]} add up to {sum(values[0][1])}, and a vector has at most {MOST_ELEMENTS} elements"
    if fault.number == 13:
        return (
            number(name, args, values, length_at(name), place, "the length")
            + f", and a vector has at most {MOST_ELEMENTS} elements"
        )
    if fault.number == 14:
        return (
            number(name, args, values, 0, place, "the input's number")
            + f", and the run has {counted(len(inputs), 'input')}; inputs count from 1"
        )
    if fault.number == 16:
        binds = 2 if name == "nested" else 1
        return f"the lines before bind {counted(len(names), 'name')}, and this line binds {binds}: at most {scripts.MOST_NAMES} may be bound"
    if fault.number == 18:
        segment, _ = cut_of(name, values, place)
        part = args[0] if segment is None else f"segment {segment} of {args[0]}"
        up_to = f" up to {args[0]}[{place - 1}]" if name[3:5] == "_s" else ""
        return f"the sum of {part}{up_to} does not fit 32 bits"
    raise AssertionError(fault)


# what is at fault in an input


def is_list_of_numbers(text):
    """Whether `input` reads a text."""
    words = text.split()
    return len(words) <= MOST_ELEMENTS and all(
        re.fullmatch(r"-?[0-9]+", word) and -(2**31) <= int(word) < 2**31 for word in words
    )


def input_fault(text, name, file, fault):
    """Where a token of an input stands that is none, and what may stand there."""
    file = shown(file)
    if fault.number == 13:
        return f"{file} has more than {MOST_ELEMENTS} numbers" + (" or inner lists" if name == "nested" else "")
    if name == "nested" and is_list_of_numbers(text):
        return f"{file} is a list of numbers, which input reads; nested reads a list of lists, as [[1 2] []]"
    parts = r"[\[\]]|[^\s\[\]]+" if name == "nested" else r"\S+"
    found = [(match.start(), match[0]) for match in re.finditer(parts, text, re.ASCII)]
    start, token = found[fault.place] if fault.place < len(found) else (len(text), None)
    before = text[:start]
    at = f"{file}:{before.count(chr(10)) + 1}:{len(before) - before.rfind(chr(10))}: "
    if name == "input":
        lists = "; nested reads lists of lists" if token.startswith("[") else ""
        return f'{at}"{shortened(token)}" is no integer from -2147483648 to 2147483647{lists}'
    open_lists = max(before.count("[") - before.count("]"), 0)
    expected = (
        '"["'
        if fault.place == 0
        else ["the end", '"[" or "]"', 'an integer from -2147483648 to 2147483647 or "]"'][min(open_lists, 2)]
    )
    return (
        f"{at}the text ends where {expected} is expected"
        if token is None
        else f'{at}"{shortened(token)}" stands where {expected} is expected'
    )


# stops


def explanation(script, inputs, call_names):
    """The lines that explain why a script stops, where it does."""
    if len(script) > scripts.MOST_SCRIPT_BYTES:
        return f"  the script has {len(script)} bytes, and may have at most {scripts.MOST_SCRIPT_BYTES}\n"
    names, bound_at = {}, {}
    for number, line in enumerate(script.split("\n"), 1):
        line = line[:-1] if line.endswith("\r") else line
        head = f"  {number} | {shortened(line, 200)}\n"
        try:
            called = scripts.call_of(line)
        except Fault as fault:
            return head + f"  {line_fault(line, fault, call_names)}\n"
        if called is None:
            continue
        bound, name, args = called
        try:
            if name == "write":
                scripts.written(names, args)
                continue
            given = dict(zip(bound, scripts.bindings(names, inputs, bound, name, args)))
        except Fault as fault:
            lines = [call_words(name)]
            for arg in dict.fromkeys(args):
                if scripts.is_name(arg):
                    lines.append(
                        f"{arg}: {value_words(names.get(arg))}" + (binding_words(bound_at[arg], inputs) if arg in names else "")
                    )
            if name in ("input", "nested") and fault.number in (13, 15):
                which = held(names, args[0])[1]
                lines.append(input_fault(inputs[which - 1], name, f"{which}.txt", fault))
            else:
                lines.append(call_fault(names, inputs, name, args, fault))
            return head + "".join(f"  {line}\n" for line in lines)
        # a name keeps its place among the names where it is bound again
        names |= given
        asked = scripts.number_of(args[0]) if name in ("input", "nested") and scripts.is_number_token(args[0]) else None
        bound_at |= {one: (number, asked) for one in bound}
    return ""


def no_call(word, args, call_names):
    """What to say of a word that stands in the place of a call and is none."""
    if word == "write":
        return "write is no call: it begins a line of its own, and binds no name"
    if not args and scripts.is_name(word):
        return f"{word} is no call; if it is a vector, `cpy_wuz {word}` copies its integers, and `cpy_wub {word}` its booleans"
    close = near(word, call_names)
    return f"{word} is no call; " + ("docs/user/calls.md lists all calls" if close is None else f"the nearest call is {close}")


# what may stand at a place of a line, with the tokens that may
PLACES = {
    "a name": scripts.is_name,
    "= or a name": lambda token: token == "=" or scripts.is_name(token),
    "=": lambda token: token == "=",
    "a call": scripts.is_word,
    "a name, a number, T or F": lambda token: scripts.is_name(token) or token in "TF" or scripts.is_number_token(token),
}


def why_not(wanted, token, begins):
    """Why a token may not stand where something else is wanted."""
    if "name" in wanted and token in ("write", "T", "F"):
        return "; write, T and F cannot be names"
    if "name" in wanted and re.fullmatch("[A-Za-z][A-Za-z0-9_]*", token):
        return f"; a name has at most 32 bytes, and this one has {len(token)}"
    if wanted == "a name" and begins and token.startswith("\xef\xbb\xbf"):
        return "; the line begins with a byte order mark, which has to go"
    if set(token) & set("(),") and wanted not in ("=", "= or a name"):
        return "; a line makes one call, without parentheses or commas"
    return "; a name is a letter, and then letters, digits and underscores" if wanted == "a name" else ""


def places_of(tokens):
    """What is wanted at each place of a line, as far as its tokens tell, and at the place behind them if the line may not end there."""
    if tokens[0] == "write" and tokens[1:2] != ["="]:
        return ["a name"] * len(tokens[1:])
    names = ["a name", "= or a name"] if tokens[1:2] == ["="] else ["a name", "= or a name", "="]
    return names + ["a call"] + ["a name, a number, T or F"] * len(tokens[len(names) + 1 :])


def bad_line(line, tokens, call_names):
    """Where a line has none of the forms of a line, and what it lacks."""
    if len(tokens) == 2 and all(map(scripts.is_name, tokens)):
        lacks = (
            "binds no name: a call stands behind a name and ="
            if tokens[0] in call_names
            else f"is no binding; `write {tokens[1]}` shows a value"
        )
        return f"`{' '.join(tokens)}` {lacks}"
    starts = [match.start() for match in re.finditer("=|[^ \t=]+", line.split("#")[0])]
    ends = starts[-1] + len(tokens[-1])
    wanted = places_of(tokens)
    skip = len(tokens) - len(wanted) if tokens[0] == "write" and tokens[1:2] != ["="] else 0
    for place, one in enumerate(wanted, skip):
        if place == len(tokens):
            return f"column {ends + 1}: expected {one}, but the line ends"
        token = tokens[place]
        if not PLACES[one](token):
            return f"column {starts[place] + 1}: expected {one}{why_not(one, token, starts[place] == 0)}"
        if place == 1 and token == tokens[0]:
            return f"column {starts[place] + 1}: expected another name than the first"
    raise AssertionError(line)


def line_fault(line, fault, call_names):
    """What is wrong with a line: with its form, its call, the number of its arguments or a number."""
    tokens = scripts.tokens_of(line)
    if fault.number == 1:
        return bad_line(line, tokens, call_names)
    at = tokens.index("=") + 1 if "=" in tokens else 0
    name, args = tokens[at] if at < len(tokens) else "", tokens[at + 1 :]
    if fault.number == 2:
        return no_call(name, args, call_names)
    if fault.number == 3:
        takes = 1 if name in READING else len(CALLS[name][0]) if name in CALLS else None
        head = f"{call_words(name)}\n  {name} "
        if name == "write":
            return head + f"takes 1 or 2 names, and the line has {len(args)}"
        if len(args) != takes:
            return head + f"takes {counted(takes, 'argument')}, and the line has {len(args)}"
        return head + f"binds {counted(2 if name == 'nested' else 1, 'name')}, and the line has {at - 1}"
    if fault.number == 6:
        token = next(arg for arg in args if scripts.is_number_token(arg) and scripts.number_of(arg) is None)
        return f"{shortened(token)} is no integer from -2147483648 to 2147483647"
    raise AssertionError(fault)


CALL_NAMES = [*CALLS, *READING]


def explained(name, settings, script, inputs):
    """A case of one run that stops, with what explains it."""
    text, stop = scripts.run(script, inputs)
    lines = [f"== case {name}\n", settings, *(f"== input\n{one}\n" for one in inputs), "== script\n", script]
    lines += ["== text\n", text] if text else []
    return "".join([*lines, "== stop\n", stop, "== explained\n", explanation(script, [one + "\n" for one in inputs], CALL_NAMES)])


def at_fault(rng, name):
    """Rows of a call that are at fault: an example of each fault that it may have."""
    kinds, found = CALLS[name][0], {}
    for _ in range(60):
        args = (
            rng.choice([rows.at_fault, rows.unequal])(rng, name)
            if sum(kind in "zbd" for kind in kinds) > 1
            else rows.at_fault(rng, name)
        )
        if any(arg == [] for arg in args):
            continue
        try:
            CALLS[name][2](*args)
        except Fault as fault:
            found.setdefault(fault.number, args)
        except (IndexError, ValueError):
            continue
    return found


def of_kinds(rng, name):
    """A script in which an argument of the call is of another kind than it takes, and one in which it is not bound."""
    kinds = CALLS[name][0]
    lines = "z = input 1\nb = boo_wuz z\nd = mke_fov z\ni = ext_vuz z 0\nt = ext_vub b 0\n"
    at = rng.randrange(len(kinds))
    wrong = rng.choice([kind for kind in "zbdit" if kind != kinds[at]])
    args = [*kinds]
    args[at] = wrong
    yield "an argument of another kind", f"{lines}r = {name} {' '.join(args)}\n"
    args[at] = rng.choice(["zz", "other", "b2", "Z"])
    yield "an argument that is not bound", f"{lines}r = {name} {' '.join(args)}\n"


# tokens of lines, good ones and others
TOKENS = """= = = a b x write T F 7 -1 +2 99999999999 my-vec 5x a, (a a) add_wuz(a, add_wuz mul_wuz add_ruz cpy_wuz nested input mke_fov print
    sort cumsum ad_wuz sub_suz Add_ruz plus_wuz""".split() + [
    "n" * 32,
    "n" * 33,
]


def is_unsure(line):
    """Whether several calls are equally near to the word in the place of a call: which comes first, no reading of the pages tells."""
    called = re.search("= *([A-Za-z0-9_]+)", line)
    apart = sorted(distance(called[1], name) for name in CALL_NAMES) if called else [0, 1]
    return apart[0] == apart[1] <= 2


def bad_lines(rng):
    """Lines of random tokens that are at fault by themselves, each after a vector is bound."""
    text, lines = "", set()
    while len(lines) < 80:
        line = " ".join(rng.choice(TOKENS) for _ in range(rng.randint(1, 5)))
        if rng.random() < 0.5:
            line = f"x = {line}"
        script = f"a = input 1\n{line}\n"
        _, stop = scripts.run(script, ["3 1 7"])
        if stop and line not in lines and not is_unsure(line):
            lines.add(line)
            text += explained(f"the line {line}", "", script, ["3 1 7"])
    return text


def cases(rng):
    """Each fault of each call on random arguments, explained, some on several tiles, and some where memory is refused; and of lines."""
    text = bad_lines(rng)
    for name in sorted(CALLS):
        for fault, args in sorted(at_fault(rng, name).items()):
            settings = tiles(("2", "3")) if fault != 7 else tiles(("1 4096", "1 3"))
            text += explained(f"{name}, {FAULTS[fault]}", settings, rows.script_of(name), rows.row(args))
        for what, script in of_kinds(rng, name):
            text += explained(f"{name}, {what}", refused(4) if name[:3] == "add" else "", script, [number_lines([1, 0, 2])])
    return text

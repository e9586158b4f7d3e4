"""Random scripts, and one that is cut after every byte."""

from calls import CALLS, GREATEST, LEAST
from cases import number_lines, refused, tiles, whole
from scripts import run

NAMES = ["a", "b", "c", "d", "e", "v", "w", "x_1", "Sum", "a" * 32]

# tokens that are wrong somewhere
ODD = ["=", "write", "T", "F", "007", "-0", "q", "a" * 33, "_a", "+2", "add_wuz", "xyz_wuz", "a.b", "input"]
ODD_NUMBERS = ["7x", "1a", "-", "--1", "2147483648", "-2147483649"]

COMMENTS = ["", "", "", "", " # a comment = with [ anything", "#"]


def argument(rng, bound, kind):
    """An argument, mostly one of this kind."""
    fitting = [name for name, its in bound.items() if its == kind]
    if kind in "it" and rng.random() < 0.5:
        return rng.choice(["T", "F"]) if kind == "t" else str(rng.choice([0, 1, 2, 3, -1, 5, rng.randint(LEAST, GREATEST)]))
    if fitting and rng.random() < 0.97:
        return rng.choice(fitting)
    return rng.choice([*bound, *NAMES, "3", "T"])


def line_of(rng, bound):
    """A line, with the names that it binds to values of kinds."""
    chance = rng.random()
    if chance < 0.2 and bound:
        vectors = [name for name, kind in bound.items() if kind in "zb"]
        cutting = [name for name, kind in bound.items() if kind == "d"]
        if vectors and cutting and rng.random() < 0.3:
            return f"write {rng.choice(vectors)} {rng.choice(cutting)}", {}
        return f"write {rng.choice(list(bound))}", {}
    if chance < 0.25:
        return rng.choice(["", "# nothing", " \t "]), {}
    if chance < 0.3 or not bound:
        first, second = rng.sample(NAMES, 2)
        return f"{first} {second} = nested 3", {first: "z", second: "d"}
    if chance < 0.4:
        name = rng.choice(NAMES)
        return f"{name} = input {rng.choice([1, 2, 1, 2, 4])}", {name: "z"}
    # calls of which a value is there for each argument
    known = set(bound.values()) | {"i", "t"}
    call = rng.choice([call for call, (kinds, _, _) in sorted(CALLS.items()) if set(kinds) <= known])
    name = rng.choice(NAMES)
    args = [argument(rng, bound, kind) for kind in CALLS[call][0]]
    return f"{name} = {call} {' '.join(args)}", {name: CALLS[call][1]}


def spoiled(rng, line):
    """The line with a token left out, added or changed."""
    tokens = line.split()
    place = rng.randint(0, len(tokens))
    return " ".join(
        [*tokens[:place], *rng.choice([[rng.choice(ODD)], [rng.choice(ODD_NUMBERS)], []]), *tokens[place + rng.randint(0, 1) :]]
    )


def script_of(rng, inputs):
    """A script whose lines have no fault, but for the last one, which may have one."""
    lines, bound = [], {}
    wanted = rng.randint(4, 24)
    for _ in range(200):
        line, binds = line_of(rng, bound)
        if not line.startswith("write"):
            line = line.replace(" ", rng.choice([" ", " ", "  ", "\t"]))
        line += rng.choice(COMMENTS)
        stop = run("\n".join([*lines, line]), inputs)[1]
        if not stop:
            lines.append(line)
            bound |= binds
        elif len(lines) > wanted // 2 and rng.random() < 0.2:
            return "\n".join([*lines, line, "write a", ""])
        if len(lines) >= wanted:
            break
    if rng.random() < 0.5:
        lines.append(spoiled(rng, rng.choice(lines)))
    return "\n".join(lines) + rng.choice(["\n", "\r\n", "\nwrite a\n"])


SEGMENTS = "l = input 1\nv = input 2\nd = mke_fov l\nwrite v d\ns = add_sez v d\nwrite s d\nr = add_rez v d\nwrite r\n"


# the tiles and workers of a script, whose vectors are short: in one length of tiles by several workers or by one, and otherwise
# in another, or by one thread
RUN_ON = [tiles(("1", "3"), ("4096", "1")), tiles(("2", "3"), ("1", "1")), tiles(("2", "1"), ("4096", "3"))]


def cases(rng):
    text = ""
    for number in range(300):
        count = rng.choice([3, 5, 8, 12])
        vectors = [[rng.randint(-4, 4) for _ in range(count)], rng.sample(range(count), count)]
        lists = [[rng.randint(0, 3) for _ in range(rng.randint(0, 3))] for _ in range(rng.randint(0, 5))]
        inputs = [*map(number_lines, vectors), "[" + " ".join(f"[{number_lines(one)}]" for one in lists) + "]"]
        # `rows.py` refuses memory to the workers of each call; here it is about the line that is named, and the text before it
        settings = RUN_ON[number % 4 - 1] if number % 4 else tiles(("1", "1" if number % 40 else "3")) + refused(4)
        text += whole(f"random script {number}", settings, script_of(rng, inputs), inputs)
    return text


def cut_script(rng):
    """A script that is cut after every byte."""
    inputs = ["0 2 0 3 0", "5 1 7 7 1"]
    return "".join(whole(f"a script cut after {end} bytes", "", SEGMENTS[:end], inputs) for end in range(len(SEGMENTS) + 1))

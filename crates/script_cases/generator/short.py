"""Every short vector, list and text of a kind, and short vectors in every cut into tiles."""

from itertools import product

from calls import BOOL_MONOIDS, COMPARE, GREATEST, INT2, INT_MONOIDS, LEAST, PARTIAL
from cases import alike, each, number_lines, refused, tiles, whole
from rows import EDGES


def cuts(rng, total, segments):
    """Lengths of so many segments with so many elements in all."""
    ends = sorted(rng.randint(0, total) for _ in range(segments - 1))
    return [end - start for start, end in zip([0, *ends], [*ends, total])]


def lists(letters, longest):
    return [list(one) for count in range(longest + 1) for one in product(letters, repeat=count)]


# permutes

DEFAULTS, TAKEN, OTHERS = "7 8 9", "50 60 70", "2 0 1"

SEND = "i = input {0}\nn = len_luz i\ns = ind_luz 10 10 n\n"
FLAGS = "w = input {0}\nf = boo_wuz w\n"
LENGTHS = "l = input {0}\nd = mke_fov l\n"
CUT_OTHERS = "m = input 1\ne = mke_fov m\nv = input 2\n"
GIVES = "r = {0}\nwrite r"

# a call, its script, its first inputs, and what its last ones are: an index, flags and lengths of three segments
PERMUTES = [
    ("smp_puz", SEND.format(1) + GIVES.format("smp_puz s i"), [], "i"),
    ("sel_puz", SEND.format(1) + FLAGS.format(2) + GIVES.format("sel_puz s i f"), [], "if"),
    ("def_puz", "v = input 1\n" + SEND.format(2) + GIVES.format("def_puz s i v"), [DEFAULTS], "i"),
    ("bck_puz", "v = input 1\ni = input 2\n" + GIVES.format("bck_puz v i"), [TAKEN], "i"),
    ("smp_pez", SEND.format(1) + LENGTHS.format(2) + GIVES.format("smp_pez s i d") + " d", [], "il"),
    ("sel_pez", SEND.format(1) + FLAGS.format(2) + LENGTHS.format(3) + GIVES.format("sel_pez s i f d"), [], "ifl"),
    (
        "def_pez",
        CUT_OTHERS + SEND.format(3) + LENGTHS.format(4) + GIVES.format("def_pez s i v d e") + " e",
        [OTHERS, DEFAULTS],
        "il",
    ),
    ("bck_pez", CUT_OTHERS + "i = input 3\n" + LENGTHS.format(4) + GIVES.format("bck_pez v i e d") + " d", [OTHERS, TAKEN], "il"),
]


# the tiles and workers of the lists of each part: in tiles of two lengths, and in one part by several workers
LISTED = [tiles(("1", "3"), ("3", "1")), tiles(("2 4", "1")), tiles(("1 3", "1")), tiles(("4", "3"), ("2", "1"))]


def permutes(rng):
    """Every list of up to four indices, those from -1 to 4, each in tiles of two lengths."""
    text = ""
    for name, script, inputs, last in PERMUTES:
        rows = [[] for _ in range(4)]
        for number, index in enumerate(lists(range(-1, 5), 4)):
            made = {"i": index, "f": [rng.random() < 0.7 for _ in index], "l": cuts(rng, len(index), 3)}
            # workers race for few of them, of each length
            part = 0 if number % 13 == 0 else 1 + number % 3
            rows[part].append([number_lines(made[kind]) for kind in last])
        for number, (settings, some) in enumerate(zip(LISTED, rows), 1):
            text += each(f"{name} of every short list, part {number}", settings, script + "\n", inputs, some)
    return text


# sums that never wrap, of the numbers about which they overflow, named by their places here

OVERFLOWING = [LEAST, -1, 0, 1, GREATEST]

NAMED = "e = input 1\ni = input 2\nv = bck_puz e i\n"


def every_cut(count):
    """The lengths of the segments of so many elements in each cut, empty segments apart."""
    for starts in product([False, True], repeat=max(count - 1, 0)):
        lengths = [1] if count else []
        for start in starts:
            lengths = [*lengths, 1] if start else [*lengths[:-1], lengths[-1] + 1]
        yield lengths


def with_empty(rng, lengths):
    """The lengths with one that is 0 somewhere."""
    place = rng.randint(0, len(lengths))
    return [*lengths[:place], 0, *lengths[place:]]


def cut_and_raced(name, script, rows):
    """The rows in each cut into tiles by one worker, and some of them raced for: so many that each kind of overflow is among them."""
    inputs = [number_lines(OVERFLOWING)]
    text = each(name, tiles(("1 2 3", "1")), script, inputs, rows)
    return text + each(f"{name}, by several workers", tiles(("1", "3"), ("2", "2")), script, inputs, rows[::7])


def checked(rng):
    text = ""
    vectors = lists(range(5), 4)
    for name in ("tot_suz", "tot_ruz"):
        rows = [[number_lines(v)] for v in vectors]
        text += cut_and_raced(f"{name} of every short vector", f"{NAMED}r = {name} v\nwrite r\n", rows)
    for name, by in (("tot_sez", " d"), ("tot_rez", "")):
        rows = []
        for number, v in enumerate(vectors):
            some = [lengths for k, lengths in enumerate(every_cut(len(v))) if len(v) < 4 or k % 4 == number % 4]
            rows += [[number_lines(v), number_lines(with_empty(rng, lengths))] for lengths in some]
        script = f"{NAMED}{LENGTHS.format(3)}r = {name} v d\nwrite r{by}\n"
        text += cut_and_raced(f"{name} of every short vector in segments", script, rows)
    return text


# short vectors in every cut into tiles

LONGEST = 40

NUMBERS = [
    3,
    -1,
    7,
    0,
    GREATEST,
    4,
    LEAST,
    9,
    2,
    -6,
    5,
    1500000000,
    1500000000,
    8,
    -3,
    6,
    -9,
    11,
    0,
    13,
    -2000000000,
    -2000000000,
    17,
    1,
    19,
    -4,
    21,
    22,
    -5,
    23,
    24,
    GREATEST,
    26,
    -7,
    27,
    28,
    12,
    -29,
    30,
    31,
]

SEGMENTS = [0, 2, 0, 0, 3, 1, 1, 5, 0, 8, 4, 0, 2, 6, 0, 1, 3, 0, 4, 0]


def first_segments(total):
    """The lengths of the first segments, the last one cut short, and empty ones after it."""
    lengths = []
    for length in SEGMENTS:
        lengths.append(min(length, total - sum(lengths)))
    return lengths


def in_tiles(rng):
    """Scans and reduces by each operator of the first elements, each number of them, flat and in segments."""
    text = ""
    # every cut for a sum, and for an operator whose identity is no zero; all operators are walked and joined alike
    for name, x, is_full in [(op, "z", op in ("add", "max")) for op in INT_MONOIDS] + [
        (op, "b", op == "xor") for op in BOOL_MONOIDS
    ]:
        settings = (
            tiles(("1 2 3 4 5 6 7 8", "1"), ("1", "3"), ("5", "2")) if is_full else tiles(("1", "2"), ("3", "3"), ("4", "1"))
        )
        settings += tiles(("2", "7")) if name == "add" else ""
        start = "a = input 1\n" + ("" if x == "z" else "a = boo_wuz a\n") + "o = input 2\n"
        flat = by_segments = start
        for count in range(LONGEST + 1):
            taken = f"i = ind_luz 0 1 {count}\nv = bck_pu{x} a i\n"
            flat += f"{taken}s = {name}_su{x} v\nwrite s\nr = {name}_ru{x} v\nwrite r\n"
            if count % 3 == 1 or is_full:
                by_segments += (
                    f"{taken}l = input {count + 3}\nd = mke_fov l\ns = {name}_se{x} v d\nwrite s\nr = {name}_re{x} v d\nwrite r\n"
                )
        inputs = [number_lines(NUMBERS if x == "z" else [k % 3 > 0 for k in range(LONGEST)]), ""]
        text += whole(f"{name}_su{x} and {name}_ru{x} of each length", settings, flat, inputs)
        inputs += [number_lines(first_segments(count)) for count in range(LONGEST + 1)]
        text += whole(f"{name}_se{x} and {name}_re{x} of each length", settings, by_segments, inputs)
    return text


def elementwise(rng):
    """Each operator on each two of the numbers at the edges."""
    text = ""
    pairs = list(product(EDGES, repeat=2))
    for name in [*INT2, *COMPARE]:
        rows = [[number_lines(xs) for xs in zip(*pairs)]]
        text += each(
            f"{name}_wuz of each two edges",
            tiles(("2", "3")),
            f"a = input 1\nb = input 2\nr = {name}_wuz a b\nwrite r\n",
            [],
            rows,
        )
    for name, (_, function) in PARTIAL.items():
        script = f"a = input 1\nb = input 2\nr = {name}_wuz a b\nwrite r\n"
        good = [pair for pair in product(EDGES, EDGES + list(range(32))) if function(*pair) is not None]
        rows = [[number_lines(xs) for xs in zip(*good)]]
        rows += [[str(x) for x in pair] for pair in pairs if function(*pair) is None]
        text += each(f"{name}_wuz of each two edges", tiles(("1 4096", "3")), script, [], rows)
    return text


def again(rng):
    """The least of several faults, and segmented scans, again and again, since each run may race another way."""
    script = "o = dis_vuz 1 1000\nz = input 1\nx = ext_vuz z 0\ny = ext_vuz z 1\no = rep_vuz o x 0\no = rep_vuz o y 0\nr = div_wuz o o\n"
    text = each("the least divisor of 0 every time", tiles(("16", "8")), script, [], [["3 900"]], 100)
    script = "i = ind_luz 0 1 1000\nz = input 1\nx = ext_vuz z 0\ny = ext_vuz z 1\ni = rep_vuz i x 2\ni = rep_vuz i y 1000\nr = smp_puz i i\n"
    text += each("the least bad index every time", tiles(("16", "8")), script, [], [["5 999"]], 100)
    script = (
        "l = input 1\nd = mke_fov l\nv = ind_luz 0 1 1000\nb = input 2\nb = dis_vez b d\ni = sub_wuz v b\n"
        "i = rep_vuz i 5 2\ni = rep_vuz i 999 1000\nr = smp_pez v i d\n"
    )
    text += each(
        "the least bad index of segments every time", tiles(("16", "8")), script, ["250 250 0 500"], [["0 250 500 500"]], 100
    )
    for name in ("add", "max"):
        script = f"l = input 1\nd = mke_fov l\nv = input 2\nr = {name}_sez v d\nwrite r d\n"
        # five elements are five tiles, three, two or one, for which no more workers race
        text += each(
            f"{name}_sez every time", tiles(("1", "2 3 64"), ("2", "3"), ("3 4", "2")), script, ["2 3"], [["1 2 3 4 5"]], 50
        )
        text += each(f"{name}_sez by one worker", tiles(("1 2 3 4", "1"), ("5", "64")), script, ["2 3"], [["1 2 3 4 5"]])
    return text


# texts


def token_texts(rng):
    """Every text of up to four bytes of digits, signs and white space."""
    rows = [["".join(one)] for one in lists("10-+ x", 4)]
    return each("inputs of every short text", "", "a = input 1\nwrite a\n", [], rows)


def close(tokens):
    """The tokens with a blank where two of them would be one otherwise."""
    text = ""
    for token in tokens:
        text += " " * (text[-1:] in ("1", "x") and token in "1x") + token
    return text


def nested_texts(rng):
    """Every text of up to seven tokens."""
    texts = lists("[]1x", 7)
    script = "v d = nested 1\nwrite v d\n"
    text = alike("nested inputs of every short text", "", script, list(map(close, texts)))
    return text + alike(
        "nested inputs of every short text with blanks", "", script, [" ".join(one) for one in texts if len(one) < 7]
    )


def nests(rng):
    """Random nests, which are written, read and written again."""
    numbers = [LEAST, LEAST + 1, -10, -1, 0, 9, GREATEST - 1, GREATEST]
    rows, again = [], []
    for _ in range(400):
        lists = [
            [rng.choice([rng.choice(numbers), rng.randint(LEAST, GREATEST)]) for _ in range(rng.randint(0, 7))]
            for _ in range(rng.randint(0, 7))
        ]
        rows.append([number_lines(map(len, lists)), number_lines(x for one in lists for x in one)])
        again.append(["[" + " ".join("[" + number_lines(one) + "]" for one in lists) + "]"])
    text = each("random nests that are written", "", "l = input 1\nv = input 2\nd = mke_fov l\nwrite v d\n", [], rows)
    text += each("random nests that are read and written again", "", "v d = nested 1\nwrite v d\n", [], again)
    text += each("the lengths of random nests that are read", "", "v d = nested 1\nwrite d\n", [], again[::4])
    script = "v d = nested 1\nwrite v d\nwrite d\n"
    return text + whole("a nested input where memory is refused", refused(5), script, ["[[1 2] [] [3]]"])

"""Long inputs that several threads read, and long texts that several threads write, in pieces that stand many times."""

from cases import differing, outcome, refused, tiles
from scripts import run, words_of

# from how many bytes on several threads read an input, and how many each of them has at least; the same of the elements of a
# text, of which the first is written before threads share the others
LEAST_READ, LEAST_READ_EACH = 131072, 32768
LEAST_WRITTEN, LEAST_WRITTEN_EACH = 32768, 16384

# how many elements a vector has at most whose text is made whole, and how many of a longer one are in a piece of its text
MOST_WHOLE, PIECE = 262144, 65536


def shares_of(count, least, each):
    """How many threads at most share so many bytes or elements."""
    return count // each if count >= least else 1


SHOWN = "a = input {0}\nn = len_luz a\nwrite n\ns = xor_ruz a\nwrite s\ni = ind_luz 0 997 {1}\nt = bck_puz a i\nwrite t\n"


def section(what, pieces):
    """A section whose content is pieces, each so many times."""
    text = ""
    for piece, times in pieces:
        if times and piece:
            text += f"== {what} times {times}\n{piece}\n"
            what = "more"
    return text or f"== {what}\n"


def content(pieces):
    return "".join(piece * times for piece, times in pieces)


# inputs


def filled(filling, length):
    """So many bytes: those of a filling, again and again."""
    return [(filling, length // len(filling)), (filling[: length % len(filling)], 1)]


def with_piece(filling, length, place, piece):
    """The same, with the bytes of a piece from a place on, as far as there are bytes."""
    piece = piece[: max(length - place, 0)]
    end = place + len(piece)
    before, _ = filled(filling, place)
    rest = filling[end % len(filling) :] if end % len(filling) else ""
    rest = rest[: length - end]
    return [before, (filling[: place % len(filling)] + piece + rest, 1), *filled(filling, length - end - len(rest))]


def one_input(name, settings, pieces):
    """A case of one long input."""
    text = content(pieces)
    assert text.count("\n== ") == 0
    count = len(words_of(text))
    script = SHOWN.format(1, (count + 996) // 997)
    head = f"== case {name}\n{settings}{section('input', pieces)}"
    shown = run(script, [text])
    # an input that is at fault needs no other line
    return f"{head}== script\n{script.split('n = ')[0] if shown[1] else script}{outcome(*shown)}"


PIECES = [
    " -12345678 ",
    "\t1\n-2\r3\t",
    " \t\n\r\t\n\r ",
    " 2147483647\n",
    " 2147483648\n",
    "\n-2147483648\t",
    "\t-2147483649 ",
    " 000000000000007",
    " -0 - 5 ",
    " 4 --5 ",
    " 3 +4 5 ",
    " 12-3 4 ",
    " 1x 2 ",
    " 1\x0b2 3\x0c ",
    " \x01 1 \xa0 2 ",
    " " * 16,
    "x",
    "-",
    "\r",
]

# tokens of one byte and of several, with a sign and without; most bytes are those of long ones, which are sooner read
FILLING = " 7 -12 340 0 1234567890 -987654321 2000000000 -1000000001"

RUNS = [(" 10", " 2 "), (" \t\r\n", " "), (" 10", " y "), (" \t\r\n", " - "), (" +", " 3 ")]

# what an input is filled with, what it begins with, and what it ends with: one token longer than a thread's share, and white space
WHOLE = [
    ("0", "", "7"),
    ("0", "-", "7"),
    ("0", "5 -", "7 6"),
    ("9", "5 ", " 6"),
    ("x", "", ""),
    (" ", "", ""),
    (" ", "4", "-6"),
    ("\r\n", "x", "y"),
]


def inputs(rng):
    text = ""
    # no multiple of 3, so that the runs of three threads are not equally long
    length = LEAST_READ + 3
    for number, piece in enumerate(PIECES):
        for at in (length // 3, length // 3 * 2):
            for place in range(at - 12, at + 3):
                text += one_input(f"piece {number} at {place}", tiles(("4096", "3")), with_piece(FILLING, length, place, piece))
        for place in (0, 1, LEAST_READ - 16, LEAST_READ - 1):
            text += one_input(
                f"piece {number} at {place} of an end", tiles(("4096", "4")), with_piece(FILLING, LEAST_READ, place, piece)
            )
    share = LEAST_READ // 3 + 1
    for first in range(5):
        for second in range(5):
            for third in range(5):
                runs = [with_piece(RUNS[k][0], share, share // 2, RUNS[k][1]) for k in (first, second, third)]
                text += one_input(
                    f"runs {first}, {second} and {third}", tiles(("4096", "3")), [piece for one in runs for piece in one]
                )
    for length in [most + more for most in (LEAST_READ, 5 * LEAST_READ_EACH) for more in (-1, 0, 1)]:
        shares = shares_of(length, LEAST_READ, LEAST_READ_EACH)
        for part in range(14):
            pieces = with_piece(FILLING, length, length // 12 * part, "x") if part < 13 else filled(FILLING, length)
            # as many threads as there are shares, and fewer, each number of them in turn
            workers = differing([part % shares + 1, 64], shares)
            text += one_input(f"{length} bytes with a wrong one in part {part}", tiles(("4096", workers)), pieces)
    for number, (filling, first, last) in enumerate(WHOLE):
        middle = LEAST_READ - len(first) - len(last)
        text += one_input(
            f"an input of one run, {number}", tiles(("4096", "3 4")), [(first, 1), *filled(filling, middle), (last, 1)]
        )
    for piece in ("", " x "):
        pieces = with_piece(FILLING, LEAST_READ + 2, LEAST_READ // 2, piece)
        text += one_input(f"a long input with '{piece}' where memory is refused", tiles(("4096", "4")) + refused(5), pieces)
    return text


# texts

# numbers of one byte to eleven, and how many there are, a prime, so that they stand otherwise in each thread's share
NUMBERS = [
    1,
    0,
    -2147483648,
    2147483647,
    -7,
    12,
    0,
    -345,
    6789,
    -12345,
    678901,
    -2345678,
    90123456,
    -789012345,
    0,
    9,
    -10,
    100,
    -1000,
    10000,
    0,
    -100000,
    1000000,
    -10000000,
    100000000,
    -1000000000,
    1,
    -1,
    0,
    99,
    -99,
    999,
    -9999,
    99999,
    0,
    7,
    1234567890,
]
FLAGS = ["T" if number else "F" for number in NUMBERS]


def elements(words, count, before, first="", between=" "):
    """The pieces of so many words, again and again the same, with `between` before each but the first, which has `first`."""
    words = list(map(str, words))
    period = between + between.join(words)
    if count <= len(words):
        return [(before + (first + between.join(words[:count]) if count else ""), 1)]
    rest = count % len(words)
    return [
        (before + first + period[len(between) :], 1),
        (period, count // len(words) - 1),
        (between + between.join(words[:rest]) if rest else "", 1),
    ]


def again(count, numbers):
    """Input 1, and lines that make `v` of it: so many numbers, again and again the same. A permute is sooner made than they are read."""
    if count <= len(numbers):
        return section("input", elements(numbers, count, "")) + "== script\nv = input 1\n"
    lines = f"w = input 1\ni = ind_luz 0 1 {count}\nk = dis_vuz {len(numbers)} {count}\ni = mod_wuz i k\nv = bck_puz w i\n"
    return section("input", elements(numbers, len(numbers), "")) + "== script\n" + lines


def vectors(name, workers, lines, words, count, numbers=NUMBERS):
    """A case whose last line writes so many words, which `lines` makes of `v`."""
    return f"== case {name}\n{tiles(('4096', workers))}{again(count, numbers)}{lines}" + section(
        "text", [*elements(words, count, "v = ["), ("]\n", 1)]
    )


# the lengths of segments, with how often they follow, of some nests
EACH = LEAST_WRITTEN_EACH
SHAPES = [
    [([0], 1)],
    [([3], 1), ([2, 0, 1], 10)],
    # segments of one element, and of none
    *([([3], 1), ([1] * 37, LEAST_WRITTEN // 37), ([1] * (LEAST_WRITTEN % 37 + more), 1)] for more in (-1, 0, 1)),
    *([([0], LEAST_WRITTEN + more)] for more in (0, 1, 2)),
    [([1], 1), ([0, 0, 0, 5], LEAST_WRITTEN // 4)],
    [([1000], 50)],
    # as long as a thread's share, and longer
    [([4], 1), ([EACH], 3)],
    [([4], 1), ([EACH - 1, EACH, EACH + 1], 1)],
    [([4], 1), ([EACH - 1, EACH, EACH], 1)],
    [([4], 1), ([2 * EACH], 1)],
    [([4], 1), ([2 * EACH + 1, 0, 3], 1)],
    # a first segment for several threads
    [([2 * EACH + 1], 1)],
    [([2 * EACH + 1], 1), ([2], LEAST_WRITTEN // 2)],
    [([2 * EACH + 1], 1), ([2 * EACH, 2 * EACH + 1], 1)],
    # enough for 64 threads
    [([0], 1), ([1] * 37, 64 * EACH // 37), ([1] * (64 * EACH % 37 + 1), 1)],
]


def short_segments(words, lengths):
    """The segments of these lengths, each with a space before it. Each part of a shape has the words from the first one on."""
    taken = iter(list(map(str, words)) * (sum(lengths) // len(words) + 1))
    return "".join(" [" + " ".join(next(taken) for _ in range(length)) + "]" for length in lengths)


def shape_pieces(words, shape):
    """The pieces of the text of a nest, and those of its numbers as an input."""
    shown, numbers = [], []
    for lengths, times in shape:
        if sum(lengths) <= 50:
            shown.append((short_segments(words, lengths), times))
            numbers.append((" " + " ".join(map(str, (NUMBERS * 2)[: sum(lengths)])), times))
            continue
        for length in lengths * times:
            shown += [*elements(words, length, " ["), ("]", 1)]
            numbers += elements(NUMBERS, length, " ")
    return shown, numbers


def numbers_of_workers(count):
    """Numbers of workers who share the text of so many elements or segments; the most alone where there is a share for each."""
    shares = shares_of(count, LEAST_WRITTEN, LEAST_WRITTEN_EACH)
    return differing([1, 2, 3, 64] if shares < 64 else [64], shares)


def nests(number, shape):
    text = ""
    for words, lines in ((NUMBERS, "v = input 2\n"), (FLAGS, "v = input 2\nv = boo_wuz v\n")):
        shown, numbers = shape_pieces(words, shape)
        lengths = [(" " + " ".join(map(str, some)), times) for some, times in shape]
        # the first segment has no space before it
        first, times = shown[0]
        shown = [("v = [" + first[1:], 1), (first, times - 1), *shown[1:], ("]\n", 1)]
        count = max(sum(measure(some) * times for some, times in shape) for measure in (sum, len))
        workers = numbers_of_workers(count)
        text += (
            f"== case nest {number} of {'numbers' if words is NUMBERS else 'flags'}\n{tiles(('4096', workers))}"
            f"{section('input', lengths)}{section('input', numbers)}== script\nl = input 1\nd = mke_fov l\n{lines}write v d\n{section('text', shown)}"
        )
    return text


def texts(rng):
    text = ""
    counts = [0, 1, 2, 1024, 1025, 1026, *(share + more for share in (LEAST_WRITTEN, 3 * EACH, 64 * EACH) for more in (0, 1, 2))]
    for count in counts:
        workers = numbers_of_workers(count)
        text += vectors(f"{count} numbers", workers, "write v\n", NUMBERS, count)
        text += vectors(f"{count} flags", workers, "v = boo_wuz v\nwrite v\n", FLAGS, count)
    for count in counts[6:9]:
        lengths = range(100)
        text += vectors(f"{count} lengths", "1 3", "v = mke_fov v\nwrite v\n", lengths, count, lengths)
    # the most whose text is made whole; behind the first element whole pieces and an element more, by one worker and by three
    for count in (MOST_WHOLE, *(1 + pieces * PIECE + more for pieces in (4, 6) for more in (0, 1))):
        for kind, lines, words, numbers in (
            ("numbers", "", NUMBERS, NUMBERS),
            ("flags", "v = boo_wuz v\n", FLAGS, NUMBERS),
            ("lengths", "v = mke_fov v\n", range(11), range(11)),
        ):
            text += vectors(f"{count} {kind}", "1 3", f"{lines}write v\n", words, count, numbers)
    for number, shape in enumerate(SHAPES):
        text += nests(number, shape)
    for name, lines in (("", "write v\n"), (" in segments", "l = dis_vuz 1 32770\nd = mke_fov l\nwrite v d\n")):
        count, words = LEAST_WRITTEN + 2, NUMBERS if not name else [f"[{number}]" for number in NUMBERS]
        settings = tiles(("4096", "3")) + refused(6)
        text += (
            f"== case a long text{name} where memory is refused\n{settings}{section('input', elements(NUMBERS, count, ''))}"
            f"== script\nv = input 1\n{lines}" + section("text", [*elements(words, count, "v = ["), ("]\n", 1)])
        )
    # five for the inputs' list, the input, the session's list, the vector and its name; one at least for each other line that makes
    # one; and five for the write: its beginning, the list of its pieces, and three pieces
    text += (
        f"== case a text in pieces where memory is refused\n{tiles(('4096', '3')) + refused(14)}{again(MOST_WHOLE + 2, NUMBERS)}write v\n"
        + section("text", [*elements(NUMBERS, MOST_WHOLE + 2, "v = ["), ("]\n", 1)])
    )
    return text

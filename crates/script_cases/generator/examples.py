"""Scripts of docs/user/examples.md on random inputs, with what plain loops give."""

from calls import GREATEST, LEAST
from cases import number_lines, tiles
from scripts import text_of

# in tiles, and by one thread at once; `examples.cases` has each script on several workers
SETTINGS = tiles(("2", "1"), ("4096", "3"))


def case(name, file, write, rows):
    """A case of an example's file of which one line writes: each row is its inputs and the value."""
    head = f"== case {name}\n{SETTINGS}== script examples/{file}.cvl\n== each\n"
    return head + "".join(f"{'|'.join(map(number_lines, inputs))} -> {write} = {text_of(value)}\n" for inputs, value in rows)


# lines of sight


def seen(altitudes):
    """Which points are seen from the first: those with a slope above all slopes before, compared by products of whole numbers."""
    flags, rise, distance = [], None, None
    for i, altitude in enumerate(altitudes):
        here = altitude - altitudes[0]
        flags.append(i == 0 or rise is None or here * distance > rise * i)
        if i > 0 and flags[-1]:
            rise, distance = here, i
    return flags


def fitting(number):
    return max(LEAST, min(GREATEST, number))


def terrain(rng):
    """A few altitudes: any, near 0, at the edges, or on a slope that is straight but for a little."""
    count = rng.randint(0, 12)
    first = rng.choice([LEAST, GREATEST, 0, rng.randint(LEAST, GREATEST)])
    slope = rng.choice([1, -1]) * rng.randint(0, rng.choice([3, 1000, 2**32])) / rng.randint(1, 12)
    kind = rng.choice(
        [
            lambda i: rng.randint(LEAST, GREATEST),
            lambda i: rng.randint(-3, 3),
            lambda i: rng.choice([LEAST, LEAST + 1, -1, 0, 1, GREATEST - 1, GREATEST]),
            lambda i: fitting(first + int(slope * i) + rng.randint(0, 1)),
        ]
    )
    return [kind(i) for i in range(count)]


# histograms and branches


def keys_of(rng, most):
    return [rng.randint(0, most) for _ in range(rng.randint(0, 12))]


def by_bins(rng):
    keys, bins = keys_of(rng, 9), rng.randint(0, 8)
    return [keys, [bins]], [keys.count(bin) for bin in range(bins)]


def divided(rng):
    count = rng.randint(0, 8)
    a, b = ([rng.randint(0, most) for _ in range(count)] for most in (99, 3))
    return [a, b], [x // y if y else -1 for x, y in zip(a, b)]


def cases(rng):
    terrains = [terrain(rng) for _ in range(300)]
    return (
        case("lines of sight", "terrain", "v", [([one], seen(one)) for one in terrains])
        + case("histograms by bins", "histogram_by_bins", "counts", [by_bins(rng) for _ in range(60)])
        + case("quotients where there is a divisor", "branch", "r", [divided(rng) for _ in range(60)])
    )

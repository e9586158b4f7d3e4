"""The table, the sentences and the plot of what a number of workers and a length of tiles cost."""

import functools
import math
import re

import measurements
from measurements import marked, table

# what `cvl` takes unless you say otherwise
WORKERS, TILE = 4, 4_096

# the numbers of workers of the table; the plot has all
SHOWN = (1, 2, 4, 8, 64)

# a case's name without its length, and its label
LABELS = {
    "scan of sums": "add scan",
    "sum": "add reduce",
    "checked scan of sums": "checked add scan",
    "checked sum": "checked add reduce",
    "scan of sums by segments": "add scan, segments of 1,000",
    "sums by segments": "add reduce, segments of 1,000",
    "simple": "simple permute, at random",
    "back": "back permute, at random",
    "pack": "pack, half kept",
}
# dashes of three lines each, whose marks differ
DASHES = ("", "7 3", "2 3")
COLOURS = ("#1f5fa8", "#c0392b", "#2e7d32", "#8e44ad", "#b7791f", "#00838f", "#6d4c41", "#ad1457", "#455a64")


@functools.cache
def read_times():
    """Nanoseconds by label, workers and tile."""
    times = {}
    for case, found in measurements.of("workers").items():
        name, workers, tile = re.fullmatch(r"([^,]+), .*, workers ([0-9]+), tiles of ([0-9]+)", case).groups()
        times[LABELS[name], int(workers), int(tile)] = found["time"]
    return times


def labels_of(times):
    return [label for label in LABELS.values() if (label, WORKERS, TILE) in times]


def choices_of(times, place):
    """The numbers of workers (place 1) or the lengths of tiles (place 2) that were measured."""
    return sorted({key[place] for key in times})


def milliseconds(nanoseconds):
    return marked(f"{nanoseconds / 1e6:.2f}", nanoseconds)


def by_workers():
    times = read_times()
    counts = [count for count in choices_of(times, 1) if count in SHOWN]
    heads = ["4,194,304 elements, tiles of 4,096, in milliseconds by so many workers", *map(str, counts)]
    return table(heads, [[label, *(milliseconds(times[label, count, TILE]) for count in counts)] for label in labels_of(times)])


def said(some, others):
    """How long all calls take with one choice, as a share of another, from the least to the greatest."""
    times = read_times()
    shares = [times[(label, *some)] / times[(label, *others)] for label in labels_of(times)]
    return f"{min(shares):.2g} to {max(shares):.2g}"


def choices_said():
    usual = (WORKERS, TILE)
    return (
        f"- **Workers:** give as many as the machine has processors. Four workers take {said(usual, (2, TILE))} of the time of two, eight "
        f"{said((8, TILE), usual)} of that of four, and 64 take {said((64, TILE), usual)} of it.\n"
        f"- **Tiles:** leave them as they are. Tiles of 1,024 elements take {said((WORKERS, 1_024), usual)} of the time of those of 4,096, and tiles of "
        f"65,536 take {said((WORKERS, 65_536), usual)} of it. Tiles of 256 take {said((WORKERS, 256), usual)}: workers then meet at the board all the time, "
        "and permutes race place by place.\n"
    )


def mark(number, x, y):
    """A circle, a square or a triangle about a point of the line of this number; they and the dashes tell lines apart without colour."""
    colour = COLOURS[number]
    return (
        f'<circle cx="{x:.1f}" cy="{y:.1f}" r="3.6" fill="{colour}"/>',
        f'<rect x="{x - 3.3:.1f}" y="{y - 3.3:.1f}" width="6.6" height="6.6" fill="{colour}"/>',
        f'<path d="M{x:.1f} {y - 4.2:.1f}l4.4 7.6h-8.8z" fill="{colour}"/>',
    )[number % 3]


def stroke(number):
    dashes = DASHES[number // 3]
    return f'stroke="{COLOURS[number]}" stroke-width="1.8"' + (f' stroke-dasharray="{dashes}"' if dashes else "")


def panel(times, title, choices, key, left):
    """One plot: a line a call, its time over that of the default, against the choices. A line that leaves the plot goes to its edge,
    where an arrow has the value; values that stand at one edge are below one another."""
    width, height, top, low, high = 330, 300, 70, -1.5, 2.5
    outside = {}

    def across(choice):
        return left + choices.index(choice) * width / (len(choices) - 1)

    def down(share):
        return top + (high - min(max(math.log2(share), low), high)) * height / (high - low)

    def pointed(number, choice, share):
        """The arrow of a value above the plot or below it."""
        x, y, up = across(choice), down(share), math.log2(share) > high
        row = outside.setdefault((choice, up), [])
        row.append(number)
        to, step = (y - 9, 14) if up else (y + 9, -14)
        at = y + (len(row) - 1) * step
        yield f'<path d="M{x:.1f} {to:.1f}l4 {6 if up else -6}h-8z" fill="#222222"/>'
        yield f'<rect x="{x + 8:.1f}" y="{at - 11:.1f}" width="32" height="14" fill="#ffffff"/>{mark(number, x + 14, at - 4)}'
        yield f'<text x="{x + 21:.1f}" y="{at:.1f}" font-size="11">{share:.2g}</text>'

    yield f'<text x="{left}" y="{top - 12}">{title}</text>'
    for power in (-1, 0, 1, 2):
        y = down(2**power)
        yield f'<line x1="{left}" y1="{y:.1f}" x2="{left + width}" y2="{y:.1f}" stroke="{"#222222" if power == 0 else "#dddddd"}"/>'
        yield f'<text x="{left - 8}" y="{y + 4:.1f}" text-anchor="end">{"1/2" if power < 0 else 2**power}</text>'
    for choice in choices:
        yield f'<text x="{across(choice):.1f}" y="{top + height + 18}" text-anchor="middle">{choice:,}</text>'
    beside = []
    for number, label in enumerate(labels_of(times)):
        usual = times[label, WORKERS, TILE]
        shares = {choice: times[(label, *key(choice))] / usual for choice in choices}
        points = " ".join(f"{across(choice):.1f},{down(share):.1f}" for choice, share in shares.items())
        yield f'<polyline points="{points}" fill="none" {stroke(number)}/>'
        for choice, share in shares.items():
            if low <= math.log2(share) <= high:
                yield mark(number, across(choice), down(share))
            else:
                beside += pointed(number, choice, share)
    yield from beside


def plot():
    times = read_times()
    labels = labels_of(times)
    height = 410 + 20 * math.ceil(len(labels) / 3)
    yield (
        f'<svg xmlns="http://www.w3.org/2000/svg" width="820" height="{height}" viewBox="0 0 820 {height}" font-family="sans-serif" '
        'font-size="13" role="img">'
    )
    yield "<title>Time of a call with other numbers of workers and other lengths of tiles, over its time with the defaults</title>"
    yield (
        "<desc>Two plots with a line for each call, on a logarithmic scale. On the left the number of workers changes, on the right the "
        "length of tiles. At 1 a call takes as long as with 4 workers and tiles of 4,096 elements. An arrow with a value stands where a line leaves the "
        "plot. docs/dev/performance/measured.txt has the numbers.</desc>"
    )
    yield '<rect width="100%" height="100%" fill="#ffffff"/>'
    yield '<text x="10" y="24" font-size="15">Time over that with the defaults, 4 workers and tiles of 4,096 elements (below 1 is faster)</text>'
    yield from panel(times, "workers, in tiles of 4,096", choices_of(times, 1), lambda count: (count, TILE), 50)
    yield from panel(times, "elements of a tile, 4 workers", choices_of(times, 2), lambda tile: (WORKERS, tile), 450)
    for number, label in enumerate(labels):
        x, y = 50 + number % 3 * 250, 418 + number // 3 * 20
        yield f'<line x1="{x}" y1="{y - 4}" x2="{x + 30}" y2="{y - 4}" {stroke(number)}/>{mark(number, x + 15, y - 4)}'
        yield f'<text x="{x + 36}" y="{y}">{label}</text>'
    yield "</svg>"


TABLES = {"choices": choices_said, "by_workers": by_workers}

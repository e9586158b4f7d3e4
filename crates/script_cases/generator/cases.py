"""The text of cases, each with what a plain reading makes of it.

A case names the tiles and workers by which its calls go different ways, and one pair of them where all go the same way:

- In tiles of fewer than 1,024 elements workers race for the tiles of a scan, a reduce, a pack, a permute, a division and a shift,
  and no more of them than there are tiles. So each length of tiles counts, and each number of workers up to that of the tiles.
- In longer tiles one thread makes these calls, whatever the tiles and the workers, up to 262,143 elements.
- No other call goes by the tiles. Threads share one, an input or a text only from the lengths on that `long.py` and
  `long_calls.py` are about, and then as many as the workers are, but no more than it has shares.

Starting a thread takes longer than a call on a short vector: the thread that calls has taken all tiles before another one has
begun. So most short vectors are cut into tiles for one worker, and some for several. `crates/test_runs` holds workers at each
tile, so that they do race.
"""

import scripts


def number_lines(values):
    """The text of a vector as an input."""
    return " ".join(str(int(x)) for x in values)


def tiles(*pairs):
    """Headings of lengths of tiles with numbers of workers, each as `1 2 3` and `1 5`."""
    return "".join(f"== tile {lengths} workers {workers}\n" for lengths, workers in pairs)


def differing(workers, shares):
    """Those of the numbers of workers, the last of which is the greatest, by which different numbers of threads take so many shares."""
    return " ".join(map(str, {min(some, shares): some for some in workers}.values()))


def refused(requests):
    return f"== refused {requests}\n"


def row_of(script, inputs, row):
    """A row with what comes of it, which is one line."""
    text, stop = scripts.run(script, [*inputs, *row])
    shown = text + stop
    assert shown.count("\n") == 1, (script, row, shown)
    return f"{'|'.join(row)} -> {shown}"


def each(name, settings, script, inputs, rows, times=1):
    """A case of these inputs, of which each row, the texts of its last inputs, is a run; all rows so many times."""
    lines = [f"== case {name}\n", settings]
    lines += [f"== input\n{one}\n" for one in inputs]
    lines += ["== script\n", script, "== each\n" if times == 1 else f"== each times {times}\n"]
    lines += [row_of(script, inputs, row) for row in rows]
    if times > 1:
        lines.append("\n")
    return "".join(lines)


def outcome(text, stop):
    return ("== text\n" + text if text else "") + ("== stop\n" + stop if stop else "")


def whole(name, settings, script, inputs):
    """A case that is one run. The script may end without a line feed."""
    head = f"== case {name}\n{settings}" + "".join(f"== input\n{one}\n" for one in inputs)
    head += "== script\n" + script if script.endswith("\n") else f"== script times 1\n{script}\n"
    return head + outcome(*scripts.run(script, inputs))


def alike(name, settings, script, rows):
    """Cases of the rows that come out alike, each the text of the last input of its run."""
    groups = {}
    for row in rows:
        groups.setdefault(scripts.run(script, [row]), []).append(row)
    return "".join(
        f"== case {name}, {number} of {len(groups)}\n{settings}== script\n{script}{outcome(*shown)}== each\n"
        + "".join(row + "\n" for row in group)
        for number, (shown, group) in enumerate(sorted(groups.items()), 1)
    )

"""Random arguments of each call, good ones and some that are at fault, with rows for them."""

import calls
from calls import CALLS, GREATEST, LEAST, Fault, cut
from cases import each, number_lines, refused, tiles

EDGES = [LEAST, LEAST + 1, -65536, -33, -32, -2, -1, 0, 1, 2, 31, 32, 65535, GREATEST - 1, GREATEST]

# the calls by what their arguments have to do with one another
PARTIAL = tuple(f"{name}_wuz" for name in calls.PARTIAL)
A_SEGMENT = ("ext_vez", "ext_veb", "rep_vez", "rep_veb")
BY_COUNT = ("dis_vez", "dis_veb", "ind_lez")
ONE_ELEMENT = ("ext_vuz", "ext_vub", "rep_vuz", "rep_vub")


def length(rng):
    return rng.choice([rng.randint(0, 3), rng.randint(4, 12), rng.randint(4, 12), rng.randint(0, 40)])


def integer(rng, mode):
    if mode == "small":
        return rng.randint(-3, 3)
    return rng.choice(EDGES) if mode == "edges" else rng.randint(LEAST, GREATEST)


def vector(rng, kind, count):
    mode = rng.choice(["small", "small", "edges", "any"])
    return [rng.random() < 0.5 if kind == "b" else integer(rng, mode) for _ in range(count)]


def lengths(rng, total):
    """The lengths of segments with so many elements in all, some of them empty."""
    ends = sorted(rng.randint(0, total) for _ in range(rng.randint(0, 6)))
    if total and not ends:
        ends = [total]
    return [end - start for start, end in zip([0, *ends], [*ends[:-1], total])] if ends else []


def places(rng, room, count):
    """Different places of a room, in any order."""
    return rng.sample(range(room), count)


def chosen(rng, flags, room):
    """A place of the room for each flag that is true, all different, and any number for the others."""
    free = iter(places(rng, room, flags.count(True)))
    return [next(free) if flag else rng.randint(-9, 99) for flag in flags]


def moved(rng, name):
    """Good arguments of a permute. A flat one is of one segment."""
    kind, form, is_flat = name[-1], name[:3], name[5] == "u"
    count = length(rng)
    d = [count] if is_flat else lengths(rng, count)
    flags = vector(rng, "b", count) if form == "sel" else [True] * count
    if form == "smp":
        e = d
    elif form == "sel":
        e = [segment.count(True) for segment in cut(flags, d)]
    else:
        e = [x + rng.randint(0, 3) for x in d]
    if form == "bck":
        source = vector(rng, kind, sum(e))
        index = [rng.randrange(room) for x, room in zip(d, e) for _ in range(x) if room]
        d = [x if room else 0 for x, room in zip(d, e)]
        return [source, index] if is_flat else [source, index, e, d]
    index = [i for part, room in zip(cut(flags, d), e) for i in chosen(rng, part, room)]
    args = [vector(rng, kind, count), index]
    args += [flags] if form == "sel" else [vector(rng, kind, sum(e))] if form == "def" else []
    return args if is_flat else [*args, d, e] if form == "def" else [*args, d]


def good(rng, name):
    """Arguments of a call that are not at fault."""
    kinds = CALLS[name][0]
    if "_p" in name:
        return moved(rng, name)
    count = length(rng)
    if name in ("ind_luz", "dis_vuz", "dis_vub"):
        first = [integer(rng, "edges") for _ in kinds[:-1]] if name != "dis_vub" else [rng.random() < 0.5]
        return [*first, count]
    if name in ONE_ELEMENT:
        last = vector(rng, "b" if name[-1] == "b" else "z", 1) if name[:3] == "rep" else []
        return [vector(rng, kinds[0], count + 1), rng.randint(0, count), *last]
    if name == "mke_fov" or name == "len_fos":
        return [lengths(rng, count)]
    if name in BY_COUNT:
        d = lengths(rng, count)
        return [*(vector(rng, kind, len(d)) for kind in kinds[:-1]), d]
    if name in A_SEGMENT:
        d = [x or 1 for x in lengths(rng, count)]
        index = [rng.randrange(x) for x in d]
        return [vector(rng, kinds[0], sum(d)), index, *(vector(rng, kind, len(d)) for kind in kinds[2:-1]), d]
    args = [vector(rng, kind, count) if kind != "d" else lengths(rng, count) for kind in kinds]
    if name in PARTIAL:
        args[1] = [x or 1 if name[0] in "dm" else rng.randint(0, 31) for x in args[1]]
    if name.startswith("tot"):
        args[0] = [rng.randint(-50_000_000, 50_000_000) for _ in args[0]]
    return args


def planted(rng, values, wrong):
    """The values with a wrong one at one place, or at several."""
    values = list(values)
    for place in places(rng, len(values), min(len(values), rng.randint(1, 3))):
        values[place] = wrong(values)
    return values


def at_fault(rng, name):
    """Arguments that are at fault in what they hold."""
    args = good(rng, name)
    if name in PARTIAL:
        args[1] = planted(rng, args[1], lambda _: 0 if name[0] in "dm" else rng.choice([-1, 32, LEAST, GREATEST]))
    elif "_p" in name or name in A_SEGMENT:
        wrong = rng.choice([-1, LEAST, GREATEST, len(args[0])])
        args[1] = planted(rng, args[1], lambda index: rng.choice([wrong, rng.choice(index), rng.choice(index)]))
    elif name in ONE_ELEMENT:
        args[1] = rng.choice([-1, len(args[0]), LEAST, GREATEST])
    elif name in ("ind_luz", "dis_vuz", "dis_vub"):
        args[-1] = rng.choice([-1, LEAST, 4194305, GREATEST])
    elif name == "mke_fov":
        args[0] = planted(rng, args[0], lambda _: rng.choice([-1, LEAST, 4194305, GREATEST]))
    elif name.startswith("tot"):
        args[0] = planted(rng, args[0], lambda _: rng.choice([LEAST, GREATEST]))
    return args


def unequal(rng, name):
    """Arguments of which one vector or descriptor is longer or shorter than it should be."""
    args = good(rng, name)
    vectors = [k for k, kind in enumerate(CALLS[name][0]) if kind in "zbd"]
    k = rng.choice(vectors)
    if rng.random() < 0.5 and args[k]:
        args[k] = args[k][:-1]
    else:
        args[k] = [*args[k], False if CALLS[name][0][k] == "b" else rng.randint(0, 2)]
    return args


# how an argument of each kind is made of an input
MADE = {
    "z": "",
    "b": "{0} = boo_wuz {0}\n",
    "d": "{0} = mke_fov {0}\n",
    "i": "{0} = ext_vuz {0} 0\n",
    "t": "{0} = boo_wuz {0}\n{0} = ext_vub {0} 0\n",
}


def cutting(name):
    """The argument that cuts the result of a call, if one does."""
    kinds, result, _ = CALLS[name]
    is_cut = (
        result in "zb" and kinds[-1] == "d" and name[3:6] not in ("_re", "_ve") or name[:3] in ("rep", "dis") and name[5] == "e"
    )
    return kinds.rindex("d") if is_cut and name[:6] not in ("cnt_le", "pck_le", "sel_pe", "len_fo") else None


def script_of(name):
    """The script of a call on the inputs from 1 on, which shows what it gives, in its segments where these are arguments."""
    lines = ""
    for k, kind in enumerate(CALLS[name][0]):
        lines += f"a{k} = input {k + 1}\n" + MADE[kind].format(f"a{k}")
    args = " ".join(f"a{k}" for k in range(len(CALLS[name][0])))
    by = cutting(name)
    return lines + f"r = {name} {args}\nwrite r" + ("" if by is None else f" a{by}") + "\n"


def row(args):
    return [number_lines(arg if isinstance(arg, list) else [arg]) for arg in args]


def can_fault(name):
    return (
        name in PARTIAL + ONE_ELEMENT + A_SEGMENT + ("ind_luz", "dis_vuz", "dis_vub", "mke_fov")
        or "_p" in name
        or name.startswith("tot")
    )


def random_rows(rng, name):
    rows = [good(rng, name) for _ in range(14)]
    if can_fault(name):
        rows += [at_fault(rng, name) for _ in range(8)]
    if sum(kind in "zbd" for kind in CALLS[name][0]) > 1 and name[:5] != "bck_pu":
        rows += [unequal(rng, name) for _ in range(3)]
    return list(map(row, rows))


def refused_rows(rng, name):
    """A good row, and one that is at fault where there is any, which have a value for each argument."""
    rows = [next(args for args in iter(lambda: good(rng, name), None) if all(arg != [] for arg in args))]
    if can_fault(name):
        for args in iter(lambda: at_fault(rng, name), None):
            try:
                CALLS[name][2](*args)
            except Fault:
                rows.append(args)
                break
    return list(map(row, rows))


def is_raced(name):
    """Whether workers race for the tiles of a call: a scan, a reduce, a permute, a pack, a count of segments, a division or a shift."""
    return name[4] in "srp" or name.startswith("pck") or name == "cnt_leb" or name in PARTIAL


def cases(rng):
    """A case of random rows, and one of refused memory, for each call. One that nobody races for is the same on all tiles."""
    text = ""
    for name in sorted(CALLS):
        script = script_of(name)
        settings = tiles(("1", "3"), ("2", "5"), ("3", "2"), ("7", "1")) if is_raced(name) else tiles(("2", "3"))
        text += each(f"{name} of random arguments", settings, script, [], random_rows(rng, name))
        settings = tiles(("4096", "3"), *([("1", "2")] if is_raced(name) else [])) + refused(2 * len(CALLS[name][0]) + 2)
        text += each(f"{name} where memory is refused", settings, script, [], refused_rows(rng, name))
    return text

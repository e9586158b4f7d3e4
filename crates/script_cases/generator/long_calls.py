"""Calls on long vectors, which workers race for or threads share, about the lengths from which on they do, with faults."""

from calls import GREATEST, LEAST
from cases import differing, number_lines, refused, tiles, whole

# how many elements permutes have, of which four threads take 131,072 each: a power of two, so that a stride of an odd number names
# each place once; and how many where a place is bad or memory is refused, of which two threads take as many
PLACES, FEWER_PLACES = 2**19, 2**18


def permuted(places):
    return f"n = dis_vuz {places - 1} {places}\nv = ind_luz 0 1 {places}\ni = ind_luz 0 249989 {places}\ni = and_wuz i n\n"


def halves(places):
    """Segments of half the places, and indices in them."""
    return f"h = dis_vuz {places // 2} 2\nd = mke_fov h\nm = dis_vuz {places // 2 - 1} {places}\ni = and_wuz i m\n"


def nothing(places):
    return ""


def flags(places):
    return "f = geq_wuz v v\n"


# the call, what stands before it, and what shows that its result is right: the result of a simple permute, taken back, is the source
PERMUTES = [
    ("smp_puz", nothing, "p = smp_puz v i\nq = bck_puz p i\n"),
    ("sel_puz", flags, "p = sel_puz v i f\nq = bck_puz p i\n"),
    ("def_puz", nothing, "p = def_puz v i n\nq = bck_puz p i\n"),
    ("bck_puz", nothing, "p = bck_puz v i\nq = smp_puz p i\n"),
    ("smp_pez", halves, "p = smp_pez v i d\nq = bck_pez p i d d\n"),
    ("bck_pez", halves, "p = bck_pez v i d d\nq = smp_pez p i d\n"),
]

# places whose index is another one: one that is no place, or none for that of the place before
FLAWS = [
    [(199_990, -1)],
    [(199_990, FEWER_PLACES)],
    [(199_990, None)],
    [(85_000, None), (199_990, -1)],
    [(FEWER_PLACES - 1, None)],
]


def permutes(rng):
    text = ""
    settings = tiles(("4096", "4"))
    for name, before, call in PERMUTES:
        script = permuted(PLACES) + before(PLACES) + call + "e = eql_wuz q v\nt = and_rub e\nwrite t\n"
        text += f"== case long {name}\n{settings}== script\n{script}== text\nt = T\n"
        for number, flaws in enumerate(FLAWS):
            if name[0] == "b" and None in (other for _, other in flaws):
                continue
            changed, first = permuted(FEWER_PLACES) + before(FEWER_PLACES), min(place for place, _ in flaws)
            for place, other in flaws:
                changed += f"x = ext_vuz i {place - 1}\ni = rep_vuz i {place} {'x' if other is None else other}\n"
            line = changed.count("\n") + 1
            stop = (
                f"line {line}: fault "
                + ("11 IndexRepeated" if dict(flaws)[first] is None else "10 IndexOutOfRange")
                + f" at {first}\n"
            )
            text += f"== case long {name} with a fault, {number}\n{settings}== script\n{changed}{call}== stop\n{stop}"
    start = permuted(FEWER_PLACES)
    changed = start + "i = rep_vuz i 199990 0\n"
    short = tiles(("4096", "4")) + refused(14)
    text += f"== case a long permute where memory is refused\n{short}== script\n{start}p = smp_puz v i\nx = ext_vuz p 0\nwrite x\n== text\nx = 0\n"
    text += (
        f"== case a long permute at fault where memory is refused\n{short}== script\n{changed}p = smp_puz v i\n"
        "== stop\nline 6: fault 11 IndexRepeated at 199990\n"
    )
    return text


# scans and reduces of numbers of both signs whose sums wrap, about the lengths from which on workers race

STRIDE = 1_103_515_245


def scanned(count, lengths):
    """A script of sums and maxima of so many numbers, flat and in segments, which shows some of the results."""
    shown = (count - 1) // 9973 + 1
    lines = f"a = ind_luz 12345 {STRIDE} {count}\nl = input 1\nd = mke_fov l\ni = ind_luz 0 9973 {shown}\n"
    for name in ("add", "max"):
        lines += f"r = {name}_ruz a\nwrite r\nr = {name}_rez a d\nwrite r\n"
        lines += f"s = {name}_suz a\nt = bck_puz s i\nwrite t\ns = {name}_sez a d\nt = bck_puz s i\nwrite t\n"
    return lines


def scans(rng):
    text = ""
    # the elements, and the tiles and the workers that are asked for
    for count, tile, workers in ((262143, 4096, 4), (262144, 4096, 4), (262145, 65536, 3), (300000, 1024, 5)):
        lengths = f"1 0 170000 {count - 170001} 0 0"
        text += whole(f"sums of {count} numbers", tiles((tile, f"1 {workers}")), scanned(count, lengths), [lengths])
    return text


# sums that never wrap, with and without a result that does not fit among the last elements

CHECKED = [("tot_ruz", ""), ("tot_rez", " d"), ("tot_suz", ""), ("tot_sez", " d")]


def checked(rng):
    text = ""
    settings = tiles(("1000", "3"), ("4096", "4"))
    for count, last, calls in ((262144, 0, CHECKED), (262144, GREATEST, CHECKED), (600060, GREATEST, CHECKED[3:])):
        # numbers from -32768 to 32767, and a great one twice near the end
        lines = f"o = dis_vuz 65535 {count}\na = ind_luz 7 12345 {count}\na = and_wuz a o\nb = dis_vuz 32768 {count}\na = sub_wuz a b\n"
        if last:
            lines += f"a = rep_vuz a {count - 20} {last}\na = rep_vuz a {count - 10} {last}\n"
        lines += f"l = input 1\nd = mke_fov l\ni = ind_luz 0 9973 {(count - 1) // 9973 + 1}\n"
        ends = [f"s = {name} a{by}\n" + ("write s\n" if "_r" in name else "t = bck_puz s i\nwrite t\n") for name, by in calls]
        # a fault ends a script
        for number, end in enumerate(ends if last else ["".join(ends)]):
            name = calls[number][0] if last else "sums that never wrap"
            text += whole(
                f"{name} of {count} numbers" + (" that do not fit" if last else ""),
                settings,
                lines + end,
                [f"1 0 170000 {count - 170001} 0"],
            )
    return text


# how many sums fit in vectors of several blocks, whose sums are looked at together

COUNT = 2060
BLOCK_PLACES = [2, 63, 64, 256, 510, 511, 512, 513, 514, 1023, 1024, 1025, 2047, 2048, 2049, 2059]
PAIRS = [(GREATEST, 1), (LEAST, -1), (GREATEST, 0), (LEAST, 0), (GREATEST, LEAST), (LEAST, GREATEST)]
STEPS = [1048576, -1048576, 4194304, -4194304, 4194303, -4194303, 8388608, -8388608]


def blocks(rng):
    """Scans whose sums stop to fit at each place about the ends of blocks of 512."""
    text = ""
    # by one thread at once, and in tiles whose ends are no ends of blocks
    settings = tiles(("4096", "1"), ("1000", "2"))
    ends = "r = tot_suz a\nn = max_ruz r\nwrite n\n"
    for place in BLOCK_PLACES:
        for first, second in PAIRS:
            script = f"a = dis_vuz 0 {COUNT}\na = rep_vuz a {place - 2} {first}\na = rep_vuz a {place - 1} {second}\n"
            text += whole(f"{first} and {second} before {place}", settings, script + ends, [])
    for step in STEPS:
        text += whole(f"{step} again and again", settings, f"a = dis_vuz {step} {COUNT}\n" + ends, [])
    in_turn = (
        f"a = dis_vuz 1 {COUNT}\ni = ind_luz 0 1 {COUNT}\ni = and_wuz i a\nf = boo_wuz i\na = dis_vuz {GREATEST} {COUNT}\n"
        f"b = dis_vuz {-GREATEST} {COUNT}\na = sel_wuz f b a\n"
    )
    # a first number stands before the others, which are GREATEST and its opposite in turn
    for first in (0, -1, LEAST, 1, GREATEST):
        script = in_turn + f"b = dis_vuz {first} {COUNT + 1}\nj = ind_luz 1 1 {COUNT}\na = def_puz a j b\n"
        text += whole(f"{first} and numbers in turn", settings, script + ends, [])
    for place in (2, 64, 256, 510, 512, 514, 1024, 2058):
        script = in_turn + f"a = rep_vuz a {place - 2} {GREATEST}\na = rep_vuz a {place - 1} 1\n"
        text += whole(f"one more than fits before {place} among numbers in turn", settings, script + ends, [])
    return text


def divisions(rng):
    """Quotients and shifts about the length from which on workers race, with faults at two places."""
    text = ""
    for call, good, wrong, fault in (("div_wuz", 1, 0, "8 DivideByZero"), ("rsh_wuz", 0, 32, "9 ShiftOutOfRange")):
        for count in (262143, 262144, 600000):
            start = f"a = dis_vuz 7 {count}\nb = dis_vuz {good} {count}\n"
            ends = f"q = {call} a b\ne = eql_wuz q a\nt = and_rub e\nwrite t\n"
            settings = tiles(("4096", differing([1, 4], count // 131_072 if count >= 262_144 else 1)))
            text += f"== case {call} of {count} elements\n{settings}== script\n{start}{ends}== text\nt = T\n"
            flawed = start + f"b = rep_vuz b {count - 1} {wrong}\nb = rep_vuz b {count - 10} {wrong}\n"
            text += f"== case {call} of {count} elements with two faults\n{settings}== script\n{flawed}{ends}== stop\nline 5: fault {fault} at {count - 10}\n"
            if count == 262144 and good:
                # the two vectors, the race for the least fault, and the result
                refusals = tiles(("4096", "4")) + refused(14)
                text += f"== case {call} of {count} elements where memory is refused\n{refusals}== script\n{start}{ends}== text\nt = T\n"
                text += (
                    f"== case {call} of {count} elements with two faults where memory is refused\n{refusals}== script\n{flawed}{ends}"
                    f"== stop\nline 5: fault {fault} at {count - 10}\n"
                )
    return text


# segments about the lengths at which a walk of one thread changes its way: by reduces up to 7 elements have no loop, a permute
# clears the senders of up to 32 as they are taken, and a back permute of 128 indices a segment looks at 4,096 at a time

SUMMED = [*range(13), 0, 16, 1]
SENT = [31, 32, 33, 0, 1, 34, 64, 2]
LOOKED_AT = [[127] * 9, [128] * 9, [4095], [4096], [4097], [9000], [0, 8193, 200]]

REDUCED = (
    "d = mke_fov l\nr = add_rez a d\nwrite r\nr = mul_rez a d\nwrite r\nr = max_rez a d\nwrite r\n"
    "b = grt_wuz a z\nr = xor_reb b d\nwrite r\ns = add_sez a d\nwrite s d\n"
)


def turned(lengths):
    """A vector in segments, and in each of them an index that names its places from the last to the first."""
    return (
        f"l = input 1\nd = mke_fov l\nv = ind_luz 7 3 {sum(lengths)}\no = dis_vuz 1 {len(lengths)}\nn = sub_wuz l o\n"
        f"m = dis_vuz -1 {len(lengths)}\ni = ind_lez n m d\n"
    )


# lengths of segments whose copies and numbers are written eight at a time: if they are no more, and eight places are left

COPIED = [[3] * 50, [1] * 100, [0, 1, 8, 9, 2, 7, 0, 0, 16, 5] * 7, [8] * 20, [*range(10), *range(9, -1, -1)], [9, 9], [2]]
COPIES = "f = grt_wuz v o\np = dis_vez v d\nwrite p d\np = dis_veb f d\nwrite p d\np = ind_lez v l d\nwrite p d\n"

# flags of elements that a pack puts right into its result, as many as it has places left, and the last ones by a buffer of 256

FLAGGED = {
    "all": "f = geq_wuz a z\n",
    "every second": "b = and_wuz a o\nf = eql_wuz b z\n",
    "the first 300": "o = dis_vuz 300 {0}\nf = les_wuz a o\n",
    "those from the one numbered 700 on": "o = dis_vuz 700 {0}\nf = geq_wuz a o\n",
}
LIMITS = (255, 256, 257, 1030)


def packs(settings):
    text = ""
    for kept, flags in FLAGGED.items():
        for count in LIMITS:
            script = f"a = ind_luz 0 1 {count}\nz = dis_vuz 0 {count}\no = dis_vuz 1 {count}\nv = ind_luz 7 3 {count}\n"
            text += whole(
                f"a pack of {kept} of {count}", settings, script + flags.format(count) + "p = pck_luz v f\nwrite p\n", []
            )
    return text


def walks(rng):
    text = ""
    settings = tiles(("3", "3"), ("4096", "1"))
    for number, lengths in enumerate(COPIED):
        script = f"l = input 1\nd = mke_fov l\nv = ind_luz -7 3 {len(lengths)}\no = dis_vuz 100 {len(lengths)}\n"
        text += whole(f"copies and numbers of short segments, {number}", settings, script + COPIES, [number_lines(lengths)])
    text += packs(settings)
    count = sum(SUMMED)
    script = f"l = input 1\na = ind_luz 12345 {STRIDE} {count}\nz = dis_vuz 0 {count}\n" + REDUCED
    text += whole("reduces of short segments", settings, script, [number_lines(SUMMED)])
    count = sum(SENT)
    sent = turned(SENT)
    ends = f"p = smp_pez v i d\nwrite p d\nw = dis_vuz 0 {count}\np = def_pez v i w d d\nwrite p d\n"
    text += whole("permutes of short and longer segments", settings, sent + ends, [number_lines(SENT)])
    for place in (3, 40, 70):
        ends = f"i = rep_vuz i {place} 0\np = smp_pez v i d\n"
        text += whole(f"a place of a segment that two are sent to, at {place}", settings, sent + ends, [number_lines(SENT)])
    for lengths in LOOKED_AT:
        count = sum(lengths)
        taken = turned(lengths)
        name = f"{count} indices in {len(lengths)} segments"
        ends = "p = bck_pez v i d d\nq = bck_pez p i d d\ne = eql_wuz q v\nt = and_rub e\nwrite t\nr = max_rez p d\nwrite r\n"
        text += whole(name, settings, taken + ends, [number_lines(lengths)])
        for place, other in ((count - 1, -1), (count // 2, max(lengths)), (0, -1)):
            ends = f"i = rep_vuz i {count - 1} -1\ni = rep_vuz i {place} {other}\np = bck_pez v i d d\n"
            text += whole(f"{name}, of which one is outside at {place}", settings, taken + ends, [number_lines(lengths)])
            flat = f"v = ind_luz 7 3 {count}\ni = ind_luz 0 1 {count}\ni = rep_vuz i {count - 1} -1\n"
            ends = f"i = rep_vuz i {place} {count if other > 0 else other}\np = bck_puz v i\n"
            text += whole(f"{count} indices, of which one is outside at {place}", settings, flat + ends, [])
        text += whole(
            f"{count} indices",
            settings,
            f"v = ind_luz 7 3 {count}\ni = ind_luz {count - 1} -1 {count}\n"
            "p = bck_puz v i\nq = bck_puz p i\ne = eql_wuz q v\nt = and_rub e\nwrite t\nx = ext_vuz p 1\nwrite x\n",
            [],
        )
    return text


def cases(rng):
    return permutes(rng) + scans(rng) + checked(rng) + blocks(rng) + divisions(rng) + walks(rng)

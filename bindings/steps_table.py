"""Calls in parts from C as steps: the families that only steps make, and the steps of each way to cut a call."""

from collections import namedtuple

from table import (
    BAD_NAMED,
    NOT_ALL,
    NO_PARTS,
    NO_ROOM,
    OVERFLOW_AT_0,
    OVERFLOW_AT_PLACE,
    OVERFLOW_AT_SEGMENT,
    SUM_OF_N,
    TOO_LONG,
    any_items,
    copied,
    ends,
    family,
    ints,
    items,
    joining,
    lengths,
    mask,
    one,
    over,
    placed,
    room,
    single,
    sizes,
    sums,
    text,
    told,
    twins,
    value,
)

# A step of a call in parts.
#
#   kind      a word of CvlStepKind in bindings/c/rows.h
#   calls     the family that it calls; nothing if it is the call's own
#   operator  its operator, if it is not the call's
#   when      "few" or "many", if it depends on how many places the room has for its elements, and "pass 0" to "pass 2" if it is of a pass
#   operands  where each operand comes from that is not the call's own under its name: the name of another one, or a role and a way to cut
#             it (CvlAs and CvlBy in bindings/c/rows.h, without their prefixes). Of memory that is taken: for each role a kind of elements
#             and the boundaries that say how many
Step = namedtuple("Step", "kind calls operator when operands")


def step(kind, calls=None, operator=None, when="always", **operands):
    return Step(kind, calls, operator, when, operands)


def in_steps(name, operands, sentence, faults=(), **said):
    """A family that only steps make."""
    return family(name, "in steps", operands, sentence, limit=None, faults=faults, over_ranks=NO_PARTS, **said)


def twins_in_steps(names, operands_of, sentence, faults=(), **said):
    return twins(names, "in steps", operands_of, sentence, limit=None, faults=faults, over_ranks=NO_PARTS, **said)


# The families that only steps of calls in parts make: of a part, or once, of what all parts told. No program calls them.
IN_STEPS = (
    in_steps(
        "carries",
        (sums("sums"), room("sums")),
        "For each part the sum in 64 bits of those before it.",
    ),
    in_steps(
        "carried_total",
        (sums("sums"), single("int")),
        "What the sums of the parts add up to, if it fits 32 bits.",
        faults=(OVERFLOW_AT_0,),
    ),
    in_steps(
        "part_places",
        (ints("counts"), value("room", "size"), room("sizes"), told()),
        "Where each part's elements go in a room of so many places, at last where they end, and how many they are.",
        faults=(NO_ROOM,),
    ),
    in_steps(
        "part_total",
        (sizes("sizes"), told("total")),
        "The sum of the lengths of the parts, if a vector may be so long.",
    ),
    *twins_in_steps(
        ("int_carries", "bool_carries"),
        lambda kind: (copied("starts"), items(kind, "told"), room(kind)),
        "For each part what its first elements go on from: what the parts since the last start of a segment tell, joined.",
        operators=joining,
    ),
    *twins_in_steps(
        ("part_int_scan", "part_bool_scan"),
        lambda kind: (value("before", one(kind)), value("head", "size"), lengths(), items(kind, "a"), room(kind)),
        "The scan of a part: of its first `head` elements after `before`, of its whole segments, and of what it has of another.",
        operators=joining,
        in_place=(("a",),),
        faults=(SUM_OF_N,),
    ),
    *twins_in_steps(
        ("int_behinds", "bool_behinds"),
        lambda kind: (copied("starts"), items(kind, "told"), room(kind)),
        "For each part what goes on behind it: what the parts up to the next start of a segment tell, joined.",
        operators=joining,
    ),
    *twins_in_steps(
        ("part_int_reduce", "part_bool_reduce"),
        lambda kind: (
            value("behind", one(kind)),
            value("head", "size"),
            lengths(),
            any_items(kind, "a"),
            room(kind, "segments"),
        ),
        "The reduces of the segments that start in a part, behind its first `head` elements; the last is joined with `behind`.",
        operators=joining,
        faults=(SUM_OF_N,),
    ),  # fmt: skip
    in_steps(
        "part_count",
        (value("behind"), value("head", "size"), lengths(), mask(), room("ints", "segments")),
        "How many flags are true in each segment that starts in a part; `behind` is added to the last.",
        faults=(SUM_OF_N,),
    ),
    *(
        in_steps(
            name,
            (copied("starts"), sums("told"), room("sums")),
            sentence,
        )
        for name, sentence in (
            ("long_carries", "The same as `int_carries` of sums in 64 bits."),
            ("long_behinds", "The same as `int_behinds` of sums in 64 bits."),
        )
    ),
    in_steps(
        "part_checked_scan",
        (value("before", "sum"), value("head", "size"), lengths(), ints("a"), room("ints")),
        "The checked scan of a part: of its first `head` elements after `before`, of its whole segments, and of what it has of another.",
        faults=(SUM_OF_N, OVERFLOW_AT_PLACE),
    ),
    in_steps(
        "part_checked_reduce",
        (value("behind", "sum"), value("head", "size"), lengths(), ints("a"), room("ints", "segments")),
        "The checked sums of the segments that start in a part, behind its first `head` elements; `behind` is added to the last.",
        faults=(SUM_OF_N, OVERFLOW_AT_SEGMENT),
    ),
    *twins_in_steps(
        ("part_distribute_int", "part_distribute_bool"),
        lambda kind: (value("head", "size"), lengths(), items(kind, "values", "segments"), room(kind)),
        "Copies of the value of each segment of which a part has elements, as many as it has there; the first `head` are of an earlier one.",
        faults=(SUM_OF_N,),
    ),
    in_steps(
        "part_numbers",
        (value("before", "size"), value("init"), value("stride"), room("ints")),
        "The numbers of an index behind its first `before`.",
    ),
    in_steps(
        "part_index",
        (
            value("done", "size"),
            value("head", "size"),
            lengths(),
            ints("inits", "segments"),
            ints("strides", "segments"),
            room("ints"),
        ),
        "The numbers of each segment of which a part has elements; the first `head` are of an earlier one, which has `done` before them.",
        faults=(SUM_OF_N,),
    ),  # fmt: skip
    # ---- where parts stand in other vectors ----
    in_steps(
        "exact_places",
        (sizes("sizes"), value("len", "size"), room("sizes", name="places")),
        "Where the elements of each part begin in a vector of `len`, at last its end, if the parts have so many each.",
        (NOT_ALL,),
    ),
    in_steps(
        "exact_count_places",
        (ints("counts"), value("len", "size"), room("sizes", name="places")),
        "The same of counts.",
        (NOT_ALL,),
    ),
    in_steps(
        "remaining_places",
        (sizes("from"), sizes("taken"), value("len", "size"), room("sizes", name="rest")),
        "How many of the places before each part are not taken, which at last are `len`.",
        (NOT_ALL,),
    ),
    in_steps(
        "added_places",
        (sizes("starts"), sizes("others"), value("len", "size"), room("sizes", name="places")),
        "Where each part begins in a vector that has the elements of two, which at last are `len`.",
        (NOT_ALL,),
    ),
    # ---- runs of equal neighbours ----
    *twins_in_steps(
        ("part_run_lengths_int", "part_run_lengths_bool"),
        lambda kind: (
            value("from", "size"),
            value("head", "size"),
            any_items(kind, "a"),
            lengths(),
            room("ints", name="own"),
            told("begin"),
            told(),
        ),
        "The lengths of the runs that begin in the part from place `from` on, as long as `own`, each as far as it goes there; and where the first begins.",
        (SUM_OF_N,),
    ),
    in_steps(
        "run_places",
        (
            sizes("counts"),
            sizes("begins"),
            sizes("from"),
            value("room", "size"),
            room("sizes", name="places"),
            room("sizes", name="behinds"),
            told("total"),
        ),
        "Where the runs of each part go, at last how many there are, and how many elements the last one of each part has behind the part.",
        (NO_ROOM,),
    ),
    in_steps(
        "part_put_run_lengths",
        (value("behind", "size"), ints("own"), room("ints")),
        "The lengths of the part's runs, of which the last has `behind` elements more.",
        (NO_ROOM,),
    ),
    in_steps(
        "part_put_run_starts",
        (value("begin", "size"), ints("own"), room("ints")),
        "Where the part's runs of these lengths begin, the first at `begin`.",
        (NO_ROOM,),
    ),
    *twins_in_steps(
        ("part_run_fronts_int", "part_run_fronts_bool"),
        lambda kind: (value("from", "size"), value("head", "size"), any_items(kind, "a"), single("int")),
        "How many runs begin among the `head` elements from place `from` on.",
        (SUM_OF_N,),
    ),
    *twins_in_steps(
        ("part_run_counts_int", "part_run_counts_bool"),
        lambda kind: (value("behind"), value("head", "size"), lengths(), any_items(kind, "a"), room("ints", "segments")),
        "How many runs each segment has that starts in a part; `behind` is added to the last.",
        (SUM_OF_N,),
    ),
    # ---- texts ----
    *(
        in_steps(
            name,
            (sizes("starts"), sizes("firsts"), room("sizes", name="rooms")),
            f"Where the text of each part of a vector of {of} finds room, at last how many bytes all need.",
            (TOO_LONG,),
        )
        for name, of in (("int_text_rooms", "integers"), ("bool_text_rooms", "booleans"))
    ),
    in_steps(
        "text_places",
        (sizes("counts"), value("room", "size"), room("sizes", name="places"), told("total")),
        "Where the text of each part goes, at last where the whole ends.",
        (NO_ROOM,),
    ),
    in_steps(
        "put_text",
        (value("place", "size"), value("count", "size"), text("own"), room("text")),
        "A part's text of `count` bytes where it stands in the whole, without the brackets that do.",
        (NO_ROOM,),
    ),
    in_steps(
        "read_rooms",
        (sizes("from"), room("sizes", name="rooms")),
        "Where the integers of each part of a text find room, at last how many there may be.",
        (TOO_LONG,),
    ),
    in_steps(
        "size_places",
        (sizes("counts"), value("room", "size"), room("sizes", name="places"), told("total")),
        "Where what each part gives goes, at last how much all give.",
        (NO_ROOM,),
    ),
    in_steps("put_ints", (ints("own"), room("ints")), "The first integers of the part's own.", (NO_ROOM,)),
    # ---- permutes and first senders ----
    in_steps(
        "mark_places",
        (sizes("from"), room("sizes", name="places")),
        "Where the words with a mark for each place of a part begin, at last where they end.",
        (TOO_LONG,),
    ),
    *twins_in_steps(
        ("part_permute_int", "part_permute_bool"),
        lambda kind: (
            value("from", "size"),
            any_items(kind, "source"),
            ints("index"),
            room(kind),
            room("marks", name="marks"),
            told(),
        ),
        "What of a permute goes to the places from `from` on, and how many of them get an element.",
        (TOO_LONG,),
    ),  # fmt: skip
    *twins_in_steps(
        ("part_select_permute_int", "part_select_permute_bool"),
        lambda kind: (
            value("from", "size"),
            any_items(kind, "source"),
            ints("index"),
            copied("flags"),
            room(kind),
            room("marks", name="marks"),
            told(),
        ),
        "The same of a select permute.",
        (TOO_LONG,),
    ),
    *twins_in_steps(
        ("part_default_permute_int", "part_default_permute_bool"),
        lambda kind: (
            value("from", "size"),
            any_items(kind, "source"),
            ints("index"),
            any_items(kind, "defaults"),
            room(kind),
            room("marks", name="marks"),
            told(),
        ),
        "The same of a default permute, over the defaults of these places.",
        (TOO_LONG,),
    ),
    in_steps("trues_fit", (ints("trues"), value("places", "size")), "Whether counts add up to so many places.", (NOT_ALL,)),
    in_steps(
        "all_sent", (sizes("counts"), value("wanted", "size")), "Whether the parts have got as much as was sent.", (NOT_ALL,)
    ),
    in_steps("all_flagged", (sizes("counts"), ints("trues")), "The same where true flags are what was sent.", (NOT_ALL,)),
    # ---- combining permutes ----
    in_steps(
        "own_rooms",
        (value("places", "size"), room("sizes", name="rooms")),
        "Where the room of each part begins that has so many places, at last where all end.",
        (TOO_LONG,),
    ),
    *twins_in_steps(
        ("part_combine_int", "part_combine_bool"),
        lambda kind: (value("places", "size"), items(kind, "a"), ints("index"), room(kind, name="own")),
        "What a part's elements join to at each of so many places.",
        (BAD_NAMED,),
        operators=joining,
    ),
    in_steps(
        "part_counts",
        (value("places", "size"), ints("index"), room("ints", name="own")),
        "How many of a part's indices name each of so many places.",
        (BAD_NAMED,),
    ),
    in_steps(
        "part_sums",
        (value("places", "size"), ints("a"), ints("index"), room("sums", name="own")),
        "What a part's elements add up to at each of so many places.",
        (BAD_NAMED,),
    ),
    *twins_in_steps(
        ("join_rooms_int", "join_rooms_bool"),
        lambda kind: (value("from", "size"), sizes("rooms"), items(kind, "own"), over(kind)),
        "What stands at the places from `from` on, joined with what each part joined there, in the order of the parts.",
        operators=joining,
    ),
    in_steps(
        "join_counts",
        (value("from", "size"), sizes("rooms"), ints("own"), room("ints")),
        "What the parts counted at the places from `from` on, added up.",
    ),
    in_steps(
        "join_sums",
        (value("from", "size"), sizes("rooms"), sums("own"), over("sums")),
        "What stands at the places from `from` on, plus what each part added up there.",
    ),
    in_steps(
        "join_checked",
        (value("from", "size"), sizes("rooms"), sums("own"), ints("before"), room("sums", name="sums")),
        "The same of integers, which the sums have to fit.",
        (OVERFLOW_AT_PLACE,),
    ),
    in_steps(
        "are_places", (value("places", "size"), ints("index")), "Whether each index names one of so many places.", (BAD_NAMED,)
    ),
    in_steps(
        "cut_places",
        (ints("index"), value("places", "size"), room("sizes", name="cuts")),
        "Cuts so many places so that about as many indices name one of each part.",
    ),
    in_steps(
        "part_checked_sums",
        (value("from", "size"), ints("a"), ints("index"), ints("before"), room("sums", name="sums")),
        "The integers that stand at the places from `from` on, plus what is sent there, which has to fit 32 bits.",
        (OVERFLOW_AT_PLACE,),
    ),
    in_steps("ints_from_sums", (sums("sums"), room("ints")), "Each sum as an integer.", (OVERFLOW_AT_PLACE,)),
    # ---- orders, ranks and sorts ----
    in_steps(
        "key_bits",
        (ints("keys"), single("int", "all"), single("int", "any")),
        "The bits that are set in all keys of a part, and those that are set in any.",
        (TOO_LONG,),
    ),
    in_steps(
        "digit_passes",
        (ints("all"), ints("any"), told("passes")),
        "Of the bits that are set in all keys of each part, and in any, the passes that move keys: a bit for each, or the first if all keys are equal.",
    ),
    in_steps(
        "placed_from",
        (value("first", "size"), ints("keys"), room("placed", name="placed")),
        "Each key of a part beside its place.",
    ),
    *(
        in_steps(
            name,
            (ints("keys"), ints("values"), room("placed", name="placed")),
            f"Each key of a part beside its value, for {of} sort.",
        )
        for name, of in (("placed_values", "an ascending"), ("placed_values_descending", "a descending"))
    ),
    *(
        in_steps(
            name,
            (value("pass", "word"), value("first", "size"), reads("block"), room(kind, name="room"), room("marks", name="ends")),
            f"A part's {of} in the order of a digit, and where each digit ends.",
        )
        for name, of, reads, kind in (("key_block", "keys", ints, "ints"), ("placed_block", "placed keys", placed, "placed"))
    ),
    in_steps(
        "cut_pieces",
        (sizes("from"), ends(), room("sizes", name="pieces"), room("sizes", name="places")),
        "Cuts the elements of all digits of all parts between two of them, so that each part has about as many; and where each part's begin.",
    ),
    *(
        in_steps(
            name,
            (reads("elements"), ends(), value("blocks", "size"), value("from", "size"), value("count", "size"), room(kind)),
            f"Some pieces of {of} one behind another, digit by digit, and of each digit part by part.",
        )
        for name, of, reads, kind in (("gather_keys", "keys", ints, "ints"), ("gather_placed", "placed keys", placed, "placed"))
    ),
    in_steps("places_of", (placed("placed"), room("ints")), "The places of placed keys."),
    *(
        in_steps(
            name,
            (placed("placed"), room("ints", name="keys"), room("ints", name="values")),
            f"The keys of {of} sort, and beside each its value.",
        )
        for name, of in (("keys_and_values_of", "an ascending"), ("keys_and_values_of_descending", "a descending"))
    ),
)


def steps_of(cut, kind):
    """The steps of a way in parts, on elements of a kind, "int" or "bool"; nothing if a call is not cut."""
    nothing, one, place = ("NOTHING", "NONE"), ("ONE", "NONE"), ("AT_PLACE", "NONE")
    each_total, all_totals, all_carries, carry = ("TOTALS", "PART"), ("TOTALS", "NONE"), ("CARRIES", "NONE"), ("CARRIES", "LONG")
    each_sum, all_sums, all_before = ("SUMS", "PART"), ("SUMS", "NONE"), ("BEFORE", "NONE")
    before = ("BEFORE", {"int": "INT", "bool": "FLAG"}[kind])
    starts, head, starting = ("STARTS", "NONE"), ("LENGTHS", "HEAD"), ("LENGTHS", "FIRST")
    froms, places, thirds, kept, all_kept = (
        ("FROMS", "NONE"), ("PLACES", "NONE"), ("THIRDS", "NONE"), ("KEPT", "PART"), ("KEPT", "NONE"),
    )  # fmt: skip
    elements = {"int": "ints", "bool": "flags"}[kind]
    room, index, at_from = ("OUT", "NONE"), ("INDEX", "NONE"), {"from": ("FROMS", "AT_FROM")}
    return {
        "places": (step("looks", out=nothing), step("fills")),
        "numbers": (step("fills", "part_numbers", before=("FROMS", "AT_FROM"), out=("OUT", "FROM")),),
        "replace": (step("fills", f"{kind}1", "CPY", a="vector"), step("gives", f"distribute_{kind}", count=one, out=place)),
        "reduce": (step("tells", f"{kind}_reduce", out=each_sum), step("gives", f"{kind}_reduce", a=all_sums)),
        "scan": (
            step("tells", f"{kind}_reduce", out=each_sum),
            step("joins", f"{kind}_scan", a=all_sums, out=all_before),
            step("fills", f"{kind}_scan_after", before=before),
        ),
        "seg_scan": (
            step("tells", f"{kind}_reduce", a=("A", "LAST"), out=each_sum),
            step("joins", f"{kind}_carries", starts=starts, told=all_sums, out=all_before),
            step("fills", f"part_{kind}_scan", before=before, head=head, lengths=("LENGTHS", "WHOLE")),
        ),
        "seg_reduce": (
            step("tells", f"{kind}_reduce", a=("A", "FRONT"), out=each_sum),
            step("joins", f"{kind}_behinds", starts=starts, told=all_sums, out=all_before),
            step(
                "fills",
                f"part_{kind}_reduce",
                behind=before,
                head=head,
                lengths=starting,
                out=("OUT", "FIRST"),
            ),
        ),
        "seg_checked_scan": (
            step("tells", "exact_sum", a=("A", "LAST"), out=each_total),
            step("joins", "long_carries", starts=starts, told=all_totals, out=all_carries),
            step("looks", "part_checked_scan", before=carry, head=head, lengths=("LENGTHS", "WHOLE"), out=nothing),
            step("fills", "part_int_scan", "ADD", before=carry, head=head, lengths=("LENGTHS", "WHOLE")),
        ),
        "seg_checked_reduce": (
            step("tells", "exact_sum", a=("A", "FRONT"), out=each_total),
            step("joins", "long_behinds", starts=starts, told=all_totals, out=all_carries),
            step("looks", "part_checked_reduce", behind=carry, head=head, lengths=starting, out=nothing),
            step("fills", "part_checked_reduce", behind=carry, head=head, lengths=starting, out=("OUT", "FIRST")),
        ),
        "seg_copies": (step("fills", f"part_distribute_{kind}", head=head, lengths=starting, values=("A", "OWNERS")),),
        "seg_numbers": (
            step(
                "fills",
                "part_index",
                done=("LENGTHS", "DONE"),
                head=head,
                lengths=starting,
                inits=("A", "OWNERS"),
                strides=("B", "OWNERS"),
            ),
        ),
        "seg_count": (
            step("tells", "count", flags=("FLAGS", "FRONT"), out=each_sum),
            step("joins", "int_behinds", "ADD", starts=starts, told=all_sums, out=all_before),
            step("fills", "part_count", behind=before, head=head, lengths=starting, out=("OUT", "FIRST")),
        ),
        "count": (step("tells", "count", out=each_sum), step("gives", "int_reduce", "ADD", a=all_sums)),
        "checked_reduce": (step("tells", "exact_sum", out=each_total), step("gives", "carried_total", sums=all_totals)),
        "checked_scan": (
            step("tells", "exact_sum", out=each_total),
            step("joins", "carries", sums=all_totals, out=all_carries),
            step("looks", "checked_scan_after", before=carry, out=nothing),
            step("fills", "int_scan_after", "ADD", before=carry),
        ),
        "lengths": (
            step("tells", "make_descriptor", total=("KEPT", "PART")),
            step("gives", "part_total", sizes=("KEPT", "NONE")),
        ),
        "pack": (
            step("tells", "count", out=("COUNTS", "PART")),
            step("fits", "part_places", counts=("COUNTS", "NONE"), room=("OUT", "NONE"), out=("PLACES", "NONE")),
            step("fills", f"pack_{kind}", out=("OUT", "OTHER"), count=("KEPT", "PART")),
        ),
        "merge": (
            step("tells", "count", out=("COUNTS", "PART")),
            step("joins", "exact_count_places", counts=("COUNTS", "NONE"), len=("A", "NONE"), places=places),
            step("joins", "remaining_places", **{"from": froms}, taken=places, len=("B", "NONE"), rest=thirds),
            step("fills"),
        ),
        **{
            f"run_{numbers}": (
                step("takes", own=("OWN", "ints", "FROM")),
                step(
                    "drafts",
                    f"part_run_lengths_{kind}",
                    **at_from,
                    head=head,
                    a=("A", "NONE"),
                    lengths=starting,
                    own=("OWN", "FROM"),
                    begin=("BEGINS", "PART"),
                    count=kept,
                ),
                step(
                    "fits",
                    "run_places",
                    counts=all_kept,
                    begins=("BEGINS", "NONE"),
                    **{"from": froms},
                    room=room,
                    places=places,
                    behinds=("BEHINDS", "NONE"),
                    total="count",
                ),
                step("fills", f"part_put_run_{numbers}", **more, own=("OWN", "FROM"), out=("OUT", "OTHER")),
            )
            for numbers, more in (("lengths", {"behind": ("BEHINDS", "SIZE")}), ("starts", {"begin": ("THIRDS", "AT_THIRD")}))
        },
        "run_counts": (
            step("tells", f"part_run_fronts_{kind}", **at_from, head=head, a=("A", "NONE"), out=("COUNTS", "PART")),
            step("joins", "int_behinds", "ADD", starts=starts, told=("COUNTS", "NONE"), out=("COUNTS_BEHIND", "NONE")),
            step(
                "fills",
                f"part_run_counts_{kind}",
                behind=("COUNTS_BEHIND", "INT"),
                head=head,
                lengths=starting,
                out=("OUT", "FIRST"),
            ),
        ),
        **{
            f"{seg}write": (
                step("joins", f"{kind}_text_rooms", starts=at, firsts=("FIRSTS", "NONE"), rooms=thirds),
                step("takes", own=("OWN", "text", "THIRD")),
                step("drafts", f"{seg}write_{kind}s", **whole, out=("OWN", "THIRD"), count=kept),
                step("fits", "text_places", counts=all_kept, room=room, places=places, total="count"),
                step(
                    "fills",
                    "put_text",
                    place=("PLACES", "AT_OTHER"),
                    count=("KEPT", "KEPT"),
                    own=("OWN", "THIRD"),
                    out=("OUT", "OTHER"),
                ),
            )
            for seg, at, whole in (
                ("", froms, {}),
                ("seg_", ("SEGMENT_STARTS", "NONE"), {"a": ("A", "START"), "lengths": starting}),
            )
        },
        "read": (
            step("joins", "read_rooms", **{"from": froms}, rooms=thirds),
            step("takes", own=("OWN", "ints", "THIRD")),
            step("drafts", "read_ints", text=("A", "FROM"), out=("OWN", "THIRD"), count=kept),
            step("joins", "part_total", sizes=all_kept, total="count"),
            step("fits", "size_places", counts=all_kept, room=room, places=places, total="count"),
            step("fills", "put_ints", own=("OWN", "THIRD"), out=("OUT", "OTHER")),
        ),
        **{
            f"{chooses}permute": (
                *checks,
                step("joins", "mark_places", **{"from": froms}, places=thirds),
                step("takes", kept=("KEPT_OUT", elements, "NONE"), marks=("OWN", "marks", "THIRD")),
                step(
                    "tries",
                    f"part_{chooses}permute_{kind}",
                    **at_from,
                    **more,
                    out=("OUT", "FROM"),
                    marks=("OWN", "THIRD"),
                    count=kept,
                ),
                step("joins", "all_sent", counts=all_kept, wanted=wanted),
            )
            for chooses, checks, more, wanted in (
                ("", (), {"source": ("A", "NONE"), "index": index}, index),
                (
                    "select_",
                    (
                        step("tells", "count", flags=("FLAGS", "SHARE"), out=("COUNTS", "PART")),
                        step("joins", "trues_fit", trues=("COUNTS", "NONE"), places=room),
                    ),
                    {"source": ("A", "NONE"), "index": index, "flags": ("FLAGS", "NONE")},
                    room,
                ),
                ("default_", (), {"source": ("A", "NONE"), "index": index, "defaults": ("B", "FROM")}, index),
            )
        },
        "senders": (
            step("takes", kept=("KEPT_OUT", "ints", "NONE")),
            step("tries", "first_senders_range", lowest=("FROMS", "AT_FROM"), index=index, out=("OUT", "FROM"), named=kept),
            step("joins", "all_sent", counts=all_kept, wanted=index),
        ),
        "select_senders": (
            step("tells", "count", flags=("FLAGS", "SHARE"), out=("COUNTS", "PART")),
            step("takes", kept=("KEPT_OUT", "ints", "NONE")),
            step(
                "tries",
                "select_first_senders_range",
                lowest=("FROMS", "AT_FROM"),
                index=index,
                flags=("FLAGS", "NONE"),
                out=("OUT", "FROM"),
                named=kept,
            ),
            step("joins", "all_flagged", counts=all_kept, trues=("COUNTS", "NONE")),
        ),
        "turns": (
            step("fills", f"transpose_{kind}_range", source=("A", "NONE"), lowest=("FROMS", "AT_FROM"), out=("OUT", "FROM")),
        ),
        **combining(kind),
        **sorting(),
        "whole": (),
    }[cut]


def combining(kind):
    """The steps of combining permutes: with few places each part has a room of its own, and with many a range of the room."""
    room, index, rooms, share = ("OUT", "NONE"), ("INDEX", "NONE"), ("THIRDS", "NONE"), ("OUT", "SHARE")
    part, parts, kept = ("OWN", "THIRD"), ("OWN", "NONE"), ("KEPT", "PART")
    at_share, at_from = {"from": ("OUT", "AT_SHARE")}, {"from": ("FROMS", "AT_FROM")}
    sums, sums_of_share, sums_of_part = ("SECOND_OWN", "sums", "NONE"), ("SECOND_OWN", "SHARE"), ("SECOND_OWN", "FROM")
    grows = step("tells", "combine_exact_sums", source=("NOTHING", "NONE"), index=("NOTHING", "NONE"), out=share)
    own_rooms = step("joins", "own_rooms", when="few", places=room, rooms=rooms)
    looks = step("tells", "are_places", when="many", places=room, index=("INDEX", "SHARE"))
    cuts = step("joins", "cut_places", when="many", index=index, places=room, cuts=("FROMS", "NONE"))

    def few(kind, own, joined):
        return (
            own_rooms,
            step("takes", when="few", own=("OWN", kind, "THIRD")),
            step("drafts", own, when="few", places=room, a=("A", "FROM"), index=("INDEX", "FROM"), own=part),
            step("fills", joined, when="few", **at_share, rooms=rooms, own=parts, out=share),
        )

    def many(ranges):
        return (
            looks,
            cuts,
            step(
                "fills",
                ranges,
                when="many",
                source=("A", "NONE"),
                index=index,
                lowest=("FROMS", "AT_FROM"),
                out=("OUT", "FROM"),
                named=kept,
            ),
        )

    return {
        "combine": (
            *few({"int": "ints", "bool": "flags"}[kind], f"part_combine_{kind}", f"join_rooms_{kind}"),
            *many(f"combine_permute_{kind}_range"),
        ),
        "combine_counts": (*few("ints", "part_counts", "join_counts"), *many("counts_range")),
        "combine_sums": (grows, *few("sums", "part_sums", "join_sums"), *many("combine_exact_sums_range")),
        "combine_checked": (
            own_rooms,
            step("takes", when="few", own=("OWN", "sums", "THIRD"), sums=sums),
            step("drafts", "part_sums", when="few", places=room, a=("A", "FROM"), index=("INDEX", "FROM"), own=part),
            step("drafts", "join_checked", when="few", **at_share, rooms=rooms, own=parts, before=share, sums=sums_of_share),
            step("fills", "ints_from_sums", when="few", sums=sums_of_share, out=share),
            looks,
            step("takes", when="many", sums=sums),
            cuts,
            step(
                "drafts",
                "part_checked_sums",
                when="many",
                **at_from,
                a=("A", "NONE"),
                index=index,
                before=("OUT", "FROM"),
                sums=sums_of_part,
            ),
            step("fills", "ints_from_sums", when="many", sums=sums_of_part, out=("OUT", "FROM")),
        ),
    }


def sorting():
    """The steps of orders, ranks and sorts: which passes move keys, and each of these."""
    at_from, froms, part = ("FROMS", "AT_FROM"), ("FROMS", "NONE"), ("THIRD_OWN", "FROM")
    counts, blocks = ("OWN", "marks", "DIGITS"), ("SECOND_OWN", "FROM")
    takes_placed = step("takes", ends=counts, blocks=("SECOND_OWN", "placed", "FROM"), placed=("THIRD_OWN", "placed", "FROM"))

    def bits(keys):
        return (
            step("tells", "key_bits", keys=keys, all=("SUMS", "PART"), any=("BEFORE", "PART")),
            step("joins", "digit_passes", all=("SUMS", "NONE"), any=("BEFORE", "NONE"), passes=("MOVES", "NONE")),
        )

    def passes(of, reads, gathers, writes):
        for number, name in enumerate(("NOTHING", "ONE", "TWO")):
            when = f"pass {number}"
            yield step(
                "drafts",
                f"{of}_block",
                when=when,
                **{"pass": (name, "NONE")},
                first=at_from,
                block=reads,
                room=blocks,
                ends=("OWN", "DIGITS"),
            )
            yield step(
                "joins",
                "cut_pieces",
                when=when,
                **{"from": froms},
                ends=("OWN", "NONE"),
                pieces=("FIRSTS", "NONE"),
                places=("PLACES", "NONE"),
            )
            yield step(
                gathers,
                f"gather_{of}s".replace("placeds", "placed"),
                when=when,
                elements=("SECOND_OWN", "NONE"),
                ends=("OWN", "NONE"),
                blocks=("PARTS", "NONE"),
                **{"from": ("FIRSTS", "AT_FIRST")},
                count=("FIRSTS", "OF_FIRST"),
                out=writes,
            )

    def ordered(keys, first):
        return (*bits(keys), takes_placed, first, *passes("placed", part, "drafts", ("THIRD_OWN", "OTHER")))

    order = ordered(("A", "FROM"), step("drafts", "placed_from", first=at_from, keys=("A", "FROM"), placed=part))
    return {
        "sort": (
            *bits(("A", "FROM")),
            step("takes", ends=counts, blocks=("SECOND_OWN", "ints", "FROM")),
            *passes("key", ("KEYS", "FROM"), "fills", ("OUT", "OTHER")),
        ),
        "order": (*order, step("fills", "places_of", placed=part, out=("OUT", "FROM"))),
        "rank": (
            *order,
            step("drafts", "places_of", placed=part, out=blocks),
            step(
                "fills",
                "first_senders_range",
                index=("SECOND_OWN", "NONE"),
                lowest=at_from,
                out=("OUT", "FROM"),
                named=("KEPT", "PART"),
            ),
        ),
        **{
            f"sort_by_key{way}": (
                *ordered(
                    ("OUT", "FROM"),
                    step("drafts", f"placed_values{way}", keys=("OUT", "FROM"), values=("OTHER_OUT", "FROM"), placed=part),
                ),
                step("fills", f"keys_and_values_of{way}", placed=part, keys=("OUT", "FROM"), values=("OTHER_OUT", "FROM")),
            )
            for way in ("", "_descending")
        },
    }


def between_segments(others, appends, kept):
    """The steps of a call that is cut between segments: where each part stands in other vectors, then its own segments.

    others   for each other vector the boundaries of a part there, what counts its elements, and the role of what is cut so
    appends  whether the room has the segments of both vectors
    kept     the roles of what the rooms held before, with the kinds of their elements, if a part may fail
    """
    all_kept, places = ("KEPT", "NONE"), {"OTHER": ("PLACES", "NONE"), "THIRD": ("THIRDS", "NONE")}
    for by, counted, role in others:
        if counted == "FLAGS":
            yield step("tells", "count", flags=("FLAGS", "START"), out=("COUNTS", "PART"))
            yield step("joins", "exact_count_places", counts=("COUNTS", "NONE"), len=(role, "NONE"), places=places[by])
        else:
            yield step("tells", "make_descriptor", lengths=(counted, "FIRST"), total=("KEPT", "PART"))
            yield step("joins", "exact_places", sizes=all_kept, len=(role, "NONE"), places=places[by])
    if appends:
        yield step(
            "joins",
            "added_places",
            starts=("SEGMENT_STARTS", "NONE"),
            others=places["OTHER"],
            len=("OUT", "NONE"),
            places=places["THIRD"],
        )
    if kept:
        yield step("takes", **{role: (role, kind, "NONE") for role, kind in kept})
    yield step("tries" if kept else "fills")

"""The yard: document 01's steps, every refusal, every frame, keepalives, pages, and a full yard of the largest size."""

from notation import case, refused

CHOKE, UNCHOKE, INTERESTED, NOT_INTERESTED = "0000000100", "0000000101", "0000000102", "0000000103"
KEEPALIVE = "00000000"


def have(piece):
    return f"0000000504{piece:08x}"


def bitfield(bits):
    """A bitfield frame by its payload in hex."""
    return f"{len(bits) // 2 + 1:08x}05{bits}"


def request(piece, offset, length):
    return f"0000000d06{piece:08x}{offset:08x}{length:08x}"


def cancel(piece, offset, length):
    return f"0000000d08{piece:08x}{offset:08x}{length:08x}"


def block(piece, offset, length):
    """A piece frame with that many bytes of block."""
    return f"{length + 9:08x}07{piece:08x}{offset:08x}{'ab' * length}"


def steps(*pairs):
    return [case(call, answer) for call, answer in pairs]


def document():
    return steps(
        ("start 10 16384 16384 2", "started"),
        ("sit", "seat 0"),
        ("sit", "seat 1"),
        ("sit", refused(35)),
        ("head", "2 0 0 nobody 1"),
        (f"feed 0 {bitfield('ffc1')}", refused(33)),
        (f"feed 0 {bitfield('ff')}", refused(32)),
        ("seat 0", "fresh 0 1 0 1 0 0"),
        (f"feed 0 {bitfield('ffc0')}", "taken 7"),
        ("head", "2 1 0 nobody 1"),
        ("seat 0", "used 10 1 0 1 0 0"),
        (f"feed 1 {have(9)}", "taken 9"),
        ("count 9", "2"),
        (f"feed 1 {have(10)}", refused(31)),
        (f"feed 1 {bitfield('ffc0')}", refused(30)),
        ("leave 0", "left"),
        ("head", "1 0 0 nobody 1"),
        ("count 9", "1"),
        ("sit", "seat 0"),
        ("head", "2 0 0 nobody 1"),
    )


def before_start():
    yard_calls = [
        "sit", "leave 0", f"feed 0 {KEEPALIVE}", "choke 0 1 5", "interest 0 1 5", "round", "missing 0 1", "scarcest",
        "head", "count 0", "seat 0",
    ]
    return [case(call, "no yard") for call in yard_calls]


def starts():
    wrong = [
        "0 16384 1 1", "16385 16384 1 1", "1 16384 1 0", "1 16384 1 2001", "1 0 1 1", "1 8192 1 1", "1 16383 1 1",
        "1 24576 1 1", "1 33554432 1 1", "1 16384 0 1", "1 16384 16385 1", "4294967296 16384 1 1",
        "1 16384 1 4294967296",
    ]
    right = ["1 16384 1 1", "16384 16384 16384 2000", "1 16777216 16777216 1", "7 32768 5 3"]
    return [
        *before_start(),
        *[case(f"start {sizes}", refused(38)) for sizes in wrong],
        *before_start(),
        *[case(f"start {sizes}", "started") for sizes in right],
        *steps(
            ("sit", "seat 0"),
            (f"feed 0 {have(6)}", "taken 9"),
            (f"start {wrong[0]}", refused(38)),
            ("head", "1 0 0 nobody 2"),
            ("count 6", "1"),
            ("start 7 32768 5 3", "started"),
            ("head", "0 0 0 nobody 2"),
            ("count 6", "0"),
            ("seat 0", "free"),
        ),
    ]


def seats():
    return steps(
        ("start 3 16384 16384 3", "started"),
        ("leave 0", refused(36)),
        ("leave 3", refused(36)),
        ("leave 4294967296", refused(36)),
        ("seat 2", "free"),
        ("seat 3", refused(36)),
        (f"feed 0 {KEEPALIVE}", refused(36)),
        ("feed 0 -", refused(36)),
        ("feed 3 ffffffff", refused(36)),
        ("choke 0 1 5", refused(36)),
        ("choke 3 1 0", refused(36)),
        ("interest 0 1 0", refused(36)),
        ("sit", "seat 0"),
        ("sit", "seat 1"),
        ("sit", "seat 2"),
        ("sit", refused(35)),
        ("leave 1", "left"),
        ("leave 1", refused(36)),
        ("sit", "seat 1"),
        ("leave 2", "left"),
        ("leave 0", "left"),
        ("head", "1 0 0 nobody 2"),
        ("sit", "seat 0"),
        ("sit", "seat 2"),
        ("head", "3 0 0 nobody 2"),
    )


def marks():
    return steps(
        ("start 3 16384 16384 2", "started"),
        ("sit", "seat 0"),
        ("seat 0", "fresh 0 1 0 1 0 0"),
        ("choke 0 0 5", UNCHOKE),
        ("seat 0", "fresh 0 0 0 1 0 0"),
        ("interest 0 1 5", INTERESTED),
        ("seat 0", "fresh 0 0 1 1 0 0"),
        ("choke 0 1 4", refused(37)),
        ("interest 0 0 0", refused(37)),
        ("seat 0", "fresh 0 0 1 1 0 0"),
        ("choke 0 1 100", CHOKE),
        ("choke 0 1 5", CHOKE),
        ("interest 0 0 5", NOT_INTERESTED),
        ("seat 0", "fresh 0 1 0 1 0 0"),
        (f"feed 0 {UNCHOKE}", "taken 5"),
        ("seat 0", "used 0 1 0 0 0 0"),
        (f"feed 0 {INTERESTED}", "taken 5"),
        ("seat 0", "used 0 1 0 0 1 0"),
        (f"feed 0 {CHOKE}", "taken 5"),
        ("seat 0", "used 0 1 0 1 1 0"),
        (f"feed 0 {NOT_INTERESTED}", "taken 5"),
        ("seat 0", "used 0 1 0 1 0 0"),
        ("choke 0 0 5", UNCHOKE),
        (f"feed 0 {INTERESTED}", "taken 5"),
        ("leave 0", "left"),
        ("sit", "seat 0"),
        ("seat 0", "fresh 0 1 0 1 0 0"),
    )


def serving():
    ask = request(0, 0, 16384)
    return steps(
        ("start 3 32768 5 2", "started"),
        ("sit", "seat 0"),
        (f"feed 0 {ask}", "drop 17"),
        (f"feed 0 {INTERESTED}", "taken 5"),
        (f"feed 0 {ask}", "drop 17"),
        ("choke 0 0 5", UNCHOKE),
        (f"feed 0 {ask}", "serve 17"),
        (f"feed 0 {ask}{ask}", "serve 17"),
        (f"feed 0 {request(0, 16384, 16384)}", "serve 17"),
        (f"feed 0 {request(0, 16385, 16384)}", refused(34)),
        (f"feed 0 {request(0, 0, 16385)}", refused(34)),
        (f"feed 0 {request(0, 0, 0)}", refused(34)),
        (f"feed 0 {request(2, 0, 5)}", "serve 17"),
        (f"feed 0 {request(2, 4, 1)}", "serve 17"),
        (f"feed 0 {request(2, 0, 6)}", refused(34)),
        (f"feed 0 {request(2, 5, 1)}", refused(34)),
        (f"feed 0 {request(3, 0, 1)}", refused(31)),
        (f"feed 0 {request(3, 0, 0)}", refused(31)),
        (f"feed 0 {request(2**32 - 1, 2**32 - 1, 2**32 - 1)}", refused(31)),
        (f"feed 0 {request(0, 2**32 - 1, 16384)}", refused(34)),
        (f"feed 0 {request(0, 2**32 - 1, 1)}", refused(34)),
        (f"feed 0 {cancel(2, 0, 5)}", "taken 17"),
        (f"feed 0 {cancel(2, 0, 6)}", refused(34)),
        (f"feed 0 {cancel(3, 0, 5)}", refused(31)),
        (f"feed 0 {block(2, 0, 5)}", "taken 18"),
        (f"feed 0 {block(2, 1, 5)}", refused(34)),
        (f"feed 0 {block(3, 0, 1)}", refused(31)),
        (f"feed 0 {block(1, 32767, 1)}", "taken 14"),
        (f"feed 0 {block(1, 32767, 2)}", refused(34)),
        (f"feed 0 {NOT_INTERESTED}", "taken 5"),
        (f"feed 0 {ask}", "drop 17"),
        (f"feed 0 {INTERESTED}", "taken 5"),
        ("choke 0 1 5", CHOKE),
        (f"feed 0 {ask}", "drop 17"),
        ("seat 0", "used 0 1 0 1 1 6"),
    )


def freshness():
    """What ends fresh: every frame with an id that is taken, and nothing else."""
    full = bitfield("e0")
    pairs = [("start 3 16384 16384 1", "started")]
    for frame, answer in [
        (CHOKE, "taken 5"),
        (have(0), "taken 9"),
        (bitfield("00"), "taken 6"),
        (request(0, 0, 1), "drop 17"),
        (cancel(0, 0, 1), "taken 17"),
        (block(0, 0, 1), "taken 14"),
        ("0000000109", "taken 5"),
        ("0000000114", "taken 5"),
        ("000000021400", "taken 6"),
        ("00000001ff", "taken 5"),
    ]:
        pairs += [("sit", "seat 0"), (f"feed 0 {frame}", answer), (f"feed 0 {full}", refused(30)), ("leave 0", "left")]
    pairs += [("sit", "seat 0")]
    for frame, answer in [
        (KEEPALIVE, "taken 4"),
        ("-", "wait"),
        ("000000", "wait"),
        (full[:-2], "wait"),
        (have(0)[:-2], "wait"),
        ("0000400a", refused(20)),
        ("000000020000", refused(21)),
        ("0000000105", refused(21)),
        (have(3), refused(31)),
        (request(3, 0, 1), refused(31)),
        (request(0, 0, 0), refused(34)),
        (bitfield("e000"), refused(32)),
        (bitfield("f0"), refused(33)),
        (bitfield("e1"), refused(33)),
    ]:
        pairs += [(f"feed 0 {frame}", answer), ("seat 0", "fresh 0 1 0 1 0 0")]
    pairs += [(f"feed 0 {full}", "taken 6"), ("seat 0", "used 3 1 0 1 0 0"), ("head", "1 1 0 nobody 0")]
    # 30 comes before 32 and 33, and 21 before all three; a keepalive makes nobody fresh.
    for frame, number in [(full, 30), (bitfield("e000"), 30), (bitfield("f0"), 30), (bitfield(""), 21)]:
        pairs += [(f"feed 0 {frame}", refused(number)), ("seat 0", "used 3 1 0 1 0 0")]
        pairs += [(f"feed 0 {KEEPALIVE}", "taken 4"), ("seat 0", "used 3 1 0 1 0 0")]
    return steps(*pairs)


SILENT, LOADED = ("seat 0", "fresh 0 1 0 1 0 0"), ("seat 0", "used 10 1 0 1 0 0")
KEPT = (f"feed 0 {KEEPALIVE}", "taken 4")
AGAIN = [("leave 0", "left"), ("sit", "seat 0")]


def loaded_after(count):
    """So many keepalives and then a bitfield, which is taken."""
    return [
        *[KEPT] * count, SILENT, ("head", "1 0 0 nobody 1"), ("missing 0 2", "0 of 1 next 2"),
        (f"feed 0 {bitfield('ffc0')}", "taken 7"), LOADED, ("head", "1 1 0 nobody 1"), ("missing 0 2", "- of 0 next 2"),
    ]


def keepalives():
    """A keepalive is taken and says nothing, wherever it comes and however it is cut."""
    full = bitfield("ffc0")
    pairs = [("start 10 16384 16384 2", "started"), ("sit", "seat 0")]
    for count in (1, 2, 3):
        pairs += [*loaded_after(count), *AGAIN]
    pairs += [(f"feed 0 {KEEPALIVE}{full}", "taken 4"), SILENT, (f"feed 0 {full}{KEEPALIVE}", "taken 7"), LOADED, *AGAIN]
    for cut in (1, 2, 3):
        some = (f"feed 0 {KEEPALIVE[: 2 * cut]}", "wait")
        pairs += [some, SILENT, KEPT, some, SILENT, (f"feed 0 {full}", "taken 7"), LOADED, *AGAIN]
    # After a frame with an id the bitfield is late, with keepalives between them too.
    for first, answer, then in [
        (have(9), "taken 9", "used 1 1 0 1 0 0"),
        (INTERESTED, "taken 5", "used 0 1 0 1 1 0"),
        ("0000000114", "taken 5", "used 0 1 0 1 0 0"),
    ]:
        pairs += [KEPT, (f"feed 0 {first}", answer), KEPT, KEPT, ("seat 0", then), (f"feed 0 {full}", refused(30)), ("seat 0", then), *AGAIN]
    # A refused frame leaves the truck fresh.
    pairs += [KEPT, (f"feed 0 {have(10)}", refused(31)), KEPT, (f"feed 0 {bitfield('ff')}", refused(32)), *loaded_after(1), *AGAIN]
    # Marks, counts and the other seat stay.
    pairs += [("choke 0 0 5", UNCHOKE), ("interest 0 1 5", INTERESTED), KEPT, ("seat 0", "fresh 0 0 1 1 0 0"), (f"feed 0 {full}", "taken 7"), KEPT]
    pairs += [("seat 0", "used 10 0 1 1 0 0"), ("head", "1 1 0 nobody 1"), ("count 9", "1"), (f"feed 1 {KEEPALIVE}", refused(36)), ("seat 1", "free")]
    return steps(*pairs)


def many_keepalives():
    return steps(("start 10 16384 16384 2", "started"), ("sit", "seat 0"), *loaded_after(1000))


def counting():
    """Document 01's easy slips: a repeated have, a leaver's pieces, spare bits."""
    return steps(
        ("start 9 16384 16384 3", "started"),
        ("scarcest", "piece 0"),
        ("sit", "seat 0"),
        ("sit", "seat 1"),
        (f"feed 0 {have(0)}{have(1)}", "taken 9"),
        ("count 0", "1"),
        ("count 1", "0"),
        (f"feed 0 {have(0)}", "taken 9"),
        ("count 0", "1"),
        ("seat 0", "used 1 1 0 1 0 0"),
        ("scarcest", "piece 1"),
        (f"feed 1 {bitfield('7f80')}", "taken 7"),
        ("scarcest", "piece 0"),
        ("seat 1", "used 8 1 0 1 0 0"),
        ("head", "2 0 0 nobody 2"),
        (f"feed 1 {have(0)}", "taken 9"),
        ("head", "2 1 0 nobody 2"),
        (f"feed 1 {have(0)}", "taken 9"),
        ("head", "2 1 0 nobody 2"),
        ("count 0", "2"),
        ("count 8", "1"),
        ("count 9", refused(31)),
        ("count 4294967296", refused(31)),
        ("leave 0", "left"),
        ("count 0", "1"),
        ("head", "1 1 0 nobody 2"),
        ("leave 1", "left"),
        ("head", "0 0 0 nobody 2"),
        *[(f"count {piece}", "0") for piece in range(9)],
        ("sit", "seat 0"),
        ("seat 0", "fresh 0 1 0 1 0 0"),
        (f"feed 0 {bitfield('ff7f')}", refused(33)),
        (f"feed 0 {bitfield('ff00')}", "taken 7"),
        ("head", "1 0 0 nobody 2"),
        ("scarcest", "piece 8"),
    )


def pages():
    pairs = [("start 1 16384 1 6", "started"), ("missing 0 9", "- of 0 next 6"), ("missing 6 0", "- of 0 next 6")]
    pairs += [("sit", f"seat {seat}") for seat in range(6)]
    pairs += [(f"feed 1 {have(0)}", "taken 9"), (f"feed 5 {bitfield('80')}", "taken 6"), ("leave 3", "left")]
    return steps(
        *pairs,
        ("missing 0 9", "0,2,4 of 3 next 6"),
        ("missing 0 3", "0,2,4 of 3 next 6"),
        ("missing 0 2", "0,2 of 3 next 4"),
        ("missing 0 1", "0 of 3 next 2"),
        ("missing 0 0", "- of 3 next 0"),
        ("missing 1 1", "2 of 3 next 4"),
        ("missing 1 0", "- of 3 next 2"),
        ("missing 3 5", "4 of 3 next 6"),
        ("missing 4 1", "4 of 3 next 6"),
        ("missing 5 5", "- of 3 next 6"),
        ("missing 6 5", "- of 3 next 6"),
        ("missing 7 5", refused(36)),
        ("missing 7 0", refused(36)),
        ("missing 4294967296 1", refused(36)),
        ("head", "5 2 0 nobody 5"),
    )


def full_yard():
    """2,000 seats and 16,384 pieces: even seats have all, odd ones all but the last; then every second pair leaves."""
    everything = bitfield("ff" * 2048)
    but_last = bitfield("ff" * 2047 + "fe")
    odd = [seat for seat in range(2000) if seat % 2]
    gone = [seat for seat in range(2000) if seat % 4 in (0, 1)]
    stay = [seat for seat in odd if seat not in set(gone)]
    return steps(
        ("start 16384 16384 1 2000", "started"),
        *[("sit", f"seat {seat}") for seat in range(2000)],
        ("sit", refused(35)),
        ("missing 0 0", "- of 2000 next 0"),
        *[(f"feed {seat} {but_last if seat % 2 else everything}", "taken 2053") for seat in range(2000)],
        ("head", "2000 1000 0 nobody 1999"),
        ("count 0", "2000"),
        ("count 16383", "1000"),
        ("count 16384", refused(31)),
        ("scarcest", "piece 16383"),
        ("missing 0 3", "1,3,5 of 1000 next 7"),
        ("missing 0 2000", f"{','.join(map(str, odd))} of 1000 next 2000"),
        ("missing 1999 1", "1999 of 1000 next 2000"),
        ("missing 2000 1", "- of 1000 next 2000"),
        ("missing 2001 1", refused(36)),
        (f"feed 1999 {have(16383)}", "taken 9"),
        ("head", "2000 1001 0 nobody 1999"),
        (f"feed 1999 {have(16384)}", refused(31)),
        (f"feed 1999 {everything}", refused(30)),
        (f"feed 2000 {KEEPALIVE}", refused(36)),
        (f"feed 0 {request(16383, 0, 1)}", "drop 17"),
        (f"feed 0 {request(16383, 0, 2)}", refused(34)),
        (f"feed 0 {request(16384, 0, 1)}", refused(31)),
        *[(f"leave {seat}", "left") for seat in gone],
        ("leave 0", refused(36)),
        ("head", "1000 501 0 nobody 1999"),
        ("count 0", "1000"),
        ("count 16383", "501"),
        ("missing 0 2", f"{stay[0]},{stay[1]} of 499 next {stay[2]}"),
        ("sit", "seat 0"),
        (f"feed 0 {bitfield('ff' * 2047)}", refused(32)),
        (f"feed 0 {bitfield('00' * 2048)}", "taken 2053"),
        ("sit", "seat 1"),
        ("count 0", "1000"),
        ("seat 0", "used 0 1 0 1 0 0"),
        ("seat 2", "used 16384 1 0 1 0 0"),
        ("start 16384 16384 1 2000", "started"),
        ("head", "0 0 0 nobody 1999"),
        ("scarcest", "piece 0"),
        ("missing 0 10", "- of 0 next 2000"),
    )


SMALL = {
    "yard-document": document,
    "yard-starts": starts,
    "yard-seats": lambda: seats() + marks(),
    "yard-frames": lambda: serving() + freshness(),
    "yard-keepalives": keepalives,
    "yard-counts": lambda: counting() + pages(),
}
BIG = {"yard-full": full_yard, "yard-many-keepalives": many_keepalives}

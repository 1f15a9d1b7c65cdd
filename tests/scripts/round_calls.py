"""The yard's rounds: who is unchoked, whose the free place is, and which bytes count."""

from notation import refused
from yard_calls import CHOKE, INTERESTED, KEEPALIVE, NOT_INTERESTED, UNCHOKE, bitfield, block, cancel, have, request, steps


def begun(seats):
    """A yard of one piece. Each truck says something as soon as it sits, so that none is fresh."""
    return [(f"start 1 16384 16384 {seats}", "started"), *[pair for seat in range(seats) for pair in sits(seat)]]


def sits(seat):
    return [("sit", f"seat {seat}"), (f"feed {seat} {NOT_INTERESTED}", "taken 5")]


def wants(*seats):
    return [(f"feed {seat} {INTERESTED}", "taken 5") for seat in seats]


def wants_no_more(*seats):
    return [(f"feed {seat} {NOT_INTERESTED}", "taken 5") for seat in seats]


def sends(*lengths):
    """A block from each seat, of so many bytes; none for 0."""
    return [(f"feed {seat} {block(0, 0, length)}", f"taken {length + 13}") for seat, length in enumerate(lengths) if length]


def leaves(*seats):
    return [(f"leave {seat}", "left") for seat in seats]


def a_round(unchoked, free):
    return [("round", f"unchoked {unchoked} free {free}")]


def head(taken, number, free, last):
    """A head with nobody complete."""
    return [("head", f"{taken} 0 {number} {free} {last}")]


def seats(*records):
    """The seats from the first on: c or u, we choke or don't; i where they are interested; the bytes. Or free."""
    return [(f"seat {seat}", shown(record)) for seat, record in enumerate(records)]


def shown(record):
    if record == "free":
        return record
    marks = record.rstrip("0123456789")
    return f"used 0 {marks.startswith('c'):d} 0 1 {marks.endswith('i'):d} {record[len(marks):] or 0}"


def empty():
    return [
        ("start 1 16384 16384 2", "started"),
        *a_round(0, "nobody"), *head(0, 1, "nobody", 1), *seats("free", "free"),
        *a_round(0, "nobody"), *a_round(0, "nobody"), *a_round(0, "nobody"), *head(0, 1, "nobody", 1), *seats("free", "free"),
    ]


def few():
    """None, one, four, five and six of them interested; a truck that is not is choked, whatever it sent."""
    pairs = []
    for interested, free, after in [
        ((), "nobody", ["c", "c", "c", "c", "c", "c"]),
        ((3,), 3, ["c", "c", "c", "ui", "c", "c"]),
        ((5,), 5, ["c", "c", "c", "c", "c", "ui"]),
        ((0, 2, 4, 5), 0, ["ui", "c", "ui", "c", "ui", "ui"]),
        ((1, 2, 3, 4), 1, ["c", "ui", "ui", "ui", "ui", "c"]),
    ]:
        pairs += [*begun(6), *wants(*interested), *sends(9, 9, 1, 0, 9, 9), ("choke 0 0 5", UNCHOKE), ("choke 1 0 5", UNCHOKE)]
        pairs += [*a_round(len(interested), free), *seats(*after), *head(6, 1, free, 5 if free == "nobody" else free)]
    # Of five the one that sent least is left out; the free place makes up for it where it is that one's.
    pairs += [*begun(6), *wants(1, 2, 3, 4, 5), *sends(9, 5, 4, 1, 3, 2), *a_round(4, 1)]
    pairs += [*seats("c", "ui", "ui", "ci", "ui", "ui"), *head(6, 1, 1, 1)]
    pairs += [*begun(6), *wants(1, 2, 3, 4, 5), *sends(9, 1, 2, 3, 4, 5), *a_round(5, 1)]
    pairs += [*seats("c", "ui", "ui", "ui", "ui", "ui"), *head(6, 1, 1, 1)]
    pairs += [*begun(6), *wants(0, 1, 2, 3, 4, 5), *sends(1, 2, 3, 4, 5, 6), *a_round(5, 0)]
    pairs += [*seats("ui", "ci", "ui", "ui", "ui", "ui"), *head(6, 1, 0, 0)]
    return pairs


def ties():
    """As many bytes: the lower seats."""
    return [
        *begun(8), *wants(*range(8)),
        *a_round(4, 0), *seats("ui", "ui", "ui", "ui", "ci", "ci", "ci", "ci"),
        *sends(1, 5, 5, 5, 5, 5, 9), *seats("ui1", "ui5", "ui5", "ui5", "ci5", "ci5", "ci9", "ci"),
        *a_round(5, 0), *seats("ui", "ui", "ui", "ui", "ci", "ci", "ui", "ci"),
        *sends(0, 0, 7, 7, 7, 7, 7, 7),
        *a_round(5, 0), *seats("ui", "ci", "ui", "ui", "ui", "ui", "ci", "ci"),
        *sends(2, 2, 2, 2, 2, 2, 2, 3), *wants_no_more(0),
        *a_round(4, 1), *seats("c", "ui", "ui", "ui", "ci", "ci", "ci", "ui"),
        *sends(0, 0, 0, 0, 1, 2, 1, 1),
        *a_round(5, 1), *seats("c", "ui", "ci", "ci", "ui", "ui", "ui", "ui"),
        *head(8, 2, 1, 1),
    ]


def seven():
    """Rounds 1 to 7: the free place goes on at the first, the fourth and the seventh; bytes count for one round."""
    pairs = [*begun(6), *wants(*range(6)), *head(6, 0, "nobody", 5)]
    for sent, free, number, after in [
        ((0, 0, 2, 3, 4, 5), 0, 1, ["ui", "ci", "ui", "ui", "ui", "ui"]),
        ((0, 0, 0, 0, 0, 1), 0, 2, ["ui", "ui", "ui", "ci", "ci", "ui"]),
        ((0, 1, 1, 1, 1, 0), 0, 0, ["ui", "ui", "ui", "ui", "ui", "ci"]),
        ((0, 0, 1, 1, 1, 1), 1, 1, ["ci", "ui", "ui", "ui", "ui", "ui"]),
        ((1, 1, 1, 1, 1, 1), 1, 2, ["ui", "ui", "ui", "ui", "ci", "ci"]),
        ((9, 0, 1, 2, 1, 1), 1, 0, ["ui", "ui", "ui", "ui", "ui", "ci"]),
        ((5, 4, 0, 3, 2, 1), 2, 1, ["ui", "ui", "ui", "ui", "ui", "ci"]),
    ]:
        pairs += [*sends(*sent), *a_round(sum(mark == "ui" for mark in after), free), *seats(*after), *head(6, number, free, free)]
    return pairs


def holder_leaves():
    """Leaving gives the free place up, and sitting down again does not bring it back."""
    left = [
        *begun(6), *wants(*range(6)), *sends(0, 1, 1, 1, 1, 1), *a_round(5, 0), *head(6, 1, 0, 0),
        *sends(3, 2), *leaves(0), ("seat 0", "free"), *head(5, 1, "nobody", 0),
    ]
    return [
        *left,
        *a_round(4, "nobody"), *seats("free", "ui", "ui", "ui", "ui", "ci"), *head(5, 2, "nobody", 0),
        *leaves(1), *a_round(4, "nobody"), *seats("free", "free", "ui", "ui", "ui", "ui"), *head(4, 0, "nobody", 0),
        *sits(0), *wants(0), *a_round(4, 2), *seats("ui", "free", "ui", "ui", "ui", "ci"), *head(5, 1, 2, 2),
        *left,
        ("sit", "seat 0"), ("seat 0", "fresh 0 1 0 1 0 0"), *head(6, 1, "nobody", 0), *wants(0), *seats("ci"), *head(6, 1, "nobody", 0),
        *sends(0, 0, 4, 5, 6, 7), *a_round(4, "nobody"), *seats("ci", "ci", "ui", "ui", "ui", "ui"), *head(6, 2, "nobody", 0),
        *a_round(4, "nobody"), *seats("ui", "ui", "ui", "ui", "ci", "ci"), *head(6, 0, "nobody", 0),
        *a_round(4, 1), *seats("ui", "ui", "ui", "ui", "ci", "ci"), *head(6, 1, 1, 1),
        # One that leaves and was not the holder takes nothing with it.
        *leaves(3), *head(5, 1, 1, 1), *a_round(4, 1), *seats("ui", "ui", "ui", "free", "ui", "ci"), *head(5, 2, 1, 1),
    ]


def another_sits():
    """A truck that leaves and another on its seat: bytes, interest and the mark are not its own."""
    return [
        *begun(3), *wants(0, 1, 2), *sends(9, 5, 4), *a_round(3, 0), *sends(8, 7, 6), *seats("ui8", "ui7", "ui6"),
        *leaves(1), ("seat 1", "free"), ("sit", "seat 1"), ("seat 1", "fresh 0 1 0 1 0 0"),
        *a_round(2, 0), *seats("ui"), ("seat 1", "fresh 0 1 0 1 0 0"), ("seat 2", "used 0 0 0 1 1 0"), *head(3, 2, 0, 0),
        *sends(0, 3), *seats("ui", "c3", "ui"), *wants(1), *seats("ui", "ci3", "ui"), *leaves(1), *sits(1), *wants(1), *seats("ui", "ci", "ui"),
        *a_round(3, 0), *seats("ui", "ui", "ui"), *head(3, 0, 0, 0),
        # It comes in with none, so the others go before it.
        *begun(6), *wants(*range(6)), *sends(9, 9, 9, 9, 9, 9), *leaves(2), *sits(2), *wants(2), *sends(0, 0, 1),
        *a_round(4, 0), *seats("ui", "ui", "ci", "ui", "ui", "ci"),
    ]


def interest_lost():
    """The holder keeps the free place, interested or not, until it goes on."""
    return [
        *begun(3), *wants(0, 1), *a_round(2, 0), *seats("ui", "ui", "c"), *wants_no_more(0),
        *seats("u", "ui", "c"), *head(3, 1, 0, 0),
        *a_round(2, 0), *seats("u", "ui", "c"), *head(3, 2, 0, 0),
        *wants_no_more(1), *a_round(1, 0), *seats("u", "c", "c"), *head(3, 0, 0, 0),
        # Nobody wants it, so it is nobody's, and where it last was stays.
        *a_round(0, "nobody"), *seats("c", "c", "c"), *head(3, 1, "nobody", 0),
        *wants(2, 0), *a_round(2, "nobody"), *seats("ui", "c", "ui"), *head(3, 2, "nobody", 0),
        *a_round(2, "nobody"), *head(3, 0, "nobody", 0),
        *a_round(2, 2), *seats("ui", "c", "ui"), *head(3, 1, 2, 2),
        *a_round(2, 2), *a_round(2, 2), *wants(1), *a_round(3, 0), *seats("ui", "ui", "ui"), *head(3, 1, 0, 0),
    ]


def only_the_last():
    """The last holder is the next one too if no other wants the free place."""
    pairs = []
    for seat, marks in [(0, ["ui", "c", "c"]), (1, ["c", "ui", "c"]), (2, ["c", "c", "ui"])]:
        pairs += [*begun(3), *wants(seat)]
        for number in (1, 2, 0, 1, 2, 0, 1):
            pairs += [*a_round(1, seat), *seats(*marks), *head(3, number, seat, seat)]
        # It leaves and comes back: the same seat.
        pairs += [*leaves(seat), *head(2, 1, "nobody", seat), *sits(seat), *wants(seat)]
        pairs += [*a_round(1, "nobody"), *a_round(1, "nobody"), *a_round(1, seat), *seats(*marks), *head(3, 1, seat, seat)]
    # A yard of one seat.
    pairs += [*begun(1), *head(1, 0, "nobody", 0), *a_round(0, "nobody"), *wants(0)]
    pairs += [*a_round(1, "nobody"), *seats("ui"), *a_round(1, "nobody"), *a_round(1, 0), *head(1, 1, 0, 0), *seats("ui")]
    return pairs


def all_leave():
    return [
        *begun(3), *wants(0, 1, 2), *sends(1, 2, 3), *a_round(3, 0), *sends(1, 2, 3), *a_round(3, 0), *a_round(3, 0), *a_round(3, 1),
        *sends(3, 2, 1), *leaves(1), *head(2, 1, "nobody", 1), *leaves(2, 0), *head(0, 1, "nobody", 1), *seats("free", "free", "free"),
        *a_round(0, "nobody"), *head(0, 2, "nobody", 1), *a_round(0, "nobody"), *a_round(0, "nobody"), *head(0, 1, "nobody", 1),
        *seats("free", "free", "free"), ("leave 0", refused(36)), (f"feed 1 {INTERESTED}", refused(36)), ("choke 2 0 5", refused(36)),
        *sits(0), *sits(1), *sits(2), *seats("c", "c", "c"), *wants(0, 1, 2),
        *a_round(3, "nobody"), *a_round(3, "nobody"), *a_round(3, 2), *head(3, 1, 2, 2), *seats("ui", "ui", "ui"),
    ]


def own_chokes():
    """Our own choke calls hold until the next round, which asks nothing of them."""
    return [
        *begun(3), *wants(0, 1), *a_round(2, 0), *seats("ui", "ui", "c"), *head(3, 1, 0, 0),
        ("choke 0 1 5", CHOKE), ("choke 2 0 5", UNCHOKE), *seats("ci", "ui", "u"), *head(3, 1, 0, 0),
        ("choke 1 1 4", refused(37)), *seats("ci", "ui", "u"),
        *sends(4, 5, 6), *seats("ci4", "ui5", "u6"),
        *a_round(2, 0), *seats("ui", "ui", "c"), *head(3, 2, 0, 0),
        ("interest 2 1 5", INTERESTED), *a_round(2, 0), ("seat 2", "used 0 1 1 1 0 0"), ("interest 2 0 5", NOT_INTERESTED),
        # Their own marks are theirs.
        (f"feed 1 {UNCHOKE}", "taken 5"), *a_round(2, 1), ("seat 1", "used 0 0 0 0 1 0"), *head(3, 1, 1, 1),
        *wants_no_more(1), ("choke 1 1 5", CHOKE), *a_round(2, 1), ("seat 1", "used 0 0 0 0 0 0"), *head(3, 2, 1, 1),
    ]


def bytes_that_count():
    """Block bytes of taken piece frames, and nothing else."""
    pairs = [("start 3 16384 5 2", "started"), *sits(0), *sits(1), *wants(0, 1)]
    sent = 0
    for frame, answer, more in [
        (block(0, 0, 1), "taken 14", 1),
        (block(1, 16383, 1), "taken 14", 1),
        (block(2, 0, 5), "taken 18", 5),
        (block(2, 4, 1), "taken 14", 1),
        # The block of another frame comes only when that is fed.
        (block(2, 0, 2) + block(2, 0, 3), "taken 15", 2),
        (block(3, 0, 1), refused(31), 0),
        (block(2**32 - 1, 0, 9), refused(31), 0),
        (block(2, 0, 6), refused(34), 0),
        (block(2, 5, 1), refused(34), 0),
        (block(1, 16383, 2), refused(34), 0),
        (block(0, 2**32 - 1, 1), refused(34), 0),
        # No block at all, and one that is too long for a frame.
        (block(0, 0, 0), refused(21), 0),
        ("0000400a07" + "00" * 8, refused(20), 0),
        (block(0, 0, 3)[:-2], "wait", 0),
        (block(0, 0, 3)[:8], "wait", 0),
        (request(0, 0, 16384), "drop 17", 0),
        (cancel(0, 0, 16384), "taken 17", 0),
        (KEEPALIVE, "taken 4", 0),
        ("0000000314abab", "taken 7", 0),
        (bitfield("e0"), refused(30), 0),
        (have(3), refused(31), 0),
        (CHOKE, "taken 5", 0),
        (f"0000400907{0:08x}{0:08x}.ab*16384", "taken 16397", 16384),
    ]:
        sent += more
        pairs += [(f"feed 0 {frame}", answer), *seats(f"ci{sent}", "ci")]
    pairs += [(f"feed 2 {block(0, 0, 1)}", refused(36)), *leaves(1), (f"feed 1 {block(0, 0, 1)}", refused(36)), *sits(1), *wants(1), *seats(f"ci{sent}", "ci")]
    # Refused ones do not help: the fifth and the sixth that are interested.
    pairs += [*begun(6), *wants(*range(6)), *sends(0, 2, 2, 2, 2, 1)]
    pairs += [(f"feed 5 {frame}", answer) for frame, answer in [(block(1, 0, 9), refused(31)), (block(0, 16380, 9), refused(34)), (block(0, 0, 9)[:-2], "wait")]]
    pairs += [*seats("ci", "ci2", "ci2", "ci2", "ci2", "ci1"), *a_round(5, 0), *seats("ui", "ui", "ui", "ui", "ui", "ci")]
    # Bytes sent before a truck is interested count.
    pairs += [*wants_no_more(5), *sends(1, 1, 1, 1, 1, 3), *seats("ui1", "ui1", "ui1", "ui1", "ui1", "c3"), *wants(5)]
    pairs += [*a_round(4, 0), *seats("ui", "ui", "ui", "ci", "ci", "ui"), *head(6, 2, 0, 0)]
    # One block more, of one byte.
    pairs += [*sends(4, 4, 4, 4, 4, 2), *sends(0, 0, 0, 0, 0, 3), *seats("ui4", "ui4", "ui4", "ci4", "ci4", "ui5"), *a_round(4, 0)]
    pairs += [*seats("ui", "ui", "ui", "ci", "ci", "ui"), *head(6, 0, 0, 0)]
    return pairs


def what_stays():
    """A round changes no announcement and nobody's freshness; requests are answered by its marks."""
    ask = request(0, 0, 1)
    return [
        ("start 9 16384 16384 4", "started"), ("sit", "seat 0"), ("sit", "seat 1"), ("sit", "seat 2"), ("round", "unchoked 0 free nobody"),
        ("seat 0", "fresh 0 1 0 1 0 0"), (f"feed 0 {bitfield('ff80')}", "taken 7"), (f"feed 1 {have(3)}", "taken 9"), *wants(0, 1),
        (f"feed 0 {ask}", "drop 17"), (f"feed 0 {block(0, 0, 1)}", "taken 14"),
        ("head", "3 1 1 nobody 3"), *a_round(2, "nobody"), ("head", "3 1 2 nobody 3"),
        ("seat 0", "used 9 0 0 1 1 0"), ("seat 1", "used 1 0 0 1 1 0"), ("seat 2", "fresh 0 1 0 1 0 0"), ("seat 3", "free"), ("seat 4", refused(36)),
        ("count 3", "2"), ("count 4", "1"), ("missing 0 9", "1,2 of 2 next 4"), ("scarcest", "piece 0"),
        (f"feed 0 {ask}", "serve 17"), (f"feed 1 {ask}", "serve 17"), (f"feed 2 {bitfield('8000')}", "taken 7"), (f"feed 2 {ask}", "drop 17"),
        *wants_no_more(1), (f"feed 1 {ask}", "drop 17"), *wants(1), (f"feed 1 {ask}", "serve 17"), *wants_no_more(1), *wants(2),
        *a_round(2, "nobody"), (f"feed 2 {ask}", "serve 17"), *wants(1), (f"feed 1 {ask}", "drop 17"), *wants_no_more(1), *a_round(2, 0),
        ("head", "3 1 1 0 0"), ("count 0", "2"), ("seat 2", "used 1 0 0 1 1 0"), ("seat 1", "used 1 1 0 1 0 0"), ("sit", "seat 3"), ("head", "4 1 1 0 0"),
        ("leave 0", "left"), ("head", "3 0 1 nobody 0"), ("count 3", "1"),
    ]


def second_start():
    """A start forgets the rounds, and a refused one does not."""
    return [
        *begun(3), *wants(0, 1, 2), *sends(1, 2, 3), *a_round(3, 0), *a_round(3, 0), *sends(1, 2, 3), *head(3, 2, 0, 0),
        ("start 1 16384 0 3", refused(38)), ("start 0 16384 1 3", refused(38)), *head(3, 2, 0, 0), *seats("ui1", "ui2", "ui3"),
        ("start 1 16384 16384 3", "started"), *head(0, 0, "nobody", 2), *seats("free", "free", "free"),
        *sits(0), *sits(1), *seats("c", "c", "free"), *wants(1, 0), *a_round(2, 0), *head(2, 1, 0, 0),
        *begun(5), *head(5, 0, "nobody", 4), *seats("c", "c", "c", "c", "c"), *wants(4), *a_round(1, 4), *head(5, 1, 4, 4),
        ("start 1 16384 16384 2", "started"), *head(0, 0, "nobody", 1), *a_round(0, "nobody"), *head(0, 1, "nobody", 1),
    ]


def full_yard():
    """2,000 seats, all of them interested; the last ones hold the free place, and it goes round."""
    sent = [1 + seat * 7 % 11 for seat in range(2000)]
    best = [seat for seat in range(2000) if sent[seat] == 11][:4]
    pairs = [*begun(2000), *wants(*range(2000)), *a_round(4, 0), *seats(*["ui"] * 4, *["ci"] * 1996), *head(2000, 1, 0, 0)]
    pairs += [*sends(*sent), *a_round(5, 0), *seats(*["ui" if seat in best or seat == 0 else "ci" for seat in range(2000)])]
    # The last four sent most.
    pairs += [*sends(*[1] * 1996, 2, 3, 4, 5), *a_round(5, 0), *head(2000, 0, 0, 0)]
    pairs += [*seats("ui", *["ci"] * 1995, *["ui"] * 4)]
    pairs += [*wants_no_more(*range(1998)), *a_round(2, 1998), *head(2000, 1, 1998, 1998), *seats(*["c"] * 1998, "ui", "ui")]
    pairs += [*a_round(2, 1998), *a_round(2, 1998), *a_round(2, 1999), *head(2000, 1, 1999, 1999), *wants(1000)]
    pairs += [*a_round(3, 1999), *a_round(3, 1999), *a_round(3, 1000), *head(2000, 1, 1000, 1000)]
    pairs += [*leaves(*range(1000, 2000)), *head(1000, 1, "nobody", 1000), *a_round(0, "nobody"), *head(1000, 2, "nobody", 1000)]
    pairs += [*seats(*["c"] * 1000, *["free"] * 1000)]
    return pairs


def written(*tables):
    return lambda: steps(*[pair for table in tables for pair in table()])


SMALL = {
    "yard-rounds": written(empty, few, ties, seven),
    "yard-rounds-holder": written(holder_leaves, another_sits, interest_lost, only_the_last, all_leave),
    "yard-rounds-bytes": written(own_chokes, bytes_that_count, what_stays, second_start),
}
BIG = {"yard-rounds-full": written(full_yard)}

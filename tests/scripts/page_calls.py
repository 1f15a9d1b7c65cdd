"""The missing list on paper of any size: page after page, each from the seat that the one before called next, until that is the number of seats."""

import itertools
from random import Random

from yard_calls import have, steps


def begun(seats, missing):
    """A yard of one piece with a truck at each seat, of which all but the missing ones have it."""
    loaded = sorted(set(range(seats)) - set(missing))
    return [
        (f"start 1 16384 16384 {seats}", "started"),
        *[("sit", f"seat {seat}") for seat in range(seats)],
        *[(f"feed {seat} {have(0)}", "taken 9") for seat in loaded],
    ]


def pages(seats, missing, rooms):
    """The pages of so many lines that it takes to list these seats."""
    pairs, first, listed = [], 0, 0
    for room in rooms:
        lines = missing[listed : listed + room]
        listed += len(lines)
        onward = missing[listed] if listed < len(missing) else seats
        pairs.append((f"missing {first} {room}", f"{','.join(map(str, lines)) or '-'} of {len(missing)} next {onward}"))
        if onward == seats:
            return pairs
        first = onward


def always(room):
    return itertools.repeat(room)


def drawn(seed, most):
    rng = Random(seed)
    return (rng.randint(1, most) for _ in itertools.count())


def all_sizes(seats, missing, rooms):
    """Pages of each of these sizes, then of sizes that change from page to page."""
    pairs = []
    for room in rooms:
        pairs += pages(seats, missing, always(room))
    for seed, most in enumerate((2, 3, 9, 100)):
        pairs += pages(seats, missing, drawn(seed, most))
    return pairs


def small():
    """Seven seats: nobody sits, nobody is missing, all are, every third, the first alone, the last alone; then some leave."""
    sizes = (1, 2, 3, 6, 7, 8)
    pairs = [("start 1 16384 16384 7", "started"), *all_sizes(7, [], sizes)]
    for missing in [], list(range(7)), [0, 3, 6], [0], [6]:
        pairs += [*begun(7, missing), *all_sizes(7, missing, sizes)]
    pairs += [*begun(7, range(7)), ("leave 0", "left"), ("leave 3", "left"), ("leave 6", "left"), *all_sizes(7, [1, 2, 4, 5], sizes)]
    # One seat, the smallest yard.
    pairs += [("start 1 16384 16384 1", "started"), *all_sizes(1, [], (1, 2)), ("sit", "seat 0"), *all_sizes(1, [0], (1, 2))]
    return pairs


def full_yard():
    """2,000 seats: nobody sits, nobody is missing, all are, every third."""
    sizes = (1, 2, 7, 1999, 2000, 2001)
    pairs = [("start 1 16384 16384 2000", "started"), *all_sizes(2000, [], sizes)]
    for missing in [], list(range(2000)), list(range(0, 2000, 3)):
        pairs += [*begun(2000, missing), *all_sizes(2000, missing, sizes)]
    return pairs


SMALL = {"yard-pages": lambda: steps(*small())}
BIG = {"yard-pages-full": lambda: steps(*full_yard())}

"""The yard: who sits where, which pieces each truck has announced, and whom the rounds unchoke.

Nothing is counted along the way. Seats taken, seats complete, pieces held and holders of a piece are worked out, when
they are asked for, from what the trucks now seated have announced since they sat down; a truck's bytes from the blocks
that came, the round number and the free place from the rounds that were. So no count can be damaged, and 39 is given
for nothing but blocks of more than 2^53 bytes between two rounds.
"""

from collections import namedtuple

import blocks
import wire
from refusal import refuse_unless

MOST_SEATS = 2_000
MOST_BYTES = 2**53
# The free place goes on at the first round and at every third after it; so many trucks are unchoked for their bytes.
ROUNDS, PLACES = 3, 4

# seats: those that fit; total: of the whole yard; next: the first one that is not listed, or the number of seats.
Page = namedtuple("Page", "seats total next")
# Who has the free place after a round: the seat, and the truck that sat there.
Holder = namedtuple("Holder", "seat truck")


class Truck:
    """What is known of the truck in a taken seat. has: for each piece 1 if it has announced it, else 0."""

    def __init__(self, pieces):
        self.fresh = True
        self.we_choke = True
        self.we_are_interested = False
        self.they_choke = True
        self.they_are_interested = False
        self.has = bytearray(pieces)
        # The block of each piece frame taken: after how many rounds it came, and its bytes.
        self.blocks = []

    def held(self):
        return self.has.count(1)

    def is_complete(self):
        return self.held() == len(self.has)

    def sent_after(self, rounds):
        return sum(length for after, length in self.blocks if after == rounds)


class Yard:
    def __init__(self, pieces, piece_length, last_length, seats):
        refuse_unless(1 <= pieces <= blocks.MOST_PIECES, 38)
        refuse_unless(1 <= seats <= MOST_SEATS, 38)
        refuse_unless(blocks.is_piece_length(piece_length), 38)
        refuse_unless(1 <= last_length <= piece_length, 38)
        self.pieces = pieces
        self.piece_length = piece_length
        self.last_length = last_length
        # A free seat is None.
        self.seats = [None] * seats
        # The holder of the free place, or None, after each round.
        self.rounds = []

    def sit(self):
        """The lowest free seat, now taken."""
        refuse_unless(None in self.seats, 35)
        seat = self.seats.index(None)
        self.seats[seat] = Truck(self.pieces)
        return seat

    def leave(self, seat):
        self.truck_at(seat)
        self.seats[seat] = None

    def feed(self, seat, data):
        """The first frame of the bytes, taken, with "taken", "serve" or "drop"; or WAIT."""
        truck = self.truck_at(seat)
        frame = wire.read_frame(data)
        if frame == wire.WAIT:
            return wire.WAIT
        answer = self.take(truck, frame)
        # A keepalive says nothing.
        truck.fresh = truck.fresh and frame.id == wire.KEEPALIVE
        return f"{answer} {frame.used}"

    def set_choke(self, seat, on, room):
        truck = self.truck_at(seat)
        frame = wire.write_frame(wire.CHOKE if on else wire.UNCHOKE, b"", room)
        truck.we_choke = on
        return frame

    def set_interest(self, seat, on, room):
        truck = self.truck_at(seat)
        frame = wire.write_frame(wire.INTERESTED if on else wire.NOT_INTERESTED, b"", room)
        truck.we_are_interested = on
        return frame

    def round(self):
        """How many trucks are now unchoked."""
        holder = self.next_holder() if self.round_number() == 0 else self.holder()
        best = sorted(self.interested(), key=lambda seat: (-self.sent(self.seats[seat]), seat))[:PLACES]
        unchoked = {*best, holder.seat} if holder else {*best}
        for seat, truck in enumerate(self.seats):
            if truck:
                truck.we_choke = seat not in unchoked
        self.rounds.append(holder)
        return len(unchoked)

    def missing(self, first, room):
        refuse_unless(first <= len(self.seats), 36)
        missing = [seat for seat, truck in enumerate(self.seats) if truck and not truck.is_complete()]
        ahead = [seat for seat in missing if seat >= first]
        unlisted = ahead[room:]
        return Page(ahead[:room], len(missing), unlisted[0] if unlisted else len(self.seats))

    def scarcest(self):
        """The smallest number among the pieces with fewest holders."""
        rows = [truck.has for truck in self.trucks()]
        holders = [sum(column) for column in zip(*rows)] or [0]
        return holders.index(min(holders))

    def taken(self):
        return len(self.trucks())

    def complete(self):
        return sum(truck.is_complete() for truck in self.trucks())

    def round_number(self):
        return len(self.rounds) % ROUNDS

    def holder(self):
        """Who has the free place, or None: the truck that had it after the last round, if it still sits."""
        holder = self.rounds[-1] if self.rounds else None
        return holder if holder and self.seats[holder.seat] is holder.truck else None

    def last(self):
        """The seat of the last one that had the free place, or the last seat."""
        had = [holder.seat for holder in self.rounds if holder]
        return had[-1] if had else len(self.seats) - 1

    def next_holder(self):
        """The first one that is interested, going round from the seat after the last one's, or None."""
        last, interested = self.last(), self.interested()
        ahead = [seat for seat in interested if seat > last] + [seat for seat in interested if seat <= last]
        return Holder(ahead[0], self.seats[ahead[0]]) if ahead else None

    def interested(self):
        return [seat for seat, truck in enumerate(self.seats) if truck and truck.they_are_interested]

    def sent(self, truck):
        """The bytes of blocks that a truck has sent since the last round, or since it sat down."""
        return truck.sent_after(len(self.rounds))

    def holders(self, piece):
        refuse_unless(piece < self.pieces, 31)
        return sum(truck.has[piece] for truck in self.trucks())

    def look(self, seat):
        """The truck in a seat, or None."""
        refuse_unless(seat < len(self.seats), 36)
        return self.seats[seat]

    def trucks(self):
        return [truck for truck in self.seats if truck]

    def truck_at(self, seat):
        truck = self.look(seat)
        refuse_unless(truck, 36)
        return truck

    def take(self, truck, frame):
        if frame.id in (wire.CHOKE, wire.UNCHOKE):
            truck.they_choke = frame.id == wire.CHOKE
        elif frame.id in (wire.INTERESTED, wire.NOT_INTERESTED):
            truck.they_are_interested = frame.id == wire.INTERESTED
        elif frame.id == wire.HAVE:
            self.take_have(truck, frame.payload)
        elif frame.id == wire.BITFIELD:
            self.take_bitfield(truck, frame.payload)
        elif frame.id in (wire.REQUEST, wire.CANCEL):
            self.check_block(frame.payload, number_at(frame.payload, 8))
        elif frame.id == wire.PIECE:
            self.take_block(truck, frame.payload, len(frame.payload) - 8)
        if frame.id != wire.REQUEST:
            return "taken"
        return "serve" if truck.they_are_interested and not truck.we_choke else "drop"

    def take_have(self, truck, payload):
        piece = number_at(payload, 0)
        refuse_unless(piece < self.pieces, 31)
        truck.has[piece] = 1

    def take_bitfield(self, truck, payload):
        refuse_unless(truck.fresh, 30)
        refuse_unless(len(payload) == (self.pieces + 7) // 8, 32)
        # High bit first: the bits of the payload are those of one number, written in base two.
        bits = format(int.from_bytes(payload, "big"), f"0{8 * len(payload)}b")
        refuse_unless("1" not in bits[self.pieces :], 33)
        # A fresh truck has announced nothing, so these are all it has.
        truck.has = bytearray(bit == "1" for bit in bits[: self.pieces])

    def take_block(self, truck, payload, length):
        self.check_block(payload, length)
        refuse_unless(self.sent(truck) + length <= MOST_BYTES, 39)
        truck.blocks.append((len(self.rounds), length))

    def check_block(self, payload, length):
        piece = number_at(payload, 0)
        refuse_unless(piece < self.pieces, 31)
        is_last = piece == self.pieces - 1
        blocks.check_block(number_at(payload, 4), length, self.last_length if is_last else self.piece_length)


def number_at(payload, at):
    return int.from_bytes(payload[at : at + 4], "big")

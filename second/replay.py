"""The second program: answers a replay script (docs/REPLAY.md), one line for each call.

    python3 second/replay.py < SCRIPT

It is written from documents 01 and 02 and from nothing of the proved code.
"""

import sys
from hashlib import sha1

import bencode
import blocks
import links
import places
import sheets
import torrent
import tracker
import week
import wire
from refusal import Refused, refuse_unless
from yard import Yard


def unhex(word):
    data = bytearray()
    for part in [] if word == "-" else word.split("."):
        if part.startswith("@"):
            data += bytes(place % 251 for place in range(len(data), len(data) + int(part[1:])))
        else:
            digits, _, count = part.partition("*")
            data += bytes.fromhex(digits) * int(count or 1)
    return bytes(data)


def to_hex(data):
    return data.hex() or "-"


def numbers(word):
    found = []
    for item in [] if word == "-" else word.split(","):
        number, _, count = item.partition("*")
        found += [int(number)] * int(count or 1)
    return found


def joined(words):
    return " ".join(map(str, words))


def answer_bencode(text):
    _, count = bencode.read(unhex(text))
    return f"taken {count}"


def answer_walk(text):
    return joined(places.walk(unhex(text)))


def answer_torrent(text):
    found = torrent.read(unhex(text))
    pieces = blocks.pieces_in(found.total, found.piece_length)
    names = f"{to_hex(found.announce)} {to_hex(found.name)}"
    return f"taken {names} {found.piece_length} {pieces} {len(found.files)} {found.total} {to_hex(found.info_hash)}"


def answer_file(text, number):
    file = torrent.file_at(unhex(text), int(number))
    path = "/".join(to_hex(element) for element in file.path)
    return f"{file.start} {file.length} {path}"


def answer_places(text):
    return joined(places.of_torrent(unhex(text)))


def answer_piece(text, number, data):
    return "yes" if torrent.check_piece(unhex(text), int(number), unhex(data)) else "no"


def answer_reply(text):
    reply = tracker.read(unhex(text))
    if reply.failure is not None:
        return f"failure {to_hex(reply.failure)}"
    return f"taken {reply.interval} {len(reply.peers)}"


def answer_peer(text, number):
    peer = tracker.peer_at(unhex(text), int(number))
    peer_id = "none" if peer.id is None else to_hex(peer.id)
    return f"{peer_id} {to_hex(peer.address)} {peer.port}"


def answer_entries(text):
    return joined(places.of_reply(unhex(text)))


def answer_address(text, sheet):
    source, address = sheets.address(unhex(text), unhex(sheet))
    return f"{source} {to_hex(address)}"


def answer_link(text, name_room, address_room):
    link = links.read(unhex(text), int(name_room), int(address_room))
    name, address = ("none" if given is None else to_hex(given) for given in (link.name, link.address))
    return f"{to_hex(link.info_hash)} {name} {address}"


def answer_week(file):
    packages = week.read(unhex(file))
    files, total = sum(package.files for package in packages), sum(package.total for package in packages)
    return f"taken {len(packages)} {files} {total}"


def answer_package(file, number):
    package = week.package_at(unhex(file), int(number))
    return f"{to_hex(package.info_hash)} {package.offset} {package.length} {package.files} {package.total}"


def answer_block(piece_length, lengths, piece, offset, length, room):
    block = int(piece), int(offset), int(length)
    parts = blocks.parts_of_block(int(piece_length), numbers(lengths), *block, int(room.partition("+")[0]))
    return " ".join(f"{file}:{at}:{count}" for file, at, count in parts)


def answer_byte(piece_length, lengths, file, offset):
    piece, at = blocks.piece_of_byte(int(piece_length), numbers(lengths), int(file), int(offset))
    return f"{piece} {at}"


def answer_size(piece_length, lengths, piece):
    content = int(piece_length), numbers(lengths)
    blocks.check_content(*content)
    total = sum(content[1])
    refuse_unless(int(piece) < blocks.pieces_in(total, content[0]), 31)
    return str(blocks.length_of_piece(int(piece), total, content[0]))


def answer_frame(data):
    frame = wire.read_frame(unhex(data))
    if frame == wire.WAIT:
        return "wait"
    return f"taken {frame.used} {frame.id} {to_hex(frame.payload)}"


def waits(read, data):
    """How many of the cuts of the bytes, from none of them to all but one, are waits."""
    return sum(said_of(read, data[:cut]) == wire.WAIT for cut in range(len(data)))


def said_of(read, data):
    try:
        return read(data)
    except Refused as refusal:
        return str(refusal)


def answer_frame_cuts(data):
    data = unhex(data)
    return f"{waits(wire.read_frame, data)} {said_of(fields_of_frame, data)}"


def fields_of_frame(data):
    """The frame with its numbers in decimal and the place of its bytes."""
    frame = wire.read_frame(data)
    if frame == wire.WAIT:
        return frame
    said = ["taken", frame.used, frame.id]
    if frame.id == wire.KEEPALIVE:
        return joined(said)
    count = {wire.HAVE: 1, wire.REQUEST: 3, wire.CANCEL: 3, wire.PIECE: 2}.get(frame.id, 0)
    said += [int.from_bytes(frame.payload[4 * k : 4 * k + 4], "big") for k in range(count)]
    if frame.id in (wire.BITFIELD, wire.PIECE) or frame.id not in wire.LENGTHS:
        said.append(f"{frame.used - len(frame.payload) + 4 * count}:{len(frame.payload) - 4 * count}")
    return joined(said)


def answer_handshake(data, info_hash):
    handshake = wire.read_handshake(unhex(data), unhex(info_hash))
    if handshake == wire.WAIT:
        return "wait"
    return f"taken {to_hex(handshake.free)} {to_hex(handshake.peer_id)}"


def answer_handshake_cuts(data, info_hash):
    data, info_hash = unhex(data), unhex(info_hash)

    def read(data):
        return wire.read_handshake(data, info_hash)

    def places_of_handshake(data):
        return wire.WAIT if read(data) == wire.WAIT else "taken 68 20:8 48:20"

    return f"{waits(read, data)} {said_of(places_of_handshake, data)}"


def answer_write_torrent(announce, name, piece_length, length, pieces, room):
    lengths = int(piece_length), int(length)
    return to_hex(torrent.write(unhex(announce), unhex(name), *lengths, unhex(pieces), int(room)))


def answer_write_link(text, room):
    return to_hex(links.write(unhex(text), int(room)))


def answer_write_week(bodies, lengths, room):
    return to_hex(week.write(unhex(bodies), numbers(lengths), int(room)))


def answer_write_reply(interval, peers, room):
    return to_hex(tracker.write(int(interval), unhex(peers), int(room)))


def answer_write_handshake(info_hash, peer_id, room):
    return to_hex(wire.write_handshake(unhex(info_hash), unhex(peer_id), int(room)))


def answer_write_frame(frame_id, payload, room):
    if frame_id != wire.KEEPALIVE:
        frame_id = int(frame_id)
    return to_hex(wire.write_frame(frame_id, unhex(payload), int(room)))


def answer_sum(call, *words):
    if not call.startswith("write-"):
        raise ValueError(call)
    data = unhex(TEXT_CALLS[call](*words))
    return f"{len(data)}:{sha1(data).hexdigest()}"


def answer_sha1(data):
    return to_hex(torrent.digest_of(unhex(data)))


def answer_sha1_parts(data, lengths):
    data, digest, at = unhex(data), sha1(), 0
    refuse_unless(len(data) <= torrent.LONGEST_PIECE, 8)
    for length in [*numbers(lengths), len(data)]:
        digest.update(data[at : at + length])
        at += length
    return digest.hexdigest()


def answer_sit(yard):
    return f"seat {yard.sit()}"


def answer_leave(yard, seat):
    yard.leave(int(seat))
    return "left"


def answer_feed(yard, seat, data):
    return yard.feed(int(seat), unhex(data))


def answer_choke(yard, seat, on, room):
    return to_hex(yard.set_choke(int(seat), on == "1", int(room)))


def answer_interest(yard, seat, on, room):
    return to_hex(yard.set_interest(int(seat), on == "1", int(room)))


def answer_round(yard):
    return f"unchoked {yard.round()} free {seat_of_holder(yard)}"


def seat_of_holder(yard):
    holder = yard.holder()
    return holder.seat if holder else "nobody"


def answer_missing(yard, first, room):
    page = yard.missing(int(first), int(room))
    seats = ",".join(str(seat) for seat in page.seats) or "-"
    return f"{seats} of {page.total} next {page.next}"


def answer_scarcest(yard):
    return f"piece {yard.scarcest()}"


def answer_head(yard):
    return f"{yard.taken()} {yard.complete()} {yard.round_number()} {seat_of_holder(yard)} {yard.last()}"


def answer_count(yard, piece):
    return str(yard.holders(int(piece)))


def answer_seat(yard, seat):
    truck = yard.look(int(seat))
    if truck is None:
        return "free"
    ours = f"{truck.we_choke:d} {truck.we_are_interested:d}"
    theirs = f"{truck.they_choke:d} {truck.they_are_interested:d}"
    return f"{'fresh' if truck.fresh else 'used'} {truck.held()} {ours} {theirs} {yard.sent(truck)}"


TEXT_CALLS = {
    "bencode": answer_bencode,
    "walk": answer_walk,
    "torrent": answer_torrent,
    "file": answer_file,
    "places": answer_places,
    "piece": answer_piece,
    "reply": answer_reply,
    "peer": answer_peer,
    "entries": answer_entries,
    "address": answer_address,
    "link": answer_link,
    "week": answer_week,
    "package": answer_package,
    "block": answer_block,
    "byte": answer_byte,
    "size": answer_size,
    "frame": answer_frame,
    "frame-cuts": answer_frame_cuts,
    "handshake": answer_handshake,
    "handshake-cuts": answer_handshake_cuts,
    "write-torrent": answer_write_torrent,
    "write-link": answer_write_link,
    "write-week": answer_write_week,
    "write-reply": answer_write_reply,
    "write-handshake": answer_write_handshake,
    "write-frame": answer_write_frame,
    "sum": answer_sum,
    "sha1": answer_sha1,
    "sha1-parts": answer_sha1_parts,
}

YARD_CALLS = {
    "sit": answer_sit,
    "leave": answer_leave,
    "feed": answer_feed,
    "choke": answer_choke,
    "interest": answer_interest,
    "round": answer_round,
    "missing": answer_missing,
    "scarcest": answer_scarcest,
    "head": answer_head,
    "count": answer_count,
    "seat": answer_seat,
}


class Replay:
    """A run of a script: what stays between its calls is the yard."""

    def __init__(self):
        self.yard = None

    def answer(self, line):
        call, *words = line.split(" ")
        try:
            return self.call(call, words)
        except Refused as refusal:
            return str(refusal)

    def call(self, call, words):
        if call == "start":
            self.yard = Yard(*map(int, words))
            return "started"
        if call in TEXT_CALLS:
            return TEXT_CALLS[call](*words)
        answer = YARD_CALLS[call]
        return "no yard" if self.yard is None else answer(self.yard, *words)


def main():
    replay = Replay()
    for number, line in enumerate(sys.stdin, 1):
        line = line.rstrip("\n")
        if not line or line.startswith("#"):
            continue
        try:
            answer = replay.answer(line)
        except (KeyError, TypeError, ValueError) as fault:
            sys.exit(f"line {number} is no call ({fault!r}): {line[:60]}")
        print(answer)


if __name__ == "__main__":
    main()

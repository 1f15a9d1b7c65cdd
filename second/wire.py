"""Frames and the handshake, read and written. A reader that needs more bytes answers WAIT."""

from collections import namedtuple

from refusal import refuse_unless

CHOKE, UNCHOKE, INTERESTED, NOT_INTERESTED, HAVE, BITFIELD, REQUEST, PIECE, CANCEL = range(9)
KEEPALIVE = "keepalive"
WAIT = "wait"

PREFIX = 4
LONGEST_FRAME = 16_393
# The least and the most length of each id, which counts the id and not the prefix. Other ids have any length.
LENGTHS = {
    CHOKE: (1, 1),
    UNCHOKE: (1, 1),
    INTERESTED: (1, 1),
    NOT_INTERESTED: (1, 1),
    HAVE: (5, 5),
    BITFIELD: (2, 2_049),
    REQUEST: (13, 13),
    PIECE: (10, 16_393),
    CANCEL: (13, 13),
}

PROTOCOL = b"\x13BitTorrent protocol"
FREE = 8
HASH_AT = len(PROTOCOL) + FREE
PEER_ID_AT = HASH_AT + 20
HANDSHAKE = PEER_ID_AT + 20

# used: how many of the bytes it took, prefix included; id: a number, or KEEPALIVE.
Frame = namedtuple("Frame", "used id payload")
Handshake = namedtuple("Handshake", "free peer_id")


def read_frame(data):
    """The first frame of the bytes, or WAIT."""
    if len(data) < PREFIX:
        return WAIT
    length = int.from_bytes(data[:PREFIX], "big")
    refuse_unless(length <= LONGEST_FRAME, 20)
    if length == 0:
        return Frame(PREFIX, KEEPALIVE, b"")
    end = PREFIX + length
    if len(data) < end:
        return WAIT
    frame_id = data[PREFIX]
    check_length(frame_id, length)
    return Frame(end, frame_id, data[PREFIX + 1 : end])


def check_length(frame_id, length):
    if frame_id in LENGTHS:
        least, most = LENGTHS[frame_id]
        refuse_unless(least <= length <= most, 21)


def write_frame(frame_id, payload, room):
    body = b"" if frame_id == KEEPALIVE else bytes([frame_id]) + payload
    refuse_unless(len(body) <= LONGEST_FRAME, 20)
    if body:
        check_length(frame_id, len(body))
    return finish_bytes(len(body).to_bytes(PREFIX, "big") + body, room)


def read_handshake(data, info_hash):
    """The handshake that the bytes begin with, or WAIT."""
    present = data[: len(PROTOCOL)]
    refuse_unless(PROTOCOL.startswith(present), 22)
    if len(data) < HANDSHAKE:
        return WAIT
    refuse_unless(data[HASH_AT:PEER_ID_AT] == info_hash, 23)
    return Handshake(data[len(PROTOCOL) : HASH_AT], data[PEER_ID_AT:HANDSHAKE])


def write_handshake(info_hash, peer_id, room):
    return finish_bytes(PROTOCOL + bytes(FREE) + info_hash + peer_id, room)


def finish_bytes(data, room):
    refuse_unless(len(data) <= room, 37)
    return data

"""Tracker replies: read in both forms, asked for one entry, and written in the compact form."""

from collections import namedtuple

import bencode
from bencode import DICTIONARY, INTEGER, LIST, STRING, expect_kind, get, read_number
from refusal import Refused, refuse_unless

LONGEST_INTERVAL = 2**31 - 1
LARGEST_PORT = 65_535
PEER_ID = 20
# Four bytes of address and two of port.
ADDRESS, ENTRY = 4, 6

# With a failure reason there is no interval, and no peers.
Reply = namedtuple("Reply", "failure interval peers")
# id: None in a compact entry.
Peer = namedtuple("Peer", "id address port")


def read(text):
    top, _ = bencode.read(text)
    expect_kind(top, DICTIONARY)
    if b"failure reason" in top.content:
        return Reply(get(top, b"failure reason", STRING).content, None, [])
    interval = read_number(get(top, b"interval", INTEGER), is_interval)
    return Reply(None, interval, read_peers(top))


def read_peers(top):
    refuse_unless(b"peers" in top.content, 10, top.place)
    peers = top.content[b"peers"]
    if peers.kind == STRING:
        refuse_unless(are_entries(peers.content), 15, peers.place)
        return read_compact(peers.content)
    if peers.kind == LIST:
        return [read_peer(item) for item in peers.content]
    raise Refused(10, peers.place)


def read_compact(entries):
    return [read_entry(entries[at : at + ENTRY]) for at in range(0, len(entries), ENTRY)]


def read_entry(entry):
    return Peer(None, entry[:ADDRESS], int.from_bytes(entry[ADDRESS:], "big"))


def read_peer(item):
    expect_kind(item, DICTIONARY)
    peer_id = get(item, b"peer id", STRING)
    refuse_unless(len(peer_id.content) == PEER_ID, 15, peer_id.place)
    ip = get(item, b"ip", STRING)
    port = read_number(get(item, b"port", INTEGER), is_port)
    return Peer(peer_id.content, ip.content, port)


def is_interval(number):
    return 0 <= number <= LONGEST_INTERVAL


def is_port(number):
    return 0 <= number <= LARGEST_PORT


def are_entries(string):
    return len(string) % ENTRY == 0


def peer_at(text, number):
    reply = read(text)
    refuse_unless(number < len(reply.peers), 31)
    return reply.peers[number]


def write(interval, peers, room):
    """A compact reply; the peers are its entries joined."""
    refuse_unless(is_interval(interval), 11)
    refuse_unless(are_entries(peers), 15)
    string, integer = bencode.write_string, bencode.write_integer
    text = b"".join([b"d", string(b"interval"), integer(interval), string(b"peers"), string(peers), b"e"])
    return bencode.finish_text(text, room)

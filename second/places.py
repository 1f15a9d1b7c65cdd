"""Where the parts of a text stand: offsets of the bytes that were read, and of what stands past them."""

import bencode
import torrent
import tracker
from bencode import STRING
from refusal import Refused, refuse_unless

# What refuses the piece past the last, and a file where their list ends.
BEYOND, NO_VALUE = 31, 2


def walk(text):
    """What stands at each place, up to the end of the text or to a refusal."""
    reader = bencode.Reader(text)
    seen = []
    try:
        refuse_unless(len(text) <= bencode.LONGEST_TEXT, 8)
        while not seen or reader.at < len(text):
            seen.append(look(reader))
    except Refused as refusal:
        seen.append(str(refusal))
    return seen


def look(reader):
    first = reader.peek()
    if first in b"lde":
        reader.at += 1
        return first.decode()
    if first != b"i":
        return f"s{reader.string().content.hex() or '-'}"
    integer = reader.integer()
    return f"i{integer.content}" if bencode.is_number(integer) else f"n{integer.content.decode()}"


def inside(string):
    """Where the bytes of a string begin."""
    return string.end - len(string.content)


def part(string):
    return f"{inside(string)}:{len(string.content)}"


def of_torrent(text):
    torrent.read(text)
    top, _ = bencode.read(text)
    info = top.content[b"info"]
    name, pieces = info.content[b"name"], info.content[b"pieces"]
    hashes = [inside(pieces), pieces.end - torrent.DIGEST]
    parts = [part(top.content[b"announce"]), part(name), f"{info.place}:{info.end - info.place}", part(pieces)]
    parts += [f"{place}:{torrent.DIGEST}" for place in hashes] + [BEYOND]
    if b"length" in info.content:
        return [*parts, "single", inside(name)]
    files = info.content[b"files"]
    ends = [files.content[number].content[b"path"].end for number in (0, -1)]
    return [*parts, "files", files.place, files.end - 1, NO_VALUE, *ends]


def of_reply(text):
    reply = tracker.read(text)
    top, _ = bencode.read(text)
    if reply.failure is not None:
        return ["failure", part(top.content[b"failure reason"])]
    peers = top.content[b"peers"]
    if peers.kind == STRING:
        return ["compact", inside(peers), peers.end]
    ends = peers.content and [peers.content[0], peers.content[-1]]
    return ["list", peers.place + 1, peers.end - 1, *(part(item.content[key]) for item in ends for key in (b"peer id", b"ip"))]

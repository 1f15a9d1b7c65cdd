"""A week's packages in one file: read, asked for a package, and written (document 02, ticket 5)."""

from collections import namedtuple

import bencode
import torrent
from refusal import Refused, refuse_unless

MOST_PACKAGES = 256
NUMBER = 4
# Offset and length of a body, and its hash.
ENTRY = NUMBER + NUMBER + torrent.DIGEST

# hash_at: where the hash stands in the table.
Entry = namedtuple("Entry", "hash_at info_hash offset length")
Package = namedtuple("Package", "info_hash offset length files total")


def read(file):
    """The packages in their order."""
    refuse_unless(len(file) <= bencode.LONGEST_TEXT, 8)
    return [read_body(file, entry) for entry in read_table(file)]


def read_table(file):
    fields = Fields(file)
    place, count = fields.number()
    refuse_unless(1 <= count <= MOST_PACKAGES, 18, place)
    entries = []
    end = NUMBER + ENTRY * count
    for _ in range(count):
        entry = read_entry(fields, end, [earlier.info_hash for earlier in entries])
        end += entry.length
        entries.append(entry)
    refuse_unless(end == len(file), 18, end)
    return entries


def read_entry(fields, end, earlier):
    """The entry of a body that has to begin where the one before it ends, with none of the earlier hashes."""
    place, offset = fields.number()
    refuse_unless(offset == end, 18, place)
    place, length = fields.number()
    refuse_unless(offset + length <= len(fields.file), 18, place)
    place, info_hash = fields.next(torrent.DIGEST)
    refuse_unless(info_hash not in earlier, 18, place)
    return Entry(place, info_hash, offset, length)


class Fields:
    """The fields of the table from left to right, each with its place."""

    def __init__(self, file):
        self.file = file
        self.at = 0

    def next(self, size):
        place = self.at
        self.at += size
        refuse_unless(self.at <= len(self.file), 18, place)
        return place, self.file[place : self.at]

    def number(self):
        place, field = self.next(NUMBER)
        return place, int.from_bytes(field, "big")


def read_body(file, entry):
    try:
        found = torrent.read(file[entry.offset : entry.offset + entry.length])
    except Refused as refusal:
        raise Refused(refusal.number, entry.offset + refusal.place) from None
    refuse_unless(found.info_hash == entry.info_hash, 18, entry.hash_at)
    return Package(entry.info_hash, entry.offset, entry.length, len(found.files), found.total)


def package_at(file, number):
    packages = read(file)
    refuse_unless(number < len(packages), 31)
    return packages[number]


def write(bodies, lengths, room):
    refuse_unless(1 <= len(lengths) <= MOST_PACKAGES, 18)
    refuse_unless(sum(lengths) == len(bodies), 18)
    hashes = []
    for body in cut(bodies, lengths):
        info_hash = hash_of(body)
        refuse_unless(info_hash not in hashes, 18)
        hashes.append(info_hash)
    at = NUMBER + ENTRY * len(lengths)
    table = [number(len(lengths))]
    for length, info_hash in zip(lengths, hashes):
        table += [number(at), number(length), info_hash]
        at += length
    return bencode.finish_text(b"".join(table) + bodies, room)


def cut(bodies, lengths):
    at = 0
    for length in lengths:
        yield bodies[at : at + length]
        at += length


def hash_of(body):
    """A writer's refusals have place 0."""
    try:
        return torrent.read(body).info_hash
    except Refused as refusal:
        raise Refused(refusal.number) from None


def number(value):
    return value.to_bytes(NUMBER, "big")

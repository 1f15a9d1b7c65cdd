"""A depot's sheet, a dictionary from info hashes to trackers' addresses, and the address for a torrent (document 02, ticket 1)."""

import bencode
import torrent
from bencode import DICTIONARY, STRING, expect_kind
from refusal import refuse_unless

INFO_HASH = 20
TORRENT, SHEET = "torrent", "sheet"


def read(text):
    """The addresses by their hashes."""
    top, _ = bencode.read(text)
    expect_kind(top, DICTIONARY)
    return {key: read_row(key, value) for key, value in top.content.items()}


def read_row(key, value):
    # A key ends where its value begins, and is written in one way.
    refuse_unless(len(key) == INFO_HASH, 15, value.place - len(bencode.write_string(key)))
    return expect_kind(value, STRING).content


def address(torrent_text, sheet_text):
    """The text that the address stands in, and the address."""
    found = torrent.read(torrent_text)
    addresses = read(sheet_text)
    if found.info_hash in addresses:
        return SHEET, addresses[found.info_hash]
    return TORRENT, found.announce

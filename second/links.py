"""Magnet links: read, and written of a torrent (document 02, ticket 4)."""

import re
from collections import namedtuple
from os.path import commonprefix
from urllib.parse import quote_from_bytes, unquote_to_bytes

import bencode
import torrent
from refusal import refuse_unless

PREFIX = b"magnet:?"
URN = b"urn:btih:"
KNOWN = (b"xt", b"dn", b"tr")
NAME = re.compile(rb"[A-Za-z0-9.]*")
VALUE = re.compile(rb"(?:[!\"$'-~]|%[0-9A-Fa-f]{2})*")
HALF_ESCAPE = re.compile(rb"(?:%[0-9A-Fa-f]?)?")
DIGITS = re.compile(rb"[0-9A-Fa-f]{0,40}")

# name, address: None where the link has none.
Link = namedtuple("Link", "info_hash name address")


def read(text, name_room, address_room):
    refuse_unless(len(text) <= bencode.LONGEST_TEXT, 8)
    read_fixed(PREFIX, text, 0)
    found = {}
    at = len(PREFIX)
    for pair in text[at:].split(b"&"):
        name, value_at = read_name(pair, at)
        refuse_unless(name not in found, 19, at)
        value = (read_hash if name == b"xt" else read_value)(pair[value_at - at :], value_at)
        if name in KNOWN:
            found[name] = value
        at += len(pair) + len(b"&")
    refuse_unless(b"xt" in found, 19, len(text))
    link = Link(found[b"xt"], found.get(b"dn"), found.get(b"tr"))
    refuse_unless(len(link.name or b"") <= name_room and len(link.address or b"") <= address_room, 37)
    return link


def read_fixed(fixed, text, at):
    """The text begins so."""
    alike = len(commonprefix([fixed, text]))
    refuse_unless(alike == len(fixed), 19, at + alike)


def read_name(pair, at):
    """The name of a pair that stands at a place, and the place of its value."""
    name = NAME.match(pair).group()
    end = at + len(name)
    refuse_unless(name and pair[len(name) :].startswith(b"="), 19, end)
    return name, end + len(b"=")


def read_value(value, at):
    """A value that stands at a place, decoded."""
    good = VALUE.match(value).end()
    refuse_unless(good == len(value), 19, at + HALF_ESCAPE.match(value, good).end())
    return unquote_to_bytes(value)


def read_hash(value, at):
    read_fixed(URN, value, at)
    good = DIGITS.match(value, len(URN)).end()
    refuse_unless(good == len(value) == len(URN) + 40, 19, at + good)
    return bytes.fromhex(value[len(URN) :].decode())


def write(torrent_text, room):
    found = torrent.read(torrent_text)
    name, address = (quote_from_bytes(data, safe="") for data in (found.name, found.announce))
    return bencode.finish_text(f"magnet:?xt=urn:btih:{found.info_hash.hex()}&dn={name}&tr={address}".encode(), room)

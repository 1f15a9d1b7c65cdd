"""Torrents: read by the checks of document 01 in their order, asked for a file, a piece checked, and written."""

from collections import namedtuple
from hashlib import sha1

import bencode
import blocks
from bencode import DICTIONARY, INTEGER, LIST, STRING, expect_kind, get, read_number
from refusal import refuse_unless

LONGEST_PIECE = 16_777_216
DIGEST = 20

Torrent = namedtuple("Torrent", "announce name piece_length pieces files total info_hash")
# start: offset of its first byte in the joined content; path: its elements.
File = namedtuple("File", "start length path")


def read(text):
    top, _ = bencode.read(text)
    expect_kind(top, DICTIONARY)
    announce = get(top, b"announce", STRING)
    info = get(top, b"info", DICTIONARY)
    name = read_name(get(info, b"name", STRING))
    piece_length = read_number(get(info, b"piece length", INTEGER), blocks.is_piece_length)
    pieces = get(info, b"pieces", STRING)
    content, files = read_content(info, name)
    total = check_total(content, files, piece_length)
    refuse_unless(are_pieces(pieces.content, total, piece_length), 12, pieces.place)
    info_hash = sha1(text[info.place : info.end]).digest()
    return Torrent(announce.content, name, piece_length, pieces.content, files, total, info_hash)


def read_content(info, name):
    """The value that tells the content, length or files, and the files that it tells."""
    refuse_unless((b"length" in info.content) != (b"files" in info.content), 10, info.place)
    if b"length" in info.content:
        length = get(info, b"length", INTEGER)
        return length, [File(0, read_number(length, blocks.is_file_length), [name])]
    files = get(info, b"files", LIST)
    return files, read_files(files)


def read_files(files):
    found = []
    start = 0
    for item in files.content:
        expect_kind(item, DICTIONARY)
        length = read_number(get(item, b"length", INTEGER), blocks.is_file_length)
        path = read_path(get(item, b"path", LIST))
        found.append(File(start, length, path))
        start += length
    return found


def read_path(path):
    refuse_unless(path.content, 13, path.place)
    return [read_name(expect_kind(element, STRING)) for element in path.content]


def read_name(string):
    refuse_unless(is_name(string.content), 13, string.place)
    return string.content


def check_total(content, files, piece_length):
    refuse_unless(blocks.is_file_count(len(files)), 11, content.place)
    total = sum(file.length for file in files)
    refuse_unless(blocks.is_total(total, piece_length), 11, content.place)
    return total


def is_name(name):
    return name not in (b"", b".", b"..") and b"/" not in name and b"\0" not in name


def are_pieces(pieces, total, piece_length):
    return len(pieces) == DIGEST * blocks.pieces_in(total, piece_length)


def file_at(text, number):
    torrent = read(text)
    refuse_unless(number < len(torrent.files), 31)
    return torrent.files[number]


def check_piece(text, number, data):
    """Whether the data is that piece, by its digest."""
    torrent = read(text)
    refuse_unless(number < blocks.pieces_in(torrent.total, torrent.piece_length), 31)
    digest = digest_of(data)
    right_length = blocks.length_of_piece(number, torrent.total, torrent.piece_length)
    refuse_unless(len(data) == right_length, 34)
    return digest == torrent.pieces[DIGEST * number : DIGEST * (number + 1)]


def digest_of(data):
    refuse_unless(len(data) <= LONGEST_PIECE, 8)
    return sha1(data).digest()


def write(announce, name, piece_length, length, pieces, room):
    """A torrent of one file."""
    refuse_unless(is_name(name), 13)
    refuse_unless(blocks.is_piece_length(piece_length), 11)
    refuse_unless(blocks.is_file_length(length), 11)
    refuse_unless(blocks.is_total(length, piece_length), 11)
    refuse_unless(are_pieces(pieces, length, piece_length), 12)
    string, integer = bencode.write_string, bencode.write_integer
    info = b"".join([
        b"d",
        string(b"length"), integer(length),
        string(b"name"), string(name),
        string(b"piece length"), integer(piece_length),
        string(b"pieces"), string(pieces),
        b"e",
    ])
    text = b"".join([b"d", string(b"announce"), string(announce), string(b"info"), info, b"e"])
    return bencode.finish_text(text, room)

"""Torrents and replies written, read back and written again; and SHA-1's published vectors."""

from hashlib import sha1

from notation import case, refused, to_hex

HASHES = bytes(range(40))
TORRENT = (
    b"d8:announce10:http://t/a4:infod6:lengthi20000e4:name3:pkg12:piece lengthi16384e6:pieces40:" + HASHES + b"ee"
)
INFO = TORRENT[TORRENT.index(b"4:info") + 6 : -1]
ENTRIES = bytes(range(12))
REPLY = b"d8:intervali1800e5:peers12:" + ENTRIES + b"e"


def write_torrent(
    answer, announce=b"http://t/a", name=b"pkg", piece_length=16384, length=20000, pieces=HASHES, room=9999
):
    words = f"{to_hex(announce)} {to_hex(name)} {piece_length} {length} {to_hex(pieces)} {room}"
    return case(f"write-torrent {words}", answer)


def write_reply(answer, interval=1800, peers=ENTRIES, room=9999):
    return case(f"write-reply {interval} {to_hex(peers)} {room}", answer)


def torrents():
    text = to_hex(TORRENT)
    announce, name = to_hex(b"http://t/a"), to_hex(b"pkg")
    bare = b"d8:announce0:4:infod6:lengthi1e4:name1: 12:piece lengthi16777216e6:pieces20:" + HASHES[:20] + b"ee"
    return [
        write_torrent(text),
        write_torrent(text, room=len(TORRENT)),
        write_torrent(refused(37), room=len(TORRENT) - 1),
        write_torrent(refused(37), room=0),
        case(f"torrent {text}", f"taken {announce} {name} 16384 2 1 20000 {sha1(INFO).hexdigest()}"),
        case(f"file {text} 0", f"0 20000 {name}"),
        write_torrent(to_hex(bare), announce=b"", name=b" ", piece_length=16777216, length=1, pieces=HASHES[:20]),
        *[write_torrent(refused(13), name=bad) for bad in (b"", b".", b"..", b"a/b", b"a\0", b"/")],
        *[write_torrent(refused(11), piece_length=bad) for bad in (0, 1, 16383, 20000, 33554432, 2**62)],
        *[write_torrent(refused(11), length=bad) for bad in (0, 16384 * 16384 + 1, 274877906945, 2**62)],
        *[write_torrent(refused(12), pieces=bad) for bad in (b"", HASHES[1:], HASHES + b"x", HASHES[:20], HASHES * 2)],
        write_torrent(refused(13), name=b"..", piece_length=5, length=0, pieces=b"", room=0),
        write_torrent(refused(11), piece_length=5, pieces=b"", room=0),
        write_torrent(refused(11), length=0, pieces=b"", room=0),
        write_torrent(refused(12), pieces=b"", room=0),
    ]


def replies():
    text = to_hex(REPLY)
    return [
        write_reply(text),
        write_reply(text, room=len(REPLY)),
        write_reply(refused(37), room=len(REPLY) - 1),
        case(f"reply {text}", "taken 1800 2"),
        case(f"peer {text} 1", "none 06070809 2571"),
        write_reply(to_hex(b"d8:intervali0e5:peers0:e"), interval=0, peers=b""),
        write_reply(to_hex(b"d8:intervali2147483647e5:peers0:e"), interval=2147483647, peers=b""),
        write_reply(refused(11), interval=2147483648),
        write_reply(refused(11), interval=4294967296),
        write_reply(refused(11), interval=2**62, peers=b"x", room=0),
        *[write_reply(refused(15), peers=bytes(length), room=0) for length in (1, 5, 7, 13)],
    ]


def long_texts():
    # An announce that makes a text of exactly the longest length; its own length has seven digits.
    rest = b"4:infod6:lengthi1e4:name1:n12:piece lengthi16384e6:pieces20:" + HASHES[:20] + b"ee"
    fitting = 1_048_576 - len(b"d8:announce1048000:") - len(rest)
    fields = {"name": b"n", "length": 1, "pieces": HASHES[:20]}
    longest = b"d8:announce%d:" % fitting + b"a" * fitting + rest
    entries = bytes(6 * 174_757)
    return [
        write_torrent(to_hex(longest), announce=b"a" * fitting, room=1_048_576, **fields),
        write_torrent(refused(37), announce=b"a" * fitting, room=1_048_575, **fields),
        write_torrent(refused(8), announce=b"a" * (fitting + 1), room=2_000_000, **fields),
        write_torrent(refused(8), announce=b"a" * (fitting + 1), room=0, **fields),
        write_torrent(refused(12), announce=b"a" * (fitting + 1), room=0, **fields | {"pieces": b""}),
        write_reply(to_hex(b"d8:intervali1800e5:peers1048542:" + entries + b"e"), peers=entries, room=1_048_576),
        write_reply(refused(8), peers=entries + bytes(6), room=0),
        write_reply(refused(15), peers=entries + bytes(5), room=0),
    ]


def sha1_vectors():
    def digest(data, answer):
        return case(f"sha1 {to_hex(data)}", answer)

    published = [
        digest(b"", "da39a3ee5e6b4b0d3255bfef95601890afd80709"),
        digest(b"abc", "a9993e364706816aba3e25717850c26c9cd0d89d"),
        digest(
            b"abcdbcdecdefdefgefghfghighijhijkijkljklmklmnlmnomnopnopq",
            "84983e441c3bd26ebaae4aa1f95129e5e54670f1",
        ),
        digest(
            b"abcdefghbcdefghicdefghijdefghijkefghijklfghijklmghijklmnhijklmnoijklmnopjklmnopqklmnopqrlmnopqrsmnopqrst"
            b"nopqrstu",
            "a49b2446a02c645bf419f995b67091253a04a259",
        ),
    ]
    for length in (1, 3, 55, 56, 57, 63, 64, 65, 111, 119, 120, 127, 128, 129):
        data = bytes(number % 251 for number in range(length))
        published.append(digest(data, sha1(data).hexdigest()))
    return published


def long_digests():
    longest = bytes(16_777_216)
    return [
        case(f"sha1 {to_hex(b'a' * 1_000_000)}", "34aa973cd4c4daa4f61eeb2bdbad27316534016f"),
        case(f"sha1 {to_hex(longest)}", sha1(longest).hexdigest()),
        case(f"sha1 {to_hex(longest)}00", refused(8)),
    ]


SMALL = {"texts-written": lambda: torrents() + replies(), "sha1": sha1_vectors}
BIG = {"texts-written-long": long_texts, "sha1-long": long_digests}

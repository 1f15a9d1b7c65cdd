"""Tracker replies: both forms, failure reasons, every refusal at its place, the order of the checks, and integers of any length."""

from notation import BELOW_FORTY, BELOW_HUGE, FORTY, HUGE, dictionary, faulty, integer, outside, refused, string, text_case, to_hex

ID = b"-WR0001-truck0000001"
ENTRY = bytes([10, 0, 0, 7, 0x1A, 0xE1])


def reply(interval=b"i1800e", peers=b"0:", mark=b"", **more):
    entries = {b"interval": interval, b"peers": peers}
    entries |= {key.replace("_", " ").encode(): value for key, value in more.items()}
    return mark + dictionary(entries)


def peer(peer_id=string(ID), ip=b"8:10.0.0.7", port=b"i6881e", mark=b"", more=None):
    return mark + dictionary({b"peer id": peer_id, b"ip": ip, b"port": port} | (more or {}))


def listed(*peers):
    return reply(peers=b"l" + b"".join(peers) + b"e")


def taken(text, interval, count):
    return text_case("reply", text, f"taken {interval} {count}")


def bad(number, marked):
    return faulty("reply", number, marked)


def compact():
    three = reply(peers=string(ENTRY + b"\xff\xff\xff\xff\xff\xff" + bytes(6)))
    return [
        text_case("reply", b"d8:intervali1800e5:peers5:abcdee", refused(15, 24)),
        taken(reply(), 1800, 0),
        taken(reply(peers=string(ENTRY)), 1800, 1),
        taken(three, 1800, 3),
        text_case("peer", three, "none 0a000007 6881", 0),
        text_case("peer", three, "none ffffffff 65535", 1),
        text_case("peer", three, "none 00000000 0", 2),
        text_case("peer", three, refused(31), 3),
        text_case("peer", reply(), refused(31), 0),
        text_case("peer", three, refused(31), 4294967296),
        *[bad(15, reply(peers=b"^" + string(b"x" * length))) for length in (1, 4, 5, 7, 11, 13, 18 + 1)],
        text_case("peer", b"d8:intervali1800e5:peers5:abcdee", refused(15, 24), 0),
    ]


def in_list():
    two = listed(peer(), peer(ip=b"0:", port=b"i0e"))
    return [
        taken(reply(peers=b"le"), 1800, 0),
        taken(listed(peer()), 1800, 1),
        taken(two, 1800, 2),
        text_case("peer", two, f"{to_hex(ID)} {to_hex(b'10.0.0.7')} 6881", 0),
        text_case("peer", two, f"{to_hex(ID)} - 0", 1),
        text_case("peer", two, refused(31), 2),
        text_case("peer", reply(peers=b"le"), refused(31), 0),
        bad(10, listed(b"^le")),
        bad(10, listed(peer(), b"^6:abcdef")),
        bad(10, listed(peer(peer_id=None, mark=b"^"))),
        bad(10, listed(peer(peer_id=b"^i20e"))),
        bad(15, listed(peer(peer_id=b"^" + string(ID[1:])))),
        bad(15, listed(peer(peer_id=b"^" + string(ID + b"x")))),
        bad(15, listed(peer(peer_id=b"^0:"))),
        bad(10, listed(peer(ip=None, mark=b"^"))),
        bad(10, listed(peer(ip=b"^i1e"))),
        bad(10, listed(peer(port=None, mark=b"^"))),
        bad(10, listed(peer(port=b"^4:6881"))),
        taken(listed(peer(port=b"i65535e")), 1800, 1),
        bad(11, listed(peer(port=b"^i65536e"))),
        bad(11, listed(peer(port=b"^i-1e"))),
        bad(11, listed(peer(), peer(port=b"^i65536e"), peer(ip=None))),
        taken(listed(b"d1:ale2:ip0:7:peer id" + string(ID) + b"4:porti1e1:zdee"), 1800, 1),
    ]


def usual():
    """Peers of just three keys, which have one form, and those that differ from it in one thing."""
    other = peer(ip=b"1:a", port=b"i1e")
    found = []
    for port in (0, 7, 10, 9999, 10000, 65535):
        found += both(peer(port=integer(port)), other, b"10.0.0.7", port)
    for length in (0, 1, 9, 10, 99, 100, 101):
        found += both(peer(ip=string(b"a" * length)), other, b"a" * length, 6881)
    # a fourth key before, between and after the three
    start, named, end = b"2:ip1:a", b"7:peer id" + string(ID), b"4:porti6881e"
    for entries in (
        b"1:ai0e" + start + named + end,
        start + b"3:keyle" + named + end,
        start + named + b"3:pip0:" + end,
        start + named + end + b"1:zi0e",
        start + named + end + b"4:porule",
        start + named + end + b"5:portsde",
    ):
        found += both(b"d" + entries + b"e", other, b"a", 6881)
    return found + [
        bad(11, listed(other, peer(port=b"^i65536e"))),
        bad(11, listed(other, peer(port=b"^i99999e"))),
        bad(11, listed(other, peer(port=b"^i100000e"))),
        bad(11, listed(other, peer(port=b"^i9223372036854775807e"))),
        bad(11, listed(other, peer(port=b"^i-6881e"))),
        bad(2, listed(other, peer(port=b"i0^6881e"))),
        bad(2, listed(other, peer(port=b"i0^0e"))),
        bad(2, listed(other, peer(port=b"i-^0e"))),
        bad(2, listed(other, peer(port=b"i^e"))),
        bad(2, listed(other, peer(ip=b"0^8:10.0.0.7"))),
        bad(3, listed(b"d2:ip1:a7:peer id" + string(ID) + b"4:porti1e^4:porti2ee")),
        bad(3, listed(b"d2:ip1:a4:porti1e^7:peer id" + string(ID) + b"e")),
        bad(10, listed(peer(peer_id=b"^i20e"), other)),
        bad(15, listed(other, peer(peer_id=b"^2:" + ID[:2]))),
        bad(15, listed(other, peer(peer_id=b"^200:" + b"a" * 200))),
    ]


def both(one, other, ip, port):
    """A peer first and last of two, and what is said of it."""
    return [
        taken(listed(one, other), 1800, 2),
        text_case("peer", listed(one, other), f"{to_hex(ID)} {to_hex(ip)} {port}", 0),
        text_case("peer", listed(other, one), f"{to_hex(ID)} {to_hex(ip)} {port}", 1),
    ]


def tops():
    return [
        text_case("reply", b"", refused(1, 0)),
        bad(10, b"^le"),
        bad(10, b"^4:spam"),
        bad(10, b"^i1e"),
        bad(10, b"^de"),
        bad(10, reply(interval=None, mark=b"^")),
        bad(10, reply(interval=b"^4:1800")),
        bad(11, reply(interval=b"^i-1e")),
        taken(reply(interval=b"i0e"), 0, 0),
        taken(reply(interval=b"i2147483647e"), 2147483647, 0),
        bad(11, reply(interval=b"^i2147483648e")),
        bad(10, reply(peers=None, mark=b"^")),
        bad(10, reply(peers=b"^i6e")),
        bad(10, reply(peers=b"^de")),
        taken(reply(complete=b"i5e", min_interval=b"i900e", tracker_id=b"le"), 1800, 0),
        bad(3, b"d5:peers0:^8:intervali1800ee"),
        bad(11, reply(interval=b"^i-1e", peers=b"1:x")),
        bad(10, reply(interval=None, peers=b"1:x", mark=b"^")),
    ]


def failures():
    beside = reply(interval=b"0:", peers=b"5:abcde", failure_reason=b"4:full")
    return [
        text_case("reply", b"d14:failure reason4:fulle", f"failure {to_hex(b'full')}"),
        text_case("reply", b"d14:failure reason0:e", "failure -"),
        text_case("reply", beside, f"failure {to_hex(b'full')}"),
        text_case("peer", beside, refused(31), 0),
        text_case("peer", b"d14:failure reason4:fulle", refused(31), 7),
        bad(10, reply(failure_reason=b"^i1e")),
        bad(10, reply(interval=b"i-1e", failure_reason=b"^le")),
        bad(10, b"^d14:Failure reason4:fulle"),
        bad(7, b"d14:failure reason4:fulle^x"),
    ]


def out_of_range():
    """Integers outside 64 bits where a number is wanted, and where another kind is."""
    cases = [bad(11, reply(interval=b"^" + number)) for number in outside(1800)]
    for number in outside(6881):
        cases.append(bad(11, listed(peer(port=b"^" + number))))
        cases.append(bad(11, listed(peer(), peer(port=b"^" + number, more={b"a": b"0:"}), peer(ip=None))))
    for number in (FORTY, BELOW_FORTY, b"i9223372036854775808e"):
        other = b"^" + number
        cases += [
            bad(10, other),
            bad(10, reply(peers=other)),
            bad(10, reply(failure_reason=other)),
            bad(10, listed(other)),
            bad(10, listed(peer(), other)),
            bad(10, listed(peer(peer_id=other))),
            bad(10, listed(peer(ip=other))),
        ]
    return cases + [
        bad(11, reply(interval=b"^" + FORTY, peers=FORTY)),
        bad(10, reply(interval=None, peers=FORTY, mark=b"^")),
        bad(15, listed(peer(peer_id=b"^0:", port=FORTY))),
        bad(10, listed(peer(ip=b"^i1e", port=FORTY))),
        bad(10, listed(peer(ip=None, port=FORTY, mark=b"^"))),
        bad(15, reply(peers=b"^5:abcde", complete=FORTY)),
        bad(1, b"d8:intervali1800e5:peersld2:ip0:4:port" + FORTY[:-1] + b"^"),
        bad(2, listed(peer(port=b"i0^" + FORTY[1:]))),
    ]


def signed(number):
    """Replies and peers with an integer under keys that nobody knows, before, between and after theirs."""
    packed = f"none {ENTRY[:4].hex()} 6881"
    one = f"{to_hex(ID)} {to_hex(b'10.0.0.7')} 6881"
    cases = []
    for key in ("complete", "intervals", "peer", "peers6"):
        text = reply(peers=string(ENTRY), **{key: number})
        cases += [taken(text, 1800, 1), text_case("peer", text, packed, 0)]
    for key in (b"a", b"ip6", b"peer", b"peers", b"ports", b"signature"):
        text = listed(peer(more={key: number}), peer(port=b"i1e"), peer(more={key: number}))
        cases += [taken(text, 1800, 3), text_case("peer", text, one, 0), text_case("peer", text, one, 2)]
    return cases + [
        text_case("reply", reply(failure_reason=b"4:full", complete=number), f"failure {to_hex(b'full')}"),
        # beside a failure reason nothing else is looked at
        text_case("reply", reply(interval=number, peers=number, failure_reason=b"4:full"), f"failure {to_hex(b'full')}"),
        text_case("peer", reply(interval=number, failure_reason=b"4:full"), refused(31), 0),
    ]


def longest_numbers():
    """Integers of 100,000 digits."""
    return [
        *signed(HUGE),
        bad(11, reply(interval=b"^" + HUGE)),
        bad(11, listed(peer(), peer(port=b"^" + BELOW_HUGE))),
        bad(10, reply(peers=b"^" + BELOW_HUGE)),
        bad(10, listed(peer(ip=b"^" + HUGE))),
    ]


def long_replies():
    peers = [peer(peer_id=string(b"%020d" % number), port=integer(number)) for number in range(2000)]
    text = listed(*peers)
    entries = reply(peers=string(ENTRY * 170_000))
    return [
        taken(text, 1800, 2000),
        text_case("peer", text, f"{to_hex(b'%020d' % 1999)} {to_hex(b'10.0.0.7')} 1999", 1999),
        text_case("peer", text, refused(31), 2000),
        bad(11, listed(*peers[:-1], peer(port=b"^i65536e"))),
        taken(entries, 1800, 170_000),
        text_case("peer", entries, "none 0a000007 6881", 169_999),
        text_case("reply", reply(peers=string(ENTRY * 175_000)), refused(8)),
        # 5 values beside the peers and 7 a peer: value 16,385 is the port of peer 2,340.
        bad(6, listed(*(peers * 2)[:2339], peer(port=b"^i1e"), *peers)),
    ]


SMALL = {"replies": lambda: compact() + in_list() + usual() + tops() + failures() + out_of_range() + signed(FORTY)}
BIG = {"replies-long": long_replies, "replies-integers": longest_numbers}

"""Magnet links: pairs in any order, every refusal at its place, lent outputs of any length, links written of torrents, and the limits."""

from hashlib import sha1
from itertools import permutations
from string import ascii_letters, digits, hexdigits

from notation import BELOW_FORTY, FORTY, HUGE, case, faulty, refused, show, string, text_case, to_hex
from sample_texts import SAMPLES
from sheet_texts import BAD_TORRENTS, LONGEST_TEXT, MANY, ONE, UNANNOUNCED, hash_of, marked_at
from torrent_texts import LISTING, LISTING_INFO, torrent

PREFIX = b"magnet:?"
URN = b"urn:btih:"
HASH = b"0123456789abcdefABCDEF99887766554433abcd"
XT = b"xt=" + URN + HASH
DN, TR = b"dn=week%207", b"tr=http%3A%2F%2Fyard%2fann"
ROOMS = 200, 200

UNRESERVED = (ascii_letters + digits + "-._~").encode()
IN_NAME = (ascii_letters + digits + ".").encode()
IN_VALUE = bytes(byte for byte in range(33, 127) if byte not in b"&#")
HEX = hexdigits.encode()


def link(*pairs):
    return PREFIX + b"&".join(pairs)


def said(info_hash, *given):
    return " ".join([info_hash, *("none" if data is None else to_hex(data) for data in given)])


def taken(text, name=None, address=None, rooms=ROOMS, info_hash=HASH):
    return text_case("link", text, said(info_hash.decode().lower(), name, address), *rooms)


def bad(marked, rooms=ROOMS):
    return faulty("link", 19, marked, *rooms)


def bad_at(text, place, rooms=ROOMS):
    return text_case("link", text, refused(19, place), *rooms)


def short(text, *rooms):
    return text_case("link", text, refused(37), *rooms)


# ---- reading


def pairs():
    """The three in any order, some of them, and what their values may have."""
    whole = {XT: {}, DN: {"name": b"week 7"}, TR: {"address": b"http://yard/ann"}}
    plain = bytes(byte for byte in IN_VALUE if byte != ord("%"))
    cases = []
    for count in (1, 2, 3):
        for some in permutations(whole, count):
            given = {key: value for pair in some for key, value in whole[pair].items()}
            cases.append(taken(link(*some), **given) if XT in some else bad(link(*some) + b"^"))
    return cases + [
        taken(link(XT, b"dn="), name=b""),
        taken(link(XT, b"tr="), address=b""),
        taken(link(b"dn=", XT, b"tr="), name=b"", address=b""),
        taken(link(b"tr=", b"dn=", XT), name=b"", address=b""),
        taken(link(XT, b"dn=a=b", b"tr=c?d"), name=b"a=b", address=b"c?d"),
        taken(link(XT, b"dn==", b"tr=?"), name=b"=", address=b"?"),
        taken(link(XT, b"dn=?xt=urn:btih:", b"tr=magnet:?"), name=b"?xt=urn:btih:", address=b"magnet:?"),
        taken(link(XT, b"dn=a+b%2Bc", b"tr=+"), name=b"a+b+c", address=b"+"),
        taken(link(XT, b"dn=" + plain), name=plain),
        taken(link(XT, b"tr=" + plain), address=plain),
        taken(link(b"a=" + plain, XT)),
        taken(link(XT, b"tr=http://yard:80/ann?k=v;w"), address=b"http://yard:80/ann?k=v;w"),
    ]


def unknown():
    """Other names are skipped with their values, as often as they come."""
    names = [
        b"DN", b"Dn", b"dN", b"TR", b"XT", b"Xt", b"xt.1", b"tr.1", b"dn.1", b"xs", b"as", b"xl", b"kt", b"mt", b"so", b"ws", b"x.pe", b"x", b"d", b"t",
        b"dnn", b"xtt", b"trr", b"dn.", b".dn", b"0", b"9z", b".", b"..", b"xtdntr", b"a" * 50,
    ]
    cases = []
    for name in names:
        cases.append(taken(link(name + b"=b", XT, name + b"=%41", DN, name + b"="), name=b"week 7"))
    return cases + [
        taken(link(b"xt.1=" + URN + HASH, XT, b"xt.2=" + URN)),
        bad(link(b"XT=" + URN + HASH) + b"^"),
        bad(link(b"xt.1=" + URN + HASH) + b"^"),
        bad(link(b"a=") + b"^"),
        bad(link(b"a=b", b"..=c", b"DN=d", b"DN=e") + b"^"),
        taken(link(XT, b"dn=a", b"dnx="), name=b"a"),
        taken(link(XT, b"dn=a", b"dn.=b", b"d=c", b"n=d"), name=b"a"),
        taken(link(XT, b"DN=a", b"dn=b", b"dN=c"), name=b"b"),
        *[bad(link(XT, b"a=" + value)) for value in (b"%^", b"%4^", b"%^zz", b"%4^g", b"%^%41", b"b^#c", b"^ ", b"b^\x7f", b"^\x80", b"^\0")],
    ]


def hashes():
    """xt's value is urn:btih: and 40 hex digits, which end it."""
    base32 = b"ABCDEFGHIJKLMNOPQRSTUVWXYZ234567"
    btmh = b"xt=urn:bt^mh:1220" + HASH + b"0" * 24
    cuts = range(len(XT))
    return [
        *[taken(link(b"xt=" + URN + value), info_hash=value) for value in (b"0" * 40, b"f" * 40, b"F" * 40, HASH.lower(), HASH.upper(), b"aB" * 20)],
        # cut anywhere, by the end and by an ampersand
        *[bad(PREFIX + XT[:cut] + b"^") for cut in cuts],
        *[bad(PREFIX + XT[:cut] + b"^&dn=a") for cut in cuts],
        bad(link(XT + b"^0")),
        bad(link(XT + b"^0", DN)),
        bad(link(DN, XT + b"^f")),
        bad(link(XT + b"^=")),
        bad(link(XT + b"^%")),
        bad(link(XT[:-1] + b"^g")),
        bad(link(XT[:-1] + b"^%30")),
        bad(link(b"xt=" + URN + b"^%30" + HASH[1:])),
        bad(link(b"xt=urn^%3Abtih%3A" + HASH)),
        bad(link(b"xt=^URN:BTIH:" + HASH)),
        bad(link(b"xt=urn:^sha1:" + HASH)),
        bad(link(btmh)),
        bad(link(b"xt=^btih:" + HASH)),
        bad(link(b"xt=^" + HASH)),
        bad(link(b"xt=urn:btih^" + HASH)),
        bad(link(b"xt=" + URN + base32[:6] + b"^" + base32[6:])),
        bad(link(b"xt=" + URN + b"^ " + HASH)),
    ]


def escapes():
    """Each byte by its two digits, and an escape that is none."""
    every, small = (b"".join(form % byte for byte in range(256)) for form in (b"%%%02X", b"%%%02x"))
    mixed = b"%aF%Fa%0b%B0%4A%4a"
    cases = [
        taken(link(XT, b"dn=" + every), name=bytes(range(256)), rooms=(256, 0)),
        taken(link(b"dn=" + small, XT), name=bytes(range(256)), rooms=(256, 0)),
        taken(link(XT, b"tr=" + every), address=bytes(range(256)), rooms=(0, 256)),
        taken(link(b"tr=" + small, XT), address=bytes(range(256)), rooms=(0, 256)),
        taken(link(XT, b"dn=" + mixed, b"tr=" + mixed), name=b"\xaf\xfa\x0b\xb0JJ", address=b"\xaf\xfa\x0b\xb0JJ"),
        taken(link(XT, b"dn=%2541%25", b"tr=%26%3D%23"), name=b"%41%", address=b"&=#"),
        taken(link(XT, b"a=" + every, b"b=" + small)),
    ]
    for name in (b"dn", b"tr"):
        for value in (b"%2^", b"%^", b"%^zz", b"%^g0", b"%4^z", b"%0^G", b"%^%41", b"%4^%41", b"a%^", b"%41%^", b"%41%4^", b"%^-1", b"%4^ ", b"%^+1", b"%^x41"):
            cases.append(bad(link(XT, name + b"=" + value)))
        for value in (b"%4^&", b"%^&", b"%41%4^&", b"%^=", b"%4^?"):
            cases.append(bad(link(name + b"=" + value + b"a=b", XT)))
    return cases


def forms():
    """The prefix, the names, and what parts them."""
    return [
        *[bad(PREFIX[:cut] + b"^") for cut in range(len(PREFIX) + 1)],
        *[bad(PREFIX[:at] + b"^" + PREFIX[at : at + 1].upper() + link(XT)[at + 1 :]) for at in range(6)],
        *[bad(PREFIX[:at] + b"^x" + link(XT)[at + 1 :]) for at in range(len(PREFIX))],
        bad(b"^MAGNET:?" + XT),
        bad(b"^ " + link(XT)),
        bad(b"magnet:^" + XT),
        bad(b"magnet:^&" + XT),
        bad(b"magnet^?" + XT),
        bad(b"magnet:^//?" + XT),
        bad(b"^" + XT),
        # a pair without a name, without its =, or without all
        bad(PREFIX + b"^&" + XT),
        bad(PREFIX + b"^?" + XT),
        bad(link(XT) + b"&^"),
        bad(link(XT) + b"&^&dn=a"),
        bad(link(XT, DN) + b"&^&" + TR),
        bad(link(XT, DN, TR) + b"&^&"),
        bad(link(b"^=a", XT)),
        bad(link(XT, b"^=")),
        bad(link(XT, b"a^")),
        bad(link(XT, b"a^&b=c")),
        bad(link(XT, b"dn^")),
        bad(link(XT, b"dn^", TR)),
        bad(link(b"dn^&", XT)),
        bad(link(XT, b"a^-b=c")),
        bad(link(XT, b"a^_b=c")),
        bad(link(XT, b"a^%41=c")),
        bad(link(XT, b"^%41=c")),
        bad(link(XT, b"^-a=c")),
        bad(link(XT, b"a^;b=c")),
        bad(link(XT, b"a^?=c")),
        bad(link(b"xt.=" + URN + HASH) + b"^"),
        # a fragment, white space and what is no ASCII
        bad(link(XT) + b"^#a"),
        bad(link(XT, DN) + b"^#"),
        bad(link(XT, DN) + b"^\n"),
        bad(link(XT, DN) + b"^ "),
        bad(link(XT, DN) + b"^\0"),
        bad(link(XT, b"dn=a^ b")),
        bad(link(XT, b"dn=^\xc3\xa4")),
        bad(link(XT, b"tr=a^\x7f")),
        bad(link(XT, b"^\xc3\xa4=b")),
    ]


def twice():
    """A known name once more, at its first letter once its = is there."""
    cases = []
    for pair in (XT, DN, TR, b"dn=", b"tr="):
        name = pair[:2]
        others = [other for other in (XT, DN, TR) if other[:2] != name]
        cases += [
            bad(link(pair, b"^" + pair)),
            bad(link(pair, b"^" + pair, *others)),
            bad(link(*others, pair, b"^" + pair)),
            bad(link(pair, *others, b"^" + pair)),
            bad(link(pair, *others, b"^" + name + b"=")),
            bad(link(pair, *others, b"^" + name + b"=", name + b"=")),
            bad(link(pair, b"a=b", b"^" + name + b"=%zz")),
            bad(link(pair, b"^" + name + b"= ")),
            # not before the =
            bad(link(pair, *others, name[:1] + b"^")),
            bad(link(pair, *others, name + b"^")),
            bad(link(pair, *others, name + b"^&")),
            bad(link(pair, *others, name + b"^ =")),
            bad(link(pair, *others, name + b"^-=")),
        ]
    return cases + [
        taken(link(DN, XT, b"dn.=", b"dn1=", b"DN="), name=b"week 7"),
        bad(link(XT, DN, TR, b"^dn=", b"tr=")),
        bad(link(XT, DN, TR, b"^tr=", b"dn=")),
        bad(link(DN, b"^" + DN) + b"&x"),
        bad(link(b"dn=%^z", b"dn=a")),
        bad(link(XT, b"a=%^z", XT)),
        bad(link(XT[:-1] + b"^", XT)),
        bad(link(b"xt=^", XT)),
    ]


def rooms():
    """Outputs that just fit, are larger, and are a byte too short, for either of the two or both."""
    both = link(XT, b"dn=abc", b"tr=%41%42%43%44%45")
    given = {"name": b"abc", "address": b"ABCDE"}
    return [
        *[taken(both, **given, rooms=lent) for lent in ((3, 5), (4, 5), (3, 6), (300, 500), (1048576, 1048576), (2**40, 2**64 - 1))],
        *[short(both, *lent) for lent in ((2, 5), (3, 4), (2, 4), (0, 5), (3, 0), (0, 0), (2, 500), (300, 4), (1, 1), (5, 3))],
        *[taken(link(XT), rooms=lent) for lent in ((0, 0), (1, 0), (0, 1))],
        *[taken(link(XT, b"dn=", b"tr="), name=b"", address=b"", rooms=lent) for lent in ((0, 0), (7, 0), (0, 7))],
        taken(link(XT, b"dn="), name=b"", rooms=(0, 0)),
        taken(link(XT, b"tr="), address=b"", rooms=(0, 0)),
        taken(link(XT, b"dn=abc"), name=b"abc", rooms=(3, 0)),
        short(link(XT, b"dn=abc"), 2, 500),
        taken(link(XT, b"tr=abc"), address=b"abc", rooms=(0, 3)),
        short(link(XT, b"tr=abc"), 500, 2),
        taken(link(XT, b"dn=%20"), name=b" ", rooms=(1, 0)),
        short(link(XT, b"dn=%20"), 0, 0),
        taken(link(b"dn=a", b"tr=", XT), name=b"a", address=b"", rooms=(1, 0)),
        taken(link(b"dn=", b"tr=a", XT), name=b"", address=b"a", rooms=(0, 1)),
        # skipped values need no room
        taken(link(b"a=abc", XT, b"DN=abc"), rooms=(0, 0)),
        # 19 comes first
        bad(both + b"^#", (0, 0)),
        bad(both + b"&^", (3, 4)),
        bad(link(b"dn=abc", b"tr=def") + b"^", (0, 0)),
        bad(link(b"dn=abc", b"^dn=def"), (2, 0)),
        bad(link(XT, b"dn=abc%^"), (2, 2)),
        bad(b"^", (0, 0)),
    ]


# ---- writing


def escaped(data):
    return b"".join(bytes([byte]) if byte in UNRESERVED else b"%%%02X" % byte for byte in data)


def link_of(info_hash, name, announce):
    return b"magnet:?xt=urn:btih:" + info_hash.hex().encode() + b"&dn=" + escaped(name) + b"&tr=" + escaped(announce)


def write(text, room, answer, shown=""):
    return case(f"write-link {to_hex(text)} {room}", answer, shown)


def written(text, info_hash, name, announce, shown=None):
    """A torrent's link into room that just fits, is larger and is too short; and read back."""
    made = link_of(info_hash, name, announce)
    size = len(made)
    return [
        write(text, size, to_hex(made), show(text) if shown is None else shown),
        write(text, size + 1, to_hex(made)),
        write(text, 2 * size, to_hex(made)),
        write(text, size - 1, refused(37)),
        write(text, size // 2, refused(37)),
        write(text, 0, refused(37)),
        taken(made, name, announce, (len(name), len(announce)), info_hash.hex().encode()),
    ]


def of_one(name=b"n", announce=b"t"):
    text = named(name, announce)
    return written(text, hash_of(text), name, announce)


def links_written():
    names = bytes(byte for byte in range(1, 256) if byte != ord("/"))
    samples = [
        ("mktorrent.torrent", "ab385ef2b4d614176417c456f2f3e4d84f355b18", b"pkg", b"http://yard/ann"),
        ("route.torrent", "2a194c61bee87a7879b10a66aebaaf58a736cbd1", b"route", b"http://yard/announce"),
        ("map.torrent", "92d1f387738ce6eaa50ec6f103e17dd5d05c37a9", b"map.bin", b"http://yard/announce"),
    ]
    cases = written(LISTING, sha1(LISTING_INFO).digest(), b"pkg", b"http://yard/ann", "document 01's listing")
    for file, info_hash, name, announce in samples:
        cases += written((SAMPLES / file).read_bytes(), bytes.fromhex(info_hash), name, announce, f"samples/{file}")
    cases += written(ONE, hash_of(ONE), b"n", b"t") + written(MANY, hash_of(MANY), b"n", b"t") + written(UNANNOUNCED, hash_of(ONE), b"n", b"")
    for changes in ({"name": names}, {"announce": bytes(range(256))}, {"name": names[::-1], "announce": bytes(range(255, -1, -1))}):
        cases += of_one(**changes)
    for changes in ({"name": UNRESERVED, "announce": UNRESERVED}, {"name": b"~-._"}, {"name": b"a b&c=d", "announce": b"?#%&+"}, {"name": b"\xc3\xa4"}):
        cases += of_one(**changes)
    # keys that nobody knows: the hash is of info's bytes as they stand
    known = b"d1:a0:8:announce1:t10:created by2:me4:info" + ONE[ONE.index(b"4:info") + 6 : -1] + b"4:zzzzdee"
    cases += written(known, hash_of(ONE), b"n", b"t")
    # integers of forty digits, outside of info and in it
    beside, signed = torrent(outer={b"a": FORTY, b"sign": BELOW_FORTY}), torrent(inner={b"signature": FORTY})
    return cases + written(beside, hash_of(ONE), b"n", b"t") + written(signed, hash_of(signed), b"n", b"t")


def torrent_first():
    """A torrent's refusals are its own, with room and without."""
    cases = []
    for number, marked in BAD_TORRENTS:
        text, answer = marked_at(number, marked)
        cases += [write(text, room, answer, show(text) if room else "") for room in (2000, 0)]
    return cases


# ---- every byte, and the limits


def every_byte():
    """Each byte at each kind of place: taken, or refused there."""
    return [tried for byte in range(256) for tried in [*in_fixed(byte), *in_names(byte), *in_values(byte)]]


def held(before, byte, after, good, **given):
    """A byte between others that is taken if it is good there, and else the first fault."""
    text = before + bytes([byte]) + after
    return taken(text, **given) if good else bad_at(text, len(before))


def in_fixed(byte):
    """In the prefix, in xt's value and right after it."""
    one, value = bytes([byte]), PREFIX + b"xt="
    yield from (held(PREFIX[:at], byte, PREFIX[at + 1 :] + XT, byte == PREFIX[at]) for at in (0, 3, 6, 7))
    yield from (held(value + URN[:at], byte, URN[at + 1 :] + HASH, byte == URN[at]) for at in (0, 3, 5, 8))
    for at in (0, 20, 39):
        yield held(value + URN + HASH[:at], byte, HASH[at + 1 :], byte in HEX, info_hash=HASH[:at] + one + HASH[at + 1 :])
    yield bad_at(link(XT) + one, len(link(XT)) + (byte == ord("&")))
    yield held(link(XT), byte, b"dn=a", byte == ord("&"), name=b"a")


def in_names(byte):
    """First in a name, inside of one, and after dn."""
    yield held(PREFIX, byte, b"=b&" + XT, byte in IN_NAME)
    yield held(PREFIX + b"a", byte, b"c=b&" + XT, byte in IN_NAME + b"=")
    if byte in IN_NAME:
        yield bad_at(link(b"dn" + bytes([byte]) + b"b", XT), len(PREFIX) + 4)
    else:
        yield held(PREFIX + b"dn", byte, b"b&" + XT, byte == ord("="), name=b"b")


def in_values(byte):
    """First in a value, inside and last, as either digit of an escape, and escaped, in dn, in tr and in another."""
    one = bytes([byte])
    for name, key in ((b"dn", "name"), (b"tr", "address"), (b"a", None)):
        start = link(XT, name + b"=")

        def given(data, key=key):
            return {key: data} if key else {}

        for before, after in ((b"", b"z"), (b"a", b"z"), (b"a", b"")):
            text, at = start + before + one + after, len(start + before)
            if byte == ord("%"):
                yield bad_at(text, at + 1)
            elif byte == ord("&"):
                yield bad_at(text, len(text))
            else:
                yield held(start + before, byte, after, byte in IN_VALUE, **given(before + one + after))
        yield held(start + b"%", byte, b"4", byte in HEX, **given(unhexed(one + b"4")))
        yield held(start + b"%4", byte, b"", byte in HEX, **given(unhexed(b"4" + one)))
        yield from (taken(start + form % byte, **given(one)) for form in (b"%%%02X", b"%%%02x"))


def unhexed(two):
    """The byte of two digits; nothing where one is none."""
    return bytes([int(two, 16)]) if all(digit in HEX for digit in two) else None


def longest():
    """The longest text and a byte more: by a value, by a name, by pairs; and a fault at its end."""
    rest = LONGEST_TEXT - len(link(XT, b"dn="))
    name, escape = b"n" * rest, b"%41" * (rest // 3)
    full, unknown_name = link(XT, b"dn=" + name), b"a" * (rest + len(b"dn"))
    many = b"&a=" * ((LONGEST_TEXT - len(link(DN, XT, b"dn="))) // 3)
    return [
        taken(full, name=name, rooms=(rest, 0)),
        short(full, rest - 1, 0),
        text_case("link", full + b"n", refused(8), 0, 0),
        text_case("link", b"x" * (LONGEST_TEXT + 1), refused(8), 0, 0),
        bad_at(b"x" * LONGEST_TEXT, 0),
        bad_at(full[:-1] + b"#", LONGEST_TEXT - 1),
        bad_at(full[:-1] + b"%", LONGEST_TEXT),
        bad_at(full[:-1] + b"&", LONGEST_TEXT),
        bad_at(full[:-2] + b"%4", LONGEST_TEXT),
        taken(link(b"tr=" + name, XT), address=name, rooms=(0, LONGEST_TEXT)),
        taken(link(XT, b"tr=" + escape), address=b"A" * (rest // 3), rooms=(0, rest // 3)),
        short(link(XT, b"tr=" + escape), LONGEST_TEXT, rest // 3 - 1),
        taken(link(XT, unknown_name + b"="), rooms=(0, 0)),
        bad_at(link(XT, unknown_name + b"a"), LONGEST_TEXT),
        text_case("link", link(XT, unknown_name + b"a="), refused(8), 0, 0),
        taken(link(XT) + many, rooms=(0, 0)),
        bad_at(PREFIX + many[1:], len(PREFIX + many[1:])),
        bad_at(link(DN, XT) + many + b"&dn=", len(link(DN, XT) + many + b"&")),
    ]


def longest_written():
    """A link of 1,048,576 bytes, by its tr and by its dn, and of one more; the longest torrent, and torrents of refusals 6 and 8."""
    rest = LONGEST_TEXT - len(link_of(bytes(20), b"", b""))
    cases = []
    for name, announce, more in ((b"n", spread(rest - 1), (b"", b"u")), (spread(rest), b"", (b"u", b""))):
        text, over = named(name, announce), named(name + more[0], announce + more[1])
        made = link_of(hash_of(text), name, announce)
        assert len(made) == LONGEST_TEXT
        cases += [
            *[sum_of(text, room, made) for room in (LONGEST_TEXT, 2_000_000)],
            write(text, LONGEST_TEXT - 1, refused(37)),
            *[write(over, room, refused(8)) for room in (0, 2_000_000)],
            taken(made, name, announce, (len(name), len(announce)), hash_of(text).hex().encode()),
        ]
    announce = b"u" * (LONGEST_TEXT - len(torrent(announce=b"1048000:")))
    widest, spaces = named(b"n", announce), string(b" " * 1_000_000)
    bad_pieces, answer = marked_at(12, torrent(announce=spaces, pieces=b"^0:"))
    return cases + [
        sum_of(widest, LONGEST_TEXT, link_of(hash_of(widest), b"n", announce)),
        write(widest + b"x", 0, refused(8)),
        write(torrent(announce=spaces), 2_000_000, refused(8)),
        write(bad_pieces, 0, answer),
        write(b"l" + b"0:" * 16_384 + b"e", 0, refused(6, 32_767)),
    ]


def longest_numbers():
    """Links of torrents with integers of 100,000 digits, outside of info and in it, and torrents that are refused for one."""
    beside, signed = torrent(outer={b"a": HUGE, b"sign": HUGE}), torrent(inner={b"signature": HUGE})
    cases = written(beside, hash_of(ONE), b"n", b"t") + written(signed, hash_of(signed), b"n", b"t")
    for number, marked in ((11, torrent(length=b"^" + HUGE)), (10, torrent(name=b"^" + HUGE)), (10, torrent(announce=b"^" + HUGE))):
        text, answer = marked_at(number, marked)
        cases += [write(text, room, answer) for room in (2000, 0)]
    return cases


def spread(count):
    """Bytes that take so many in a link, most of them three each."""
    return b"\xff" * (count // 3) + b"x" * (count % 3)


def named(name, announce):
    return torrent(name=string(name), announce=string(announce))


def sum_of(text, room, made):
    return case(f"sum write-link {to_hex(text)} {room}", f"{len(made)}:{sha1(made).hexdigest()}")


SMALL = {
    "links": lambda: pairs() + unknown() + hashes() + escapes() + forms() + twice() + rooms() + links_written() + torrent_first(),
}
BIG = {"links-bytes": every_byte, "links-long": longest, "links-written-long": longest_written, "links-integers": longest_numbers}

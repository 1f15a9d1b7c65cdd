"""Sheets: the row of a torrent's hash wherever it stands, every refusal at its place in its text, the order of the checks, and the limits."""

from hashlib import sha1

from notation import BELOW_FORTY, FORTY, HUGE, MARK, Case, dictionary, refused, show, string, to_hex
from torrent_texts import FIELDS, LISTING, LISTING_INFO, file, of_files, torrent

LONGEST_TEXT = 1_048_576
MOST_ROWS = 8_191

ONE = torrent()
UNANNOUNCED = torrent(announce=b"0:")
MANY = of_files(file(), file(length=b"i0e", path=b"l1:g1:he"))


def hash_of(text):
    """The hash of a torrent that ends with its info."""
    return sha1(text[text.index(b"4:info") + 6 : -1]).digest()


# The hash of ONE, and keys before and after it.
HASH = hash_of(ONE)
LOW, HIGH = b"A" * 20, b"\xff" * 20


def row(key, address=b"1:b"):
    """A row of a sheet; the address is encoded."""
    return string(key) + address


def sheet(*rows):
    return b"d" + b"".join(rows) + b"e"


def asked(text, listing, answer, shown):
    return Case(show(shown), f"address {to_hex(text)} {to_hex(listing)}", answer)


def listed(listing, address, text=ONE):
    return asked(text, listing, f"sheet {to_hex(address)}", listing)


def unlisted(listing, text=ONE, announce=b"t"):
    return asked(text, listing, f"torrent {to_hex(announce)}", listing)


def marked_at(number, marked):
    """A text without its mark, and its refusal there."""
    assert marked.count(MARK) == 1, marked
    return marked.replace(MARK, b""), refused(number, marked.index(MARK))


def bad(number, marked, text=ONE):
    """A sheet refused by that number at its mark, beside a torrent that is taken."""
    listing, answer = marked_at(number, marked)
    return asked(text, listing, answer, listing)


def bad_torrent(number, marked, listing):
    """A torrent refused by that number at its mark, whatever the sheet."""
    text, answer = marked_at(number, marked)
    return asked(text, listing, answer, text)


def other(place, step=1):
    """The hash with another byte at a place."""
    return HASH[:place] + bytes([HASH[place] + step]) + HASH[place + 1 :]


def found():
    """The hash first, last, between, alone and missing."""
    lower, higher = other(19, -1), other(19)
    sharing = [row(other(place, -1), string(b"%d" % place)) for place in range(20)]
    beyond = [row(other(place)) for place in reversed(range(20))]
    return [
        unlisted(b"de"),
        listed(sheet(row(HASH)), b"b"),
        listed(sheet(row(HASH, b"5:first"), row(HIGH)), b"first"),
        listed(sheet(row(LOW), row(HASH, b"4:last")), b"last"),
        listed(sheet(row(LOW), row(HASH, b"7:between"), row(HIGH)), b"between"),
        unlisted(sheet(row(LOW))),
        unlisted(sheet(row(HIGH))),
        unlisted(sheet(row(LOW), row(HIGH))),
        *[unlisted(sheet(row(other(place, step)))) for place in (0, 1, 10, 18, 19) for step in (-1, 1)],
        unlisted(sheet(row(lower), row(higher))),
        listed(sheet(row(lower, b"1:l"), row(HASH, b"1:s"), row(higher, b"1:h")), b"s"),
        listed(sheet(row(lower, b"1:l"), row(HASH, b"1:s")), b"s"),
        listed(sheet(row(HASH, b"1:s"), row(higher, b"1:h")), b"s"),
        # each key shares a byte more with the hash than the one before
        unlisted(sheet(*sharing, *beyond)),
        listed(sheet(*sharing, row(HASH, b"1:s"), *beyond), b"s"),
        # the hash as an address, and a hash of something else
        unlisted(sheet(row(LOW, string(HASH)))),
        listed(sheet(row(LOW, string(HASH)), row(HASH, string(LOW))), LOW),
        unlisted(sheet(row(sha1(ONE).digest()))),
        unlisted(sheet(row(sha1(b"").digest()))),
    ]


def addresses():
    """Empty ones and long ones, on both sides, and bytes of any kind."""
    lengths = (0, 1, 9, 10, 11, 99, 100, 101)
    return [
        *[listed(sheet(row(HASH, string(b"a" * length))), b"a" * length) for length in lengths],
        *[listed(sheet(row(LOW, string(b"a" * length)), row(HASH, b"1:s"), row(HIGH, string(b"a" * length))), b"s") for length in lengths],
        listed(sheet(row(LOW, b"0:"), row(HASH, b"0:"), row(HIGH, b"0:")), b""),
        listed(sheet(row(HASH, b"16:http://depot/ann")), b"http://depot/ann"),
        listed(sheet(row(HASH, b"6:i1elee")), b"i1elee"),
        listed(sheet(row(HASH, b"4:\0\n\x80\xff")), b"\0\n\x80\xff"),
        unlisted(b"de", UNANNOUNCED, b""),
        unlisted(sheet(row(LOW)), UNANNOUNCED, b""),
        listed(sheet(row(HASH)), b"b", UNANNOUNCED),
        listed(sheet(row(HASH, b"0:")), b"", UNANNOUNCED),
        unlisted(sheet(row(LOW)), torrent(announce=string(b"u" * 100)), b"u" * 100),
    ]


def of_torrents():
    """The hash is of info's bytes as they stand, in torrents of one file and of many."""
    info = b"d1:ale" + dictionary({key.encode(): FIELDS[key] for key in ("length", "name", "piece length", "pieces")})[1:-1] + b"7:privatei1ee"
    known = b"d1:a0:8:announce1:t10:created by2:me4:info" + ONE[ONE.index(b"4:info") + 6 : -1] + b"4:zzzzdee"
    unknown = b"d8:announce1:t4:info" + info + b"4:zzzzlee"
    both = sheet(*(row(key, address) for key, address in sorted([(HASH, b"3:one"), (hash_of(MANY), b"4:many")])))
    beside, signed = torrent(outer={b"a": FORTY, b"sign": BELOW_FORTY}), torrent(inner={b"signature": FORTY})
    return [
        listed(both, b"one"),
        listed(both, b"many", MANY),
        unlisted(both, LISTING, b"http://yard/ann"),
        listed(sheet(row(sha1(LISTING_INFO).digest(), b"4:week")), b"week", LISTING),
        unlisted(sheet(row(HASH)), MANY),
        unlisted(sheet(row(hash_of(MANY)))),
        # keys that nobody knows, outside of info and in it
        listed(sheet(row(HASH)), b"b", known),
        unlisted(sheet(row(HASH)), unknown),
        listed(sheet(row(sha1(info).digest())), b"b", unknown),
        # integers of forty digits, outside of info and in it
        listed(sheet(row(HASH)), b"b", beside),
        unlisted(sheet(row(LOW)), beside),
        unlisted(sheet(row(HASH)), signed),
        listed(sheet(row(hash_of(signed))), b"b", signed),
    ]


def keys():
    """A key that has not 20 bytes, before the hash's row, after it and where there is none."""
    lengths = (0, 1, 2, 9, 10, 18, 19, 21, 22, 40, 99, 100, 101, 200)
    mine = row(HASH, b"1:s")
    return [
        *[bad(15, sheet(b"^" + row(b"A" * length))) for length in lengths],
        *[bad(15, sheet(b"^" + row(b"A" * length), mine)) for length in (19, 21)],
        *[bad(15, sheet(mine, b"^" + row(b"\xff" * length))) for length in (19, 21)],
        bad(15, sheet(row(LOW), b"^" + row(LOW + b"A"), mine)),
        bad(15, sheet(row(LOW), mine, b"^" + row(HIGH[1:]), row(HIGH))),
        # the hash without its last byte, and with one more
        bad(15, sheet(b"^" + row(HASH[:19]), mine)),
        bad(15, sheet(b"^" + row(HASH[:19]))),
        bad(15, sheet(mine, b"^" + row(HASH + b"\0"))),
        bad(15, sheet(b"^" + row(HASH + b"\0"))),
        bad(15, sheet(b"^" + row(b""), mine)),
        bad(15, sheet(b"^" + row(LOW[1:])), UNANNOUNCED),
        bad(15, sheet(mine, b"^" + row(HIGH[1:])), UNANNOUNCED),
        bad(15, b"d^8:announce1:t4:infodee"),
        bad(15, b"d^" + ONE[1:]),
    ]


def values():
    """An address that is no string, before the hash's row, there, after it and where there is none."""
    mine = row(HASH, b"1:s")
    cases = []
    numbers = [b"i0e", b"i-9223372036854775808e", b"i9223372036854775808e", b"i-9223372036854775809e", FORTY, BELOW_FORTY]
    for address in (b"le", b"l1:be", *numbers, b"de", b"d1:a1:be", b"lldeli7eeee", b"l" + FORTY + b"e"):
        no_string = b"^" + address
        cases += [
            bad(10, sheet(row(LOW, no_string))),
            bad(10, sheet(row(LOW, no_string), mine)),
            bad(10, sheet(row(HASH, no_string))),
            bad(10, sheet(mine, row(HIGH, no_string))),
        ]
    return cases + [
        bad(10, sheet(row(LOW), mine, row(HIGH[1:] + b"\0", b"^le"), row(HIGH))),
        bad(10, sheet(row(LOW, b"^le")), UNANNOUNCED),
        bad(10, sheet(mine, row(HIGH, b"^i1e")), UNANNOUNCED),
    ]


def tops():
    return [
        bad(10, b"^le"),
        bad(10, b"^0:"),
        bad(10, b"^i0e"),
        bad(10, b"^" + FORTY),
        bad(10, b"^" + string(HASH)),
        bad(10, b"^l" + row(HASH) + b"e"),
        bad(10, b"^l" + sheet(row(HASH)) + b"e"),
        bad(10, b"^le", UNANNOUNCED),
    ]


def texts():
    """What any text is refused for."""
    mine = row(HASH, b"3:abc")
    return [
        bad(1, b"^"),
        bad(1, b"d^"),
        bad(1, b"d2^"),
        bad(1, b"d20^"),
        bad(1, b"d20:^"),
        bad(1, b"d20:" + HASH[:19] + b"^"),
        bad(1, b"d" + string(HASH) + b"^"),
        bad(1, b"d" + string(HASH) + b"3^"),
        bad(1, b"d" + string(HASH) + b"3:^"),
        bad(1, b"d" + string(HASH) + b"3:ab^"),
        bad(1, b"d" + mine + b"^"),
        bad(1, b"d" + mine + b"2^"),
        bad(1, b"d" + mine + string(HIGH) + b"l^"),
        bad(2, b"^x"),
        bad(2, b"^e"),
        bad(2, b"d^x"),
        bad(2, b"d^i1e1:be"),
        bad(2, b"d^le1:be"),
        bad(2, b"d^-20:" + HASH + b"1:be"),
        bad(2, b"d0^20:" + HASH + b"1:be"),
        bad(2, b"d20^;" + HASH + b"1:be"),
        bad(2, b"d20:" + HASH + b"^e"),
        bad(2, b"d20:" + HASH + b"0^1:be"),
        bad(2, b"d20:" + HASH + b"i-^0ee"),
        bad(2, b"d20:" + HASH + b"i0^3ee"),
        bad(1, b"d20:" + HASH + FORTY[:-1] + b"^"),
        bad(2, b"d20:" + HASH + FORTY[:-1] + b"^x"),
        bad(2, b"d20:" + HASH + b"i0^" + FORTY[1:] + b"e"),
        bad(2, b"d^" + FORTY + b"1:be"),
        bad(2, b"d" + mine + b"^x"),
        bad(3, sheet(mine, b"^" + row(LOW))),
        bad(3, sheet(row(HIGH), b"^" + mine)),
        bad(3, sheet(mine, b"^" + mine)),
        bad(3, sheet(row(LOW), b"^" + row(LOW), mine)),
        bad(3, sheet(row(other(19)), b"^" + mine)),
        bad(3, sheet(mine, b"^" + row(other(19, -1)))),
        bad(3, sheet(row(LOW), row(HIGH), b"^" + mine)),
        # the hash as an address and then twice as a key
        bad(3, sheet(row(LOW, string(HASH)), mine, b"^" + row(HASH, string(LOW)))),
        bad(3, sheet(row(LOW, b"d1:b0:^1:a0:e"), mine)),
        bad(5, sheet(row(HASH, b"l" * 31 + b"^l" + b"e" * 32))),
        bad(5, sheet(mine, row(HIGH, b"d1:a" * 31 + b"^d" + b"e" * 32))),
        bad(10, sheet(row(HASH, b"^l" + b"l" * 30 + b"e" * 31))),
        bad(10, sheet(mine, row(HIGH, b"^d1:a" + b"d1:a" * 30 + b"0:" + b"e" * 31))),
        bad(7, b"de^e"),
        bad(7, sheet(mine) + b"^x"),
        bad(7, sheet(mine) + b"^de"),
        bad(7, b"le^" + sheet(mine)),
        bad(7, b"0:^x"),
    ]


def order():
    """Which check comes first: a text's own, the top, and then the first bad row; in a row the key."""
    mine = row(HASH, b"1:s")
    short, long, number, long_number = row(LOW[1:]), row(LOW + b"A"), row(LOW, b"i1e"), row(LOW, FORTY)
    return [
        # a bad row, and what is no bencode behind it
        bad(7, sheet(short) + b"^x"),
        bad(7, sheet(number, mine) + b"^e"),
        bad(1, b"d" + short + b"^"),
        bad(1, b"d" + number + mine + b"^"),
        bad(1, b"d" + number + b"20:" + HASH[:7] + b"^"),
        bad(2, sheet(short, b"^x")),
        bad(2, sheet(number, b"20:" + HASH + b"^x")),
        bad(3, sheet(long, b"^" + row(LOW))),
        bad(3, sheet(number, mine, b"^" + mine)),
        bad(3, sheet(row(LOW), b"^" + short)),
        bad(3, sheet(mine, b"^" + row(HASH[:19]))),
        bad(1, b"d" + long_number + b"^"),
        bad(2, sheet(long_number, b"20:" + HASH + b"^x")),
        bad(3, sheet(long_number, mine, b"^" + mine)),
        bad(7, sheet(long_number, mine) + b"^x"),
        bad(5, sheet(number, row(HASH, b"l" * 31 + b"^le" + b"e" * 31))),
        bad(5, sheet(row(b"", b"l" * 31 + b"^le" + b"e" * 31))),
        # a key and its address
        bad(15, sheet(b"^" + row(LOW[1:], b"i1e"))),
        bad(15, sheet(b"^" + row(LOW + b"A", b"le"), mine)),
        bad(15, sheet(mine, b"^" + row(HIGH[1:], b"de"))),
        bad(15, sheet(b"^" + row(LOW[1:], b"i9223372036854775808e"))),
        # two bad rows
        bad(15, sheet(b"^" + short, long)),
        bad(15, sheet(b"^" + short, mine, row(HIGH[1:]))),
        bad(15, sheet(b"^" + short, number)),
        bad(15, sheet(b"^" + short, row(HASH, b"i9223372036854775808e"))),
        bad(15, sheet(b"^" + short, mine, row(HIGH, b"le"))),
        bad(10, sheet(row(LOW, b"^i1e"), long)),
        bad(10, sheet(row(LOW, b"^i1e"), mine, row(HIGH[1:]))),
        bad(10, sheet(row(LOW, b"^" + FORTY), long)),
        bad(10, sheet(row(LOW, b"^le"), row(HASH, b"i1e"))),
        bad(10, sheet(row(LOW, b"^le"), mine, row(HIGH, b"de"))),
        bad(10, sheet(row(HASH, b"^le"), row(HASH + b"\0"))),
    ]


# A sheet for each of its refusals but 6 and 8.
BAD_SHEETS = [
    b"", b"x", sheet(row(HASH), row(LOW)), sheet(row(HASH, b"l" * 32 + b"e" * 32)),
    b"dee", b"le", sheet(row(HASH, b"le")), sheet(row(HASH, b"i9223372036854775808e")), sheet(row(HASH[1:])),
]

# A torrent for each of its refusals but 6 and 8, each with its number and its mark.
BAD_TORRENTS = [
    (1, b"^"),
    (1, ONE[:-1] + b"^"),
    (2, b"^x"),
    (2, torrent(announce=b"0^1:t")),
    (3, b"d4:infode^8:announce0:e"),
    (5, b"l" * 32 + b"^l" + b"e" * 33),
    (7, ONE + b"^x"),
    (10, b"^le"),
    (10, b"^de"),
    (10, torrent(announce=b"^i1e")),
    (10, torrent(announce=b"^" + FORTY)),
    (10, torrent(top=b"^", announce=None)),
    (10, torrent(info=b"^", pieces=None)),
    (11, torrent(piece_length=b"^i5e")),
    (11, torrent(length=b"^i0e")),
    (11, torrent(length=b"^i9223372036854775808e")),
    (11, torrent(piece_length=b"^" + FORTY)),
    (12, torrent(pieces=b"^0:")),
    (13, torrent(name=b"^2:..")),
    (13, of_files(file(path=b"^le"))),
]


def torrent_first():
    """A torrent's refusals come before all of the sheet's, and are the same beside a sheet that is taken."""
    cases = []
    for at, (number, marked) in enumerate(BAD_TORRENTS):
        cases.append(bad_torrent(number, marked, BAD_SHEETS[at % len(BAD_SHEETS)]))
        cases.append(bad_torrent(number, marked, sheet(row(HASH))))
    cases += [bad_torrent(13, torrent(name=b"^0:"), listing) for listing in BAD_SHEETS]
    # one text as both
    return cases + [bad_torrent(1, b"d^", b"d"), bad_torrent(10, b"^de", b"de"), bad_torrent(10, b"^" + sheet(row(HASH)), sheet(row(HASH)))]


def rows(first, count):
    """So many rows of 60 bytes, whose keys have the same first byte."""
    return b"".join(row(first + b"%019d" % number, string(b"%034d" % number)) for number in range(count))


def crowded(before, mine, after):
    """A sheet of so many rows before the hash, some bytes, and so many rows after it."""
    return sheet(rows(b"A", before), mine, rows(b"\xff", after))


def most_rows():
    """8,191 rows have 16,383 values, and a row more goes past 16,384 at its address."""
    mine = row(HASH, b"34:" + b"m" * 34)
    rest = MOST_ROWS - 1
    last = b"\xff" + b"9" * 19
    return [
        listed(crowded(0, mine, rest), b"m" * 34),
        listed(crowded(rest, mine, 0), b"m" * 34),
        listed(crowded(rest // 2, mine, rest // 2), b"m" * 34),
        unlisted(crowded(rest, row(other(19)), 0)),
        unlisted(crowded(MOST_ROWS, b"", 0)),
        bad(6, crowded(MOST_ROWS, string(HASH) + b"^1:s", 0)),
        bad(6, crowded(0, mine, rest)[:-1] + string(last) + b"^0:e"),
        bad(6, crowded(0, row(HASH[:19]), rest)[:-1] + string(last) + b"^0:e"),
        bad(6, crowded(MOST_ROWS, string(HASH[:19]) + b"^1:s", 0)),
        bad(6, crowded(MOST_ROWS, string(HASH) + b"^le", 0)),
        bad(1, crowded(MOST_ROWS, string(HASH) + b"^", 0)[:-1]),
        bad(15, crowded(rest, b"^" + row(HASH[:19]), 0)),
        bad(15, crowded(rest - 1, mine + b"^" + row(HASH + b"\0"), 0)),
        bad(15, crowded(0, b"^" + row(b"A" * 21) + mine, rest - 1)),
        bad(10, crowded(rest - 1, mine + row(other(19), b"^le"), 0)),
        bad(10, crowded(rest, row(HASH, b"^l0:e"), 0)),
        bad(6, crowded(rest, row(HASH, b"l0:^0:e"), 0)),
        # values inside of one address
        bad(10, sheet(row(HASH, b"^l" + b"0:" * 16_381 + b"e"))),
        bad(6, sheet(row(HASH, b"l" + b"0:" * 16_381 + b"^0:e"))),
        bad(6, sheet(row(HASH[1:], b"l" + b"0:" * 16_381 + b"^0:e"))),
    ]


def longest():
    """The longest sheet and a byte more, beside torrents that are taken, refused and too long themselves."""
    address = b"a" * (LONGEST_TEXT - len(b"d20:1048000:e") - 20)
    full, over = sheet(row(HASH, string(address))), sheet(row(HASH, string(address + b"a")))
    assert len(full) == LONGEST_TEXT
    widest = torrent(announce=string(b"u" * (LONGEST_TEXT - len(torrent(announce=b"1048000:")))))
    assert len(widest) == LONGEST_TEXT
    key = b"k" * 500_000
    return [
        listed(full, address),
        bad(8, b"^" + over),
        bad(8, b"^" + b"x" * (LONGEST_TEXT + 1)),
        bad(2, b"^" + b"x" * LONGEST_TEXT),
        bad(1, full[:-1] + b"^"),
        bad(7, full[:1] + row(HASH, string(address[:-1])) + b"e^x"),
        bad(15, sheet(row(LOW), b"^" + row(key))),
        bad(15, sheet(b"^" + row(HASH[1:], string(address)))),
        listed(sheet(row(HASH)), b"b", widest),
        listed(full, address, widest),
        bad(8, b"^" + over, widest),
        bad_torrent(8, b"^" + widest + b"x", sheet(row(HASH))),
        bad_torrent(8, b"^" + widest + b"x", over),
        bad_torrent(1, b"^", over),
        bad_torrent(12, torrent(pieces=b"^0:"), over),
        bad_torrent(6, b"l" + b"0:" * 16_383 + b"^0:e", b"x"),
        bad_torrent(6, b"l" + b"0:" * 16_383 + b"^0:e", crowded(MOST_ROWS + 1, b"", 0)),
    ]


def longest_numbers():
    """Integers of 100,000 digits in the torrent, beside its info and in it, and as addresses, one of which fills the sheet."""
    beside, signed = torrent(outer={b"a": HUGE, b"sign": HUGE}), torrent(inner={b"signature": HUGE})
    whole = b"i-" + b"1" * (LONGEST_TEXT - len(sheet(row(HASH, b"i-e")))) + b"e"
    return [
        listed(sheet(row(HASH)), b"b", beside),
        unlisted(sheet(row(LOW)), beside),
        listed(sheet(row(hash_of(signed))), b"b", signed),
        unlisted(sheet(row(HASH)), signed),
        bad(10, sheet(row(HASH, b"^" + HUGE))),
        bad(10, sheet(row(LOW, b"^" + HUGE), row(HASH)), signed),
        bad(10, sheet(row(HASH), row(HIGH, b"^l" + HUGE + b"e"))),
        bad(10, sheet(row(HASH, b"^" + whole))),
        bad(10, b"^" + HUGE),
        bad(15, sheet(b"^" + row(LOW[1:], HUGE))),
        bad_torrent(11, torrent(length=b"^" + HUGE), sheet(row(HASH, HUGE))),
        bad_torrent(10, torrent(announce=b"^" + HUGE), b""),
    ]


SMALL = {
    "sheets": lambda: found() + addresses() + of_torrents() + keys() + values() + tops() + texts() + order() + torrent_first(),
}
BIG = {"sheets-rows": most_rows, "sheets-long": longest, "sheets-integers": longest_numbers}

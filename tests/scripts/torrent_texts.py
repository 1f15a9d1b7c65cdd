"""Torrents: document 01's listing, every refusal at its place, the order of the checks, integers of any length, and the limits."""

from hashlib import sha1

from notation import BELOW_FORTY, BELOW_HUGE, FORTY, HUGE, case, dictionary, faulty, integer, outside, refused, string, text_case, to_hex

LISTING = (
    b"d8:announce15:http://yard/ann4:infod5:filesld6:lengthi20000e4:pathl3:rte1:aeed6:lengthi0e4:pathl1:bee"
    b"d6:lengthi12769e4:pathl1:ceee4:name3:pkg12:piece lengthi16384e6:pieces60:" + b"A" * 60 + b"ee"
)
LISTING_INFO = LISTING[LISTING.index(b"4:info") + 6 : -1]

# The fields of a torrent of one file that is taken, encoded; a test replaces some, None leaves one out.
FIELDS = {
    "announce": b"1:t",
    "name": b"1:n",
    "piece length": b"i16384e",
    "pieces": string(b"A" * 20),
    "length": b"i5e",
    "files": None,
}


def torrent(top=b"", info=b"", outer=None, inner=None, **changes):
    """A torrent's text; top and info are put before those dictionaries, for a mark, and outer and inner are entries of theirs that nobody knows."""
    fields = FIELDS | {name.replace("_", " "): value for name, value in changes.items()}
    known = {name.encode(): fields[name] for name in ("name", "piece length", "pieces", "length", "files")}
    return top + dictionary({b"announce": fields["announce"], b"info": info + dictionary(known | (inner or {}))} | (outer or {}))


def of_files(*files, **changes):
    return torrent(length=None, files=b"l" + b"".join(files) + b"e", **changes)


def file(length=b"i5e", path=b"l1:fe", mark=b"", more=None):
    return mark + dictionary({b"length": length, b"path": path} | (more or {}))


def taken(text, name, piece_length, pieces, files, total, announce=b"t", after=b""):
    """After: the entries of the top dictionary that stand behind info."""
    info = text[text.index(b"4:info") + 6 : -1 - len(after)]
    words = f"{to_hex(announce)} {to_hex(name)} {piece_length} {pieces} {files} {total} {sha1(info).hexdigest()}"
    return text_case("torrent", text, f"taken {words}")


def bad(number, marked):
    return faulty("torrent", number, marked)


def listing():
    text = to_hex(LISTING)
    announce, name = to_hex(b"http://yard/ann"), to_hex(b"pkg")
    digest = sha1(LISTING_INFO).hexdigest()
    return [
        case(f"torrent {text}", f"taken {announce} {name} 16384 3 3 32769 {digest}", "document 01's listing"),
        case(f"file {text} 0", "0 20000 727465/61"),
        case(f"file {text} 1", "20000 0 62"),
        case(f"file {text} 2", "20000 12769 63"),
        case(f"file {text} 3", refused(31)),
        case(f"file {text} 1024", refused(31)),
        case(f"file {text} 4294967296", refused(31)),
    ]


def files():
    """One file by its number, after the torrent's own refusals."""
    deep = of_files(file(path=b"l1:a1:b1:c1:de"), file(length=b"i0e"), file(length=b"i7e", path=b"l2:%%e"))
    refusing = of_files(file(), file(path=b"l2:..e"))
    return [
        text_case("file", deep, "0 5 61/62/63/64", 0),
        text_case("file", deep, "5 0 66", 1),
        text_case("file", deep, "5 7 2525", 2),
        text_case("file", deep, refused(31), 3),
        text_case("file", torrent(), "0 5 6e", 0),
        text_case("file", torrent(), refused(31), 1),
        text_case("file", refusing, refused(13, refusing.index(b"2:..")), 0),
        text_case("file", b"d", refused(1, 1), 9),
    ]


def kinds():
    return [
        text_case("torrent", b"", refused(1, 0)),
        text_case("torrent", b"dee", refused(7, 2)),
        bad(10, b"^le"),
        bad(10, b"^i1e"),
        bad(10, b"^1:d"),
        bad(10, b"^de"),
        bad(10, torrent(top=b"^", announce=None)),
        bad(10, torrent(announce=b"^i1e")),
        bad(10, torrent(announce=b"^le")),
        bad(10, b"^d8:announce1:te"),
        bad(10, b"d8:announce1:t4:info^lee"),
        bad(10, b"d8:announce1:t4:info^4:infoe"),
        bad(10, b"d8:announce1:t4:info^dee"),
        bad(10, torrent(info=b"^", name=None)),
        bad(10, torrent(name=b"^i1e")),
        bad(10, torrent(name=b"^l1:ne")),
        bad(10, torrent(info=b"^", piece_length=None)),
        bad(10, torrent(piece_length=b"^5:16384")),
        bad(10, torrent(info=b"^", pieces=None)),
        bad(10, torrent(pieces=b"^i20e")),
        bad(10, torrent(info=b"^", length=None)),
        bad(10, torrent(info=b"^", files=b"le")),
        bad(10, torrent(info=b"^", files=b"i1e")),
        bad(10, torrent(length=b"^1:5")),
        bad(10, torrent(length=b"^le")),
        bad(10, torrent(length=None, files=b"^de")),
        bad(10, torrent(length=None, files=b"^i5e")),
        bad(10, of_files(b"^le")),
        bad(10, of_files(b"^1:f")),
        bad(10, of_files(file(length=None, mark=b"^"))),
        bad(10, of_files(file(length=b"^1:5"))),
        bad(10, of_files(file(path=None, mark=b"^"))),
        bad(10, of_files(file(path=b"^1:f"))),
        bad(10, of_files(file(path=b"^de"))),
        bad(10, of_files(file(path=b"l^i1ee"))),
        bad(10, of_files(file(path=b"l1:f^lee"))),
        bad(10, of_files(file(), file(), file(path=b"l1:f^dee"))),
    ]


def numbers():
    lengths = [16384 << power for power in range(11)]
    wrong = [0, -1, 1, 8192, 16383, 16385, 24576, 16777215, 33554432, -16384, 2**63 - 1, -(2**63)]
    return [
        *[taken(torrent(piece_length=integer(n)), b"n", n, 1, 1, 5) for n in lengths],
        *[bad(11, torrent(piece_length=b"^" + integer(n))) for n in wrong],
        bad(11, torrent(length=b"^i-1e")),
        bad(11, torrent(length=b"^i0e")),
        taken(torrent(length=b"i1e"), b"n", 16384, 1, 1, 1),
        taken(torrent(length=b"i16384e"), b"n", 16384, 1, 1, 16384),
        bad(12, torrent(length=b"i16385e", pieces=b"^" + string(b"A" * 20))),
        bad(11, torrent(length=b"^i274877906944e")),
        bad(11, torrent(length=b"^i274877906945e")),
        bad(11, torrent(length=b"^i9223372036854775807e")),
        bad(11, torrent(length=None, files=b"^le")),
        bad(11, torrent(length=None, files=b"^l" + file(length=b"i0e") + b"e")),
        bad(11, torrent(length=None, files=b"^l" + file(length=b"i0e") * 2 + b"e")),
        bad(11, of_files(file(length=b"^i-1e"))),
        bad(11, of_files(file(length=b"^i274877906945e"))),
        bad(11, torrent(length=None, files=b"^l" + file(length=b"i274877906944e") * 3 + b"e")),
        taken(of_files(file(length=b"i0e"), file(), file(length=b"i0e")), b"n", 16384, 1, 3, 5),
        taken(torrent(announce=b"0:"), b"n", 16384, 1, 1, 5, announce=b""),
    ]


def pieces():
    return [
        bad(12, torrent(pieces=b"^0:")),
        bad(12, torrent(pieces=b"^" + string(b"A" * 19))),
        bad(12, torrent(pieces=b"^" + string(b"A" * 21))),
        bad(12, torrent(pieces=b"^" + string(b"A" * 40))),
        taken(torrent(pieces=string(b"\0" * 20)), b"n", 16384, 1, 1, 5),
        bad(12, of_files(file(length=b"i16384e"), file(length=b"i1e"), pieces=b"^" + string(b"A" * 20))),
    ]


def names():
    forbidden = [b"", b".", b"..", b"/", b"a/b", b"/a", b"a/", b"\0", b"a\0", b"\0a", b"../a"]
    allowed = [b"...", b".a", b"..a", b"a.", b"a..", b" ", b"%", b"\xff\xfe", b"\xc3\xa4", b"\\", b"a\nb"]
    cases = []
    for name in forbidden:
        cases.append(bad(13, torrent(name=b"^" + string(name))))
        cases.append(bad(13, of_files(file(path=b"l^" + string(name) + b"e"))))
        cases.append(bad(13, of_files(file(), file(path=b"l1:f^" + string(name) + b"1:fe"))))
    for name in allowed:
        text = torrent(name=string(name))
        cases.append(taken(text, name, 16384, 1, 1, 5))
        cases.append(text_case("file", text, f"0 5 {to_hex(name)}", 0))
        text = of_files(file(path=b"l" + string(name) + b"1:ge"))
        cases.append(text_case("file", text, f"0 5 {to_hex(name)}/67", 0))
    cases.append(bad(13, of_files(file(path=b"^le"))))
    cases.append(bad(13, of_files(file(), file(path=b"^le"))))
    return cases


# The faults of each check in document 01's order: a torrent with one of them and all later ones is refused by it.
ORDER = [
    ("announce", b"i1e", 10),
    ("name", b"i1e", 10),
    ("name", b"2:..", 13),
    ("piece length", b"0:", 10),
    ("piece length", FORTY, 11),
    ("piece length", b"i5e", 11),
    ("pieces", b"le", 10),
    ("length", b"0:", 10),
    ("length", BELOW_FORTY, 11),
    ("length", b"i-1e", 11),
    ("length", b"i0e", 11),
    ("pieces", b"0:", 12),
]


def order():
    cases = []
    for first in range(len(ORDER)):
        changes = {}
        for field, value, _ in reversed(ORDER[first:]):
            changes[field] = value
        field, value, number = ORDER[first]
        changes[field] = b"^" + value
        cases.append(bad(number, torrent(**changes)))
    one_of_both = torrent(info=b"^", length=b"i-1e", files=b"i1e", pieces=b"0:")
    return cases + [
        bad(10, one_of_both),
        bad(11, of_files(file(length=b"^i-1e", path=None))),
        bad(10, of_files(file(length=None, path=b"le", mark=b"^"))),
        bad(13, of_files(file(path=b"l^0:i1ee"))),
        bad(10, of_files(file(path=b"l^i1e0:e"))),
        bad(13, of_files(file(path=b"^le"), file(length=b"i-1e"))),
        bad(11, of_files(file(length=b"^i-1e"), file(path=b"le"), b"i1e")),
        bad(10, of_files(file(length=b"i0e"), b"^i1e", pieces=b"0:")),
        bad(13, of_files(file(length=b"i0e", path=b"l^0:e"))),
        bad(11, torrent(length=None, files=b"^le", pieces=b"0:")),
        bad(3, b"d4:infode^8:announce0:e"),
    ]


def unknown_keys():
    single = (
        b"d1:a2:xx8:announce1:t9:announcedle10:created byi5e4:infod4:filed1:ai1ee6:lengthi5e7:lengthsle4:name1:n"
        b"5:name 0:12:piece lengthi16384e6:pieces20:AAAAAAAAAAAAAAAAAAAA7:privatei1ee4:zzzzdee"
    )
    info = single[single.index(b"4:info") + 6 : single.index(b"4:zzzz")]
    many = of_files(b"d1:a0:6:lengthi5e3:md532:" + b"0" * 32 + b"4:pathl1:fe5:path.lee")
    answer = f"taken 74 6e 16384 1 1 5 {sha1(info).hexdigest()}"
    return [
        text_case("torrent", single, answer),
        taken(many, b"n", 16384, 1, 1, 5),
        bad(10, b"^d8:Announce1:t4:infodee"),
        bad(10, b"d8:announce1:t4:info^d6:Lengthi5e4:name1:n12:piece lengthi16384e6:pieces20:AAAAAAAAAAAAAAAAAAAAee"),
    ]


def out_of_range():
    """Integers outside 64 bits where a number is wanted, and where another kind is."""
    cases = []
    for number in outside(16384):
        cases.append(bad(11, torrent(piece_length=b"^" + number)))
    for number in outside(5):
        cases.append(bad(11, torrent(length=b"^" + number)))
        cases.append(bad(11, of_files(file(length=b"^" + number))))
        cases.append(bad(11, of_files(file(), file(length=b"^" + number, path=b"le"), b"i1e")))
    for number in (FORTY, BELOW_FORTY, b"i9223372036854775808e"):
        other = b"^" + number
        cases += [
            bad(10, other),
            bad(10, torrent(announce=other)),
            bad(10, b"d8:announce1:t4:info" + other + b"e"),
            bad(10, torrent(name=other)),
            bad(10, torrent(pieces=other)),
            bad(10, torrent(length=None, files=other)),
            bad(10, of_files(other)),
            bad(10, of_files(file(), other)),
            bad(10, of_files(file(path=other))),
            bad(10, of_files(file(path=b"l" + other + b"e"))),
            bad(10, of_files(file(path=b"l1:f" + other + b"e"))),
        ]
    return cases + [
        bad(10, torrent(info=b"^", length=FORTY, files=FORTY)),
        bad(10, torrent(info=b"^", length=None, inner={b"lengths": FORTY})),
        bad(10, torrent(top=b"^", announce=None, outer={b"announced": FORTY})),
        bad(12, torrent(pieces=b"^0:", inner={b"signature": FORTY})),
        bad(13, of_files(file(path=b"^le", more={b"signature": FORTY}))),
        bad(1, torrent(inner={b"signature": FORTY[:-1]})[:-2] + b"^"),
        bad(2, torrent(inner={b"signature": b"i0^" + FORTY[1:]})),
        bad(3, b"d8:announce1:t9:signature" + FORTY + b"^4:infodee"),
    ]


# Keys that nobody knows, before, between and after those of the top dictionary, of info and of a file.
IN_TOP = [b"a", b"announced", b"inf", b"signature"]
IN_INFO = [b"a", b"filet", b"lengths", b"nam", b"named", b"piece lengt", b"piece lengths", b"piecer", b"signature"]
IN_FILE = [b"a", b"lengths", b"patch", b"signature"]


def signed(number):
    """Torrents with an integer under one of these keys, or under all of them."""
    cases = []
    for keys in [*([key] for key in IN_TOP), IN_TOP]:
        after = b"".join(string(key) + number for key in keys if key > b"info")
        cases.append(taken(torrent(outer=dict.fromkeys(keys, number)), b"n", 16384, 1, 1, 5, after=after))
    for keys in [*([key] for key in IN_INFO), IN_INFO]:
        cases.append(taken(torrent(inner=dict.fromkeys(keys, number)), b"n", 16384, 1, 1, 5))
        cases.append(taken(of_files(file(), inner=dict.fromkeys(keys, number)), b"n", 16384, 1, 1, 5))
    for keys in [*([key] for key in IN_FILE), IN_FILE]:
        text = of_files(file(), file(length=b"i7e", path=b"l1:g1:he", more=dict.fromkeys(keys, number)), file(path=b"l1:ie"))
        cases += [taken(text, b"n", 16384, 1, 3, 17), text_case("file", text, "5 7 67/68", 1), text_case("file", text, "12 5 69", 2)]
    return cases


def long_numbers():
    """Skipped keys with integers outside 64 bits, alone and inside of what is skipped, and what is asked of such a torrent."""
    text = torrent(pieces=string(sha1(b"board").digest()), inner={b"signature": FORTY})
    deep = b"l" + FORTY + b"d1:a" + BELOW_FORTY + b"1:b" + FORTY + b"ee"
    return [
        *signed(FORTY),
        *[taken(torrent(inner={b"signature": number}), b"n", 16384, 1, 1, 5) for number in (*outside(5), deep)],
        *[taken(of_files(file(more={b"md5": number})), b"n", 16384, 1, 1, 5) for number in (BELOW_FORTY, deep)],
        text_case("file", text, "0 5 6e", 0),
        text_case("file", text, refused(31), 1),
        text_case("piece", text, "yes", 0, to_hex(b"board")),
        text_case("piece", text, "no", 0, to_hex(b"boarD")),
    ]


def longest_numbers():
    """Integers of 100,000 digits, skipped and in the place of others, and one that fills the text."""
    rest = 1_048_576 - len(torrent(inner={b"signature": b"ie"}))
    full, over = (torrent(inner={b"signature": b"i" + b"1" * count + b"e"}) for count in (rest, rest + 1))
    return [
        *signed(HUGE),
        taken(full, b"n", 16384, 1, 1, 5),
        text_case("torrent", over, refused(8)),
        bad(11, torrent(piece_length=b"^" + HUGE)),
        bad(11, torrent(length=b"^" + BELOW_HUGE)),
        bad(11, of_files(file(), file(length=b"^" + HUGE))),
        bad(10, torrent(name=b"^" + HUGE)),
        bad(10, torrent(announce=b"^" + BELOW_HUGE)),
        bad(10, of_files(file(path=b"l1:f^" + HUGE + b"e"))),
        bad(12, torrent(pieces=b"^0:", inner={b"signature": HUGE})),
    ]


def piece_checks():
    small = torrent(pieces=string(sha1(b"board").digest()))
    refusing = torrent(name=b"0:")
    return [
        text_case("piece", small, "yes", 0, to_hex(b"board")),
        text_case("piece", small, "no", 0, to_hex(b"boarD")),
        text_case("piece", small, refused(34), 0, to_hex(b"boar")),
        text_case("piece", small, refused(34), 0, to_hex(b"boards")),
        text_case("piece", small, refused(34), 0, "-"),
        text_case("piece", small, refused(31), 1, to_hex(b"board")),
        text_case("piece", small, refused(31), 1, "-"),
        text_case("piece", small, refused(31), 4294967296, to_hex(b"board")),
        text_case("piece", refusing, refused(13, refusing.index(b"0:")), 9, "-"),
    ]


def long_pieces():
    content = b"board" * 4000
    hashes = sha1(content[:16384]).digest() + sha1(content[16384:]).digest()
    text = torrent(length=integer(len(content)), pieces=string(hashes))
    data = bytes(16_777_217)
    longest = torrent(piece_length=b"i16777216e", length=b"i16777216e", pieces=string(sha1(data[1:]).digest()))
    return [
        text_case("piece", text, "yes", 0, to_hex(content[:16384])),
        text_case("piece", text, "yes", 1, to_hex(content[16384:])),
        text_case("piece", text, "no", 0, to_hex(content[1:16385])),
        text_case("piece", text, refused(34), 0, to_hex(content[16384:])),
        text_case("piece", text, refused(34), 1, to_hex(content[:16384])),
        text_case("piece", text, refused(31), 2, to_hex(content[16384:])),
        text_case("piece", longest, "yes", 0, to_hex(data[1:])),
        text_case("piece", longest, refused(8), 0, to_hex(data)),
        text_case("piece", longest, refused(31), 1, to_hex(data)),
    ]


def many_files(count, last=file()):
    return b"l" + file() * (count - 1) + last + b"e"


def limits():
    full = string(b"A" * 20 * 16384)
    short = string(b"A" * 20 * 16383)
    most = 16384 * 16384
    largest, widest = 274_877_906_944, b"i16777216e"
    text = torrent(length=None, files=many_files(1024))
    spread = of_files(*[file(length=integer(most // 1024))] * 1024, pieces=full)
    return [
        taken(text, b"n", 16384, 1, 1024, 5120),
        text_case("file", text, "5115 5 66", 1023),
        text_case("file", text, refused(31), 1024),
        bad(11, torrent(length=None, files=b"^" + many_files(1025))),
        bad(13, torrent(length=None, files=many_files(1025, file(path=b"^le")))),
        taken(torrent(length=integer(most), pieces=full), b"n", 16384, 16384, 1, most),
        taken(torrent(length=integer(most - 16383), pieces=full), b"n", 16384, 16384, 1, most - 16383),
        bad(12, torrent(length=integer(most - 16384), pieces=b"^" + full)),
        taken(torrent(length=integer(most - 16384), pieces=short), b"n", 16384, 16383, 1, most - 16384),
        bad(12, torrent(length=integer(most), pieces=b"^" + short)),
        bad(11, torrent(length=b"^" + integer(most + 1), pieces=full)),
        taken(torrent(length=integer(largest), piece_length=widest, pieces=full), b"n", 16777216, 16384, 1, largest),
        bad(11, torrent(length=b"^" + integer(largest + 1), piece_length=widest, pieces=full)),
        bad(11, torrent(length=None, files=b"^l" + file(integer(largest)) + file(b"i1e") + b"e", piece_length=widest)),
        bad(11, torrent(length=None, files=b"^l" + file(integer(largest)) * 1024 + b"e", piece_length=widest)),
        taken(spread, b"n", 16384, 16384, 1024, most),
        text_case("torrent", string(b"a" * 1_048_569), refused(8)),
        text_case("torrent", b"l" + b"0:" * 16384 + b"e", refused(6, 32767)),
        text_case("torrent", b"l" * 33, refused(5, 32)),
    ]


SMALL = {
    "torrents-listing": listing,
    "pieces": piece_checks,
    "torrents": lambda: files() + kinds() + numbers() + pieces() + names() + order() + unknown_keys() + out_of_range() + long_numbers(),
}
BIG = {"torrents-limits": limits, "torrents-integers": longest_numbers, "pieces-long": long_pieces}

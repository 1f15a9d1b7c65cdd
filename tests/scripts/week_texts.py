"""A week's packages in one file: what they come to, every field of the table wrong, cut off or given before, bodies refused at their place in the
file, the order of the checks, integers of any length in bodies, files written of bodies, and the limits."""

import re
from collections import namedtuple
from hashlib import sha1

from notation import BELOW_FORTY, BELOW_HUGE, FORTY, HUGE, MARK, case, integer, refused, string
from sample_texts import SAMPLES
from sheet_texts import BAD_TORRENTS, LONGEST_TEXT, hash_of
from torrent_texts import LISTING, file, of_files, torrent

MOST_PACKAGES = 256
NUMBER, HASH = 4, 20
ENTRY = NUMBER + NUMBER + HASH
LARGEST_NUMBER = 2**32 - 1
LARGEST_WORD = 2**64 - 1

# What a package comes to, which the cases know without reading its body.
Package = namedtuple("Package", "body files total info_hash")


def package(body, files, total):
    return Package(body, files, total, hash_of(body))


def named(name, announce=b"t"):
    """A package of one file of five bytes."""
    return package(torrent(name=string(name), announce=string(announce)), 1, 5)


A, B, C = named(b"a"), named(b"bb"), named(b"c")
MANY = package(of_files(file(), file(length=b"i0e", path=b"l1:g1:he"), file(length=b"i7e")), 3, 12)
THREE = [A, MANY, B]


# ---- files


def number(value):
    return value.to_bytes(NUMBER, "big")


def table_end(count):
    return NUMBER + ENTRY * count


def fields_of(packages):
    """The table's fields, left to right: the number, then offset, length and hash of each."""
    at = table_end(len(packages))
    fields = [number(len(packages))]
    for one in packages:
        fields += [number(at), number(len(one.body)), one.info_hash]
        at += len(one.body)
    return fields


# Which field is a package's, and where a field stands.
def offset_field(package_number):
    return 1 + 3 * package_number


def length_field(package_number):
    return 2 + 3 * package_number


def hash_field(package_number):
    return 3 + 3 * package_number


def place_of(field):
    entry, within = divmod(field - 1, 3)
    return NUMBER + ENTRY * entry + NUMBER * within if field else 0


def week_of(packages, changes=None, after=b""):
    """The file of some packages, with some fields changed and bytes after the last body."""
    fields = fields_of(packages)
    for field, value in (changes or {}).items():
        fields[field] = value
    return b"".join(fields) + b"".join(one.body for one in packages) + after


def offset_of(packages, package_number):
    return table_end(len(packages)) + sum(len(one.body) for one in packages[:package_number])


# ---- calls


# What comes many times in a row, which a script has as a run.
UNITS = [b"A", b"u", b"1", b"\0", b"\xff", b"0:", file(b"i0e")]
RUNS = re.compile(b"|".join(b"((?:%s){12,})" % re.escape(unit) for unit in UNITS))


def word(data):
    """The bytes as a script has them."""
    parts, at = [], 0
    for run in RUNS.finditer(data):
        unit = UNITS[run.lastindex - 1]
        parts += [data[at : run.start()].hex(), f"{unit.hex()}*{len(run.group()) // len(unit)}"]
        at = run.end()
    parts.append(data[at:].hex())
    return ".".join(filter(None, parts)) or "-"


def read(data, answer, shown=""):
    return case(f"week {word(data)}", answer, shown)


def asked(data, package_number, answer):
    return case(f"package {word(data)} {package_number}", answer)


def bad(data, number, place, shown=""):
    return read(data, refused(number, place), shown)


def bad_field(packages, changes, field, shown="", after=b""):
    """A file that is refused at a field."""
    return bad(week_of(packages, changes, after), 18, place_of(field), shown)


def taken(packages, shown=""):
    """What a file comes to, each of its packages, and none past the last."""
    data, count = week_of(packages), len(packages)
    sums = sum(one.files for one in packages), sum(one.total for one in packages)
    cases = [read(data, f"taken {count} {sums[0]} {sums[1]}", shown)]
    for k, one in enumerate(packages):
        cases.append(asked(data, k, f"{one.info_hash.hex()} {offset_of(packages, k)} {len(one.body)} {one.files} {one.total}"))
    return cases + [asked(data, k, refused(31)) for k in (count, LARGEST_WORD)]


# ---- reading


def samples():
    """Every torrent of samples/, together."""
    known = [
        ("map.torrent", 1, 40000, "92d1f387738ce6eaa50ec6f103e17dd5d05c37a9"),
        ("mktorrent.torrent", 4, 82769, "ab385ef2b4d614176417c456f2f3e4d84f355b18"),
        ("route.torrent", 3, 27701, "2a194c61bee87a7879b10a66aebaaf58a736cbd1"),
        ("week.torrent", 3, 32769, hash_of(LISTING).hex()),
    ]
    return [Package((SAMPLES / name).read_bytes(), files, total, bytes.fromhex(info_hash)) for name, files, total, info_hash in known]


def packages():
    """One, some, and all samples, which are samples/packages.week."""
    together = samples()
    assert week_of(together) == (SAMPLES / "packages.week").read_bytes()
    cases = taken([A], "one package") + taken([MANY, A]) + taken(THREE, "three packages") + taken([B, A, MANY])
    for one in (package(LISTING, 3, 32769), package(torrent(name=string(b"d"), announce=b"0:"), 1, 5)):
        cases += taken([C, one])
    return cases + taken(together, "samples/packages.week") + asked_past(week_of(THREE), 3)


def asked_past(data, count):
    return [asked(data, k, refused(31)) for k in (count, count + 1, 256, 257, 2**32, 2**32 + count - 1, 2**63)]


def large(length, name):
    """A package of one file, in pieces of 16 MiB."""
    pieces = b"A" * (20 * -(-length // 2**24))
    return package(torrent(name=string(name), length=integer(length), piece_length=b"i16777216e", pieces=string(pieces)), 1, length)


def sums():
    """Totals that pass 32 bits, one by one and only together."""
    return [
        *taken([large(2**32 - 1, b"a"), large(1, b"b")], "2^32 - 1 and 1 bytes")[:3],
        *taken([large(2**31, b"a"), large(2**31, b"b"), large(2**31, b"c")])[:4],
        *taken([large(2**32, b"a"), large(2**32 + 1, b"b"), A])[:4],
        *taken([large(2**36, b"a"), large(2**36 - 1, b"b")])[:3],
    ]


def wrong_numbers():
    """How many packages there are."""
    cases = []
    for count in (0, 257, 258, 2**8 * 257, 2**16, 2**24, 2**24 + 1, 2**31, LARGEST_NUMBER):
        cases += [bad(number(count), 18, 0, f"{count} packages"), bad_field([A], {0: number(count)}, 0)]
    # a number that may stand there moves the end of the table
    return cases + [
        bad_field([A, B], {0: number(1)}, offset_field(0), "one for two packages"),
        bad_field([A, B], {0: number(3)}, offset_field(0)),
        bad_field([A, B], {0: number(256)}, offset_field(0)),
        bad(number(1), 18, place_of(1)),
        bad(number(256), 18, place_of(1)),
        *[bad(number(256)[:cut], 18, 0) for cut in range(4)],
    ]


def wrong_offsets():
    cases = []
    for k in range(3):
        right = offset_of(THREE, k)
        for value in (right + 1, right - 1, 0, place_of(offset_field(k)), right + 2**8, right + 2**16, right + 2**24, right + 2**31, LARGEST_NUMBER):
            cases.append(bad_field(THREE, {offset_field(k): number(value)}, offset_field(k), f"offset {value} of package {k}" if value == right + 1 else ""))
        # one byte that nobody has before a body, which the table tells
        gap = THREE[:k] + [Package(b"x" + THREE[k].body, 0, 0, THREE[k].info_hash)] + THREE[k + 1 :]
        told = {offset_field(k): number(right + 1), length_field(k): number(len(THREE[k].body))}
        cases.append(bad_field(gap, told, offset_field(k), f"a byte between the bodies, before body {k}"))
    return cases


def wrong_lengths():
    """A length that is wrong moves the body after it, or the file's end."""
    cases = []
    size = len(week_of(THREE))
    for k in range(3):
        right, rest = len(THREE[k].body), size - offset_of(THREE, k)
        # the last but one would end the body at byte 0 by 32 bits
        for value in (rest + 1, rest + 2**8, rest + 2**24, 2**31, 2**32 - offset_of(THREE, k), LARGEST_NUMBER):
            shown = f"length {value} of package {k}" if value in (rest + 1, LARGEST_NUMBER) else ""
            cases.append(bad_field(THREE, {length_field(k): number(value)}, length_field(k), shown))
        if k < 2:
            # within the file: the next offset is wrong
            cases += [bad_field(THREE, {length_field(k): number(value)}, offset_field(k + 1)) for value in (0, right - 1, right + 1, rest)]
    last = offset_of(THREE, 2)
    return cases + [bad(week_of(THREE, {length_field(2): number(value)}), 18, last + value, "a length that ends before the file") for value in (0, 1, len(B.body) - 1)]


def wrong_hashes():
    """A hash that an earlier entry has is wrong in the table, any other that is no body's own after the bodies before it."""
    twice = named(b"a", b"other")
    cases = [
        bad_field([A, A], {}, hash_field(1), "two equal bodies"),
        bad_field([A, B, A], {}, hash_field(2)),
        bad_field([B, A, A], {}, hash_field(2)),
        bad_field([A, twice], {}, hash_field(1), "two bodies with one info"),
        bad_field([A, B, twice], {}, hash_field(2)),
        bad_field(THREE, {hash_field(0): B.info_hash}, hash_field(2)),
        bad_field(THREE, {hash_field(0): MANY.info_hash}, hash_field(1)),
        bad_field(THREE, {hash_field(1): A.info_hash, hash_field(2): A.info_hash}, hash_field(1)),
        bad_field(THREE, {hash_field(1): C.info_hash, hash_field(2): C.info_hash}, hash_field(2)),
        bad_field([A, A], {hash_field(1): B.info_hash}, hash_field(1), "two equal bodies, not by the table"),
        bad_field([A, A], {hash_field(0): B.info_hash}, hash_field(0)),
        bad_field([A, B], {hash_field(0): B.info_hash, hash_field(1): A.info_hash}, hash_field(0), "hashes the other way round"),
    ]
    for k in range(3):
        for place in (0, 10, 19):
            cases.append(bad_field(THREE, {hash_field(k): another(THREE[k].info_hash, place)}, hash_field(k)))
        for value in (bytes(20), sha1(THREE[k].body).digest(), THREE[k].info_hash[::-1]):
            cases.append(bad_field(THREE, {hash_field(k): value}, hash_field(k)))
    return cases


def another(info_hash, place):
    """The hash with another byte at a place."""
    return info_hash[:place] + bytes([info_hash[place] ^ 1]) + info_hash[place + 1 :]


def cut_answer(packages, cut):
    """The refusal of a file of which only so many bytes are there: at the first length that its bytes are too few for, once all of that is there."""
    if cut < place_of(length_field(0)) + NUMBER:
        return refused(18, max(place for place in (0, *map(place_of, (1, 2))) if place <= cut))
    short = next(k for k in range(len(packages)) if cut < offset_of(packages, k) + len(packages[k].body))
    return refused(18, place_of(length_field(short)))


def every_cut():
    """Files cut at every byte, of their tables and of their bodies."""
    cases = []
    for together in ([A], [MANY, A], THREE, samples()):
        data = week_of(together)
        cases += [read(data[:cut], cut_answer(together, cut)) for cut in range(len(data))]
    return cases


def some_cuts():
    """The file of two cut at each field's two sides, and at each body's."""
    data, together = week_of([A, B]), [A, B]
    places = sorted({max(0, at + step) for at in (*map(place_of, range(7)), 60, 60 + len(A.body), len(data)) for step in (-1, 0, 1)})
    cuts = [cut for cut in places if cut < len(data)]
    return [read(data[:cut], cut_answer(together, cut), f"{cut} bytes of two packages") for cut in cuts]


def after_the_last():
    cases = []
    for together in ([A], THREE):
        size = len(week_of(together))
        for after in (b"x", b"\0", b"e", A.body, bytes(28)):
            cases.append(bad(week_of(together, after=after), 18, size, "bytes after the last body" if after == b"x" else ""))
    return cases


# ---- bodies


def marked(body):
    """A body without its mark, under a hash of its own, and where the mark stands."""
    assert body.count(MARK) == 1, body
    plain = body.replace(MARK, b"")
    return Package(plain, 0, 0, sha1(b"hash of " + plain).digest()), body.index(MARK)


def bad_bodies():
    """Each refusal of a torrent, in each body, with its place in the file."""
    cases = []
    for refusal, body in BAD_TORRENTS:
        one, place = marked(body)
        for together in ([one], [one, A], [A, B, one]):
            at = offset_of(together, together.index(one))
            shown = f"body {together.index(one)} refused by {refusal}" if together == [one] else ""
            cases.append(bad(week_of(together), refusal, at + place, shown))
        data = week_of([A, one])
        cases += [asked(data, k, refused(refusal, offset_of([A, one], 1) + place)) for k in (0, 1, 2)]
    return cases


def short_bodies():
    """A body without its last byte, or its first, with its length and the offsets after it one less; and an empty one."""
    cases = []
    for k in range(3):
        last, first = (THREE[:k] + [THREE[k]._replace(body=body)] + THREE[k + 1 :] for body in (THREE[k].body[:-1], THREE[k].body[1:]))
        cases.append(bad(week_of(last), 1, offset_of(THREE, k) + len(THREE[k].body) - 1, f"body {k} without its last byte"))
        cases.append(bad(week_of(first), 7, offset_of(THREE, k) + len(b"8:announce")))
        empty = THREE[:k] + [THREE[k]._replace(body=b"")] + THREE[k + 1 :]
        cases.append(bad(week_of(empty), 1, offset_of(THREE, k), f"body {k} of no bytes"))
        longer = THREE[:k] + [THREE[k]._replace(body=THREE[k].body + b"x")] + THREE[k + 1 :]
        cases.append(bad(week_of(longer), 7, offset_of(THREE, k) + len(THREE[k].body), f"body {k} with a byte more"))
    nothing = [one._replace(body=b"") for one in THREE]
    return cases + [
        bad(week_of(nothing), 1, table_end(3), "three bodies of no bytes"),
        bad(week_of(nothing[:1]), 1, table_end(1)),
        bad(week_of(nothing[:1], after=b"x"), 18, table_end(1)),
        bad(week_of(nothing, {length_field(2): number(1)}), 18, place_of(length_field(2))),
    ]


def order():
    """The table before the bodies, the bodies one by one, and 31 after all."""
    broken, place = marked(b"^x")
    late, _ = marked(torrent(pieces=b"^0:"))
    wrong = A._replace(info_hash=bytes(20))
    first = table_end(3)
    return [
        bad_field([broken, A, B], {offset_field(2): number(0)}, offset_field(2), "a bad body before a wrong offset"),
        bad_field([broken, A, B], {hash_field(2): A.info_hash}, hash_field(2)),
        bad_field([broken, A, B], {length_field(2): number(999)}, length_field(2)),
        bad(week_of([broken, A, B], after=b"x"), 18, len(week_of([broken, A, B]))),
        bad(week_of([wrong, A, B], after=b"x"), 18, len(week_of([wrong, A, B]))),
        bad_field([wrong, broken, B], {}, hash_field(0), "a hash that is no body's own before a bad body"),
        bad(week_of([broken, wrong, B]), 2, first + place),
        bad(week_of([broken, late, B]), 2, first + place),
        bad_field([A._replace(info_hash=bytes(20)), B._replace(info_hash=b"x" * 20), C], {}, hash_field(0)),
        # in one entry: its offset, its length, its hash
        bad_field([A, B], {offset_field(1): number(0), length_field(1): number(999), hash_field(1): A.info_hash}, offset_field(1)),
        bad_field([A, B], {length_field(1): number(999), hash_field(1): A.info_hash}, length_field(1)),
        bad_field([A, A, B], {offset_field(2): number(0)}, hash_field(1)),
        bad_field([A, A], {}, hash_field(1), after=b"x"),
        bad_field([A, B], {0: number(0), offset_field(0): number(0)}, 0),
        *[asked(week_of([A, A]), k, refused(18, place_of(hash_field(1)))) for k in (0, 1, 2)],
        *[asked(week_of([A, B], after=b"x"), k, refused(18, len(week_of([A, B])))) for k in (0, 2)],
        *[asked(week_of([wrong]), k, refused(18, place_of(hash_field(0)))) for k in (0, 1)],
        *[asked(b"", k, refused(18)) for k in (0, 256)],
    ]


def signed(number):
    """Packages with an integer under a key that nobody knows: before info, after it, in it and in a file's dictionary."""
    # of the third the info is C's, and does not end the body
    return [
        package(torrent(name=string(b"a"), outer={b"a": number, b"b": number}), 1, 5),
        package(torrent(name=string(b"b"), inner={b"a": number, b"signature": number}), 1, 5),
        Package(torrent(name=string(b"c"), outer={b"sign": number}), 1, 5, C.info_hash),
        package(of_files(file(), file(length=b"i7e", more={b"a": number, b"md5": number, b"sign": number}), name=string(b"d")), 2, 12),
    ]


def long_numbers(long, below):
    """Integers outside 64 bits in bodies: skipped, refused, beside another hash, and cut off by the body's end though digits follow."""
    together = signed(long)
    cases = taken(together, "integers of any length") + taken([together[2], B])
    for number, body in ((11, torrent(length=b"^" + long)), (11, torrent(piece_length=b"^" + below)), (10, torrent(name=b"^" + below)), (10, b"^" + long)):
        one, place = marked(body)
        for packages in ([one], [B, one, A]):
            cases.append(bad(week_of(packages), number, offset_of(packages, packages.index(one)) + place))
    cut = [A._replace(body=b"d1:a" + long[:-9]), B._replace(body=long[-9:])]
    return cases + [
        bad_field(together, {hash_field(1): B.info_hash}, hash_field(1)),
        bad(week_of(cut), 1, offset_of(cut, 1), "a body that ends among digits"),
    ]


# ---- writing


def listed(lengths):
    return ",".join(map(str, lengths)) or "-"


def write(bodies, lengths, room, answer, shown="", call="write-week"):
    return case(f"{call} {word(bodies)} {listed(lengths)} {room}", answer, shown)


def joined(packages):
    return b"".join(one.body for one in packages)


def lengths_of(packages):
    return [len(one.body) for one in packages]


def written(packages, shown=""):
    """A file of some packages, into room that just fits, is larger and is too short; and read back."""
    made, bodies, lengths = week_of(packages), joined(packages), lengths_of(packages)
    return [
        write(bodies, lengths, len(made), made.hex(), shown),
        write(bodies, lengths, len(made) + 1, made.hex()),
        write(bodies, lengths, 2 * len(made), sum_of(made), call="sum write-week"),
        *[write(bodies, lengths, room, refused(37)) for room in (len(made) - 1, table_end(len(packages)), 4, 0)],
        taken(packages)[0],
    ]


def sum_of(made):
    return f"{len(made)}:{sha1(made).hexdigest()}"


def unwritten(packages, number, shown="", lengths=None, after=b""):
    """Refused with room and without."""
    lengths = lengths_of(packages) if lengths is None else lengths
    return [write(joined(packages) + after, lengths, room, refused(number), shown if room else "") for room in (2000, 0)]


def files_written():
    return [
        *written([A], "one body"),
        *written([MANY, A]),
        *written(THREE, "three bodies"),
        *written([B, A, MANY]),
        *written(samples(), "samples/packages.week"),
        *written(signed(FORTY), "integers of forty digits"),
    ]


def wrong_sums():
    """How many lengths there are, and that they add up, exactly."""
    size = len(joined(THREE))
    a, many, b = lengths_of(THREE)
    cases = [
        *unwritten([], 18, "no bodies"),
        *unwritten([A], 18, "a body and no length", []),
        *unwritten([], 1, "one body of no bytes", [0]),
        *unwritten([], 1, lengths=[0, 0]),
        *unwritten([], 18, lengths=[1]),
        *unwritten([], 1, "256 bodies of no bytes", [0] * 256),
        *unwritten([], 18, "257 bodies of no bytes", [0] * 257),
        *unwritten([A], 18, lengths=[a] + [0] * 256),
        *unwritten(THREE, 18, "a byte that no length has", after=b"x"),
    ]
    wrong = [
        [a, many, b - 1], [a, many, b + 1], [a - 1, many, b], [a + 1, many, b], [a, many], [many, b], [a, b], [size - 1], [size + 1], [a, many, b, 1],
        [0], [1, 1], [LARGEST_WORD], [size, LARGEST_WORD],
        # sums that come to the right number, but for 2^64 or 2^32 times something
        [LARGEST_WORD, size + 1], [size + 1, LARGEST_WORD], [2**63, 2**63 + size], [2**63 + a, 2**63 + many, b], [2**63, 2**63, size], [a, many, b, 2**63, 2**63],
        [2**62] * 4 + [size], [LARGEST_WORD] * 256, [2**32 + size], [2**32, size], [2**31, 2**31, size], [size, 2**32],
    ]
    for lengths in wrong:
        cases += unwritten(THREE, 18, "lengths that do not add up" if lengths == wrong[0] else "", lengths)
    # these do, and cut elsewhere: a body's own refusal
    for lengths, refusal in (([a - 1, many + 1, b], 1), ([a + 1, many - 1, b], 7), ([0, a + many, b], 1), ([size], 7), ([a, many, 0, b], 1), ([a, many, b, 0], 1), ([0] * 255 + [size], 1)):
        cases += unwritten(THREE, refusal, lengths=lengths)
    return cases


def wrong_bodies():
    """Each refusal of a torrent, at place 0."""
    cases = []
    for refusal, body in BAD_TORRENTS:
        one, _ = marked(body)
        for together in ([one], [A, one], [A, B, one]):
            cases += unwritten(together, refusal, f"a body refused by {refusal}" if together == [one] else "")
    return cases


def twice_or_wrong():
    """A hash given before and a body that is refused, whichever comes first."""
    broken, _ = marked(b"^x")
    late, _ = marked(torrent(pieces=b"^0:"))
    twice = named(b"a", b"other")
    return [
        *unwritten([A, A], 18, "two equal bodies"),
        *unwritten([A, B, A], 18),
        *unwritten([A, B, MANY, B], 18),
        *unwritten([A, twice], 18, "two bodies with one info"),
        *unwritten([A, A, broken], 18, "body by body"),
        *unwritten([A, broken, A], 2),
        *unwritten([late, broken], 12),
        *unwritten([broken, late], 2),
        *unwritten([broken, A, A], 2),
    ]


# ---- the limits


def numbered(count):
    """So many small packages."""
    return [named(b"%d" % k) for k in range(count)]


def filled(packages, size):
    """The packages and one more, whose announce makes a file of so many bytes."""
    rest = size - len(week_of([*packages, named(b"long", b"")]))
    longer = [*packages, named(b"long", b"u" * (rest - len(str(rest)) + 1))]
    assert len(week_of(longer)) == size
    return longer


def most_packages():
    """256 packages, 257 of them, and what is wrong in the last."""
    many = numbered(MOST_PACKAGES)
    data, over = week_of(many), numbered(MOST_PACKAGES + 1)
    sums = taken(many, "256 packages")
    last = MOST_PACKAGES - 1
    broken = [*many[:-1], many[-1]._replace(body=many[-1].body[:-1])]
    return [
        sums[0], *[sums[1 + k] for k in (0, 1, 128, 254, 255)], *asked_past(data, MOST_PACKAGES),
        bad(week_of(over), 18, 0, "257 packages"),
        bad(week_of(over, {0: number(256)}), 18, place_of(1)),
        *[bad_field(many, {hash_field(last): many[k].info_hash}, hash_field(last)) for k in (0, 1, 100, last - 1)],
        bad_field(many, {hash_field(0): many[last].info_hash}, hash_field(last)),
        bad_field(many, {hash_field(last): another(many[last].info_hash, 19)}, hash_field(last)),
        bad_field(many, {offset_field(last): number(0)}, offset_field(last)),
        bad_field(many, {length_field(last): number(len(many[last].body) + 1)}, length_field(last)),
        bad(week_of(many, after=b"x"), 18, len(data)),
        bad(week_of(broken), 1, len(week_of(broken))),
        *[read(data[:cut], cut_answer(many, cut)) for cut in (1000, table_end(256) - 1, table_end(256), len(data) - 1)],
        write(joined(many), lengths_of(many), len(data), sum_of(data), "256 bodies", "sum write-week"),
        write(joined(many), lengths_of(many), len(data) - 1, refused(37)),
        write(joined(over), lengths_of(over), 2 * len(data), refused(18), "257 bodies"),
        write(joined([*many[:-1], many[0]]), lengths_of([*many[:-1], many[0]]), 2 * len(data), refused(18)),
        write(joined([*many[:-1], many[-2]]), lengths_of([*many[:-1], many[-2]]), 2 * len(data), refused(18)),
        write(joined(broken), lengths_of(broken), 2 * len(data), refused(1)),
    ]


def longest():
    """A file of 1,048,576 bytes, of one more, and writers' bodies that come to that."""
    cases = []
    for together in ([], [A], THREE):
        full, over = filled(together, LONGEST_TEXT), filled(together, LONGEST_TEXT + 1)
        data = week_of(full)
        cases += [
            *taken(full, "1,048,576 bytes"),
            bad(week_of(over), 8, 0, "1,048,577 bytes"),
            *[asked(week_of(over), k, refused(8)) for k in (0, 999)],
            bad(data[:-1], 18, place_of(length_field(len(full) - 1))),
            bad(data + b"x", 8, 0),
            bad_field(full, {hash_field(0): bytes(20)}, hash_field(0)),
            *[write(joined(full), lengths_of(full), room, sum_of(data), call="sum write-week") for room in (LONGEST_TEXT, LONGEST_TEXT + 1)],
            *[write(joined(full), lengths_of(full), room, refused(37)) for room in (LONGEST_TEXT - 1, 0)],
            *[write(joined(over), lengths_of(over), room, refused(8)) for room in (LONGEST_TEXT + 1, LONGEST_TEXT, 0)],
            # bodies before the file's length
            *unwritten([*over, full[0]], 18),
            *unwritten([*over, A._replace(body=b"x")], 2),
        ]
    wide = named(b"w", b"u" * (LONGEST_TEXT - len(named(b"w", b"").body) - 6))
    assert len(wide.body) == LONGEST_TEXT
    return cases + [
        # the longest torrent is no package, and a longer one is refused by itself
        bad(week_of([wide]), 8, 0),
        *unwritten([wide], 8),
        *unwritten([wide, A], 8),
        *unwritten([wide, wide], 18),
        *unwritten([wide, A._replace(body=b"x")], 2),
        *unwritten([A._replace(body=wide.body + b"x"), A, A], 8),
        *unwritten([A, A, A._replace(body=wide.body + b"x")], 18),
        bad(bytes(LONGEST_TEXT), 18, 0),
        bad(bytes(LONGEST_TEXT + 1), 8, 0),
        bad(number(1) + bytes(LONGEST_TEXT - 4), 18, 4),
        bad(b"\xff" * LONGEST_TEXT, 18, 0),
    ]


def crowded(name, items):
    """A package of one file, with a list of so many values beside its 15 own."""
    return package(b"d1:al" + b"0:" * items + b"e" + named(name).body[1:], 1, 5)


def most_values():
    """Refusals 6 and 5 far inside a file, the most values and files, and the largest totals."""
    (many, many_at), (deep, deep_at) = marked(b"l" + b"0:" * 16383 + b"^0:e"), marked(b"l" * 32 + b"^l")
    files = [package(torrent(name=string(b"%d" % k), length=None, files=b"l" + file(b"i0e") * 1023 + file() + b"e"), 1024, 5) for k in range(40)]
    return [
        bad(week_of([A, many]), 6, offset_of([A, many], 1) + many_at),
        bad(week_of([many, A]), 6, table_end(2) + many_at),
        bad(week_of([A, B, deep]), 5, offset_of([A, B, deep], 2) + deep_at),
        *taken([crowded(b"a", 16_369), crowded(b"b", 16_369)], "16,384 values in each of two bodies"),
        *taken(files, "40 packages of 1,024 files")[:2],
        *taken([large(2**38, b"%d" % k) for k in range(3)], "three times 2^38 bytes"),
        *unwritten([many], 6),
        *unwritten([A, deep], 5),
    ]


def longest_numbers():
    """Integers of 100,000 digits, read and written."""
    return long_numbers(HUGE, BELOW_HUGE) + written(signed(HUGE))


SMALL = {
    "weeks": lambda: packages() + sums() + wrong_numbers() + wrong_offsets() + wrong_lengths() + wrong_hashes() + some_cuts() + after_the_last()
    + short_bodies() + order() + long_numbers(FORTY, BELOW_FORTY),
    "weeks-written": lambda: files_written() + wrong_sums() + twice_or_wrong(),
}
BIG = {
    "weeks-cut": every_cut, "weeks-bodies": lambda: bad_bodies() + wrong_bodies(), "weeks-most": most_packages, "weeks-long": longest, "weeks-values": most_values,
    "weeks-integers": longest_numbers,
}

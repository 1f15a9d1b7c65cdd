"""Prints a random script of docs/REPLAY.md, the same one for the same seed.

    python3 tests/random_scripts.py --seed N --calls M [--kind texts|torrents|replies|sheets|links|weeks|blocks|wire|yard|all]

Texts, frames and calls are made so that they would be taken, and then some are altered, damaged, cut or joined, so
that most faults are near misses. Each kind is an endless generator of calls.
"""

import argparse
from hashlib import sha1
from random import Random
from urllib.parse import quote_from_bytes

PIECE_LENGTHS = [2**power for power in range(14, 25)]
LARGEST_FILE = 274_877_906_944
PROTOCOL = b"\x13BitTorrent protocol"


def to_hex(data):
    return data.hex() or "-"


# Values: bytes, int, list and dict with bytes for keys; Raw stands for itself.


class Raw(bytes):
    pass


def encode(value):
    if isinstance(value, Raw):
        return bytes(value)
    if isinstance(value, bytes):
        return b"%d:%s" % (len(value), value)
    if isinstance(value, int):
        return b"i%de" % value
    if isinstance(value, list):
        return b"l" + b"".join(map(encode, value)) + b"e"
    return b"d" + b"".join(encode(key) + encode(value[key]) for key in sorted(value)) + b"e"


def random_bytes(rng, most):
    alphabet = rng.choice([b"ab", b"0123456789:eild-", bytes(range(256))])
    return bytes(rng.choice(alphabet) for _ in range(rng.randint(0, most)))


def long_integer(rng):
    """An integer about an end of 64 bits or past it, of forty digits or so, now and then of some hundreds."""
    digits = rng.choice([18, 19, 20, 21, 39, 40, rng.randint(15, 99)])
    if rng.random() < 0.03:
        digits = rng.randint(100, 600)
    edge = rng.choice([2**63, 2**63, 2**64, 2**128, 10 ** (digits - 1), 10**digits, rng.randrange(10 ** (digits - 1), 10**digits)])
    return rng.choice([-1, 1]) * (edge + rng.randint(-2, 2))


def random_integer(rng):
    if rng.random() < 0.5:
        return long_integer(rng)
    edge = rng.choice([0, 0, 1, 10, 16384, 65536, 2**31, 2**32])
    return rng.choice([-1, 1]) * (edge + rng.randint(-2, 2))


def wrapped(rng, value):
    """An integer that has the value in its lowest bits, its last digits or its first ones."""
    step = rng.choice([2**32, 2**63, 2**64, 2**64, 2**128, 10**20, 10**39])
    return rng.choice([value + step, value - step, value * 10 ** rng.randint(10, 40)])


def random_value(rng, levels):
    kind = rng.choice(["string", "integer", "list", "dictionary"] if levels else ["string", "integer"])
    if kind == "string":
        return random_bytes(rng, 12)
    if kind == "integer":
        return random_integer(rng) if rng.random() < 0.4 else rng.randint(-20, 20)
    if kind == "list":
        return [random_value(rng, levels - 1) for _ in range(rng.randint(0, 4))]
    return {random_bytes(rng, 4): random_value(rng, levels - 1) for _ in range(rng.randint(0, 4))}


def other_value(rng):
    """A value for any place, often an integer that 64 bits do not hold."""
    return long_integer(rng) if rng.random() < 0.4 else random_value(rng, 2)


def alter(rng, value):
    """The value with one part of it, found by walking down, replaced, left out or added to."""
    if isinstance(value, list) and value and rng.random() < 0.85:
        if rng.random() < 0.1:
            return []
        at = rng.randrange(len(value))
        return value[:at] + rng.choice([[alter(rng, value[at])]] * 6 + [[], [value[at]] * 2]) + value[at + 1 :]
    if isinstance(value, dict) and value and rng.random() < 0.85:
        key = rng.choice(sorted(value))
        others = {other: value[other] for other in value if other != key}
        return rng.choice([others | {key: alter(rng, value[key])}] * 6 + [others, value | {random_bytes(rng, 6): 1}])
    if isinstance(value, int) and rng.random() < 0.7:
        return rng.choice([value + 1, value - 1, -value, value * 2, random_integer(rng), wrapped(rng, value)])
    if isinstance(value, bytes) and rng.random() < 0.7:
        return rng.choice([value[1:], value + b"x", b"", b".", b"..", b"a/b", b"a\0", value[::-1], long_integer(rng)])
    return other_value(rng)


def damage(rng, data):
    """The bytes with one damage at a random place."""
    at = rng.randint(0, len(data))
    byte = bytes([rng.choice([rng.randrange(256), *b"0123456789:eild-"])])
    way = rng.randrange(8)
    if way == 0:
        return data[:at]
    if way == 1:
        return data[:at] + byte + data[at:]
    if way == 2:
        return data[:at] + byte + data[at + 1 :]
    if way == 3:
        return data[:at] + data[at + 1 :]
    if way == 4:
        return data + byte
    if way == 5:
        return data[:at] + data[at : at + rng.randint(1, 9)] * 2 + data[at:]
    if way == 6:
        return data.replace(b"i", rng.choice([b"i0", b"i-", b"i-0"]), 1)
    return data[:at] + bytes([data[at] ^ 1 << rng.randrange(8)]) + data[at + 1 :] if at < len(data) else byte


def text_of(rng, value):
    """The encoding of a value, mostly after one alteration or damage."""
    chance = rng.random()
    if chance < 0.45:
        value = alter(rng, value)
    text = encode(value)
    if chance > 0.75:
        text = damage(rng, text)
    if chance > 0.95:
        text = damage(rng, text)
    return text


# Bencode.


def nested(rng):
    """Lists and dictionaries nested to about the deepest level."""
    text = rng.choice([b"", b"0:", b"i1e", encode(long_integer(rng)), b"x"])
    for _ in range(rng.randint(29, 35)):
        text = rng.choice([b"l%se", b"d1:a%se"]) % (text or b"le")
    return text


def crowded(rng):
    """About as many values as are allowed."""
    count = 16_384 + rng.randint(-4, 4)
    tail = rng.choice([b"e", b"lee", b"d1:a0:ee", b"xe", b""])
    return b"l" + rng.choice([b"0:", b"le", b"i7e", encode(2**64)]) * (count - 4) + tail


def dictionary_text(rng):
    """A dictionary whose keys are close to each other, in order or nearly so."""
    keys = sorted(random_bytes(rng, 3) for _ in range(rng.randint(1, 6)))
    if rng.random() < 0.4:
        rng.shuffle(keys)
    if rng.random() < 0.6:
        keys = sorted(set(keys))
    return b"d" + b"".join(encode(key) + encode(random_value(rng, 1)) for key in keys) + b"e"


def random_text(rng):
    chance = rng.random()
    if chance < 0.04:
        return nested(rng)
    if chance < 0.043:
        return crowded(rng)
    if chance < 0.2:
        return dictionary_text(rng)
    if chance < 0.3:
        return random_bytes(rng, 12)
    if chance < 0.36:
        return text_of(rng, long_integer(rng))
    return text_of(rng, random_value(rng, rng.randint(0, 5)))


def texts(rng):
    while True:
        yield f"{rng.choice(['bencode', 'bencode', 'walk'])} {to_hex(random_text(rng))}"


# Torrents.


def random_name(rng):
    return rng.choice([b"a", b"route", b"map 7", b"...", b"%", b"\xc3\xa4", b".x", random_bytes(rng, 5) or b"n"])


def random_lengths(rng, piece_length):
    """File lengths of few pieces in all, many of them 0 or near a piece's end."""
    near = [0, 0, 1, 5, piece_length - 1, piece_length, piece_length + 1, 16_384, rng.randrange(3 * piece_length)]
    return [rng.choice(near) for _ in range(rng.choice([1, 1, 2, 3, 5, 9]))]


def pieces_in(total, piece_length):
    return (total + piece_length - 1) // piece_length


def random_torrent(rng, content=None):
    """The value of a torrent; of one piece, with its hash, if the content is given."""
    if content is None:
        piece_length = rng.choice(PIECE_LENGTHS)
        lengths = random_lengths(rng, piece_length)
        hashes = rng.randbytes(20 * pieces_in(sum(lengths), piece_length))
    else:
        piece_length, lengths, hashes = 16_384, [len(content)], sha1(content).digest()
    info = {b"name": random_name(rng), b"piece length": piece_length, b"pieces": hashes}
    if len(lengths) == 1 and rng.random() < 0.7:
        info[b"length"] = lengths[0]
    else:
        paths = [[random_name(rng) for _ in range(rng.randint(1, 3))] for _ in lengths]
        info[b"files"] = [{b"length": length, b"path": path} for length, path in zip(lengths, paths)]
        if rng.random() < 0.04:
            rng.choice(info[b"files"])[b"length"] = rng.choice([LARGEST_FILE, LARGEST_FILE + 1, long_integer(rng)])
        if rng.random() < 0.04:
            rng.choice(info[b"files"])[b"path"] = rng.choice([[], [], long_integer(rng), [long_integer(rng)]])
        if rng.random() < 0.2:
            rng.choice(info[b"files"])[rng.choice([b"a", b"lengths", b"md5sum", b"sign"])] = other_value(rng)
        if rng.random() < 0.04:
            info[b"length"] = lengths[0]
    if rng.random() < 0.05:
        info[rng.choice([b"length", b"name", b"piece length", b"pieces"])] = long_integer(rng)
    if rng.random() < 0.3:
        info[rng.choice([b"private", b"md5sum", b"a", b"nam", b"name.utf-8", b"piece", b"signature"])] = other_value(rng)
    top = {b"announce": rng.choice([b"", b"http://yard/ann"]), b"info": info}
    if rng.random() < 0.3:
        top[rng.choice([b"comment", b"creation date", b"a", b"zz"])] = other_value(rng)
    return top


def piece_call(rng):
    data = random_bytes(rng, 40) or b"x"
    top = random_torrent(rng, data)
    text = encode(top) if rng.random() < 0.8 else text_of(rng, top)
    data = data if rng.random() < 0.6 else damage(rng, data)
    return f"piece {to_hex(text)} {rng.choice([0, 0, 0, 0, 1, 2**32])} {to_hex(data)}"


def write_torrent_call(rng):
    piece_length = rng.choice(PIECE_LENGTHS)
    length = max(1, rng.choice(random_lengths(rng, piece_length)))
    pieces = rng.randbytes(20 * pieces_in(length, piece_length))
    name, announce = random_name(rng), random_bytes(rng, 20)
    room = 1000
    fault = rng.randrange(12)
    if fault == 0:
        name = rng.choice([b"", b".", b"..", b"a/b", b"a\0"])
    elif fault == 1:
        piece_length = rng.choice([0, piece_length + 1, piece_length // 2, piece_length * 2])
    elif fault == 2:
        length = rng.choice([0, LARGEST_FILE, LARGEST_FILE + 1, 2**62, length + 1, length + piece_length])
    elif fault == 3:
        pieces = damage(rng, pieces)
    elif fault == 4:
        room = rng.randint(0, 200)
    return f"write-torrent {to_hex(announce)} {to_hex(name)} {piece_length} {length} {to_hex(pieces)} {room}"


def torrents(rng):
    while True:
        text = to_hex(text_of(rng, random_torrent(rng)))
        yield rng.choice([
            f"torrent {text}",
            f"torrent {text}",
            f"file {text} {rng.randint(0, 5)}",
            f"places {text}",
            piece_call(rng),
            rng.choice(["", "sum "]) + write_torrent_call(rng),
        ])


# Tracker replies.


def random_peers(rng):
    if rng.random() < 0.5:
        return rng.randbytes(6 * rng.randint(0, 5))
    peers = [
        {b"peer id": rng.randbytes(20), b"ip": random_bytes(rng, 9), b"port": rng.choice([0, 6881, 65535, 65536])}
        for _ in range(rng.randint(0, 3))
    ]
    if peers and rng.random() < 0.3:
        rng.choice(peers)[rng.choice([b"a", b"key", b"pip", b"ports"])] = other_value(rng)
    if peers and rng.random() < 0.05:
        rng.choice(peers)[rng.choice([b"ip", b"peer id", b"port", b"port"])] = long_integer(rng)
    return peers


def random_reply(rng):
    top = {b"interval": rng.choice([0, 1800, 2**31 - 1, rng.randrange(9999)]), b"peers": random_peers(rng)}
    if rng.random() < 0.15:
        top[b"failure reason"] = random_bytes(rng, 9)
    if rng.random() < 0.3:
        top[rng.choice([b"complete", b"min interval", b"peers6", b"tracker id"])] = other_value(rng)
    if rng.random() < 0.05:
        top[rng.choice([b"failure reason", b"interval", b"interval", b"peers"])] = long_integer(rng)
    return top


def write_reply_call(rng):
    interval = rng.choice([0, 1800, 2**31 - 1, 2**31, 2**32, 2**62])
    peers = rng.randbytes(rng.choice([0, 6, 6, 12, 18, 5, 7]))
    return f"write-reply {interval} {to_hex(peers)} {rng.choice([100, 100, rng.randint(0, 60)])}"


def replies(rng):
    while True:
        text = to_hex(text_of(rng, random_reply(rng)))
        yield rng.choice([
            f"reply {text}", f"peer {text} {rng.randint(0, 4)}", f"entries {text}", write_reply_call(rng),
        ])


# Sheets.


def random_key(rng, info_hash):
    """A hash, often one that begins as this one does."""
    shared = rng.choice([0, 0, 1, 10, 18, 19])
    return info_hash[:shared] + rng.randbytes(20 - shared)


def random_address(rng):
    return rng.choice([b"", b"http://depot/ann", random_bytes(rng, 12)])


def with_fault(rng, rows):
    """The rows with one of them changed in its key or its address, twice there or in another place."""
    at = rng.randrange(len(rows))
    key, address = rows[at]
    way = rng.randrange(10)
    if way < 4:
        key = rng.choice([key[:-1], key[1:], key + b"\0", b"\0" + key, b"", random_bytes(rng, 40)])
        changed = rows[:at] + [(key, address)] + rows[at + 1 :]
        return sorted(changed, key=lambda row: row[0]) if rng.random() < 0.8 else changed
    if way < 8:
        other = rng.choice([[], {}, 7, [address], random_integer(rng), long_integer(rng), random_value(rng, 2), Raw(nested(rng))])
        return rows[:at] + [(key, other)] + rows[at + 1 :]
    if way < 9:
        return rows[:at] + [rows[at]] + rows[at:]
    return rng.sample(rows, len(rows))


def random_sheet(rng, info_hash):
    """The text of a sheet, more often than not with that hash, and mostly with one fault or none."""
    if rng.random() < 0.03:
        return random_text(rng)
    keys = {random_key(rng, info_hash) for _ in range(rng.choice([0, 1, 1, 2, 3, 9]))}
    if rng.random() < 0.003:
        # About as many rows as there may be.
        keys = {rng.randbytes(20) for _ in range(8_191 + rng.randint(-2, 1))}
    if rng.random() < 0.6:
        keys.add(info_hash)
    rows = [(key, random_address(rng)) for key in sorted(keys)]
    for _ in range(rng.choice([0, 0, 0, 1, 1, 2]) if rows else 0):
        rows = with_fault(rng, rows)
    text = b"d" + b"".join(encode(key) + encode(address) for key, address in rows) + b"e"
    return damage(rng, text) if rng.random() < 0.15 else text


def sheets(rng):
    while True:
        top = random_torrent(rng)
        text = encode(top) if rng.random() < 0.85 else text_of(rng, top)
        yield f"address {to_hex(text)} {to_hex(random_sheet(rng, sha1(encode(top[b'info'])).digest()))}"


# Links.


def quoted(data):
    return quote_from_bytes(data, safe="").encode()


def random_value_of_link(rng, data):
    """Those bytes in one of the ways that a value may have them."""
    ways = [quoted(data), b"".join(b"%%%02x" % byte for byte in data), b"".join(rng.choice([b"%%%02X", b"%%%02x"]) % byte for byte in data)]
    if all(33 <= byte <= 126 and byte not in b"&#%" for byte in data):
        ways.append(data)
    return rng.choice(ways)


def random_hash(rng):
    digits = rng.randbytes(20).hex()
    return rng.choice([digits, digits.upper(), "".join(rng.choice([digit, digit.upper()]) for digit in digits)]).encode()


def random_pairs(rng, name, address):
    """Names with their values: exactly one hash, name and address mostly once, and others."""
    pairs = [(b"xt", b"urn:btih:" + random_hash(rng))]
    for known, data in ((b"dn", name), (b"tr", address)):
        pairs += [(known, random_value_of_link(rng, data))] * rng.choice([0, 1, 1, 1])
    for _ in range(rng.choice([0, 0, 1, 2, 5])):
        other = rng.choice([b"DN", b"xt.1", b"tr.2", b"xs", b"x.pe", b"..", b"d", b"dnx", b"0"])
        pairs.append((other, random_value_of_link(rng, random_bytes(rng, 5))))
    return rng.sample(pairs, len(pairs))


def with_fault_in_link(rng, pairs):
    """The pairs with one of them twice, left out, renamed or changed in its value."""
    at = rng.randrange(len(pairs))
    name, value = pairs[at]
    way = rng.randrange(5)
    if way == 0:
        again = rng.randint(0, len(pairs))
        return pairs[:again] + [(name, rng.choice([value, b"", b"a", b"%"]))] + pairs[again:]
    if way == 1:
        return pairs[:at] + pairs[at + 1 :]
    if way == 2:
        name = rng.choice([b"", b"xt", b"dn", b"tr", name.upper(), name + b".1", name + b"%", name[:-1], b"-" + name])
    else:
        spot = rng.randint(0, len(value))
        value = value[:spot] + rng.choice([b"%", b"%4", b"%g", b"%4g", b"#", b" ", b"&", b"=", b"0", b"\x7f", b"\x80", b""]) + value[spot + rng.randint(0, 1) :]
    return pairs[:at] + [(name, value)] + pairs[at + 1 :]


def random_room(rng, size):
    return rng.choice([200, 200, size, size, size + 1, max(0, size - 1), 0, rng.randint(0, 9)])


def link_call(rng):
    name, address = rng.choice([random_name(rng), random_bytes(rng, 30)]), random_address(rng)
    pairs = random_pairs(rng, name, address)
    for _ in range(rng.choice([0, 0, 0, 1, 1, 2])):
        pairs = with_fault_in_link(rng, pairs) if pairs else []
    text = b"magnet:?" + b"&".join(b"%s=%s" % pair for pair in pairs)
    if rng.random() < 0.25:
        text = damage(rng, text)
    return f"link {to_hex(text)} {random_room(rng, len(name))} {random_room(rng, len(address))}"


def write_link_call(rng):
    top = random_torrent(rng) | {b"announce": random_address(rng)}
    top[b"info"][b"name"] = rng.choice([random_name(rng), random_bytes(rng, 30) or b"n"])
    size = len(b"magnet:?xt=urn:btih:&dn=&tr=") + 40 + len(quoted(top[b"info"][b"name"]) + quoted(top[b"announce"]))
    text = encode(top) if rng.random() < 0.8 else text_of(rng, top)
    room = rng.choice([1000, size, size, size + 1, size - 1, rng.randint(0, size)])
    return f"write-link {to_hex(text)} {room}"


def links(rng):
    while True:
        yield rng.choice([link_call(rng), link_call(rng), link_call(rng), rng.choice(["", "sum "]) + write_link_call(rng)])


# Weeks.


def random_bodies(rng):
    """Torrents with their hashes, some of them refused or one more time."""
    count = rng.choice([1, 1, 2, 2, 3, 5])
    if rng.random() < 0.01:
        count = 256 + rng.randint(-1, 1)
    bodies = []
    for _ in range(count):
        top = random_torrent(rng, rng.randbytes(4) if count > 5 else None)
        body = text_of(rng, top) if rng.random() < 0.5 / count else encode(top)
        bodies.append((body, sha1(encode(top[b"info"])).digest()))
    if rng.random() < 0.1:
        bodies.insert(rng.randint(0, count), rng.choice(bodies))
    return bodies


def near(rng, value, others):
    """A number of four bytes that is wrong by a little, or another altogether."""
    return number(rng.choice([value + 1, value - 1, value + 256, 0, 2**32 - 1, rng.choice(others)]))


def random_week(rng, bodies):
    """The file of some bodies, with one field of its table wrong now and then."""
    fields, at = [number(len(bodies))], 4 + 28 * len(bodies)
    size = at + sum(len(body) for body, _ in bodies)
    for body, info_hash in bodies:
        fields += [number(at), number(len(body)), info_hash]
        at += len(body)
    if rng.random() < 0.4:
        field = rng.randrange(len(fields))
        if field % 3 or not field:
            fields[field] = near(rng, int.from_bytes(fields[field], "big"), [size, at, 255, 256, 257])
        else:
            fields[field] = rng.choice([rng.randbytes(20), rng.choice(fields[3::3]), damage(rng, fields[field])])
    file = b"".join(fields) + b"".join(body for body, _ in bodies)
    if rng.random() < 0.1:
        return file[: rng.randint(0, len(file))]
    return damage(rng, file) if rng.random() < 0.25 else file


def wrong_lengths(rng, lengths):
    """The lengths with one of them changed, left out or parted, or with more that add nothing by 64 bits."""
    at = rng.randrange(len(lengths))
    length = lengths[at]
    changed = rng.choice([[], [0, length], [length, 0], [length + 1], [max(0, length - 1)], [length // 2, length - length // 2], [2**63, 2**63, length], [2**64 - 1, length + 1]])
    return lengths[:at] + changed + lengths[at + 1 :]


def write_week_call(rng):
    bodies = random_bodies(rng)
    lengths = [len(body) for body, _ in bodies]
    size = 4 + 28 * len(lengths) + sum(lengths)
    if rng.random() < 0.3:
        lengths = wrong_lengths(rng, lengths)
    room = rng.choice([1_048_576, size, size, size + 1, size - 1, rng.randint(0, size)])
    return f"write-week {to_hex(b''.join(body for body, _ in bodies))} {','.join(map(str, lengths)) or '-'} {room}"


def weeks(rng):
    while True:
        bodies = random_bodies(rng)
        file = to_hex(random_week(rng, bodies))
        yield rng.choice([
            f"week {file}",
            f"week {file}",
            f"package {file} {rng.choice([0, len(bodies) - 1, len(bodies), rng.randrange(300), 2**32])}",
            rng.choice(["", "sum "]) + write_week_call(rng),
        ])


# Blocks.


def random_content(rng):
    piece_length = rng.choice(PIECE_LENGTHS)
    if rng.random() < 0.3:
        lengths = [rng.randint(0, 3) for _ in range(rng.choice([3, 40, 1023, 1024, 1025]))]
    else:
        lengths = random_lengths(rng, piece_length)
    if rng.random() < 0.06:
        lengths.append(rng.choice([LARGEST_FILE, LARGEST_FILE + 1, 2**63, 2**64 - 1]))
    elif rng.random() < 0.1:
        # The largest total, or a byte or two off.
        lengths.append(max(0, 16_384 * piece_length - sum(lengths)) + rng.choice([-1, 0, 1, 2]))
    if rng.random() < 0.04:
        piece_length += rng.choice([1, -1, piece_length // 2, 2**32])
    return piece_length, lengths


def random_block(rng, piece_length, total):
    """Piece, offset and length, mostly inside the content, often at an edge."""
    pieces = max(1, pieces_in(total, piece_length))
    piece = rng.randrange(pieces)
    if rng.random() < 0.3:
        piece = rng.choice([0, pieces - 1, pieces, 2**32 - 1])
    size = max(1, min(piece_length, total - piece * piece_length))
    length = min(size, rng.choice([1, 2, 16_383, 16_384, rng.randint(1, 16_384)]))
    offset = rng.choice([0, size - length, rng.randint(0, size - length)])
    if rng.random() < 0.25:
        length = rng.choice([0, length + 1, 16_385, 2**32 - 1])
    if rng.random() < 0.15:
        offset = rng.choice([offset + 1, size, 2**32 - 1])
    return piece, offset, length


def blocks(rng):
    while True:
        piece_length, lengths = random_content(rng)
        content = f"{piece_length} {','.join(map(str, lengths))}"
        if rng.random() < 0.7:
            piece, offset, length = random_block(rng, piece_length, sum(lengths))
            room = rng.choice([1024, 1024, rng.randint(0, 4), f"{rng.randint(0, 4)}+{rng.randint(0, 2)}"])
            yield rng.choice([f"block {content} {piece} {offset} {length} {room}"] * 5 + [f"size {content} {piece}"])
        else:
            file = min(rng.randrange(len(lengths) + 1), rng.choice([3, 2000]))
            length = lengths[file] if file < len(lengths) else 0
            offset = rng.choice([0, length, max(0, length - 1), length // 2])
            yield f"byte {content} {file} {offset}"


# The wire.


def frame(frame_id, payload=b""):
    return (len(payload) + 1).to_bytes(4, "big") + bytes([frame_id]) + payload


def number(value):
    return (value % 2**32).to_bytes(4, "big")


def random_frame(rng):
    frame_id = rng.choice([0, 1, 2, 3, 4, 5, 6, 7, 8, 9, 20, 255])
    sizes = {4: 4, 5: rng.randint(1, 9), 6: 12, 7: 8 + rng.randint(1, 9), 8: 12}
    size = sizes.get(frame_id, 0 if frame_id < 4 else rng.randint(0, 9))
    if rng.random() < 0.15:
        size = max(0, size + rng.choice([-1, 1]))
    if rng.random() < 0.03 or frame_id == 5 and rng.random() < 0.1:
        size = rng.choice([2_047, 2_048, 2_049] if frame_id == 5 else [16_391, 16_392, 16_393])
    return bytes(4) if rng.random() < 0.08 else frame(frame_id, rng.randbytes(size))


def cut_or_joined(rng, data, other):
    chance = rng.random()
    if chance < 0.2:
        return data[: rng.randint(0, len(data))]
    if chance < 0.4:
        return data + other[: rng.randint(0, len(other))]
    return damage(rng, data) if chance < 0.5 else data


def handshake_call(rng):
    info_hash = rng.randbytes(20)
    data = PROTOCOL + rng.randbytes(8) + info_hash + rng.randbytes(20)
    other = info_hash if rng.random() < 0.8 else damage(rng, info_hash)[:20].ljust(20, b"\0")
    call = rng.choice(["handshake", "handshake-cuts"])
    return f"{call} {to_hex(cut_or_joined(rng, data, rng.randbytes(9)))} {to_hex(other)}"


def write_frame_call(rng):
    if rng.random() < 0.1:
        return f"write-frame keepalive - {rng.randint(0, 6)}"
    whole = random_frame(rng)
    frame_id, payload = (whole[4], whole[5:]) if len(whole) > 4 else (0, b"")
    room = rng.choice([20_000, 20_000, len(whole), len(whole) - 1, rng.randint(0, 20)])
    return f"write-frame {frame_id} {to_hex(payload)} {room}"


def write_handshake_call(rng):
    return f"write-handshake {rng.randbytes(20).hex()} {rng.randbytes(20).hex()} {rng.choice([68, 100, 67, 0])}"


def long_bytes(rng):
    """A word of a few hundred bytes in parts, with its short notations."""
    ways = [
        lambda: rng.randbytes(rng.randint(1, 40)).hex(),
        lambda: f"{rng.randbytes(rng.randint(1, 3)).hex()}*{rng.randint(0, 200)}",
        lambda: f"@{rng.randint(0, 300)}",
    ]
    return ".".join(rng.choice(ways)() for _ in range(rng.randint(1, 3)))


def sha1_call(rng):
    if rng.random() < 0.4:
        return f"sha1 {long_bytes(rng)}"
    lengths = [rng.choice(["0", "63", "64", "65", str(rng.randint(0, 200)), f"{rng.randint(1, 9)}*{rng.randint(0, 9)}"]) for _ in range(rng.randint(0, 5))]
    return f"sha1-parts {long_bytes(rng)} {','.join(lengths) or '-'}"


def wire(rng):
    while True:
        yield rng.choice([
            f"frame {to_hex(cut_or_joined(rng, random_frame(rng), random_frame(rng)))}",
            f"frame {to_hex(cut_or_joined(rng, random_frame(rng), random_frame(rng)))}",
            f"frame-cuts {to_hex(cut_or_joined(rng, random_frame(rng), random_frame(rng))[:500])}",
            handshake_call(rng),
            rng.choice(["", "sum "]) + write_frame_call(rng),
            write_handshake_call(rng),
            sha1_call(rng),
        ])


# The yard.


class YardCalls:
    """A history of calls for one yard. It keeps which seats are taken, so that most calls name a seated truck."""

    def __init__(self, rng):
        self.rng = rng
        self.size()

    def size(self):
        rng = self.rng
        self.pieces, self.seats = rng.choice([
            (rng.randint(1, 9), rng.randint(1, 4)),
            (rng.randint(1, 9), rng.randint(1, 4)),
            (rng.randint(1, 9), rng.randint(5, 9)),
            (rng.randint(1, 20), rng.randint(5, 9)),
            (rng.randint(1, 300), rng.randint(1, 60)),
            (rng.randint(16_300, 16_384), rng.randint(1, 2_000)) if rng.random() < 0.2 else (8, 3),
        ])
        self.piece_length = rng.choice(PIECE_LENGTHS)
        self.last_length = rng.choice([1, 5, self.piece_length - 1, self.piece_length])
        self.taken = set()
        # Seats whose next frame is likely to be a bitfield.
        self.fresh = set()

    def calls(self):
        rng = self.rng
        if rng.random() < 0.3:
            yield rng.choice(["sit", "head", "missing 0 1", "leave 0", "seat 0", "scarcest", "round"])
        yield from self.opening()
        ways = [self.sit, self.leave, self.feed, self.mark, self.look]
        while True:
            if rng.random() < 0.004:
                self.size()
                yield from self.opening()
            elif rng.random() < 0.004:
                yield self.refused_start()
            elif rng.random() < 0.06:
                yield from self.round()
            elif rng.random() < 0.01:
                yield from self.pages()
            else:
                yield rng.choices(ways, [12, 5, 60, 8, 15])[0]()

    def opening(self):
        yield self.start()
        for _ in range(self.rng.choice([0, 1, self.seats // 2, self.seats, 2 * self.seats]) % 500):
            yield self.sit()
        if self.rng.random() < 0.4:
            yield from self.all_interested()

    def all_interested(self):
        """Each seated truck says that it is interested, which ends fresh."""
        for seat in sorted(self.taken):
            self.fresh.discard(seat)
            yield f"feed {seat} {to_hex(frame(2))}"

    def round(self):
        """A round; now and then what it left, and trucks that want and send before the next one."""
        rng = self.rng
        yield "round"
        if rng.random() < 0.2:
            yield from self.all_interested()
        if rng.random() < 0.4:
            yield "head"
            yield from (f"seat {seat}" for seat in range(min(self.seats, 9)))
        if rng.random() < 0.4:
            yield from (f"feed {seat} {to_hex(self.block())}" for seat in sorted(self.taken) if rng.random() < 0.7)

    def pages(self):
        """Pages of a few lines from each of some seats on, and so from what one of them calls next."""
        first = self.rng.randint(0, max(0, self.seats - 9))
        yield from (f"missing {seat} {self.rng.randint(1, 3)}" for seat in range(first, min(first + 9, self.seats) + 1))

    def start(self):
        return f"start {self.pieces} {self.piece_length} {self.last_length} {self.seats}"

    def refused_start(self):
        sizes = [self.pieces, self.piece_length, self.last_length, self.seats]
        wrong = [[0, 16_385, 2**32], [0, 1, 16_383, 24_576, 2**25], [0, self.piece_length + 1], [0, 2_001, 2**32]]
        at = self.rng.randrange(4)
        sizes[at] = self.rng.choice(wrong[at])
        return "start " + " ".join(map(str, sizes))

    def sit(self):
        free = next((seat for seat in range(self.seats) if seat not in self.taken), None)
        if free is not None:
            self.taken.add(free)
            self.fresh.add(free)
        return "sit"

    def leave(self):
        seat = self.seat()
        self.taken.discard(seat)
        return f"leave {seat}"

    def seat(self):
        if self.taken and self.rng.random() < 0.95:
            return self.rng.choice(sorted(self.taken))
        return self.rng.choice([self.rng.randrange(self.seats), self.seats, self.seats + 1, 2**32])

    def piece(self):
        if self.rng.random() < 0.93:
            return self.rng.randrange(self.pieces)
        return self.rng.choice([self.pieces - 1, self.pieces, 2**31, 2**32 - 1])

    def mark(self):
        call = self.rng.choice(["choke", "interest"])
        return f"{call} {self.seat()} {self.rng.choice('00001')} {self.rng.choice([5, 5, 5, 9, 4, 0])}"

    def look(self):
        rng = self.rng
        first = rng.choice([0, 0, rng.randint(0, self.seats), self.seats, self.seats + 1])
        return rng.choice([
            f"missing {first} {rng.choice([0, 1, 2, 3, self.seats])}",
            f"missing {first} {rng.choice([0, 1, 2, 3, self.seats])}",
            "scarcest" if self.pieces < 5_000 or rng.random() < 0.1 else "head",
            "head",
            "head",
            f"count {self.piece()}",
            f"seat {self.seat()}",
            f"seat {rng.randrange(self.seats)}",
        ])

    def feed(self):
        seat = self.seat()
        data = self.first_frame() if seat in self.fresh else self.frame()
        if self.rng.random() < 0.15:
            data = cut_or_joined(self.rng, data, self.frame())
        # After a keepalive, of four bytes, the bitfield is still to come.
        if data[4:] and self.rng.random() < 0.7:
            self.fresh.discard(seat)
        return f"feed {seat} {to_hex(data)}"

    def first_frame(self):
        return self.rng.choices([self.bitfield, self.keepalive, self.frame], [6, 3, 3])[0]()

    def frame(self):
        return self.rng.choices(
            [self.have, self.bitfield, self.request, self.block, self.plain, self.keepalive, self.other],
            [40, 12, 12, 10, 20, 2, 2],
        )[0]()

    def have(self):
        return frame(4, number(self.piece()))

    def bitfield(self):
        size = (self.pieces + 7) // 8
        spare = 8 * size - self.pieces
        bits = self.rng.choice([self.rng.getrandbits(self.pieces), 2**self.pieces - 1, 2**self.pieces - 2, 0]) << spare
        if self.rng.random() < 0.1 and spare:
            bits |= 1 << self.rng.randrange(spare)
        payload = bits.to_bytes(size, "big")
        if self.rng.random() < 0.08:
            payload = self.rng.choice([payload + b"\0", payload[:-1] or b"\0\0"])
        return frame(5, payload)

    def block_numbers(self):
        total = (self.pieces - 1) * self.piece_length + self.last_length
        return random_block(self.rng, self.piece_length, total)

    def request(self):
        return frame(self.rng.choice([6, 6, 8]), b"".join(map(number, self.block_numbers())))

    def block(self):
        piece, offset, length = self.block_numbers()
        return frame(7, number(piece) + number(offset) + bytes(min(length, self.rng.choice([1, 1, 2, 2, 3, 30, 30, 16_384]))))

    def plain(self):
        return frame(self.rng.choice([0, 1, 2, 2, 2, 3]))

    def keepalive(self):
        return bytes(4)

    def other(self):
        return random_frame(self.rng)


def yard(rng):
    return YardCalls(rng).calls()


KINDS = {
    "texts": texts, "torrents": torrents, "replies": replies, "sheets": sheets, "links": links, "weeks": weeks, "blocks": blocks, "wire": wire, "yard": yard,
}


def everything(rng):
    """All kinds in one script, the yard's calls half of it."""
    streams = [make(rng) for make in KINDS.values()]
    while True:
        yield next(rng.choices(streams, [1, 1, 1, 1, 1, 1, 1, 1, 8])[0])


def script(seed, calls, kind="all"):
    rng = Random(f"{seed} {kind}")
    stream = KINDS.get(kind, everything)(rng)
    return [next(stream) for _ in range(calls)]


def main():
    parser = argparse.ArgumentParser(description="Prints a random replay script.")
    parser.add_argument("--seed", type=int, required=True)
    parser.add_argument("--calls", type=int, required=True)
    parser.add_argument("--kind", choices=[*KINDS, "all"], default="all")
    options = parser.parse_args()
    print("\n".join(script(options.seed, options.calls, options.kind)))


if __name__ == "__main__":
    main()

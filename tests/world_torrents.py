"""Torrents: made by stock programs and read by us, made by us and read by stock programs, and with integers of any length; and our tracker replies."""

import hashlib
import os
import random
import re
import struct
import subprocess
import sys
import time
import urllib.parse
from dataclasses import dataclass, replace

import libtorrent

from world_replay import hexed, same, unhexed

ANNOUNCE = b"http://127.0.0.1:9/announce"
# for one client, or one run of a stock program; a slow machine may need some of them
SECONDS = 300
MOST_ROOM = 1 << 20
# no name is looked up and no port is asked for: a session that keeps to this machine
ALONE = {
    "listen_interfaces": "127.0.0.1:0",
    "outgoing_interfaces": "127.0.0.1",
    "enable_dht": False,
    "enable_lsd": False,
    "enable_upnp": False,
    "enable_natpmp": False,
    "enable_outgoing_utp": False,
    "enable_incoming_utp": False,
    "allow_multiple_connections_per_ip": True,
    "min_reconnect_time": 1,
    "tracker_completion_timeout": SECONDS,
    "tracker_receive_timeout": SECONDS,
    "stop_tracker_timeout": 1,
}


@dataclass
class Listing:
    """What every reader tells of a torrent; a file is its start, its length and its path without the torrent's name."""

    name: bytes
    files: list
    total: int
    piece_length: int
    pieces: int
    info_hash: str


# ---- readers


def read_by_us(replay, text):
    answer = replay.ask("torrent", text).split()
    same("we read a torrent", answer[0], "taken")
    announce, name, (piece_length, pieces, count, total), info_hash = answer[1], answer[2], map(int, answer[3:7]), answer[7]
    same("announce", unhexed(announce), ANNOUNCE)
    files = [read_file(replay.ask("file", text, i)) for i in range(count)]
    same("one file more", replay.ask("file", text, count), "refused 31 at 0")
    return Listing(unhexed(name), files, total, piece_length, pieces, info_hash)


def read_file(answer):
    start, length, path = answer.split()
    return int(start), int(length), b"/".join(unhexed(element) for element in path.split("/"))


def read_by_bdecode(text):
    """The fields as the bytes they are, by libtorrent's decoder; the hash by hashlib over its encoder."""
    info = libtorrent.bdecode(text)[b"info"]
    listed = info.get(b"files", [{b"length": info.get(b"length"), b"path": [info[b"name"]]}])
    files, start = [], 0
    for file in listed:
        files.append((start, file[b"length"], b"/".join(file[b"path"])))
        start += file[b"length"]
    digest = hashlib.sha1(libtorrent.bencode(info)).hexdigest()
    return Listing(info[b"name"], files, start, info[b"piece length"], len(info[b"pieces"]) // 20, digest)


def read_by_libtorrent(text):
    """Names outside UTF-8 come out mended, so lengths, counts and hash are what is told of them."""
    torrent = libtorrent.torrent_info(text)
    listed = torrent.files()
    files = []
    for i in range(listed.num_files()):
        path = listed.file_path(i).encode()
        files.append((listed.file_offset(i), listed.file_size(i), inner(path, torrent.name().encode())))
    same("libtorrent's announce", [tracker.url.encode() for tracker in torrent.trackers()], [ANNOUNCE])
    return Listing(
        torrent.name().encode(), files, torrent.total_size(), torrent.piece_length(), torrent.num_pieces(), str(torrent.info_hash())
    )


def inner(path, name):
    return path[len(name) + 1 :] if path.startswith(name + b"/") else path


def read_by_aria2(path):
    """Exact numbers and the files in order. Names outside UTF-8 come with % and hex digits."""
    said = output(["aria2c", "--no-conf", "-S", path])
    name = field(said, rb"^Name: (.*)$")
    files, start = [], 0
    for shown, length in re.findall(rb"^ *[0-9]+\|(.*)\n +\|.*\(([0-9,]+)\)$", said, re.M):
        files.append((start, number(length), inner(shown.removeprefix(b"./"), name)))
        start += files[-1][1]
    return Listing(
        name,
        files,
        number(field(said, rb"^Total Length: .*\(([0-9,]+)\)$")),
        number(field(said, rb"^Piece Length: ([0-9]+)")) * {b"KiB": 1 << 10, b"MiB": 1 << 20}[field(said, rb"^Piece Length: [0-9.]+(...)$")],
        number(field(said, rb"^The Number of Pieces: (.*)$")),
        field(said, rb"^Info Hash: (.*)$").decode(),
    )


def read_by_transmission(path):
    """Name, hash, number of pieces, and the paths in an order of its own; its sizes are rounded."""
    said = output(["transmission-show", path])
    name = field(said, rb"^  Name: (.*)$")
    shown = re.findall(rb"^  (.*) \([0-9.]+ .B\)$", said.split(b"\nFILES\n")[1], re.M)
    return name, sorted(inner(path, name) for path in shown), int(field(said, rb"^  Piece Count: (.*)$")), field(said, rb"^  Hash: (.*)$").decode()


def output(command):
    return subprocess.run(command, check=True, capture_output=True, timeout=SECONDS, env=dict(os.environ, LC_ALL="C.UTF-8")).stdout


def field(said, form):
    return re.search(form, said, re.M).group(1)


def number(digits):
    return int(digits.replace(b",", b""))


def check_alike(replay, path):
    """All readers tell the same of a torrent. Gives back its text and what is told."""
    text = path.read_bytes()
    ours = read_by_us(replay, text)
    what = f"{path.name} as we and another read it"
    same(what, ours, read_by_bdecode(text))
    plain = all(is_utf8(element) for element in [ours.name, *(file[2] for file in ours.files)])
    theirs = read_by_libtorrent(text)
    same(what, ours if plain else unnamed(ours), theirs if plain else unnamed(theirs))
    same(what, escaped(ours), read_by_aria2(path))
    name, paths, pieces, info_hash = read_by_transmission(path)
    same(what, (ours.pieces, ours.info_hash, len(ours.files)), (pieces, info_hash, len(paths)))
    if plain:
        same(what, (ours.name, sorted(file[2] for file in ours.files)), (name, paths))
    return text, ours


def is_utf8(name):
    try:
        name.decode()
    except UnicodeDecodeError:
        return False
    return True


def unnamed(listing):
    return [(start, length) for start, length, _ in listing.files], listing.total, listing.piece_length, listing.pieces, listing.info_hash


def escaped(listing):
    """The listing with names outside UTF-8 as aria2 shows them."""

    def shown(name):
        return name if is_utf8(name) else urllib.parse.quote_from_bytes(name).encode()

    files = [(start, length, b"/".join(map(shown, path.split(b"/")))) for start, length, path in listing.files]
    return Listing(shown(listing.name), files, listing.total, listing.piece_length, listing.pieces, listing.info_hash)


# ---- makers

LENGTHS = {
    "route 7.bin": 100_000,
    "Straße nach Süd.map": 1,
    "whole pieces": 1 << 17,
    "week é/a b.bin": 40_000,
    "week é/empty": 0,
    "week é/sub dir/deeper/ü-日本": 70_000,
    "week é/z\udcff\udcfe": 1,
    "one/only": 16_384,
    "raw \udcff\udcfe.bin": 20_000,
}


def make_contents(folder):
    """The files above, and the names to make torrents of. Names that are no UTF-8 stand as Python reads them off a disk."""
    draw = random.Random(1)
    for name, length in LENGTHS.items():
        path = folder / name
        path.parent.mkdir(parents=True, exist_ok=True)
        path.write_bytes(draw.randbytes(length))
    return sorted({name.split("/")[0] for name in LENGTHS})


def make_by_mktorrent(source, shift, path):
    output(["mktorrent", "-t", "1", "-a", ANNOUNCE, "-l", str(shift), "-o", path, source])


def make_by_transmission(source, shift, path):
    output(["transmission-create", "-s", str(1 << shift - 10), "-t", ANNOUNCE, "-o", path, source])


def make_by_libtorrent(source, shift, path):
    files = libtorrent.file_storage()
    libtorrent.add_files(files, str(source))
    made = libtorrent.create_torrent(files, 1 << shift, flags=libtorrent.create_torrent.v1_only)
    made.add_tracker(ANNOUNCE.decode())
    libtorrent.set_piece_hashes(made, str(source.parent))
    path.write_bytes(libtorrent.bencode(made.generate()))


# each with its piece lengths, as powers of two
MAKERS = [(make_by_mktorrent, [15, 16, 20]), (make_by_transmission, [14, 15, 18]), (make_by_libtorrent, [14, 17, 24])]


def theirs(replay, folder):
    """Torrents of three makers, read alike; every piece of their contents checked by us, whole and damaged; their addresses by libtorrent's sheets; and all
    of them in one week's file."""
    contents, texts, pieces = folder / "contents", [], 0
    for name in make_contents(contents):
        for make, shifts in MAKERS:
            if make is make_by_libtorrent and not is_utf8(os.fsencode(name)):
                continue  # its Python interface takes no such path
            for shift in shifts:
                path = folder / f"{make.__name__}-{len(texts)}.torrent"
                make(contents / name, shift, path)
                text, listing = check_alike(replay, path)
                same("piece length", listing.piece_length, 1 << shift)
                pieces += check_pieces(replay, text, listing, contents)
                texts.append(text)
    addresses, packages = check_addresses(replay, texts), check_week(replay, texts)
    return f"{len(texts)} torrents of mktorrent, Transmission and libtorrent read alike, {pieces} pieces checked, {addresses} addresses found, {packages} in one file"


def check_pieces(replay, text, listing, contents):
    root = os.fsencode(contents)
    single = os.path.isfile(os.path.join(root, listing.name))
    joined = b""
    for _, length, path in listing.files:
        with open(os.path.join(root, *([path] if single else [listing.name, path])), "rb") as file:
            joined += file.read()
    for i in range(listing.pieces):
        piece = joined[i * listing.piece_length :][: listing.piece_length]
        same("a piece", replay.ask("piece", text, i, piece), "yes")
        same("a damaged piece", replay.ask("piece", text, i, piece[:-1] + bytes([piece[-1] ^ 1])), "no")
    return listing.pieces


def check_addresses(replay, texts):
    """Sheets that libtorrent encodes, with all of the torrents' hashes, with this one's alone, with all but this, and empty: the address of each torrent
    is what libtorrent decodes under the hash that it tells, or the announce that it decodes."""
    hashes = [libtorrent.torrent_info(text).info_hash().to_bytes() for text in texts]
    addresses = {info_hash: b"http://depot/%d" % at if at else b"" for at, info_hash in enumerate(hashes)}
    asked = 0
    for text, info_hash in zip(texts, hashes):
        others = {other: address for other, address in addresses.items() if other != info_hash}
        for listed in (addresses, {info_hash: addresses[info_hash]}, others, {}):
            sheet = libtorrent.bencode(listed)
            found = libtorrent.bdecode(sheet).get(info_hash)
            source, address = ("sheet", found) if found is not None else ("torrent", libtorrent.bdecode(text)[b"announce"])
            same("an address", replay.ask("address", text, sheet), f"{source} {hexed(address)}")
            asked += 1
    return asked


def check_week(replay, texts):
    """The torrents in one file, whose table is packed here from what libtorrent tells of each; no program but ours reads such a file."""
    told = {libtorrent.torrent_info(text).info_hash().to_bytes(): text for text in texts}
    bodies, table, at = b"".join(told.values()), struct.pack(">I", len(told)), 4 + 28 * len(told)
    packages = []
    for info_hash, text in told.items():
        torrent = libtorrent.torrent_info(text)
        table += struct.pack(">II20s", at, len(text), info_hash)
        packages.append((info_hash.hex(), at, len(text), torrent.num_files(), torrent.total_size()))
        at += len(text)
    lengths = ",".join(str(len(text)) for text in told.values())
    file = table + bodies
    same("a week written", replay.ask_bytes("write-week", bodies, lengths, MOST_ROOM), file)
    files, total = (sum(package[k] for package in packages) for k in (3, 4))
    same("a week", replay.ask("week", file), f"taken {len(packages)} {files} {total}")
    for at, package in enumerate(packages):
        same("a package", replay.ask("package", file, at), " ".join(map(str, package)))
    again = next(iter(told.values()))
    same("a torrent twice", replay.ask("write-week", bodies + again, f"{lengths},{len(again)}", MOST_ROOM), "refused 18 at 0")
    return len(packages)


# ---- ours

WRITTEN = [
    (b"route.bin", 14, 1),
    (b"route 8.bin", 14, 3 << 14),
    (b"map \xc3\xbc \xe6\x97\xa5.bin", 15, 100_001),
    (b"raw \xff.bin", 16, 70_000),
    (b"long.bin", 14, 1_500_000),
    (b"big pieces", 24, 1_000_000),
]


def ours(replay, folder):
    """Torrents that we write, read alike; libtorrent's own encoding gives the same bytes, and it finds the content complete."""
    session = libtorrent.session(ALONE)
    for at, (name, shift, length) in enumerate(WRITTEN):
        data = random.Random(at).randbytes(length)
        path = folder / f"ours-{at}.torrent"
        path.write_bytes(written(replay, ANNOUNCE, name, 1 << shift, data))
        text, listing = check_alike(replay, path)
        same("our torrent", listing.name, name)
        same("our torrent", (listing.files, listing.piece_length), ([(0, length, name)], 1 << shift))
        info = {b"length": length, b"name": name, b"piece length": 1 << shift, b"pieces": piece_hashes(data, 1 << shift)}
        same("our torrent decoded", libtorrent.bdecode(text), {b"announce": ANNOUNCE, b"info": info})
        same("our torrent encoded", libtorrent.bencode({b"announce": ANNOUNCE, b"info": info}), text)
        torrent = libtorrent.torrent_info(text)
        for changed in (False, True):
            where = folder / f"ours-{at}-{changed}"
            where.mkdir()
            (where / torrent.files().file_path(0)).write_bytes(data[:-1] + bytes([data[-1] ^ changed]))
            same("libtorrent finds the content complete", is_complete(session, torrent, where), not changed)
    return f"{len(WRITTEN)} torrents of ours read alike, and their contents found complete by libtorrent"


def written(replay, announce, name, piece_length, data):
    return replay.ask_bytes("write-torrent", announce, name, piece_length, len(data), piece_hashes(data, piece_length), MOST_ROOM)


def piece_hashes(data, piece_length):
    return b"".join(hashlib.sha1(data[i : i + piece_length]).digest() for i in range(0, len(data), piece_length))


def is_complete(session, torrent, where):
    params = libtorrent.add_torrent_params()
    params.ti = torrent
    params.save_path = str(where)
    params.flags &= ~(libtorrent.torrent_flags.paused | libtorrent.torrent_flags.auto_managed)
    handle = session.add_torrent(params)
    try:
        until = time.monotonic() + SECONDS
        states = libtorrent.torrent_status
        while handle.status().state in (states.checking_files, states.checking_resume_data) and time.monotonic() < until:
            time.sleep(0.02)
        return handle.status().is_seeding
    finally:
        session.remove_torrent(handle)


def replies(replay, folder):
    """Tracker replies that we write, by libtorrent's decoder and encoder, and read back by us."""
    draw = random.Random(2)
    for count in (0, 1, 2, 50, 2000):
        interval = draw.choice([0, 1800, 2**31 - 1])
        peers = [(draw.randbytes(4), draw.randrange(65536)) for _ in range(count)]
        packed = b"".join(address + port.to_bytes(2, "big") for address, port in peers)
        text = replay.ask_bytes("write-reply", interval, packed, MOST_ROOM)
        same("a reply decoded", libtorrent.bdecode(text), {b"interval": interval, b"peers": packed})
        same("a reply encoded", libtorrent.bencode({b"interval": interval, b"peers": packed}), text)
        same("a reply", replay.ask("reply", text), f"taken {interval} {count}")
        for i, (address, port) in enumerate(peers[:50]):
            same("a peer", replay.ask("peer", text, i), f"none {address.hex()} {port}")
    return "5 replies of ours decoded and encoded alike by libtorrent"


# ---- integers of any length

FORTY = "1234567890123456789012345678901234567890"
# whether the key stands in info, and its integer; nineteen of these digits are within 64 bits, the next is the first that is not
SIGNATURES = {
    "nineteen digits in info": (True, FORTY[:19]),
    "2^63 in info": (True, str(2**63)),
    "forty digits in info": (True, FORTY),
    "forty digits beside it": (False, FORTY),
}
# libtorrent by a process of its own, which may end as it likes: the integer as it is decoded, and what is read of the torrent
DECODED = "import sys, libtorrent; top = libtorrent.bdecode(open(sys.argv[1], 'rb').read()); print(top[b'info'].get(b'signature', top.get(b'signature')))"
READ = "import sys; sys.path.insert(0, sys.argv[2]); import world_torrents; print(world_torrents.read_by_libtorrent(open(sys.argv[1], 'rb').read()))"


def integers(replay, folder):
    """Torrents with an integer under a key that nobody knows: we read the same as without it, but for the info hash, which is hashlib's. What others make
    of them is told and not held, since they differ."""
    name, data = b"route.bin", random.Random(3).randbytes(40_000)
    plain = written(replay, ANNOUNCE, name, 1 << 14, data)
    listing, told = read_by_us(replay, plain), []
    for what, (inside, digits) in SIGNATURES.items():
        text, info = signed(plain, inside, digits)
        found = read_by_us(replay, text)
        same(what, found, replace(listing, info_hash=hashlib.sha1(info).hexdigest()))
        path = folder / f"{what}.torrent"
        path.write_bytes(text)
        told.append(f"{what}: {', '.join(f'{program} {word}' for program, word in said_of(path, digits, found).items())}")
    return f"{len(told)} torrents read by us as without their integers; {'; '.join(told)}"


def signed(plain, inside, digits):
    """The torrent with a key more, the last of info or the last beside it, and the bytes of its info."""
    entry = b"9:signaturei%se" % digits.encode()
    start = plain.index(b"4:info") + len(b"4:info")
    info = plain[start:-2] + entry + b"e" if inside else plain[start:-1]
    return plain[:start] + info + (b"" if inside else entry) + b"e", info


def said_of(path, digits, found):
    """What each stock program makes of a torrent, in a word."""
    return {
        "bdecode": word_of(lambda: output([sys.executable, "-B", "-c", DECODED, path]).decode().strip(), digits),
        "torrent_info": word_of(lambda: output([sys.executable, "-B", "-c", READ, path, os.path.dirname(__file__)]).decode().strip(), str(found)),
        "aria2": word_of(lambda: read_by_aria2(path), found),
        "Transmission": word_of(lambda: read_by_transmission(path), (found.name, [found.name], found.pieces, found.info_hash)),
    }


def word_of(read, wanted):
    """Whether a program takes a text, or tells another thing of it, or nothing; it may end in any way."""
    try:
        return "takes" if read() == wanted else "changes"
    except subprocess.TimeoutExpired:
        return "hangs"
    except subprocess.CalledProcessError as fault:
        return "crashes" if fault.returncode < 0 else "refuses"
    except (AttributeError, IndexError, KeyError, ValueError):  # what it printed has not the form
        return "refuses"

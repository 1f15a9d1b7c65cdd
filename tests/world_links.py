"""Magnet links: written by us and read by stock programs, written by them and read by us; and stock links outside of document 02's form."""

import json
import os
import time
import urllib.error
import urllib.request
from contextlib import contextmanager

import libtorrent

from world_live import free_port, running
from world_replay import Differs, hexed, same
from world_torrents import ANNOUNCE, MOST_ROOM, SECONDS, field, is_utf8, output, written

NAMES = [
    b"route.bin", b"route 8 & map=7.bin", "Straße nach Süd.map".encode(), b"100%+#1~_-.bin", b"a;b:c@d,e!f$g'h(i)j*k?", "日本 [7].bin".encode(), b"%41+%2B",
    b"x" * 200, b"raw \xff\xfe.bin",
]
ADDRESSES = [ANNOUNCE, b"http://yard:80/ann?key=a+b&c=%41~d", b"udp://depot-7.yard:6969/announce", b"https://depot.yard/a_b-c.d/announce?k=" + b"0aZ" * 60]


def links(replay, folder):
    """Every name with every address: each reads what each has written."""
    asked = 0
    with transmission(folder) as by_transmission, aria2(folder) as by_aria2:
        for name in NAMES:
            for address in ADDRESSES:
                path = folder / "link.torrent"
                path.write_bytes(written(replay, address, name, 1 << 14, name + address))
                check_read(replay, path, name, address, [by_libtorrent, by_transmission, by_aria2])
                asked += 1
    others = check_others(replay, folder) + check_by_hand(replay)
    return f"the links of {asked} torrents, by us, libtorrent, Transmission and aria2, read alike, and {others} of other forms answered"


def check_read(replay, path, name, address, readers):
    text = path.read_bytes()
    info_hash = replay.ask("torrent", text).split()[7]
    ours = replay.ask_bytes("write-link", text, MOST_ROOM)
    same("our link read back", read_by_us(replay, ours), f"{info_hash} {hexed(name)} {hexed(address)}")
    plain = is_utf8(name)
    for read in readers:
        told = read(ours)
        same(f"our link, {read.__name__}", (told[0], told[1] if plain else name, told[2]), (info_hash, name, [address]))
    theirs = {write.__name__: write(path) for write in (write_by_libtorrent, write_by_transmission, write_by_aria2)}
    # aria2 escapes what we escape, with capital digits in the hash too
    if plain:
        same("aria2's link as ours", theirs["write_by_aria2"].replace(info_hash.upper().encode(), info_hash.encode()), ours)
    for writer, link in theirs.items():
        told = read_by_us(replay, link).split()
        same(f"{writer}, read by us", (told[0], told[1] if plain else hexed(name), told[2]), (info_hash, hexed(name), hexed(address)))


# ---- links that stock programs write or read, and that document 02 reads otherwise

HASH = "0123456789abcdef0123456789abcdef01234567"
XT = f"xt=urn:btih:{HASH}"
# refused by us at the mark ^; what libtorrent reads as name and addresses, None if it refuses too
REFUSED = [
    (f"magnet:?{XT}&tr=http%3A%2F%2Fa%2F&^tr=http%3A%2F%2Fb%2F", ("", ["http://a/", "http://b/"])),
    (f"magnet:?{XT}&dn=a&^dn=b", ("b", [])),
    (f"magnet:?{XT}&^{XT}", ("", [])),
    ("magnet:?xt=urn:btih:AE^RUKZ4JVPG66AJDIVTYTK6N54ASGRLH&dn=a", ("a", [])),  # the hash in base32
    (f"magnet:?xt.1=urn:btih:{HASH}^", ("", [])),
    (f"magnet:?XT=urn:btih:{HASH}^", ("", [])),
    (f"magnet:?xt=^URN:BTIH:{HASH}", None),
    (f"magnet:?xt=urn^%3Abtih%3A{HASH}", ("", [])),
    (f"^MAGNET:?{XT}", None),
    (f"magnet:?{XT}&dn=a^ b", ("a b", [])),
    (f"magnet:?{XT}&dn=Stra^ße", ("Straße", [])),
    (f"magnet:?{XT}&dn=a%^", ("a", [])),
    (f"magnet:?{XT}&dn=%^zz", ("", [])),
    (f"magnet:?{XT}&amp^;dn=a", ("", [])),
    (f"magnet:?{XT}&x^_y=1", ("", [])),
    (f"magnet:?{XT}&^", ("", [])),
    (f"magnet:?{XT}&^&dn=a", ("", [])),
    (f"magnet:?{XT}&dn^", ("", [])),
    (f"magnet:?{XT}^#a", None),
    (f"magnet:?{XT}^\n", None),
]
# taken by us with this name and address
TAKEN = [
    (f"magnet:?{XT}&dn=a+b", "a+b", None, ("a b", [])),
    (f"magnet:?{XT}&tr.1=http%3A%2F%2Fa%2F", None, None, ("", ["http://a/"])),
    (f"magnet:?{XT}&tr=http://a/b?c=d", None, "http://a/b?c=d", ("", ["http://a/b?c=d"])),
    (f"magnet:?{XT}&x.pe=127.0.0.1:6881&x.pe=[::1]:6881&ws=http%3A%2F%2Fa%2F&so=0-2&xl=7&kt=a+b", None, None, ("", [])),
]


def check_by_hand(replay):
    for marked, theirs in REFUSED:
        link = marked.replace("^", "").encode()
        same(marked, read_by_us(replay, link), f"refused 19 at {marked.encode().index(b'^')}")
        same(f"{marked}, by libtorrent", shown(by_libtorrent(link)), theirs)
    for link, name, address, theirs in TAKEN:
        words = ("none" if data is None else hexed(data.encode()) for data in (name, address))
        same(link, read_by_us(replay, link.encode()), " ".join([HASH, *words]))
        same(f"{link}, by libtorrent", shown(by_libtorrent(link.encode())), theirs)
    return len(REFUSED) + len(TAKEN)


def shown(read):
    return read and (read[1].decode(), [address.decode() for address in read[2]])


def check_others(replay, folder):
    """Links of torrents with two trackers, with none, with a web seed, and of version 2: what the link has decides."""
    path, content = folder / "other.torrent", folder / "content"
    content.write_bytes(b"x" * 20_000)
    output(["mktorrent", "-a", ANNOUNCE, "-a", b"http://yard/ann", "-o", path, content])
    for write in (write_by_libtorrent, write_by_transmission, write_by_aria2):
        link = write(path)
        same(f"two trackers, {write.__name__}", read_by_us(replay, link), f"refused 19 at {link.rindex(b'&tr=') + 1}")
    for seed in ("", "http://yard/web"):
        path.write_bytes(made(content, libtorrent.create_torrent.v1_only, seed))
        link = write_by_libtorrent(path)
        same("no tracker", (b"&ws=" in link, read_by_us(replay, link).split()[1:]), (bool(seed), [hexed(b"content"), "none"]))
    path.write_bytes(made(content, 0))
    link = write_by_libtorrent(path)
    same("versions 1 and 2", read_by_us(replay, link), f"refused 19 at {link.index(b'&xt=urn:btmh:') + 1}")
    path.write_bytes(made(content, libtorrent.create_torrent.v2_only))
    same("version 2", read_by_us(replay, write_by_libtorrent(path)), f"refused 19 at {len(b'magnet:?xt=urn:bt')}")
    return 7


def made(content, flags, seed=""):
    files = libtorrent.file_storage()
    libtorrent.add_files(files, str(content))
    torrent = libtorrent.create_torrent(files, 1 << 14, flags=flags)
    if seed:
        torrent.add_url_seed(seed)
    libtorrent.set_piece_hashes(torrent, str(content.parent))
    return libtorrent.bencode(torrent.generate())


# ---- writers


def write_by_libtorrent(path):
    return libtorrent.make_magnet_uri(libtorrent.torrent_info(path.read_bytes())).encode()


def write_by_transmission(path):
    return output(["transmission-show", "--magnet", path]).strip()


def write_by_aria2(path):
    return field(output(["aria2c", "--no-conf", "-S", path]), rb"^Magnet URI: (.*)$")


# ---- readers: the hash, the name, which comes out mended where it is no UTF-8, and the addresses; None for a link that is refused


def read_by_us(replay, link):
    return replay.ask("link", link, MOST_ROOM, MOST_ROOM)


def by_libtorrent(link):
    try:
        told = libtorrent.parse_magnet_uri(link.decode())
    except RuntimeError:
        return None
    try:
        name = told.name.encode()
    except UnicodeDecodeError:
        name = None
    return str(told.info_hashes.v1), name, [address.encode() for address in told.trackers]


@contextmanager
def transmission(folder):
    """A client on loopback that is handed links and told to keep still."""
    port, home = free_port(), folder / "transmission"
    home.mkdir()
    settings = {"bind-address-ipv4": "127.0.0.1", "bind-address-ipv6": "::1", "dht-enabled": False, "lpd-enabled": False, "pex-enabled": False,
                "utp-enabled": False, "port-forwarding-enabled": False, "rpc-enabled": True, "rpc-bind-address": "127.0.0.1", "rpc-port": port}
    (home / "settings.json").write_text(json.dumps(settings))
    session = {}

    def ask(method, **words):
        request = json.dumps({"method": method, "arguments": words}).encode()
        try:
            return answer_of(f"http://127.0.0.1:{port}/transmission/rpc", request, session)
        except urllib.error.HTTPError as fault:
            if fault.code != 409:
                raise
            session["X-Transmission-Session-Id"] = fault.headers["X-Transmission-Session-Id"]
            return ask(method, **words)

    def by_transmission(link):
        added = ask("torrent-add", filename=link.decode(), paused=True)
        if added["result"] != "success":
            return None
        number = added["arguments"]["torrent-added"]["id"]
        told = ask("torrent-get", ids=[number], fields=["hashString", "magnetLink", "name", "trackers"])["arguments"]["torrents"][0]
        ask("torrent-remove", ids=[number])
        return told["hashString"], told["name"].encode(), [tracker["announce"].encode() for tracker in told["trackers"]]

    first = f"magnet:?xt=urn:btih:{'0' * 40}"
    with running(["transmission-cli", "-g", home, "-w", home, "-p", str(free_port()), "-M", first]):
        wait_for(lambda: ask("session-get"))
        yield by_transmission


@contextmanager
def aria2(folder):
    port = free_port()
    command = ["aria2c", "--no-conf", "--quiet", "--enable-rpc", f"--rpc-listen-port={port}", "--interface=127.0.0.1", "--disable-ipv6", f"--dir={folder}",
               "--enable-dht=false", "--enable-dht6=false", "--bt-enable-lpd=false", "--enable-peer-exchange=false", f"--stop-with-process={os.getpid()}"]

    def ask(method, *words):
        request = json.dumps({"jsonrpc": "2.0", "id": 1, "method": method, "params": words}).encode()
        return answer_of(f"http://127.0.0.1:{port}/jsonrpc", request)["result"]

    def by_aria2(link):
        number = ask("aria2.addUri", [link.decode()], {"pause": "true"})
        told = ask("aria2.tellStatus", number)
        ask("aria2.forceRemove", number)
        name = told["files"][0]["path"].removeprefix("[METADATA]").encode()
        return told["infoHash"], name, [address.encode() for tier in told["bittorrent"]["announceList"] for address in tier]

    with running(command):
        wait_for(lambda: ask("aria2.getVersion"))
        yield by_aria2


def answer_of(address, request, words=None):
    with urllib.request.urlopen(urllib.request.Request(address, request, words or {}), timeout=SECONDS) as answer:
        return json.load(answer)


def wait_for(ask):
    """Until the client listens."""
    until = time.monotonic() + SECONDS
    while True:
        try:
            return ask()
        except OSError as fault:
            if time.monotonic() > until:
                raise Differs(f"a client does not listen: {fault}") from None
            time.sleep(0.05)

"""A yard that listens to stock clients on loopback: seeders that are loaded, a leecher that comes to be, and leechers that are served by rounds."""

import json
import os
import random
import select
import shutil
import socket
import struct
import subprocess
import threading
import time
from collections import Counter
from contextlib import ExitStack, contextmanager
from http.server import BaseHTTPRequestHandler, ThreadingHTTPServer

import libtorrent

from world_replay import Differs, same, unhexed
from world_torrents import ALONE, ANNOUNCE, MOST_ROOM, SECONDS, written

PEER_ID = b"-WR0000-tests/world."
# Transmission takes one connection from an address, and the clients have 127.0.0.1
OUR_ADDRESS = "127.0.0.2"
PIECE_LENGTH = 1 << 14
SEATS = 4
# how often a client may hang up before it is a fault: a slow machine makes them impatient
TRIES = 3
HAVE, BITFIELD, REQUEST, PIECE = 4, 5, 6, 7


class HungUp(Differs):
    """The client has closed the connection."""


class Package:
    """A torrent of ours, its content on disk, and what a yard is started with."""

    def __init__(self, replay, folder, announce, pieces):
        length = PIECE_LENGTH * pieces - 1234
        self.data = random.Random(pieces).randbytes(length)
        self.pieces, self.last = pieces, PIECE_LENGTH - 1234
        self.torrent = folder / "live.torrent"
        self.text = written(replay, announce, b"live.bin", PIECE_LENGTH, self.data)
        self.torrent.write_bytes(self.text)
        self.info_hash = unhexed(replay.ask("torrent", self.text).split()[7])
        self.full, self.begun = folder / "full", folder / "begun"
        self.begun_pieces = pieces - pieces // 80
        for where, have in (self.full, length), (self.begun, self.begun_pieces * PIECE_LENGTH):
            where.mkdir()
            (where / "live.bin").write_bytes(self.data[:have].ljust(length, b"\0"))


# ---- stock clients; each ends with its block


@contextmanager
def running(command):
    client = subprocess.Popen(command, stdin=subprocess.DEVNULL, stdout=subprocess.DEVNULL, stderr=subprocess.DEVNULL)
    try:
        yield client
    finally:
        client.kill()
        client.wait()


@contextmanager
def aria2(package, where, port):
    command = ["aria2c", "--no-conf", "--quiet", f"--dir={where}", f"--listen-port={port}", "--interface=127.0.0.1", "--disable-ipv6",
               "--enable-dht=false", "--enable-dht6=false", "--bt-enable-lpd=false", "--enable-peer-exchange=false",
               "--check-integrity=true", "--seed-ratio=0", f"--stop={SECONDS}", f"--stop-with-process={os.getpid()}"]
    with running([*command, package.torrent]):
        yield


@contextmanager
def transmission(package, where, port):
    settings = {"bind-address-ipv4": "127.0.0.1", "bind-address-ipv6": "::1", "dht-enabled": False, "lpd-enabled": False,
                "pex-enabled": False, "utp-enabled": False, "port-forwarding-enabled": False, "rpc-enabled": False}
    home = where.parent / f"transmission-{port}"
    home.mkdir()
    (home / "settings.json").write_text(json.dumps(settings))
    with running(["transmission-cli", "-g", home, "-w", where, "-p", str(port), "-M", package.torrent]):
        yield


@contextmanager
def rasterbar(package, where, port):
    """A session of libtorrent, in this process."""
    session = libtorrent.session(dict(ALONE, listen_interfaces=f"127.0.0.1:{port}"))
    params = libtorrent.add_torrent_params()
    params.ti = libtorrent.torrent_info(package.text)
    params.save_path = str(where)
    handle = session.add_torrent(params)
    try:
        yield
    finally:
        session.remove_torrent(handle)


CLIENTS = [aria2, transmission, rasterbar]


def free_port():
    """A port that nobody listens on, below those that a connection is given."""
    while True:
        port = random.randrange(10_000, 30_000)
        with socket.socket() as s:
            try:
                s.bind(("127.0.0.1", port))
                return port
            except OSError:
                pass  # it is in use


# ---- one truck of the yard


class Truck:
    """A connection to a client, and the seat it has in a yard that the first one starts. Some keepalives are put before the client's frames."""

    def __init__(self, replay, package, port, cuts, until, keepalives=0, seat=0, seats=SEATS):
        self.replay, self.cuts, self.until, self.seat = replay, cuts, until, seat
        self.unused, self.fed, self.waits = b"", 0, 0
        self.heard, self.last, self.to_serve = [], {}, []
        self.socket = connected(port, until)
        self.send("write-handshake", package.info_hash, PEER_ID, 68)
        after = self.shake(package.info_hash)
        if seat == 0:
            same("start", replay.ask("start", package.pieces, PIECE_LENGTH, package.last, seats), "started")
        same("sit", replay.ask("sit"), f"seat {seat}")
        self.take(bytes(4 * keepalives) + after)

    def send(self, *words):
        try:
            self.socket.sendall(self.replay.ask_bytes(*words))
        except ConnectionError:
            raise HungUp(f"the client hung up; frames heard: {self.heard[-20:]}") from None

    def shake(self, info_hash):
        """Reads who the client is. Gives back the bytes that came after its handshake."""
        came = b""
        while True:
            came += self.receive()
            for end in ends(came, self.cuts):
                answer = self.replay.ask("handshake", came[:end], info_hash)
                if answer == "wait":
                    same("a handshake that waits", end < 68, True)
                    continue
                same("a handshake", answer, f"taken {came[20:28].hex()} {came[48:68].hex()}")
                self.peer_id = came[48:68]
                return came[68:]

    def receive(self):
        self.socket.settimeout(max(0.01, self.until - time.monotonic()))
        try:
            came = self.socket.recv(1 << 16)
        except TimeoutError:
            raise Differs(f"not done in {SECONDS} seconds; frames heard: {self.heard[-20:]}") from None
        except ConnectionError:
            came = b""
        if not came:
            raise HungUp(f"the client hung up; frames heard: {self.heard[-20:]}")
        return came

    def listen(self):
        self.take(self.receive())

    def take(self, came):
        """Feeds what has come, cut anew."""
        at = 0
        for end in ends(came, self.cuts):
            self.feed(came[at:end])
            at = end

    def feed(self, came):
        """Gives the yard the bytes that it has not used, with those that came, until it waits for more."""
        self.unused += came
        self.fed += len(came)
        while self.unused:
            answer = self.replay.ask("feed", self.seat, self.unused)
            if answer == "wait":
                self.waits += 1
                return
            if answer.startswith("refused"):
                raise Differs(f"feed: {answer}; frames heard: {self.heard[-20:]}; next: {self.unused[:40].hex()}")
            used = int(answer.split()[1])
            frame, self.unused = self.unused[:used], self.unused[used:]
            self.heard.append(frame[4] if used > 4 else "keepalive")
            self.last[self.heard[-1]] = frame
            if answer.startswith("serve"):
                self.to_serve.append(frame)

    def is_loaded(self):
        return self.replay.ask("head").split()[:2] == ["1", "1"]

    def says(self):
        """Who it is, and how many frames of each id came."""
        return f"{self.peer_id[:8].decode()} {dict(sorted(Counter(self.heard).items(), key=str))}"

    def __enter__(self):
        return self

    def __exit__(self, *_):
        self.socket.close()


def boarded(replay, package, port, cuts, until, keepalives=0, **seat):
    """A truck, once the client knows the torrent: while it looks through its files it hangs up on those who ask for it."""
    while True:
        try:
            return Truck(replay, package, port, cuts, until, keepalives, **seat)
        except HungUp:
            if time.monotonic() > until:
                raise
            time.sleep(0.1)


def connected(port, until):
    while True:
        try:
            return socket.create_connection(("127.0.0.1", port), timeout=5, source_address=(OUR_ADDRESS, 0))
        except OSError:
            if time.monotonic() > until:
                raise Differs(f"no client on port {port}") from None
            time.sleep(0.05)


def ends(came, cuts):
    """Where the bytes are cut, their end included: after each, or at random."""
    at = 0
    while at < len(came):
        at = min(len(came), at + (1 if cuts is None else cuts.randint(1, cuts.choice([1, 8, 40, 4000]))))
        yield at


def check_loaded(replay, package):
    same("head", replay.ask("head"), f"1 1 0 nobody {SEATS - 1}")
    same("missing", replay.ask("missing", 0, 4), f"- of 0 next {SEATS}")
    same("seat", replay.ask("seat", 0).split()[:2], ["used", str(package.pieces)])
    for piece in (0, package.pieces - 1):
        same("count", replay.ask("count", piece), "1")


# ---- with each client


def with_each(scene, replay, folder, pieces):
    """Plays a scene with each client, anew if it hung up. Tells what was heard of them."""
    said = [played(scene, replay, folder / client.__name__, client, at).says() for at, client in enumerate(CLIENTS, pieces)]
    return ", ".join(said)


def played(scene, replay, folder, client, pieces):
    for turn in range(1, TRIES + 1):
        where = folder / str(turn)
        where.mkdir(parents=True)
        try:
            return scene(replay, where, client, pieces, time.monotonic() + SECONDS)
        except HungUp:
            if turn == TRIES:
                raise


# ---- seeders


def seeders(replay, folder):
    """Each client as a seeder, heard byte by byte and cut at random, with keepalives before its bitfield and without.

    The bitfield shows it as loaded, and it gives us a piece.
    """
    return "loaded: " + with_each(seeder, replay, folder, 37)


def seeder(replay, where, client, pieces, until):
    package, port = Package(replay, where, ANNOUNCE, pieces), free_port()
    with client(package, package.full, port):
        for cuts, keepalives in (None, 0), (None, 3), (random.Random(pieces), 1000):
            with boarded(replay, package, port, cuts, until, keepalives) as truck:
                while not truck.is_loaded():
                    truck.listen()
                check_loaded(replay, package)
                same("frames up to the bitfield", truck.heard[: keepalives + 1], ["keepalive"] * keepalives + [BITFIELD])
                if cuts:
                    fetch(truck, package, pieces - 1)
                else:
                    # one call a byte: each waits but those that end a frame
                    same("waits", truck.waits, truck.fed - len(truck.heard))
    return truck


def fetch(truck, package, piece):
    """Asks for the piece, once the yard shows that the client does not choke us, and has it checked; its bytes count until a round."""
    truck.send("interest", 0, 1, 5)
    while truck.replay.ask("seat", 0).split()[4] == "1":
        truck.listen()
    asked = struct.pack(">III", piece, 0, package.last)
    truck.send("write-frame", REQUEST, asked, MOST_ROOM)
    while PIECE not in truck.heard:
        truck.listen()
    frame = truck.last[PIECE]
    taken, used, number, payload = truck.replay.ask("frame", frame).split()
    same("a piece frame", (taken, int(used), int(number)), ("taken", len(frame), PIECE))
    same("a piece frame", unhexed(payload)[:8], asked[:8])
    same("a piece sent", truck.replay.ask("piece", package.text, piece, unhexed(payload)[8:]), "yes")
    same("bytes of its blocks", truck.replay.ask("seat", 0).split()[6], str(package.last))
    same("a round, of a truck that wants nothing", truck.replay.ask("round"), "unchoked 0 free nobody")
    same("bytes after a round", truck.replay.ask("seat", 0).split()[6], "0")


# ---- leechers


def leechers(replay, folder):
    """Each client with most pieces, on the missing list until its haves have shown the others, which it gets from a seeder.

    It has many pieces and lacks few, since aria2 sends its bitfield again in place of many haves, which document 01 refuses by 30.
    """
    return "came to be loaded: " + with_each(leecher, replay, folder, 801)


def leecher(replay, where, client, pieces, until):
    port, source = free_port(), free_port()
    # Transmission calls nobody on loopback, so the seeder has to call it; if both call they may both hang up
    told = ([port], []) if client is transmission else ([], [source])
    with tracker(replay, *told) as (announce, may_meet):
        package = Package(replay, where, announce, pieces)
        with rasterbar(package, package.full, source), client(package, package.begun, port):
            with boarded(replay, package, port, random.Random(pieces), until) as truck:
                while BITFIELD not in truck.heard:
                    truck.listen()
                same("seat", replay.ask("seat", 0).split()[:2], ["used", str(package.begun_pieces)])
                same("missing", replay.ask("missing", 0, 4), f"0 of 1 next {SEATS}")
                may_meet.set()
                while not truck.is_loaded():
                    truck.listen()
                check_loaded(replay, package)
                same("haves", truck.heard.count(HAVE), pieces - package.begun_pieces)
    return truck


def served(replay, folder):
    """Each client with most pieces again: it gets the others from us, as the yard says that its requests are to be served."""
    return "got their last pieces from us: " + with_each(taker, replay, folder, 801)


def taker(replay, where, client, pieces, until):
    package, port = Package(replay, where, ANNOUNCE, pieces), free_port()
    with client(package, package.begun, port):
        with boarded(replay, package, port, random.Random(pieces), until) as truck:
            truck.send("write-frame", BITFIELD, all_of(pieces), MOST_ROOM)
            truck.send("choke", 0, 0, 5)
            given = set()
            while len(given) < pieces - package.begun_pieces:
                truck.listen()
                given.update(serve(truck, package))
            wait_stored(package, package.begun, client, until)
    return truck


def wait_stored(package, where, client, until):
    while (where / "live.bin").read_bytes() != package.data:
        if time.monotonic() > until:
            raise Differs(f"{client.__name__} has not stored what it got")
        time.sleep(0.1)


def all_of(pieces):
    """The bits of a bitfield with every piece."""
    spare = -pieces % 8
    return ((1 << pieces) - 1 << spare).to_bytes((pieces + spare) // 8, "big")


def serve(truck, package, most=None):
    """Sends what the yard has said to serve, or the first of it, and tells which pieces that was; a request is for one whole piece, of one block."""
    given = []
    for request in truck.to_serve[:most]:
        piece, begin, length = struct.unpack(">III", unhexed(truck.replay.ask("frame", request).split()[3]))
        at = piece * PIECE_LENGTH + begin
        truck.send("write-frame", PIECE, struct.pack(">II", piece, begin) + package.data[at : at + length], MOST_ROOM)
        given.append(piece)
    del truck.to_serve[:most]
    return given


# ---- rounds

LEECHERS = [rasterbar, aria2, rasterbar, rasterbar, transmission, rasterbar, rasterbar]
# whom the first round finds interested: the free place goes on from there, past the four
FIRST = 3
# in so many rounds each truck that is not choked gets one block, and the free place comes to the seats after the four; then it gets all
SHORT_ROUNDS = 12


def rounds(replay, folder):
    """Seven clients with most pieces at one yard, which get the others from us as rounds unchoke them."""
    return played(taking_turns, replay, folder / "rounds", None, 801).says()


def taking_turns(replay, where, _, pieces, until):
    package = Package(replay, where, ANNOUNCE, pieces)
    with ExitStack() as stack:
        ports = []
        for seat, client in enumerate(LEECHERS):
            shutil.copytree(package.begun, where / str(seat))
            ports.append(free_port())
            stack.enter_context(client(package, where / str(seat), ports[seat]))
        trucks = [stack.enter_context(boarded(replay, package, port, random.Random(seat), until, seat=seat, seats=len(LEECHERS)))
                  for seat, port in enumerate(ports)]
        board = Board(replay, package, where, trucks, until)
        board.hear_until(lambda: all(BITFIELD in truck.heard for truck in trucks))
        board.rouse([FIRST])
        board.turn(1)
        board.rouse(seat for seat in range(len(LEECHERS)) if seat != FIRST)
        while board.served < len(LEECHERS):
            board.hear_until(lambda: any(map(board.wants, board.trucks)))
            board.turn(1 if len(board.unchoked) < SHORT_ROUNDS else None)
        for seat, client in enumerate(LEECHERS):
            wait_stored(package, where / str(seat), client, until)
    return board


class Board:
    """The trucks of one yard, and what each has got from us."""

    def __init__(self, replay, package, where, trucks, until):
        self.replay, self.package, self.where, self.until = replay, package, where, until
        self.trucks = dict(enumerate(trucks))
        self.given = {seat: set() for seat in self.trucks}
        self.lacking = package.pieces - package.begun_pieces
        self.free, self.last, self.unchoked = None, len(trucks) - 1, []

    @property
    def served(self):
        """How many have got all that they lacked."""
        return sum(len(given) == self.lacking for given in self.given.values())

    def rouse(self, seats):
        """Tells these that we have every piece, and hears that they are interested."""
        for seat in seats:
            self.trucks[seat].send("write-frame", BITFIELD, all_of(self.package.pieces), MOST_ROOM)
            self.hear_until(lambda: self.wants(seat))

    def turn(self, most):
        """A round, as the rules have it for trucks that send no blocks; those that it unchokes get as many as this of the blocks they ask for."""
        wanting = [seat for seat in self.trucks if self.wants(seat)]
        if len(self.unchoked) % 3 == 0:
            self.free = min(wanting, key=lambda seat: (seat - self.last - 1) % len(self.given), default=None)
            self.last = self.last if self.free is None else self.free
        unchoked = sorted({*wanting[:4], self.free} & self.trucks.keys())
        were = [seat for seat in self.trucks if not self.chokes(seat)]
        same("round", self.replay.ask("round"), f"unchoked {len(unchoked)} free {'nobody' if self.free is None else self.free}")
        same("who is unchoked", [seat for seat in self.trucks if not self.chokes(seat)], unchoked)
        self.unchoked.append(unchoked)
        for seat in sorted({*were} ^ {*unchoked}):
            if seat in were:
                # who chokes drops what was asked before
                self.trucks[seat].to_serve.clear()
            with self.leaving(seat):
                self.trucks[seat].send("choke", seat, int(seat in were), 5)
        for seat in unchoked:
            if seat in self.trucks:
                self.give(seat, most)
        self.check_choked()

    def give(self, seat, most):
        truck, given = self.trucks[seat], self.given[seat]
        blocks = self.lacking - len(given) if most is None else min(most, self.lacking - len(given))
        for _ in range(blocks):
            self.hear_until(lambda: truck.to_serve or not self.wants(seat))
            given.update(serve(truck, self.package, 1))
        if len(given) == self.lacking:
            # it has got all, and says so or hangs up, since we have all too
            self.hear_until(lambda: seat not in self.trucks or not self.wants(seat))

    def check_choked(self):
        """Those that are choked have nothing to be served, and no more than they got before; who was never unchoked has what it came with."""
        for seat, truck in self.trucks.items():
            same(f"bytes of seat {seat}, which sends no blocks", self.look(seat)[6], "0")
            held = int(self.look(seat)[1]) - self.package.begun_pieces
            same(f"seat {seat} holds no more than it got", held <= len(self.given[seat]), True)
            if seat not in self.unchoked[-1]:
                same(f"what is to be served to seat {seat}, choked", truck.to_serve, [])
            if not any(seat in unchoked for unchoked in self.unchoked):
                kept = (self.where / str(seat) / "live.bin").read_bytes()
                same(f"seat {seat}, never unchoked", kept == (self.package.begun / "live.bin").read_bytes() and not self.given[seat], True)

    def hear_until(self, done):
        """Hears whoever says something, in parts, until it is done."""
        while not done():
            ready = select.select([truck.socket for truck in self.trucks.values()], [], [], max(0.01, self.until - time.monotonic()))[0]
            if not ready:
                raise Differs(f"not done in {SECONDS} seconds; {self.says()}")
            for seat, truck in list(self.trucks.items()):
                if truck.socket in ready:
                    with self.leaving(seat):
                        truck.listen()

    @contextmanager
    def leaving(self, seat):
        """A truck that has got all may hang up."""
        try:
            yield
        except HungUp:
            if len(self.given[seat]) < self.lacking:
                raise
            same("leave", self.replay.ask("leave", seat), "left")
            del self.trucks[seat]
            self.free = None if self.free == seat else self.free

    def look(self, seat):
        return self.replay.ask("seat", seat).split()

    def chokes(self, seat):
        return self.look(seat)[2] == "1"

    def wants(self, seat):
        return self.look(seat)[5] == "1"

    def says(self):
        """Which seats each round unchoked."""
        turns = " ".join("".join(map(str, unchoked)) or "-" for unchoked in self.unchoked)
        return f"{len(self.given)} leechers served by {len(self.unchoked)} rounds, which unchoked the seats {turns}"


@contextmanager
def tracker(replay, for_seeder, for_other):
    """A tracker that tells a seeder and another client of these ports by replies of ours, once it may."""
    may = threading.Event()
    to_seeder, to_other = (reply_of(replay, ports) for ports in (for_seeder, for_other))

    class Handler(BaseHTTPRequestHandler):
        def do_GET(self):
            may.wait(SECONDS)
            try:
                self.send_response(200)
                self.end_headers()
                self.wfile.write(to_seeder if "left=0&" in self.path + "&" else to_other)
            except ConnectionError:
                pass  # the client has ended

        def log_message(self, *words):
            pass

    server = ThreadingHTTPServer(("127.0.0.1", 0), Handler)
    server.daemon_threads = True
    threading.Thread(target=server.serve_forever, daemon=True).start()
    try:
        yield b"http://127.0.0.1:%d/announce" % server.server_port, may
    finally:
        may.set()
        server.shutdown()
        server.server_close()


def reply_of(replay, ports):
    peers = b"".join(socket.inet_aton("127.0.0.1") + port.to_bytes(2, "big") for port in ports)
    return replay.ask_bytes("write-reply", 1800, peers, MOST_ROOM)

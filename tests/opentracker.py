"""Replies of a stock tracker, Debian's opentracker, asked on loopback and read by the second program.

    python3 tests/opentracker.py           asks, and compares what is read with the peers that were announced
    python3 tests/opentracker.py --keep    also keeps the replies as samples/opentracker-*.reply

It needs the package opentracker and nothing beyond this machine, and ends within seconds. crates/cases reads
the kept replies by the proved code; a fresh one has another interval, so nothing is held to this run.
"""

import os
import socket
import subprocess
import sys
import tempfile
import time
import urllib.parse

sys.path.insert(0, os.path.join(os.path.dirname(__file__), "..", "second"))
from tracker import read

HASH = bytes(range(100, 120))
PORTS = [6881, 51413, 1, 65535]


def free_port():
    with socket.socket() as s:
        s.bind(("127.0.0.1", 0))
        return s.getsockname()[1]


def asked(port, path):
    """The body of the answer to one GET."""
    with socket.create_connection(("127.0.0.1", port), timeout=5) as s:
        s.sendall(b"GET " + path.encode() + b" HTTP/1.0\r\nHost: localhost\r\n\r\n")
        got = b""
        while more := s.recv(65536):
            got += more
    head, body = got.split(b"\r\n\r\n", 1)
    if not head.startswith(b"HTTP/1.") or b" 200 " not in head.split(b"\r\n")[0]:
        raise SystemExit("opentracker: " + head.decode("latin-1"))
    return body


def announce(port, peer_port, event, left):
    query = {"info_hash": HASH, "peer_id": b"-WR0000-%012d" % peer_port, "port": peer_port, "uploaded": 0,
             "downloaded": 0, "left": left, "compact": 1, "event": event}
    return asked(port, "/announce?" + urllib.parse.urlencode(query))


def started(port, folder):
    tracker = subprocess.Popen(["opentracker", "-i", "127.0.0.1", "-p", str(port), "-P", str(port), "-d", folder, "-w", "known"],
                               stdout=subprocess.DEVNULL, stderr=subprocess.DEVNULL)
    for _ in range(100):
        try:
            socket.create_connection(("127.0.0.1", port), timeout=1).close()
            return tracker
        except OSError:
            time.sleep(0.05)
    tracker.kill()
    raise SystemExit("opentracker does not answer")


def replies(port):
    """Each reply with the ports that it has to show: the other peers are always told, the asking one may be."""
    # it reads its list of known torrents a moment after it answers
    for _ in range(100):
        if b"failure" not in announce(port, PORTS[0], "started", 1000):
            break
        time.sleep(0.05)
    found = []
    for i, p in enumerate(PORTS):
        found.append((announce(port, p, "started", 0 if p == 1 else 1000), set(PORTS[:i]), {p}))
    found.append((announce(port, PORTS[0], "stopped", 1000), set(), set(PORTS)))
    return found


def refusals(port):
    return [(announce(port, PORTS[0], "started", 1000), None, None)]


def against(known, asking):
    """What is asked of a tracker that knows these torrents only."""
    port = free_port()
    with tempfile.TemporaryDirectory() as folder:
        os.chmod(folder, 0o755)
        with open(os.path.join(folder, "known"), "w") as f:
            f.write(known)
        tracker = started(port, folder)
        try:
            return asking(port)
        finally:
            tracker.kill()
            tracker.wait()


def main():
    found = against(HASH.hex() + "\n", replies) + against("", refusals)
    for n, (text, sure, perhaps) in enumerate(found):
        reply = read(text)
        print("%d %s: %s" % (n, text, reply))
        if sure is None:
            assert reply.failure is not None, text
        else:
            shown = {peer.port for peer in reply.peers}
            assert reply.failure is None and sure <= shown <= sure | perhaps, (text, shown)
            assert all(peer.id is None and peer.address == bytes([127, 0, 0, 1]) for peer in reply.peers), text
        if "--keep" in sys.argv:
            name = os.path.join(os.path.dirname(__file__), "..", "samples", "opentracker-%d.reply" % n)
            with open(name, "wb") as f:
                f.write(text)


if __name__ == "__main__":
    main()

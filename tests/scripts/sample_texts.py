"""The samples of stock tools: torrents of mktorrent and Transmission, replies of opentracker."""

from pathlib import Path

from notation import case, refused, to_hex

SAMPLES = Path(__file__).parents[2] / "samples"


def sample(call, name, answer, *words):
    text = to_hex((SAMPLES / name).read_bytes())
    return case(" ".join([call, text, *map(str, words)]), answer, f"samples/{name}")


def torrents():
    short, long = to_hex(b"http://yard/ann"), to_hex(b"http://yard/announce")
    # The hash of the first as transmission-show prints it (tests/mktorrent.show).
    mktorrent = f"{short} {to_hex(b'pkg')} 32768 3 4 82769 ab385ef2b4d614176417c456f2f3e4d84f355b18"
    route = f"{long} {to_hex(b'route')} 32768 1 3 27701 2a194c61bee87a7879b10a66aebaaf58a736cbd1"
    transmission = f"{long} {to_hex(b'map.bin')} 16384 3 1 40000 92d1f387738ce6eaa50ec6f103e17dd5d05c37a9"
    return [
        sample("torrent", "mktorrent.torrent", f"taken {mktorrent}"),
        sample("file", "mktorrent.torrent", f"0 0 {to_hex(b'b')}", 0),
        sample("file", "mktorrent.torrent", f"0 50000 {to_hex(b'c d')}", 1),
        sample("file", "mktorrent.torrent", f"50000 20000 {to_hex(b'rte')}/{to_hex(b'a')}", 2),
        sample("file", "mktorrent.torrent", "70000 12769 c3a9", 3),
        sample("file", "mktorrent.torrent", refused(31), 4),
        sample("torrent", "route.torrent", f"taken {route}"),
        sample("file", "route.torrent", f"1 20000 {to_hex(b'maps')}/{to_hex(b'tiles.bin')}", 1),
        sample("torrent", "map.torrent", f"taken {transmission}"),
        sample("file", "map.torrent", f"0 40000 {to_hex(b'map.bin')}", 0),
    ]


def replies():
    reason = b"Requested download is not authorized for use with this tracker."
    cases = []
    for number, interval, ports in [
        (0, 1854, [6881]),
        (1, 1782, [6881, 51413]),
        (2, 1728, [6881, 51413, 1]),
        (3, 1868, [6881, 51413, 65535, 1]),
        (4, 1741, []),
    ]:
        name = f"opentracker-{number}.reply"
        cases.append(sample("reply", name, f"taken {interval} {len(ports)}"))
        cases += [sample("peer", name, f"none 7f000001 {port}", entry) for entry, port in enumerate(ports)]
        cases.append(sample("peer", name, refused(31), len(ports)))
    return cases + [sample("reply", "opentracker-5.reply", f"failure {to_hex(reason)}")]


SMALL = {"samples": lambda: torrents() + replies()}
BIG = {}

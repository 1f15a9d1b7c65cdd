"""The one table of all benches, from what the programs of bench/ have printed.

    python3 bench/table.py FOLDER CSV

FOLDER has bench.txt, yard.txt, sha1.txt, unaided.txt and sizes.txt. All numbers go to the file CSV, in microseconds; the table is printed.
"""

import csv
import platform
import re
import sys
from pathlib import Path
from statistics import mean

COLUMNS = ["what", "size", "of", "ours_us", "peer", "peer_us", "goal"]
SHA1_BYTES = 16_777_216
CHECK_GOAL, UNAIDED_GOAL = (3, 0.88) if platform.machine() == "x86_64" else (2.5, 0.95)
# a call of the yard may take so many times as long as plain C; a piece frame has no goal
YARD_MOST = {"have": 1.1, "piece frame": None, "full bitfield": 1.3, "leave of a full truck": 1.3, "page of 2,000 seats": 1.3, "round of 2,000 seats": 1.3}


def main():
    folder, target = map(Path, sys.argv[1:])
    rows = readers((folder / "bench.txt").read_text()) + sha1(folder) + yard((folder / "yard.txt").read_text())
    sizes = [[*line.split(","), "", "", ""] for line in (folder / "sizes.txt").read_text().splitlines()]
    with open(target, "w", newline="", encoding="ascii") as file:
        out = csv.writer(file, lineterminator="\n")
        out.writerow(COLUMNS)
        out.writerows(rows + sizes)
    print("| | ours, µs | beside | its time, µs | times as fast | goal | |\n|---|---|---|---|---|---|---|")
    for what, _, _, ours, peer, theirs, goal in rows:
        ratio = theirs / ours
        wanted = f"{goal:.3g} | {'met' if ratio >= goal else '**missed**'}" if goal else "none |"
        print(f"| {what} | {shown(ours)} | {peer} | {shown(theirs)} | {ratio:.3g} | {wanted} |")


def shown(number):
    return f"{number:,.0f}" if number >= 100 else f"{number:.3g}"


def readers(said):
    """The least times of bench.cpp's nine races, of which the first two have the same text."""
    reply, walked, torrent, sheet, link, long_link, written, week, written_week = re.split(
        r"^The same, every peer|^A torrent of |^A sheet of |^A link of |^A written link of |^A week of |^A written week of ", said, flags=re.M
    )

    def row(what, text, part, name, peer, goal):
        return [what, int(found(r"(\d+) bytes", text)), "bytes", timed(part, name), peer, timed(part, peer), goal]

    return [
        row("a reply of 2,000 peers checked", reply, reply, "wardrail_check", "bdecode", CHECK_GOAL),
        row("the same, all peers looked at", reply, walked, "wardrail_reply, _listed_at", "bdecode", 1.5),
        row("a torrent of 1,024 files read", torrent, torrent, "wardrail_torrent", "torrent_info, with its hash", 10),
        row("its info hash", torrent, torrent, "wardrail_info_hash", "torrent_info, with its hash", 1.7),
        row("an address in a sheet of 8,191 rows", sheet, sheet, "wardrail_address", "bdecode, with the look-up", 2),
        row("a link read 1,000 times", link, link, "wardrail_link", "parse_magnet_uri", 2),
        row("a long link read", long_link, long_link, "wardrail_link", "parse_magnet_uri", 2),
        row("a link written 1,000 times", written, written, "wardrail_write_link", "torrent_info, make_magnet_uri", 2),
        row("a week of 256 packages read", week, week, "wardrail_week", "torrent_info of each body", 1),
        row("the same, package by package", week, week, "_week_table, _package_at", "torrent_info of each body", 1),
        row("the same, beside its hashes", week, week, "wardrail_week", "wardrail_sha1 of each body", 0.8),
        row("a week of 256 packages written", written_week, written_week, "wardrail_write_week", "torrent_info of each body", 1),
    ]


def timed(part, name):
    """The least of a row with median and least."""
    return float(found(rf"^{re.escape(name)} +[\d.]+ +([\d.]+)", part))


def found(form, said):
    hit = re.search(form, said, re.M)
    if not hit:
        sys.exit(f"bench/table.py: nothing printed is like {form}")
    return hit.group(1)


def sha1(folder):
    """Beside unrolled C, and beside OpenSSL kept from the processor's SHA instructions: the mean of the least times with the code at each place."""

    def row(file, name, peer, goal):
        races = re.split(r"^SHA-1 of ", (folder / file).read_text(), flags=re.M)
        said = [race for race in races if race.startswith("16 MiB")]
        ours, theirs = (mean([SHA1_BYTES / float(found(rf"^{way} +(\d+) MB/s", race)) for race in said]) for way in ("wardrail_sha1", name))
        return ["SHA-1 of 16 MiB", SHA1_BYTES, "bytes", ours, peer, theirs, goal]

    return [row("sha1.txt", "unrolled C", "unrolled C", 1), row("unaided.txt", "OpenSSL", "OpenSSL without SHA instructions", UNAIDED_GOAL)]


def yard(said):
    """The least of several runs, each of which prints medians."""
    rows = []
    for what, most in YARD_MOST.items():
        found(rf"^{what} +([\d.]+)", said)
        ours, theirs = (min(map(float, column)) / 1e3 for column in zip(*re.findall(rf"^{what} +([\d.]+) +([\d.]+)", said, re.M)))
        rows.append([what, 2000, "seats", ours, "plain C", theirs, most and 1 / most])
    return rows


if __name__ == "__main__":
    main()

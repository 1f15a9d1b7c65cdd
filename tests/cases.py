"""What crates/cases must print, by the second program. Its script is held to what tests/scripts/case_table.py makes, the parts of each block
are found byte by byte too, and what transmission-show says of samples/mktorrent.torrent (tests/mktorrent.show) is held against the reading of it."""

import re
import sys
from bisect import bisect_right
from itertools import accumulate
from pathlib import Path

ROOT = Path(__file__).resolve().parent.parent
sys.dont_write_bytecode = True
sys.path.insert(0, str(ROOT / "tests/scripts"))

import case_table  # noqa: E402
from case_table import replay  # noqa: E402
from replay import blocks, torrent  # noqa: E402


def byte_by_byte(lengths, start, count):
    ends = list(accumulate(lengths))
    parts = []
    for place in range(start, start + count):
        file = bisect_right(ends, place)
        if parts and parts[-1][0] == file:
            parts[-1][2] += 1
        else:
            parts.append([file, place - ends[file] + lengths[file], 1])
    return " ".join(f"{file}:{offset}:{length}" for file, offset, length in parts)


def check_block(call, answer):
    _, piece_length, lengths, piece, offset, count, _ = call.split()
    found = byte_by_byte(replay.numbers(lengths), int(piece) * int(piece_length) + int(offset), int(count))
    if answer != found:
        sys.exit(f"{call}: {answer}, and byte by byte {found}")


def check_mktorrent():
    """transmission-show's words for the same torrent: name, hash, pieces, total and files."""
    found = torrent.read((ROOT / "samples/mktorrent.torrent").read_bytes())
    shown = (ROOT / "tests/mktorrent.show").read_text(encoding="utf-8")
    said = dict(re.findall(r"^  ([A-Z][A-Za-z ]*): (.*)$", shown, re.M))
    files = re.findall(r"^  (\S.*) \((\S+ kB)\)$", shown.split("FILES")[1], re.M)
    same = [
        (said["Name"], found.name.decode()),
        (said["Hash"], found.info_hash.hex()),
        (said["Piece Count"], f"{blocks.pieces_in(found.total, found.piece_length)}"),
        (said["Piece Size"], f"{found.piece_length / 1024:.2f} KiB"),
        (said["Total Size"], f"{found.total / 1000:.2f} kB"),
        (files, [(b"/".join([found.name, *file.path]).decode(), f"{file.length / 1000:.2f} kB") for file in found.files]),
    ]
    for theirs, ours in same:
        if theirs != ours:
            sys.exit(f"transmission-show says {theirs!r}, and this reader {ours!r}")


def main():
    lines = (ROOT / "crates/cases/stdin").read_text().splitlines()
    if lines != list(case_table.script()):
        sys.exit("crates/cases/stdin is not what tests/scripts/case_table.py makes")
    check_mktorrent()
    calls = [line for line in lines if not line.startswith("#")]
    for call, answer in zip(calls, case_table.answers(lines), strict=True):
        if call.startswith("block ") and not answer.startswith("refused"):
            check_block(call, answer)
        print(answer)


main()

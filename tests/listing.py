"""What the listing program must print, by the second program's reader: of crates/listing/stdin, or of the file that is named."""

import sys
from pathlib import Path

ROOT = Path(__file__).resolve().parent.parent
sys.dont_write_bytecode = True
sys.path.insert(0, str(ROOT / "second"))

import blocks  # noqa: E402
import torrent  # noqa: E402
from refusal import Refused, refuse_unless  # noqa: E402

LONGEST_LISTED = 65_536


def listing(text):
    refuse_unless(len(text) <= LONGEST_LISTED, 8)
    read = torrent.read(text)
    pieces = blocks.pieces_in(read.total, read.piece_length)
    lines = [f"{escaped(read.name)} {len(read.files)} files {read.total} bytes {pieces} pieces of {read.piece_length}"]
    lines += [f"{file.start} {file.length} {'/'.join(map(escaped, file.path))}" for file in read.files]
    return "\n".join(lines)


def escaped(name):
    return "".join(chr(b) if 33 <= b <= 126 and b != 37 else f"%{b:02X}" for b in name)


named_file = Path(sys.argv[1]) if len(sys.argv) > 1 else ROOT / "crates/listing/stdin"
try:
    print(listing(named_file.read_bytes()))
except Refused as refusal:
    print(refusal)

"""What the link program must print, by the second program's writer: of crates/link/stdin, or of the file that is named."""

import sys
from pathlib import Path

ROOT = Path(__file__).resolve().parent.parent
sys.dont_write_bytecode = True
sys.path.insert(0, str(ROOT / "second"))

import bencode  # noqa: E402
import links  # noqa: E402
from refusal import Refused, refuse_unless  # noqa: E402

LONGEST_LINKED = 65_536


def link(text):
    refuse_unless(len(text) <= LONGEST_LINKED, 8)
    return links.write(text, bencode.LONGEST_TEXT).decode()


named_file = Path(sys.argv[1]) if len(sys.argv) > 1 else ROOT / "crates/link/stdin"
try:
    print(link(named_file.read_bytes()))
except Refused as refusal:
    print(refusal)

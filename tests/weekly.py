"""What the weekly program must print, by the second program's reader: of crates/weekly/stdin, or of the file that is named."""

import sys
from pathlib import Path

ROOT = Path(__file__).resolve().parent.parent
sys.dont_write_bytecode = True
sys.path.insert(0, str(ROOT / "second"))

import week  # noqa: E402
from refusal import Refused  # noqa: E402


def listing(file):
    packages = week.read(file)
    lines = [f"{package.info_hash.hex()} {package.files} {package.total}" for package in packages]
    files, total = sum(package.files for package in packages), sum(package.total for package in packages)
    return "\n".join([*lines, f"{len(packages)} packages {files} files {total} bytes"])


named_file = Path(sys.argv[1]) if len(sys.argv) > 1 else ROOT / "crates/weekly/stdin"
try:
    print(listing(named_file.read_bytes()))
except Refused as refusal:
    print(refusal)

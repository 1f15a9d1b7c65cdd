"""Writes the scripts of this folder, each with the answers that it has to get.

    python3 tests/scripts/make.py           the small ones, which are stored, into this folder, and crates/cases/stdin and stdout
    python3 tests/scripts/make.py FOLDER    all, the big ones too, into that folder

The cases stand in the modules beside this one, calls and answers, from documents 01 and 02.
"""

import sys
from pathlib import Path

import bencode_texts
import block_calls
import case_table
import link_texts
import page_calls
import reply_texts
import round_calls
import sample_texts
import sheet_texts
import torrent_texts
import week_texts
import wire_calls
import written_texts
import yard_calls

MODULES = [
    bencode_texts, torrent_texts, reply_texts, sheet_texts, link_texts, week_texts, block_calls, wire_calls, written_texts, yard_calls, round_calls, page_calls, sample_texts,
]


def lines_of(cases):
    for case in cases:
        if case.shown:
            yield f"# {case.shown}"
        yield case.call


def write(folder, name, cases):
    (folder / f"{name}.script").write_text("".join(f"{line}\n" for line in lines_of(cases)))
    (folder / f"{name}.expected").write_text("".join(f"{case.answer}\n" for case in cases))


def write_small(folder):
    for module in MODULES:
        for name, cases in module.SMALL.items():
            write(folder, name, cases())


def write_big(folder):
    for module in MODULES:
        for name, cases in module.BIG.items():
            write(folder, name, cases())


def main():
    if len(sys.argv) == 1:
        write_small(Path(__file__).parent)
        case_table.write(Path(__file__).parents[2] / "crates/cases")
    else:
        write_small(Path(sys.argv[1]))
        write_big(Path(sys.argv[1]))


if __name__ == "__main__":
    main()

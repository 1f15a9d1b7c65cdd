#!/usr/bin/env python3
"""Holds the headers of host/ to the sources: each export is declared with the parameters of its source, in their order and by their names; an answer
that its source writes as a row of numbers is the struct of that call, as many numbers of 64 bits with no gap; and a record that both name has the
same fields in their order. Prints C that compiles only if every field lies where the source has it.

    gcc -E -P host/wardrail_yard.h | python3 tests/header.py
"""

import re
import sys
from pathlib import Path

CRATES = Path(__file__).resolve().parent.parent / "crates"
EXPORT = re.compile(r'pub extern "C" fn (\w+)\((.*?)\)(?: -> (\w+))?\n', re.S)
RECORDS = ("Head", "Seat", "Told")
RECORD = re.compile(rf"#\[repr\(C\)\]\n(?:#\[derive\([^\n]*\)\]\n)?pub struct ({'|'.join(RECORDS)}) \{{\n(.*?)\n\}}", re.S)
DECLARED = re.compile(r"\b(uint64_t|void) (wardrail_\w+)\(([^;]*?)\);", re.S)
STRUCT = re.compile(r"struct (wardrail_\w+) \{((?:[^{}]|\{[^{}]*\})*)\};")
MEMBER = re.compile(r"union \{([^{}]*)\};|((?:struct )?\w+) ([^;{}]+);")
TYPES = {"u8": "uint8_t", "u16": "uint16_t", "u32": "uint32_t", "u64": "uint64_t", "usize": "size_t", "bool": "_Bool", None: "void"}
TYPES |= {name: f"struct wardrail_{name.lower()}" for name in RECORDS}
SIZES = {"uint8_t": 1, "uint16_t": 2, "uint32_t": 4, "uint64_t": 8}


def main():
    header = sys.stdin.read()
    structs = {f"struct {name}": list(members(body)) for name, body in STRUCT.findall(header)}
    sources = [path.read_text() for path in sorted(CRATES.glob("*/src/**/*.rt"))]
    exports = {name: (words, answer) for source in sources for name, words, answer in EXPORT.findall(source)}
    declared = {name: (answer, words) for answer, name, words in DECLARED.findall(header)}
    if not exports or exports.keys() != declared.keys():
        sys.exit(f"exported and declared differ: {sorted(exports.keys() ^ declared.keys())}")
    print('#include "host/wardrail_yard.h"')
    for name, (words, answer) in exports.items():
        if declared[name][0] != TYPES[answer or None]:
            sys.exit(f"{name} answers {answer}, and the header says {declared[name][0]}")
        check_parameters(name, list(lent_in_source(words)), [read_parameter(p) for p in declared[name][1].split(",")], structs)
    records = [match for source in sources for match in RECORD.findall(source)]
    if sorted(name for name, _ in records) != sorted(RECORDS):
        sys.exit(f"of {RECORDS} those laid out as in C are {[name for name, _ in records]}")
    for name, body in records:
        check_record(name, re.findall(r"^    pub (\w+): (\w+),", body, re.M), structs)


def members(body):
    """The fields of a struct in their order, each as its alternatives: itself alone, or the lines of a union, which lie at one place."""
    for union, kind, names in MEMBER.findall(body):
        if union:
            yield [list(fields(kind, names)) for _, kind, names in MEMBER.findall(union)]
        else:
            yield from ([[field]] for field in fields(kind, names))


def fields(kind, names):
    for name in names.split(","):
        name, count = re.fullmatch(r"\s*(\w+)(?:\[(\d+)\])?\s*", name).groups()
        yield name, kind, int(count or 1)


def numbers_in(struct, structs):
    """How many numbers of 64 bits a struct has, which may have nothing else."""
    if struct not in structs:
        sys.exit(f"{struct} is no struct of numbers of 64 bits")
    count = 0
    for alternatives in structs[struct]:
        count += max(many * (1 if kind == "uint64_t" else numbers_in(kind, structs)) for line in alternatives for _, kind, many in line)
    return count


def lent_in_source(words):
    """Each parameter as C has it: its name, its type, how many elements an array has or * or nothing, and whether it is written; a slice is two."""
    for word in filter(None, map(str.strip, words.split(","))):
        name, lent, written, kind = re.fullmatch(r"(\w+): (&?)(mut )?(.*)", word).groups()
        slice_of = re.fullmatch(r"\[(\w+)(?:; (\d+))?\]", kind)
        element, count = slice_of.groups() if slice_of else (kind, None)
        yield name, TYPES[element], count or ("*" if lent else ""), bool(written)
        if slice_of and not count:
            yield f"{name}_count", "size_t", "", False


def read_parameter(text):
    const, kind, pointer, name, count = re.fullmatch(r"\s*(const )?((?:struct )?\w+) (\*?)(\w+)(?:\[(\d+)\])?\s*", text).groups()
    return name, kind, count or pointer, bool(pointer or count) and not const


def check_parameters(name, source, header, structs):
    """The header may ask for what can be written where the source only reads, and never the other way round."""
    if len(source) != len(header):
        sys.exit(f"{name}: {len(source)} parameters in the source, {len(header)} in the header")
    for ours, theirs in zip(source, header):
        if ours[1] == "uint64_t" and ours[2].isdigit():
            check_row(f"struct {name}", int(ours[2]), structs)
            ours = theirs[0], f"struct {name}", "*", ours[3]
        if ours[:3] != theirs[:3] or (ours[3] and not theirs[3]):
            sys.exit(f"{name}: {ours} in the source, {theirs} in the header")


def check_row(struct, count, structs):
    """The struct of a call is the row that its source writes. Which field is which number, tests/compare holds: host/replay.c reads them by name."""
    if numbers_in(struct, structs) != count:
        sys.exit(f"the source writes {count} numbers, and {struct} is not as many")
    print(f'WARDRAIL_ASSERT(sizeof({struct}) == 8 * {count}, "{struct}");')


def check_record(name, ours, structs):
    """Of a union the first name is the source's."""
    struct = TYPES[name]
    ours = [(field, TYPES[kind]) for field, kind in ours]
    theirs = [alternatives[0][0] for alternatives in structs[struct]]
    if [(field, kind, 1) for field, kind in ours] != theirs:
        sys.exit(f"{name}: {ours} in the source, {theirs} in the header")
    for alternatives in structs[struct]:
        if len({kind for line in alternatives for _, kind, _ in line}) != 1:
            sys.exit(f"{name}: {alternatives} are of several types")
    at, places = 0, []
    for field, kind in ours:
        at += -at % SIZES[kind]
        places.append((field, at))
        at += SIZES[kind]
    at += -at % max(SIZES[kind] for _, kind in ours)
    print(f'WARDRAIL_ASSERT(sizeof({struct}) == {at}, "{struct}");')
    for field, offset in places:
        print(f'WARDRAIL_ASSERT(offsetof({struct}, {field}) == {offset}, "{field} of {struct}");')


if __name__ == "__main__":
    main()

#!/usr/bin/env python3
"""Draws docs/crates.svg from crates.txt: the crates in bands by wing, from what rests on nothing (left) to what rests on most (right).

A line that follows from others is left out. `tools/picture.py --check` fails where the file is not what would be drawn.
"""

import sys
from pathlib import Path

ROOT = Path(__file__).resolve().parent.parent
PICTURE = ROOT / "docs" / "crates.svg"
# A wing is its crates' first word. The first and the last stand as posts beside the bands; what has a main.rt is a program.
WINGS = {
    "refusal": "#555555",
    "bencode": "#1f6fb4",
    "hash": "#8a6d1f",
    "torrent": "#2b8a3e",
    "tracker": "#0b8a8a",
    "sheets": "#6f8f1a",
    "links": "#b4881f",
    "week": "#9a5a3c",
    "paging": "#7a4a9a",
    "peer": "#a03a8a",
    "yard": "#c0541c",
    "wardrail": "#5b4bb4",
    "programs": "#444444",
    "demands": "#b02a37",
}
FIRST, LAST = "refusal", "demands"
# a box, the steps from box to box, a post's width, and where the boxes begin
WIDE, HIGH, ACROSS, DOWN, POST, LEFT, TOP = 126, 22, 156, 30, 34, 128, 40


def main():
    picture = drawn(*crates())
    if sys.argv[1:] == ["--check"]:
        if not PICTURE.exists() or PICTURE.read_text() != picture:
            sys.exit("tools/picture.py: docs/crates.svg is not what crates.txt gives; tools/picture.py draws it")
        print("tools/picture.py: docs/crates.svg is drawn from crates.txt")
    elif sys.argv[1:]:
        sys.exit("usage: tools/picture.py [--check]")
    else:
        PICTURE.write_text(picture)


def crates():
    """Each crate's wing, and the crates that it rests on but through no other."""
    lines = [line.replace(" staticlib", "").split(":") for line in (ROOT / "crates.txt").read_text().splitlines() if line.strip() and not line.startswith("#")]
    known = {name for name, _ in lines}
    wings, below, rests = {}, {}, {}
    for name, listed in lines:
        wings[name] = "programs" if (ROOT / "crates" / name / "src" / "main.rt").exists() else name.split("_")[0]
        if wings[name] not in WINGS:
            sys.exit(f"tools/picture.py: {name} is of no wing")
        named = [other for other in listed.split() if other in known]
        below[name] = set(named).union(*(below[other] for other in named))
        rests[name] = [other for other in named if not any(other in below[further] for further in named)]
    return wings, rests


def drawn(wings, rests):
    levels = {}
    for name in rests:
        levels[name] = 1 + max((levels[other] for other in rests[name]), default=-1)
    boxes, bands, bottom = {}, [], TOP
    for wing in WINGS:
        rows = rows_of([name for name in rests if wings[name] == wing], rests, levels)
        if rows and wing not in (FIRST, LAST):
            high = (1 + max(rows.values())) * DOWN + 10
            bands.append((wing, bottom, high))
            for name, row in rows.items():
                boxes[name] = (LEFT + (levels[name] - 1) * ACROSS, bottom + 9 + row * DOWN, WIDE, HIGH)
            bottom += high + 5
    end = max(x for x, *_ in boxes.values()) + WIDE
    posts = [name for name in rests if wings[name] == LAST]
    for name in rests:
        if wings[name] == FIRST:
            boxes[name] = (12, TOP, POST, bottom - 5 - TOP)
        elif wings[name] == LAST:
            boxes[name] = (end + 28 + posts.index(name) * (POST + 26), TOP, POST, bottom - 5 - TOP)
    width, height = max(x + w for x, _, w, _ in boxes.values()) + 12, bottom + 24

    parts = [f'<svg xmlns="http://www.w3.org/2000/svg" viewBox="0 0 {width} {height}" width="{width}" height="{height}" font-family="sans-serif" font-size="13" fill="#222">']
    parts.append(f'<rect width="{width}" height="{height}" fill="white"/>')
    parts.append('<text x="12" y="24" font-size="16" font-weight="bold">The crates, and what rests on what</text>')
    for wing, top, high in bands:
        parts.append(f'<rect x="56" y="{top}" width="{end - 48}" height="{high}" rx="6" fill="{WINGS[wing]}" fill-opacity="0.08"/>')
        parts.append(f'<text x="62" y="{top + 13}" font-size="12" font-weight="bold" fill="{WINGS[wing]}">{wing}</text>')
    parts += [line(boxes, other, name, WINGS[wings[other]]) for name in rests for other in rests[name]]
    parts += [box(name, WINGS[wings[name]], *boxes[name]) for name in rests]
    parts.append(f'<text x="12" y="{bottom + 14}">A crate rests on those that its lines come from, on its left, and on what those rest on. Dashed: definitions and laws, no code.</text>')
    return "\n".join(parts + ["</svg>"]) + "\n"


def rows_of(band, rests, levels):
    """A row for each crate of a band: that of a crate it rests on, where that is free."""
    rows = {}
    taken = set()
    for name in sorted(band, key=lambda n: levels[n]):
        wanted = [rows[other] for other in rests[name] if other in rows]
        rows[name] = next(row for row in wanted + list(range(len(band))) if (row, levels[name]) not in taken)
        taken.add((rows[name], levels[name]))
    return rows


def line(boxes, below, above, shade):
    """From the right side of the one to the left side of the other, below the row where a box stands between; a post is met straight on."""
    x, y = boxes[below][0] + boxes[below][2], middle(boxes[below])
    u, v = boxes[above][0], middle(boxes[above])
    if boxes[below][3] > HIGH and boxes[above][3] == HIGH:
        y = v
    elif boxes[above][3] > HIGH:
        v = y
    between = any(x <= left < u and middle(b) == y for b in boxes.values() for left in [b[0]])
    if y == v and between:
        lane = y + DOWN / 2
        last = lane if boxes[above][3] > HIGH else v
        way = f"C{x + 12:g} {y:g} {x + 8:g} {lane:g} {x + 20:g} {lane:g} L{u - 20:g} {lane:g} C{u - 8:g} {lane:g} {u - 12:g} {last:g} {u:g} {last:g}"
    else:
        bend = min(60, (u - x) * 0.6)
        way = f"C{x + bend:g} {y:g} {u - bend:g} {v:g} {u:g} {v:g}"
    return f'<path d="M{x:g} {y:g} {way}" fill="none" stroke="{shade}" stroke-width="1.4" stroke-opacity="0.8"/>'


def middle(place):
    return place[1] + place[3] / 2


def box(name, shade, x, y, wide, high):
    dashed = ' stroke-dasharray="5 3"' if name.endswith("_laws") or name.startswith("demands") else ""
    turned = f' transform="rotate(-90 {x + wide / 2:g} {y + high / 2:g})"' if high > HIGH else ""
    return (
        f'<rect x="{x}" y="{y}" width="{wide}" height="{high}" rx="4" fill="white" stroke="{shade}" stroke-width="1.6"{dashed}/>\n'
        f'<text x="{x + wide / 2:g}" y="{y + high / 2 + 4.5:g}" text-anchor="middle"{turned}>{name}</text>'
    )


if __name__ == "__main__":
    main()

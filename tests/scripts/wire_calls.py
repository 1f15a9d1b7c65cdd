"""Frames and the handshake: each id at its edges, cut anywhere, joined, and written."""

from notation import case, refused, to_hex

# id: the least and the most length, which counts the id and not the prefix.
LENGTHS = {
    0: (1, 1), 1: (1, 1), 2: (1, 1), 3: (1, 1), 4: (5, 5), 5: (2, 2049), 6: (13, 13), 7: (10, 16393), 8: (13, 13),
}
LONGEST = 16393
PROTOCOL = b"\x13BitTorrent protocol"
HASH, PEER_ID = bytes(range(20)), b"-WR0001-truck0000001"


def frame_of(frame_id, length):
    payload = bytes(number % 251 for number in range(length - 1))
    return length.to_bytes(4, "big") + bytes([frame_id]) + payload


def read(data, answer):
    return case(f"frame {to_hex(data)}", answer)


def taken(frame, after=b""):
    return read(frame + after, f"taken {len(frame)} {frame[4]} {to_hex(frame[5:])}")


def lengths(most_stored):
    """Each id at its shortest and longest, and one byte off; only those up to that length."""
    cases = []
    for frame_id, (least, most) in LENGTHS.items():
        for length in sorted({least - 1, least, least + 1, most - 1, most, most + 1} - {0, LONGEST + 1}):
            if length <= most_stored:
                frame = frame_of(frame_id, length)
                cases.append(taken(frame) if least <= length <= most else read(frame, refused(21)))
    return cases


def cuts(frame, every=1):
    """A frame cut after so many bytes waits; whole, with others behind it, it is taken alone."""
    cases = [read(frame[:end], "wait") for end in range(0, len(frame), every)]
    return cases + [read(frame[:-1], "wait"), taken(frame), taken(frame, frame), taken(frame, b"\xff" * 9)]


def small_frames():
    cases = [
        read(b"", "wait"),
        read(b"\0\0\0", "wait"),
        read(b"\xff\xff\xff", "wait"),
        read(bytes(4), "taken 4 keepalive -"),
        read(bytes(8), "taken 4 keepalive -"),
        read(b"\0\0\x40\x0a", refused(20)),
        read(b"\0\0\x40\x09", "wait"),
        read(b"\0\1\0\0", refused(20)),
        read(b"\xff\xff\xff\xff\0", refused(20)),
        read(b"\0\0\0\1", "wait"),
        taken(frame_of(9, 1)),
        taken(frame_of(9, 30)),
        taken(frame_of(20, 100)),
        taken(frame_of(255, 1)),
        read(frame_of(0, 2)[:5], "wait"),
        read(b"\0\0\0\5\0", "wait"),
    ]
    cases += lengths(30)
    for frame_id in range(9):
        cases += cuts(frame_of(frame_id, LENGTHS[frame_id][0]))
    return cases


def long_frames():
    longest = frame_of(7, LONGEST)
    return [
        *lengths(LONGEST),
        *cuts(longest, every=997),
        *cuts(frame_of(5, 2049), every=101),
        taken(frame_of(200, LONGEST)),
        read((LONGEST + 1).to_bytes(4, "big") + longest[4:] + b"x", refused(20)),
    ]


def handshakes():
    free = bytes([0, 0, 0, 0, 0, 16, 0, 5])
    whole = PROTOCOL + free + HASH + PEER_ID
    answer = f"taken {to_hex(free)} {to_hex(PEER_ID)}"

    def shake(data, answer, info_hash=HASH):
        return case(f"handshake {to_hex(data)} {to_hex(info_hash)}", answer)

    cases = [shake(whole[:end], "wait") for end in range(68)]
    cases += [shake(whole, answer), shake(whole + b"more", answer)]
    for at in range(20):
        wrong = whole[:at] + bytes([whole[at] ^ 32]) + whole[at + 1 :]
        cases += [shake(wrong, refused(22)), shake(wrong[: at + 1], refused(22)), shake(wrong[:at], "wait")]
    cases += [
        shake(whole, refused(23), HASH[::-1]),
        shake(whole, refused(23), HASH[:19] + b"\0"),
        shake(whole[:67], "wait", HASH[::-1]),
        shake(b"\x13Bittorrent protocol", refused(22)),
        shake(b"\x13BitTorrent Protocol" + whole[20:], refused(22)),
        shake(b"\x12" + whole[1:], refused(22), HASH[::-1]),
    ]
    return cases


def written_frames():
    def write(frame_id, payload, room, answer):
        return case(f"write-frame {frame_id} {to_hex(payload)} {room}", answer)

    cases = [
        write("keepalive", b"", 4, "00000000"),
        write("keepalive", b"", 100, "00000000"),
        write("keepalive", b"", 3, refused(37)),
        write("keepalive", b"", 0, refused(37)),
        write(7, bytes(8), 0, refused(21)),
        write(0, b"\0", 0, refused(21)),
    ]
    for frame_id, (least, most) in LENGTHS.items():
        frame = frame_of(frame_id, least)
        cases += [
            write(frame_id, frame[5:], len(frame), to_hex(frame)),
            write(frame_id, frame[5:], len(frame) + 9, to_hex(frame)),
            write(frame_id, frame[5:], len(frame) - 1, refused(37)),
        ]
        if least == most:
            cases.append(write(frame_id, bytes(least), 999, refused(21)))
        if least > 1:
            cases.append(write(frame_id, bytes(least - 2), 999, refused(21)))
    return cases


def written_long_frames():
    block = bytes(number % 253 for number in range(16384))
    body = bytes(8) + block
    frame = LONGEST.to_bytes(4, "big") + b"\7" + body
    return [
        case(f"write-frame 7 {to_hex(body)} 16397", to_hex(frame)),
        case(f"write-frame 7 {to_hex(body)} 16396", refused(37)),
        case(f"write-frame 7 {to_hex(body)}00 20000", refused(20)),
        case(f"write-frame 0 {to_hex(body)} 20000", refused(21)),
        case(f"write-frame 0 {to_hex(body)}00 0", refused(20)),
        case(f"write-frame 5 {to_hex(bytes(2048))} 2053", to_hex(frame_of(5, 2049)[:5] + bytes(2048))),
        case(f"write-frame 5 {to_hex(bytes(2049))} 3000", refused(21)),
    ]


def written_handshakes():
    whole = to_hex(PROTOCOL + bytes(8) + HASH + PEER_ID)
    call = f"write-handshake {to_hex(HASH)} {to_hex(PEER_ID)}"
    return [
        case(f"{call} 68", whole),
        case(f"{call} 69", whole),
        case(f"{call} 67", refused(37)),
        case(f"{call} 0", refused(37)),
        case(f"handshake {whole} {to_hex(HASH)}", f"taken 0000000000000000 {to_hex(PEER_ID)}"),
    ]


SMALL = {
    "frames": small_frames,
    "handshakes": lambda: handshakes() + written_handshakes(),
    "frames-written": written_frames,
}
BIG = {"frames-long": lambda: long_frames() + written_long_frames()}

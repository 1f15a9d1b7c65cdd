"""Where a block falls: document 01's blocks, each number rule, each refusal, and content cut in odd ways."""

from notation import case, refused

PACKAGE = [20000, 0, 12769]
LARGEST = 274_877_906_944


def block(lengths, piece, offset, length, answer, room=1024, piece_length=16384):
    listed = ",".join(map(str, lengths)) or "-"
    return case(f"block {piece_length} {listed} {piece} {offset} {length} {room}", answer)


def byte(lengths, file, offset, answer, piece_length=16384):
    listed = ",".join(map(str, lengths)) or "-"
    return case(f"byte {piece_length} {listed} {file} {offset}", answer)


def document():
    return [
        block(PACKAGE, 1, 0, 16384, "0:16384:3616 2:0:12768"),
        block(PACKAGE, 2, 0, 1, "2:12768:1"),
        block(PACKAGE, 2, 0, 2, refused(34)),
        block(PACKAGE, 3, 0, 1, refused(31)),
        byte(PACKAGE, 2, 0, "1 3616"),
        byte(PACKAGE, 1, 0, refused(34)),
    ]


def edges():
    return [
        block(PACKAGE, 0, 0, 16384, "0:0:16384"),
        block(PACKAGE, 0, 16383, 1, "0:16383:1"),
        block(PACKAGE, 1, 3615, 1, "0:19999:1"),
        block(PACKAGE, 1, 3616, 1, "2:0:1"),
        block(PACKAGE, 1, 3615, 2, "0:19999:1 2:0:1"),
        block(PACKAGE, 0, 0, 0, refused(34)),
        block(PACKAGE, 0, 0, 16385, refused(34)),
        block(PACKAGE, 0, 1, 16384, refused(34)),
        block(PACKAGE, 0, 16384, 1, refused(34)),
        block(PACKAGE, 0, 16383, 2, refused(34)),
        block(PACKAGE, 2, 1, 1, refused(34)),
        block(PACKAGE, 0, 4294967295, 1, refused(34)),
        block(PACKAGE, 0, 4294967296, 1, refused(34)),
        block(PACKAGE, 0, 0, 4294967295, refused(34)),
        block(PACKAGE, 0, 0, 4294967296, refused(34)),
        block(PACKAGE, 0, 4294967295, 4294967295, refused(34)),
        block(PACKAGE, 4294967295, 0, 1, refused(31)),
        block(PACKAGE, 4294967296, 0, 1, refused(31)),
        block(PACKAGE, 3, 0, 0, refused(31)),
        block(PACKAGE, 1, 0, 16384, "0:16384:3616 2:0:12768", room=2),
        block(PACKAGE, 1, 0, 16384, refused(37), room=1),
        block(PACKAGE, 1, 0, 16384, refused(37), room=0),
        block(PACKAGE, 0, 0, 1, refused(37), room=0),
        block(PACKAGE, 2, 0, 2, refused(34), room=0),
        block(PACKAGE, 3, 0, 1, refused(31), room=0),
        block(PACKAGE, 1, 0, 1, refused(31), piece_length=65536),
        block(PACKAGE, 0, 16385, 16384, "0:16385:3615 2:0:12769", piece_length=65536),
        block(PACKAGE, 0, 16386, 16384, refused(34), piece_length=65536),
    ]


def rules():
    wrong = [0, 1, 8192, 16383, 16385, 24576, 33554432, 4294967296, 4294983680, 2**63]
    return [
        *[block(PACKAGE, 9, 0, 1, refused(11), piece_length=number) for number in wrong],
        *[byte(PACKAGE, 9, 0, refused(11), piece_length=number) for number in wrong[:4]],
        block([], 0, 0, 1, refused(11)),
        block([0], 0, 0, 1, refused(11)),
        block([0, 0, 0], 0, 0, 1, refused(11)),
        byte([0, 0, 0], 0, 0, refused(11)),
        block([1] * 1024, 0, 0, 1, "0:0:1"),
        block([1] * 1025, 0, 0, 1, refused(11)),
        block([LARGEST], 0, 0, 1, refused(11)),
        block([LARGEST], 16383, 16777215, 1, f"0:{LARGEST - 1}:1", piece_length=16777216),
        block([LARGEST], 16384, 0, 1, refused(31), piece_length=16777216),
        block([LARGEST + 1], 0, 0, 1, refused(11), piece_length=16777216),
        block([LARGEST, 1], 0, 0, 1, refused(11), piece_length=16777216),
        block([LARGEST, 0], 0, 0, 1, "0:0:1", piece_length=16777216),
        block([LARGEST] * 1024, 0, 0, 1, refused(11), piece_length=16777216),
        block([2**64 - 1, 1], 0, 0, 1, refused(11)),
        block([2**63, 2**63, 5], 0, 0, 1, refused(11)),
        block([16384 * 16384], 16383, 16383, 1, f"0:{16384 * 16384 - 1}:1"),
        block([16384 * 16384, 1], 0, 0, 1, refused(11)),
        byte([LARGEST], 0, LARGEST - 1, "16383 16777215", piece_length=16777216),
        byte([LARGEST], 0, LARGEST, refused(34), piece_length=16777216),
    ]


def odd_content():
    ones = [1] * 1024
    hollow = [0, 0, 0, 16384, 0, 0, 1, 0, 0]
    return [
        block(ones, 0, 0, 1024, " ".join(f"{file}:0:1" for file in range(1024))),
        block(ones, 0, 0, 1024, refused(37), room=1023),
        block(ones, 0, 1023, 1, "1023:0:1"),
        block(ones, 0, 1000, 3, "1000:0:1 1001:0:1 1002:0:1"),
        block(ones, 0, 0, 1025, refused(34)),
        block(hollow, 0, 0, 16384, "3:0:16384"),
        block(hollow, 1, 0, 1, "6:0:1"),
        block(hollow, 1, 0, 2, refused(34)),
        byte(hollow, 0, 0, refused(34)),
        byte(hollow, 3, 0, "0 0"),
        byte(hollow, 3, 16383, "0 16383"),
        byte(hollow, 3, 16384, refused(34)),
        byte(hollow, 4, 0, refused(34)),
        byte(hollow, 6, 0, "1 0"),
        byte(hollow, 8, 0, refused(34)),
        byte(hollow, 9, 0, refused(31)),
        byte(hollow, 4294967296, 0, refused(31)),
        byte(hollow, 6, 4294967296, refused(34)),
        byte(ones, 1023, 0, "0 1023"),
        byte(PACKAGE, 2, 12768, "2 0"),
        byte(PACKAGE, 0, 16384, "1 0"),
        byte(PACKAGE, 0, 20000, refused(34)),
        byte(PACKAGE, 3, 0, refused(31)),
    ]


SMALL = {"blocks-document": document, "blocks": lambda: edges() + rules() + odd_content()}
BIG = {}

"""The number rules for torrents, and where a block or a byte of a file falls."""

from refusal import refuse_unless

PIECE_LENGTHS = [2**power for power in range(14, 25)]
LONGEST_FILE = 274_877_906_944
MOST_FILES = 1_024
MOST_PIECES = 16_384
LONGEST_BLOCK = 16_384


def is_piece_length(number):
    return number in PIECE_LENGTHS


def is_file_length(number):
    return 0 <= number <= LONGEST_FILE


def is_file_count(number):
    return 1 <= number <= MOST_FILES


def is_total(total, piece_length):
    return total >= 1 and pieces_in(total, piece_length) <= MOST_PIECES


def pieces_in(total, piece_length):
    """The total divided by the piece length, rounded up."""
    return (total + piece_length - 1) // piece_length


def length_of_piece(piece, total, piece_length):
    """The last piece may be short."""
    return min(piece_length, total - piece * piece_length)


def check_block(offset, length, length_of_its_piece):
    refuse_unless(1 <= length <= LONGEST_BLOCK, 34)
    refuse_unless(offset + length <= length_of_its_piece, 34)


def check_content(piece_length, lengths):
    refuse_unless(is_piece_length(piece_length), 11)
    refuse_unless(is_file_count(len(lengths)), 11)
    refuse_unless(all(is_file_length(length) for length in lengths), 11)
    refuse_unless(is_total(sum(lengths), piece_length), 11)


def parts_of_block(piece_length, lengths, piece, offset, length, room):
    """The parts of a block as (file, offset in that file, length)."""
    check_content(piece_length, lengths)
    total = sum(lengths)
    refuse_unless(piece < pieces_in(total, piece_length), 31)
    check_block(offset, length, length_of_piece(piece, total, piece_length))
    first = piece * piece_length + offset
    parts = list(parts_between(lengths, first, first + length))
    refuse_unless(len(parts) <= room, 37)
    return parts


def parts_between(lengths, first, end):
    """The parts of files that lie in the content from offset first up to offset end."""
    start = 0
    for file, length in enumerate(lengths):
        part_first = max(first, start)
        part_end = min(end, start + length)
        if part_first < part_end:
            yield file, part_first - start, part_end - part_first
        start += length


def piece_of_byte(piece_length, lengths, file, offset):
    """The piece in which a byte of a file lies, and its offset there."""
    check_content(piece_length, lengths)
    refuse_unless(file < len(lengths), 31)
    refuse_unless(offset < lengths[file], 34)
    return divmod(sum(lengths[:file]) + offset, piece_length)

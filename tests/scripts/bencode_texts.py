"""Bencode: document 01's texts, and every cause of refusal at its edges."""

from notation import BELOW_FORTY, FORTY, dictionary, faulty, integer, refused, string, text_case

LONGEST_TEXT = 1_048_576


def taken(text, count):
    return text_case("bencode", text, f"taken {count}")


def bad(number, marked):
    return faulty("bencode", number, marked)


def at(text, number, place):
    return text_case("bencode", text, refused(number, place))


def texts_to_try():
    return [
        taken(b"i-3e", 1),
        at(b"i-0e", 2, 2),
        at(b"i03e", 2, 2),
        taken(b"d3:cow3:moo4:spam4:eggse", 5),
        at(b"d4:spam4:eggs3:cow3:mooe", 3, 13),
        at(b"d1:a0:1:a0:e", 3, 6),
        at(b"", 1, 0),
        at(b"4:spa", 1, 5),
        at(b"00:", 2, 1),
        at(b"lee", 7, 2),
        taken(b"i9223372036854775807e", 1),
        taken(b"i9223372036854775808e", 1),
        taken(b"l" * 32 + b"e" * 32, 32),
        at(b"l" * 33 + b"e" * 33, 5, 32),
    ]


def integers():
    return [
        taken(b"i0e", 1),
        taken(b"i10e", 1),
        taken(b"i-9223372036854775808e", 1),
        taken(b"i-9223372036854775809e", 1),
        taken(b"i9999999999999999999e", 1),
        taken(b"i18446744073709551616e", 1),
        taken(b"i18446744073709551617e", 1),
        bad(2, b"i-^-1e"),
        bad(2, b"i-^e"),
        bad(2, b"i^e"),
        bad(2, b"i^+1e"),
        bad(2, b"i1^:"),
        bad(2, b"i1^-e"),
        bad(2, b"i0^0e"),
        bad(2, b"i0^:"),
        bad(1, b"i^"),
        bad(1, b"i-^"),
        bad(1, b"i-1^"),
        bad(1, b"i0^"),
        bad(7, b"i0e^e"),
    ]


def walked(text, *seen):
    return text_case("walk", text, " ".join(seen))


def long_integers():
    """Integers outside 64 bits are values as others are: by the number of their digits, cut off or with a byte that cannot stand there, and among others."""
    long, digits = FORTY[:-1], FORTY[1:-1].decode()
    edges = [edge + step for edge in (2**63, 2**64, 2**128) for step in (-1, 0, 1)]
    return [
        *[taken(integer(sign * number), 1) for number in edges for sign in (1, -1)],
        *[taken(b"i" + b"9" * count + b"e", 1) for count in (18, 20, 21, 39, 40, 41, 500)],
        *[taken(b"i-1" + b"0" * count + b"e", 1) for count in (18, 19, 20, 39, 500)],
        taken(FORTY, 1),
        taken(BELOW_FORTY, 1),
        bad(1, long + b"^"),
        bad(1, b"i-" + long[1:] + b"^"),
        bad(2, long + b"^x"),
        bad(2, long + b"^-e"),
        bad(2, long + b"^:"),
        bad(2, long + b"^i1e"),
        bad(2, b"i-^-" + long[1:] + b"e"),
        bad(2, b"i^+" + long[1:] + b"e"),
        bad(2, b"i0^" + long[1:] + b"e"),
        bad(2, b"i-^0" + long[1:] + b"e"),
        bad(2, b"i0^" + b"0" * 39 + b"e"),
        bad(7, FORTY + b"^e"),
        bad(7, BELOW_FORTY + b"^1:a"),
        bad(7, FORTY + b"^" + FORTY),
        taken(b"l" + FORTY + b"e", 2),
        taken(b"l" + FORTY + BELOW_FORTY + b"i1e0:" + FORTY + b"e", 6),
        bad(1, b"l" + FORTY + b"^"),
        bad(2, b"l" + FORTY + b"^xe"),
        bad(2, b"l" + FORTY + b"i-^0ee"),
        taken(b"d1:a" + FORTY + b"1:b" + BELOW_FORTY + b"e", 5),
        taken(b"d40:" + FORTY[1:-1] + FORTY + b"e", 3),
        bad(2, b"d^" + FORTY + b"0:e"),
        bad(3, b"d1:b" + FORTY + b"^1:a0:e"),
        bad(3, b"d1:a" + FORTY + b"^1:a" + FORTY + b"e"),
        taken(b"l" * 32 + FORTY + b"e" * 32, 33),
        bad(5, b"l" * 32 + FORTY + b"^le" + b"e" * 32),
        walked(FORTY, "n" + digits),
        walked(BELOW_FORTY, "n-" + digits),
        walked(b"i9223372036854775807e", "i9223372036854775807"),
        walked(b"i9223372036854775808e", "n9223372036854775808"),
        walked(b"i-9223372036854775808e", "i-9223372036854775808"),
        walked(b"i-9223372036854775809e", "n-9223372036854775809"),
        walked(b"d1:a" + FORTY + b"1:bli5e" + BELOW_FORTY + b"ee", "d", "s61", "n" + digits, "s62", "l", "i5", "n-" + digits, "e", "e"),
        walked(FORTY + long, "n" + digits, refused(1, 83)),
        walked(FORTY + b"i-0e", "n" + digits, refused(2, 44)),
    ]


def strings():
    return [
        taken(b"0:", 1),
        taken(b"1:e", 1),
        taken(b"10:0123456789", 1),
        bad(1, b"0^"),
        bad(1, b"1^"),
        bad(1, b"1:^"),
        bad(1, b"12^"),
        bad(1, b"9999999999999999999999:a^"),
        bad(1, b"18446744073709551617:a^"),
        bad(2, b"9999999999999999999999^e"),
        bad(2, b"0^1:a"),
        bad(2, b"1^e"),
        bad(2, b"^-1:a"),
        bad(2, b"^:"),
        bad(2, b"^e"),
        bad(2, b"^ 1:a"),
        bad(2, b"^\xff"),
        bad(2, b"^I1e"),
        bad(2, b"1^;a"),
        bad(7, b"1:a^b"),
        bad(7, b"0:^\0"),
    ]


def lists_and_dictionaries():
    return [
        taken(b"le", 1),
        taken(b"de", 1),
        taken(b"li1e1:aledee", 5),
        taken(b"d0:0:1:a0:e", 5),
        taken(b"d1:ad1:ad1:aleeee", 7),
        taken(b"ld1:aleed1:aleee", 7),
        bad(1, b"l^"),
        bad(1, b"d^"),
        bad(1, b"li1e^"),
        bad(1, b"d1:a^"),
        bad(1, b"d1:a0:^"),
        bad(1, b"d2:a^"),
        bad(2, b"d^i1e0:e"),
        bad(2, b"d^le0:e"),
        bad(2, b"d1:a^e"),
        bad(2, b"d1:a1:b^x"),
        bad(2, b"l^:e"),
        bad(2, b"d0^1:a0:e"),
        bad(7, b"de^de"),
        bad(7, b"d1:a0:e^0:"),
    ]


def keys():
    return [
        taken(b"d1:a0:2:aa0:1:b0:e", 7),
        taken(b"d1:B0:1:a0:e", 5),
        taken(b"d2:bb0:3:bba0:1:c0:e", 7),
        taken(b"d1:\x7f0:1:\x800:1:\xff0:e", 7),
        taken(b"d1:a0:2:a\x000:e", 5),
        bad(3, b"d2:aa0:^1:a0:e"),
        bad(3, b"d1:a0:^1:B0:e"),
        bad(3, b"d1:b0:^2:aa0:e"),
        bad(3, b"d1:\x800:^1:\x7f0:e"),
        bad(3, b"d0:0:^0:0:e"),
        bad(3, b"d1:b0:^1:a"),
        bad(1, b"d1:b0:1:^"),
        bad(2, b"d1:b0:1^e"),
        bad(3, b"d1:b0:^1:ax"),
        bad(3, b"ld1:ad1:b0:^1:b0:eee"),
    ]


def levels():
    dictionaries = b"d1:a" * 32 + b"0:" + b"e" * 32
    return [
        taken(dictionaries, 65),
        bad(5, b"d1:a" * 32 + b"^d1:a0:e" + b"e" * 32),
        bad(5, b"d1:a" * 32 + b"^le" + b"e" * 32),
        taken(b"l" * 32 + b"i1e0:" + b"e" * 32, 34),
        bad(5, b"l" * 32 + b"^l"),
        bad(2, b"l" * 32 + b"^x"),
        bad(1, b"l" * 32 + b"^"),
        taken(b"l" + (b"l" * 31 + b"e" * 31) * 3 + b"e", 94),
    ]


def counts():
    full = b"l" + b"0:" * 16383
    return [
        taken(full + b"e", 16384),
        at(full + b"0:e", 6, 32767),
        bad(6, full + b"^le"),
        bad(2, full + b"^x"),
        bad(1, full + b"^"),
        taken(b"l" * 31 + b"0:" * 16353 + b"e" * 31, 16384),
        bad(6, b"l" * 32 + b"0:" * 16352 + b"^l" + b"e" * 33),
        bad(5, b"l" * 32 + b"0:" * 16351 + b"^l" + b"e" * 33),
        taken(b"l" + b"de" * 16383 + b"e", 16384),
        bad(6, b"l" + b"0:" * 16382 + b"d^1:a0:ee"),
        bad(6, b"l" + b"0:" * 16381 + b"d1:a^0:ee"),
        bad(6, b"l" + b"0:" * 16379 + b"d1:b0:1:c^0:ee"),
        bad(3, b"l" + b"0:" * 16379 + b"d1:b0:^1:a0:ee"),
        taken(full[:-2] + FORTY + b"e", 16384),
        bad(6, full + b"^" + FORTY + b"e"),
        bad(6, full[:-2] + FORTY + b"^0:e"),
        taken(b"l" + FORTY * 16383 + b"e", 16384),
        bad(6, b"l" + FORTY * 16383 + b"^" + BELOW_FORTY + b"e"),
    ]


def long_texts():
    longest = string(b"a" * (LONGEST_TEXT - 8))
    long_key = b"k" * 500_000
    digits = b"9" * (LONGEST_TEXT - 2)
    return [
        taken(longest, 1),
        at(longest + b"a", 8, 0),
        at(b"x" * (LONGEST_TEXT + 1), 8, 0),
        at(b"x" * LONGEST_TEXT, 2, 0),
        at(b"9" * LONGEST_TEXT, 1, LONGEST_TEXT),
        at(b"9" * 5000 + b":a", 1, 5002),
        at(b"9" * 5000 + b"e", 2, 5000),
        taken(b"i" + digits + b"e", 1),
        taken(b"i-" + digits[1:] + b"e", 1),
        taken(b"li" + digits[2:] + b"ee", 2),
        taken(b"d1:ai" + digits[5:] + b"ee", 3),
        taken(b"li" + digits[: LONGEST_TEXT // 2 - 3] + b"ei-" + digits[: LONGEST_TEXT // 2 - 4] + b"ee", 3),
        at(b"i9" + digits + b"e", 8, 0),
        at(b"i-" + digits, 1, LONGEST_TEXT),
        at(b"i" + digits + b"x", 2, LONGEST_TEXT - 1),
        at(b"i-0" + digits[1:], 2, 2),
        at(b"i" + digits[1:] + b"ee", 7, LONGEST_TEXT - 1),
        taken(dictionary({long_key + b"a": b"0:", long_key + b"b": b"0:"}), 5),
        bad(3, b"d" + string(long_key) + b"0:^" + string(long_key) + b"0:e"),
        bad(1, b"d" + string(long_key) + b"0:500000:" + long_key[1:] + b"^"),
    ]


SMALL = {
    "bencode-texts-to-try": texts_to_try,
    "bencode": lambda: integers() + long_integers() + strings() + lists_and_dictionaries() + keys() + levels(),
}
BIG = {"bencode-counts": counts, "bencode-long": long_texts}

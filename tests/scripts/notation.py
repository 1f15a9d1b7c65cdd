"""How cases are written down: a call of docs/REPLAY.md beside the answer that documents 01 and 02 give it.

A text that is refused carries the mark ^ where the place of the refusal is; the mark is no part of the text.
"""

from collections import namedtuple

MARK = b"^"
LONGEST_SHOWN = 160

# shown: what the script says of the call in a line of comment, "" for nothing.
Case = namedtuple("Case", "shown call answer")


def to_hex(data):
    return data.hex() or "-"


def show(text):
    """The text for a reader, bytes outside 32 to 126 as % and two digits; "" if it is long."""
    if len(text) > LONGEST_SHOWN:
        return ""
    return "".join(chr(byte) if 32 <= byte <= 126 else f"%{byte:02X}" for byte in text) or "(no bytes)"


def case(call, answer, shown=""):
    return Case(shown, call, answer)


def refused(number, place=0):
    return f"refused {number} at {place}"


def text_case(call, text, answer, *words):
    return Case(show(text), " ".join([call, to_hex(text), *map(str, words)]), answer)


def faulty(call, number, marked, *words):
    """A text refused by that number at its mark."""
    assert marked.count(MARK) == 1, marked
    return text_case(call, marked.replace(MARK, b""), refused(number, marked.index(MARK)), *words)


def string(content):
    return b"%d:%s" % (len(content), content)


def integer(number):
    return b"i%de" % number


# Integers outside 64 bits: of forty digits, and of a hundred thousand.
FORTY, BELOW_FORTY = (b"i" + sign + b"1" * 40 + b"e" for sign in (b"", b"-"))
HUGE, BELOW_HUGE = (b"i" + sign + b"1" * 100_000 + b"e" for sign in (b"", b"-"))


def outside(number):
    """Integers outside 64 bits: the first past each end, of forty digits, and those that have this number in their lowest bits, their last digits or
    their first ones."""
    alike = [number + 2**64, number - 2**64, number + 2**128, number + 10**39, number * 10**30]
    return [integer(2**63), integer(-(2**63) - 1), FORTY, BELOW_FORTY, *map(integer, alike)]


def dictionary(entries):
    """The encoding of entries that are encoded themselves; a key without a value, None, is left out."""
    present = sorted((key, value) for key, value in entries.items() if value is not None)
    return b"d" + b"".join(string(key) + value for key, value in present) + b"e"

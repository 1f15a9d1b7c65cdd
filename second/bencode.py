"""Bencode: a text is read from left to right into values that know where they stand.

The content of a value is bytes for a string, an int for an integer, its sign and digits for one outside 64 bits, a list
of values for a list, and a dict from key to value for a dictionary.
"""

import re
from collections import namedtuple

from refusal import Refused, refuse_unless

LONGEST_TEXT = 1_048_576
MOST_VALUES = 16_384
DEEPEST_LEVEL = 32
# What 64 bits hold.
SMALLEST, LARGEST = -(2**63), 2**63 - 1

STRING, INTEGER, LIST, DICTIONARY = "string", "integer", "list", "dictionary"

DIGITS = re.compile(rb"[0-9]*")

# place: offset of its first byte; end: offset past its last one.
Value = namedtuple("Value", "kind place end content")


def read(text):
    """The text's one value and the count of values in it."""
    refuse_unless(len(text) <= LONGEST_TEXT, 8)
    reader = Reader(text)
    value = reader.value(1)
    refuse_unless(reader.at == len(text), 7, reader.at)
    return value, reader.count


class Reader:
    def __init__(self, text):
        self.text = text
        self.at = 0
        self.count = 0

    def value(self, level):
        first = self.peek()
        refuse_unless(first in b"0123456789ild", 2, self.at)
        self.count_one()
        if first == b"i":
            return self.integer()
        if first == b"l":
            return self.list(level)
        if first == b"d":
            return self.dictionary(level)
        return self.string()

    def key(self):
        refuse_unless(self.peek() in b"0123456789", 2, self.at)
        self.count_one()
        return self.string()

    def list(self, level):
        place = self.open(level)
        items = []
        while self.peek() != b"e":
            items.append(self.value(level + 1))
        self.at += 1
        return Value(LIST, place, self.at, items)

    def dictionary(self, level):
        place = self.open(level)
        entries = {}
        before = None
        while self.peek() != b"e":
            key = self.key()
            refuse_unless(before is None or before < key.content, 3, key.place)
            before = key.content
            entries[before] = self.value(level + 1)
        self.at += 1
        return Value(DICTIONARY, place, self.at, entries)

    def string(self):
        place = self.at
        length = self.digits()
        self.expect(b":")
        # Eight digits without a leading zero are more than any text has left, so the rest of them need no look.
        start, end = self.at, self.at + int(length[:8])
        self.refuse_cut(end)
        self.at = end
        return Value(STRING, place, end, self.text[start:end])

    def integer(self):
        place = self.at
        self.at += 1
        if self.peek() == b"-":
            self.at += 1
            refuse_unless(self.peek() in b"123456789", 2, self.at)
        self.digits()
        written = self.text[place + 1 : self.at]
        self.expect(b"e")
        # Twenty digits without a leading zero are outside 64 bits, so those past a sign and twenty need no look.
        number = int(written[:21])
        return Value(INTEGER, place, self.at, number if SMALLEST <= number <= LARGEST else written)

    def open(self, level):
        """Steps into a list or dictionary and tells its place."""
        refuse_unless(level <= DEEPEST_LEVEL, 5, self.at)
        self.at += 1
        return self.at - 1

    def digits(self):
        """One or more digits; after a leading 0 no other."""
        first = self.peek()
        refuse_unless(first in b"0123456789", 2, self.at)
        run = first if first == b"0" else DIGITS.match(self.text, self.at).group()
        self.at += len(run)
        return run

    def count_one(self):
        refuse_unless(self.count < MOST_VALUES, 6, self.at)
        self.count += 1

    def expect(self, byte):
        refuse_unless(self.peek() == byte, 2, self.at)
        self.at += 1

    def peek(self):
        self.refuse_cut(self.at + 1)
        return self.text[self.at : self.at + 1]

    def refuse_cut(self, end):
        if end > len(self.text):
            raise Refused(1, len(self.text))


def expect_kind(value, kind):
    refuse_unless(value.kind == kind, 10, value.place)
    return value


def get(dictionary, key, kind):
    """The value under a key that has to be there, of the kind that it has to have."""
    refuse_unless(key in dictionary.content, 10, dictionary.place)
    return expect_kind(dictionary.content[key], kind)


def is_number(integer):
    """Whether an integer is within 64 bits."""
    return isinstance(integer.content, int)


def read_number(integer, is_allowed):
    refuse_unless(is_number(integer) and is_allowed(integer.content), 11, integer.place)
    return integer.content


def write_string(content):
    return b"%d:%s" % (len(content), content)


def write_integer(number):
    return b"i%de" % number


def finish_text(text, room):
    """What each writer of a text does last: its length is held to the limit and to the lent room."""
    refuse_unless(len(text) <= LONGEST_TEXT, 8)
    refuse_unless(len(text) <= room, 37)
    return text

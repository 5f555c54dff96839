"""Document 01's picture and row book in plain Python: whole numbers only, and nothing shared with the crates.

A book is kept from the calls' arguments alone. Each call answers the refusal's number, or 0 where it is accepted.
Running this file checks it against what the papers say of its calls.
"""

from itertools import product
from typing import NamedTuple

from exact import FULL_LIGHT, SYSTEMS, code_of_light, nominal, nominal_codes, spans
from rows import LAST_ROW, PLAIN, REFUSED_OUTPUT, REFUSED_SYSTEM, WIDEST, block, nearest_end, read_block, words_of_codes

# 'What the caller hears'

ACCEPTED = 0
REFUSED_WIDTH = 2
REFUSED_HEIGHT = 3
REFUSED_LIGHTS = 4
REFUSED_WHILE_OPEN = 21
REFUSED_NOT_OPEN = 22
REFUSED_ALL_ROWS = 23
REFUSED_ROWS_MISSING = 24


# 'Picture'

TALLEST = LAST_ROW + 1

FRESH = "fresh"
CLOSED = "closed"


class Open(NamedTuple):
    system: int
    width: int
    height: int
    count: int


class Entry(NamedTuple):
    system: int
    width: int
    number: int
    lights: tuple


class Book:
    """State is tested first, then input in the order of the numbers. A refused call changes nothing."""

    def __init__(self):
        self.state = FRESH
        self.entries = []
        self.entries_before_open = 0

    @property
    def is_open(self):
        return isinstance(self.state, Open)

    @property
    def bytes(self):
        """The summed lengths of the blocks accepted since the last accepted open, 0 before any."""
        return sum(block_length(entry.width) for entry in self.entries[self.entries_before_open :])

    def open(self, system, width, height):
        if self.is_open:
            return REFUSED_WHILE_OPEN
        if system not in SYSTEMS:
            return REFUSED_SYSTEM
        if refusal := refusal_of_size(width, height):
            return refusal
        self.state = Open(system, width, height, 0)
        self.entries_before_open = len(self.entries)
        return ACCEPTED

    def row(self, lights, room):
        """A row of lights, with a buffer of so many bytes. An accepted row is the last of the entries."""
        if not self.is_open:
            return REFUSED_NOT_OPEN
        system, width, height, count = self.state
        if count == height:
            return REFUSED_ALL_ROWS
        if len(lights) != 3 * width:
            return REFUSED_LIGHTS
        if room < block_length(width):
            return REFUSED_OUTPUT
        self.entries.append(Entry(system, width, count, tuple(lights)))
        self.state = Open(system, width, height, count + 1)
        return ACCEPTED

    def close(self):
        if not self.is_open:
            return REFUSED_NOT_OPEN
        if self.state.count < self.state.height:
            return REFUSED_ROWS_MISSING
        self.state = CLOSED
        return ACCEPTED


def refusal_of_size(width, height):
    if not 1 <= width <= WIDEST:
        return REFUSED_WIDTH
    return ACCEPTED if 1 <= height <= TALLEST else REFUSED_HEIGHT


def block_length(width):
    return 9 + 6 * width


# Request 2026-06 asks for a book's bytes, and for the total before a take.


def total_bytes(width, height):
    """The refusal, 'with 2 and 3 as in open', and height·(9 + 6·width), or 0 where it is refused."""
    refusal = refusal_of_size(width, height)
    return refusal, 0 if refusal else height * (9 + 6 * width)


def codes_of_entry(entry):
    """The codes of the row's lights."""
    return [code_of_light(entry.system, light) for light in entry.lights]


def block_of_entry(entry):
    """The bytes that the row's call writes."""
    codes = codes_of_entry(entry)
    samples = (codes[at : at + 3] for at in range(0, len(codes), 3))
    return block(entry.system, entry.number, [words_of_codes(entry.system, PLAIN, sample).words for sample in samples])


def lights_near(system, code):
    """The least light of the code below one that is read, and the greatest of the code above it. A code beyond nominal counts as
    the nominal end (request 2026-03), and so does a neighbour."""
    codes = nominal_codes(system)
    counted = nearest_end(codes, code)
    below, above = (nearest_end(codes, counted + step) for step in (-1, 1))
    return spans(system)[below - codes[0]][0], spans(system)[above - codes[0]][1]


# What the document says of the calls.


def check_sizes():
    for width in (0, WIDEST + 1):
        assert Book().open(1, width, 1) == REFUSED_WIDTH
    for height in (0, TALLEST + 1):
        assert Book().open(1, 1, height) == REFUSED_HEIGHT
    wide = Book()
    assert wide.open(4, WIDEST, 1) == ACCEPTED
    assert wide.row([0] * 3 * WIDEST, 46088) == REFUSED_OUTPUT
    assert wide.row([0] * 3 * WIDEST, 46089) == ACCEPTED


def check_order():
    """Each refusal, where every later condition holds too."""
    book = Book()
    assert book.row([], 0) == book.close() == REFUSED_NOT_OPEN
    assert book.open(0, 0, 0) == REFUSED_SYSTEM
    assert book.open(1, 0, 0) == REFUSED_WIDTH
    assert book.open(1, 1, 0) == REFUSED_HEIGHT
    assert book.state == FRESH
    assert book.open(1, 1, 1) == ACCEPTED
    assert book.open(0, 0, 0) == REFUSED_WHILE_OPEN
    assert book.close() == REFUSED_ROWS_MISSING
    assert book.row([], 0) == REFUSED_LIGHTS
    assert book.row([0] * 3, 0) == REFUSED_OUTPUT
    assert book.state == Open(1, 1, 1, 0)
    assert book.row([0] * 3, 15) == ACCEPTED
    assert book.row([], 0) == REFUSED_ALL_ROWS
    assert book.close() == ACCEPTED
    assert book.row([], 0) == book.close() == REFUSED_NOT_OPEN
    assert book.state == CLOSED


def check_numbers():
    """The rows of each picture are numbered from 0."""
    book = Book()
    for height in (3, 2):
        book.open(2, 1, height)
        for _ in range(height):
            assert book.row([FULL_LIGHT] * 3, 15) == ACCEPTED
        assert book.close() == ACCEPTED
    assert [entry.number for entry in book.entries] == [0, 1, 2, 0, 1]


def check_totals():
    assert total_bytes(1, 1) == (ACCEPTED, 15)
    assert total_bytes(WIDEST, TALLEST) == (ACCEPTED, 199104480)
    # 2 before 3.
    for width, height in product((0, WIDEST + 1), (0, 1, TALLEST, TALLEST + 1)):
        assert total_bytes(width, height) == (REFUSED_WIDTH, 0)
    for width, height in product((1, WIDEST), (0, TALLEST + 1)):
        assert total_bytes(width, height) == (REFUSED_HEIGHT, 0)


NARROW, WIDE = [0] * 3, [0] * 6


def check_figures():
    """Two pictures, with refused calls between the others, and the bytes after each."""
    book = Book()
    for call, given, refusal, after in (
        (book.row, (WIDE, 21), REFUSED_NOT_OPEN, 0),
        (book.open, (1, 2, 0), REFUSED_HEIGHT, 0),
        (book.open, (1, 2, 2), ACCEPTED, 0),
        (book.row, (WIDE, 20), REFUSED_OUTPUT, 0),
        (book.row, (WIDE, 99), ACCEPTED, 21),
        (book.close, (), REFUSED_ROWS_MISSING, 21),
        (book.open, (1, 1, 1), REFUSED_WHILE_OPEN, 21),
        (book.row, (NARROW, 21), REFUSED_LIGHTS, 21),
        (book.row, (WIDE, 21), ACCEPTED, 42),
        (book.row, (WIDE, 21), REFUSED_ALL_ROWS, 42),
        (book.close, (), ACCEPTED, 42),
        (book.row, (WIDE, 21), REFUSED_NOT_OPEN, 42),
        (book.open, (0, 1, 1), REFUSED_SYSTEM, 42),
        (book.open, (4, 1, 1), ACCEPTED, 0),
        (book.row, (NARROW, 15), ACCEPTED, 15),
        (book.close, (), ACCEPTED, 15),
    ):
        assert (call(*given), book.bytes) == (refusal, after)
    assert total_bytes(2, 2) == (ACCEPTED, 42) and total_bytes(1, 1) == (ACCEPTED, 15)


def check_bytes(calls):
    """After each call of a list the bytes are those of the blocks since the last accepted open, at an accepted close the total."""
    book, blocks, total = Book(), [], None
    for call, *given in calls:
        accepted = getattr(book, call)(*given) == ACCEPTED
        if accepted and call == "open":
            blocks, total = [], total_bytes(*given[1:])
        if accepted and call == "row":
            blocks.append(block_of_entry(book.entries[-1]))
        assert book.bytes == sum(map(len, blocks))
        assert not (accepted and call == "close") or total == (ACCEPTED, book.bytes)


def check_lists():
    """Every list of five calls of these, among them some that are always refused."""
    opens = ("open", 1, 1, 1), ("open", 4, 2, 2), ("open", 1, 0, 1)
    rows = ("row", NARROW, 15), ("row", WIDE, 21), ("row", NARROW, 14)
    for calls in product((*opens, *rows, ("close",)), repeat=5):
        check_bytes(calls)


def edge_lights(system):
    """The lights 33, 1187 and 32768, and samples of the first and the last lights of the codes at the ends of nominal."""
    low, high = nominal(system)
    at_ends = [light for code in (low, low + 1, low + 2, high - 2, high - 1, high) for light in spans(system)[code - low]]
    return (33, 1187, 32768, *(light for sample in product(at_ends, repeat=3) for light in sample))


def check_blocks():
    """The rowlist example is a row of full light, and blocks read back within one code and within the spans around it."""
    grey = block_of_entry(Entry(1, 1, 0, (FULL_LIGHT,) * 3))
    assert grey.hex(" ") == "01 00 00 01 00 eb 00 01 00 80 00 01 00 80 00"
    for system in SYSTEMS:
        lights = edge_lights(system)
        entry = Entry(system, len(lights) // 3, LAST_ROW, lights)
        row = read_block(block_of_entry(entry), len(lights))
        assert row[:4] == (system, LAST_ROW, entry.width, (0, 0))
        assert all(abs(read - code) <= 1 for read, code in zip(row.codes, codes_of_entry(entry), strict=True))
        # Some of these codes are read back beyond both ends of nominal.
        low, high = nominal(system)
        assert (min(row.codes), max(row.codes)) == (low - 1, high + 1)
        for light, read in zip(lights, row.codes, strict=True):
            least, greatest = lights_near(system, read)
            assert least <= light <= greatest


def check():
    check_sizes()
    check_order()
    check_numbers()
    check_totals()
    check_figures()
    check_lists()
    check_blocks()


if __name__ == "__main__":
    check()

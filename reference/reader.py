"""Picture reading (request 2026-10), from the request's words alone: the rows accepted are kept, and nothing is shared with the
crates.

A call that is refused answers the refusal's number. An accepted opening answers 0, an accepted block its row.
Running this file checks it against cases worked out by hand.
"""

from itertools import product
from struct import pack

from book import ACCEPTED, REFUSED_HEIGHT, TALLEST, Book, block_length, block_of_entry, codes_of_entry
from exact import FULL_LIGHT, SYSTEMS
from meter import block_reading
from rows import LAST_ROW, Row, block, middle

REFUSED_TURN = 34
REFUSED_UNLIKE = 35
REFUSED_NOT_READING = 36

# The phases: before opening, while rows are missing, and after height rows.
UNOPENED, READING, COMPLETE = range(3)


class Reader:
    """The height of the last accepted opening, None before any, and the rows accepted since, the earliest first."""

    def __init__(self):
        self.height = None
        self.rows = []

    @property
    def phase(self):
        if self.height is None:
            return UNOPENED
        return COMPLETE if len(self.rows) == self.height else READING

    @property
    def next(self):
        """The number of the next row, 0 where none is due."""
        return len(self.rows) if self.phase == READING else 0

    def open(self, height):
        """'Allowed in any state, starts it anew.'"""
        if not 1 <= height <= TALLEST:
            return REFUSED_HEIGHT
        self.height, self.rows = height, []
        return ACCEPTED

    def read(self, given, places):
        """An accepted block enters its row, a refused one nothing."""
        answer = self.answer(given, places)
        if isinstance(answer, Row):
            self.rows.append(answer)
        return answer

    def answer(self, given, places):
        """'36 is tested first, 34 and then 35 after block reading's checks.'"""
        if self.phase != READING:
            return REFUSED_NOT_READING
        row = block_reading(given, places)
        if isinstance(row, int):
            return row
        if row.number != self.next:
            return REFUSED_TURN
        if self.is_unlike_first(row):
            return REFUSED_UNLIKE
        return row

    def is_unlike_first(self, row):
        """'A system or count unlike the first'; the first block has none before it."""
        return any(row.system != first.system or row.samples != first.samples for first in self.rows[:1])


# Cases worked out by hand. A grey's codes are its Y' word, so that the row that is due can be written down.


def row_of(system, number, width):
    """A row of mid-grey as its bytes and the places that it needs."""
    m = middle(system)
    return block(system, number, [(m, m, m)] * width), 3 * width


def due_of(system, number, width):
    """What block reading gives for it."""
    return Row(system, number, width, (0, 0), [middle(system)] * 3 * width)


def damaged(system, number, width):
    """Each of block reading's refusals with a read of this row that it answers."""
    given, places = row_of(system, number, width)
    yield 8, (given[:-1], places)
    yield 1, (b"\5" + given[1:], places)
    yield 10, (given[:1] + pack("<H", LAST_ROW + 1) + given[3:], places)
    yield 9, (given[:3] + b"\0\0" + given[5:], places)
    yield 11, (given + b"\0", places)
    yield 6, (given[:-2] + b"\0\0", places)
    yield 5, (given, places - 1)


BAD_HEIGHTS = (0, TALLEST + 1, 2**32 - 1)


def check_calls():
    """Two pictures, the second in another system and width, with refused calls between the others; what is due after each."""
    reader = Reader()
    for call, given, answer, phase, following in (
        (reader.read, row_of(1, 0, 2), 36, UNOPENED, 0),
        (reader.open, (0,), 3, UNOPENED, 0),
        (reader.read, row_of(1, 0, 2), 36, UNOPENED, 0),
        (reader.open, (3,), 0, READING, 0),
        # The first block decides, not one that was refused before it.
        (reader.read, row_of(4, 1, 5), 34, READING, 0),
        (reader.read, row_of(1, 0, 2), due_of(1, 0, 2), READING, 1),
        (reader.read, row_of(1, 0, 2), 34, READING, 1),
        (reader.read, row_of(1, 2, 2), 34, READING, 1),
        (reader.read, row_of(2, 1, 2), 35, READING, 1),
        (reader.read, row_of(1, 1, 3), 35, READING, 1),
        (reader.read, row_of(4, 1, 5), 35, READING, 1),
        (reader.read, row_of(1, 1, 2), due_of(1, 1, 2), READING, 2),
        # The height is not that of the refused opening.
        (reader.open, (4321,), 3, READING, 2),
        (reader.read, row_of(1, 3, 2), 34, READING, 2),
        (reader.read, row_of(1, 2, 2), due_of(1, 2, 2), COMPLETE, 0),
        (reader.read, row_of(1, 3, 2), 36, COMPLETE, 0),
        (reader.read, row_of(1, 0, 2), 36, COMPLETE, 0),
        (reader.open, (2**32 - 1,), 3, COMPLETE, 0),
        (reader.read, row_of(1, 0, 2), 36, COMPLETE, 0),
        (reader.open, (2,), 0, READING, 0),
        (reader.read, row_of(1, 3, 2), 34, READING, 0),
        (reader.read, row_of(3, 0, 1), due_of(3, 0, 1), READING, 1),
        (reader.read, row_of(1, 1, 2), 35, READING, 1),
        (reader.read, row_of(3, 1, 1), due_of(3, 1, 1), COMPLETE, 0),
    ):
        assert (call(*given), reader.phase, reader.next) == (answer, phase, following)


def check_not_reading(reader, phase):
    """'36 is tested first.'"""
    sound = [row_of(system, number, 2) for system, number in product(SYSTEMS, (0, 1, 2))]
    faulty = [given for number in (0, 2) for _, given in damaged(2, number, 2)]
    for given in (*sound, *faulty, (b"", 0)):
        assert (reader.read(*given), reader.phase, reader.next) == (36, phase, 0)


def check_reading(reader, following, row, refusal):
    """A row that is refused, after block reading's own checks of it."""
    for due, given in (*damaged(*row), (refusal, row_of(*row))):
        assert (reader.read(*given), reader.phase, reader.next) == (due, READING, following)


def check_order():
    """Refused blocks in each phase. Block reading's refusals come before 34 and 35, and 34 comes before 35."""
    reader = Reader()
    check_not_reading(reader, UNOPENED)
    reader.open(2)
    for system, number, width in product(SYSTEMS, (1, 2, LAST_ROW), (1, 2, 3)):
        check_reading(reader, 0, (system, number, width), REFUSED_TURN)
    # None of these is the first block.
    for refusal, given in damaged(3, 0, 3):
        assert (reader.read(*given), reader.phase, reader.next) == (refusal, READING, 0)
    assert reader.read(*row_of(2, 0, 2)) == due_of(2, 0, 2)
    for system, number, width in product(SYSTEMS, (0, 1, 2, LAST_ROW), (1, 2, 3)):
        if (system, number, width) != (2, 1, 2):
            check_reading(reader, 1, (system, number, width), REFUSED_TURN if number != 1 else REFUSED_UNLIKE)
    assert reader.read(*row_of(2, 1, 2)) == due_of(2, 1, 2)
    check_not_reading(reader, COMPLETE)


def read_rows(reader, rows):
    """Rows of system 1 in their turn, all accepted."""
    for number in range(rows):
        assert (reader.phase, reader.next) == (READING, number)
        assert reader.read(*row_of(1, number, 1)) == due_of(1, number, 1)


def check_heights():
    """'After height rows it is complete', and not before."""
    for height in (1, 2, 3, TALLEST):
        reader = Reader()
        assert reader.open(height) == ACCEPTED
        read_rows(reader, height)
        assert (reader.phase, reader.next) == (COMPLETE, 0)


def check_refused_openings(reader):
    before = reader.phase, reader.next
    for height in BAD_HEIGHTS:
        assert (reader.open(height), reader.phase, reader.next) == (REFUSED_HEIGHT, *before)


def check_openings():
    """A picture of three rows is opened over one of five of which some or all rows are read. Refused openings change nothing."""
    for rows in range(6):
        reader = Reader()
        check_refused_openings(reader)
        for height, count in ((5, rows), (3, 3)):
            assert (reader.open(height), reader.phase, reader.next) == (ACCEPTED, READING, 0)
            check_refused_openings(reader)
            read_rows(reader, count)
            check_refused_openings(reader)
        assert reader.phase == COMPLETE


WIDTH, HEIGHT = 9, 3


def check_written():
    """'A row that went in through the writer and comes back here is still within one code.'"""
    samples = list(product((0, 1187, FULL_LIGHT), repeat=3))
    rows = [[light for sample in samples[at : at + WIDTH] for light in sample] for at in range(0, len(samples), WIDTH)]
    assert len(rows) == HEIGHT
    for system in SYSTEMS:
        book, reader = Book(), Reader()
        assert book.open(system, WIDTH, HEIGHT) == reader.open(HEIGHT) == ACCEPTED
        for lights in rows:
            assert book.row(lights, block_length(WIDTH)) == ACCEPTED
            check_entry(reader, book.entries[-1])
        assert book.close() == ACCEPTED and reader.phase == COMPLETE


def check_entry(reader, entry):
    row = reader.read(block_of_entry(entry), 3 * entry.width)
    assert row[:3] == (entry.system, entry.number, entry.width)
    assert all(abs(read - code) <= 1 for read, code in zip(row.codes, codes_of_entry(entry), strict=True))


def check():
    check_calls()
    check_order()
    check_heights()
    check_openings()
    check_written()


if __name__ == "__main__":
    check()

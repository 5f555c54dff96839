"""Makes crates/check_readers/data/ from reader.py: python3 reference/make_readers.py

All numbers are unsigned, low byte first. The same bytes come at every run.

- blocks: the bytes of blocks, one after the other. The bytes that a call is given are a part of them.
- calls: for each call 1 where a list begins with it and it is made with a new reader, or 0 where it is made with the reader that
  the call before left; what it is (0 an opening, 1 a block; 2 bytes each); the height of an opening or 0; the place in blocks
  where the block's bytes begin, 0 for an opening (4 bytes each); the block's length, the places of the lent slice, the refusal or
  0, then the system, row number and count of the row and its components clipped low and clipped high, all 0 where no row is due;
  and of the reader after the call its phase (0 unopened, 1 reading, 2 complete) and the number of the next row, 0 where it is not
  reading (2 bytes each). A record is 32 bytes.
"""

from itertools import cycle, permutations, product
from pathlib import Path
from struct import pack

import reader
import rows
from book import TALLEST
from exact import SYSTEMS
from make_blocks import ALL_THREE, WIDTHS, random_block, replaced, several_faults, wide_clipped, word
from make_meters import CLIPS, refused, row_with
from make_pictures import NO_HEIGHTS
from pseudorandom import Random
from reader import COMPLETE, READING, Reader
from rows import LAST_ROW

DATA = Path(__file__).resolve().parent.parent / "crates" / "check_readers" / "data"

# What the comparing program has room for.
MOST_BLOCKS, MOST_CALLS = 262144, 131072

OPENING, BLOCK = range(2)
NO_ROW = 0, 0, 0, 0, 0

HEIGHTS = (1, 2, 3, 4, 7)
# So many rows that a number in 8 bits would begin anew.
TALL = 300
LONGEST = 65535

MIXED_LISTS = 20
CALLS_PER_LIST = 60
MIXED_HEIGHTS = (1, 1, 2, 3, 3, 6, TALLEST)


class Lists:
    """The bytes of the blocks, and the records of lists of calls, each with the reader's answer."""

    def __init__(self):
        self.blocks = bytearray()
        self.records = []
        self.new()

    def new(self):
        """A list begins with the next call."""
        self.reader = Reader()
        self.begins = 1

    def add(self, kind, given, refusal, row):
        after = self.reader.phase, self.reader.next
        self.records.append(pack("<2H2I10H", self.begins, kind, *given, refusal, *row, *after))
        self.begins = 0

    def open(self, height):
        self.add(OPENING, (height, 0, 0, 0), self.reader.open(height), NO_ROW)

    def read(self, given, places):
        answer = self.reader.read(given, places)
        refusal, row = (answer, NO_ROW) if isinstance(answer, int) else (0, (*answer[:3], *answer.clips))
        self.add(BLOCK, (0, self.place(given), len(given), places), refusal, row)

    def place(self, given):
        """Where these bytes begin. They are added where no part of the blocks has them."""
        if given not in self.blocks:
            self.blocks += given
        return self.blocks.find(given)

    def read_all(self, reads):
        for given in reads:
            self.read(*given)


# A read is the bytes that are given and the places of the slice. That of a row here has the places that the row needs.


def row(random, number, system, width):
    """A row with any words, of which many clip."""
    return random_block(random, system, number, width), 3 * width


def kinds():
    """Systems and widths without end. Both change each time, and all pairs come."""
    return zip(cycle(SYSTEMS), cycle(range(1, 6)))


def with_faults(read):
    """The row with each of block reading's faults, then without."""
    return [*refused(*read), read]


def wrong_numbers(height, number):
    """Row numbers in place of this one: next to it, the first, the last, the height, and one with another high byte alone."""
    near = number - 1, number + 1, 0, height - 1, height, LAST_ROW, number ^ 256
    return sorted({other for other in near if 0 <= other <= LAST_ROW} - {number})


def other_system(system):
    return system % len(SYSTEMS) + 1


def unlike(system, width):
    """Other systems, other widths, and both. A narrower row needs fewer places than the first one, a wider row more."""
    widths = [other for other in (width - 1, width + 1) if other]
    others = [other for other in SYSTEMS if other != system]
    return [*((other, width) for other in others), *((system, other) for other in widths), *product(others, widths)]


def whole(lists, random, height, *kind):
    """A picture from opening to the last row, then the row that would follow and the first."""
    lists.open(height)
    for number in range(height):
        given, places = row(random, number, *kind)
        lists.read(given, places + (0, 1, 9)[number % 3])
    assert lists.reader.phase == COMPLETE
    lists.read_all(row(random, number, *kind) for number in (height, 0))


def pictures(lists, random):
    """Lists of pictures, each of another height, system and width than the one before. A list begins with each height."""
    of = kinds()
    for turn in range(len(HEIGHTS)):
        lists.new()
        for height in HEIGHTS[turn:] + HEIGHTS[:turn]:
            whole(lists, random, height, *next(of))


def out_of_turn(lists, random, system, width, height):
    """A picture in which before each row come rows of other numbers, some of them also unlike the first."""
    lists.new()
    lists.open(height)
    like_and_unlike = cycle([(system, width), (other_system(system), width), (system, width + 1)])
    for number in range(height):
        lists.read_all(row(random, other, *next(like_and_unlike)) for other in wrong_numbers(height, number))
        lists.read(*row(random, number, system, width))
    assert lists.reader.phase == COMPLETE
    lists.read_all(row(random, other, system, width) for other in wrong_numbers(height, height))


def unlike_rows(lists, random, system, width):
    """A picture with rows unlike the first before its second and its last row: in their turn, one too low, one too high."""
    lists.new()
    lists.open(3)
    lists.read(*row(random, 0, system, width))
    for number in (1, 2):
        for kind in unlike(system, width):
            lists.read(*row(random, number, *kind))
        for kind, step in zip(unlike(system, width), cycle((-1, 1))):
            lists.read(*row(random, number + step, *kind))
        lists.read(*row(random, number, system, width))
    assert lists.reader.phase == COMPLETE


def high_byte_of_width(lists, random, system, width):
    """A row whose count differs from the first one's in its high byte alone, and the other way round."""
    first, second = ([row(random, number, system, samples) for number in (0, 1)] for samples in (width, width + 256))
    lists.new()
    for one, other in ((first, second), (second, first)):
        lists.open(2)
        lists.read_all((one[0], other[1], one[1]))
        assert lists.reader.phase == COMPLETE


def first_decides(lists, random, system, other):
    """Blocks of another system and width come before the first that is accepted, are refused, and decide nothing; then the other
    way round in the same list, where the picture before decides nothing either."""
    lists.new()
    width = random.of(WIDTHS)
    one, two = (system, width), (other, width % 5 + 1)
    for first, second in ((one, two), (two, one)):
        lists.open(2)
        lists.read(*row(random, 1, *second))
        lists.read(*random.of(refused(*row(random, 0, *second))))
        lists.read(*row(random, 0, *first))
        lists.read(*random.of(refused(*row(random, 1, *second))))
        lists.read_all(row(random, 1, *kind) for kind in (second, first))
        assert lists.reader.phase == COMPLETE


def damaged(lists, random, system, width):
    """Rows with each of block reading's faults in each phase; while reading also out of turn, unlike the first, and both."""
    lists.new()
    lists.read_all(with_faults(row(random, 0, system, width)))
    lists.open(2)
    lists.read_all(with_faults(row(random, 1, system, width)))
    lists.read_all(with_faults(row(random, 0, system, width)))
    other = other_system(system)
    for kind in ((other, width), (system, width - 1), (other, width + 1)):
        for number in (0, 1, 2):
            lists.read_all(with_faults(row(random, number, *kind)))
    for number in (0, 1):
        lists.read_all(with_faults(row(random, number, system, width)))
    assert lists.reader.phase == COMPLETE
    lists.read_all(with_faults(row(random, 0, system, width)))


def refused_openings(lists):
    for height in NO_HEIGHTS:
        lists.open(height)


def openings(lists, random, system, width):
    """Refused openings in each phase and between rows; the rows after them show that nothing has changed."""
    lists.new()
    refused_openings(lists)
    lists.read(*row(random, 0, system, width))
    for height in (1, 3):
        lists.open(height)
        refused_openings(lists)
        for number in range(height):
            lists.read(*row(random, number + 1, other_system(system), width))
            lists.read(*row(random, number, system, width))
            refused_openings(lists)
        assert lists.reader.phase == COMPLETE
        lists.read_all(row(random, number, system, width) for number in (height, 0))


def opened_anew(lists, random):
    """Pictures that are left after some of their rows for one of another system and width. Its first row comes after the row that
    would have been next in the one before."""
    lists.new()
    former = 4, 5
    for (height, count), kind in zip(product((*HEIGHTS, TALLEST), (0, 1, 2, 3, 7)), kinds()):
        left = max(lists.reader.next, 1)
        lists.open(height)
        lists.read(*row(random, left, *former))
        lists.read_all(row(random, number, *kind) for number in range(min(height, count)))
        former = kind


def clipping(lists, random, system):
    """A picture whose rows clip low and high in each way, one row for each."""
    lists.new()
    lists.open(len(CLIPS))
    for number, clips in enumerate(CLIPS):
        given, places = row_with(random, system, [clips, (0, 0), clips])
        lists.read(replaced(given, 1, word(number)), places)
    assert lists.reader.phase == COMPLETE


def tall(lists, random, system):
    """A picture of many narrow rows. Wrong blocks come now and then, where the number's high byte changes, and at the end."""
    lists.new()
    lists.open(TALL)
    for number in range(TALL):
        # The first block has none that it can be unlike.
        if number % 7 == 1 or number in (255, 256, 257) or number > TALL - 3:
            wrong_between(lists, random, system, number)
        lists.read(*row(random, number, system, 1))
    assert lists.reader.phase == COMPLETE
    lists.read_all(row(random, number, system, 1) for number in (TALL, 0, TALL - 1, TALL - 256))


def wrong_between(lists, random, system, number):
    """A row of another number, with another high byte, of another system, of another width, and one with a fault."""
    others = random.of(wrong_numbers(TALL, number)), number ^ 256
    lists.read_all(row(random, other, system, 1) for other in others)
    lists.read_all(row(random, number, *kind) for kind in ((other_system(system), 1), (system, 2)))
    lists.read(*random.of(refused(*row(random, number, system, 1))))


def wide_refused(lists, given, places):
    """The block with one place too few, cut, and with a wrong last word."""
    lists.read(given, places - 1)
    lists.read(given[:-1], places)
    lists.read(replaced(given, len(given) - 2, word(65535)), places)


def wide(lists, random):
    """Rows of the greatest width in which every component clips, in and out of their turn, and beside narrow rows."""
    lists.new()
    (first, places), (second, _) = (wide_clipped(4, clips) for clips in ALL_THREE)
    second = replaced(second, 1, word(1))
    narrow = [row(random, number, 4, 1) for number in (0, 1)]
    lists.open(2)
    lists.read(second, places)
    lists.read(first, places)
    lists.read(first, places)
    wide_refused(lists, second, places)
    lists.read(*narrow[1])
    lists.read(second, places + 1)
    lists.read(first, places)
    # Both stand side by side in the blocks, so that a longer block is there already.
    for length in (len(second) + 1, LONGEST):
        lists.open(2)
        lists.read((second + first)[:length], places)
    lists.read(*narrow[0])
    wide_refused(lists, second, places)
    lists.read(second, places)
    lists.read(first, places)
    lists.read(*narrow[1])
    lists.read(second, places)


def any_open(lists, random):
    lists.open(random.of(MIXED_HEIGHTS) if random.below(3) else random.of(NO_HEIGHTS))


def any_kind(lists, random):
    """The system and width of the picture that is read, or any."""
    of = lists.reader
    return (of.rows[0].system, of.rows[0].samples) if of.rows else (random.of(tuple(SYSTEMS)), random.of(WIDTHS))


def any_row(lists, random):
    """Often the next row, else with another number, system or width, or some of these."""
    system, width = any_kind(lists, random)
    number, height = lists.reader.next, lists.reader.height or 1
    if random.below(5) == 0:
        number = random.of(wrong_numbers(height, number))
    if random.below(6) == 0:
        system = random.of(tuple(SYSTEMS))
    if random.below(6) == 0:
        width = random.of(WIDTHS)
    return row(random, number, system, width)


def any_read(lists, random):
    """Of eight, one with a fault, one with several, and six of rows."""
    given, places = any_row(lists, random)
    kind = random.below(8)
    if kind == 0:
        given, places = random.of(refused(given, places))
    if kind == 1:
        given, places = several_faults(random, given[0])
    lists.read(given, places + random.of((0, 0, 0, 1, 9)))


def mixed(lists, random):
    lists.new()
    for _ in range(CALLS_PER_LIST):
        often = 12 if lists.reader.phase == READING else 3
        call = any_read if random.below(often) else any_open
        call(lists, random)


def make(random):
    lists = Lists()
    wide(lists, random)
    pictures(lists, random)
    for system, height in product(SYSTEMS, HEIGHTS):
        out_of_turn(lists, random, system, random.of(WIDTHS), height)
    for system, width in zip(SYSTEMS, WIDTHS):
        unlike_rows(lists, random, system, width)
        damaged(lists, random, system, 2 + width % 3)
        openings(lists, random, system, width)
        clipping(lists, random, system)
        high_byte_of_width(lists, random, system, width)
    for system, other in permutations(SYSTEMS, 2):
        first_decides(lists, random, system, other)
    opened_anew(lists, random)
    tall(lists, random, 2)
    for _ in range(MIXED_LISTS):
        mixed(lists, random)
    return lists


def main():
    rows.check()
    reader.check()
    DATA.mkdir(parents=True, exist_ok=True)
    lists = make(Random(4320_2026_10))
    calls = b"".join(lists.records)
    assert len(lists.blocks) <= MOST_BLOCKS and len(calls) <= MOST_CALLS
    (DATA / "blocks").write_bytes(lists.blocks)
    (DATA / "calls").write_bytes(calls)


if __name__ == "__main__":
    main()

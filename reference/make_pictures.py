"""Makes crates/check_pictures/data/ from book.py: python3 reference/make_pictures.py

All numbers are unsigned, low byte first. The same bytes come at every run.

- lights: lights, 2 bytes each. The lights of a row are a part of them.
- calls: for each call what it is (0 a fresh picture, with which a list begins; 1 open, 2 row, 3 close), the refusal or 0, the rows
  that the book has accepted of the open picture after the call or 0, the system and the samples of the block that is due or 0
  (2 bytes each), the book's bytes after the call (4 bytes), the components that reading the block clips low and clips high
  (2 bytes each), and what the call is given (4 bytes each): an open the system, width and height, a row the place of its first
  light, how many lights, and the length of its buffer. Then, where a block is due, its bytes, and for each place the light's code
  and the code that reading gives (2 bytes each).
- totals: for each the refusal or 0 (2 bytes), the width and height that are given, and the total or 0 (4 bytes each).
"""

from itertools import product
from pathlib import Path
from struct import pack

import book
import exact
import rows
from book import ACCEPTED, TALLEST, Book, block_length, block_of_entry, codes_of_entry, total_bytes
from exact import FULL_LIGHT, SYSTEMS, spans
from pseudorandom import Random
from rows import WIDEST, read_block

DATA = Path(__file__).resolve().parent.parent / "crates" / "check_pictures" / "data"

NEW, OPEN, ROW, CLOSE = range(4)
NO_BLOCK = 0, 0, (0, 0), b""

LIGHTS = 3 * WIDEST + 3
BUFFER = 46100
LISTS = 20
CALLS_PER_LIST = 160
ANY_TOTALS = 400

WIDTHS = (1, 2, 3)
HEIGHTS = (1, 2, 3, 6)
END_WIDTHS = (0, 1, WIDEST, WIDEST + 1)
END_HEIGHTS = (0, 1, TALLEST, TALLEST + 1)
# A number cut to 8 or 16 bits would pass for one in the range.
NO_SYSTEMS = (0, 5, 255, 256 + 1, 65536 + 4, 2**32 - 1)
NO_WIDTHS = (0, WIDEST + 1, 65535, 65536, 65536 + 1, 65536 + WIDEST, 2**32 - 1)
NO_HEIGHTS = (0, TALLEST + 1, 65535, 65536, 65536 + 1, 65536 + TALLEST, 2**32 - 1)


def due_of_entry(entry):
    """What reading a row's block says of it, and the bytes that are due."""
    given = block_of_entry(entry)
    read = read_block(given, 3 * entry.width)
    codes = (pack("<2H", *both) for both in zip(codes_of_entry(entry), read.codes, strict=True))
    return read.system, read.samples, read.clips, given + b"".join(codes)


class Lists:
    """The records of lists of calls, each with the book's answer."""

    def __init__(self, lights):
        self.lights = lights
        self.records = []
        self.book = Book()

    def add(self, call, refusal, given, entry=None):
        count = self.book.state.count if self.book.is_open else 0
        system, samples, clips, due = due_of_entry(entry) if entry else NO_BLOCK
        self.records.append(pack("<5HI2H3I", call, refusal, count, system, samples, self.book.bytes, *clips, *given) + due)

    def new(self):
        self.book = Book()
        self.add(NEW, ACCEPTED, (0, 0, 0))

    def open(self, system, width, height):
        self.add(OPEN, self.book.open(system, width, height), (system, width, height))

    def row(self, first, count, room):
        lights = self.lights[first : first + count]
        assert len(lights) == count and room <= BUFFER
        refusal = self.book.row(lights, room)
        entry = self.book.entries[-1] if refusal == ACCEPTED else None
        self.add(ROW, refusal, (first, count, room), entry)

    def close(self):
        self.add(CLOSE, self.book.close(), (0, 0, 0))

    def whole(self, random, system, width, height):
        """A picture from open to close, each row in a buffer of its length."""
        self.open(system, width, height)
        for _ in range(height):
            self.row(place(random, 3 * width), 3 * width, block_length(width))
        self.close()


def place(random, count):
    """A place in the lights with so many from it on."""
    return random.below(LIGHTS - count + 1)


def all_lights(random):
    """The corners of colour, then the ends of every code's span and lights between them, in any order."""
    corners = [light for corner in product((0, FULL_LIGHT), repeat=3) for light in corner]
    ends = [light for system in SYSTEMS for span in spans(system) for light in span]
    between = [random.below(FULL_LIGHT + 1) for _ in range(LIGHTS - len(corners) - len(ends))]
    return corners + sorted(ends + between, key=lambda _: random.word())


def corners(lists):
    """Every system's row of all corners of colour."""
    for system in SYSTEMS:
        lists.open(system, 8, 1)
        lists.row(0, 24, block_length(8))
        lists.close()


def sizes(lists, begin):
    """Opens at the ends of the ranges and beyond them, each of a picture that begin leaves."""
    begin()
    ends = product((*SYSTEMS, *NO_SYSTEMS), END_WIDTHS, END_HEIGHTS)
    for given in (*ends, *product((2,), (1, WIDEST, *NO_WIDTHS), (1, TALLEST, *NO_HEIGHTS))):
        lists.open(*given)
        if lists.book.is_open:
            lists.open(*given)
            lists.close()
            begin()


def begin_closed(lists, random):
    lists.new()
    lists.whole(random, 1, 1, 1)


def wide_refused(lists, random, system):
    """Rows of the greatest width with too few or too many lights, or a buffer that is one byte short."""
    count, room = 3 * WIDEST, block_length(WIDEST)
    lists.open(system, WIDEST, 1)
    for wrong in (count - 3, count - 1, count + 1, count + 3):
        lists.row(place(random, wrong), wrong, room)
    lists.row(place(random, count), count, room - 1)
    lists.close()


def wide(lists, random):
    """Rows of the greatest width in each system, and in the last one that is accepted, in a buffer without a byte to spare."""
    for system in SYSTEMS:
        lists.new()
        wide_refused(lists, random, system)
    given = place(random, 3 * WIDEST), 3 * WIDEST, block_length(WIDEST)
    lists.row(*given)
    lists.row(*given)
    lists.close()


def tall(lists, random, system):
    """A picture of the greatest height, whose bytes need more than 16 bits, with a refused call now and then and at the last rows."""
    width = 2
    count, room = 3 * width, block_length(width)
    lists.open(system, width, TALLEST)
    for row in range(TALLEST):
        if row % 256 in (0, 255) or row > TALLEST - 4:
            lists.close()
            lists.row(place(random, count), count, room - 1)
            lists.open(system, width, TALLEST)
        lists.row(place(random, count), count, room + row % 3)
    lists.row(place(random, count), count, room)
    lists.close()
    lists.close()


def any_open(lists, random):
    given = random.of(tuple(SYSTEMS)), random.of(WIDTHS), random.of(HEIGHTS)
    wrong = NO_SYSTEMS, NO_WIDTHS, NO_HEIGHTS
    lists.open(*(number if random.below(4) else random.of(others) for number, others in zip(given, wrong)))


def any_row(lists, random):
    """A row of the open picture's width, or with too few or too many lights, too short a buffer, or both."""
    width = lists.book.state.width if lists.book.is_open else random.of(WIDTHS)
    count, room = 3 * width, block_length(width)
    if random.below(4) == 0:
        count = random.of((0, count - 3, count - 1, count + 1, count + 3))
    if random.below(4) == 0:
        room = random.of((0, 8, 9, room - 6, room - 1, random.below(room)))
    else:
        room = random.of((room, room, room + 1, room + random.below(100), BUFFER))
    lists.row(place(random, count), count, room)


def any_close(lists, random):
    lists.close()


def any_call(lists, random):
    """Often one that is accepted."""
    state = lists.book.state
    if not lists.book.is_open:
        calls = any_open, any_open, any_row, any_close
    elif state.count == state.height:
        calls = any_close, any_close, any_row, any_open
    else:
        calls = (any_row,) * 8 + (any_open, any_close)
    random.of(calls)(lists, random)


def mixed(lists, random):
    lists.new()
    for _ in range(CALLS_PER_LIST):
        any_call(lists, random)


def make(random):
    lists = Lists(all_lights(random))
    wide(lists, random)
    corners(lists)
    tall(lists, random, 3)
    for system in SYSTEMS:
        lists.whole(random, system, 257, 1)
    for _ in range(LISTS):
        mixed(lists, random)
    sizes(lists, lists.new)
    sizes(lists, lambda: begin_closed(lists, random))
    return lists


def any_size(random):
    """A width and a height, mostly in their ranges; else one of them is any number."""
    width, height = 1 + random.below(WIDEST), 1 + random.below(TALLEST)
    kind, number = random.below(8), random.word()
    return (number, height) if kind == 0 else (width, number) if kind == 1 else (width, height)


def sizes_of_totals(random):
    """The ends of the ranges and beyond, numbers that a cut to 16 bits would let pass, some sizes and their exchange, and any."""
    yield from product(END_WIDTHS, END_HEIGHTS)
    yield from product((1, WIDEST, *NO_WIDTHS), (1, TALLEST, *NO_HEIGHTS))
    # Totals on both sides of 2^16, among them 65535 and 65538, and pictures as they are made.
    for width, height in ((2, 3), (7, 1285), (15, 662), (TALLEST, TALLEST + 1), (1280, 720), (1920, 1080), (3840, 2160)):
        yield from ((width, height), (height, width))
    yield from (any_size(random) for _ in range(ANY_TOTALS))


def record_of_total(width, height):
    refusal, total = total_bytes(width, height)
    return pack("<H3I", refusal, width, height, total)


def main():
    exact.check()
    rows.check()
    book.check()
    DATA.mkdir(parents=True, exist_ok=True)
    lists = make(Random(4320_46089))
    (DATA / "lights").write_bytes(pack(f"<{LIGHTS}H", *lists.lights))
    (DATA / "calls").write_bytes(b"".join(lists.records))
    (DATA / "totals").write_bytes(b"".join(record_of_total(*size) for size in sizes_of_totals(Random(199104480))))


if __name__ == "__main__":
    main()

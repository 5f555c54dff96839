"""Makes crates/check_meters/data/ from meter.py: python3 reference/make_meters.py

All numbers are unsigned, low byte first. The same bytes come at every run.

- blocks: the bytes of blocks, one after the other. The bytes that a read is given are a part of them.
- reads: for each read 1 where a list begins with it and it is made with an empty meter, or 0 where it is made with the meter that
  the read before gave; the places of the lent slice (2 bytes each); the place in blocks where the block's bytes begin (4 bytes);
  the block's length, the refusal or 0, then the system, row number and count of the row and its components clipped low and clipped
  high, all 0 where refused (2 bytes each); and of the meter after the read how many rows its figures are of (2 bytes), the low
  figure and the high figure (4 bytes each). A record is 32 bytes.
"""

from functools import lru_cache
from itertools import combinations_with_replacement, cycle, islice, product
from pathlib import Path
from struct import pack

import meter
import rows
from exact import SYSTEMS
from make_blocks import ALL_THREE, MOST_HIGH, MOST_LOW, count_places, random_block, replaced, several_faults, wide_clipped, word
from make_triples import stepped_words
from meter import LATEST, Meter
from pseudorandom import Random
from rows import LAST_ROW, block, codes_of_words, sums_of_clips

DATA = Path(__file__).resolve().parent.parent / "crates" / "check_meters" / "data"

NO_ROW = 0, 0, 0, 0, 0

WIDTHS = range(1, 6)
# One, two and three times the 64 rows and next to them, and so many that a count of rows in 8 bits would begin anew.
LENGTHS = (1, 2, 63, 64, 65, 66, 127, 128, 129, 130, 193, 321)
ROUNDS = 6
MIXED_LISTS = 12
FEWEST_MIXED, MOST_MIXED = 60, 150

# The clips, low and high, that a sample can have.
CLIPS = [(low, high) for low, high in product(range(3), repeat=2) if low + high <= 3]


class Lists:
    """The bytes of the blocks, and the records of lists of reads, each with the meter's answer."""

    def __init__(self):
        self.blocks = bytearray()
        self.records = []

    def add(self, reads):
        """A list of reads from an empty meter."""
        of, begins = Meter(), 1
        for given, places in reads:
            self.records.append(self.record(of, begins, given, places))
            begins = 0

    def record(self, of, begins, given, places):
        row = of.read(given, places)
        refusal, read = (row, NO_ROW) if isinstance(row, int) else (0, (*row[:3], *row.clips))
        head = pack("<2HI2H", begins, places, self.place(given), len(given), refusal)
        return head + pack("<6H2I", *read, *of.figures)

    def place(self, given):
        """Where these bytes begin. They are added where no part of the blocks has them."""
        if given not in self.blocks:
            self.blocks += given
        return self.blocks.find(given)


# A read is the bytes that are given and the places of the slice. That of a row here has the places that the row needs.


@lru_cache(maxsize=None)
def samples_by_clips(system):
    """Lists of words by their clips."""
    found = {}
    for words in stepped_words(system):
        found.setdefault(codes_of_words(system, words).clips, []).append(words)
    return found


def row_with(random, system, clips):
    """A row whose samples have these clips, one after the other."""
    samples = [random.of(samples_by_clips(system)[each]) for each in clips]
    return block(system, random.below(LAST_ROW + 1), samples), 3 * len(samples)


def samples_of_sums():
    """The clips of a row's samples by their sums, as far as low and high differ; of rows with the same sums a narrowest one."""
    found = {}
    for width in WIDTHS:
        for clips in combinations_with_replacement(CLIPS, width):
            found.setdefault(sums_of_clips(clips), clips)
    return {sums: clips for sums, clips in found.items() if sums.low != sums.high}


def in_turn(sums):
    """The sums in an order in which each differs from the one before in low and in high: both rise, as far as they can."""
    turn = sorted(sums, key=lambda each: ((each.high - each.low) % (2 * WIDTHS[-1] + 1), each.low))
    assert all(a.low != b.low and a.high != b.high for a, b in zip(turn, turn[1:] + turn[:1]))
    return turn


def clipping_rows(random):
    """Rows that clip low and high differently. No two have the same sums, and they are more than the figures are of: whichever row
    is let go in place of the 65th latest, the figures show it."""
    found = samples_of_sums()
    assert len(found) > LATEST + 1
    systems = cycle(SYSTEMS)
    return [row_with(random, next(systems), found[sums]) for sums in in_turn(found)]


def unclipped_rows(random):
    """Rows that do not clip."""
    return [row_with(random, system, [(0, 0)] * width) for system, width in product(SYSTEMS, WIDTHS)]


def refused(given, places):
    """Reads of a row's block that are refused, each with one fault, in the order of the tests."""
    width = places // 3
    luma, _, cr = count_places(width)
    return [
        # 8, with no row number.
        (given[:2], places),
        # 1, and 10.
        (replaced(given, 0, b"\0"), places),
        (replaced(given, 0, b"\5"), places),
        (replaced(given, 1, word(LAST_ROW + 1)), places),
        # 9 of the first count, 8 with half of the last count, 9 of it, and 8 with half of the last word.
        (replaced(given, luma, word(0)), places),
        (given[: cr + 1], places),
        (replaced(given, cr, word(width + 1)), places),
        (given[:-1], places),
        # 11, 6 of the last word, when all others are read, and 5.
        (given + b"\0", places),
        (replaced(given, len(given) - 2, word(0)), places),
        (given, 0),
        (given, places - 1),
    ]


def refused_between(random):
    """Rows of every system and width with any words, and after each row one of its refused reads, each in its turn."""
    for turn, (system, width) in enumerate([*product(SYSTEMS, WIDTHS)] * ROUNDS):
        given, places = random_block(random, system, random.below(LAST_ROW + 1), width), 3 * width
        yield given, places + turn % 3
        faulty = refused(given, places)
        yield faulty[turn % len(faulty)]


def all_clipped():
    """Rows of the greatest width in which every component clips, more of them low, then more of them high; then refused reads."""
    more_low, more_high = wide_clipped(1, ALL_THREE[0]), wide_clipped(4, ALL_THREE[1])
    yield from [more_low] * (LATEST + 2) + [more_high] * (LATEST + 2)
    given, places = more_low
    yield from ((given, places - 1), (given[:-1], places), more_low)


def from_low_to_high(clipping):
    """Rows of the greatest width with as many clipped low as can be and none high, then the other way round, then narrow rows."""
    yield from [wide_clipped(2, MOST_LOW)] * (LATEST + 2)
    yield from [wide_clipped(3, MOST_HIGH)] * (LATEST + 2)
    yield from islice(clipping, LATEST + 2)


def cleared(clipping, unclipped):
    """Rows that clip, refused reads, rows that do not until the figures are 0 and some more, refused reads, rows that clip."""
    yield from islice(clipping, LATEST)
    yield from refused(*next(clipping))
    yield from islice(cycle(unclipped), LATEST + 6)
    yield from refused(*next(clipping))
    yield from islice(clipping, LATEST + 2)


def any_read(random, clipping, unclipped):
    """Of six, one with a fault, one with several, of which some can mend another, and four of rows, most of which clip."""
    kind = random.below(6)
    if kind == 0:
        return random.of(refused(*random.of(clipping)))
    if kind == 1:
        return several_faults(random, random.of(tuple(SYSTEMS)))
    given, places = random.of(random.of((clipping, clipping, clipping, unclipped)))
    return given, places + random.of((0, 0, 1, 9))


def mixed(random, clipping, unclipped):
    count = FEWEST_MIXED + random.below(MOST_MIXED - FEWEST_MIXED + 1)
    return [any_read(random, clipping, unclipped) for _ in range(count)]


def begun_refused(clipping):
    """Lists that begin with each refused read, one that begins with all of them, and one that has no other."""
    for faulty in refused(*next(clipping)):
        yield faulty, next(clipping), faulty, next(clipping)
    yield *refused(*next(clipping)), *islice(clipping, LATEST + 2)
    yield refused(*next(clipping))


def lists(random):
    clipping, unclipped = clipping_rows(random), unclipped_rows(random)
    # A list takes up these rows where the one before has left them.
    following = cycle(clipping)
    yield refused_between(random)
    yield all_clipped()
    yield from_low_to_high(following)
    for length in LENGTHS:
        yield islice(following, length)
    yield cleared(following, unclipped)
    for _ in range(MIXED_LISTS):
        yield mixed(random, clipping, unclipped)
    yield from begun_refused(following)


def main():
    rows.check()
    meter.check()
    DATA.mkdir(parents=True, exist_ok=True)
    made = Lists()
    for reads in lists(Random(64_2026_08)):
        made.add(reads)
    (DATA / "blocks").write_bytes(made.blocks)
    (DATA / "reads").write_bytes(b"".join(made.records))


if __name__ == "__main__":
    main()

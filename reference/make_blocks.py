"""Makes crates/check_blocks/data/ from rows.py: python3 reference/make_blocks.py

All numbers are unsigned, low byte first. The same bytes come at every run.

- cases, clipped: for each case the places of the lent slice, the refusal or 0, the block's length, then the system, row number and count
  of the row and the sums of its components clipped low and clipped high (2 bytes each), all 0 where refused; then the block's
  bytes and the codes of an accepted row (2 bytes each). The rows of clipped are accepted; those of the greatest width clip in every
  sample.
"""

from itertools import cycle, islice
from pathlib import Path
from struct import pack

import rows
from exact import SYSTEMS, nominal_codes, video_data
from make_triples import stepped_words
from pseudorandom import Random
from rows import LAST_ROW, PLAIN, WIDEST, block, codes_of_words, middle, nominal_words, read_block, words_of_codes

DATA = Path(__file__).resolve().parent.parent / "crates" / "check_blocks" / "data"

WIDTHS = (1, 2, 3, 5)
FAULTY_PER_SYSTEM = 400

# The clips of a sample, low and high: as many of one kind as a triple can have, one of one kind, and all three components.
MOST_LOW, MOST_HIGH = (2, 0), (0, 2)
ONE_LOW, ONE_HIGH = (1, 0), (0, 1)
ALL_THREE = (2, 1), (1, 2)


def random_words(random, system):
    """Words of random codes, or in half of the cases any words; of video data or of nominal."""
    of_codes, in_nominal = random.below(2), random.below(2)
    if of_codes:
        codes = nominal_codes(system) if in_nominal else video_data(system)
        return words_of_codes(system, PLAIN, [random.of(codes) for _ in range(3)]).words
    words = nominal_words(system) if in_nominal else (video_data(system),) * 3
    return tuple(random.of(values) for values in words)


def random_block(random, system, row, width):
    return block(system, row, [random_words(random, system) for _ in range(width)])


def replaced(given, at, new):
    """The block with these bytes from a place on, and no longer than it was."""
    return (given[:at] + new + given[at + len(new) :])[: len(given)]


def word(value):
    return pack("<H", value)


def count_places(width):
    return [3 + section * (2 + 2 * width) for section in range(3)]


def with_system(given):
    for system in (0, 1, 4, 5, 255):
        yield replaced(given, 0, bytes([system]))


def with_row(given):
    for row in (0, LAST_ROW, LAST_ROW + 1, 65535):
        yield replaced(given, 1, word(row))


def with_counts(given, width):
    """Each section's count exchanged; 256 more shows whether the high byte is read."""
    for at in count_places(width):
        for count in (0, width - 1, width + 1, width + 256, WIDEST, WIDEST + 1, 65535):
            yield replaced(given, at, word(count))


def with_words(given, width, system):
    """Words at the ends of the ranges and beyond them, at the first and last places of each section."""
    s = SYSTEMS[system].scale
    ends = s, 16 * s, 235 * s, 240 * s, 255 * s - 1
    beyond = s - 1, 16 * s - 1, 235 * s + 1, 240 * s + 1, 255 * s, 256 * s - 1, 256 * s, 0, 65535
    for at in count_places(width):
        for place in sorted({at + 2, at + 2 * width}):
            for value in (*ends, *beyond):
                yield replaced(given, place, word(value))


def cut(given):
    for length in range(len(given)):
        yield given[:length]


def lengthened(given):
    for more in (b"\0", b"\xff\xff", given[3:9], given):
        yield given + more


def faults(given, width, system):
    """The block with each fault by itself, a list for each kind of fault."""
    kinds = (with_system(given), with_row(given), with_counts(given, width), with_words(given, width, system))
    return [list(kind) for kind in (*kinds, cut(given), lengthened(given))]


def single_faults(random, system, width):
    given = random_block(random, system, random.below(LAST_ROW + 1), width)
    for kind in faults(given, width, system):
        yield from ((faulty, 3 * width) for faulty in kind)
    for places in (0, 3 * width - 3, 3 * width - 1, 3 * width, 3 * width + 1, 3 * width + 9):
        yield given, places


def several_faults(random, system):
    """A block with two to four faults, and a slice that is too short in half of the cases."""
    width = random.of(WIDTHS)
    given = random_block(random, system, random.below(LAST_ROW + 1), width)
    for _ in range(2 + random.below(3)):
        given = random.of(random.of(faults(given, width, system)) or [given])
    return given, 3 * width - random.below(2)


def empty_row(system):
    """A block that is whole and has no samples."""
    return pack("<B4H", system, 0, 0, 0, 0), 3


def wide(random):
    """Rows of the greatest width: accepted, with a slice of one place too few, and with a wrong last word."""
    given = random_block(random, 4, LAST_ROW, WIDEST)
    yield given, 3 * WIDEST
    yield given, 3 * WIDEST - 1
    yield replaced(given, len(given) - 2, word(65535)), 3 * WIDEST


def samples_with(system, *clips):
    """Stepped words whose clips are among these."""
    return (words for words in stepped_words(system) if codes_of_words(system, words).clips in clips)


def wide_clipped(system, *clips):
    """A row of the greatest width, the clips of each sample among these."""
    samples = list(islice(cycle(samples_with(system, *clips)), WIDEST))
    return block(system, 0, samples), 3 * WIDEST


def clipped_at_an_end(system):
    """Rows in which only the first or only the last sample clips, once or twice, low or high."""
    m = middle(system)
    greys = [(16 * SYSTEMS[system].scale, m, m), (m, m, m)]
    for clips in (ONE_LOW, ONE_HIGH, MOST_LOW, MOST_HIGH):
        clipping = next(samples_with(system, clips))
        yield from ((block(system, 0, samples), 3 * len(samples)) for samples in ([clipping, *greys], [*greys, clipping]))


def cases(random):
    yield b"", 0
    yield b"", 3
    for system in SYSTEMS:
        yield empty_row(system)
        for width in WIDTHS:
            yield from single_faults(random, system, width)
        for _ in range(FAULTY_PER_SYSTEM):
            yield several_faults(random, system)
    yield from wide(random)


def clipped():
    yield wide_clipped(1, MOST_LOW)
    yield wide_clipped(2, MOST_HIGH)
    yield wide_clipped(3, *ALL_THREE)
    for system in SYSTEMS:
        yield from clipped_at_an_end(system)


def record(given, places):
    row = read_block(given, places)
    if isinstance(row, int):
        return pack("<8H", places, row, len(given), 0, 0, 0, 0, 0) + given
    head = pack("<8H", places, 0, len(given), row.system, row.number, row.samples, *row.clips)
    return head + given + pack(f"<{len(row.codes)}H", *row.codes)


def main():
    rows.check()
    DATA.mkdir(parents=True, exist_ok=True)
    for name, given in (("cases", cases(Random(4320_7680))), ("clipped", clipped())):
        (DATA / name).write_bytes(b"".join(record(*case) for case in given))


if __name__ == "__main__":
    main()

"""Clipping over the last 64 rows (request 2026-08), from the request's words alone: the whole history is kept, and nothing is
shared with the crates.

A read that is refused answers the refusal's number in place of its row.
Running this file checks it against cases worked out by hand.
"""

from functools import lru_cache
from itertools import cycle, islice
from struct import pack
from typing import NamedTuple

from rows import LAST_ROW, WIDEST, Clips, Row, block, read_block

# 'The 64 latest rows read, or all of them if fewer.'
LATEST = 64


class Figures(NamedTuple):
    rows: int
    low: int
    high: int


@lru_cache(maxsize=None)
def block_reading(given, places):
    """What block reading gives. The bytes and the places alone decide it, so that each block is worked out once."""
    return read_block(given, places)


class Meter:
    """The clips of all rows read, the earliest first. An empty meter has none."""

    def __init__(self):
        self.history = []

    def read(self, given, places):
        """What block reading gives. An accepted read enters one row, a refused one nothing."""
        row = block_reading(given, places)
        if isinstance(row, Row):
            self.history.append(row.clips)
        return row

    @property
    def figures(self):
        """How many rows the figures are of, and the sums over them."""
        latest = self.history[-LATEST:]
        return Figures(len(latest), sum(clips.low for clips in latest), sum(clips.high for clips in latest))


# Cases worked out by hand. The clips of the samples are those of rows.py's clip cases.

TWO_LOW_ONE_HIGH = (180, 1, 1)
ONE_LOW_TWO_HIGH = (75, 254, 254)
TWO_HIGH = (254, 254, 254)
GREY = (235, 128, 128)


def row_of(*samples):
    """A row of system 1 as its bytes and the places that it needs."""
    return block(1, 0, samples), 3 * len(samples)


def after(*reads):
    """The meter after a list of reads from an empty one."""
    meter = Meter()
    for given, places in reads:
        meter.read(given, places)
    return meter


def check_stretch():
    """Lists in which the first two rows differ from the others. The 65th lets the first one go and the 66th the second one."""
    reads = [row_of(TWO_LOW_ONE_HIGH), row_of(ONE_LOW_TWO_HIGH)] + [row_of(TWO_HIGH)] * 64
    for count, figures in (
        (0, (0, 0, 0)),
        (1, (1, 2, 1)),
        (2, (2, 3, 3)),
        (63, (63, 3, 3 + 61 * 2)),
        (64, (64, 3, 3 + 62 * 2)),
        (65, (64, 1, 2 + 63 * 2)),
        (66, (64, 0, 64 * 2)),
    ):
        assert after(*reads[:count]).figures == figures


def refused_reads():
    """Each refusal with a read that it answers. Where it can be, the row has a sample that clips."""
    clipping, places = row_of(TWO_LOW_ONE_HIGH)
    yield 8, (clipping[:-1], places)
    yield 1, (block(5, 0, [TWO_LOW_ONE_HIGH]), places)
    yield 10, (block(1, LAST_ROW + 1, [TWO_LOW_ONE_HIGH]), places)
    yield 9, (pack("<B4H", 1, 0, 0, 0, 0), places)
    yield 11, (clipping + b"\0", places)
    yield 6, row_of(TWO_LOW_ONE_HIGH, (0, 128, 128))
    yield 5, (clipping, places - 1)


def check_refused():
    """Refused reads, first of an empty meter, then between the 64th row and the 65th."""
    meter = Meter()
    for refusal, given in refused_reads():
        assert (meter.read(*given), meter.figures) == (refusal, (0, 0, 0))
    assert meter.read(*row_of(TWO_LOW_ONE_HIGH)) == Row(1, 0, 1, (2, 1), [1, 254, 1])
    assert meter.figures == (1, 2, 1)
    meter = after(*[row_of(TWO_LOW_ONE_HIGH)] * 64)
    for refusal, given in refused_reads():
        assert (meter.read(*given), meter.figures) == (refusal, (64, 128, 64))
    meter.read(*row_of(TWO_HIGH))
    assert meter.figures == (64, 126, 65)


def check_cleared():
    """64 rows that clip, then rows that do not."""
    clipping, grey = [row_of(TWO_LOW_ONE_HIGH)] * 64, row_of(GREY)
    for count, figures in ((1, (64, 126, 63)), (63, (64, 2, 1)), (64, (64, 0, 0)), (65, (64, 0, 0))):
        assert after(*clipping, *[grey] * count).figures == figures


def check_greatest():
    """Rows of the greatest width in which every component clips: both figures together are 64·3·7680."""
    wide = row_of(*[TWO_LOW_ONE_HIGH] * WIDEST)
    for count, figures in ((1, (1, 15360, 7680)), (64, (64, 983040, 491520)), (65, (64, 983040, 491520))):
        assert after(*[wide] * count).figures == figures
    assert 983040 + 491520 == 64 * 3 * WIDEST


def check_going():
    """'Each accepted one enters one row and lets the 65th latest go', which is what the sums over the history say."""
    samples = TWO_LOW_ONE_HIGH, GREY, ONE_LOW_TWO_HIGH, TWO_HIGH, TWO_HIGH
    meter, before = Meter(), Figures(0, 0, 0)
    for sample in islice(cycle(samples), 200):
        entered = meter.read(*row_of(sample)).clips
        gone = meter.history[-65] if len(meter.history) >= 65 else Clips(0, 0)
        assert meter.figures.rows == min(before.rows + 1, 64)
        assert meter.figures.low == before.low + entered.low - gone.low
        assert meter.figures.high == before.high + entered.high - gone.high
        before = meter.figures


def check():
    check_stretch()
    check_refused()
    check_cleared()
    check_greatest()
    check_going()


if __name__ == "__main__":
    check()

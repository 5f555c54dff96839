"""Makes crates/check_segmented/data/ from segments.py: python3 reference/make_segments.py

All numbers are unsigned, 4 bytes, low byte first. The same bytes come at every run.

- lengths: the lengths of two buffers, and the refusal or 0.
- rows_N: 1080 rows of N bytes in progressive order, then the same rows in segmented order.
"""

from pathlib import Path
from struct import pack

import segments
from pseudorandom import Random
from segments import LINES, row_length, to_progressive, to_segmented

DATA = Path(__file__).resolve().parent.parent / "crates" / "check_segmented" / "data"

ROW_LENGTHS = (1, 2, 3, 5)


def lengths():
    """Lengths of two buffers: alike, and each refused for its own reason and for several."""
    for length in ROW_LENGTHS:
        yield LINES * length, LINES * length
    yield from ((0, 0), (0, LINES), (LINES, 0), (LINES, 2 * LINES), (2 * LINES, LINES))
    for length in (1, 1079, 1081, 2159, 2161):
        yield from ((length, length), (length, LINES), (LINES, length), (length, 0), (0, length))


def rows(random, length):
    progressive = bytes(random.below(256) for _ in range(LINES * length))
    segmented = to_segmented(progressive, len(progressive))
    assert to_progressive(segmented, len(segmented)) == progressive
    return progressive + segmented


def main():
    segments.check()
    DATA.mkdir(parents=True, exist_ok=True)
    records = (pack("<3I", source, target, row_length(source, target)[1] or 0) for source, target in lengths())
    (DATA / "lengths").write_bytes(b"".join(records))
    random = Random(1080_1125)
    for length in ROW_LENGTHS:
        (DATA / f"rows_{length}").write_bytes(rows(random, length))


if __name__ == "__main__":
    main()

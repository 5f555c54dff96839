"""Makes crates/check_listings/data/ and crates/check_listings/stdout from rows.py: python3 reference/make_listings.py

Each file of data/ is an input of rowlist; stdout has what rowlist prints for each, under the file's name. The same bytes come at
every run.
"""

from pathlib import Path
from struct import pack

import rows
from make_blocks import random_block, replaced, word
from pseudorandom import Random
from rows import LAST_ROW, WIDEST, block

CRATE = Path(__file__).resolve().parent.parent / "crates" / "check_listings"


def inputs():
    """The inputs by their names, in the order of the listings."""
    random = Random(2020_709)
    grey = block(1, 0, [(235, 128, 128)])
    wide = random_block(random, 4, LAST_ROW, WIDEST)
    return {
        "grey": grey,
        "clipped": block(1, 1, [(16, 240, 240), (63, 102, 240), (15, 128, 128)]),
        # B one code below video data and then on its end, R and B below it.
        "low": block(1, 2, [(2, 127, 128), (3, 127, 128), (1, 1, 1)]),
        # The same above it, then R above it and B on its end.
        "high": block(1, 3, [(253, 129, 128), (252, 129, 128), (254, 254, 254), (254, 128, 254)]),
        # R and B low and G high, then R high and B low.
        "both": block(1, 4, [(180, 1, 1), (147, 47, 198)]),
        "system2": random_block(random, 2, 100, 3),
        "system3": random_block(random, 3, 2159, 4),
        "wide": wide,
        "empty": b"",
        "system": replaced(grey, 0, b"\5"),
        "word": replaced(grey, 5, word(0)),
        "end": grey[:-1],
        "count": replaced(grey, 7, word(2)),
        "row": replaced(grey, 1, word(LAST_ROW + 1)),
        "after": grey + b"\0",
        "long": wide + pack("5000x"),
    }


def main():
    rows.check()
    given = inputs()
    (CRATE / "data").mkdir(parents=True, exist_ok=True)
    for name, data in given.items():
        (CRATE / "data" / name).write_bytes(data)
    listed = (f"{name}:\n{rows.listing(data)}" for name, data in given.items())
    (CRATE / "stdout").write_text("".join(listed))


if __name__ == "__main__":
    main()

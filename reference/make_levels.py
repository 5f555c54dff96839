"""Makes crates/check_levels/data/ from levels.py: python3 reference/make_levels.py

All numbers are unsigned, low byte first. The same bytes come at every run.

- codes, differences: records of system (4 bytes), code or word, refusal or 0, whole millivolts plus 1000, and remainder (2 bytes
  each; the last two 0 where refused). codes has the levels of R', G', B' or Y', differences those of Cb or Cr, of the same numbers
  in the same order.
"""

from pathlib import Path
from struct import pack

import levels
from exact import SYSTEMS

DATA = Path(__file__).resolve().parent.parent / "crates" / "check_levels" / "data"

# No level is below −397 mV, so that no sum is negative.
ADDED_MILLIVOLTS = 1000

BAD_SYSTEMS = (0, 5, 255, 256, 65537, 2**32 - 1)


def cases():
    """Every number of a system's bits, timing codes too; some above them; and systems that are none, also with timing codes."""
    for system in SYSTEMS:
        yield from ((system, code) for code in range(256 * SYSTEMS[system].scale))
    for system in SYSTEMS:
        above = 256 * SYSTEMS[system].scale
        yield from ((system, code) for code in (above, above + 1, 32767, 32768, 65535))
    for system in BAD_SYSTEMS:
        yield from ((system, code) for code in (0, 1, 16, 128, 65535))


def record(call, system, code):
    level = call(system, code)
    if isinstance(level, int):
        return pack("<I4H", system, code, level, 0, 0)
    return pack("<I4H", system, code, 0, level.millivolts + ADDED_MILLIVOLTS, level.remainder)


def main():
    levels.check()
    DATA.mkdir(parents=True, exist_ok=True)
    for name, call in (("codes", levels.level_of_code), ("differences", levels.level_of_difference)):
        (DATA / name).write_bytes(b"".join(record(call, *case) for case in cases()))


if __name__ == "__main__":
    main()

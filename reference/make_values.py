"""Makes crates/check_values/data/ from exact.py: python3 reference/make_values.py

All numbers are unsigned, low byte first. The same bytes come at every run.

- spans: for systems 1 to 4 and each nominal code in order, the least and the greatest light (2 bytes each).
- signals: records of system (2 bytes), code or 0 where refused with 7 (2 bytes) and the float's bits (4 bytes).
- restored: for systems 1 to 4 and each nominal code in order, the bits of the float that the way back gives (4 bytes).
"""

from fractions import Fraction
from pathlib import Path
from struct import pack

import exact
from pseudorandom import Random

DATA = Path(__file__).resolve().parent.parent / "crates" / "check_values" / "data"

ONE = 0x3F800000
SIGN = 0x80000000

# Zeros, ends of the subnormals and of the normals, 1 and its neighbours, the bench values, infinities and NaNs.
EDGES = [
    *(0, SIGN, 1, SIGN | 1, 0x7FFFFF, SIGN | 0x7FFFFF, 0x800000, SIGN | 0x800000),
    *(ONE - 1, ONE, ONE + 1, SIGN | ONE, 0x3F000000, 0x3EC00000, 0x40000000, 0x7F7FFFFF, 0xFF7FFFFF),
    *(0x7F800000, 0xFF800000),
    *(0x7FC00000, 0xFFC00000, 0x7F800001, 0xFF800001, 0x7FBFFFFF, 0x7FFFFFFF, 0xFFFFFFFF, 0x7FC12345),
]

RANDOM_PER_SYSTEM = 2000


def half_way_signals(system):
    """The float nearest to each half-way point between two codes, and its two neighbours."""
    s = exact.SYSTEMS[system].scale
    low, high = exact.nominal(system)
    for code in range(low, high):
        middle = exact.nearest_f32(Fraction(2 * code + 1 - 32 * s, 438 * s))
        yield from (middle - 1, middle, middle + 1)


def random_signals(random):
    """Patterns of all 32 bits; then floats from 0 to 1, half of them even in their bits and half even in value."""
    for _ in range(RANDOM_PER_SYSTEM):
        yield random.word()
    for _ in range(RANDOM_PER_SYSTEM // 2):
        yield random.below(ONE + 1)
    for _ in range(RANDOM_PER_SYSTEM // 2):
        yield exact.nearest_f32(Fraction(random.below(2**24 + 1), 2**24))


def signal_record(system, bits):
    code = exact.quantised(system, bits)
    return pack("<HHI", system, 0 if code is None else code, bits)


def spans():
    for system in exact.SYSTEMS:
        for least, greatest in exact.spans(system):
            yield pack("<HH", least, greatest)


def signals():
    random = Random(709_2020)
    for system in exact.SYSTEMS:
        for source in (EDGES, half_way_signals(system), random_signals(random)):
            for bits in source:
                yield signal_record(system, bits)


def restored():
    for system in exact.SYSTEMS:
        for code in exact.nominal_codes(system):
            yield pack("<I", exact.restored(system, code))


def main():
    exact.check()
    DATA.mkdir(parents=True, exist_ok=True)
    for name, records in (("spans", spans()), ("signals", signals()), ("restored", restored())):
        (DATA / name).write_bytes(b"".join(records))


if __name__ == "__main__":
    main()

"""Document 01 in exact arithmetic: whole numbers and fractions only, and nothing shared with the crates.

One function for each sentence. The names are those of the document; E' is a signal, L a light as a share of full light, D a code.
Running this file checks it against the document's bench values.
"""

from bisect import bisect_right
from fractions import Fraction
from functools import lru_cache
from math import floor
from typing import NamedTuple

# 'Four systems'


class System(NamedTuple):
    matrix: int
    bits: int
    alpha: Fraction
    beta: Fraction

    @property
    def scale(self):
        return 2 ** (self.bits - 8)


SYSTEMS = {
    1: System(709, 8, Fraction("1.099"), Fraction("0.018")),
    2: System(709, 10, Fraction("1.099"), Fraction("0.018")),
    3: System(2020, 10, Fraction("1.099"), Fraction("0.018")),
    4: System(2020, 12, Fraction("1.0993"), Fraction("0.0181")),
}


def INT(v):
    """The greatest whole number not above v + 1/2: halves go up."""
    return floor(v + Fraction(1, 2))


def nominal(system):
    """The least and the greatest nominal R', G', B' or Y' code."""
    s = SYSTEMS[system].scale
    return 16 * s, 235 * s


def nominal_codes(system):
    low, high = nominal(system)
    return range(low, high + 1)


def video_data(system):
    """The video data codes and words, R', G', B', Y', Cb and Cr alike (request 2026-03)."""
    s = SYSTEMS[system].scale
    return range(s, 255 * s)


# 'Light to code'

FULL_LIGHT = 65535


def code_of_value(system, value):
    """The code of a signal V or E' by its exact value."""
    return INT((219 * value + 16) * SYSTEMS[system].scale)


@lru_cache(maxsize=None)
def least_ninth_powers(system):
    """What L^9 has to reach for each code D from 16s+1 to 235s, in the order of the codes: ((v + α − 1)/α)^20."""
    s, alpha = SYSTEMS[system].scale, SYSTEMS[system].alpha
    low, high = nominal(system)
    signals = (Fraction(2 * code - 1 - 32 * s, 438 * s) for code in range(low + 1, high + 1))
    return [((v + alpha - 1) / alpha) ** 20 for v in signals]


def code_of_light(system, light, full=FULL_LIGHT):
    """The code of a light on the scale whose full light is given: the document's own, or that of request 2026-11's sums."""
    level = Fraction(light, full)
    if level < SYSTEMS[system].beta:
        return code_of_value(system, Fraction("4.5") * level)
    reached = bisect_right(least_ninth_powers(system), level**9)
    return nominal(system)[0] + reached


@lru_cache(maxsize=None)
def spans(system):
    """The least and the greatest light of each nominal code, in the order of the codes."""
    least, greatest = {}, {}
    for light in range(FULL_LIGHT + 1):
        code = code_of_light(system, light)
        least.setdefault(code, light)
        greatest[code] = light
    return [(least[code], greatest[code]) for code in nominal_codes(system)]


# 'Float signals'. A float is given by its 32 bits: sign, 8 bits of exponent, 23 of fraction.

REFUSED_SIGNAL = 7
NAN = "not a number"
INFINITE = "infinite"


def value_of_f32(bits):
    """The exact value of the float with these bits, or NAN or INFINITE. Both zeros have the value 0."""
    sign = -1 if bits >> 31 else 1
    exponent = bits >> 23 & 0xFF
    fraction = bits & 0x7FFFFF
    if exponent == 0xFF:
        return NAN if fraction else INFINITE
    if exponent == 0:
        return sign * Fraction(fraction, 2**149)
    return sign * (2**23 + fraction) * Fraction(2) ** (exponent - 150)


def is_signal(value):
    return value not in (NAN, INFINITE) and 0 <= value <= 1


def quantised(system, bits):
    """The code of the signal with these bits, or None where it is refused with 7."""
    value = value_of_f32(bits)
    return code_of_value(system, value) if is_signal(value) else None


def half_to_even(v):
    """The whole number nearest to v, the even one of two."""
    down = floor(v)
    rest = v - down
    if rest == Fraction(1, 2):
        return down + down % 2
    return down + 1 if rest > Fraction(1, 2) else down


def nearest_f32(value):
    """The bits of the float nearest to a value from 0 to 1, ties to even."""
    if value == 0:
        return 0
    exponent = 127
    while exponent > 1 and value < Fraction(2) ** (exponent - 127):
        exponent -= 1
    steps = half_to_even(value / Fraction(2) ** (exponent - 150))
    # The leading digit, where there is one, adds to the exponent field below it; so does a carry.
    return (exponent - 1 << 23) + steps


def restored(system, code):
    """The bits of the float that the way back gives for a nominal code."""
    s = SYSTEMS[system].scale
    return nearest_f32(Fraction(code - 16 * s, 219 * s))


# The document's bench values, and what it says of all codes.


def check_lights():
    assert [code_of_light(1, light) for light in (33, 34)] == [16, 17]
    assert spans(1)[17 - 16] == (34, 99)
    assert code_of_light(1, 32768) == 171
    assert code_of_light(2, 32768) == 682
    assert [code_of_light(4, light) for light in (1186, 1187)] == [541, 542]
    for system in SYSTEMS:
        ends = (code_of_light(system, 0), code_of_light(system, FULL_LIGHT))
        assert ends == nominal(system)
        check_spans(system)


def check_spans(system):
    """The codes rise with the light and each has a light, so the spans follow one another."""
    following = 0
    for code, (least, greatest) in zip(nominal_codes(system), spans(system), strict=True):
        assert least == following <= greatest
        assert code_of_light(system, least) == code_of_light(system, greatest) == code
        following = greatest + 1
    assert following == FULL_LIGHT + 1


def check_signals():
    half, three_eighths, one = 0x3F000000, 0x3EC00000, 0x3F800000
    assert [value_of_f32(b) for b in (half, three_eighths, one)] == [Fraction(1, 2), Fraction(3, 8), 1]
    assert quantised(1, half) == 126
    assert quantised(2, three_eighths) == 393
    for bits in (1, 0x7FFFFF, 0x800000, half, three_eighths, one - 1, one):
        assert nearest_f32(value_of_f32(bits)) == bits
    for system in SYSTEMS:
        for code in nominal_codes(system):
            check_restored(system, code)


def check_restored(system, code):
    """No neighbour is nearer, at the same distance the fraction is even, and quantising returns the code."""
    s = SYSTEMS[system].scale
    wanted = Fraction(code - 16 * s, 219 * s)
    bits = restored(system, code)
    distance = abs(value_of_f32(bits) - wanted)
    for other in (bits - 1, bits + 1):
        if other >= 0:
            away = abs(value_of_f32(other) - wanted)
            assert distance < away or distance == away and bits % 2 == 0
    assert quantised(system, bits) == code


def check():
    check_lights()
    check_signals()


if __name__ == "__main__":
    check()

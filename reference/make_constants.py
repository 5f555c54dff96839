"""Makes crates/check_constants/data/ from constant.py: python3 reference/make_constants.py

All numbers are unsigned, low byte first. The same bytes come at every run.

- words, words_refused: records of system (4 bytes), refusal or 0, the lights R, G, B, and Y'c, C'bc, C'rc (2 bytes each; the
  last three 0 where refused).
- codes, codes_refused: records of system (4 bytes), refusal or 0, Y'c, C'bc, C'rc, R', B' and the counts of components clipped
  low and clipped high (2 bytes each; the last four 0 where refused).
"""

from bisect import bisect_left
from fractions import Fraction
from itertools import product
from pathlib import Path
from struct import pack

import constant
from constant import BLUE, FULL_SUM, KB, KG, KR, LIKE, RED, difference_value, least_sums, luma, returned_value
from exact import FULL_LIGHT, INT, SYSTEMS, code_of_light, spans, video_data
from pseudorandom import Random
from rows import middle

DATA = Path(__file__).resolve().parent.parent / "crates" / "check_constants" / "data"

LIGHTS = range(FULL_LIGHT + 1)

# The ends, the bench's lights, and 1180, the first light not below β in system 5.
CUBE_LIGHTS = 0, 1, 33, 34, 1180, 1186, 1187, 32768, 65534, 65535
DARKEST_GREYS = 200
MOST_GREY_BOUNDARIES = 260
# Each code of system 5 and each third of system 6.
MOST_LUMA_BOUNDARIES = 1200
MOST_CODE_BOUNDARIES = 150
RANDOM_LIGHTS = 900
RANDOM_DARK = 500
# β is between the lights 1179 and 1180 in system 5, between 1186 and 1187 in system 6.
DARK_BELOW = 200, 2400
RANDOM_SATURATED = 500
NEAR_HALVES = 60
TRIES = 40

LUMA_STEPS = 4
DIFFERENCE_STEPS = 5
END_STEPS = 12
# Each word of system 5 and each third of system 6.
MOST_DIFFERENCES = 1400
RANDOM_WORDS = 1000
WORDS_OF_LIGHTS = 1000

# The other calls' systems, numbers that fewer bits or another byte order would make 5 or 6, and some beside them.
BAD_SYSTEMS = (
    *(0, 1, 2, 3, 4, 7, 8, 133, 255, 256, 257, 261, 262, 1280, 1536, 65535, 65541, 65542),
    *(2**24 + 5, 5 * 2**24, 6 * 2**24, 2**31, 2**31 + 5, 2**31 + 6, 2**32 - 6, 2**32 - 5, 2**32 - 1),
)


def at_most(count, values):
    """Equal steps through values, so many at most."""
    return values[:: -(-len(values) // count)]


def with_component(triple, place, value):
    return (*triple[:place], value, *triple[place + 1 :])


def random_triple(random, of):
    return tuple(random.of(of) for _ in range(3))


# Triples of light


def greys(system):
    least = [light for light, _ in spans(LIKE[system])[1:]]
    boundaries = at_most(MOST_GREY_BOUNDARIES, least)
    lights = {*LIGHTS[: DARKEST_GREYS + 1], *boundaries, *(light - 1 for light in boundaries), FULL_LIGHT}
    return ((light, light, light) for light in sorted(lights))


def lights_with_sum(random, total):
    """A triple with exactly this sum, or None where the tries find none: R at random, and B so that G comes out whole."""
    for _ in range(TRIES):
        r = random.of(LIGHTS[: total // KR + 1])
        rest = total - KR * r
        blues = LIGHTS[rest * pow(KB, -1, KG) % KG :: KG]
        fitting = [b for b in blues if 0 <= rest - KB * b <= KG * FULL_LIGHT]
        if fitting:
            b = random.of(fitting)
            return r, (rest - KB * b) // KG, b
    return None


def at_luma_boundaries(system, random):
    """Sums that are the least of a code, or one part less: of nearly each two, one has another code if rounded to a light."""
    bend = SYSTEMS[LIKE[system]].beta * FULL_SUM
    first = *at_most(MOST_LUMA_BOUNDARIES, least_sums(system)), int(bend)
    found = (lights_with_sum(random, total) for least in first for total in (least - 1, least))
    return (lights for lights in found if lights)


def at_code_boundaries(system, random):
    """Both sides of the boundaries of R' and of B', beside other lights at random."""
    for least, _ in at_most(MOST_CODE_BOUNDARIES, spans(LIKE[system])[1:]):
        for place, light in product((0, 2), (least - 1, least)):
            yield with_component(random_triple(random, LIGHTS), place, light)


def dark(random):
    for _ in range(RANDOM_DARK):
        yield random_triple(random, LIGHTS[: random.of(DARK_BELOW)])


def saturated(random):
    for _ in range(RANDOM_SATURATED):
        yield with_component(random_triple(random, LIGHTS), random.below(3), random.of((0, FULL_LIGHT)))


def nearest_halves(value, candidates):
    """The candidates whose values are nearest to a half, where rounding is decided. None is at a half."""
    return sorted(candidates, key=lambda x: abs(value(x) % 1 - Fraction(1, 2)))[:NEAR_HALVES]


def lights_with_difference(system, random, place, difference):
    """A triple whose code at a place is so much above Y'c, and whose other lights are alike; None where the tries find none."""
    for _ in range(TRIES):
        own = random.of(LIGHTS)
        wanted = code_of_light(LIKE[system], own) - difference
        others = bisect_left(LIGHTS, wanted, key=lambda light: luma(system, with_component((light,) * 3, place, own)))
        lights = with_component((others,) * 3, place, own)
        if others in LIGHTS and luma(system, lights) == wanted:
            return lights
    return None


def differences_near_halves(system, random):
    steps = 219 * SYSTEMS[LIKE[system]].scale
    for (place, divisors), side in product(((0, RED), (2, BLUE)), (range(-steps, 0), range(1, steps + 1))):
        for difference in nearest_halves(lambda x: difference_value(divisors, x), side):
            lights = lights_with_difference(system, random, place, difference)
            if lights:
                yield lights


def light_triples(system, random):
    yield from product(CUBE_LIGHTS, repeat=3)
    yield from greys(system)
    yield from at_luma_boundaries(system, random)
    yield from at_code_boundaries(system, random)
    yield from (random_triple(random, LIGHTS) for _ in range(RANDOM_LIGHTS))
    yield from dark(random)
    yield from saturated(random)
    yield from differences_near_halves(system, random)


# Triples of words


def grid(system):
    """All of video data in steps, with its ends, those of nominal, m, and the neighbours of these."""
    values, s, m = video_data(LIKE[system]), SYSTEMS[LIKE[system]].scale, middle(LIKE[system])
    ends = *values[:2], 16 * s, *values[-2:]
    lumas = sorted({*ends, 235 * s, *at_most(LUMA_STEPS + 1, values)})
    differences = sorted({*ends, 240 * s, m - 1, m, m + 1, *at_most(DIFFERENCE_STEPS + 1, values)})
    return product(lumas, differences, differences)


def unclipped_lumas(system, difference):
    """Values of Y'c so close to an end that no component on this side of m clips at the other end."""
    values = video_data(LIKE[system])
    few = len(values) // 24
    return values[:few] if difference > 0 else values[-few:]


def sides(system):
    """The words of a colour difference below m, and those above it."""
    values, m = video_data(LIKE[system]), middle(LIKE[system])
    return values[: m - values[0]], values[m - values[0] + 1 :]


def each_difference(system, random):
    """Each word on a side, or equal steps through them, beside another of the side, and unclipped."""
    for side in sides(system):
        words = at_most(MOST_DIFFERENCES // 2, side)
        lumas = unclipped_lumas(system, side[0] - middle(LIKE[system]))
        yield from ((random.of(lumas), *both) for both in zip(words, reversed(words)))


def words_near_halves(system, random):
    m = middle(LIKE[system])
    for (place, divisors), side in product(((2, RED), (1, BLUE)), sides(system)):
        lumas = unclipped_lumas(system, side[0] - m)
        for word in nearest_halves(lambda x: returned_value(divisors, x - m), side):
            yield with_component((random.of(lumas), random.of(side), random.of(side)), place, word)


def word_for_code(system, divisors, y, code):
    """The word of a colour difference that brings a component nearest to a code."""
    m = middle(LIKE[system])
    return min(video_data(LIKE[system]), key=lambda word: abs(INT(y + returned_value(divisors, word - m)) - code))


def words_at_ends(system):
    """One component on an end of video data or one code beyond it, the other as near to such a place as it can be."""
    values, m = video_data(LIKE[system]), middle(LIKE[system])
    targets = values[0] - 1, values[0], values[-1], values[-1] + 1
    for cr, (red, blue) in product(at_most(END_STEPS, values), product(targets, repeat=2)):
        y = red - INT(returned_value(RED, cr - m))
        if y in values:
            yield y, word_for_code(system, BLUE, y, blue), cr
    for cb, (red, blue) in product(at_most(END_STEPS, values), product(targets, repeat=2)):
        y = blue - INT(returned_value(BLUE, cb - m))
        if y in values:
            yield y, cb, word_for_code(system, RED, y, red)


def word_triples(system, lights, random):
    yield from grid(system)
    yield from each_difference(system, random)
    yield from words_near_halves(system, random)
    yield from words_at_ends(system)
    yield from (random_triple(random, video_data(LIKE[system])) for _ in range(RANDOM_WORDS))
    yield from (constant.words_of_lights(system, triple) for triple in at_most(WORDS_OF_LIGHTS, lights))


# What is refused


def refused_lights():
    triples = (0, 0, 0), (FULL_LIGHT, FULL_LIGHT, FULL_LIGHT), (1900, 9000, 60000), (11796, 11796, 11796)
    return product(BAD_SYSTEMS, triples)


def outside(system, random):
    """Triples with one, two or three words outside video data: next to it, at the ends of the timing codes, far from it."""
    values, s = video_data(LIKE[system]), SYSTEMS[LIKE[system]].scale
    outs = 0, s - 1, 255 * s, 256 * s - 1, 256 * s, 32768, 65535
    for wrong, out in product(product((False, True), repeat=3), outs):
        if any(wrong):
            yield tuple(out if wrong[i] else random.of(values) for i in range(3))


def refused_words(random):
    """In systems that are none also words outside video data, since 1 comes first."""
    yield from product(BAD_SYSTEMS, ((512, 512, 512), (2048, 2048, 2048), (0, 0, 0), (512, 65535, 512), (0, 512, 4095)))
    for system in LIKE:
        yield from ((system, words) for words in outside(system, random))
    # Video data of the other system alone.
    yield from ((5, (2048, 2048, 2048)), (5, (512, 512, 4079)), (6, (4, 512, 512)), (6, (512, 4, 512)), (6, (512, 512, 15)))


# The files


def words_record(system, lights):
    words = constant.words_of_lights(system, lights)
    if isinstance(words, int):
        return pack("<I7H", system, words, *lights, 0, 0, 0)
    return pack("<I7H", system, 0, *lights, *words)


def codes_record(system, words):
    codes = constant.codes_of_words(system, words)
    if isinstance(codes, int):
        return pack("<I8H", system, codes, *words, 0, 0, 0, 0)
    return pack("<I8H", system, 0, *words, *codes.codes, *codes.clips)


def files():
    random = Random(2020_11)
    lights = {system: list(light_triples(system, random)) for system in LIKE}
    bench = [(system, triple) for system, triple, _ in constant.ENCODED]
    cases = bench + [(system, triple) for system in LIKE for triple in lights[system]]
    yield "words", (words_record(*case) for case in cases)
    bench = [(system, words) for system, words, *_ in constant.DECODED]
    cases = bench + [(system, words) for system in LIKE for words in word_triples(system, lights[system], random)]
    yield "codes", (codes_record(*case) for case in cases)
    yield "words_refused", (words_record(*case) for case in refused_lights())
    yield "codes_refused", (codes_record(*case) for case in refused_words(random))


def main():
    constant.check()
    DATA.mkdir(parents=True, exist_ok=True)
    for name, records in files():
        (DATA / name).write_bytes(b"".join(records))


if __name__ == "__main__":
    main()

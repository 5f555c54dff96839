"""Constant luminance (request 2026-11), from the request's words alone: whole numbers and fractions, and nothing shared with the
crates.

A call that is refused answers the refusal's number in place of its result.
Running this file checks values worked out by hand, and what the request says of all triples of light.
"""

from bisect import bisect_left, bisect_right
from fractions import Fraction
from functools import lru_cache
from itertools import product
from typing import NamedTuple

from exact import FULL_LIGHT, INT, SYSTEMS, code_of_light, nominal, nominal_codes, spans
from pseudorandom import Random
from rows import REFUSED_CODE, REFUSED_SYSTEM, are_video_data, clipped, middle, nominal_differences

# 'Systems 5 and 6 take n, α and β of 3 and 4.'
LIKE = {5: 3, 6: 4}


# 'The curve of 0.2627R + 0.6780G + 0.0593B taken on light'

# Sums of lights are counted in ten-thousandths of a light, so that each is a whole number.
PARTS_OF_LIGHT = 10000
KR, KG, KB = 2627, 6780, 593
FULL_SUM = PARTS_OF_LIGHT * FULL_LIGHT


def sum_of_lights(lights):
    r, g, b = lights
    return KR * r + KG * g + KB * b


def code_of_sum(system, total):
    """'Quantised once from that exact sum': the curve's own rule on the finer scale."""
    return code_of_light(LIKE[system], total, FULL_SUM)


@lru_cache(maxsize=None)
def least_sums(system):
    """The least sum of each code from 16s+1 to 235s, in the order of the codes; found by the rule and kept for speed."""
    low, high = nominal(LIKE[system])
    found = []
    for code, (light, _) in zip(range(low + 1, high + 1), spans(LIKE[system])[1:], strict=True):
        # The code's least light has it and the light before has not, so that the least sum lies between theirs.
        sums = range(PARTS_OF_LIGHT * (light - 1) + 1, PARTS_OF_LIGHT * light + 1)
        found.append(sums[bisect_left(sums, code, key=lambda total: code_of_sum(system, total))])
    return found


def luma(system, lights):
    """Y'c of a triple of light."""
    reached = bisect_right(least_sums(system), sum_of_lights(lights))
    return nominal(LIKE[system])[0] + reached


def red_and_blue(system, lights):
    """R' and B', the codes of the lights R and B themselves."""
    return code_of_light(LIKE[system], lights[0]), code_of_light(LIKE[system], lights[2])


# 'Divided by 1.9404 if not above zero and by 1.5820 if above; R' − Y'c by 1.7182 and 0.9938'


class Divisors(NamedTuple):
    not_above: Fraction
    above: Fraction


RED = Divisors(Fraction("1.7182"), Fraction("0.9938"))
BLUE = Divisors(Fraction("1.9404"), Fraction("1.5820"))


def divisor(divisors, difference):
    return divisors.above if difference > 0 else divisors.not_above


def difference_value(divisors, difference):
    """What is added to m inside INT for a difference of codes, R' − Y'c or B' − Y'c."""
    return difference / divisor(divisors, difference) * Fraction(224, 219)


def difference_word(system, divisors, difference):
    return INT(difference_value(divisors, difference) + middle(LIKE[system]))


def words_of_lights(system, lights):
    """Y'c, C'bc and C'rc. None is beyond nominal, which check_extremes shows, so that none is moved or counted."""
    if system not in LIKE:
        return REFUSED_SYSTEM
    y, (r, b) = luma(system, lights), red_and_blue(system, lights)
    return y, difference_word(system, BLUE, b - y), difference_word(system, RED, r - y)


# 'Decoding gives only R' = INT(Y'c + q·cr·d), and B' from cb'


def returned_value(divisors, difference):
    """What is added to Y'c inside INT for a word's signed distance from m, whose side gives the divisor: q·cr·d or q·cb·d."""
    return Fraction(219, 224) * difference * divisor(divisors, difference)


def codes_before_clipping(system, words):
    """R' and B' as INT leaves them: whole numbers, of which some are below 0 or above 256s."""
    y, cb, cr = words[0], words[1] - middle(LIKE[system]), words[2] - middle(LIKE[system])
    return INT(y + returned_value(RED, cr)), INT(y + returned_value(BLUE, cb))


def codes_of_words(system, words):
    """R' and B', 'clipped and counted as in 2026-07'."""
    if system not in LIKE:
        return REFUSED_SYSTEM
    if not are_video_data(LIKE[system], words):
        return REFUSED_CODE
    return clipped(LIKE[system], codes_before_clipping(system, words))


# Values worked out by hand, and what the request says of all triples of light.

ENCODED = (
    # 0.2627^0.45 is 0.547970, so V is 0.503219 and Y'c 504.82; B' − Y'c is −441 and R' − Y'c 435, so −232.46 and 447.71.
    (5, (65535, 0, 0), (505, 280, 960)),
    # 0.6780^0.45 is 0.839563, so V is 0.823680 and Y'c 785.54; both differences are −722, so −380.58 and −429.80.
    (5, (0, 65535, 0), (786, 131, 82)),
    # 0.0593^0.45 is 0.280462, so V is 0.209228 and Y'c 247.28; the differences are 693 and −183, so 448.05 and −108.94.
    (5, (0, 0, 65535), (247, 960, 403)),
    # V of 0.9407 is 0.970180 and Y'c 913.88; the differences are −850 and 26, so −448.06 and 26.76.
    (5, (65535, 65535, 0), (914, 64, 539)),
    # V of 0.7373 is 0.859159 and Y'c 816.62; the differences are 123 and −753, so 79.52 and −448.26.
    (5, (0, 65535, 65535), (817, 592, 64)),
    # A blue stage lamp: the sum is 10159.13 lights, V 0.375974 and Y'c 393.35; the differences are 510 and −220.
    (5, (1900, 9000, 60000), (393, 842, 381)),
    (5, (11796, 11796, 11796), (422, 512, 512)),
    # The sums are 21763.2 and 7465.9 lights and Y'c is 563.5006 and 339.4988, while the lights 21763 and 7466 have 563 and 340.
    (5, (0, 30000, 24000), (564, 529, 214)),
    (5, (0, 9000, 23000), (339, 667, 348)),
    # The same triples with 1.0993: Y'c is 2018.81, 3142.01, 988.38, 3655.48, 3266.36 and 1572.82.
    (6, (65535, 0, 0), (2019, 1119, 3840)),
    (6, (0, 65535, 0), (3142, 527, 330)),
    (6, (0, 0, 65535), (988, 3840, 1612)),
    (6, (65535, 65535, 0), (3655, 256, 2156)),
    (6, (0, 65535, 65535), (3266, 2367, 256)),
    (6, (1900, 9000, 60000), (1573, 3365, 1523)),
    (6, (11796, 11796, 11796), (1689, 2048, 2048)),
    # The sums are 5236.2 and 770.9 lights and Y'c is 1143.5013 and 441.4818, while the lights 5236 and 771 have 1143 and 442.
    (6, (0, 3000, 54000), (1144, 3532, 1519)),
    (6, (0, 0, 13000), (441, 2906, 1938)),
)

# The words, R' and B' as INT leaves them, the codes and the clips.
DECODED = (
    # R' is Y'c + 1.67985·cr up to m and Y'c + 0.97162·cr above, B' is Y'c + 1.89709·cb and Y'c + 1.54669·cb.
    (5, (505, 280, 960), (940, 65), (940, 65), (0, 0)),
    (5, (247, 960, 403), (64, 940), (64, 940), (0, 0)),
    # One low: 64 − 112·1.67985 is −124.14. One high: 940 + 188·1.54669 is 1230.78.
    (5, (64, 512, 400), (-124, 64), (4, 64), (1, 0)),
    (5, (940, 700, 512), (940, 1231), (940, 1019), (0, 1)),
    # One of each: 600 − 853.36 and 600 + 600.11, then 600 + 492.61 and 600 − 963.72.
    (5, (600, 900, 4), (-253, 1200), (4, 1019), (1, 1)),
    (5, (600, 4, 1019), (1093, -364), (1019, 4), (1, 1)),
    # Two low: 100 − 853.36 and 100 − 963.72. Two high: 900 + 492.61 and 900 + 784.17.
    (5, (100, 4, 4), (-753, -864), (4, 4), (2, 0)),
    (5, (900, 1019, 1019), (1393, 1684), (1019, 1019), (0, 2)),
    # R' on its ends and one code beyond them: 4.32 and 3.32, 1018.97 and 1019.97.
    (5, (6, 512, 511), (4, 6), (4, 6), (0, 0)),
    (5, (5, 512, 511), (3, 5), (4, 5), (1, 0)),
    (5, (1018, 512, 513), (1019, 1018), (1019, 1018), (0, 0)),
    (5, (1019, 512, 513), (1020, 1019), (1019, 1019), (0, 1)),
    # B' likewise: 4.10 and 3.10, 1018.55 and 1019.55.
    (5, (6, 511, 512), (6, 4), (6, 4), (0, 0)),
    (5, (5, 511, 512), (5, 3), (5, 4), (1, 0)),
    (5, (1017, 513, 512), (1017, 1019), (1017, 1019), (0, 0)),
    (5, (1018, 513, 512), (1018, 1020), (1018, 1019), (0, 1)),
    # Both beside 16 and 4079: 16.32 and 16.10, 15.32 and 15.10, 4077.97 and 4078.55, 4078.97 and 4079.55.
    (6, (18, 2047, 2047), (16, 16), (16, 16), (0, 0)),
    (6, (17, 2047, 2047), (15, 15), (16, 16), (2, 0)),
    (6, (4077, 2049, 2049), (4078, 4079), (4078, 4079), (0, 0)),
    (6, (4078, 2049, 2049), (4079, 4080), (4079, 4079), (0, 1)),
    # The ends of nominal at once: 2000 − 1792·1.67985 is −1010.29 and 2000 + 1792·1.54669 is 4771.66.
    (6, (2000, 3840, 256), (-1010, 4772), (16, 4079), (1, 1)),
)


def check_figures():
    for system, lights, words in ENCODED:
        assert words_of_lights(system, lights) == words
    # What the sums rounded to a light would give.
    assert [code_of_light(LIKE[5], light) for light in (21763, 7466)] == [563, 340]
    assert [code_of_light(LIKE[6], light) for light in (5236, 771)] == [1143, 442]
    for system, words, before, codes, clips in DECODED:
        assert codes_before_clipping(system, words) == before
        assert codes_of_words(system, words) == (codes, clips)


def check_refusals():
    """'All other calls refuse 5 and 6 with 1, and these two refuse 1 to 4 so', and 6 is after 1."""
    assert not LIKE.keys() & SYSTEMS.keys()
    for system in (0, 1, 2, 3, 4, 7, 2**32 - 1):
        assert words_of_lights(system, (0, 0, 0)) == REFUSED_SYSTEM
        assert [codes_of_words(system, (512, 512, word)) for word in (512, 0, 65535)] == [REFUSED_SYSTEM] * 3
    for system in LIKE:
        s, m = SYSTEMS[LIKE[system]].scale, middle(LIKE[system])
        for word in (0, s - 1, 255 * s, 256 * s - 1, 65535):
            assert [codes_of_words(system, words) for words in ((word, m, m), (m, word, m), (m, m, word))] == [REFUSED_CODE] * 3
        for word in (s, 255 * s - 1):
            assert codes_of_words(system, (word, m, m)) == ((word, word), (0, 0))


def check_least_sums(system):
    """The table is the rule's: each least sum has its code and the sum before has the code before."""
    low, high = nominal(LIKE[system])
    for code, least in zip(range(low + 1, high + 1), least_sums(system), strict=True):
        assert (code_of_sum(system, least - 1), code_of_sum(system, least)) == (code - 1, code)
    assert (code_of_sum(system, 0), code_of_sum(system, FULL_SUM)) == (low, high)
    # The codes rise on each side of β, which is a whole number of parts; they do so across it too.
    bend = SYSTEMS[LIKE[system]].beta * FULL_SUM
    assert bend.denominator == 1
    assert code_of_sum(system, bend.numerator - 1) == code_of_sum(system, bend.numerator)


def check_greys(system):
    """A grey has its light's own code as Y'c and no colour difference, and returns."""
    m = middle(LIKE[system])
    for code, lights in zip(nominal_codes(LIKE[system]), spans(LIKE[system]), strict=True):
        assert [words_of_lights(system, (light, light, light)) for light in lights] == [(code, m, m)] * 2
        assert codes_of_words(system, (code, m, m)) == ((code, code), (0, 0))


def check_extremes(system):
    """No word is beyond nominal: of the triples with one B' the greatest and the least C'bc are tried, and so for R' and C'rc."""
    blues, reds = [], []
    for least, greatest in spans(LIKE[system]):
        # Y'c rises with each light, so it is least beside no other light and greatest beside full ones.
        blues += (words_of_lights(system, (others, others, b))[1] for others, b in ((0, least), (FULL_LIGHT, greatest)))
        reds += (words_of_lights(system, (r, others, others))[2] for others, r in ((0, least), (FULL_LIGHT, greatest)))
    ends = nominal_differences(LIKE[system])[0], nominal_differences(LIKE[system])[-1]
    assert (min(blues), max(blues)) == (min(reds), max(reds)) == ends


def check_return(system):
    """A difference returns within one code, on its own side of m; Y'c is whole, so that INT moves nothing else."""
    m, steps = middle(LIKE[system]), 219 * SYSTEMS[LIKE[system]].scale
    for divisors in (RED, BLUE):
        for difference in range(-steps, steps + 1):
            word = difference_word(system, divisors, difference)
            if word in nominal_differences(LIKE[system]):
                assert abs(INT(returned_value(divisors, word - m)) - difference) <= 1
                assert (word > m) == (difference > 0) and (word < m) == (difference < 0)


RETURNED = 400


def check_triples(system, random):
    """Encoded and decoded as a caller does it; the table is held against the rule."""
    corners = product((0, FULL_LIGHT), repeat=3)
    for lights in (*corners, *(tuple(random.below(FULL_LIGHT + 1) for _ in range(3)) for _ in range(RETURNED))):
        words = words_of_lights(system, lights)
        assert words[0] == code_of_sum(system, sum_of_lights(lights))
        codes, clips = codes_of_words(system, words)
        both = zip(codes, red_and_blue(system, lights), strict=True)
        assert clips == (0, 0) and all(abs(code - own) <= 1 for code, own in both)


def check():
    check_figures()
    check_refusals()
    random = Random(2026_11)
    for system in LIKE:
        check_least_sums(system)
        check_greys(system)
        check_extremes(system)
        check_return(system)
        check_triples(system, random)


if __name__ == "__main__":
    check()

"""Levels of codes in millivolts (request 2026-05), from the request's words alone: fractions, and nothing shared with the crates.

A call that is refused answers the refusal's number in place of its level.
Running this file checks it against the request's figures.
"""

from fractions import Fraction
from math import floor
from typing import NamedTuple

from exact import SYSTEMS, video_data
from rows import REFUSED_CODE, REFUSED_SYSTEM


class Level(NamedTuple):
    millivolts: int
    remainder: int


def code_parts(system):
    """What the remainder of an R', G', B' or Y' is over, 219s."""
    return 219 * SYSTEMS[system].scale


def difference_parts(system):
    """What the remainder of a Cb or Cr is over, 224s."""
    return 224 * SYSTEMS[system].scale


def exact_level_of_code(system, code):
    """700·(D − 16s)/(219s)."""
    return Fraction(700 * (code - 16 * SYSTEMS[system].scale), code_parts(system))


def exact_level_of_difference(system, word):
    """700·(C − 128s)/(224s)."""
    return Fraction(700 * (word - 128 * SYSTEMS[system].scale), difference_parts(system))


def rounded_down(level, parts):
    """The whole millivolts, and what is left of the level in parts of a millivolt."""
    whole = floor(level)
    left = (level - whole) * parts
    assert left.denominator == 1
    return Level(whole, left.numerator)


def refusal(system, code):
    """'Video data codes are accepted; others are 6 after 1.' Accepted is 0."""
    if system not in SYSTEMS:
        return REFUSED_SYSTEM
    return 0 if code in video_data(system) else REFUSED_CODE


def level_of_code(system, code):
    return refusal(system, code) or rounded_down(exact_level_of_code(system, code), code_parts(system))


def level_of_difference(system, word):
    return refusal(system, word) or rounded_down(exact_level_of_difference(system, word), difference_parts(system))


# The request's figures, and what it says of all codes.


def check_figures():
    for system in SYSTEMS:
        s = SYSTEMS[system].scale
        assert [level_of_code(system, d * s) for d in (16, 235)] == [(0, 0), (700, 0)]
        assert [level_of_difference(system, c * s) for c in (16, 128, 240)] == [(-350, 0), (0, 0), (350, 0)]
    # 700·(1 − 16) is −10500, and −48·219 is −10512.
    assert level_of_code(1, 1) == (-48, 12)


def check_refusals():
    for call in (level_of_code, level_of_difference):
        for system in SYSTEMS:
            s = SYSTEMS[system].scale
            assert [call(system, code) for code in (0, s - 1, 255 * s, 256 * s, 65535)] == [REFUSED_CODE] * 5
        assert [call(system, code) for system in (0, 5) for code in (0, 128)] == [REFUSED_SYSTEM] * 4


def check_levels(system, call, exact_level, parts):
    """Millivolts and remainder make up the exact level, the remainder is never negative nor a whole millivolt, and levels rise."""
    levels = [call(system, code) for code in video_data(system)]
    for code, (millivolts, remainder) in zip(video_data(system), levels, strict=True):
        assert millivolts + Fraction(remainder, parts) == exact_level(system, code)
        assert 0 <= remainder < parts
    assert all(level < after for level, after in zip(levels, levels[1:]))


def check():
    check_figures()
    check_refusals()
    for system in SYSTEMS:
        check_levels(system, level_of_code, exact_level_of_code, code_parts(system))
        check_levels(system, level_of_difference, exact_level_of_difference, difference_parts(system))


if __name__ == "__main__":
    check()

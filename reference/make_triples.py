"""Makes crates/check_triples/data/ from rows.py: python3 reference/make_triples.py

All numbers are unsigned, low byte first. The same bytes come at every run.

- grid: Y', Cb and Cr (1 byte each) of each triple of system 1 whose R', G' and B' are at one of 40 levels, B' changing fastest.
  Level i is the code 16 + 219·i/39, fractions dropped.
- words, trimmed, formerly_trimmed, words_refused: records of system (4 bytes), refusal or 0, R, G, B, Y', Cb, Cr and the moved
  count (2 bytes each; the last four 0 where refused). words has the answers of plain encoding, trimmed those of trim encoding and
  formerly_trimmed those of trim encoding before request 2026-04, for the same codes in the same order; the answers of
  words_refused are those of both encodings.
- codes, codes_refused: records of system (4 bytes), refusal or 0, Y', Cb, Cr, R, G, B and the counts of components clipped low
  and clipped high (2 bytes each; the last five 0 where refused).
"""

from fractions import Fraction
from functools import partial
from itertools import product
from math import lcm
from pathlib import Path
from struct import pack

import rows
from exact import INT, SYSTEMS, nominal_codes, video_data
from pseudorandom import Random
from rows import PLAIN, TRIM, nearest_end, nominal_words

DATA = Path(__file__).resolve().parent.parent / "crates" / "check_triples" / "data"

GRID_LEVELS = 40
STEPS_PER_EDGE = 16
MOST_GREYS = 450
RANDOM_VIDEO_DATA = 800
RANDOM_NOMINAL = 300
RANDOM_CORNERS = 300
NEAR_HALVES = 100
NEAR_ENDS = 3
# Enough to find each way in which three components clip in every system; 12 are too few.
CLIP_STEPS = 16
END_STEPS = 6

BAD_SYSTEMS = (0, 5, 257, 65537, 2**32 - 1)

# The words of system 1 on the bench of request 2026-03.
BENCH_WORDS = (16, 240, 240), (15, 128, 128)
BENCH_WORDS_REFUSED = (0, 128, 128)

# The lamps of request 2026-04 as codes of system 1: the saturated one, whose Cb both rules match, and the duller one.
LAMPS = (1, 1, 254), (16, 16, 250)


def grid():
    levels = [16 + 219 * i // (GRID_LEVELS - 1) for i in range(GRID_LEVELS)]
    for codes in product(levels, repeat=3):
        yield bytes(rows.words_of_codes(1, PLAIN, codes).words)


def corners(of):
    return product(*((values[0], values[-1]) for values in of))


def edges(of):
    """Steps along the twelve edges of a cube."""
    for along in range(3):
        steps = of[along][:: len(of[along]) // STEPS_PER_EDGE]
        yield from product(*(steps if i == along else (of[i][0], of[i][-1]) for i in range(3)))


def greys(system):
    codes = video_data(system)
    return ((code, code, code) for code in codes[:: len(codes) // MOST_GREYS + 1])


def random_triples(random, of, count):
    return [tuple(random.of(values) for values in of) for _ in range(count)]


def near_corners(random, of):
    """Colours so saturated that many of their words are beyond video data."""
    near = [(*values[: len(values) // 32], *values[-(len(values) // 32) :]) for values in of]
    return random_triples(random, near, RANDOM_CORNERS)


def with_component(triple, axis, value):
    return (*triple[:axis], value, *triple[axis + 1 :])


def nearest_half_along(values, i, triple, axis, candidates):
    """The triple with the candidate on an axis that brings value i nearest to a half. A value is affine in each component."""
    start, after = (values(with_component(triple, axis, x))[i] for x in (0, 1))
    whole = lcm(2, start.denominator, after.denominator)
    first, step = int(start * whole), int((after - start) * whole)
    best = min(candidates, key=lambda x: abs((first + step * x) % whole - whole // 2))
    return with_component(triple, axis, best)


def near_halves(values, random, of):
    """Triples with a value at a half or close to one, where rounding is decided: a search along each axis from random triples."""
    for i in range(3):
        for triple in random_triples(random, of, NEAR_HALVES):
            for axis in range(3):
                triple = nearest_half_along(values, i, triple, axis, of[axis])
            yield triple


def nearest_along(values, i, target, triple, axis, candidates):
    """The triple with the candidate on an axis that brings value i nearest to a target."""
    start, after = (values(with_component(triple, axis, x))[i] for x in (0, 1))
    if start == after:
        return triple
    best = nearest_end(candidates, INT((target - start) / (after - start)))
    return with_component(triple, axis, best)


def near_ends(values, random, of, nominal_results):
    """Triples with a value on, one below or one above an end of video data or of its nominal range, or half-way from there to the
    next, as far as such exist."""
    for i in range(3):
        ends = [end for results in (of[i], nominal_results[i]) for end in (results[0], results[-1])]
        for end, step in product(ends, (-1, Fraction(-1, 2), 0, Fraction(1, 2), 1)):
            for triple in random_triples(random, of, NEAR_ENDS):
                for axis in range(3):
                    triple = nearest_along(values, i, end + step, triple, axis, of[axis])
                if abs(values(triple)[i] - (end + step)) < Fraction(1, 2):
                    yield triple


def any_triples(system, values, random, nominal_of, nominal_results):
    """Triples of video data and of nominal, with values whose nominal ranges are the results'."""
    of = (video_data(system),) * 3
    for ranges in (of, nominal_of):
        yield from corners(ranges)
        yield from edges(ranges)
    yield from random_triples(random, of, RANDOM_VIDEO_DATA)
    yield from random_triples(random, nominal_of, RANDOM_NOMINAL)
    yield from near_corners(random, of)
    yield from near_halves(values, random, of)
    yield from near_ends(values, random, of, nominal_results)


def nominal_triple(system):
    """The nominal R', G' and B' codes."""
    return (nominal_codes(system),) * 3


def code_triples(system, random):
    yield from greys(system)
    yield from any_triples(system, partial(rows.word_values, system), random, nominal_triple(system), nominal_words(system))


def word_triples(system, random):
    """Words of codes, and any words of video data, most of which no camera makes."""
    yield from (rows.words_of_codes(system, PLAIN, triple).words for triple in code_triples(system, random))
    yield from any_triples(system, partial(rows.code_values, system), random, nominal_words(system), nominal_triple(system))


def steps_through(values, count):
    """The ends of a range and equal steps between them, about so many."""
    return sorted({*values[:: len(values) // count], values[-1]})


def stepped_words(system):
    """Triples of words at steps through video data, most of which no camera makes."""
    return product(steps_through(video_data(system), CLIP_STEPS), repeat=3)


def sides(system, words):
    """For each component whether clipping brings it up (1), brings it down (−1) or leaves it (0)."""
    codes = rows.codes_of_words(system, words).codes
    both = zip(rows.codes_before_clipping(system, words), codes, strict=True)
    return tuple((code > before) - (code < before) for before, code in both)


def clipped_words(system):
    """The first and the last of the stepped words for each way in which the three components clip, as far as such exist."""
    found = {}
    for words in stepped_words(system):
        found.setdefault(sides(system, words), []).append(words)
    for alike in found.values():
        yield from (alike[0], alike[-1])


def words_at_ends(system):
    """Words with a component on an end of video data or one code beyond it. Y' moves each component by as much as itself."""
    values = video_data(system)
    targets = values[0] - 1, values[0], values[-1], values[-1] + 1
    for differences in product(steps_through(values, END_STEPS), repeat=2):
        without_luma = rows.codes_before_clipping(system, (0, *differences))
        lumas = [target - component for component, target in product(without_luma, targets)]
        yield from ((luma, *differences) for luma in lumas if luma in values)


def outside(system, random):
    """Triples with one, two or three components outside video data: next to it, at the ends of the timing codes, far from it."""
    values = video_data(system)
    s = values[0]
    outs = s - 1, 255 * s, 0, 256 * s - 1, 256 * s, 65535
    for wrong in product((False, True), repeat=3):
        for out in outs if any(wrong) else ():
            yield tuple(out if wrong[i] else random.of(values) for i in range(3))


def bad_triples(random):
    for system in SYSTEMS:
        yield from ((system, triple) for triple in outside(system, random))
    for system in BAD_SYSTEMS:
        yield from ((system, triple) for triple in ((100, 100, 100), (0, 0, 0), (300, 65535, 300)))


def words_record(encode, encoding, system, codes):
    answer = encode(system, encoding, codes)
    if isinstance(answer, int):
        return pack("<I8H", system, answer, *codes, 0, 0, 0, 0)
    return pack("<I8H", system, 0, *codes, *answer.words, answer.moved)


def codes_record(system, words):
    codes = rows.codes_of_words(system, words)
    if isinstance(codes, int):
        return pack("<I9H", system, codes, *words, 0, 0, 0, 0, 0)
    return pack("<I9H", system, 0, *words, *codes.codes, *codes.clips)


def files():
    random = Random(601_709)
    yield "grid", grid()
    lamps = [(1, codes) for codes in LAMPS]
    codes = lamps + [(s, codes) for s in SYSTEMS for codes in code_triples(s, random)]
    yield "words", (words_record(rows.words_of_codes, PLAIN, *case) for case in codes)
    yield "trimmed", (words_record(rows.words_of_codes, TRIM, *case) for case in codes)
    yield "formerly_trimmed", (words_record(rows.former_words_of_codes, TRIM, *case) for case in codes)
    words = [(s, words) for s in SYSTEMS for words in word_triples(s, random)]
    bench = [(1, words) for words in BENCH_WORDS]
    clips = [(s, words) for s in SYSTEMS for words in (*clipped_words(s), *words_at_ends(s))]
    yield "codes", (codes_record(*case) for case in bench + words + clips)
    yield "words_refused", (words_record(rows.words_of_codes, PLAIN, *case) for case in bad_triples(random))
    yield "codes_refused", (codes_record(*case) for case in ((1, BENCH_WORDS_REFUSED), *bad_triples(random)))


def main():
    rows.check()
    DATA.mkdir(parents=True, exist_ok=True)
    for name, records in files():
        (DATA / name).write_bytes(b"".join(records))


if __name__ == "__main__":
    main()

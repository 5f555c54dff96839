"""Document 01's triples and row blocks in exact arithmetic: whole numbers and fractions only, and nothing shared with the crates.

One function for each sentence. A call that is refused answers the refusal's number in place of its result.
Which codes and words are accepted, and the rules on words, are those of request 2026-03; the order of the rules is that of
request 2026-04, and clips are counted as request 2026-07 says.
Running this file checks it against their bench values and the document's rowlist example in the form of request 2026-07.
"""

from fractions import Fraction
from itertools import product
from struct import pack, unpack_from
from typing import NamedTuple

from exact import INT, SYSTEMS, nominal_codes, video_data
from pseudorandom import Random

# 'What the caller hears'

REFUSED_SYSTEM = 1
REFUSED_OUTPUT = 5
REFUSED_CODE = 6
REFUSED_END = 8
REFUSED_COUNT = 9
REFUSED_ROW = 10
REFUSED_AFTER = 11


# 'Triples'

WEIGHTS = {709: (2126, 7152, 722), 2020: (2627, 6780, 593)}


def weights(system):
    return WEIGHTS[SYSTEMS[system].matrix]


def middle(system):
    """The word m of a colour difference of zero."""
    return 128 * SYSTEMS[system].scale


def nominal_differences(system):
    """The nominal Cb or Cr words."""
    s = SYSTEMS[system].scale
    return range(16 * s, 240 * s + 1)


def nominal_words(system):
    """The nominal Y', Cb and Cr words."""
    return nominal_codes(system), nominal_differences(system), nominal_differences(system)


def are_video_data(system, triple):
    return all(component in video_data(system) for component in triple)


def nearest_end(values, number):
    """The end of a range that is nearest to a number beyond it; a number of the range itself."""
    return min(max(number, values[0]), values[-1])


# How a code triple is encoded: with the guard rule alone, or with the trim rule beside it.
PLAIN = "plain"
TRIM = "trim"


class Limited(NamedTuple):
    words: tuple
    moved: int


class Clips(NamedTuple):
    low: int
    high: int


class Clipped(NamedTuple):
    codes: tuple
    clips: Clips


def word_values(system, codes):
    """What stands inside INT for Y', Cb and Cr of the codes R, G and B."""
    kr, kg, kb = weights(system)
    r, g, b = codes
    luma = kr * r + kg * g + kb * b
    cb = Fraction((10000 * b - luma) * 224, 219 * 2 * (10000 - kb)) + middle(system)
    cr = Fraction((10000 * r - luma) * 224, 219 * 2 * (10000 - kr)) + middle(system)
    return Fraction(luma, 10000), cb, cr


def words_before_rules(system, codes):
    """Whole numbers, of which some are below 0 or above 256s."""
    return tuple(INT(v) for v in word_values(system, codes))


def word_after_rules(system, encoding, nominal_range, word):
    """Trim is tried first if it is chosen, then the guard; only one of them acts."""
    if encoding == TRIM and word not in nominal_range:
        return nearest_end(nominal_range, word)
    if word not in video_data(system):
        return nearest_end(video_data(system), word)
    return word


def word_after_former_rules(system, encoding, nominal_range, word):
    """The order of request 2026-03, kept to compare: the guard is tried first, then trim if it is chosen."""
    if word not in video_data(system):
        return nearest_end(video_data(system), word)
    if encoding == TRIM and word not in nominal_range:
        return nearest_end(nominal_range, word)
    return word


def words_after(rules, system, encoding, codes):
    if system not in SYSTEMS:
        return REFUSED_SYSTEM
    if not are_video_data(system, codes):
        return REFUSED_CODE
    before = words_before_rules(system, codes)
    ranges = nominal_words(system)
    words = tuple(rules(system, encoding, *both) for both in zip(ranges, before, strict=True))
    return Limited(words, sum(word != given for word, given in zip(words, before, strict=True)))


def words_of_codes(system, encoding, codes):
    return words_after(word_after_rules, system, encoding, codes)


def former_words_of_codes(system, encoding, codes):
    """The answers before request 2026-04."""
    return words_after(word_after_former_rules, system, encoding, codes)


def code_values(system, words):
    """What stands inside INT for R, G and B of the words Y', Cb and Cr."""
    kr, kg, kb = weights(system)
    y, cb, cr = words[0], words[1] - middle(system), words[2] - middle(system)
    q = Fraction(219, 224)
    r = y + q * cr * 2 * Fraction(10000 - kr, 10000)
    b = y + q * cb * 2 * Fraction(10000 - kb, 10000)
    of_cr = q * cr * 2 * Fraction(kr * (10000 - kr), 10000 * kg)
    of_cb = q * cb * 2 * Fraction(kb * (10000 - kb), 10000 * kg)
    return r, y - of_cr - of_cb, b


def codes_before_clipping(system, words):
    """The components as INT leaves them: whole numbers, of which some are below 0 or above 256s."""
    return tuple(INT(v) for v in code_values(system, words))


def codes_of_words(system, words):
    if system not in SYSTEMS:
        return REFUSED_SYSTEM
    if not are_video_data(system, words):
        return REFUSED_CODE
    return clipped(system, codes_before_clipping(system, words))


def clipped(system, components):
    """The components in video data, each beyond it at its nearest end, and how many were brought to which end."""
    codes = tuple(nearest_end(video_data(system), c) for c in components)
    return Clipped(codes, clips_of_components(system, components))


def clips_of_components(system, components):
    """How many components are below video data, and how many above it."""
    least, greatest = video_data(system)[0], video_data(system)[-1]
    return Clips(sum(c < least for c in components), sum(c > greatest for c in components))


def former_clipped_total(system, words):
    """The count before request 2026-07, kept to compare: how many components clipping changed."""
    codes = codes_of_words(system, words).codes
    return sum(c != code for c, code in zip(codes_before_clipping(system, words), codes, strict=True))


# 'Row block', and the order of refusals under 'What the caller hears'

WIDEST = 7680
LAST_ROW = 4319
LISTED_BYTES = 46090


class Stored(NamedTuple):
    system: int
    number: int
    samples: list


class Row(NamedTuple):
    system: int
    number: int
    samples: int
    clips: Clips
    codes: list


def block(system, row, words):
    """The bytes of a row whose samples have these words."""
    sections = (pack(f"<H{len(words)}H", len(words), *section) for section in zip(*words))
    return pack("<BH", system, row) + b"".join(sections)


def stored_row(given):
    """The words of a block's samples, after block reading's checks up to 6: all that need no lent slice."""
    if len(given) < 3:
        return REFUSED_END
    system, number = unpack_from("<BH", given)
    if system not in SYSTEMS:
        return REFUSED_SYSTEM
    if number > LAST_ROW:
        return REFUSED_ROW
    sections, at = [], 3
    for _ in ("Y'", "Cb", "Cr"):
        if len(given) < at + 2:
            return REFUSED_END
        (count,) = unpack_from("<H", given, at)
        if not 1 <= count <= WIDEST or sections and count != len(sections[0]):
            return REFUSED_COUNT
        if len(given) < at + 2 + 2 * count:
            return REFUSED_END
        sections.append(unpack_from(f"<{count}H", given, at + 2))
        at += 2 + 2 * count
    if len(given) > at:
        return REFUSED_AFTER
    samples = list(zip(*sections))
    if not all(are_video_data(system, words) for words in samples):
        return REFUSED_CODE
    return Stored(system, number, samples)


def read_block(given, places):
    """The row of a block, for a lent slice with this many places."""
    stored = stored_row(given)
    if isinstance(stored, int):
        return stored
    if places < 3 * len(stored.samples):
        return REFUSED_OUTPUT
    samples = [codes_of_words(stored.system, words) for words in stored.samples]
    codes = [code for sample in samples for code in sample.codes]
    return Row(stored.system, stored.number, len(samples), sums_of_clips(sample.clips for sample in samples), codes)


def sums_of_clips(clips):
    """The sum of the lows and the sum of the highs."""
    lows, highs = zip(*clips)
    return Clips(sum(lows), sum(highs))


def listing(given):
    """What `rowlist` prints for this input."""
    row = read_block(given[:LISTED_BYTES], 3 * WIDEST)
    if isinstance(row, int):
        return f"refused {row}\n"
    lines = [f"system {row.system} row {row.number} samples {row.samples} low {row.clips.low} high {row.clips.high}"]
    lines += ("{} {} {}".format(*row.codes[at : at + 3]) for at in range(0, 3 * row.samples, 3))
    return "\n".join(lines) + "\n"


# The document's bench values and example.


def check_triples():
    for encoding in (PLAIN, TRIM):
        assert words_of_codes(1, encoding, (235, 16, 16)) == ((63, 102, 240), 0)
        assert words_of_codes(1, encoding, (16, 16, 235)) == ((32, 240, 118), 0)
        assert words_of_codes(1, encoding, (16, 235, 16)) == ((173, 42, 26), 0)
        assert words_of_codes(3, encoding, (940, 64, 64)) == ((294, 387, 960), 0)
    assert codes_of_words(1, (63, 102, 240)) == ((235, 17, 16), (0, 0))
    assert codes_of_words(1, (32, 240, 118)) == ((17, 16, 235), (0, 0))
    assert codes_of_words(1, (16, 240, 240)) == ((188, 1, 219), (1, 0))
    assert codes_of_words(1, (15, 128, 128)) == ((15, 15, 15), (0, 0))
    assert codes_of_words(1, (0, 128, 128)) == REFUSED_CODE


def check_rules():
    """Triples on which the rules act, worked out by hand: the words before, in plain, in trim and in the former trim encoding."""
    cases = (
        # Cb is 128 + 253·224/438, above 256s: both rules match it.
        (1, (1, 1, 254), (19, 257, 116), ((19, 254, 116), 1), ((19, 240, 116), 1), ((19, 254, 116), 1)),
        # Cb is 128 − 253·224/438, below 0; Y' is 235.7334.
        (1, (254, 254, 1), (236, -1, 140), ((236, 1, 140), 1), ((235, 16, 140), 2), ((235, 1, 140), 2)),
        # Cb is 128 + 234·224/438, between nominal and the end of video data: trim alone matches it.
        (1, (16, 16, 250), (33, 248, 117), ((33, 248, 117), 0), ((33, 240, 117), 1), ((33, 240, 117), 1)),
        # The same distance down: 128 − 234·224/438.
        (1, (250, 250, 16), (233, 8, 139), ((233, 8, 139), 0), ((233, 16, 139), 1), ((233, 16, 139), 1)),
        # Cr is 512 + 1015·224/438 and 512 − 1015·224/438 beside the ends 4 and 1019.
        (3, (1019, 4, 4), (271, 367, 1031), ((271, 367, 1019), 1), ((271, 367, 960), 1), ((271, 367, 1019), 1)),
        (3, (4, 1019, 1019), (752, 657, -7), ((752, 657, 4), 1), ((752, 657, 64), 1), ((752, 657, 4), 1)),
    )
    for system, codes, before, plain, trim, former_trim in cases:
        assert words_before_rules(system, codes) == before
        assert words_of_codes(system, PLAIN, codes) == plain
        assert words_of_codes(system, TRIM, codes) == trim
        assert former_words_of_codes(system, TRIM, codes) == former_trim
    for codes in ((0, 128, 128), (128, 255, 128), (128, 128, 255)):
        assert words_of_codes(1, PLAIN, codes) == words_of_codes(1, TRIM, codes) == REFUSED_CODE
        assert former_words_of_codes(1, TRIM, codes) == REFUSED_CODE


COMPARED = 400


def compared_triples(system, random):
    """The corners of video data, and pseudorandom triples: of all of it, and of codes close to its ends, with words beyond it."""
    codes = video_data(system)
    close = (*codes[: len(codes) // 16], *codes[-(len(codes) // 16) :])
    yield from product((codes[0], codes[-1]), repeat=3)
    for of in (codes, close):
        yield from (tuple(random.of(of) for _ in range(3)) for _ in range(COMPARED))


def former_and_present_difference(system, before, former):
    """In trim encoding, 'a colour word above the video range becomes 240s instead of 255s−1 and one below becomes 16s instead of
    s'."""
    s = SYSTEMS[system].scale
    if before > 255 * s - 1:
        return 255 * s - 1, 240 * s
    if before < s:
        return s, 16 * s
    return former, former


def check_change(system, codes):
    # 'Plain encoding and the count of moved words keep their answers.'
    assert words_of_codes(system, PLAIN, codes) == former_words_of_codes(system, PLAIN, codes)
    present, former = words_of_codes(system, TRIM, codes), former_words_of_codes(system, TRIM, codes)
    assert present.moved == former.moved
    before = words_before_rules(system, codes)
    # Y' is a mean of codes of video data, so none is beyond it.
    assert before[0] in video_data(system) and present.words[0] == former.words[0]
    for i in (1, 2):
        both = former.words[i], present.words[i]
        assert both == former_and_present_difference(system, before[i], former.words[i])


def check_changes():
    """Request 2026-04 changes what it says and nothing else."""
    random = Random(2026_04)
    for system in SYSTEMS:
        for codes in compared_triples(system, random):
            check_change(system, codes)


def check_greys():
    """A grey has its code as Y', which trim alone moves, and no colour difference, and returns."""
    for system in SYSTEMS:
        m = middle(system)
        for code in video_data(system):
            grey = (code, code, code)
            trimmed = nearest_end(nominal_codes(system), code)
            assert words_of_codes(system, PLAIN, grey) == ((code, m, m), 0)
            assert words_of_codes(system, TRIM, grey) == ((trimmed, m, m), trimmed != code)
            assert codes_of_words(system, (code, m, m)) == (grey, (0, 0))


# The words of system 1 that the bench accepts.
BENCH_WORDS = (63, 102, 240), (32, 240, 118), (16, 240, 240), (15, 128, 128)

# Words worked out by hand: the components as INT leaves them, the codes and the clips.
CLIP_CASES = (
    # In 709 R is Y' + 1.53965·cr, G is Y' − 0.45768·cr − 0.18314·cb and B is Y' + 1.81418·cb.
    # Two low and one high: cb and cr are −127, so 180 − 195.54, 180 + 58.12 + 23.26 and 180 − 230.40.
    (1, (180, 1, 1), (-16, 261, -50), (1, 254, 1), (2, 1)),
    # One low and two high: they are 126, so 75 + 194.00, 75 − 57.67 − 23.08 and 75 + 228.59.
    (1, (75, 254, 254), (269, -6, 304), (254, 1, 254), (1, 2)),
    # The same with G between the ends: 1 + 58.12 + 23.26, and 254 − 57.67 − 23.08.
    (1, (1, 1, 1), (-195, 82, -229), (1, 82, 1), (2, 0)),
    (1, (254, 254, 254), (448, 173, 483), (254, 173, 254), (0, 2)),
    # One low and one high, each one code beyond its end: 147 + 70·1.53965 is 254.78 and 147 − 81·1.81418 is 0.05.
    (1, (147, 47, 198), (255, 130, 0), (254, 130, 1), (1, 1)),
    # The same two on their ends: 146 + 70·1.53965 is 253.78 and 146 − 80·1.81418 is 0.87.
    (1, (146, 48, 198), (254, 129, 1), (254, 129, 1), (0, 0)),
    # R, G and B on the low end and then one code below it: 1.46 and 0.46, 0.63 and 0.17, 1.19 and 0.19.
    (1, (3, 128, 127), (1, 3, 3), (1, 3, 3), (0, 0)),
    (1, (2, 128, 127), (0, 2, 2), (1, 2, 2), (1, 0)),
    (1, (2, 128, 131), (7, 1, 2), (7, 1, 2), (0, 0)),
    (1, (2, 128, 132), (8, 0, 2), (8, 1, 2), (1, 0)),
    (1, (3, 127, 128), (3, 3, 1), (3, 3, 1), (0, 0)),
    (1, (2, 127, 128), (2, 2, 0), (2, 2, 1), (1, 0)),
    # On the high end and then one code above it: 253.54 and 254.54, 254.37 and 254.83, 253.81 and 254.81.
    (1, (252, 128, 129), (254, 252, 252), (254, 252, 252), (0, 0)),
    (1, (253, 128, 129), (255, 253, 253), (254, 253, 253), (0, 1)),
    (1, (253, 128, 125), (248, 254, 253), (248, 254, 253), (0, 0)),
    (1, (253, 128, 124), (247, 255, 253), (247, 254, 253), (0, 1)),
    (1, (252, 129, 128), (252, 252, 254), (252, 252, 254), (0, 0)),
    (1, (253, 129, 128), (253, 253, 255), (253, 253, 254), (0, 1)),
    # B beside 4 and 1019: 4.19 and 3.19, 1018.81 and 1019.81.
    (2, (6, 511, 512), (6, 6, 4), (6, 6, 4), (0, 0)),
    (2, (5, 511, 512), (5, 5, 3), (5, 5, 4), (1, 0)),
    (2, (1017, 513, 512), (1017, 1017, 1019), (1017, 1017, 1019), (0, 0)),
    (2, (1018, 513, 512), (1018, 1018, 1020), (1018, 1018, 1019), (0, 1)),
    # In 2020 R is Y' + 1.44168·cr, G is Y' − 0.55860·cr − 0.16088·cb and B is Y' + 1.83940·cb.
    # cb and cr are −508, so 720 − 732.38, 720 + 283.77 + 81.73 = 1085.496 and 720 − 934.42.
    (3, (720, 4, 4), (-12, 1085, -214), (4, 1019, 4), (2, 1)),
    # They are 2031, so 1200 + 2928.06, 1200 − 1134.52 − 326.75 and 1200 + 3735.83.
    (4, (1200, 4079, 4079), (4128, -261, 4936), (4079, 16, 4079), (1, 2)),
    # B beside 16 and 4079: 16.16 and 15.16, 4078.84 and 4079.84.
    (4, (18, 2047, 2048), (18, 18, 16), (18, 18, 16), (0, 0)),
    (4, (17, 2047, 2048), (17, 17, 15), (17, 17, 16), (1, 0)),
    (4, (4077, 2049, 2048), (4077, 4077, 4079), (4077, 4077, 4079), (0, 0)),
    (4, (4078, 2049, 2048), (4078, 4078, 4080), (4078, 4078, 4079), (0, 1)),
)


def check_clip_cases():
    for system, words, before, codes, clips in CLIP_CASES:
        assert codes_before_clipping(system, words) == before
        assert codes_of_words(system, words) == (codes, clips)


def check_clips_of_words(system, words):
    """Each component is brought up to s, brought down to 255s−1 or left, and counts as low, as high or nowhere."""
    s = SYSTEMS[system].scale
    codes, clips = codes_of_words(system, words)
    both = tuple(zip(codes_before_clipping(system, words), codes, strict=True))
    low = [before < s == code for before, code in both]
    high = [before > 255 * s - 1 == code for before, code in both]
    left = [s <= before == code <= 255 * s - 1 for before, code in both]
    assert [sum(ways) for ways in zip(low, high, left)] == [1, 1, 1]
    assert clips == (sum(low), sum(high))
    # 'Their sum is the former total.'
    assert clips.low + clips.high == former_clipped_total(system, words)
    # Y' is a mean of the values inside INT, so not all are below it and not all above it.
    assert clips.low < 3 and clips.high < 3


def check_clips_of_row(system, samples):
    """Block reading sums both."""
    row = read_block(block(system, 0, samples), 3 * len(samples))
    clips = [codes_of_words(system, words).clips for words in samples]
    assert row.clips.low == sum(each.low for each in clips) and row.clips.high == sum(each.high for each in clips)
    assert row.clips.low + row.clips.high == sum(former_clipped_total(system, words) for words in samples)


def check_clips():
    """Request 2026-07 counts what was counted before, each component on one side."""
    check_clip_cases()
    random = Random(2026_07)
    for system in SYSTEMS:
        samples = list(compared_triples(system, random))
        samples += BENCH_WORDS if system == 1 else ()
        samples += (words for of, words, *_ in CLIP_CASES if of == system)
        for words in samples:
            check_clips_of_words(system, words)
        check_clips_of_row(system, samples)
        check_clips_of_row(system, samples[:1])


def check_blocks():
    grey = block(1, 0, [(235, 128, 128)])
    assert grey.hex(" ") == "01 00 00 01 00 eb 00 01 00 80 00 01 00 80 00"
    assert listing(grey) == "system 1 row 0 samples 1 low 0 high 0\n235 235 235\n"
    clipping = block(1, 7, [(16, 240, 240), (180, 1, 1)])
    assert listing(clipping) == "system 1 row 7 samples 2 low 3 high 1\n188 1 219\n1 254 1\n"
    wide = block(4, LAST_ROW, [(256, 2048, 2048)] * WIDEST)
    assert len(wide) == 46089
    assert read_block(wide, 3 * WIDEST) == Row(4, LAST_ROW, WIDEST, (0, 0), [256] * 3 * WIDEST)
    assert read_block(wide, 3 * WIDEST - 1) == REFUSED_OUTPUT


def check():
    check_triples()
    check_rules()
    check_changes()
    check_greys()
    check_clips()
    check_blocks()


if __name__ == "__main__":
    check()

"""Depth change of a block (request 2026-09), from the request's words alone: whole numbers and fractions, and nothing shared with
the crates.

A call that is refused answers the refusal's number in place of the new block.
Running this file checks it against the request's figures.
"""

from fractions import Fraction
from functools import lru_cache
from itertools import permutations, product

from exact import INT, SYSTEMS, video_data
from rows import LAST_ROW, REFUSED_OUTPUT, REFUSED_SYSTEM, block, stored_row

REFUSED_TARGET = 32
REFUSED_RESULT = 33


def are_two_depths(source, target):
    """'The two depths of one Recommendation': neither 'equal to the source' nor 'of the other Recommendation'."""
    return target != source and SYSTEMS[target].matrix == SYSTEMS[source].matrix


def changed_word(source, target, word):
    """'Upward a word is multiplied by 4, downward it is INT(word/4).'"""
    return 4 * word if SYSTEMS[target].bits > SYSTEMS[source].bits else INT(Fraction(word, 4))


def is_timing_code(system, word):
    """'Timing codes are 0 to s−1 and 255s to 256s−1.'"""
    s = SYSTEMS[system].scale
    return 0 <= word <= s - 1 or 255 * s <= word <= 256 * s - 1


def change_depth(target, given, room):
    """The block in the target's depth, for a lent buffer of this many bytes."""
    if target not in SYSTEMS:
        return REFUSED_SYSTEM
    stored = stored_row(given)
    if isinstance(stored, int):
        return stored
    if not are_two_depths(stored.system, target):
        return REFUSED_TARGET
    samples = [tuple(changed_word(stored.system, target, word) for word in words) for words in stored.samples]
    if any(is_timing_code(target, word) for words in samples for word in words):
        return REFUSED_RESULT
    # The new block is as long as the one given.
    if room < len(given):
        return REFUSED_OUTPUT
    return block(target, stored.number, samples)


# Each system with the other one of its Recommendation: 1 to 2, 2 to 1, 3 to 4 and 4 to 3.
DIRECTIONS = tuple(both for both in permutations(SYSTEMS, 2) if are_two_depths(*both))


def other_depth(source):
    return dict(DIRECTIONS)[source]


def is_accepted(source, word):
    """Whether the other depth has a word of video data for this one."""
    return not is_timing_code(other_depth(source), changed_word(source, other_depth(source), word))


@lru_cache(maxsize=None)
def accepted_words(source):
    return [word for word in video_data(source) if is_accepted(source, word)]


@lru_cache(maxsize=None)
def rejected_words(source):
    """The words of video data for which a block is refused with 33."""
    return [word for word in video_data(source) if not is_accepted(source, word)]


# The request's figures, and what it says of all words and of the order.

FIGURES = (
    # 1017/4 + 1/2 is 254.75, and 1018/4 + 1/2 is 255.
    (2, 1, 1017, 254, 1018),
    # 4077/4 + 1/2 is 1019.75, and 4078/4 + 1/2 is 1020.
    (4, 3, 4077, 1019, 4078),
)


def samples_with(place, word, other):
    """Three samples whose words are all the same but one, whose place is counted through the samples."""
    words = [word if at == place else other for at in range(9)]
    return [tuple(words[at : at + 3]) for at in (0, 3, 6)]


def check_figures():
    for source, target, word, becomes, rejected in FIGURES:
        m = 128 * SYSTEMS[target].scale
        for place in range(9):
            given = block(source, LAST_ROW, samples_with(place, word, 4 * m))
            assert change_depth(target, given, 27) == block(target, LAST_ROW, samples_with(place, becomes, m))
            given = block(source, LAST_ROW, samples_with(place, rejected, 4 * m))
            assert change_depth(target, given, 27) == REFUSED_RESULT


def check_bytes():
    """A block worked out by hand, with words whose fourths are halves, and the block that it becomes."""
    given = bytes.fromhex("02 df 10 02 00 04 00 f9 03 02 00 05 00 06 00 02 00 00 02 02 02")
    changed = bytes.fromhex("01 df 10 02 00 01 00 fe 00 02 00 01 00 02 00 02 00 80 00 81 00")
    assert change_depth(1, given, 21) == changed
    back = bytes.fromhex("02 df 10 02 00 04 00 f8 03 02 00 04 00 08 00 02 00 00 02 04 02")
    assert change_depth(2, changed, 21) == back


def check_words():
    """Upward no word is rejected; downward the words from 4·255s − 2 on are, s being the target's."""
    assert DIRECTIONS == ((1, 2), (2, 1), (3, 4), (4, 3))
    for source, target in DIRECTIONS:
        s, upward = SYSTEMS[target].scale, SYSTEMS[target].bits > SYSTEMS[source].bits
        for word in video_data(source):
            becomes = changed_word(source, target, word)
            assert is_timing_code(target, becomes) == (not upward and word >= 4 * 255 * s - 2)
            # No result is outside the target's bits, so that one which is no timing code is video data.
            assert is_timing_code(target, becomes) != (becomes in video_data(target))
        assert len(rejected_words(source)) == (0 if upward else 2)


def every_word(source):
    """A row in which each accepted word stands in each section."""
    words = accepted_words(source)
    return block(source, 7, list(zip(words, words[1:] + words[:1], words[::-1])))


def check_return():
    """'Up and then down gives the first bytes back', and each way keeps all but the system and the words."""
    for source, target in DIRECTIONS:
        given = every_word(source)
        room, width = len(given), len(accepted_words(source))
        changed = change_depth(target, given, room)
        assert len(changed) == room and changed[0] == target and changed[1:3] == given[1:3]
        for at in (3, 5 + 2 * width, 7 + 4 * width):
            assert changed[at : at + 2] == given[at : at + 2]
        if SYSTEMS[target].bits > SYSTEMS[source].bits:
            assert change_depth(source, changed, room) == given


def check_targets():
    """Of the sixteen pairs four are accepted."""
    for source, target in product(SYSTEMS, repeat=2):
        m = 128 * SYSTEMS[source].scale
        answer = change_depth(target, block(source, 0, [(m, m, m)]), 15)
        assert (answer == REFUSED_TARGET) == ((source, target) not in DIRECTIONS)
        assert (answer == REFUSED_TARGET) == isinstance(answer, int)


def check_order():
    """Each refusal in its turn; faults that are tested later stand beside it, as far as the block goes on."""
    for source, target, good, _, rejected in FIGURES:
        sound = block(source, 0, [(good, good, good)])
        timing = block(source, 0, [(good, good, rejected)])
        outside = block(source, 0, [(0, good, rejected)])
        calls = (
            (1, 0, b""),
            (8, source, b"\5\xff"),
            (1, source, b"\5\xff\xff"),
            (10, source, bytes([source]) + b"\xe0\x10"),
            (8, source, outside[:4]),
            (9, source, outside[:3] + b"\0\0"),
            (8, source, outside[:6]),
            (8, source, outside[:8]),
            (9, source, outside[:7] + b"\2\0"),
            (8, source, outside[:10]),
            (8, source, outside[:12]),
            (9, source, outside[:11] + b"\2\0"),
            (8, source, outside[:14]),
            (11, source, outside + b"\0"),
            (6, source, outside),
            (32, source, timing),
            (33, target, timing),
            (5, target, sound),
        )
        for refusal, to, given in calls:
            assert change_depth(to, given, 0) == refusal
        assert change_depth(target, sound, 14) == REFUSED_OUTPUT
        assert change_depth(target, sound, 15) == change_depth(target, sound, 65535) != REFUSED_OUTPUT


def check():
    check_figures()
    check_bytes()
    check_words()
    check_return()
    check_targets()
    check_order()


if __name__ == "__main__":
    check()

"""Makes crates/check_depths/data/ from depth.py: python3 reference/make_depths.py

All numbers are unsigned, low byte first. The same bytes come at every run.

- cases, words, widest: for each case the target (4 bytes), the length of the lent buffer, the refusal or 0, the lengths of the
  block and of the new block (2 bytes each; the last 0 where refused), then the bytes of the block and of the new block. The
  accepted rows of words have every word that the other depth takes, in every section; the rows of widest have the greatest width.
"""

from itertools import combinations, product
from pathlib import Path
from struct import pack
from typing import NamedTuple

import depth
import rows
from depth import DIRECTIONS, accepted_words, change_depth, other_depth, rejected_words
from exact import SYSTEMS, video_data
from make_blocks import WIDTHS, count_places, cut, empty_row, lengthened, replaced, with_counts, with_row, word
from pseudorandom import Random
from rows import LAST_ROW, WIDEST, block

DATA = Path(__file__).resolve().parent.parent / "crates" / "check_depths" / "data"

MOST_ROOM = 65535

BAD_TARGETS = (0, 5, 6, 255, 256, 257, 65537, 2**31 + 1, 2**32 - 1)
BAD_SYSTEMS = (0, 5, 6, 255)

# The width in which faults meet: it has a first word and a last one in each section.
FAULTY_WIDTH = 2
MIXED_PER_SYSTEM = 15


# A case is the target, the block and the room, which is the length of the lent buffer.


def random_row(random, source, width):
    """A block whose words are all accepted."""
    words = accepted_words(source)
    samples = [tuple(random.of(words) for _ in range(3)) for _ in range(width)]
    return block(source, random.below(LAST_ROW + 1), samples)


def bad_targets(source):
    """Targets that are no system. Some would be the other depth if only their low bytes were looked at."""
    return sorted({*BAD_TARGETS, *(high + other_depth(source) for high in (256, 65536, 2**31))})


def rooms_and_targets(random, source, width):
    """The other depth with rooms that fit, are short and are longer; the targets of 32 with a room that fits and a short one."""
    given = random_row(random, source, width)
    length = len(given)
    for room in (length, length - 1, 0, length + 1, length + 9, MOST_ROOM):
        yield other_depth(source), given, room
    for target in SYSTEMS:
        yield from ((target, given, room) for room in (length, length - 1))


def with_bad_targets(random, source, width):
    given = random_row(random, source, width)
    yield from ((target, given, room) for target, room in product(bad_targets(source), (len(given), 0)))


def up_and_down(random, width):
    """Each second case is given what the first one answers."""
    for source, target in ((1, 2), (3, 4)):
        given = random_row(random, source, width)
        changed = change_depth(target, given, len(given))
        yield target, given, len(given)
        yield source, changed, len(given)
        assert change_depth(source, changed, len(given)) == given


def with_system(given):
    for system in (*BAD_SYSTEMS, *SYSTEMS):
        yield replaced(given, 0, bytes([system]))


def with_unlike_sections(random, source):
    """Blocks with nothing missing and nothing after, in which one section is shorter or longer."""
    words = accepted_words(source)
    for counts in ((2, 1, 1), (1, 2, 1), (1, 1, 2), (1, 2, 2), (2, 1, 2), (2, 2, 1)):
        sections = (pack(f"<H{count}H", count, *(random.of(words) for _ in range(count))) for count in counts)
        yield pack("<BH", source, 0) + b"".join(sections)


def damaged(random, source, width):
    """Blocks with one fault in what stands before the words, blocks that end too early, and blocks that go on."""
    given = random_row(random, source, width)
    kinds = with_system(given), with_row(given), with_counts(given, width), cut(given), lengthened(given)
    for kind in (*kinds, with_unlike_sections(random, source)):
        yield from ((other_depth(source), faulty, len(given)) for faulty in kind)


def word_places(width):
    """The first, a middle and the last place of each section."""
    for at in count_places(width):
        yield from sorted({at + 2, at + 2 + 2 * (width // 2), at + 2 * width})


def with_words(random, source, width):
    """Words on the ends of video data and outside it; some of these are video data if their high bits are dropped."""
    s = SYSTEMS[source].scale
    given, good = random_row(random, source, width), random.of(accepted_words(source))
    ends = s, 255 * s - 1
    outside = 0, s - 1, 255 * s, 256 * s, *(high + good for high in (256 * s, 0x1000, 0x4000, 0x8000)), 65535
    for place, value in product(word_places(width), dict.fromkeys((*ends, *outside))):
        yield other_depth(source), replaced(given, place, word(value)), len(given)


def with_greatest_words(random, source, width):
    """The three greatest words of video data; downward the first is the last accepted one."""
    given = random_row(random, source, width)
    for place, value in product(word_places(width), video_data(source)[-3:]):
        yield other_depth(source), replaced(given, place, word(value)), len(given)


class Fault(NamedTuple):
    """A refusal, and what brings it about: another target, bytes put in at a place, another length, or a lack of room."""

    refusal: int
    target: int | None = None
    put: tuple = (0, b"")
    length: int | None = None
    lack: int = 0


def faults_of_section(at, wrong_count):
    """The count is not there whole, is wrong, and the words are not there whole."""
    yield Fault(8, length=at + 1)
    yield Fault(9, put=(at, word(wrong_count)))
    yield Fault(8, length=at + 2 + 2 * FAULTY_WIDTH - 1)


def faults(source):
    """Faults in the order of the tests."""
    other, length = other_depth(source), 9 + 6 * FAULTY_WIDTH
    places = count_places(FAULTY_WIDTH)
    first, second, last_but_one, last = places[0] + 2, places[0] + 4, length - 4, length - 2
    yield Fault(1, target=256 + other)
    yield Fault(8, length=2)
    yield Fault(1, put=(0, b"\5"))
    yield Fault(10, put=(1, word(LAST_ROW + 1)))
    for at, wrong_count in zip(places, (0, FAULTY_WIDTH - 1, WIDEST + 1)):
        yield from faults_of_section(at, wrong_count)
    yield Fault(11, length=length + 1)
    # The words of 6 and of 33 stand before and after one another.
    yield from (Fault(6, put=(place, word(255 * SYSTEMS[source].scale))) for place in (first, last))
    yield from (Fault(32, target=target) for target in SYSTEMS if target != other)
    for place, value in zip((second, last_but_one), rejected_words(source)):
        yield Fault(33, put=(place, word(value)))
    yield Fault(5, lack=1)


def with_faults(source, given, together):
    """The case with these faults, given in the order of the tests. Of two that cannot stand together the first does."""
    target, length = other_depth(source), min((f.length for f in together if f.length is not None), default=len(given))
    for fault in reversed(together):
        target = target if fault.target is None else fault.target
        given = replaced(given, *fault.put)
    given = (given + b"\0")[:length]
    case = target, given, len(given) - sum(fault.lack for fault in together)
    assert change_depth(*case) == together[0].refusal
    return case


def several_faults(random, source):
    """Every two faults, each fault with all that are tested later, and some with any others."""
    found = list(faults(source))
    sets = [*combinations(found, 2), *(found[at:] for at in range(len(found)))]
    for _ in range(MIXED_PER_SYSTEM):
        chosen = {random.below(len(found)) for _ in range(3 + random.below(3))}
        sets.append([found[at] for at in sorted(chosen)])
    given = random_row(random, source, FAULTY_WIDTH)
    return [with_faults(source, given, together) for together in sets]


def cases(random):
    yield 1, b"", 0
    for width in WIDTHS:
        for source in SYSTEMS:
            yield from rooms_and_targets(random, source, width)
        yield from up_and_down(random, width)
    for source in SYSTEMS:
        yield other_depth(source), empty_row(source)[0], 9
        for width in (1, 5):
            yield from with_bad_targets(random, source, width)
        yield from damaged(random, source, 1)
        yield from with_words(random, source, 3)
        for width in (1, 3, 5):
            yield from with_greatest_words(random, source, width)
        yield from several_faults(random, source)


def with_every_word(random, source):
    """A row in which the sections have all accepted words in the same mixed order, each beginning at another one."""
    words = sorted(accepted_words(source), key=lambda _: random.word())
    starts = (len(words) * section // 3 for section in range(3))
    return block(source, random.below(LAST_ROW + 1), list(zip(*(words[start:] + words[:start] for start in starts))))


def words(random):
    for source, target in DIRECTIONS:
        given = with_every_word(random, source)
        yield target, given, len(given)
        for value, place in product(rejected_words(source), word_places(1)):
            given = random_row(random, source, 1)
            yield target, replaced(given, place, word(value)), len(given)


def widest(random):
    """A row of each system with room enough, one whose last word alone is rejected, and one with a byte of room too few."""
    for (source, target), more in zip(DIRECTIONS, (0, 1, 4, 11)):
        given = random_row(random, source, WIDEST)
        yield target, given, len(given) + more
    given = random_row(random, 4, WIDEST)
    yield 3, replaced(given, len(given) - 2, word(rejected_words(4)[0])), len(given)
    given = random_row(random, 1, WIDEST)
    yield 2, given, len(given) - 1


def record(target, given, room):
    changed = change_depth(target, given, room)
    if isinstance(changed, int):
        return pack("<I4H", target, room, changed, len(given), 0) + given
    return pack("<I4H", target, room, 0, len(given), len(changed)) + given + changed


def main():
    rows.check()
    depth.check()
    DATA.mkdir(parents=True, exist_ok=True)
    random = Random(2026_09)
    for name, made in (("cases", cases(random)), ("words", words(random)), ("widest", widest(random))):
        # A case that comes up twice is kept once.
        (DATA / name).write_bytes(b"".join(dict.fromkeys(record(*case) for case in made)))


if __name__ == "__main__":
    main()

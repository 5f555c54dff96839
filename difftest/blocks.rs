//! Block reading: whole and damaged blocks into slices that are long enough or not.
use crate::answers::BlockAnswer;
use crate::clips;
use crate::library;
use crate::exact::{self, System, MOST_SAMPLES, SYSTEMS};
use crate::lent::Lent;
use crate::pseudorandom::Pseudorandom;
use crate::tally::Tally;
use crate::Effort;

fn compare(tally: &mut Tally, bytes: &[u8], places: usize, random: &mut Pseudorandom) {
    let lent = Lent::holding(bytes, random);
    let codes = Lent::<u16>::blank(places, random);
    let got =
        unsafe { library::ferghulta_read_block(lent.pointer(), bytes.len(), codes.pointer(), places) };
    let wanted = exact::read_block(bytes, places);
    let answer = BlockAnswer::from(&wanted);
    let written = wanted.map_or(vec![], |row| row.codes);
    let agree = got == answer && codes.holds(&written) && lent.holds(&[]);
    tally.count(answer.refusal, agree, || {
        format!(
            "places {places} block of {} bytes {}: {got:?}, wanted {answer:?}; codes as wanted: {}; bytes as lent: {}",
            bytes.len(),
            hexadecimal(bytes),
            codes.holds(&written),
            lent.holds(&[])
        )
    });
}

/// The first bytes of a block.
pub fn hexadecimal(bytes: &[u8]) -> String {
    let shown = bytes.iter().take(99).map(|byte| format!("{byte:02x}"));
    shown.collect::<Vec<String>>().join(" ")
}

// ---- blocks

pub fn any_width(random: &mut Pseudorandom) -> usize {
    match random.below(1000) {
        0 => MOST_SAMPLES,
        1 => 1 + random.below(MOST_SAMPLES),
        2..20 => 1 + random.below(100),
        _ => 1 + random.below(9),
    }
}

/// A section's words: nominal, of video data, or at the ends of both.
fn any_section(system: &System, highest: u16, width: usize, random: &mut Pseudorandom) -> Vec<u16> {
    let (low, range) = (system.lowest(), system.video_data());
    let (first, last) = (*range.start(), *range.end());
    let ends = [first, first + 1, low - 1, low, low + 1, highest - 1, highest, highest + 1, last - 1, last];
    let kind = random.below(4);
    let mut word = || match kind {
        0 => random.pick(&ends),
        1 => random.within(low, highest),
        _ => random.within(first, last),
    };
    (0..width).map(|_| word()).collect()
}

/// A row's words: each section by itself, or samples that clip in any way.
fn any_sections(system: &System, width: usize, random: &mut Pseudorandom) -> [Vec<u16>; 3] {
    if random.once_in(4) {
        return clips::sections(&clips::any_row(system, width, random));
    }
    let top = system.highest_difference();
    [system.highest(), top, top].map(|highest| any_section(system, highest, width, random))
}

pub fn block_of_width(system: &System, width: usize, random: &mut Pseudorandom) -> Vec<u8> {
    let [y, cb, cr] = any_sections(system, width, random);
    let anywhere = random.below(exact::MOST_ROWS) as u16;
    let number = random.pick(&[0, 1, 255, 256, 4318, 4319, anywhere, anywhere]);
    exact::block(system.number as u8, number, [&y, &cb, &cr])
}

pub fn any_known(random: &mut Pseudorandom) -> &'static System {
    &SYSTEMS[random.below(4)]
}

// ---- damage

pub fn put_word(bytes: &mut [u8], place: usize, word: u16) {
    if place + 2 <= bytes.len() {
        bytes[place..place + 2].copy_from_slice(&word.to_le_bytes());
    }
}

/// Another row number, most of them above 4319.
fn damage_row_number(bytes: &mut [u8], random: &mut Pseudorandom) {
    let any = random.bits() as u16;
    let number = random.pick(&[4319, 4320, 4321, 0x8000, u16::MAX, any]);
    put_word(bytes, 1, number);
}

/// Another count in one of the sections.
fn damage_count(bytes: &mut [u8], width: usize, random: &mut Pseudorandom) {
    let w = width as u16;
    let any = random.bits() as u16;
    let count = random.pick(&[0, w - 1, w + 1, w << 8, 7680, 7681, u16::MAX, any]);
    put_word(bytes, 3 + random.below(3) * (2 + 2 * width), count);
}

/// Another word in one of the sections, many of them outside video data.
fn damage_word(bytes: &mut [u8], width: usize, random: &mut Pseudorandom) {
    let s = 1 << (2 * random.below(3));
    let any = random.bits() as u16;
    #[rustfmt::skip]
    let word = random.pick(&[
        0, s - 1, s, 16 * s - 1, 16 * s, 235 * s, 235 * s + 1, 240 * s, 240 * s + 1, 255 * s - 1, 255 * s, 256 * s - 1, 256 * s,
        u16::MAX, any,
    ]);
    let section = random.below(3);
    put_word(bytes, word_place(width, section, random.below(width)), word);
}

/// Where a section's word stands in a block of so many samples.
pub fn word_place(width: usize, section: usize, sample: usize) -> usize {
    3 + section * (2 + 2 * width) + 2 + 2 * sample
}

pub fn damage(bytes: &mut Vec<u8>, width: usize, random: &mut Pseudorandom) {
    let length = bytes.len();
    match random.below(8) {
        0 => bytes.truncate(random.below(length + 1)),
        1 => bytes.extend((0..1 + random.below(4)).map(|byte| byte as u8)),
        2 if length > 0 => bytes[0] = random.pick(&[0, 1, 2, 3, 4, 5, 6, 0x80, 0xFF]),
        3 => damage_row_number(bytes, random),
        4 => damage_count(bytes, width, random),
        5 => damage_word(bytes, width, random),
        6 if length > 0 => bytes[random.below(length)] = random.bits() as u8,
        7 if length > 0 => drop(bytes.remove(random.below(length))),
        _ => {}
    }
}

pub const FAULTS: u32 = 8;

/// Gives a whole block those faults whose bit is set: a last sample that is not video data, another count in a section, row number
/// or system, an early end, bytes after the end.
pub fn spoil(block: &mut Vec<u8>, system: &System, width: usize, faults: u32, random: &mut Pseudorandom) {
    let has = |fault: u32| faults >> fault & 1 == 1;
    let s = system.scale as u16;
    if has(0) {
        let word = random.pick(&[0, s - 1, 255 * s, u16::MAX]);
        put_word(block, word_place(width, random.below(3), width - 1), word);
    }
    for section in (0..3).filter(|section| has(1 + section)) {
        let count = random.pick(&[0, width as u16 - 1, width as u16 + 1, 7681]);
        put_word(block, word_place(width, section as usize, 0) - 2, count);
    }
    if has(4) {
        put_word(block, 1, 4320);
    }
    if has(5) {
        block[0] = random.pick(&[0, 5, 6, 128]);
    }
    if has(6) {
        block.truncate(random.pick(&[0, 2, 4, block.len() - 1]));
    }
    if has(7) {
        block.extend([1, 0]);
    }
}

pub fn any_places(width: usize, random: &mut Pseudorandom) -> usize {
    let need = 3 * width;
    let any = random.below(need + 9);
    random.pick(&[
        need,
        need,
        need,
        need + 1,
        need + 7,
        need - 1,
        need - 3,
        0,
        any,
    ])
}

// ---- the comparison

/// The widest block, and what is one byte or one place off.
fn widest(tally: &mut Tally, system: &System, random: &mut Pseudorandom) {
    let places = 3 * MOST_SAMPLES;
    let block = block_of_width(system, MOST_SAMPLES, random);
    for places in [places, places - 1, places + 1, 0] {
        compare(tally, &block, places, random);
    }
    compare(tally, &block[..block.len() - 1], places, random);
    compare(tally, &[&block[..], &[0]].concat(), places, random);
    let too_wide = block_of_width(system, MOST_SAMPLES + 1, random);
    compare(tally, &too_wide, places + 3, random);
}

/// Every front of a block, and every change of one of its bytes.
fn around(tally: &mut Tally, effort: &Effort, block: &[u8], random: &mut Pseudorandom) {
    for length in 0..block.len() {
        compare(tally, &block[..length], block.len() / 2, random);
    }
    for change in (0..block.len() * 256).step_by(effort.stride) {
        let mut changed = block.to_vec();
        changed[change / 256] = change as u8;
        compare(tally, &changed, change % 5, random);
    }
}

pub fn read_block(effort: &Effort, random: &mut Pseudorandom) -> bool {
    let mut tally = Tally::new("read_block");
    for system in &SYSTEMS {
        widest(&mut tally, system, random);
        for width in 1..=3 {
            let block = block_of_width(system, width, random);
            around(&mut tally, effort, &block, random);
        }
    }
    for system in SYSTEMS.iter().step_by(effort.stride) {
        for row in clips::widest_rows(system, random) {
            compare(&mut tally, &clips::block(system, &row), 3 * MOST_SAMPLES, random);
        }
    }
    for _ in 0..5 * effort.cases {
        let width = any_width(random);
        let mut block = block_of_width(any_known(random), width, random);
        for _ in 0..random.below(4) {
            damage(&mut block, width, random);
        }
        compare(&mut tally, &block, any_places(width, random), random);
    }
    for _ in 0..effort.cases {
        let any = Lent::<u8>::blank(random.below(40), random);
        compare(&mut tally, any.part(), random.below(8), random);
    }
    tally.end()
}

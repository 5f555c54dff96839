//! Depth change (request 2026-09): blocks of all kinds with all targets, and what the request says of the results, judged by the
//! library's own answers.
use crate::blocks::{self, any_known, any_width, block_of_width, damage, hexadecimal, put_word, spoil, word_place};
use crate::exact::{self, block_bytes, System, MOST_SAMPLES, SYSTEMS};
use crate::lent::Lent;
use crate::library::{self, filled};
use crate::pseudorandom::Pseudorandom;
use crate::tally::Tally;
use crate::values::{any_system, SYSTEM_NUMBERS};
use crate::Effort;

/// The other depth of each system's Recommendation.
fn other_depth(system: &System) -> u32 {
    [2, 1, 4, 3][system.number as usize - 1]
}

// ---- comparing and judging

/// Calls beside the exact program, and what is judged of those that are accepted.
struct Comparison {
    changed: Tally,
    results: Tally,
    up_and_down: Tally,
}

impl Comparison {
    /// One call, with the upper half of the target's register filled.
    fn compare(&mut self, target: u32, bytes: &[u8], room: usize, random: &mut Pseudorandom) {
        let block = Lent::holding(bytes, random);
        let out = Lent::<u8>::blank(room, random);
        let wide = random.bits() << 32 | u64::from(target);
        let got = unsafe { filled::ferghulta_change_depth(wide, block.pointer(), block.length(), out.pointer(), room) };
        let wanted = exact::change_depth(target, bytes, room);
        let refusal = wanted.as_ref().err().copied().unwrap_or(0);
        let written = wanted.unwrap_or_default();
        let agree = got == refusal && out.holds(&written) && block.holds(&[]);
        self.changed.count(refusal, agree, || {
            format!(
                "target {target} room {room} block of {} bytes {}: {got}, wanted {refusal}; out as wanted: {}; bytes as lent: {}",
                bytes.len(),
                hexadecimal(bytes),
                out.holds(&written),
                block.holds(&[])
            )
        });
        if got == 0 && refusal == 0 {
            self.judge(target, bytes, &out.part()[..bytes.len()], random);
        }
    }

    fn judge(&mut self, target: u32, bytes: &[u8], result: &[u8], random: &mut Pseudorandom) {
        let agree = is_read_alike(target, bytes, result, random) && are_words_changed(target, bytes, result);
        self.results.count(0, agree, || {
            format!("target {target} block {}: {}", hexadecimal(bytes), hexadecimal(result))
        });
        if target > u32::from(bytes[0]) {
            self.goes_down(bytes, result, random);
        }
    }

    /// 'Up and then down gives the first bytes back.'
    fn goes_down(&mut self, first: &[u8], up: &[u8], random: &mut Pseudorandom) {
        let block = Lent::holding(up, random);
        let down = Lent::<u8>::blank(first.len(), random);
        let source = u32::from(first[0]);
        let got =
            unsafe { library::ferghulta_change_depth(source, block.pointer(), block.length(), down.pointer(), down.length()) };
        self.up_and_down.count(0, got == 0 && down.holds(first), || {
            let shown = [first, up, down.part()].map(hexadecimal);
            format!("{got}; first {}; up {}; down {}", shown[0], shown[1], shown[2])
        });
    }

    fn end(self) -> bool {
        self.changed.end() & self.results.end() & self.up_and_down.end()
    }
}

/// Whether the library reads the result, with the target's system and with the row number and count of the given block.
fn is_read_alike(target: u32, bytes: &[u8], result: &[u8], random: &mut Pseudorandom) -> bool {
    let read = |bytes: &[u8], random: &mut Pseudorandom| {
        let block = Lent::holding(bytes, random);
        let codes = Lent::<u16>::blank(bytes.len() / 2, random);
        unsafe { library::ferghulta_read_block(block.pointer(), block.length(), codes.pointer(), codes.length()) }
    };
    let (before, after) = (read(bytes, random), read(result, random));
    after.refusal == 0 && after.system == target && (after.row, after.samples) == (before.row, before.samples)
}

/// The words of a whole block, section after section.
fn words(bytes: &[u8]) -> impl Iterator<Item = u32> + '_ {
    let sections = bytes[3..].chunks_exact((bytes.len() - 3) / 3);
    let words = sections.flat_map(|section| section[2..].chunks_exact(2));
    words.map(|word| u32::from(u16::from_le_bytes([word[0], word[1]])))
}

/// Whether the higher depth's word is four times the lower depth's: upward exactly, downward to the nearest, and a half goes up.
fn are_words_changed(target: u32, bytes: &[u8], result: &[u8]) -> bool {
    let is_changed = |(before, after): (u32, u32)| {
        if target > u32::from(bytes[0]) {
            after == 4 * before
        } else {
            (4 * after..4 * after + 4).contains(&(before + 2))
        }
    };
    words(bytes).zip(words(result)).all(is_changed)
}

// ---- blocks

/// A word that each change of depth accepts.
fn calm_word(system: &System, random: &mut Pseudorandom) -> u16 {
    let s = system.scale as u16;
    random.within(s, 254 * s)
}

/// The ends of video data with their neighbours, and beyond. Downward the last two words of video data give a timing code.
fn edge_words(system: &System) -> [u16; 12] {
    let s = system.scale as u16;
    let behind = 255 * s;
    [0, s - 1, s, s + 1, s + 2, behind - 4, behind - 3, behind - 2, behind - 1, behind, 256 * s - 1, u16::MAX]
}

/// A row of words that are accepted.
fn calm_block(system: &System, width: usize, random: &mut Pseudorandom) -> Vec<u8> {
    let number = random.below(exact::MOST_ROWS) as u16;
    let [y, cb, cr] = [(); 3].map(|()| -> Vec<u16> { (0..width).map(|_| calm_word(system, random)).collect() });
    exact::block(system.number as u8, number, [&y, &cb, &cr])
}

/// A row of which one word is another.
fn block_with(system: &System, width: usize, at: (usize, usize), word: u16, random: &mut Pseudorandom) -> Vec<u8> {
    let mut block = calm_block(system, width, random);
    put_word(&mut block, word_place(width, at.0, at.1), word);
    block
}

/// Rows of accepted words, rows in which many words give a timing code, and the first with some words at the ends.
fn any_block(system: &System, width: usize, random: &mut Pseudorandom) -> Vec<u8> {
    let mut block = match random.below(4) {
        0 => return block_of_width(system, width, random),
        _ => calm_block(system, width, random),
    };
    for _ in 0..random.below(3) {
        let word = random.pick(&edge_words(system)[2..9]);
        put_word(&mut block, word_place(width, random.below(3), random.below(width)), word);
    }
    block
}

// ---- targets and rooms

/// Mostly the one that is accepted.
fn any_target(system: &System, random: &mut Pseudorandom) -> u32 {
    if random.once_in(4) {
        any_system(random)
    } else {
        other_depth(system)
    }
}

/// Mostly enough for so many bytes.
fn any_room(length: usize, random: &mut Pseudorandom) -> usize {
    let any = random.below(length + 20);
    let (less, few) = (length.saturating_sub(1), length.saturating_sub(9));
    random.pick(&[length, length, length, length, length + 1, length + 7, less, few, 0, any])
}

fn rooms(length: usize) -> [usize; 6] {
    [length, length - 1, length + 1, length + 40, length - 9, 0]
}

// ---- the comparison

/// Every word of video data, below it, and as far above it again, in each section, with all targets.
fn every_word(comparison: &mut Comparison, effort: &Effort, random: &mut Pseudorandom) {
    for system in &SYSTEMS {
        for word in (0..512 * system.scale as u16).step_by(effort.stride) {
            for (section, target) in (0..3).flat_map(|section| (1..=4).map(move |target| (section, target))) {
                let width = 1 + random.below(3);
                let block = block_with(system, width, (section, random.below(width)), word, random);
                comparison.compare(target, &block, block.len(), random);
            }
        }
    }
}

/// All of them in one row, but downward those that would give a timing code, in three orders; then with one of these.
fn all_words_at_once(comparison: &mut Comparison, random: &mut Pseudorandom) {
    for system in &SYSTEMS {
        let (target, range) = (other_depth(system), system.video_data());
        let last = range.end() - if target > system.number { 0 } else { 2 };
        let rising: Vec<u16> = (*range.start()..=last).collect();
        let falling: Vec<u16> = rising.iter().rev().copied().collect();
        let turned = [&rising[rising.len() / 3..], &rising[..rising.len() / 3]].concat();
        let block = exact::block(system.number as u8, 4319, [&rising, &falling, &turned]);
        for room in rooms(block.len()) {
            comparison.compare(target, &block, room, random);
        }
        for section in 0..3 {
            let mut block = block.clone();
            put_word(&mut block, word_place(rising.len(), section, random.below(rising.len())), *range.end());
            comparison.compare(target, &block, block.len(), random);
        }
    }
}

/// Each of the words at the ends at every place of rows that are narrow, or a little wider than what a loop takes in one turn.
fn every_place(comparison: &mut Comparison, effort: &Effort, random: &mut Pseudorandom) {
    for system in &SYSTEMS {
        for width in (1..=40).step_by(effort.stride.min(13)) {
            for at in (0..3).flat_map(|section| (0..width).map(move |sample| (section, sample))) {
                for word in edge_words(system).into_iter().step_by(effort.stride.min(5)) {
                    let block = block_with(system, width, at, word, random);
                    comparison.compare(other_depth(system), &block, block.len(), random);
                }
            }
        }
    }
}

/// Each system with each target, and with numbers that are none, in each kind of room: whole blocks, some without their last byte,
/// and some with a word at an end.
fn every_target(comparison: &mut Comparison, random: &mut Pseudorandom) {
    for (system, target) in SYSTEMS.iter().flat_map(|system| SYSTEM_NUMBERS.map(|target| (system, target))) {
        let block = calm_block(system, 2, random);
        for room in rooms(block.len()) {
            comparison.compare(target, &block, room, random);
            comparison.compare(target, &block[..block.len() - 1], room, random);
            for word in edge_words(system) {
                let at = (random.below(3), random.below(2));
                comparison.compare(target, &block_with(system, 2, at, word, random), room, random);
            }
        }
    }
}

/// The widest block, and what is one byte or one sample off.
fn widest(comparison: &mut Comparison, random: &mut Pseudorandom) {
    for system in &SYSTEMS {
        let target = other_depth(system);
        let block = calm_block(system, MOST_SAMPLES, random);
        for room in rooms(block.len()) {
            comparison.compare(target, &block, room, random);
        }
        comparison.compare(target, &block[..block.len() - 1], block.len(), random);
        comparison.compare(target, &[&block[..], &[0]].concat(), block.len() + 1, random);
        for (section, sample) in (0..3).flat_map(|section| [0, MOST_SAMPLES - 1].map(|sample| (section, sample))) {
            for word in edge_words(system) {
                let mut block = block.clone();
                put_word(&mut block, word_place(MOST_SAMPLES, section, sample), word);
                comparison.compare(target, &block, block.len(), random);
            }
        }
        let too_wide = calm_block(system, MOST_SAMPLES + 1, random);
        comparison.compare(target, &too_wide, too_wide.len(), random);
    }
}

/// Every front of narrow blocks, and every change of one of their bytes, with all targets.
fn around(comparison: &mut Comparison, effort: &Effort, random: &mut Pseudorandom) {
    for (system, width) in SYSTEMS.iter().flat_map(|system| (1..=3).map(move |width| (system, width))) {
        let block = calm_block(system, width, random);
        for target in 0..=4 {
            for length in 0..block.len() {
                comparison.compare(target, &block[..length], block.len(), random);
            }
            for change in (0..block.len() * 256).step_by(effort.stride) {
                let mut changed = block.clone();
                changed[change / 256] = change as u8;
                let room = block.len() + 1 - change % 3;
                comparison.compare(target, &changed, room, random);
            }
        }
    }
}

const FAULTS: u32 = 4 + blocks::FAULTS;

/// A target, block and room with those faults whose bit is set: a target that is refused with 32, or is none, a word that gives a
/// timing code, the faults of a block, too little room.
fn with_faults(system: &System, faults: u32, random: &mut Pseudorandom) -> (u32, Vec<u8>, usize) {
    let has = |fault: u32| faults >> fault & 1 == 1;
    let s = system.scale as u16;
    let width = 2 + random.below(2);
    let mut block = calm_block(system, width, random);
    let mut target = other_depth(system);
    if has(0) {
        target = random.pick(&[1, 2, 3, 4].map(|number| if number == target { system.number } else { number }));
    }
    if has(1) {
        target = random.pick(&[0, 5, 6, 256 + target, u32::MAX]);
    }
    if has(2) {
        put_word(&mut block, word_place(width, random.below(3), 0), 255 * s - 1 - random.within(0, 1));
    }
    spoil(&mut block, system, width, faults >> 3, random);
    let room = if has(11) { random.below(block_bytes(width)) } else { block_bytes(width) };
    (target, block, room)
}

/// All sets of faults, each of them in each system: whatever is tested first has to be told.
fn faults_together(comparison: &mut Comparison, effort: &Effort, random: &mut Pseudorandom) {
    for faults in (0..1 << FAULTS).step_by(effort.stride) {
        for system in &SYSTEMS {
            let (target, block, room) = with_faults(system, faults, random);
            comparison.compare(target, &block, room, random);
        }
    }
}

fn any_change(comparison: &mut Comparison, random: &mut Pseudorandom) {
    let (system, width) = (any_known(random), any_width(random));
    let mut block = any_block(system, width, random);
    for _ in 0..random.below(8).saturating_sub(4) {
        damage(&mut block, width, random);
    }
    let target = any_target(system, random);
    comparison.compare(target, &block, any_room(block.len(), random), random);
}

pub fn change_depth(effort: &Effort, random: &mut Pseudorandom) -> bool {
    let mut comparison = Comparison {
        changed: Tally::new("change_depth"),
        results: Tally::new("changed_blocks"),
        up_and_down: Tally::new("up_and_down"),
    };
    every_word(&mut comparison, effort, random);
    all_words_at_once(&mut comparison, random);
    every_place(&mut comparison, effort, random);
    every_target(&mut comparison, random);
    widest(&mut comparison, random);
    around(&mut comparison, effort, random);
    faults_together(&mut comparison, effort, random);
    for _ in 0..3 * effort.cases {
        any_change(&mut comparison, random);
    }
    for _ in 0..effort.cases / 2 {
        let any = Lent::<u8>::blank(random.below(40), random);
        comparison.compare(any_system(random), any.part(), random.below(40), random);
    }
    comparison.end()
}

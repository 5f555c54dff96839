//! Clipping low and clipping high (request 2026-07): words that clip in each way, and the library's two counts beside the former
//! total, judged by the request's words.
use crate::answers::{CountedAnswer, DecodedAnswer};
use crate::blocks::any_width;
use crate::exact::{self, Clips, System, MOST_SAMPLES, SYSTEMS};
use crate::lent::Lent;
use crate::library;
use crate::pseudorandom::Pseudorandom;
use crate::tally::Tally;
use crate::values::{all_triples, known, shown, triples};
use crate::Effort;
use std::sync::OnceLock;

type Words = [u16; 3];

// ---- words that clip

/// The counts that a triple can have, low and high. Not all three components are beyond the same end: before INT, Y' is their mean.
const PAIRS: [(u16, u16); 8] = [(0, 0), (1, 0), (2, 0), (0, 1), (0, 2), (1, 1), (2, 1), (1, 2)];

/// The ends of video data, and the multiples of 16s between them.
fn coarse(system: &System) -> Vec<u16> {
    let range = system.video_data();
    let between = range.clone().filter(|word| word % (16 * range.start()) == 0);
    [*range.start()].into_iter().chain(between).chain([*range.end()]).collect()
}

/// All triples of coarse words, by their pair of counts; each pair has some.
fn by_pair(system: &System) -> [Vec<Words>; 8] {
    let mut found: [Vec<Words>; 8] = Default::default();
    for words in triples(&coarse(system), 1) {
        let (_, Clips { low, high }) = exact::codes_of_words(system.number, words).unwrap();
        let place = PAIRS.iter().position(|&pair| pair == (low, high));
        found[place.expect("a pair of the list")].push(words);
    }
    assert!(found.iter().all(|words| !words.is_empty()));
    found
}

fn words_by_pair(system: &System) -> &'static [Vec<Words>; 8] {
    static FOUND: OnceLock<Vec<[Vec<Words>; 8]>> = OnceLock::new();
    let found = FOUND.get_or_init(|| SYSTEMS.iter().map(by_pair).collect());
    &found[system.number as usize - 1]
}

/// Triples of every pair of counts in each system.
pub fn triples_of_each_pair(mut compare: impl FnMut(u32, Words)) {
    for system in &SYSTEMS {
        for &words in words_by_pair(system).iter().flatten() {
            compare(system.number, words);
        }
    }
}

/// A row of samples that clip in any way.
pub fn any_row(system: &System, width: usize, random: &mut Pseudorandom) -> Vec<Words> {
    let found = words_by_pair(system);
    let mut sample = || {
        let pair = random.below(PAIRS.len());
        random.pick(&found[pair])
    };
    (0..width).map(|_| sample()).collect()
}

/// Rows of 7680 samples: all with the same pair of counts, so that each has two low, or two high, or all three; and with any.
pub fn widest_rows(system: &System, random: &mut Pseudorandom) -> Vec<Vec<Words>> {
    let mut rows = vec![any_row(system, MOST_SAMPLES, random)];
    for words in words_by_pair(system) {
        rows.push((0..MOST_SAMPLES).map(|_| random.pick(words)).collect());
    }
    rows
}

/// The words of a row, section by section.
pub fn sections(row: &[Words]) -> [Vec<u16>; 3] {
    [0, 1, 2].map(|section| row.iter().map(|words| words[section]).collect())
}

/// The block of a row, as the first of a picture.
pub fn block(system: &System, row: &[Words]) -> Vec<u8> {
    let [y, cb, cr] = sections(row);
    exact::block(system.number as u8, 0, [&y, &cb, &cr])
}

// ---- the former total

/// The library's answer.
fn now(system: u32, words: Words) -> DecodedAnswer {
    unsafe { library::ferghulta_codes_of_words(system, words.into()) }
}

/// Whether each count is of codes on its own end of video data, to which clipping brings them: then none counts in both.
fn are_on_their_ends(system: &System, [low, high]: [u32; 2], codes: &[u16]) -> bool {
    let range = system.video_data();
    let on = |end: &u16| codes.iter().filter(|&code| code == end).count();
    low as usize <= on(range.start()) && high as usize <= on(range.end())
}

/// 'Their sum is the former total'; refusals and codes are as they were.
fn triple(tally: &mut Tally, system: u32, words: Words) {
    let formerly = CountedAnswer::from(exact::formerly_decoded(system, words));
    let now = now(system, words);
    let clips = [now.low, now.high].map(u32::from);
    let agree = now.refusal == formerly.refusal
        && now.codes == formerly.triple
        && clips[0] + clips[1] == formerly.count
        && are_on_their_ends(known(system), clips, &now.codes);
    tally.count(formerly.refusal, agree, || {
        format!("system {system} words {words:?}: {now:?}, formerly {formerly:?}")
    });
}

fn former_total(system: &System, row: &[Words]) -> u32 {
    let clipped = |&words: &Words| exact::formerly_decoded(system.number, words).map_or(0, |(_, count)| count);
    row.iter().map(clipped).sum()
}

/// What the library counts in the samples one by one.
fn one_by_one(system: &System, row: &[Words]) -> [u32; 2] {
    let mut clips = [0; 2];
    for &words in row {
        let DecodedAnswer { low, high, .. } = now(system.number, words);
        clips[0] += u32::from(low);
        clips[1] += u32::from(high);
    }
    clips
}

/// 'Block reading sums both', and here too 'their sum is the former total'.
fn row(tally: &mut Tally, system: &System, row: &[Words], random: &mut Pseudorandom) {
    let block = Lent::holding(&block(system, row), random);
    let codes = Lent::<u16>::blank(3 * row.len(), random);
    let now = unsafe { library::ferghulta_read_block(block.pointer(), block.length(), codes.pointer(), codes.length()) };
    let clips = [now.low, now.high].map(u32::from);
    let (formerly, samples) = (former_total(system, row), one_by_one(system, row));
    let agree = now.refusal == 0
        && clips[0] + clips[1] == formerly
        && clips == samples
        && are_on_their_ends(system, clips, codes.part());
    tally.count(0, agree, || {
        let words = &row[..row.len().min(10)];
        format!("system {} words {words:?}: {now:?}, formerly {formerly}, one by one {samples:?}", system.number)
    });
}

fn show(words: Words) {
    let formerly = CountedAnswer::from(exact::formerly_decoded(1, words)).count;
    let DecodedAnswer { low, high, codes, .. } = now(1, words);
    let (words, codes) = (shown(words), shown(codes));
    println!("words {words}, codes {codes}: formerly clipped {formerly}, now low {low} high {high}");
}

fn of_triples(effort: &Effort, random: &mut Pseudorandom) -> bool {
    let mut tally = Tally::new("clipping_low_and_high");
    for words in [[16, 240, 240], [180, 1, 1], [75, 254, 254]] {
        show(words);
        triple(&mut tally, 1, words);
    }
    triples_of_each_pair(|system, words| triple(&mut tally, system, words));
    all_triples(&effort.third(), random, |system, words| triple(&mut tally, system, words));
    tally.end()
}

fn of_rows(effort: &Effort, random: &mut Pseudorandom) -> bool {
    let mut tally = Tally::new("clipping_low_and_high_of_rows");
    for system in SYSTEMS.iter().step_by(effort.stride) {
        for words in widest_rows(system, random) {
            row(&mut tally, system, &words, random);
        }
    }
    for _ in 0..effort.cases / 20 {
        let system = &SYSTEMS[random.below(4)];
        let words = any_row(system, any_width(random), random);
        row(&mut tally, system, &words, random);
    }
    tally.end()
}

/// The library's counts of triples and of rows beside the former total.
pub fn clipping_low_and_high(effort: &Effort, random: &mut Pseudorandom) -> bool {
    of_triples(effort, random) & of_rows(effort, random)
}

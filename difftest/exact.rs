//! Document 01 in exact arithmetic: whole numbers only, written from the document alone, nothing shared with the library.
//! Which codes and words are accepted, and the rules on words, are those of request 2026-03; their order is request 2026-04's, and
//! clips are counted as request 2026-07 has it. What later requests add stands at the end.
//! A call answers its values, or `Err` with the refusal's number.
use crate::natural::Natural;
use std::ops::RangeInclusive;
use std::sync::OnceLock;

pub type Outcome<T> = Result<T, u32>;

/// 'What the caller hears'.
pub mod refusal {
    pub const SYSTEM: u32 = 1;
    pub const WIDTH: u32 = 2;
    pub const HEIGHT: u32 = 3;
    pub const LIGHTS: u32 = 4;
    pub const OUTPUT: u32 = 5;
    pub const CODE: u32 = 6;
    pub const SIGNAL: u32 = 7;
    pub const BLOCK_END: u32 = 8;
    pub const COUNT: u32 = 9;
    pub const ROW_NUMBER: u32 = 10;
    pub const BYTES_AFTER: u32 = 11;
    pub const ALREADY_OPEN: u32 = 21;
    pub const NOT_OPEN: u32 = 22;
    pub const ALL_ROWS: u32 = 23;
    pub const ROWS_MISSING: u32 = 24;
    pub const LENGTH: u32 = 31;
    pub const TARGET: u32 = 32;
    pub const TIMING: u32 = 33;
    pub const TURN: u32 = 34;
    pub const UNLIKE: u32 = 35;
    pub const NOT_READING: u32 = 36;
}

fn require(condition: bool, refusal: u32) -> Outcome<()> {
    if condition {
        Ok(())
    } else {
        Err(refusal)
    }
}

// ---- 'Four systems'

/// α and β stand in ten-thousandths, in which they are whole for all systems.
pub struct System {
    pub number: u32,
    pub scale: i128,
    alpha: i128,
    beta: i128,
    weights: Weights,
}

#[derive(Clone, Copy, PartialEq)]
struct Weights {
    kr: i128,
    kg: i128,
    kb: i128,
}

const BT709: Weights = Weights {
    kr: 2126,
    kg: 7152,
    kb: 722,
};

const BT2020: Weights = Weights {
    kr: 2627,
    kg: 6780,
    kb: 593,
};

#[rustfmt::skip]
pub static SYSTEMS: [System; 4] = [
    System { number: 1, scale: 1, alpha: 10990, beta: 180, weights: BT709 },
    System { number: 2, scale: 4, alpha: 10990, beta: 180, weights: BT709 },
    System { number: 3, scale: 4, alpha: 10990, beta: 180, weights: BT2020 },
    System { number: 4, scale: 16, alpha: 10993, beta: 181, weights: BT2020 },
];

pub fn system(number: u32) -> Outcome<&'static System> {
    let known = SYSTEMS.iter().find(|system| system.number == number);
    known.ok_or(refusal::SYSTEM)
}

impl System {
    pub fn lowest(&self) -> u16 {
        (16 * self.scale) as u16
    }

    /// The highest nominal R', G', B' or Y'.
    pub fn highest(&self) -> u16 {
        (235 * self.scale) as u16
    }

    /// The highest nominal Cb or Cr.
    pub fn highest_difference(&self) -> u16 {
        (240 * self.scale) as u16
    }

    fn nominal(&self) -> RangeInclusive<u16> {
        self.lowest()..=self.highest()
    }

    fn nominal_difference(&self) -> RangeInclusive<u16> {
        self.lowest()..=self.highest_difference()
    }

    /// Of R', G', B', Y', Cb and Cr alike.
    pub fn video_data(&self) -> RangeInclusive<u16> {
        self.scale as u16..=(255 * self.scale - 1) as u16
    }

    pub fn is_timing(&self, word: u16) -> bool {
        let word = i128::from(word);
        word < self.scale || word >= 255 * self.scale
    }

    fn middle(&self) -> i128 {
        128 * self.scale
    }
}

/// A value inside INT; the denominator is above 0.
#[derive(Clone, Copy)]
pub struct Ratio {
    pub numerator: i128,
    pub denominator: i128,
}

fn ratio(numerator: i128, denominator: i128) -> Ratio {
    Ratio {
        numerator,
        denominator,
    }
}

/// The greatest whole number not above v + 1/2.
fn int(v: Ratio) -> i128 {
    (2 * v.numerator + v.denominator).div_euclid(2 * v.denominator)
}

// ---- 'Light to code'

/// What full light is: 65535 of a light k, and 10000 times as much of a sum of lights by ten-thousandths (request 2026-11).
const FULL_LIGHT: u32 = 65535;

/// The code of every light, and the least and the greatest light of every nominal code.
struct Curve {
    codes: Vec<u16>,
    spans: Vec<(u16, u16)>,
}

fn curve(system: &System) -> &'static Curve {
    static CURVES: OnceLock<Vec<Curve>> = OnceLock::new();
    let curves = CURVES.get_or_init(|| SYSTEMS.iter().map(Curve::of).collect());
    &curves[system.number as usize - 1]
}

impl Curve {
    fn of(system: &System) -> Curve {
        let thresholds = Thresholds::of(system, FULL_LIGHT);
        let codes: Vec<u16> = (0..=u16::MAX)
            .map(|light| thresholds.code(system, light.into()))
            .collect();
        let spans = spans(system, &codes);
        Curve { codes, spans }
    }
}

/// The rule over any scale of light: L = light/full. For each nominal code but the first, the least light with
/// L^9 ≥ ((v + α − 1)/α)^20.
struct Thresholds {
    full: u32,
    least: Vec<u32>,
}

impl Thresholds {
    fn of(system: &System, full: u32) -> Thresholds {
        let nominal = system.lowest() + 1..=system.highest();
        let least = nominal.map(|code| threshold(system, full, code)).collect();
        Thresholds { full, least }
    }

    fn code(&self, system: &System, light: u32) -> u16 {
        let (k, full) = (i128::from(light), i128::from(self.full));
        if k * 10000 < system.beta * full {
            // (219·4.5·L + 16)·s over 2·full
            let over = (219 * 9 * k + 16 * 2 * full) * system.scale;
            return int(ratio(over, 2 * full)) as u16;
        }
        let reached = self.least.partition_point(|&least| least <= light);
        system.lowest() + reached as u16
    }
}

/// The least light with L^9 ≥ ((v + α − 1)/α)^20, where v = (2D − 1 − 32s)/(438s).
fn threshold(system: &System, full: u32, code: u16) -> u32 {
    let s = system.scale;
    let over = (2 * i128::from(code) - 1 - 32 * s) * 10000 + (system.alpha - 10000) * 438 * s;
    let under = 438 * s * system.alpha;
    let right = Natural::one().times_power(over as u32, 20).times_power(full, 9);
    let left = Natural::one().times_power(under as u32, 20);
    least(0, full, |light| left.clone().times_power(light, 9) >= right)
}

/// The least number for which a rising test holds; it holds for `high`.
pub fn least(mut low: u32, mut high: u32, holds: impl Fn(u32) -> bool) -> u32 {
    while low < high {
        let half = (low + high) / 2;
        if holds(half) {
            high = half;
        } else {
            low = half + 1;
        }
    }
    low
}

fn spans(system: &System, codes: &[u16]) -> Vec<(u16, u16)> {
    let of_code = |code: u16| {
        let least = codes.iter().position(|&c| c == code);
        let greatest = codes.iter().rposition(|&c| c == code);
        // 'Each nominal code has at least one light.'
        (least.unwrap() as u16, greatest.unwrap() as u16)
    };
    (system.lowest()..=system.highest()).map(of_code).collect()
}

pub fn code_of_light(number: u32, light: u16) -> Outcome<u16> {
    Ok(code_in(system(number)?, light))
}

pub fn code_in(system: &System, light: u16) -> u16 {
    curve(system).codes[usize::from(light)]
}

pub fn span_of_code(number: u32, code: u16) -> Outcome<(u16, u16)> {
    let system = system(number)?;
    require(system.nominal().contains(&code), refusal::CODE)?;
    Ok(span_in(system, code))
}

pub fn span_in(system: &System, code: u16) -> (u16, u16) {
    curve(system).spans[usize::from(code - system.lowest())]
}

/// The least light of the code below one that is read, and the greatest of the code above it: 'a code beyond nominal counts as the
/// nominal end', and so does a neighbour.
pub fn lights_near(system: &System, code: u16) -> (u16, u16) {
    let (low, high) = (system.lowest(), system.highest());
    let counted = code.clamp(low, high);
    let (least, _) = span_in(system, (counted - 1).max(low));
    let (_, greatest) = span_in(system, (counted + 1).min(high));
    (least, greatest)
}

// ---- 'Float signals'; a float is given by its bits

pub fn codes_of_signals(number: u32, signals: [u32; 3]) -> Outcome<[u16; 3]> {
    let system = system(number)?;
    require(signals.iter().all(|&bits| is_signal(bits)), refusal::SIGNAL)?;
    Ok(signals.map(|bits| code_of_signal(system, bits)))
}

const SIGN: u32 = 1 << 31;
const ONE: u32 = 0x3F80_0000;

/// From 0 to 1: floats that are not negative stand in the order of their bits, with NaN above infinity.
fn is_signal(bits: u32) -> bool {
    bits <= ONE || bits == SIGN
}

/// INT((219·E' + 16)·s) of the exact value of a signal from 0 to 1.
fn code_of_signal(system: &System, bits: u32) -> u16 {
    let fraction = i128::from(bits & 0x7F_FFFF);
    let (significand, digits_below_point) = match bits >> 23 & 0xFF {
        0 => (fraction, 149),
        exponent => (fraction + (1 << 23), 150 - exponent),
    };
    // A signal below 2^-76 is less than half a code, and its denominator may exceed an i128.
    if digits_below_point > 100 {
        return system.lowest();
    }
    let denominator = 1i128 << digits_below_point;
    let over = (219 * significand + 16 * denominator) * system.scale;
    // INT as above; the denominator is a power of two.
    ((2 * over + denominator) >> (digits_below_point + 1)) as u16
}

pub fn signals_of_codes(number: u32, codes: [u16; 3]) -> Outcome<[u32; 3]> {
    let system = system(number)?;
    require(are_all_in(system.nominal(), codes), refusal::CODE)?;
    let s = system.scale as u128;
    Ok(codes.map(|code| nearest_f32(u128::from(code) - 16 * s, 219 * s)))
}

/// The bits of the float nearest to a ratio from 0 to 1 that is 0 or not subnormal, ties to even.
pub fn nearest_f32(numerator: u128, denominator: u128) -> u32 {
    if numerator == 0 {
        return 0;
    }
    // 24 digits stand before the point.
    let mut shift = 23;
    while (numerator << shift) / denominator < 1 << 23 {
        shift += 1;
    }
    let quotient = ((numerator << shift) / denominator) as u32;
    let rest = (numerator << shift) % denominator;
    let up = 2 * rest > denominator || 2 * rest == denominator && quotient % 2 == 1;
    // The leading digit adds one to the exponent field, and so does a carry.
    ((149 - shift) << 23) + quotient + u32::from(up)
}

// ---- 'Triples'

fn are_all_in(range: RangeInclusive<u16>, triple: [u16; 3]) -> bool {
    triple.iter().all(|component| range.contains(component))
}

/// The nearest end of a range, where a number is beyond it.
fn nearest_end(range: &RangeInclusive<u16>, number: i128) -> Option<u16> {
    let (low, high) = (*range.start(), *range.end());
    if number < i128::from(low) {
        Some(low)
    } else if number > i128::from(high) {
        Some(high)
    } else {
        None
    }
}

/// The numbers, of which some are brought to an end, and how many these are. The others are video data.
fn brought(numbers: [i128; 3], ends: [Option<u16>; 3]) -> ([u16; 3], u32) {
    let triple = [0, 1, 2].map(|place| ends[place].unwrap_or(numbers[place] as u16));
    (triple, ends.iter().flatten().count() as u32)
}

/// How a code triple is encoded: with the guard rule alone, or with the trim rule beside it.
#[derive(Clone, Copy, Debug, PartialEq)]
pub enum Encoding {
    Plain,
    Trim,
}

/// What stands inside INT for Y', Cb and Cr of the codes R, G and B.
pub fn word_values(system: &System, codes: [u16; 3]) -> [Ratio; 3] {
    let Weights { kr, kg, kb } = system.weights;
    let [r, g, b] = codes.map(i128::from);
    let luma = kr * r + kg * g + kb * b;
    let difference = |primary: i128, weight: i128| {
        let denominator = 219 * 2 * (10000 - weight);
        let over = (10000 * primary - luma) * 224;
        ratio(over + system.middle() * denominator, denominator)
    };
    [ratio(luma, 10000), difference(b, kb), difference(r, kr)]
}

/// 'The guard rule brings a word beyond video data to its nearest end.'
fn guard(system: &System, word: i128) -> Option<u16> {
    nearest_end(&system.video_data(), word)
}

/// 'The trim rule, if chosen, brings a word beyond nominal to the nominal end.'
fn trim(encoding: Encoding, nominal: &RangeInclusive<u16>, word: i128) -> Option<u16> {
    match encoding {
        Encoding::Plain => None,
        Encoding::Trim => nearest_end(nominal, word),
    }
}

/// Before the rules a word may be below 0 or above 256s.
pub fn words_before_rules(system: &System, codes: [u16; 3]) -> [i128; 3] {
    word_values(system, codes).map(int)
}

/// The words, and how many were moved. The rules take a nominal range and a word, and give the end to which the word goes, if any.
fn encoded_by(
    system: &System,
    codes: [u16; 3],
    rules: impl Fn(&RangeInclusive<u16>, i128) -> Option<u16>,
) -> ([u16; 3], u32) {
    let before = words_before_rules(system, codes);
    let (luma, difference) = (system.nominal(), system.nominal_difference());
    let nominal = [&luma, &difference, &difference];
    brought(before, [0, 1, 2].map(|place| rules(nominal[place], before[place])))
}

/// 'Trim is now tried first if chosen, then the guard.' Still only one rule acts on a word.
fn encoded_in(system: &System, encoding: Encoding, codes: [u16; 3]) -> ([u16; 3], u32) {
    encoded_by(system, codes, |nominal, word| {
        trim(encoding, nominal, word).or_else(|| guard(system, word))
    })
}

/// Trim encoding as request 2026-03 had it, to compare: 'The guard is tried first and only one rule acts on a word.'
fn formerly_trimmed_in(system: &System, codes: [u16; 3]) -> ([u16; 3], u32) {
    encoded_by(system, codes, |nominal, word| {
        guard(system, word).or_else(|| trim(Encoding::Trim, nominal, word))
    })
}

/// The system of codes or words, which have to be video data.
fn system_of_triple(number: u32, triple: [u16; 3]) -> Outcome<&'static System> {
    let system = system(number)?;
    require(are_all_in(system.video_data(), triple), refusal::CODE)?;
    Ok(system)
}

pub fn words_of_codes(number: u32, encoding: Encoding, codes: [u16; 3]) -> Outcome<([u16; 3], u32)> {
    let system = system_of_triple(number, codes)?;
    Ok(encoded_in(system, encoding, codes))
}

pub fn formerly_trimmed(number: u32, codes: [u16; 3]) -> Outcome<([u16; 3], u32)> {
    let system = system_of_triple(number, codes)?;
    Ok(formerly_trimmed_in(system, codes))
}

/// What stands inside INT for R, G and B of the words Y', Cb and Cr, over the denominators of q and the weights.
fn code_values(system: &System, words: [u16; 3]) -> [Ratio; 3] {
    let Weights { kr, kg, kb } = system.weights;
    let y = i128::from(words[0]);
    let cb = i128::from(words[1]) - system.middle();
    let cr = i128::from(words[2]) - system.middle();
    let direct = |difference: i128, weight: i128| {
        let over = 219 * difference * 2 * (10000 - weight);
        ratio(y * 224 * 10000 + over, 224 * 10000)
    };
    let of_cr = 219 * cr * 2 * kr * (10000 - kr);
    let of_cb = 219 * cb * 2 * kb * (10000 - kb);
    let denominator = 224 * 10000 * kg;
    let green = ratio(y * denominator - of_cr - of_cb, denominator);
    [direct(cr, kr), green, direct(cb, kb)]
}

/// 'The components clipped low and those clipped high as two counts.'
#[derive(Clone, Copy, Debug, Default, PartialEq)]
pub struct Clips {
    pub low: u16,
    pub high: u16,
}

/// R, G and B of words, before clipping.
fn components(system: &System, words: [u16; 3]) -> [i128; 3] {
    code_values(system, words).map(int)
}

/// Components below video data are clipped low, those above it high, and those on an end are not clipped.
fn clipped<const COUNT: usize>(system: &System, components: [i128; COUNT]) -> ([u16; COUNT], Clips) {
    let (first, last) = (system.scale, 255 * system.scale - 1);
    let clips = Clips {
        low: components.iter().filter(|&&c| c < first).count() as u16,
        high: components.iter().filter(|&&c| c > last).count() as u16,
    };
    (components.map(|c| c.clamp(first, last) as u16), clips)
}

/// The codes of words.
fn decoded_in(system: &System, words: [u16; 3]) -> ([u16; 3], Clips) {
    clipped(system, components(system, words))
}

/// Decoding before request 2026-07, to compare: the codes, and how many components clipping changed, 'the former total'.
fn formerly_decoded_in(system: &System, words: [u16; 3]) -> ([u16; 3], u32) {
    let range = system.video_data();
    let components = components(system, words);
    brought(components, components.map(|c| nearest_end(&range, c)))
}

pub fn codes_of_words(number: u32, words: [u16; 3]) -> Outcome<([u16; 3], Clips)> {
    let system = system_of_triple(number, words)?;
    Ok(decoded_in(system, words))
}

pub fn formerly_decoded(number: u32, words: [u16; 3]) -> Outcome<([u16; 3], u32)> {
    let system = system_of_triple(number, words)?;
    Ok(formerly_decoded_in(system, words))
}

// ---- 'Row block'

pub const MOST_SAMPLES: usize = 7680;
pub const MOST_ROWS: usize = 4320;

pub fn block_bytes(width: usize) -> usize {
    9 + 6 * width
}

/// What reading a block gives.
#[derive(Debug)]
pub struct Row {
    pub system: u32,
    pub number: u16,
    pub samples: u16,
    pub clips: Clips,
    pub codes: Vec<u16>,
}

/// The bytes of a block with these sections, whatever their words are.
pub fn block(system: u8, number: u16, sections: [&[u16]; 3]) -> Vec<u8> {
    let mut bytes = vec![system];
    bytes.extend(number.to_le_bytes());
    for section in sections {
        bytes.extend((section.len() as u16).to_le_bytes());
        bytes.extend(section.iter().flat_map(|word| word.to_le_bytes()));
    }
    bytes
}

/// The block of a row of lights.
fn block_of_lights(system: &System, number: u16, lights: &[u16]) -> Vec<u8> {
    let mut sections = [vec![], vec![], vec![]];
    for sample in lights.chunks_exact(3) {
        let codes = [sample[0], sample[1], sample[2]].map(|light| code_in(system, light));
        // The codes of lights are nominal, and no rule acts on their words.
        let (words, _) = encoded_in(system, Encoding::Plain, codes);
        for (section, word) in sections.iter_mut().zip(words) {
            section.push(word);
        }
    }
    let [y, cb, cr] = &sections;
    block(system.number as u8, number, [y, cb, cr])
}

/// A block's system, row number, and the words of each sample, after all tests of reading but that of the room.
fn words_of_block(bytes: &[u8]) -> Outcome<(&'static System, u16, Vec<[u16; 3]>)> {
    let (head, mut rest) = front(bytes, 3)?;
    let system = system(u32::from(head[0]))?;
    let number = word_at(head, 1);
    require(usize::from(number) < MOST_ROWS, refusal::ROW_NUMBER)?;
    let y = section(&mut rest, None)?;
    let cb = section(&mut rest, Some(y.len()))?;
    let cr = section(&mut rest, Some(y.len()))?;
    require(rest.is_empty(), refusal::BYTES_AFTER)?;
    let words: Vec<[u16; 3]> = (0..y.len()).map(|j| [y[j], cb[j], cr[j]]).collect();
    let accepted = words.iter().all(|&w| are_all_in(system.video_data(), w));
    require(accepted, refusal::CODE)?;
    Ok((system, number, words))
}

/// Reads a block for a lent slice of so many places.
pub fn read_block(bytes: &[u8], places: usize) -> Outcome<Row> {
    let (system, number, words) = words_of_block(bytes)?;
    require(places >= 3 * words.len(), refusal::OUTPUT)?;
    Ok(row_of_words(system, number, &words))
}

/// 'Block reading sums both.'
fn row_of_words(system: &System, number: u16, words: &[[u16; 3]]) -> Row {
    let mut codes = Vec::new();
    let mut clips = Clips::default();
    for &sample in words {
        let (decoded, of_sample) = decoded_in(system, sample);
        codes.extend(decoded);
        clips.low += of_sample.low;
        clips.high += of_sample.high;
    }
    Row {
        system: system.number,
        number,
        samples: words.len() as u16,
        clips,
        codes,
    }
}

/// The first bytes and those after them.
fn front(bytes: &[u8], length: usize) -> Outcome<(&[u8], &[u8])> {
    bytes.split_at_checked(length).ok_or(refusal::BLOCK_END)
}

fn word_at(bytes: &[u8], place: usize) -> u16 {
    u16::from_le_bytes([bytes[place], bytes[place + 1]])
}

/// Takes a section from the front: a count, which is like the Y' count where there is one, and its words.
fn section(rest: &mut &[u8], like: Option<usize>) -> Outcome<Vec<u16>> {
    let (count, after_count) = front(rest, 2)?;
    let count = usize::from(word_at(count, 0));
    require((1..=MOST_SAMPLES).contains(&count), refusal::COUNT)?;
    require(like.is_none_or(|y_count| y_count == count), refusal::COUNT)?;
    let (words, after_words) = front(after_count, 2 * count)?;
    *rest = after_words;
    Ok(words.chunks_exact(2).map(|w| word_at(w, 0)).collect())
}

// ---- 'Picture'

/// Request 2026-06: the state 'also carries the bytes written so far', a closed one those of the picture that was closed.
#[derive(Clone, Copy, Debug, PartialEq)]
pub enum Picture {
    Fresh,
    Open(Opened),
    Closed { bytes: usize },
}

#[derive(Clone, Copy, Debug, PartialEq)]
pub struct Opened {
    pub system: u32,
    pub width: usize,
    pub height: usize,
    pub rows: usize,
    pub bytes: usize,
}

fn size(width: u32, height: u32) -> Outcome<(usize, usize)> {
    let (width, height) = (width as usize, height as usize);
    require((1..=MOST_SAMPLES).contains(&width), refusal::WIDTH)?;
    require((1..=MOST_ROWS).contains(&height), refusal::HEIGHT)?;
    Ok((width, height))
}

/// State is tested first, then input in the order of the numbers.
pub fn open(picture: Picture, number: u32, width: u32, height: u32) -> Outcome<Picture> {
    require(!matches!(picture, Picture::Open(_)), refusal::ALREADY_OPEN)?;
    let system = system(number)?.number;
    let (width, height) = size(width, height)?;
    Ok(Picture::Open(Opened {
        system,
        width,
        height,
        rows: 0,
        bytes: 0,
    }))
}

fn opened(picture: Picture) -> Outcome<Opened> {
    match picture {
        Picture::Open(opened) => Ok(opened),
        _ => Err(refusal::NOT_OPEN),
    }
}

/// The picture after the row, and the row's block.
pub fn row(picture: Picture, lights: &[u16], room: usize) -> Outcome<(Picture, Vec<u8>)> {
    let opened = opened(picture)?;
    require(opened.rows < opened.height, refusal::ALL_ROWS)?;
    require(lights.len() == 3 * opened.width, refusal::LIGHTS)?;
    require(room >= block_bytes(opened.width), refusal::OUTPUT)?;
    let block = block_of_lights(system(opened.system)?, opened.rows as u16, lights);
    let (rows, bytes) = (opened.rows + 1, opened.bytes + block.len());
    Ok((Picture::Open(Opened { rows, bytes, ..opened }), block))
}

pub fn close(picture: Picture) -> Outcome<Picture> {
    let opened = opened(picture)?;
    require(opened.rows == opened.height, refusal::ROWS_MISSING)?;
    Ok(Picture::Closed { bytes: opened.bytes })
}

// ---- request 2026-01, segmented frames

const LINES: usize = 1080;

/// The total line of an active line, both counted from 1.
fn total_line(active: usize) -> usize {
    if active % 2 == 1 {
        21 + (active - 1) / 2
    } else {
        584 + (active - 2) / 2
    }
}

/// Active lines in rising total line.
fn lines_by_total() -> Vec<usize> {
    let mut lines: Vec<usize> = (1..=LINES).collect();
    lines.sort_by_key(|&line| total_line(line));
    lines
}

/// The bytes of a row.
fn row_bytes(length: usize, room: usize) -> Outcome<usize> {
    let refused = [length, room].iter().any(|&l| l == 0 || l % LINES != 0) || length != room;
    require(!refused, refusal::LENGTH)?;
    Ok(length / LINES)
}

pub fn to_segmented(from: &[u8], room: usize) -> Outcome<Vec<u8>> {
    let bytes = row_bytes(from.len(), room)?;
    let row = |line: usize| &from[bytes * (line - 1)..bytes * line];
    Ok(lines_by_total().into_iter().flat_map(row).copied().collect())
}

pub fn to_progressive(from: &[u8], room: usize) -> Outcome<Vec<u8>> {
    let bytes = row_bytes(from.len(), room)?;
    let mut rows = vec![0; room];
    for (place, line) in lines_by_total().into_iter().enumerate() {
        rows[bytes * (line - 1)..bytes * line].copy_from_slice(&from[bytes * place..bytes * (place + 1)]);
    }
    Ok(rows)
}

// ---- request 2026-05, levels

/// Whole millivolts, and the remainder over 219s or 224s.
pub type Level = (i32, u32);

/// The remainder, 'never negative', is taken first; without it the level is a whole number of millivolts. Zero and range are
/// multiples of s.
fn level(number: u32, code: u16, zero: i128, range: i128) -> Outcome<Level> {
    let system = system(number)?;
    require(system.video_data().contains(&code), refusal::CODE)?;
    let over = 700 * (i128::from(code) - zero * system.scale);
    let under = range * system.scale;
    let remainder = over.rem_euclid(under);
    Ok((((over - remainder) / under) as i32, remainder as u32))
}

/// 700·(D − 16s)/(219s) for R', G', B', Y'.
pub fn level_of_code(number: u32, code: u16) -> Outcome<Level> {
    level(number, code, 16, 219)
}

/// 700·(C − 128s)/(224s) for Cb, Cr.
pub fn level_of_difference(number: u32, word: u16) -> Outcome<Level> {
    level(number, word, 128, 224)
}

// ---- request 2026-06, bytes of a picture

/// 'height·(9 + 6·width), with 2 and 3 as in open'.
pub fn total_bytes(width: u32, height: u32) -> Outcome<u32> {
    let (width, height) = size(width, height)?;
    Ok((height * (9 + 6 * width)) as u32)
}

// ---- request 2026-08, clipping over the last 64 rows

/// How many rows a meter shows, and their low and high clipping.
#[derive(Clone, Copy, Debug, Default, PartialEq)]
pub struct Figures {
    pub rows: usize,
    pub low: u64,
    pub high: u64,
}

/// 'The 64 latest rows read, or all of them if fewer', of a history of rows, the latest last.
pub fn latest(history: &[Clips]) -> &[Clips] {
    &history[history.len() - history.len().min(64)..]
}

/// 'The sums over that stretch of history.'
pub fn figures(history: &[Clips]) -> Figures {
    let rows = latest(history);
    Figures {
        rows: rows.len(),
        low: rows.iter().map(|clips| u64::from(clips.low)).sum(),
        high: rows.iter().map(|clips| u64::from(clips.high)).sum(),
    }
}

/// 'Each accepted one enters one row', and 'a refused read enters nothing'.
pub fn enter(history: &mut Vec<Clips>, outcome: &Outcome<Row>) {
    history.extend(outcome.iter().map(|row| row.clips));
}

// ---- request 2026-09, depth change

/// 'The two depths of one Recommendation', whose weights are the same.
fn are_two_depths(one: &System, other: &System) -> bool {
    one.weights == other.weights && one.number != other.number
}

/// 'Upward a word is multiplied by 4, downward it is INT(word/4).'
fn word_in_depth(source: &System, target: &System, word: u16) -> u16 {
    let word = i128::from(word);
    let changed = if target.scale > source.scale { 4 * word } else { int(ratio(word, 4)) };
    changed as u16
}

/// The block in the target system, for a lent buffer of so many bytes. 'A target not 1 to 4 is 1, before the block is looked at';
/// 32 is 'tested after block reading's own checks up to 6; 33, a result in the timing codes, next; then 5'.
pub fn change_depth(number: u32, bytes: &[u8], room: usize) -> Outcome<Vec<u8>> {
    let target = system(number)?;
    let (source, row_number, words) = words_of_block(bytes)?;
    require(are_two_depths(source, target), refusal::TARGET)?;
    let section = |place: usize| -> Vec<u16> {
        words.iter().map(|sample| word_in_depth(source, target, sample[place])).collect()
    };
    let [y, cb, cr] = [0, 1, 2].map(section);
    let mut results = [&y, &cb, &cr].into_iter().flatten();
    require(!results.any(|&word| target.is_timing(word)), refusal::TIMING)?;
    let changed = block(target.number as u8, row_number, [&y, &cb, &cr]);
    require(room >= changed.len(), refusal::OUTPUT)?;
    Ok(changed)
}

// ---- request 2026-10, rows out of turn

/// A picture reader as its history: the height that the last accepted opening was given, none before it, and the system and the
/// count of each block accepted since, the first one first.
#[derive(Clone, Debug, Default)]
pub struct Reader {
    pub height: Option<usize>,
    pub rows: Vec<(u32, u16)>,
}

impl Reader {
    /// 'After height rows it is complete.'
    pub fn is_complete(&self) -> bool {
        self.height == Some(self.rows.len())
    }

    /// 'Given a height on opening (3 if not 1 to 4320)'; 'opening, allowed in any state, starts it anew'.
    pub fn open(&mut self, height: u32) -> Outcome<()> {
        let height = height as usize;
        require((1..=MOST_ROWS).contains(&height), refusal::HEIGHT)?;
        self.height = Some(height);
        self.rows.clear();
        Ok(())
    }

    /// 'Gives for each accepted block what block reading gives.' '36 is tested first, 34 and then 35 after block reading's checks';
    /// 'it starts at row 0'.
    pub fn read(&mut self, bytes: &[u8], places: usize) -> Outcome<Row> {
        require(self.height.is_some() && !self.is_complete(), refusal::NOT_READING)?;
        let row = read_block(bytes, places)?;
        require(usize::from(row.number) == self.rows.len(), refusal::TURN)?;
        let kind = (row.system, row.samples);
        require(self.rows.first().is_none_or(|&first| first == kind), refusal::UNLIKE)?;
        self.rows.push(kind);
        Ok(row)
    }
}

// ---- request 2026-11, constant luminance

/// 'Systems 5 and 6 take n, α and β of 3 and 4', and are no systems of the other calls.
pub fn constant_system(number: u32) -> Outcome<&'static System> {
    match number {
        5 => system(3),
        6 => system(4),
        _ => Err(refusal::SYSTEM),
    }
}

/// What a sum of lights is at full light.
pub const FULL_SUM: u32 = 10000 * FULL_LIGHT;

/// '0.2627R + 0.6780G + 0.0593B taken on light', in ten-thousandths.
pub fn sum_of_lights(lights: [u16; 3]) -> u32 {
    let Weights { kr, kg, kb } = BT2020;
    let [r, g, b] = lights.map(i128::from);
    (kr * r + kg * g + kb * b) as u32
}

/// Y'c, 'quantised once from that exact sum'.
pub fn code_of_sum(system: &System, sum: u32) -> u16 {
    static THRESHOLDS: OnceLock<Vec<Thresholds>> = OnceLock::new();
    let of_systems = || SYSTEMS[2..].iter().map(|system| Thresholds::of(system, FULL_SUM)).collect();
    THRESHOLDS.get_or_init(of_systems)[system.number as usize - 3].code(system, sum)
}

/// What a difference is divided by, in ten-thousandths: where it is not above zero, and where it is.
struct Divisors {
    not_above: i128,
    above: i128,
}

const OF_BLUE: Divisors = Divisors {
    not_above: 19404,
    above: 15820,
};

const OF_RED: Divisors = Divisors {
    not_above: 17182,
    above: 9938,
};

impl Divisors {
    fn of(&self, difference: i128) -> i128 {
        if difference > 0 {
            self.above
        } else {
            self.not_above
        }
    }

    /// 'The difference, in codes, is divided'; 'then 224/219, the middle m and INT as before'.
    fn word(&self, system: &System, code: u16, luma: u16) -> i128 {
        let difference = i128::from(code) - i128::from(luma);
        let under = 219 * self.of(difference);
        int(ratio(difference * 10000 * 224 + system.middle() * under, under))
    }

    /// INT(Y'c + q·c·d), 'with divisor d by the side of m'.
    fn code(&self, system: &System, luma: u16, word: u16) -> i128 {
        let difference = i128::from(word) - system.middle();
        let under = 224 * 10000;
        int(ratio(i128::from(luma) * under + 219 * difference * self.of(difference), under))
    }
}

/// 'If no triple of light gives a word beyond nominal, show that': here it would end the program.
pub fn constant_words_of_lights(number: u32, lights: [u16; 3]) -> Outcome<[u16; 3]> {
    let system = constant_system(number)?;
    let [r, b] = [lights[0], lights[2]].map(|light| code_in(system, light));
    let y = code_of_sum(system, sum_of_lights(lights));
    let differences = [OF_BLUE.word(system, b, y), OF_RED.word(system, r, y)];
    let nominal = system.nominal_difference();
    assert!(differences.iter().all(|&word| nearest_end(&nominal, word).is_none()));
    Ok([y, differences[0] as u16, differences[1] as u16])
}

/// R' and B', 'clipped and counted as in 2026-07'; there is no G'.
pub fn constant_codes_of_words(number: u32, words: [u16; 3]) -> Outcome<([u16; 2], Clips)> {
    let system = constant_system(number)?;
    require(are_all_in(system.video_data(), words), refusal::CODE)?;
    let [y, cb, cr] = words;
    Ok(clipped(system, [OF_RED.code(system, y, cr), OF_BLUE.code(system, y, cb)]))
}

//! The calls on single values and triples.
use crate::answers::*;
use crate::clips::triples_of_each_pair;
use crate::library::{self, filled};
use crate::exact::{self, Encoding, Level, Outcome, System, SYSTEMS};
use crate::pseudorandom::Pseudorandom;
use crate::tally::Tally;
use crate::Effort;

/// Numbers that are a system's, are next to one, or have one in their low bits.
#[rustfmt::skip]
pub const SYSTEM_NUMBERS: [u32; 16] = [
    0, 1, 2, 3, 4, 5, 6, 255, 256, 257, 260, 65535, 65537, 65540, 0x8000_0001, u32::MAX,
];

pub fn any_system(random: &mut Pseudorandom) -> u32 {
    if random.once_in(16) {
        random.bits() as u32
    } else if random.once_in(8) {
        random.pick(&SYSTEM_NUMBERS)
    } else {
        1 + random.below(4) as u32
    }
}

// ---- lights and codes

fn light(tally: &mut Tally, system: u32, light: u16) {
    let got = unsafe { library::ferghulta_code_of_light(system, light) };
    let wanted = CodeAnswer::from(exact::code_of_light(system, light));
    tally.count(wanted.refusal, got == wanted, || {
        format!("system {system} light {light}: {got:?}, wanted {wanted:?}")
    });
}

/// Every light in every system, and other systems' numbers.
pub fn lights(effort: &Effort, random: &mut Pseudorandom) -> bool {
    let mut tally = Tally::new("code_of_light");
    for system in SYSTEM_NUMBERS {
        for k in (0..=u16::MAX).step_by(effort.stride_within(system)) {
            light(&mut tally, system, k);
        }
    }
    for _ in 0..effort.cases {
        light(&mut tally, random.bits() as u32, random.bits() as u16);
    }
    tally.end()
}

fn span(tally: &mut Tally, system: u32, code: u16) {
    let got = unsafe { library::ferghulta_span_of_code(system, code) };
    let wanted = SpanAnswer::from(exact::span_of_code(system, code));
    tally.count(wanted.refusal, got == wanted, || {
        format!("system {system} code {code}: {got:?}, wanted {wanted:?}")
    });
}

/// Every 16-bit number as a code in every system, and other systems' numbers.
pub fn spans(effort: &Effort, random: &mut Pseudorandom) -> bool {
    let mut tally = Tally::new("span_of_code");
    for system in SYSTEM_NUMBERS {
        for code in (0..=u16::MAX).step_by(effort.stride_within(system)) {
            span(&mut tally, system, code);
        }
    }
    for _ in 0..effort.cases {
        span(&mut tally, random.bits() as u32, random.bits() as u16);
    }
    tally.end()
}

// ---- float signals

/// Zeros, least and greatest subnormals, one, infinity and NaNs with their neighbours, and the same with a sign.
#[rustfmt::skip]
const SIGNAL_EDGES: [u32; 20] = [
    0, 1, 2, 0x007F_FFFF, 0x0080_0000, 0x0080_0001, 0x1980_0000, 0x3EC0_0000, 0x3F00_0000, 0x3F7F_FFFF,
    0x3F80_0000, 0x3F80_0001, 0x4000_0000, 0x7F7F_FFFF, 0x7F80_0000, 0x7F80_0001, 0x7FBF_FFFF, 0x7FC0_0000,
    0x7FC0_1234, 0x7FFF_FFFF,
];

fn signed_edges() -> Vec<u32> {
    let negative = SIGNAL_EDGES.map(|bits| bits | 1 << 31);
    [SIGNAL_EDGES, negative].concat()
}

#[inline]
fn signals(tally: &mut Tally, system: u32, bits: [u32; 3]) {
    let got = unsafe { library::ferghulta_codes_of_signals(system, bits.into()) };
    let wanted = CodesAnswer::from(exact::codes_of_signals(system, bits));
    tally.count(wanted.refusal, got == wanted, || {
        format!("system {system} signals {bits:x?}: {got:?}, wanted {wanted:?}")
    });
}

/// A signal from 0 to 1, most of them near 1, all exponents alike, or any bits.
fn any_signal(random: &mut Pseudorandom) -> u32 {
    match random.below(8) {
        0 => random.bits() as u32,
        1 => random.pick(&signed_edges()),
        2 => random.below(0x3F80_0001) as u32,
        _ => (random.below(1 << 24) as f32 / (1 << 24) as f32).to_bits(),
    }
}

/// The floats around the value at which a code begins, (2D − 1 − 32s)/(438s).
fn around_boundary(system: &System, code: u16) -> Vec<u32> {
    let s = system.scale as u128;
    let boundary = exact::nearest_f32(2 * u128::from(code) - 1 - 32 * s, 438 * s);
    (boundary - 3..=boundary + 3).collect()
}

pub fn codes_of_signals(effort: &Effort, random: &mut Pseudorandom) -> bool {
    let mut tally = Tally::new("codes_of_signals");
    for system in SYSTEM_NUMBERS {
        let edges = signed_edges();
        for triple in triples(&edges, effort.stride_within(system)) {
            signals(&mut tally, system, triple);
        }
    }
    for system in &SYSTEMS {
        for code in (system.lowest() + 1..=system.highest()).step_by(effort.stride) {
            for bits in around_boundary(system, code) {
                signals(&mut tally, system.number, [bits; 3]);
                let others = [any_signal(random), any_signal(random), any_signal(random)];
                signals(&mut tally, system.number, with_one(others, bits, random));
            }
        }
    }
    for _ in 0..10 * effort.cases {
        let triple = [any_signal(random), any_signal(random), any_signal(random)];
        signals(&mut tally, any_system(random), triple);
    }
    if effort.every {
        every_signal(&mut tally);
    }
    tally.end()
}

/// Every float in every system, at changing places beside signals that are accepted.
fn every_signal(tally: &mut Tally) {
    for system in &SYSTEMS {
        for bits in 0..=u32::MAX {
            let mut triple = [0x3F00_0000, 0x3EC0_0000, 0];
            triple.rotate_left(bits as usize % 3);
            triple[bits as usize / 3 % 3] = bits;
            signals(tally, system.number, triple);
        }
    }
}

pub fn with_one<T>(mut triple: [T; 3], item: T, random: &mut Pseudorandom) -> [T; 3] {
    triple[random.below(3)] = item;
    triple
}

/// Every n-th triple of these items.
pub fn triples<T: Copy>(items: &[T], stride: usize) -> impl Iterator<Item = [T; 3]> + '_ {
    let n = items.len();
    let at = move |i: usize| [items[i / n / n], items[i / n % n], items[i % n]];
    (0..n * n * n).step_by(stride).map(at)
}

fn restored(tally: &mut Tally, system: u32, codes: [u16; 3]) {
    let got = unsafe { library::ferghulta_signals_of_codes(system, codes.into()) }.bits();
    let wanted = SignalsAnswer::from(exact::signals_of_codes(system, codes)).bits();
    tally.count(
        wanted.0,
        got == wanted && returns(system, codes, got),
        || format!("system {system} codes {codes:?}: {got:x?}, wanted {wanted:x?}"),
    );
}

/// 'Quantising that returns D.'
fn returns(system: u32, codes: [u16; 3], (refusal, bits): (u32, [u32; 3])) -> bool {
    let again = unsafe { library::ferghulta_codes_of_signals(system, bits.into()) };
    refusal != 0 || again == Ok(codes).into()
}

pub fn signals_of_codes(effort: &Effort, random: &mut Pseudorandom) -> bool {
    let mut tally = Tally::new("signals_of_codes");
    for system in &SYSTEMS {
        for code in (0..=u16::MAX).step_by(effort.stride) {
            for place in 0..3 {
                let mut codes = nominal_codes(system, random);
                codes[place] = code;
                restored(&mut tally, system.number, codes);
            }
        }
    }
    edge_codes(effort, |system, codes| restored(&mut tally, system, codes));
    for _ in 0..4 * effort.cases {
        let system = any_system(random);
        restored(&mut tally, system, any_triple(system, random));
    }
    tally.end()
}

// ---- triples

pub fn known(system: u32) -> &'static System {
    exact::system(system).unwrap_or(&SYSTEMS[1])
}

fn nominal_codes(system: &System, random: &mut Pseudorandom) -> [u16; 3] {
    [(); 3].map(|()| random.within(system.lowest(), system.highest()))
}

fn video_data(system: &System, random: &mut Pseudorandom) -> u16 {
    let range = system.video_data();
    random.within(*range.start(), *range.end())
}

/// A code or word that is close to an end of video data: of such codes many words are beyond it.
fn near_end(system: &System, random: &mut Pseudorandom) -> u16 {
    let (range, within) = (system.video_data(), 12 * system.scale as usize);
    let off = random.below(within) as u16;
    random.pick(&[range.start() + off, range.end() - off])
}

fn any_triple(system: u32, random: &mut Pseudorandom) -> [u16; 3] {
    any_triple_in(known(system), random)
}

/// Codes or words: nominal, of video data, or close to its ends; now and then one of them is anything.
pub fn any_triple_in(known: &System, random: &mut Pseudorandom) -> [u16; 3] {
    let triple = match random.below(3) {
        0 => nominal_codes(known, random),
        1 => [(); 3].map(|()| video_data(known, random)),
        _ => [(); 3].map(|()| near_end(known, random)),
    };
    if random.once_in(8) {
        with_one(triple, random.bits() as u16, random)
    } else {
        triple
    }
}

/// The ends of the ranges of codes and words with their neighbours, the middle, the end of the timing codes, the ends of u16.
pub fn edges(system: &System) -> Vec<u16> {
    let s = system.scale as u16;
    #[rustfmt::skip]
    let edges = [
        0, s - 1, s, s + 1, 16 * s - 1, 16 * s, 16 * s + 1, 128 * s - 1, 128 * s, 128 * s + 1, 235 * s - 1, 235 * s, 235 * s + 1,
        240 * s - 1, 240 * s, 240 * s + 1, 255 * s - 2, 255 * s - 1, 255 * s, 256 * s - 1, 256 * s, u16::MAX,
    ];
    edges.to_vec()
}

fn edge_codes(effort: &Effort, mut compare: impl FnMut(u32, [u16; 3])) {
    for system in SYSTEM_NUMBERS {
        for triple in triples(&edges(known(system)), effort.stride_within(system)) {
            compare(system, triple);
        }
    }
}

type Encode = unsafe extern "C" fn(u32, Triple) -> CountedAnswer;

fn encoded(tally: &mut Tally, call: Encode, encoding: Encoding, system: u32, codes: [u16; 3]) {
    let got = unsafe { call(system, codes.into()) };
    let wanted = CountedAnswer::from(exact::words_of_codes(system, encoding, codes));
    tally.count(wanted.refusal, got == wanted, || {
        format!("system {system} codes {codes:?}: {got:?}, wanted {wanted:?}")
    });
}

fn decoded(tally: &mut Tally, system: u32, words: [u16; 3]) {
    let got = unsafe { library::ferghulta_codes_of_words(system, words.into()) };
    let wanted = DecodedAnswer::from(exact::codes_of_words(system, words));
    tally.count(wanted.refusal, got == wanted, || {
        format!("system {system} words {words:?}: {got:?}, wanted {wanted:?}")
    });
}

/// Lines of triples along each axis: one component takes every value of video data, so that halves occur and each end is passed.
fn lines(effort: &Effort, random: &mut Pseudorandom, mut compare: impl FnMut(u32, [u16; 3])) {
    for system in &SYSTEMS {
        let range = system.video_data();
        for _ in 0..1 + 3 * effort.cases / range.len() {
            let mut triple = any_line(system, random);
            let axis = random.below(3);
            for value in range.clone() {
                triple[axis] = value;
                compare(system.number, triple);
            }
        }
    }
}

/// Where a line begins: anywhere in video data, or close to its ends.
pub fn any_line(system: &System, random: &mut Pseudorandom) -> [u16; 3] {
    let component = random.pick(&[video_data, near_end]);
    [(); 3].map(|()| component(system, random))
}

/// What both ways of triples are compared on.
pub fn all_triples(effort: &Effort, random: &mut Pseudorandom, mut compare: impl FnMut(u32, [u16; 3])) {
    let eight_bits: Vec<u16> = SYSTEMS[0].video_data().collect();
    for triple in triples(&eight_bits, effort.triple_stride()) {
        compare(1, triple);
    }
    edge_codes(effort, &mut compare);
    lines(effort, random, &mut compare);
    for _ in 0..8 * effort.cases {
        let system = any_system(random);
        compare(system, any_triple(system, random));
    }
}

fn words_by(effort: &Effort, random: &mut Pseudorandom, name: &'static str, call: Encode, encoding: Encoding) -> bool {
    let mut tally = Tally::new(name);
    all_triples(effort, random, |system, codes| {
        encoded(&mut tally, call, encoding, system, codes)
    });
    tally.end()
}

pub fn words_of_codes(effort: &Effort, random: &mut Pseudorandom) -> bool {
    let (plain, trim) = (
        library::ferghulta_words_of_codes,
        library::ferghulta_trimmed_words_of_codes,
    );
    words_by(effort, random, "words_of_codes", plain, Encoding::Plain)
        & words_by(effort, random, "trimmed_words_of_codes", trim, Encoding::Trim)
}

pub fn codes_of_words(effort: &Effort, random: &mut Pseudorandom) -> bool {
    let mut tally = Tally::new("codes_of_words");
    triples_of_each_pair(|system, words| decoded(&mut tally, system, words));
    all_triples(effort, random, |system, words| decoded(&mut tally, system, words));
    tally.end()
}

// ---- what request 2026-04 changes

/// The lamps of the request, as codes of system 1.
const LAMPS: [(&str, [u16; 3]); 2] = [("saturated", [1, 1, 254]), ("duller", [16, 16, 250])];

/// The answer with the guard tried first, of the exact program, and the library's answer.
fn formerly_and_now(system: u32, codes: [u16; 3]) -> [CountedAnswer; 2] {
    let formerly = exact::formerly_trimmed(system, codes).into();
    let now = unsafe { library::ferghulta_trimmed_words_of_codes(system, codes.into()) };
    [formerly, now]
}

/// In trim encoding, 'a colour word above the video range becomes 240s instead of 255s−1 and one below becomes 16s instead of s'.
fn difference_changes(scale: i128, before: i128, [formerly, now]: [u16; 2]) -> bool {
    let (formerly, now) = (i128::from(formerly), i128::from(now));
    if before > 255 * scale - 1 {
        (formerly, now) == (255 * scale - 1, 240 * scale)
    } else if before < scale {
        (formerly, now) == (scale, 16 * scale)
    } else {
        formerly == now
    }
}

/// Whether an accepted triple's words change as the request says and no more. No Y' is beyond video data, so none changes.
fn words_change(system: &System, codes: [u16; 3], [formerly, now]: &[CountedAnswer; 2]) -> bool {
    let (s, before) = (system.scale, exact::words_before_rules(system, codes));
    let both = |place: usize| [formerly.triple[place], now.triple[place]];
    (s..=255 * s - 1).contains(&before[0])
        && formerly.triple[0] == now.triple[0]
        && formerly.count == now.count
        && [1, 2].iter().all(|&place| difference_changes(s, before[place], both(place)))
}

fn changed(tally: &mut Tally, system: u32, codes: [u16; 3]) {
    let answers = formerly_and_now(system, codes);
    let [formerly, now] = &answers;
    let agree = match formerly.refusal {
        0 => now.refusal == 0 && words_change(known(system), codes, &answers),
        _ => now == formerly,
    };
    tally.count(formerly.refusal, agree, || {
        format!("system {system} codes {codes:?}: {now:?}, formerly {formerly:?}")
    });
}

pub fn shown([first, second, third]: [u16; 3]) -> String {
    format!("{first} {second} {third}")
}

fn show_lamp(lamp: &str, codes: [u16; 3]) {
    let [formerly, now] = formerly_and_now(1, codes).map(|answer| shown(answer.triple));
    let codes = shown(codes);
    println!("{lamp} lamp, codes {codes}, trimmed: formerly {formerly}, now {now}");
}

/// The library's trimmed words beside those of the former order, judged by the request's words.
pub fn trim_before_guard(effort: &Effort, random: &mut Pseudorandom) -> bool {
    let mut tally = Tally::new("trim_before_guard");
    for (lamp, codes) in LAMPS {
        show_lamp(lamp, codes);
        changed(&mut tally, 1, codes);
    }
    all_triples(&effort.third(), random, |system, codes| changed(&mut tally, system, codes));
    tally.end()
}

// ---- levels

/// A call on levels beside the exact program's; zero and range are the request's, in multiples of s.
struct Levels {
    name: &'static str,
    call: unsafe extern "C" fn(u32, u16) -> LevelAnswer,
    filled: unsafe extern "C" fn(u64, u64) -> LevelAnswer,
    exact: fn(u32, u16) -> Outcome<Level>,
    zero: i128,
    range: i128,
}

const CODE_LEVELS: Levels = Levels {
    name: "level_of_code",
    call: library::ferghulta_level_of_code,
    filled: filled::ferghulta_level_of_code,
    exact: exact::level_of_code,
    zero: 16,
    range: 219,
};

const DIFFERENCE_LEVELS: Levels = Levels {
    name: "level_of_difference",
    call: library::ferghulta_level_of_difference,
    filled: filled::ferghulta_level_of_difference,
    exact: exact::level_of_difference,
    zero: 128,
    range: 224,
};

impl Levels {
    fn of(&self, system: u32, code: u16) -> LevelAnswer {
        unsafe { (self.call)(system, code) }
    }

    /// The same call with the upper halves of the registers filled.
    fn of_filled(&self, system: u32, code: u16, random: &mut Pseudorandom) -> LevelAnswer {
        let upper = random.bits() << 32;
        unsafe { (self.filled)(upper | u64::from(system), upper | u64::from(code)) }
    }

    fn level(&self, tally: &mut Tally, system: u32, code: u16, random: &mut Pseudorandom) {
        let got = self.of(system, code);
        let wanted = LevelAnswer::from((self.exact)(system, code));
        let agree = got == wanted && got == self.of_filled(system, code, random) && self.makes_up(system, code, &got);
        tally.count(wanted.refusal, agree, || {
            format!("system {system} code {code}: {got:?}, wanted {wanted:?}")
        });
    }

    /// Whether an accepted answer, multiplied out, is 700·(code − zero), and its remainder is less than a millivolt.
    fn makes_up(&self, system: u32, code: u16, answer: &LevelAnswer) -> bool {
        let s = known(system).scale;
        let (over, under) = (700 * (i128::from(code) - self.zero * s), self.range * s);
        let (millivolts, remainder) = (i128::from(answer.millivolts), i128::from(answer.remainder));
        answer.refusal != 0 || over == millivolts * under + remainder && remainder < under
    }

    /// Every 16-bit number as a code in every system, and with other systems' numbers.
    fn compare(&self, effort: &Effort, random: &mut Pseudorandom) -> bool {
        let mut tally = Tally::new(self.name);
        for system in SYSTEM_NUMBERS {
            for code in (0..=u16::MAX).step_by(effort.stride) {
                self.level(&mut tally, system, code, random);
            }
        }
        for _ in 0..effort.cases {
            self.level(&mut tally, random.bits() as u32, random.bits() as u16, random);
        }
        tally.end()
    }

    /// The next code's level is above: by its millivolts, or by its remainder where these are alike.
    fn rises(&self, tally: &mut Tally, system: u32, code: u16) {
        let [level, next] = [code, code + 1].map(|code| self.of(system, code));
        let below = (level.millivolts, level.remainder) < (next.millivolts, next.remainder);
        let accepted = level.refusal == 0 && next.refusal == 0;
        tally.count(0, accepted && below, || {
            format!("{} system {system} code {code}: {level:?}, next {next:?}", self.name)
        });
    }
}

/// Each code of video data beside the next.
fn levels_rise(effort: &Effort) -> bool {
    let mut tally = Tally::new("levels_rise");
    for levels in [CODE_LEVELS, DIFFERENCE_LEVELS] {
        for system in &SYSTEMS {
            let range = system.video_data();
            for code in (*range.start()..*range.end()).step_by(effort.stride) {
                levels.rises(&mut tally, system.number, code);
            }
        }
    }
    tally.end()
}

pub fn levels(effort: &Effort, random: &mut Pseudorandom) -> bool {
    CODE_LEVELS.compare(effort, random) & DIFFERENCE_LEVELS.compare(effort, random) & levels_rise(effort)
}

// ---- what the calling convention leaves open

/// Three 16-bit numbers in a register whose fourth is anything.
pub fn in_register(triple: [u16; 3], random: &mut Pseudorandom) -> u64 {
    let low = |place: usize| u64::from(triple[place]) << (16 * place);
    random.bits() << 48 | low(0) | low(1) | low(2)
}

pub fn filled_registers(effort: &Effort, random: &mut Pseudorandom) -> bool {
    let mut tally = Tally::new("filled_registers");
    for _ in 0..effort.cases {
        let system = any_system(random);
        let wide = random.bits() << 32 | u64::from(system);
        let (codes, words) = (any_triple(system, random), any_triple(system, random));
        let bits = [any_signal(random), any_signal(random), any_signal(random)];
        let fourth = f32::from_bits(random.bits() as u32);
        let agree = unsafe {
            let plain = filled::ferghulta_words_of_codes(wide, in_register(codes, random));
            let trimmed = filled::ferghulta_trimmed_words_of_codes(wide, in_register(codes, random));
            let decoded = filled::ferghulta_codes_of_words(wide, in_register(words, random));
            let restored = filled::ferghulta_signals_of_codes(wide, in_register(codes, random));
            let signals = filled::FourSignals(bits.into(), fourth);
            let quantised = filled::ferghulta_codes_of_signals(wide, signals);
            plain == exact::words_of_codes(system, Encoding::Plain, codes).into()
                && trimmed == exact::words_of_codes(system, Encoding::Trim, codes).into()
                && decoded == exact::codes_of_words(system, words).into()
                && restored.bits()
                    == SignalsAnswer::from(exact::signals_of_codes(system, codes)).bits()
                && quantised == exact::codes_of_signals(system, bits).into()
        };
        let encoded = exact::words_of_codes(system, Encoding::Plain, codes);
        let refusal = encoded.err().unwrap_or(0);
        tally.count(refusal, agree, || {
            format!("system {system} codes {codes:?} words {words:?} signals {bits:x?}")
        });
    }
    tally.end()
}

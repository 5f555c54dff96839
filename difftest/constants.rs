//! Constant luminance (request 2026-11): words of a triple of light, and R' and B' of words.
use crate::answers::{ConstantCodesAnswer, ConstantWordsAnswer};
use crate::exact::{self, code_of_sum, constant_system, least, sum_of_lights, System, FULL_SUM};
use crate::library::{self, filled};
use crate::pseudorandom::Pseudorandom;
use crate::tally::Tally;
use crate::values::{any_line, any_triple_in, edges, in_register, triples, with_one, SYSTEM_NUMBERS};
use crate::Effort;

const CONSTANT_SYSTEMS: [u32; 2] = [5, 6];

/// Those that the other calls are tried with, and such as are next to 5 and 6 or have one of them in their low bits.
fn numbers() -> Vec<u32> {
    let near = [7, 261, 262, 65541, 65542, 0x8000_0005];
    SYSTEM_NUMBERS.into_iter().chain(near).collect()
}

/// Mostly 5 and 6; else another system's, next to one, or any.
fn any_number(random: &mut Pseudorandom) -> u32 {
    match random.below(32) {
        0 => random.bits() as u32,
        1 | 2 => random.pick(&numbers()),
        3 => random.pick(&CONSTANT_SYSTEMS) ^ 1 << random.below(32),
        _ => random.pick(&CONSTANT_SYSTEMS),
    }
}

/// Of a number that is none, one to make inputs of.
fn known(number: u32) -> &'static System {
    constant_system(number).unwrap_or(&exact::SYSTEMS[2])
}

impl Effort {
    fn stride_of(&self, number: u32) -> usize {
        self.stride_if(CONSTANT_SYSTEMS.contains(&number))
    }
}

// ---- words of lights

/// The library's own code of every light, in system 3 and in system 4: what R' and B' have to come back to.
struct Codes([Vec<u16>; 2]);

impl Codes {
    fn of_library() -> Codes {
        let code = |system, light| unsafe { library::ferghulta_code_of_light(system, light) }.code;
        Codes([3, 4].map(|system| (0..=u16::MAX).map(|light| code(system, light)).collect()))
    }

    fn of(&self, number: u32, light: u16) -> u16 {
        self.0[number as usize - 5][usize::from(light)]
    }
}

struct Encoding {
    tally: Tally,
    codes: Codes,
}

impl Encoding {
    fn compare(&mut self, number: u32, lights: [u16; 3], random: &mut Pseudorandom) {
        let got = unsafe { library::ferghulta_constant_words_of_lights(number, lights.into()) };
        let wanted = ConstantWordsAnswer::from(exact::constant_words_of_lights(number, lights));
        let agree = got == wanted
            && (!random.once_in(8) || got == of_filled(number, lights, random))
            && (got.refusal != 0 || self.is_as_asked(number, lights, got.words));
        self.tally.count(wanted.refusal, agree, || {
            format!("system {number} lights {lights:?}: {got:?}, wanted {wanted:?}")
        });
    }

    /// The request's words on an accepted answer: nominal, R' and B' within one code, nothing clipped, and greys.
    fn is_as_asked(&self, number: u32, lights: [u16; 3], words: [u16; 3]) -> bool {
        let [r, g, b] = lights;
        let [y, cb, cr] = words;
        let s = if number == 5 { 4 } else { 16 };
        let decoded = unsafe { library::ferghulta_constant_codes_of_words(number, words.into()) };
        let is_near = |code: u16, light: u16| code.abs_diff(self.codes.of(number, light)) <= 1;
        let is_grey = r == g && g == b;
        (16 * s..=235 * s).contains(&y)
            && [cb, cr].iter().all(|word| (16 * s..=240 * s).contains(word))
            && (decoded.refusal, decoded.low, decoded.high) == (0, 0, 0)
            && is_near(decoded.codes[0], r)
            && is_near(decoded.codes[1], b)
            && (!is_grey || words == [self.codes.of(number, r), 128 * s, 128 * s])
    }
}

/// The same call with what lies beside the arguments in their registers filled.
fn of_filled(number: u32, lights: [u16; 3], random: &mut Pseudorandom) -> ConstantWordsAnswer {
    let wide = random.bits() << 32 | u64::from(number);
    unsafe { filled::ferghulta_constant_words_of_lights(wide, in_register(lights, random)) }
}

/// The ends, where the first codes change, about β, and the middle.
const EDGE_LIGHTS: [u16; 10] = [0, 1, 33, 34, 1180, 1186, 1187, 32768, 65534, 65535];

/// One component takes every light, with the others at an end each.
fn lines_of_light(effort: &Effort) -> impl Iterator<Item = [u16; 3]> {
    let ends = [[0, 0], [u16::MAX, u16::MAX], [0, u16::MAX], [u16::MAX, 0]];
    let lines = (0..3).flat_map(move |axis| ends.map(|others| (axis, others)));
    let (stride, mixed) = (effort.stride, effort.triple_stride());
    lines.flat_map(move |(axis, others)| {
        let stride = if others[0] == others[1] { stride } else { mixed };
        (0..=u16::MAX).step_by(stride).map(move |light| {
            let mut lights = [others[0], others[1], light];
            lights[axis..].rotate_right(1);
            lights
        })
    })
}

/// Lights whose weighted sum is this one; R is anything that leaves room for it, and B the rest after G. Near the ends of light
/// there may be none.
fn lights_of_sum(sum: u32, random: &mut Pseudorandom) -> Option<[u16; 3]> {
    let [kr, kg, kb] = [[1, 0, 0], [0, 1, 0], [0, 0, 1]].map(sum_of_lights);
    let full = u32::from(u16::MAX);
    let least_of = |sum: u32, others: u32, weight: u32| sum.saturating_sub(full * others).div_ceil(weight);
    let most_of = |sum: u32, weight: u32| (sum / weight).min(full);
    let (low, high) = (least_of(sum, kg + kb, kr), most_of(sum, kr));
    let r = low + random.below((high - low) as usize + 1) as u32;
    let rest = sum - kr * r;
    let (low, high) = (least_of(rest, kb, kg), most_of(rest, kg));
    let span = (high + 1).checked_sub(low)?;
    let first = random.below(span as usize) as u32;
    let mut greens = (0..span.min(kb)).map(|step| low + (first + step) % span);
    let g = greens.find(|g| (rest - kg * g) % kb == 0)?;
    Some([r, g, (rest - kg * g) / kb].map(|light| light as u16))
}

/// Triples whose sum is the least with a Y'c, the next one, and the two before.
fn at_boundaries(encoding: &mut Encoding, effort: &Effort, random: &mut Pseudorandom) {
    for number in CONSTANT_SYSTEMS {
        let system = known(number);
        for code in (system.lowest() + 1..=system.highest()).step_by(effort.stride) {
            let boundary = least(0, FULL_SUM, |sum| code_of_sum(system, sum) >= code);
            for sum in boundary - 2..=(boundary + 1).min(FULL_SUM) {
                let found = [(); 4].map(|()| lights_of_sum(sum, random));
                for lights in found.into_iter().flatten() {
                    assert_eq!(sum_of_lights(lights), sum);
                    encoding.compare(number, lights, random);
                }
            }
        }
    }
}

/// Any lights, dark ones, greys and what is next to them, or with one at an end.
fn any_lights(random: &mut Pseudorandom) -> [u16; 3] {
    let any = [(); 3].map(|()| random.bits() as u16);
    match random.below(6) {
        0 => any.map(|light| light >> random.below(16)),
        1 => any.map(|light| any[0].saturating_add(light % 16)),
        2 => with_one(any, random.pick(&EDGE_LIGHTS), random),
        3 => [(); 3].map(|()| random.pick(&EDGE_LIGHTS)),
        _ => any,
    }
}

pub fn words_of_lights(effort: &Effort, random: &mut Pseudorandom) -> bool {
    let mut encoding = Encoding {
        tally: Tally::new("constant_words_of_lights"),
        codes: Codes::of_library(),
    };
    for number in numbers() {
        for lights in triples(&EDGE_LIGHTS, effort.stride_of(number).min(7)) {
            encoding.compare(number, lights, random);
        }
        for light in (0..=u16::MAX).step_by(effort.stride_of(number)) {
            encoding.compare(number, [light; 3], random);
        }
    }
    for number in CONSTANT_SYSTEMS {
        for lights in lines_of_light(effort) {
            encoding.compare(number, lights, random);
        }
    }
    at_boundaries(&mut encoding, effort, random);
    for _ in 0..effort.cases {
        encoding.compare(any_number(random), any_lights(random), random);
    }
    encoding.tally.end()
}

// ---- codes of words

fn decoded(tally: &mut Tally, number: u32, words: [u16; 3], random: &mut Pseudorandom) {
    let wide = random.bits() << 32 | u64::from(number);
    let got = unsafe { library::ferghulta_constant_codes_of_words(number, words.into()) };
    let of_filled = unsafe { filled::ferghulta_constant_codes_of_words(wide, in_register(words, random)) };
    let wanted = ConstantCodesAnswer::from(exact::constant_codes_of_words(number, words));
    tally.count(wanted.refusal, got == wanted && got == of_filled, || {
        format!("system {number} words {words:?}: {got:?}, wanted {wanted:?}")
    });
}

/// So many words of video data from end to end, about equally far apart.
fn grid(system: &System, count: usize) -> Vec<u16> {
    let range = system.video_data();
    let (first, last) = (usize::from(*range.start()), usize::from(*range.end()));
    (0..count).map(|n| (first + (last - first) * n / (count - 1)) as u16).collect()
}

/// Lines along each axis: one word takes every value of video data, so that halves occur and m and each end are passed.
fn lines_of_words(tally: &mut Tally, effort: &Effort, number: u32, random: &mut Pseudorandom) {
    let range = known(number).video_data();
    for turn in 0..3 + 3 * effort.cases / range.len() {
        let mut words = any_line(known(number), random);
        for word in range.clone() {
            words[turn % 3] = word;
            decoded(tally, number, words, random);
        }
    }
}

/// Every 16-bit number at each place, with the others nominal or close to the ends of video data.
fn every_word(tally: &mut Tally, effort: &Effort, number: u32, random: &mut Pseudorandom) {
    for word in (0..=u16::MAX).step_by(effort.stride) {
        for place in 0..3 {
            let mut words = any_line(known(number), random);
            words[place] = word;
            decoded(tally, number, words, random);
        }
    }
}

pub fn codes_of_words(effort: &Effort, random: &mut Pseudorandom) -> bool {
    let mut tally = Tally::new("constant_codes_of_words");
    for number in numbers() {
        for words in triples(&edges(known(number)), effort.stride_of(number)) {
            decoded(&mut tally, number, words, random);
        }
    }
    for number in CONSTANT_SYSTEMS {
        for words in triples(&grid(known(number), 53), effort.stride) {
            decoded(&mut tally, number, words, random);
        }
        lines_of_words(&mut tally, effort, number, random);
        every_word(&mut tally, effort, number, random);
    }
    for _ in 0..4 * effort.cases {
        let number = any_number(random);
        decoded(&mut tally, number, any_triple_in(known(number), random), random);
    }
    tally.end()
}

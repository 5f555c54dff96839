//! Compares every call of the library with an exact program, on pseudorandom, edge and damaged inputs.
//!
//! `compare quick|long|small [cases=N] [seed=N]`: each call is compared on N to 10·N inputs beside the fixed ones.
mod answers;
mod bench;
mod blocks;
mod clips;
mod constants;
mod depths;
mod exact;
mod lent;
mod library;
mod lists;
mod meters;
mod natural;
mod pictures;
mod pseudorandom;
mod readers;
mod segments;
mod tally;
mod values;

use pseudorandom::Pseudorandom;
use std::process::ExitCode;

const SEED: u64 = 709_2020;

/// How much is compared.
pub struct Effort {
    cases: usize,
    /// One in so many of the fixed inputs.
    stride: usize,
    /// All 8-bit triples and all floats.
    every: bool,
}

impl Effort {
    fn of_form(form: &str) -> Option<Effort> {
        let (cases, stride, every) = match form {
            "quick" => (400_000, 1, false),
            "long" => (4_000_000, 1, true),
            "small" => (5000, 97, false),
            _ => return None,
        };
        Some(Effort {
            cases,
            stride,
            every,
        })
    }

    /// Numbers of no system need fewer inputs: they are all refused alike.
    fn stride_within(&self, system: u32) -> usize {
        self.stride_if((1..=4).contains(&system))
    }

    fn stride_if(&self, is_system: bool) -> usize {
        if is_system {
            self.stride
        } else {
            61 * self.stride
        }
    }

    /// For answers that another comparison has too: a third of the inputs, but all 8-bit triples where those are asked for.
    fn third(&self) -> Effort {
        Effort {
            cases: self.cases / 3,
            stride: 3 * self.stride,
            every: self.every,
        }
    }

    fn triple_stride(&self) -> usize {
        if self.every {
            1
        } else {
            7 * self.stride
        }
    }
}

fn compare(effort: &Effort, seed: u64) -> bool {
    let random = &mut Pseudorandom(seed);
    values::lights(effort, random)
        & values::spans(effort, random)
        & values::codes_of_signals(effort, random)
        & values::signals_of_codes(effort, random)
        & values::words_of_codes(effort, random)
        & values::codes_of_words(effort, random)
        & values::filled_registers(effort, random)
        & blocks::read_block(effort, random)
        & pictures::new(effort)
        & pictures::open(effort, random)
        & pictures::row(effort, random)
        & pictures::close(effort, random)
        & lists::lists(effort, random)
        & pictures::rows_of_every_light(effort, random)
        & segments::segments(effort, random)
        & values::trim_before_guard(effort, random)
        & values::levels(effort, random)
        & pictures::total_bytes(effort, random)
        & clips::clipping_low_and_high(effort, random)
        & meters::read_metered(effort, random)
        & meters::lists(effort, random)
        & depths::change_depth(effort, random)
        & readers::new_reader(effort)
        & readers::open_reader(effort, random)
        & readers::read_next(effort, random)
        & readers::lists(effort, random)
        & readers::sent_and_read(effort, random)
        & constants::words_of_lights(effort, random)
        & constants::codes_of_words(effort, random)
}

/// The form, and cases and seed where they are given.
fn arguments() -> Option<(String, Effort, u64)> {
    let form = std::env::args().nth(1)?;
    let mut effort = Effort::of_form(&form)?;
    let mut seed = SEED;
    for argument in std::env::args().skip(2) {
        match argument.split_once('=')? {
            ("cases", number) => effort.cases = number.parse().ok()?,
            ("seed", number) => seed = number.parse().ok()?,
            _ => return None,
        }
    }
    Some((form, effort, seed))
}

fn main() -> ExitCode {
    let Some((form, effort, seed)) = arguments() else {
        eprintln!("compare quick|long|small [cases=N] [seed=N]");
        return ExitCode::from(2);
    };
    bench::check();
    println!("{form}, {} cases, seed {seed}", effort.cases);
    if compare(&effort, seed) {
        ExitCode::SUCCESS
    } else {
        ExitCode::FAILURE
    }
}

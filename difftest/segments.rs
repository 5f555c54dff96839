//! Rows between progressive and segmented-frame order: buffers that fit, and lengths that do not.
use crate::exact;
use crate::lent::Lent;
use crate::library;
use crate::pseudorandom::Pseudorandom;
use crate::tally::Tally;
use crate::Effort;

const LINES: usize = 1080;

type Call = unsafe extern "C" fn(*const u8, usize, *mut u8, usize) -> u32;
type Exact = fn(&[u8], usize) -> exact::Outcome<Vec<u8>>;

fn compare(tally: &mut Tally, call: Call, exact: Exact, from: usize, to: usize, random: &mut Pseudorandom) {
    let source = Lent::<u8>::blank(from, random);
    let target = Lent::<u8>::blank(to, random);
    let got = unsafe { call(source.pointer(), from, target.pointer(), to) };
    let wanted = exact(source.part(), to);
    let refusal = wanted.as_ref().err().copied().unwrap_or(0);
    let written = wanted.unwrap_or_default();
    let agree = got == refusal && target.holds(&written) && source.holds(&[]);
    tally.count(refusal, agree, || {
        format!(
            "lengths {from} and {to}: {got}, wanted {refusal}; rows as wanted: {}; bytes as lent: {}",
            target.holds(&written),
            source.holds(&[])
        )
    });
}

/// Lengths of the two buffers: of rows, near them, any, alike or not.
fn any_lengths(random: &mut Pseudorandom) -> (usize, usize) {
    let rows = LINES * random.below(6);
    let near = (rows + random.below(3)).saturating_sub(1);
    let anywhere = random.below(6 * LINES);
    let length = random.pick(&[rows, rows, rows, near]);
    let other = random.pick(&[length, length, length, rows, near, 0, anywhere]);
    (length, other)
}

fn both(effort: &Effort, random: &mut Pseudorandom, name: &'static str, call: Call, exact: Exact) -> bool {
    let mut tally = Tally::new(name);
    for bytes in [1, 2, 3, 60, 11529, 46089] {
        // Rows of a picture are too much for memcheck.
        if effort.stride > 1 && bytes > 60 {
            continue;
        }
        compare(&mut tally, call, exact, LINES * bytes, LINES * bytes, random);
        compare(&mut tally, call, exact, LINES * bytes, LINES * bytes - 1, random);
        compare(&mut tally, call, exact, LINES * bytes + 1, LINES * bytes, random);
    }
    for _ in 0..effort.cases / 100 {
        let (from, to) = any_lengths(random);
        compare(&mut tally, call, exact, from, to, random);
    }
    tally.end()
}

pub fn segments(effort: &Effort, random: &mut Pseudorandom) -> bool {
    both(effort, random, "to_segmented", library::ferghulta_to_segmented, exact::to_segmented)
        & both(effort, random, "to_progressive", library::ferghulta_to_progressive, exact::to_progressive)
}

//! What was compared, by the exact program's refusals, and the first difference.

/// The refusals' numbers end at 36.
const NUMBERS: usize = 37;

pub struct Tally {
    name: &'static str,
    compared: u64,
    differ: u64,
    by_refusal: [u64; NUMBERS],
}

impl Tally {
    pub fn new(name: &'static str) -> Tally {
        Tally {
            name,
            compared: 0,
            differ: 0,
            by_refusal: [0; NUMBERS],
        }
    }

    /// Counts a comparison whose refusal has to be this, or 0; the first that differs is told.
    #[inline]
    pub fn count(&mut self, refusal: u32, agree: bool, told: impl FnOnce() -> String) {
        self.compared += 1;
        self.by_refusal[refusal as usize] += 1;
        if !agree {
            if self.differ == 0 {
                println!("{} differs: {}", self.name, told());
            }
            self.differ += 1;
        }
    }

    /// Prints the counts; answers whether all agree.
    pub fn end(self) -> bool {
        let Tally {
            name,
            compared,
            differ,
            by_refusal,
        } = self;
        let told = |refusal: usize| format!(" {refusal}: {}", by_refusal[refusal]);
        let met = (0..NUMBERS).filter(|&refusal| by_refusal[refusal] > 0);
        let refusals: Vec<String> = met.map(told).collect();
        println!(
            "{name} {compared} compared, {differ} differ; by refusal{}",
            refusals.join(",")
        );
        differ == 0
    }
}

//! Whole numbers without a bound, as far as the ninth and twentieth powers of the transfer function need them.
use std::cmp::Ordering;

/// Digits in base 2^32, the lowest first, with no zero at the top.
#[derive(Clone, PartialEq, Eq)]
pub struct Natural(Vec<u32>);

impl Natural {
    pub fn one() -> Natural {
        Natural(vec![1])
    }

    pub fn times(mut self, factor: u32) -> Natural {
        let mut carry = 0u64;
        for digit in &mut self.0 {
            carry += u64::from(*digit) * u64::from(factor);
            *digit = carry as u32;
            carry >>= 32;
        }
        self.0.push(carry as u32);
        while self.0.last() == Some(&0) {
            self.0.pop();
        }
        self
    }

    pub fn times_power(self, base: u32, exponent: u32) -> Natural {
        (0..exponent).fold(self, |product, _| product.times(base))
    }
}

impl Ord for Natural {
    fn cmp(&self, other: &Natural) -> Ordering {
        let by_length = self.0.len().cmp(&other.0.len());
        by_length.then_with(|| self.0.iter().rev().cmp(other.0.iter().rev()))
    }
}

impl PartialOrd for Natural {
    fn partial_cmp(&self, other: &Natural) -> Option<Ordering> {
        Some(self.cmp(other))
    }
}

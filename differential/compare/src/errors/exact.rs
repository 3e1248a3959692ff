//! The table of error probabilities, found by its rule in whole numbers of any size.

use std::cmp::Ordering;
use std::sync::LazyLock;

/// A whole number: its digits of 32 bits from the lowest on, of which the last is not 0.
#[derive(PartialEq, Eq)]
struct Whole(Vec<u32>);

impl Whole {
    fn one() -> Self {
        Self(vec![1])
    }

    fn times(mut self, factor: u64) -> Self {
        let mut carried = 0_u128;
        for digit in &mut self.0 {
            carried += u128::from(*digit) * u128::from(factor);
            *digit = carried as u32;
            carried >>= 32;
        }
        while carried > 0 {
            self.0.push(carried as u32);
            carried >>= 32;
        }
        while self.0.last() == Some(&0) {
            self.0.pop();
        }
        self
    }

    fn times_power(self, base: u64, exponent: u32) -> Self {
        (0..exponent).fold(self, |number, _| number.times(base))
    }
}

impl Ord for Whole {
    fn cmp(&self, other: &Self) -> Ordering {
        let digits = |number: &Self| number.0.iter().rev().copied().collect::<Vec<u32>>();
        self.0.len().cmp(&other.0.len()).then_with(|| digits(self).cmp(&digits(other)))
    }
}

impl PartialOrd for Whole {
    fn partial_cmp(&self, other: &Self) -> Option<Ordering> {
        Some(self.cmp(other))
    }
}

/// t^10·10^q ≤ 2^480.
fn is_within(t: u64, quality: u8) -> bool {
    let scaled = Whole::one().times_power(t, 10).times_power(10, quality.into());
    scaled <= Whole::one().times_power(2, 480)
}

/// Whether a number obeys the rule.
pub fn obeys_the_rule(t: u64, quality: u8) -> bool {
    is_within(t, quality) && !is_within(t + 1, quality)
}

/// The number that does, bit by bit from the highest: none has more than 49.
fn entry(quality: u8) -> u64 {
    (0..49)
        .rev()
        .map(|bit| 1 << bit)
        .fold(0, |t, more| if is_within(t + more, quality) { t + more } else { t })
}

/// By quality.
pub static ENTRIES: LazyLock<[u64; 256]> =
    LazyLock::new(|| std::array::from_fn(|quality| entry(quality as u8)));

//! Weights put to the conditions and to the bound, and counted.

use std::fmt::Display;
use std::iter::Sum;

use super::bound::{Exact, MOST_USES, POWER, SHARE_PARTS};
use super::weighing::Weighing;

/// What stands above the lines that `Counts::line` gives.
pub const HEAD: [&str; 8] = [
    "weights",
    "within",
    "failed",
    "worst share",
    "outside",
    "fail there",
    "by 2^25",
    "less a use",
];

#[derive(Clone, Default)]
pub struct Counts {
    pub weights: u64,
    /// Those that meet the conditions.
    pub within: u64,
    /// Those within that are not in the bound.
    pub failed: u64,
    /// The greatest share within, and the first weight that has it.
    pub worst: Option<(u64, Weighing)>,
    /// The failed weight with the fewest uses.
    pub smallest: Option<Weighing>,
    /// Those outside that are not in the bound.
    pub failed_outside: u64,
    /// Wrong reading: those within that would fail with 2^25 in place of 2^23.
    pub failed_by_25: u64,
    /// Wrong reading: those within that would fail if the exact sum lacked its last use.
    pub failed_less_a_use: u64,
}

impl Counts {
    /// Counts a weight; its share, if it is within the conditions.
    pub fn test(&mut self, weighing: &Weighing) -> Option<u64> {
        let weight = weighing.weight();
        let exact = Exact::of(&weighing.terms);
        let bounds = |exact: Exact, power| exact.bounds(weight.value, weighing.divisor(), power);
        let failed = u64::from(!bounds(exact, POWER));
        self.weights += 1;
        if !weight.fine || exact.uses > MOST_USES {
            self.failed_outside += failed;
            return None;
        }
        self.within += 1;
        self.failed += failed;
        self.failed_by_25 += u64::from(!bounds(exact, POWER + 2));
        self.failed_less_a_use += u64::from(!bounds(exact.without_last(), POWER));
        if failed > 0 {
            self.keep_smallest(weighing);
        }
        let share = exact.share(weight.value, weighing.divisor());
        self.keep_worst(share, weighing);
        Some(share)
    }

    fn keep_smallest(&mut self, weighing: &Weighing) {
        let least = self.smallest.as_ref().map_or(usize::MAX, |w| w.terms.len());
        if weighing.terms.len() < least {
            self.smallest = Some(weighing.clone());
        }
    }

    fn keep_worst(&mut self, share: u64, weighing: &Weighing) {
        if self.worst.as_ref().is_none_or(|(worst, _)| share > *worst) {
            self.worst = Some((share, weighing.clone()));
        }
    }

    pub fn outside(&self) -> u64 {
        self.weights - self.within
    }

    pub fn worst_share(&self) -> u64 {
        self.worst.as_ref().map_or(0, |&(share, _)| share)
    }

    fn and(mut self, other: &Self) -> Self {
        self.weights += other.weights;
        self.within += other.within;
        self.failed += other.failed;
        self.failed_outside += other.failed_outside;
        self.failed_by_25 += other.failed_by_25;
        self.failed_less_a_use += other.failed_less_a_use;
        if let Some((share, weighing)) = &other.worst {
            self.keep_worst(*share, weighing);
        }
        if let Some(weighing) = &other.smallest {
            self.keep_smallest(weighing);
        }
        self
    }

    pub fn line(&self) -> String {
        row([
            self.weights.to_string(),
            self.within.to_string(),
            self.failed.to_string(),
            share_text(self.worst_share()),
            self.outside().to_string(),
            self.failed_outside.to_string(),
            self.failed_by_25.to_string(),
            self.failed_less_a_use.to_string(),
        ])
    }
}

/// Cells of one width, each with its end at the right.
pub fn row<T: Display>(cells: impl IntoIterator<Item = T>) -> String {
    cells
        .into_iter()
        .map(|cell| format!("{cell:>12}"))
        .collect()
}

impl<'a> Sum<&'a Counts> for Counts {
    fn sum<I: Iterator<Item = &'a Counts>>(all: I) -> Self {
        all.fold(Self::default(), Self::and)
    }
}

/// A share as a decimal fraction.
pub fn share_text(share: u64) -> String {
    format!("{}.{:09}", share / SHARE_PARTS, share % SHARE_PARTS)
}

#[cfg(test)]
mod tests {
    use super::super::weighing::Term;
    use super::*;

    fn weighing(patterns: &[(u32, Option<u32>, u32)], divisor: u32) -> Weighing {
        let term = |&(cost, scale, frequency): &(u32, Option<u32>, u32)| Term {
            cost: f32::from_bits(cost),
            scale: scale.map(f32::from_bits),
            frequency: f32::from_bits(frequency),
        };
        Weighing {
            terms: patterns.iter().map(term).collect(),
            insts: divisor,
            adjust: 0,
        }
    }

    /// 1.9 × 1.1 × 1.5 over 11: in the bound, and not in a bound of 2^25.
    #[test]
    fn the_known_weight_fails_with_2_to_25() {
        let known = weighing(&[(0x3ff3_3333, Some(0x3f8c_cccd), 0x3fc0_0000)], 11);
        let mut counts = Counts::default();
        assert!(counts.test(&known).unwrap() > SHARE_PARTS / 4);
        assert_eq!((counts.within, counts.failed), (1, 0));
        assert_eq!((counts.failed_by_25, counts.failed_less_a_use), (1, 1));
    }

    #[test]
    fn an_exact_weight_has_no_share_and_still_needs_its_use() {
        let mut counts = Counts::default();
        let share = counts.test(&weighing(&[(0x3f80_0000, None, 0x3f80_0000)], 2));
        assert_eq!(share, Some(0));
        assert_eq!((counts.failed_by_25, counts.failed_less_a_use), (0, 1));
    }

    /// Half of the least float rounds to zero, and the bound says nothing of it.
    #[test]
    fn what_is_lost_below_2_to_minus_126_is_outside() {
        let mut counts = Counts::default();
        let lost = weighing(&[(0x3f00_0000, None, 1)], 1);
        assert_eq!(counts.test(&lost), None);
        assert_eq!((counts.outside(), counts.failed_outside), (1, 1));
    }

    #[test]
    fn more_than_4096_uses_are_outside() {
        let one = (0x3f80_0000, None, 0x3f80_0000);
        let mut counts = Counts::default();
        assert_eq!(counts.test(&weighing(&[one; 4096], 1)), Some(0));
        assert_eq!(counts.test(&weighing(&[one; 4097], 1)), None);
    }

    #[test]
    fn sums_keep_the_worst_and_the_smallest() {
        let mut few = Counts::default();
        let mut many = Counts::default();
        few.test(&weighing(&[(0x3f80_0000, None, 0x3f80_0000)], 2));
        many.test(&weighing(
            &[(0x3ff3_3333, Some(0x3f8c_cccd), 0x3fc0_0000)],
            11,
        ));
        let worst = many.worst_share();
        let one = (0x3f80_0000, None, 0x3f80_0000);
        few.keep_smallest(&weighing(&[one; 3], 1));
        many.keep_smallest(&weighing(&[one; 2], 7));
        many.keep_smallest(&weighing(&[one; 5], 1));
        let all: Counts = [few, many].iter().sum();
        assert_eq!((all.weights, all.within), (2, 2));
        assert_eq!((all.worst_share(), all.failed_by_25), (worst, 1));
        let smallest = all.smallest.unwrap();
        assert_eq!((smallest.terms.len(), smallest.insts), (2, 7));
    }
}

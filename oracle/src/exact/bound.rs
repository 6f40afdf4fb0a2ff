//! The exact value of a weight, and how far the weight may be from it.

use super::natural::Natural;
use super::units::{UNIT_BITS, units};
use super::weighing::Term;

/// The conditions hold for at most so many uses.
pub const MOST_USES: u64 = 4096;
/// The bound is (n + 3) · 2^-23 of the exact value.
pub const POWER: u32 = 23;
/// A share is given in parts of this.
pub const SHARE_PARTS: u64 = 1_000_000_000;

/// The exact sum in units of 2^-447, over the uses whose product is not zero.
#[derive(Clone, Copy, Debug)]
pub struct Exact {
    pub sum: Natural,
    /// How many these uses are.
    pub uses: u64,
    /// The product of the last of them.
    last: Natural,
}

impl Exact {
    pub fn of(terms: &[Term]) -> Self {
        let products = terms.iter().map(product);
        let products = products.filter(|&product| product != Natural::ZERO);
        let none = Self {
            sum: Natural::ZERO,
            uses: 0,
            last: Natural::ZERO,
        };
        products.fold(none, |exact, product| Self {
            sum: exact.sum.plus(product),
            uses: exact.uses + 1,
            last: product,
        })
    }

    /// A wrong reading: the sum lacks its last product.
    pub fn without_last(self) -> Self {
        let sum = self.sum.minus(self.last);
        Self { sum, ..self }
    }

    /// |W − E| and (n + 3) · E, both times the same number.
    fn sides(&self, weight: f32, divisor: u32) -> (Natural, Natural) {
        let rounded = units(weight).shifted(3 * UNIT_BITS);
        let rounded = rounded.times(u64::from(divisor));
        let exact = self.sum.shifted(UNIT_BITS);
        (rounded.distance(exact), exact.times(self.uses + 3))
    }

    /// |W − E| · 2^power ≤ (n + 3) · E
    pub fn bounds(&self, weight: f32, divisor: u32, power: u32) -> bool {
        let (error, allowance) = self.sides(weight, divisor);
        error.shifted(power) <= allowance
    }

    /// |W − E| · 2^23 over (n + 3) · E in billionths, rounded down; 0 where both are zero, and at most 2^40 − 1.
    pub fn share(&self, weight: f32, divisor: u32) -> u64 {
        let (error, allowance) = self.sides(weight, divisor);
        let parts = error.shifted(POWER).times(SHARE_PARTS);
        if parts == Natural::ZERO {
            return 0;
        }
        (0..40).rev().fold(0, |share, bit| {
            let more = share | 1 << bit;
            let fits = allowance.times(more) <= parts;
            if fits { more } else { share }
        })
    }

    pub fn is_below(&self, weight: f32, divisor: u32) -> bool {
        let rounded = units(weight).shifted(3 * UNIT_BITS);
        self.sum.shifted(UNIT_BITS) < rounded.times(u64::from(divisor))
    }
}

/// units(cost) · units(scale, or 1) · units(frequency)
fn product(term: &Term) -> Natural {
    let scale = units(term.scale.unwrap_or(1.0));
    units(term.cost)
        .product(scale)
        .product(units(term.frequency))
}

#[cfg(test)]
mod tests {
    use super::*;

    fn term(cost: u32, scale: Option<u32>, frequency: u32) -> Term {
        Term {
            cost: f32::from_bits(cost),
            scale: scale.map(f32::from_bits),
            frequency: f32::from_bits(frequency),
        }
    }

    #[test]
    fn the_sum_is_in_units_of_2_to_minus_447() {
        let half = term(0x3f00_0000, None, 0x3f80_0000);
        let six = term(0x4000_0000, Some(0x4040_0000), 0x3f80_0000);
        let nothing = term(0x3f80_0000, Some(0x3f80_0000), 0);
        let least = term(1, Some(1), 1);
        let exact = Exact::of(&[half, six, nothing, least, nothing]);
        let one = Natural::from(1);
        let sum = Natural::from(13).shifted(446).plus(one);
        assert_eq!((exact.sum, exact.uses), (sum, 3));
        assert_eq!(exact.without_last().sum, sum.minus(one));
    }

    /// W = 1 + 2^-23 where E = 1 and n = 1: an error of one of four parts.
    #[test]
    fn the_share_of_a_known_error() {
        let exact = Exact::of(&[term(0x3f80_0000, None, 0x3f80_0000)]);
        let weight = f32::from_bits(0x3f80_0001);
        assert_eq!(exact.share(weight, 1), SHARE_PARTS / 4);
        assert!(exact.bounds(weight, 1, 23) && exact.bounds(weight, 1, 25));
        assert!(!exact.bounds(weight, 1, 26));
        assert!(exact.is_below(weight, 1) && !exact.is_below(1.0, 1));
        assert_eq!(exact.share(1.0, 1), 0);
    }

    /// Four units of 2^-23 fit, five do not; and below 1 the same.
    #[test]
    fn the_bound_is_sharp() {
        let exact = Exact::of(&[term(0x3f80_0000, None, 0x3f80_0000)]);
        let holds = |bits| exact.bounds(f32::from_bits(bits), 1, POWER);
        assert!(holds(0x3f80_0004) && !holds(0x3f80_0005));
        assert!(holds(0x3f7f_fff8) && !holds(0x3f7f_fff7));
        assert_eq!(exact.share(f32::from_bits(0x3f80_0005), 1), 1_250_000_000);
    }

    #[test]
    fn the_divisor_divides() {
        let exact = Exact::of(&[term(0x3f80_0000, None, 0x4170_0000)]);
        assert_eq!(exact.share(3.0, 5), 0);
        assert!(!exact.bounds(3.0, 4, POWER) && !exact.bounds(3.0, 6, POWER));
    }

    #[test]
    fn a_sum_of_zero_asks_for_zero() {
        let exact = Exact::of(&[term(0, None, 0x3f80_0000)]);
        assert!(exact.bounds(0.0, 7, POWER));
        assert!(!exact.bounds(f32::from_bits(1), 7, POWER));
    }

    #[test]
    fn the_greatest_numbers_fit() {
        let greatest = term(0x4980_0000, Some(0x4980_0000), 0x7f7f_ffff);
        let exact = Exact::of(&[greatest; 4096]);
        assert!(!exact.bounds(f32::MAX, 4096 + 65_535, 25));
        assert!(exact.share(f32::MAX, 1) > SHARE_PARTS);
        assert!(exact.share(0.0, 1) > SHARE_PARTS);
        assert_eq!(exact.uses, MOST_USES);
    }
}

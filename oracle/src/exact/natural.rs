//! Whole numbers of up to 1,024 bits; what does not fit panics.

use std::cmp::Ordering;

const LIMBS: usize = 16;

/// Limbs of 64 bits, the lowest first.
#[derive(Clone, Copy, PartialEq, Eq, Debug)]
pub struct Natural([u64; LIMBS]);

impl From<u128> for Natural {
    fn from(number: u128) -> Self {
        let mut limbs = [0; LIMBS];
        limbs[0] = number as u64;
        limbs[1] = (number >> 64) as u64;
        Self(limbs)
    }
}

impl Ord for Natural {
    fn cmp(&self, other: &Self) -> Ordering {
        self.0.iter().rev().cmp(other.0.iter().rev())
    }
}

impl PartialOrd for Natural {
    fn partial_cmp(&self, other: &Self) -> Option<Ordering> {
        Some(self.cmp(other))
    }
}

impl Natural {
    pub const ZERO: Self = Self([0; LIMBS]);

    /// In hexadecimal, without zeros before it.
    pub fn hex(self) -> String {
        let limbs = self.0.iter().rev();
        let digits: String = limbs.map(|limb| format!("{limb:016x}")).collect();
        let digits = digits.trim_start_matches('0');
        if digits.is_empty() { "0" } else { digits }.to_string()
    }

    pub fn plus(self, other: Self) -> Self {
        let mut sum = self.0;
        let mut carry = false;
        for (limb, more) in sum.iter_mut().zip(other.0) {
            let (part, first) = limb.overflowing_add(more);
            let (whole, second) = part.overflowing_add(u64::from(carry));
            (*limb, carry) = (whole, first || second);
        }
        assert!(!carry, "a sum above 1,024 bits");
        Self(sum)
    }

    /// `other` is not greater.
    pub fn minus(self, other: Self) -> Self {
        let mut rest = self.0;
        let mut borrow = false;
        for (limb, less) in rest.iter_mut().zip(other.0) {
            let (part, first) = limb.overflowing_sub(less);
            let (whole, second) = part.overflowing_sub(u64::from(borrow));
            (*limb, borrow) = (whole, first || second);
        }
        assert!(!borrow, "a difference below zero");
        Self(rest)
    }

    /// |self − other|
    pub fn distance(self, other: Self) -> Self {
        if self < other {
            other.minus(self)
        } else {
            self.minus(other)
        }
    }

    pub fn times(self, factor: u64) -> Self {
        let mut product = self.0;
        let mut carry = 0;
        for limb in &mut product {
            let whole = u128::from(*limb) * u128::from(factor) + u128::from(carry);
            *limb = whole as u64;
            carry = (whole >> 64) as u64;
        }
        assert!(carry == 0, "a product above 1,024 bits");
        Self(product)
    }

    /// self · 2^bits
    pub fn shifted(self, bits: u32) -> Self {
        let limbs = (bits / 64) as usize;
        let low = self.times(1 << (bits % 64)).0;
        let (kept, lost) = low.split_at(LIMBS - limbs);
        assert!(lost.iter().all(|&limb| limb == 0), "above 1,024 bits");
        let mut moved = [0; LIMBS];
        moved[limbs..].copy_from_slice(kept);
        Self(moved)
    }

    pub fn product(self, other: Self) -> Self {
        let limbs = self.0.iter().zip(0..).filter(|&(&limb, _)| limb != 0);
        let rows = limbs.map(|(&limb, place)| other.times(limb).shifted(64 * place));
        rows.fold(Self::ZERO, Self::plus)
    }
}

#[cfg(test)]
mod tests {
    use super::*;
    use crate::make::rng::Rng;

    fn two_to(bits: u32) -> Natural {
        Natural::from(1).shifted(bits)
    }

    /// A number of any length up to `bits`.
    fn some(rng: &mut Rng, bits: u32) -> u128 {
        let words = (0..4).map(|_| u128::from(rng.bits()));
        let all = words.fold(0, |all, word| all << 32 | word);
        all >> (128 - 1 - rng.below(bits))
    }

    #[test]
    fn sums_differences_and_order_are_those_of_u128() {
        let mut rng = Rng::new(1, 0);
        for _ in 0..20_000 {
            let (a, b) = (some(&mut rng, 127), some(&mut rng, 127));
            let (big_a, big_b) = (Natural::from(a), Natural::from(b));
            assert_eq!(big_a.plus(big_b), Natural::from(a + b));
            assert_eq!(big_a.distance(big_b), Natural::from(a.abs_diff(b)));
            assert_eq!(big_a.cmp(&big_b), a.cmp(&b));
        }
    }

    #[test]
    fn products_and_shifts_are_those_of_u128() {
        let mut rng = Rng::new(2, 0);
        for _ in 0..20_000 {
            let (a, b) = (some(&mut rng, 64), some(&mut rng, 64));
            let bits = rng.below(64);
            let big_a = Natural::from(a);
            assert_eq!(big_a.times(b as u64), Natural::from(a * b));
            assert_eq!(big_a.product(Natural::from(b)), Natural::from(a * b));
            assert_eq!(big_a.shifted(bits), Natural::from(a << bits));
        }
    }

    #[test]
    fn a_square_of_600_bits() {
        let ones = two_to(300).minus(Natural::from(1));
        let square = two_to(600).minus(two_to(301)).plus(Natural::from(1));
        assert_eq!(ones.product(ones), square);
    }

    #[test]
    fn carries_and_borrows_run_through_all_limbs() {
        let ones = two_to(1023).plus(two_to(1023).minus(Natural::from(1)));
        assert_eq!(ones, Natural([u64::MAX; LIMBS]));
        assert_eq!(two_to(960).minus(Natural::from(1)).0[14], u64::MAX);
        let below = two_to(960).minus(Natural::from(1));
        assert_eq!(below.plus(Natural::from(1)), two_to(960));
    }

    #[test]
    fn the_highest_limb_decides_the_order() {
        assert!(two_to(640) > two_to(640).minus(Natural::from(1)));
        assert!(two_to(64) > Natural::from(u128::from(u64::MAX)));
    }

    #[test]
    #[should_panic(expected = "a difference below zero")]
    fn no_difference_below_zero() {
        let _ = Natural::from(6).minus(Natural::from(7));
    }

    #[test]
    #[should_panic(expected = "a sum above 1,024 bits")]
    fn no_sum_above_the_last_limb() {
        let _ = two_to(1023).plus(two_to(1023));
    }

    #[test]
    #[should_panic(expected = "a product above 1,024 bits")]
    fn no_product_above_the_last_limb() {
        let _ = two_to(1020).times(16);
    }

    #[test]
    #[should_panic(expected = "above 1,024 bits")]
    fn no_shift_above_the_last_limb() {
        let _ = two_to(900).shifted(124);
    }
}

//! Weights at the edges of the conditions, and outside of them.

use super::{
    between, over_some, scale_between, shaken, some_cost, some_divisor, some_frequency, some_terms,
};
use crate::exact::weighing::{Term, Weighing};
use crate::make::rng::Rng;

const LEAST: f32 = f32::MIN_POSITIVE;

/// A float below 2^-126, zero in a few cases.
fn subnormal(rng: &mut Rng) -> f32 {
    f32::from_bits(rng.within((1, 0x007f_ffff)) >> rng.below(23))
}

/// A subnormal frequency, and a scaled cost that often lifts it above 2^-126.
pub fn subnormal_frequency(rng: &mut Rng) -> Weighing {
    let terms = some_terms(rng, 6, |rng| Term {
        cost: between(rng, 8, 19),
        scale: scale_between(rng, 0, 19),
        frequency: subnormal(rng),
    });
    let (insts, adjust) = (rng.within((1, 16)), 0);
    Weighing {
        terms,
        insts,
        adjust,
    }
}

/// Each number is zero in a third of the uses.
pub fn zeros(rng: &mut Rng) -> Weighing {
    let or_zero = |rng: &mut Rng, float: f32| if rng.chance(33) { 0.0 } else { float };
    let terms = some_terms(rng, 6, |rng| {
        let (cost, frequency) = (between(rng, -4, 4), between(rng, -9, 9));
        let scale = scale_between(rng, -2, 2).map(|scale| or_zero(rng, scale));
        Term {
            cost: or_zero(rng, cost),
            scale,
            frequency: or_zero(rng, frequency),
        }
    });
    over_some(rng, terms)
}

/// Cost × scale, or that × frequency, lies within a few places of 2^-126.
pub fn products_near_least(rng: &mut Rng) -> Weighing {
    let terms = some_terms(rng, 3, |rng| {
        if rng.chance(50) {
            scaled_near(rng, LEAST)
        } else {
            product_near(rng, LEAST)
        }
    });
    let adjust = 0;
    Weighing {
        terms,
        insts: rng.pick(&[1, 1, 2, 3]),
        adjust,
    }
}

/// Cost × scale near `size`, which is small, and a frequency that brings the product up.
fn scaled_near(rng: &mut Rng, size: f32) -> Term {
    let cost = between(rng, -60, -20);
    Term {
        cost,
        scale: Some(shaken(rng, size / cost)),
        frequency: between(rng, 0, 100),
    }
}

/// The scaled cost × frequency near `size`.
fn product_near(rng: &mut Rng, size: f32) -> Term {
    let (cost, scale) = (between(rng, -20, 19), scale_between(rng, -20, 19));
    let scaled = cost * scale.unwrap_or(1.0);
    Term {
        cost,
        scale,
        frequency: shaken(rng, size / scaled),
    }
}

/// The sum is near 2^-126 times the divisor.
pub fn quotients_near_least(rng: &mut Rng) -> Weighing {
    let (insts, adjust) = some_divisor(rng);
    let whole = LEAST * (insts + adjust) as f32;
    let uses = rng.within((1, 4));
    let part = whole / uses as f32;
    Weighing {
        terms: (0..uses).map(|_| product_near(rng, part)).collect(),
        insts,
        adjust,
    }
}

/// The sum is near 2^128, on both sides.
pub fn sums_near_overflow(rng: &mut Rng) -> Weighing {
    let uses = rng.within((1, 6));
    let part = f32::MAX / uses as f32;
    let terms = (0..uses).map(|_| product_near(rng, part)).collect();
    over_some(rng, terms)
}

/// Outside on purpose: a product below 2^-126, alone, or among others.
pub fn subnormal_products(rng: &mut Rng) -> Weighing {
    let mut terms = some_terms(rng, 3, |rng| {
        let size = subnormal(rng);
        if rng.chance(50) {
            scaled_near(rng, size)
        } else {
            product_near(rng, size)
        }
    });
    if rng.chance(20) {
        terms.push(Term {
            cost: some_cost(rng),
            scale: None,
            frequency: some_frequency(rng),
        });
    }
    over_some(rng, terms)
}

//! Weights made directly, within the entry rules, where rounding does most harm.

mod climb;
mod edges;
mod one_way;
mod plain;

pub use climb::climbed;

use super::counts::Counts;
use super::weighing::{Term, Weighing};
use crate::make::rng::Rng;

/// The pattern of 2^20, the greatest cost and scale.
const MOST_COST: u32 = 0x4980_0000;
/// The pattern of the greatest frequency.
const MOST_FREQUENCY: u32 = 0x7f7f_ffff;
/// The first stream of random numbers; the profiles have those below.
const STREAM: u64 = 100;

/// A kind of weights: its name, how many are made where one sheet of each profile is asked for, its maker.
pub struct Kind {
    pub name: &'static str,
    times: u64,
    make: fn(&mut Rng) -> Weighing,
}

pub const KINDS: [Kind; 12] = [
    kind("one way, to 16 uses", 10, one_way::make::<1, 16>),
    kind("one way, to 256 uses", 4, one_way::make::<17, 256>),
    kind("one way, to 4095 uses", 1, one_way::make::<257, 4095>),
    kind("one way, 4096 uses", 1, one_way::make::<4096, 4096>),
    kind("any patterns", 80, plain::any),
    kind("alike in size", 80, plain::alike),
    kind("subnormal frequency", 40, edges::subnormal_frequency),
    kind("zeros", 40, edges::zeros),
    kind("products near 2^-126", 40, edges::products_near_least),
    kind("quotients near 2^-126", 40, edges::quotients_near_least),
    kind("sums near overflow", 40, edges::sums_near_overflow),
    kind("subnormal products", 40, edges::subnormal_products),
];

const fn kind(name: &'static str, times: u64, make: fn(&mut Rng) -> Weighing) -> Kind {
    Kind { name, times, make }
}

/// The weights of a kind, counted.
pub fn counted(place: usize, seed: u64, per_profile: u64) -> Counts {
    let kind = &KINDS[place];
    let mut rng = Rng::new(seed, STREAM + place as u64);
    let mut counts = Counts::default();
    for _ in 0..kind.times * per_profile {
        counts.test(&(kind.make)(&mut rng));
    }
    counts
}

/// Any cost or scale.
fn some_cost(rng: &mut Rng) -> f32 {
    f32::from_bits(rng.below(MOST_COST + 1))
}

fn some_frequency(rng: &mut Rng) -> f32 {
    f32::from_bits(rng.below(MOST_FREQUENCY + 1))
}

/// A float from 2^low up to, not including, 2^(high + 1).
fn between(rng: &mut Rng, low: i32, high: i32) -> f32 {
    let exponent = rng.within(((low + 127) as u32, (high + 127) as u32));
    f32::from_bits(exponent << 23 | rng.below(1 << 23))
}

/// A scale of such a size, or none.
fn scale_between(rng: &mut Rng, low: i32, high: i32) -> Option<f32> {
    rng.chance(60).then(|| between(rng, low, high))
}

/// Moves a pattern by a few places.
fn shaken(rng: &mut Rng, float: f32) -> f32 {
    let bits = float.to_bits() + rng.below(8);
    f32::from_bits(bits.saturating_sub(4).min(MOST_FREQUENCY))
}

/// The uses over some instructions and some k.
fn over_some(rng: &mut Rng, terms: Vec<Term>) -> Weighing {
    let (insts, adjust) = some_divisor(rng);
    Weighing {
        terms,
        insts,
        adjust,
    }
}

fn some_divisor(rng: &mut Rng) -> (u32, u32) {
    let most = rng.pick(&[16, 256, 4096]);
    let most_adjust = rng.pick(&[0, 16, 65_535]);
    (rng.within((1, most)), rng.within((0, most_adjust)))
}

/// Between one and `most` uses, each by the same maker.
fn some_terms(rng: &mut Rng, most: u32, make: impl Fn(&mut Rng) -> Term) -> Vec<Term> {
    let uses = rng.within((1, most));
    (0..uses).map(|_| make(rng)).collect()
}

#[cfg(test)]
mod tests {
    use super::*;

    fn is_term(term: &Term) -> bool {
        let cost = |float: f32| float.to_bits() <= MOST_COST;
        cost(term.cost) && term.scale.is_none_or(cost) && term.frequency.to_bits() <= MOST_FREQUENCY
    }

    #[test]
    fn all_kinds_keep_the_entry_rules() {
        for (place, kind) in KINDS.iter().enumerate() {
            let mut rng = Rng::new(3, place as u64);
            for _ in 0..200 {
                let made = (kind.make)(&mut rng);
                assert!(made.terms.iter().all(is_term), "{}", kind.name);
                assert!((1..=4096).contains(&made.insts) && made.adjust <= 65_535);
                assert!((1..=4096).contains(&made.terms.len()));
            }
        }
    }

    #[test]
    fn the_same_seed_makes_the_same_weights() {
        for place in 0..KINDS.len() {
            let line = |seed| counted(place, seed, 5).line();
            assert_eq!(line(1), line(1));
            assert_ne!(line(1), line(2), "{}", KINDS[place].name);
        }
    }
}

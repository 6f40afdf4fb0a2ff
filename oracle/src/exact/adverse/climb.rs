//! Weights of few uses, changed bit by bit as long as their share of the allowance rises.

use super::{MOST_COST, MOST_FREQUENCY, STREAM, between, over_some, scale_between};
use crate::exact::counts::Counts;
use crate::exact::weighing::{Term, Weighing};
use crate::make::rng::Rng;

/// Steps from each start.
const STEPS: u64 = 5_000;
/// Steps in all, for each number of uses, where one sheet of each profile is asked for.
const TIMES: u64 = 150;

/// All weights of so many uses that were climbed over.
pub fn climbed(uses: u32, seed: u64, per_profile: u64) -> Counts {
    let mut rng = Rng::new(seed, STREAM + 50 + u64::from(uses));
    let mut counts = Counts::default();
    let mut left = TIMES * per_profile;
    while left > 0 {
        let steps = left.min(STEPS);
        climb(&mut rng, uses, steps, &mut counts);
        left -= steps;
    }
    counts
}

fn climb(rng: &mut Rng, uses: u32, steps: u64, counts: &mut Counts) {
    let mut best = start(rng, uses);
    let mut most = counts.test(&best);
    for _ in 1..steps {
        let other = changed(rng, &best);
        let share = counts.test(&other);
        if share >= most {
            (best, most) = (other, share);
        }
    }
}

fn start(rng: &mut Rng, uses: u32) -> Weighing {
    let mut term = || Term {
        cost: between(rng, -3, 3),
        scale: scale_between(rng, -3, 3),
        frequency: between(rng, -9, 9),
    };
    let terms = (0..uses).map(|_| term()).collect();
    over_some(rng, terms)
}

/// One number changed; now and then two.
fn changed(rng: &mut Rng, weighing: &Weighing) -> Weighing {
    let mut other = weighing.clone();
    change(rng, &mut other);
    if rng.chance(30) {
        change(rng, &mut other);
    }
    other
}

fn change(rng: &mut Rng, weighing: &mut Weighing) {
    let place = rng.below(weighing.terms.len() as u32) as usize;
    let term = &mut weighing.terms[place];
    match rng.below(8) {
        0 | 1 => term.cost = moved(rng, term.cost, MOST_COST),
        2 => term.scale = term.scale.map(|scale| moved(rng, scale, MOST_COST)),
        3 => term.scale = scale_between(rng, -3, 3),
        4 | 5 => term.frequency = moved(rng, term.frequency, MOST_FREQUENCY),
        6 => weighing.insts = rng.within((1, 4096)),
        _ => weighing.adjust = rng.within((0, 65_535)) >> rng.below(16),
    }
}

/// A bit turned, or the pattern moved by a few places.
fn moved(rng: &mut Rng, float: f32, most: u32) -> f32 {
    let bits = float.to_bits();
    let bits = match rng.below(3) {
        0 => bits ^ 1 << rng.below(31),
        1 => bits.saturating_add(1 << rng.below(20)),
        _ => bits.saturating_sub(1 << rng.below(20)),
    };
    f32::from_bits(bits.min(most))
}

//! Weights whose roundings all go down, or all up, by nearly half a unit in the last place.

use super::{between, scale_between, some_divisor};
use crate::exact::bound::Exact;
use crate::exact::weighing::{Rounded, Term, Weighing};
use crate::make::rng::Rng;

/// How many first uses, and how many divisors, are tried.
const TRIES: usize = 48;

/// A weight of LEAST to MOST uses.
pub fn make<const LEAST: u32, const MOST: u32>(rng: &mut Rng) -> Weighing {
    let up = rng.chance(50);
    let uses = rng.within((LEAST, MOST)) as usize;
    let mut terms = vec![first(rng, up)];
    let mut sum = Rounded::of(0.0).with(&terms[0]);
    while terms.len() < uses {
        let term = next(rng, sum.value, up);
        sum = sum.with(&term);
        terms.push(term);
    }
    over_worst(rng, terms, up)
}

/// The worst of some divisors.
fn over_worst(rng: &mut Rng, terms: Vec<Term>, up: bool) -> Weighing {
    let exact = Exact::of(&terms);
    let (insts, adjust) = some_divisor(rng);
    let mut worst = Weighing {
        terms,
        insts,
        adjust,
    };
    let sum = worst.sum();
    let mut most = 0;
    for _ in 0..TRIES {
        let (insts, adjust) = some_divisor(rng);
        let share = share_that_way(&exact, sum, insts + adjust, up);
        if share > most {
            most = share;
            (worst.insts, worst.adjust) = (insts, adjust);
        }
    }
    worst
}

/// The share of the weight's error, or 0 if it goes the other way.
fn share_that_way(exact: &Exact, sum: Rounded, divisor: u32, up: bool) -> u64 {
    let weight = sum.over(divisor).value;
    if exact.is_below(weight, divisor) == up {
        exact.share(weight, divisor)
    } else {
        0
    }
}

/// The worst of some uses by itself.
fn first(rng: &mut Rng, up: bool) -> Term {
    let draws: Vec<Term> = (0..TRIES).map(|_| some_first(rng)).collect();
    let share = |term: &Term| {
        let sum = Rounded::of(0.0).with(term);
        share_that_way(&Exact::of(&[*term]), sum, 1, up)
    };
    *draws.iter().max_by_key(|term| share(term)).unwrap()
}

fn some_first(rng: &mut Rng) -> Term {
    Term {
        cost: between(rng, -4, 4),
        scale: scale_between(rng, -4, 4),
        frequency: between(rng, -30, 60),
    }
}

/// A use that brings the sum just below, or just above, the middle of two neighbouring floats.
fn next(rng: &mut Rng, sum: f32, up: bool) -> Term {
    let unit = f32::from_bits(sum.to_bits() + 1) - sum;
    let steps = rng.pick(&[0, 0, 0, 1, 2, 5, 100]);
    let middle = (unit / 2.0 * (2 * steps + 1) as f32).to_bits();
    let added = f32::from_bits(if up { middle + 1 } else { middle - 1 });
    parted(rng, added)
}

/// Cost, scale and frequency of an exact product: all but one are powers of two.
fn parted(rng: &mut Rng, product: f32) -> Term {
    let power = |rng: &mut Rng| f32::from_bits(rng.within((117, 137)) << 23);
    let scale = rng.chance(50).then(|| power(rng));
    let other = power(rng);
    let rest = product / scale.unwrap_or(1.0) / other;
    let (cost, frequency) = if rest <= 1.0 && rng.chance(50) {
        (rest, other)
    } else {
        (other, rest)
    };
    Term {
        cost,
        scale,
        frequency,
    }
}

#[cfg(test)]
mod tests {
    use super::*;

    /// The exact sum of both lies between the sum and the next float, on the asked side of the middle.
    #[test]
    fn each_use_rounds_the_asked_way() {
        let mut rng = Rng::new(4, 0);
        for turn in 0..2_000 {
            let up = turn % 2 == 0;
            let one = some_first(&mut rng);
            let sum = Rounded::of(0.0).with(&one);
            let alone = Term {
                cost: 1.0,
                scale: None,
                frequency: sum.value,
            };
            let more = next(&mut rng, sum.value, up);
            let both = Exact::of(&[alone, more]);
            let weight = sum.with(&more);
            assert!(weight.fine && both.share(weight.value, 1) > 0);
            assert_eq!(both.is_below(weight.value, 1), up);
        }
    }

    /// More than nine tenths of the half of the allowance that n + 2 roundings can take.
    #[test]
    fn a_long_sum_takes_nearly_half_of_the_allowance() {
        let mut rng = Rng::new(5, 0);
        let long = (0..40).map(|_| make::<200, 300>(&mut rng));
        let shares = long.map(|weighing| {
            let weight = weighing.weight();
            assert!(weight.fine);
            Exact::of(&weighing.terms).share(weight.value, weighing.divisor())
        });
        assert!(shares.max().unwrap() > 450_000_000);
    }
}

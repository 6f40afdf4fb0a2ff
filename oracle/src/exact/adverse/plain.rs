//! Weights of random uses.

use super::{between, over_some, scale_between, some_cost, some_frequency, some_terms};
use crate::exact::weighing::{Term, Weighing};
use crate::make::rng::Rng;

/// All patterns of the entry rules, so that sizes differ widely.
pub fn any(rng: &mut Rng) -> Weighing {
    let terms = some_terms(rng, 8, |rng| Term {
        cost: some_cost(rng),
        scale: rng.chance(60).then(|| some_cost(rng)),
        frequency: some_frequency(rng),
    });
    over_some(rng, terms)
}

/// Uses of like size, so that each addition rounds.
pub fn alike(rng: &mut Rng) -> Weighing {
    let most = rng.pick(&[2, 6, 40]);
    let terms = some_terms(rng, most, |rng| Term {
        cost: between(rng, -1, 1),
        scale: scale_between(rng, -1, 0),
        frequency: between(rng, -1, 2),
    });
    over_some(rng, terms)
}

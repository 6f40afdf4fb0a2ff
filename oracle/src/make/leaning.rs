//! Jobs that are cut between classes of unequal costs: long pieces over many
//! blocks, of two to four frequencies, and classes of two or three costs, all of
//! them below the top class.

use super::book::PLAIN;
use super::rng::Rng;
use super::{soup, style};
use crate::job::Job;

pub fn make(rng: &mut Rng) -> Job {
    let style = style::of("leaning").expect("a style");
    let mut job = soup::make(rng, &style);
    job.banks.fill(0);
    job.classes[0].mask = u32::MAX >> (32 - job.classes.len());
    let frequencies = few(rng, 4);
    for block in &mut job.blocks {
        block.frequency = rng.pick(&frequencies);
    }
    let costs = few(rng, 3);
    for class in &mut job.classes {
        class.cost = rng.pick(&costs);
    }
    job
}

/// Two floats or more, up to `most`, no two of them equal.
fn few(rng: &mut Rng, most: u32) -> Vec<f32> {
    let count = rng.within((2, most)) as usize;
    let mut floats: Vec<f32> = Vec::new();
    while floats.len() < count {
        let float = rng.pick(&PLAIN);
        if !floats.contains(&float) {
            floats.push(float);
        }
    }
    floats
}

//! Options, banks, classes and registers.

use super::rng::Rng;
use super::style::{Floats, Style};
use crate::job::{Class, Job};

/// Extremes for a frequency: zeros, subnormals, huge ones.
const FREQUENCIES: [u32; 12] = [
    0x0000_0000,
    0x0000_0001,
    0x0000_0002,
    0x007f_ffff,
    0x0080_0000,
    0x0080_0001,
    0x3380_0000,
    0x3f80_0001,
    0x4b80_0000,
    0x7e80_0000,
    0x7f00_0000,
    0x7f7f_ffff,
];

/// Extremes for a cost or scale: up to 2^20, and down to what underflows.
const COSTS: [u32; 12] = [
    0x0000_0000,
    0x0000_0001,
    0x0000_0003,
    0x007f_ffff,
    0x0080_0000,
    0x2000_0000,
    0x3380_0000,
    0x3f7f_ffff,
    0x3f80_0000,
    0x3f80_0001,
    0x497f_ffff,
    0x4980_0000,
];

pub const PLAIN: [f32; 10] = [0.0, 0.25, 0.5, 0.75, 1.0, 1.0, 1.5, 2.0, 3.0, 10.0];

pub fn fill(job: &mut Job, rng: &mut Rng, style: &Style) {
    job.adjust = match rng.below(8) {
        0 => 65_535,
        1 => rng.below(65_536),
        _ => rng.below(20),
    };
    job.scales = std::array::from_fn(|_| cost(rng, style.floats));
    let count = rng.within(style.classes);
    let sizes = sizes(rng, style, count);
    let kind = rng.weighted(&style.books);
    for (number, mask) in masks(rng, kind, &sizes).into_iter().enumerate() {
        job.classes.push(Class {
            mask,
            cost: cost(rng, style.floats),
            size: sizes[number],
            spillslots: rng.chance(25),
        });
    }
    for _ in 0..rng.within(style.banks) {
        let top = if rng.chance(85) { 0 } else { rng.below(count) };
        job.banks.push(top);
    }
    for _ in 0..rng.below(4) {
        job.regs.push(rng.chance(30));
    }
}

pub fn cost(rng: &mut Rng, floats: Floats) -> f32 {
    match floats {
        Floats::Plain => rng.pick(&PLAIN),
        Floats::Extreme if rng.chance(20) => f32::from_bits(rng.below(0x4980_0001)),
        Floats::Extreme => f32::from_bits(rng.pick(&COSTS)),
    }
}

pub fn frequency(rng: &mut Rng, floats: Floats) -> f32 {
    match floats {
        Floats::Plain => rng.pick(&PLAIN),
        Floats::Extreme if rng.chance(20) => f32::from_bits(rng.below(0x7f80_0000)),
        Floats::Extreme => f32::from_bits(rng.pick(&FREQUENCIES)),
    }
}

/// The first class is of single registers; with groups asked for, about half
/// of the others are of one or two group sizes.
fn sizes(rng: &mut Rng, style: &Style, count: u32) -> Vec<u32> {
    let sizes = [rng.within((2, 3)), rng.within((2, 8))];
    let size = |rng: &mut Rng, number: u32| match number {
        0 => 1,
        _ if style.vgroups.1 == 0 || rng.chance(45) => 1,
        _ => sizes[usize::from(rng.chance(20))],
    };
    (0..count).map(|number| size(rng, number)).collect()
}

/// Subclass masks. A class of groups holds only classes of its size.
fn masks(rng: &mut Rng, kind: usize, sizes: &[u32]) -> Vec<u32> {
    let count = sizes.len();
    let all = u32::MAX >> (32 - count);
    let fits = |class: usize, sub: usize| sizes[class] == 1 || sizes[class] == sizes[sub];
    let mut masks = vec![0; count];
    for class in (0..count).rev() {
        let mut mask = 0;
        for sub in 0..count {
            let taken = match kind {
                0 => sub == class || (sub > class && rng.chance(35)),
                1 => sub == class || rng.chance(35),
                2 => rng.chance(45),
                _ => sub == class || (sub > class && rng.chance(12)),
            };
            if taken && fits(class, sub) {
                mask |= 1 << sub;
            }
        }
        if kind == 0 || kind == 3 {
            mask = closed(mask, class, &masks);
        }
        masks[class] = mask;
    }
    if rng.chance(85) {
        masks[0] = all;
    }
    masks
}

/// Adds the masks of the members above the class.
fn closed(mask: u32, class: usize, masks: &[u32]) -> u32 {
    let members = (class + 1..masks.len()).filter(|sub| mask >> sub & 1 == 1);
    members.fold(mask, |whole, sub| whole | masks[sub])
}

//! Jobs at the limits of the sheet and of the result tables, and one above.

mod above;
mod classes;
mod groups;
mod largest;
mod tables;

use super::pieces::Piece;
use super::rng::Rng;
use super::write::sheet_of;
use crate::frames::Frame;
use crate::job::{Block, CLASS_USE, Class, Job, Use, Value};

pub use above::one_above;
pub use largest::{Uses, largest};

const SHAPES: [fn(&mut Rng) -> Job; 11] = [
    classes::deep_cuts,
    classes::deep_turns,
    tables::many_sets,
    tables::many_segs,
    groups::many_groups,
    tables::many_hints,
    tables::wide_book,
    groups::long_merge,
    classes::many_blocks,
    classes::full_uses,
    classes::full_segs,
];

pub fn make(rng: &mut Rng) -> Frame {
    let mut job = rng.pick(&SHAPES)(rng);
    if rng.chance(15) {
        one_above(&mut job, rng);
    }
    Frame {
        bytes: sheet_of(&job),
        room: None,
    }
}

/// A class that holds itself alone.
fn leaf(number: u32, size: u32) -> Class {
    Class {
        mask: 1 << number,
        cost: 1.0,
        size,
        spillslots: false,
    }
}

/// A top class over `leaves` classes that share nothing.
fn leaves(job: &mut Job, leaves: u32, size: u32) {
    job.scales = [1.0; 3];
    job.banks.push(0);
    let all = u32::MAX >> (31 - leaves);
    job.classes.push(Class {
        mask: all,
        cost: 0.5,
        size: 1,
        spillslots: true,
    });
    job.classes
        .extend((1..=leaves).map(|number| leaf(number, size)));
}

fn blocks(job: &mut Job, rng: &mut Rng, count: u32, insts: u32) {
    for _ in 0..count {
        let frequency = rng.below(9) as f32;
        job.blocks.push(Block { insts, frequency });
    }
}

fn value(job: &mut Job, leader: u32) {
    job.values.push(Value {
        bank: 0,
        leader,
        remat: 0,
    });
}

fn piece(value: u32, from: u32, to: u32) -> Piece {
    Piece {
        value,
        from,
        to,
        flags: 0,
        uses: Vec::new(),
    }
}

fn class_use(inst: u32, slot: u32, class: u32) -> Use {
    Use {
        kind: CLASS_USE,
        inst,
        fields: [slot, class, 0, 0],
    }
}

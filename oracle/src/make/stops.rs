//! The two stops that chance seldom meets, and jobs that just miss them.

use super::book;
use super::pieces::{self, Piece};
use super::rng::Rng;
use super::style::Floats;
use crate::job::{Block, CLASS_DEF, CLASS_USE, Class, GROUP_USE, Job, Operand, Use, Value};

/// Class 1 is of pairs, 2 holds it, 3 and 4 stand alone.
const MASKS: [u32; 5] = [0x1f, 0x02, 0x06, 0x08, 0x10];
const PAIRS: u32 = 1;
const WIDE: u32 = 2;
const ALONE: [u32; 2] = [3, 4];

pub fn make(rng: &mut Rng) -> Job {
    let mut job = Job {
        scales: [1.0; 3],
        banks: vec![0],
        ..Job::default()
    };
    for (number, mask) in MASKS.into_iter().enumerate() {
        job.classes.push(Class {
            mask,
            cost: book::cost(rng, Floats::Plain),
            size: 1 + u32::from(number as u32 == PAIRS),
            spillslots: rng.chance(30),
        });
    }
    let insts = rng.within((1, 6));
    let frequency = book::frequency(rng, Floats::Plain);
    job.blocks.push(Block { insts, frequency });
    let mut pieces = Vec::new();
    for _ in 0..rng.below(3) {
        let value = new_value(&mut job, None);
        pieces.push(piece(value, 0, 4 * insts));
    }
    let at = rng.below(insts);
    if rng.chance(50) {
        overlap(&mut job, rng, at, &mut pieces);
    } else {
        values_differ(&mut job, rng, at, &mut pieces);
    }
    pieces::put(&mut job, rng, pieces);
    job
}

fn new_value(job: &mut Job, leader: Option<u32>) -> u32 {
    let number = job.values.len() as u32;
    job.values.push(Value {
        bank: 0,
        leader: leader.unwrap_or(number),
        remat: 0,
    });
    number
}

fn piece(value: u32, from: u32, to: u32) -> Piece {
    Piece {
        value,
        from,
        to,
        flags: 0,
        uses: Vec::new(),
    }
}

fn class_use(kind: u32, inst: u32, class: u32) -> Use {
    Use {
        kind,
        inst,
        fields: [7, class, 0, 0],
    }
}

/// A group use is turned, then the use that turned it is turned by a
/// definition, and the same operand comes again: it merges into its own place,
/// which is free only if the segment begins behind the conflict piece.
fn overlap(job: &mut Job, rng: &mut Rng, at: u32, pieces: &mut Vec<Piece>) {
    let value = new_value(job, None);
    job.vgroups.push(vec![value, value]);
    job.operands.push(Operand {
        inst: at,
        slot: 0,
        vgroup: 0,
        class: PAIRS,
    });
    let grouped = |index: u32| Use {
        kind: GROUP_USE,
        inst: at,
        fields: [0, PAIRS, index, 0],
    };
    let index = rng.below(2);
    let again = if rng.chance(70) { index } else { 1 - index };
    let alone = rng.pick(&ALONE);
    let before = rng.below(4 * at + 3) / 4 * 4;
    let from = rng.pick(&[before, before, 4 * at + 1, 4 * at + 2, 4 * at + 2]);
    let last = 4 * job.inst_count() as u32;
    let mut one = piece(value, from, rng.pick(&[4 * at + 4, last]));
    one.uses = vec![
        class_use(CLASS_USE, at, alone),
        grouped(index),
        class_use(CLASS_DEF, at, rng.pick(&[WIDE, WIDE, alone])),
        grouped(again),
    ];
    pieces.push(one);
}

/// Two values of a set meet inside an instruction and both have uses turned.
fn values_differ(job: &mut Job, rng: &mut Rng, at: u32, pieces: &mut Vec<Piece>) {
    let first = new_value(job, None);
    let second = new_value(job, Some(first));
    let [a, b] = ALONE;
    let mut left = piece(first, 4 * at, 4 * at + 2);
    left.uses = vec![class_use(CLASS_USE, at, a), class_use(CLASS_USE, at, b)];
    let same = rng.chance(20);
    let mut right = piece(if same { first } else { second }, 4 * at + 2, 4 * at + 4);
    let class = rng.pick(&[a, b, b, WIDE]);
    right.uses = vec![class_use(CLASS_USE, at, class)];
    pieces.extend([left, right]);
}

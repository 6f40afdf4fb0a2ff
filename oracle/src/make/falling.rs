//! Turns whose instructions fall: uses that agree behind what the first
//! instruction holds, and no longer once a cut has parted them from it.

use super::book;
use super::pieces::{self, Piece};
use super::rng::Rng;
use super::style::Floats;
use crate::job::{BLOCKPARAM_IN, Block, CLASS_USE, Class, Job, Use, Value};

/// From the top, 6 and 7 are held as 1 and 2, which share nothing; behind 3
/// both are held as 3. The last two agree with 6 from the top, through 9, but
/// 10 not with 3; from behind, 10 is held as 4 and agrees with all but 3.
const MASKS: [u32; 11] = [
    0x23f, 0x202, 0x004, 0x008, 0x010, 0x020, 0x21a, 0x01c, 0x218, 0x200, 0x210,
];

pub fn make(rng: &mut Rng) -> Job {
    let mut job = Job {
        scales: [1.0; 3],
        banks: vec![0],
        ..Job::default()
    };
    for mask in MASKS {
        job.classes.push(Class {
            mask,
            cost: book::cost(rng, Floats::Plain),
            size: 1,
            spillslots: rng.chance(30),
        });
    }
    for _ in 0..4 {
        let frequency = rng.pick(&[1.0, 1.0, 2.0]);
        job.blocks.push(Block {
            insts: rng.within((1, 2)),
            frequency,
        });
    }
    job.values.push(Value {
        bank: 0,
        leader: 0,
        remat: 0,
    });
    let piece = piece(&job, rng);
    pieces::put(&mut job, rng, vec![piece]);
    job
}

fn piece(job: &Job, rng: &mut Rng) -> Piece {
    let starts: Vec<u32> = (0..4)
        .map(|block| job.blocks[..block].iter().map(|block| block.insts).sum())
        .collect();
    let mut uses = Vec::new();
    let mut add = |rng: &mut Rng, place: usize, class: u32, percent: u32| {
        if rng.chance(percent) {
            uses.push(Use {
                kind: CLASS_USE,
                inst: starts[place],
                fields: [uses.len() as u32, class, 0, 0],
            });
        }
    };
    add(rng, 0, 3, 95);
    add(rng, 1, 6, 95);
    add(rng, 1, 7, 95);
    add(rng, 1, 5, 50);
    add(rng, 2, 8, 95);
    add(rng, 2, 5, 80);
    add(rng, 3, 10, 95);
    if rng.chance(30) {
        uses.push(Use {
            kind: BLOCKPARAM_IN,
            inst: starts[rng.below(2) as usize],
            fields: [1, 0, 0, 0],
        });
    }
    Piece {
        value: 0,
        from: 0,
        to: 4 * job.inst_count() as u32,
        flags: 0,
        uses,
    }
}

//! Many cuts, many turns, and result tables full to the last place.

use super::{blocks, class_use, leaves, piece, value};
use crate::job::{BLOCKPARAM_IN, Block, Job, Use};
use crate::make::pieces::{self, Piece};
use crate::make::rng::Rng;

/// 4,096 instructions with a use each, every one in another class than the
/// one before: as many registers as the room holds, or one more.
pub fn deep_cuts(rng: &mut Rng) -> Job {
    let mut job = Job::default();
    leaves(&mut job, 31, 1);
    blocks(&mut job, rng, 512, 8);
    let uses = 4096 - rng.pick(&[0, 0, 1, 2]);
    value(&mut job, 0);
    value(&mut job, 1);
    let mut long = piece(0, 0, 4 * 4096);
    for inst in 0..uses {
        long.uses.push(class_use(inst, 0, 1 + inst % 31));
    }
    let mut pieces = vec![long];
    if rng.chance(50) {
        pieces.push(piece(1, 0, 4));
    }
    pieces::put(&mut job, rng, pieces);
    job
}

/// Uses crowded at few instructions: up to 4,096, nearly all of them turned.
pub fn deep_turns(rng: &mut Rng) -> Job {
    let mut job = Job::default();
    leaves(&mut job, 31, 1);
    let insts = rng.pick(&[1, 2, 64]);
    blocks(&mut job, rng, 1, insts);
    value(&mut job, 0);
    let mut long = piece(0, 0, 4 * insts);
    let classes = rng.pick(&[2, 5, 31]);
    let count = rng.pick(&[512, 1024, 4095]);
    if rng.chance(50) {
        long.uses.push(Use {
            kind: BLOCKPARAM_IN,
            inst: 0,
            fields: [u32::MAX, 0, 0, 0],
        });
    }
    for number in 0..count {
        let inst = number * insts / count;
        long.uses
            .push(class_use(inst, number % 65_536, 1 + number % classes));
    }
    pieces::put(&mut job, rng, vec![long]);
    job
}

/// Segments that begin with a block parameter, behind which all uses but one
/// are turned: with four uses each the use table is full to the last place,
/// with more it overflows.
pub fn full_uses(rng: &mut Rng) -> Job {
    let mut job = Job::default();
    leaves(&mut job, 31, 1);
    let each: u32 = rng.pick(&[3, 4, 4, 5, 8]);
    let segs = 4096 / each.max(4);
    blocks(&mut job, rng, 16, segs.div_ceil(16));
    value(&mut job, 0);
    let mut pieces = Vec::new();
    for inst in 0..segs {
        let mut one = piece(0, 4 * inst, 4 * inst + 3 - rng.below(2));
        one.to -= u32::from(one.to % 4 == 3);
        one.uses.push(Use {
            kind: BLOCKPARAM_IN,
            inst,
            fields: [inst, 0, 0, 0],
        });
        for slot in 1..each {
            one.uses.push(class_use(inst, slot, slot));
        }
        pieces.push(one);
    }
    pieces::put(&mut job, rng, pieces);
    job
}

/// A register for each of 4,096 uses, and up to two segments without uses
/// besides: the segment table is full, or overflows by one or two.
pub fn full_segs(rng: &mut Rng) -> Job {
    let mut job = Job::default();
    leaves(&mut job, 2, 1);
    blocks(&mut job, rng, 1, 4096);
    value(&mut job, 0);
    let bare = rng.below(3);
    let mut pieces: Vec<Piece> = (0..bare).map(|point| piece(0, point, point + 1)).collect();
    let mut inst = 0;
    while inst < 4096 {
        let next = (inst + 5).min(4096);
        let mut one = piece(0, (4 * inst).max(bare), 4 * next);
        for inst in inst..next {
            one.uses.push(class_use(inst, 0, 1 + inst % 2));
        }
        pieces.push(one);
        inst = next;
    }
    pieces::put(&mut job, rng, pieces);
    job
}

/// 512 blocks, frequencies rising, falling or mixed, and far cuts over them.
pub fn many_blocks(rng: &mut Rng) -> Job {
    let mut job = Job::default();
    leaves(&mut job, 2, 1);
    let way = rng.below(3);
    for number in 0..512u32 {
        let frequency = match way {
            0 => number as f32,
            1 => (512 - number) as f32,
            _ => rng.below(1000) as f32,
        };
        let insts = rng.within((1, 8));
        job.blocks.push(Block { insts, frequency });
    }
    value(&mut job, 0);
    let insts = job.inst_count() as u32;
    let mut long = piece(0, 0, 4 * insts);
    let mut inst = rng.below(50);
    while inst < insts {
        long.uses.push(class_use(inst, 0, 1 + rng.below(2)));
        inst += 1 + rng.below(300);
    }
    pieces::put(&mut job, rng, vec![long]);
    job
}

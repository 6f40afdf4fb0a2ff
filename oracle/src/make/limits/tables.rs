//! Many sets, segments and hints, and a book at its limits.

use super::{blocks, class_use, leaves, piece, value};
use crate::job::{Class, Hint, Job, Use, Value};
use crate::make::pieces;
use crate::make::rng::Rng;

/// 1,024 values, each its own set with four uses.
pub fn many_sets(rng: &mut Rng) -> Job {
    let mut job = Job::default();
    leaves(&mut job, 3, 1);
    blocks(&mut job, rng, 16, 8);
    let mut pieces = Vec::new();
    for number in 0..1024 {
        value(&mut job, number);
        let mut one = piece(number, rng.below(3), 4 * 128);
        for place in 0..4 {
            let inst = 32 * place + rng.below(32);
            one.uses.push(class_use(inst, 0, rng.below(4)));
        }
        pieces.push(one);
    }
    pieces::put(&mut job, rng, pieces);
    job
}

/// 1,024 segments of one set, of one or of many values.
pub fn many_segs(rng: &mut Rng) -> Job {
    let mut job = Job::default();
    leaves(&mut job, 3, 1);
    blocks(&mut job, rng, 64, 32);
    let values = rng.pick(&[1, 7, 1024]);
    for _ in 0..values {
        value(&mut job, 0);
    }
    let mut pieces = Vec::new();
    for number in 0..1024 {
        let to = 8 * number + rng.pick(&[6, 8]);
        let mut one = piece(number % values, 8 * number, to);
        one.uses.push(class_use(2 * number, 0, rng.below(2)));
        one.uses.push(class_use(2 * number + 1, 0, rng.below(3)));
        pieces.push(one);
    }
    pieces::put(&mut job, rng, pieces);
    job
}

/// 1,024 hints over a set that is cut often.
pub fn many_hints(rng: &mut Rng) -> Job {
    let mut job = Job::default();
    leaves(&mut job, 5, 1);
    blocks(&mut job, rng, 32, 16);
    for _ in 0..4 {
        value(&mut job, 0);
    }
    let mut keys: Vec<(u32, u32, bool)> = (0..1024)
        .map(|_| (rng.below(4), rng.below(513), rng.chance(50)))
        .collect();
    keys.sort();
    job.hints
        .extend(keys.into_iter().map(|(value, inst, incoming)| Hint {
            value,
            inst,
            incoming,
        }));
    let mut pieces = Vec::new();
    for number in 0..4 {
        let mut one = piece(number, 512 * number, 512 * (number + 1));
        one.flags = 4 + rng.below(4) + 8 * rng.below(2);
        for place in 0..32 {
            one.uses
                .push(class_use(128 * number + 4 * place, 0, 1 + rng.below(5)));
        }
        pieces.push(one);
    }
    pieces::put(&mut job, rng, pieces);
    job
}

/// 32 classes, 8 banks, 256 registers, k 65,535.
pub fn wide_book(rng: &mut Rng) -> Job {
    let mut job = Job {
        adjust: 65_535,
        scales: [1_048_576.0; 3],
        ..Job::default()
    };
    for number in 0..32 {
        let mask = rng.bits() | rng.bits() | 1 << number;
        let cost = rng.pick(&[0.0, 0.5, 1.0, 1_048_576.0]);
        job.classes.push(Class {
            mask,
            cost,
            size: 1,
            spillslots: rng.chance(20),
        });
    }
    job.banks.extend((0..8).map(|_| rng.below(32)));
    job.regs.extend((0..256).map(|_| rng.chance(50)));
    blocks(&mut job, rng, 32, 4);
    let mut pieces = Vec::new();
    for number in 0..64 {
        job.values.push(Value {
            bank: rng.below(8),
            leader: number,
            remat: rng.below(4),
        });
        let mut one = piece(number, 0, 512);
        for place in 0..16 {
            let inst = 8 * place + rng.below(8);
            one.uses.push(class_use(inst, 65_535, rng.below(32)));
            let reg = [rng.below(256), 0, 0, 0];
            one.uses.push(Use {
                kind: 1,
                inst,
                fields: reg,
            });
        }
        pieces.push(one);
    }
    pieces::put(&mut job, rng, pieces);
    job
}

//! Many groups, and one that is merged into again and again.

use super::{blocks, class_use, leaves, piece, value};
use crate::job::{GROUP_USE, Job, Operand, Use};
use crate::make::pieces::{self, Piece};
use crate::make::rng::Rng;

/// 256 groups of eight values and 1,024 operands. With a value of its own
/// class for each group the group table may overflow.
pub fn many_groups(rng: &mut Rng) -> Job {
    let mut job = Job::default();
    leaves(&mut job, 4, 8);
    blocks(&mut job, rng, 16, 32);
    let values = rng.pick(&[8, 64, 512]);
    let mut pieces: Vec<Piece> = Vec::new();
    for number in 0..values {
        value(&mut job, number);
        pieces.push(piece(number, 0, 4 * 512));
    }
    for number in 0..256 {
        let first = 8 * rng.below(values / 8);
        let same = number % 2 == 0;
        let shift = if same { 0 } else { rng.below(8) };
        job.vgroups
            .push((0..8).map(|i| first + (i + shift) % 8).collect());
    }
    let drop = rng.pick(&[40, 80]);
    for number in 0..1024 {
        let vgroup = rng.below(256);
        let operand = Operand {
            inst: number / 2,
            slot: number % 2,
            vgroup,
            class: 1 + vgroup % 4,
        };
        job.operands.push(operand);
        for index in 0..8 {
            let value = job.vgroups[vgroup as usize][index as usize];
            if rng.chance(drop) && index > 3 {
                continue;
            }
            if pieces.iter().map(|piece| piece.uses.len()).sum::<usize>() < 4096 {
                pieces[value as usize].uses.push(Use {
                    kind: GROUP_USE,
                    inst: operand.inst,
                    fields: [operand.slot, operand.class, index, 0],
                });
            }
        }
    }
    pieces::put(&mut job, rng, pieces);
    job
}

/// Two values that share every operand. The second is cut between any two of
/// them, so that each part but the first merges into one register.
pub fn long_merge(rng: &mut Rng) -> Job {
    let mut job = Job::default();
    leaves(&mut job, 2, 2);
    job.classes[2].size = 1;
    let count = rng.pick(&[64, 512, 1024]);
    blocks(&mut job, rng, 4, count / 2);
    value(&mut job, 0);
    value(&mut job, 1);
    job.vgroups.push(vec![0, 1]);
    let mut pieces = vec![piece(0, 0, 8 * count), piece(1, 0, 8 * count)];
    for number in 0..count {
        let inst = 2 * number;
        job.operands.push(Operand {
            inst,
            slot: 0,
            vgroup: 0,
            class: 1,
        });
        for index in 0..2 {
            pieces[index as usize].uses.push(Use {
                kind: GROUP_USE,
                inst,
                fields: [0, 1, index, 0],
            });
        }
        pieces[1].uses.push(class_use(inst + 1, 0, 2));
    }
    pieces::put(&mut job, rng, pieces);
    job
}

//! One count above its limit.

use super::class_use;
use crate::job::{Hint, Job, Operand, Seg, Value};
use crate::make::rng::Rng;

/// Takes one count above its limit.
pub fn one_above(job: &mut Job, rng: &mut Rng) {
    match rng.below(12) {
        0 => job.adjust = 65_536,
        1 => job.blocks.resize(513, job.blocks[0]),
        2 => job.blocks[0].insts += 4097 - job.inst_count().min(4096) as u32,
        3 => fill(
            &mut job.values,
            1025,
            Value {
                bank: 0,
                leader: 0,
                remat: 0,
            },
        ),
        4 => job.vgroups.resize(257, vec![0, 0]),
        5 => fill(
            &mut job.operands,
            1025,
            Operand {
                inst: 0,
                slot: 0,
                vgroup: 0,
                class: 0,
            },
        ),
        6 => fill(
            &mut job.hints,
            1025,
            Hint {
                value: 0,
                inst: 0,
                incoming: false,
            },
        ),
        7 => too_many_segs(job),
        8 => too_many_uses(job),
        9 => job.classes.resize(33, job.classes[0]),
        10 => job.banks.resize(9, job.banks[0]),
        _ => job.regs.resize(257, false),
    }
}

fn fill<T: Copy>(table: &mut Vec<T>, count: usize, otherwise: T) {
    let item = table.last().copied().unwrap_or(otherwise);
    table.resize(count.max(table.len()), item);
}

fn too_many_segs(job: &mut Job) {
    let last = job.uses.len();
    while job.segs.len() < 1025 {
        job.segs.push(Seg {
            value: 0,
            from: 0,
            to: 4,
            flags: 0,
            uses: last..last,
        });
    }
}

fn too_many_uses(job: &mut Job) {
    if job.segs.is_empty() {
        too_many_segs(job);
    }
    job.uses
        .resize(job.uses.len().max(4097), class_use(0, 0, 0));
    if let Some(seg) = job.segs.last_mut() {
        seg.uses.end = job.uses.len();
    }
}

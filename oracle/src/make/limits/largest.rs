//! Jobs at every limit at once, which tests 1 to 7 pass, with long fields.

use crate::job::{Block, Class, GROUP_USE, Hint, Job, Operand, Seg, Use, Value};

/// The uses of a largest job.
#[derive(Clone, Copy, PartialEq, Eq, Debug)]
pub enum Uses {
    /// Tied uses, the longest lines that a use has.
    Tied,
    /// Uses of groups, each of which has its operand to be found.
    Group,
}

const BLOCKS: u32 = 512;
const INSTS: u32 = 4096;
const VALUES: u32 = 1024;
const VGROUPS: u32 = 256;
const MEMBERS: u32 = 8;
const OPERANDS: u32 = 1024;
const CLASSES: u32 = 32;
/// Of each value, which has one segment; 4,096 in all.
const USES: u32 = 4;
/// The greatest cost that passes.
const COST: f32 = 1_048_576.0;

/// 512 blocks of 4,096 instructions, 1,024 values, 256 vgroups of eight, 1,024 operands, 1,024 hints, 1,024 segments
/// with 4,096 uses, 256 registers, 32 classes, 8 banks, k 65,535.
pub fn largest(uses: Uses) -> Job {
    let mut job = Job {
        adjust: 65_535,
        scales: [COST; 3],
        banks: vec![CLASSES - 1; 8],
        regs: vec![true; 256],
        ..Job::default()
    };
    let class = Class {
        mask: u32::MAX,
        cost: COST,
        size: MEMBERS,
        spillslots: true,
    };
    job.classes = vec![class; CLASSES as usize];
    let insts = INSTS / BLOCKS;
    job.blocks = (0..BLOCKS)
        .map(|number| Block {
            insts,
            frequency: number as f32 + 0.1,
        })
        .collect();
    job.values = (0..VALUES).map(value).collect();
    job.vgroups = (0..VGROUPS).map(members).collect();
    job.operands = (0..OPERANDS).map(operand).collect();
    job.hints = (0..VALUES).map(hint).collect();
    for value in 0..VALUES {
        let first = job.uses.len();
        job.uses.extend(uses_of(value, uses));
        job.segs.push(Seg {
            value,
            from: 10_000,
            to: 4 * INSTS,
            flags: 15,
            uses: first..job.uses.len(),
        });
    }
    job
}

fn value(number: u32) -> Value {
    Value {
        bank: number % 8,
        leader: number,
        remat: 3,
    }
}

/// Four values, each twice.
fn members(vgroup: u32) -> Vec<u32> {
    let first = vgroup * VALUES / VGROUPS;
    (0..MEMBERS).map(|index| first + index % 4).collect()
}

/// Every group has four, at instructions of the last quarter.
fn operand(number: u32) -> Operand {
    Operand {
        inst: INSTS - OPERANDS + number,
        slot: u32::from(u16::MAX) - number,
        vgroup: number % VGROUPS,
        class: CLASSES - 1 - number % 16,
    }
}

fn hint(value: u32) -> Hint {
    Hint {
        value,
        inst: INSTS,
        incoming: true,
    }
}

/// A use at each operand of the value's group; of two of its places there where it is a group's.
fn uses_of(value: u32, uses: Uses) -> impl Iterator<Item = Use> {
    (0..USES).map(move |place| {
        let operand = operand(value / 4 + VGROUPS * place);
        let index = value % 4 + 4 * (place % 2);
        let (kind, fields) = match uses {
            Uses::Tied => (2, [operand.slot, u32::from(u16::MAX), operand.class, 255]),
            Uses::Group => (GROUP_USE, [operand.slot, operand.class, index, 0]),
        };
        Use {
            kind,
            inst: operand.inst,
            fields,
        }
    })
}

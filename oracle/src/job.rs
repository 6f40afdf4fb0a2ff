//! A job as its sheet states it, every number still unchecked.

use std::ops::Range;

pub const CLASS_USE: u32 = 4;
pub const CLASS_DEF: u32 = 5;
pub const GROUP_USE: u32 = 6;
pub const GROUP_DEF: u32 = 7;
pub const BLOCKPARAM_IN: u32 = 8;
pub const BLOCKPARAM_OUT: u32 = 9;

/// How many fields follow kind and instruction, by kind.
pub const USE_FIELDS: [usize; 10] = [1, 1, 4, 0, 2, 2, 3, 3, 1, 0];

#[derive(Clone, Debug, Default)]
pub struct Job {
    pub adjust: u32,
    pub scales: [f32; 3],
    /// The top class of each bank.
    pub banks: Vec<u32>,
    pub classes: Vec<Class>,
    /// Whether each register is memory.
    pub regs: Vec<bool>,
    pub blocks: Vec<Block>,
    pub values: Vec<Value>,
    pub vgroups: Vec<Vec<u32>>,
    pub operands: Vec<Operand>,
    pub hints: Vec<Hint>,
    pub segs: Vec<Seg>,
    pub uses: Vec<Use>,
}

#[derive(Clone, Copy, Debug)]
pub struct Class {
    pub mask: u32,
    pub cost: f32,
    pub size: u32,
    pub spillslots: bool,
}

#[derive(Clone, Copy, Debug)]
pub struct Block {
    pub insts: u32,
    pub frequency: f32,
}

#[derive(Clone, Copy, Debug)]
pub struct Value {
    pub bank: u32,
    pub leader: u32,
    pub remat: u32,
}

#[derive(Clone, Copy, Debug)]
pub struct Operand {
    pub inst: u32,
    pub slot: u32,
    pub vgroup: u32,
    pub class: u32,
}

#[derive(Clone, Copy, Debug)]
pub struct Hint {
    pub value: u32,
    pub inst: u32,
    pub incoming: bool,
}

#[derive(Clone, Debug)]
pub struct Seg {
    pub value: u32,
    pub from: u32,
    pub to: u32,
    pub flags: u32,
    /// Its lines in the job's uses.
    pub uses: Range<usize>,
}

#[derive(Clone, Copy, Debug)]
pub struct Use {
    pub kind: u32,
    pub inst: u32,
    /// The kind's own fields, zeros behind them.
    pub fields: [u32; 4],
}

impl Job {
    pub fn inst_count(&self) -> u64 {
        self.blocks.iter().map(|block| u64::from(block.insts)).sum()
    }

    pub fn uses_of(&self, seg: &Seg) -> &[Use] {
        &self.uses[seg.uses.clone()]
    }
}

impl Use {
    pub fn is_group(&self) -> bool {
        matches!(self.kind, GROUP_USE | GROUP_DEF)
    }

    /// The operand slot of a class use.
    pub fn slot(&self) -> u32 {
        self.fields[0]
    }

    /// The class of a class use.
    pub fn class(&self) -> u32 {
        self.fields[1]
    }

    /// The group index of a group use.
    pub fn index(&self) -> u32 {
        self.fields[2]
    }
}

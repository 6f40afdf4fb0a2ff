//! A job built of parts whose rows in the result tables are known: registers, segments, uses, groups.

use crate::job::{
    BLOCKPARAM_IN, BLOCKPARAM_OUT, Block, CLASS_DEF, CLASS_USE, Class, GROUP_USE, Job, Operand,
    Use, Value,
};
use crate::make::pieces::{self, Piece};
use crate::make::rng::Rng;

pub const PAIRS: [u32; 2] = [1, 3];
/// Holds the first class of pairs.
pub const WIDE: u32 = 2;
const TRIPLES: u32 = 4;
/// From the top, the first is held as a class that shares nothing with the second; from the second back, both agree.
pub const ONE_WAY: [u32; 2] = [7, 8];
/// Holds nothing.
pub const EMPTY: u32 = 31;
/// Classes of single registers that share nothing.
pub const LEAVES: u32 = 24;
/// Instructions of every job.
pub const INSTS: u32 = 100;
/// Instructions with turned uses in one set: as many as have one digit.
const STACKS: u32 = 10;

pub struct Draft {
    pub job: Job,
    pub pieces: Vec<Piece>,
    /// Rows that the parts so far take.
    pub rows: [usize; 4],
}

/// A value group whose other places are a later set's.
pub struct Open {
    vgroup: usize,
    count: u32,
}

pub fn leaf(number: u32) -> u32 {
    match number % LEAVES {
        low @ 0..2 => 5 + low,
        other => 7 + other,
    }
}

pub fn class_use(inst: u32, class: u32) -> Use {
    Use {
        kind: CLASS_USE,
        inst,
        fields: [0, class, 0, 0],
    }
}

pub fn class_def(inst: u32, class: u32) -> Use {
    Use {
        kind: CLASS_DEF,
        ..class_use(inst, class)
    }
}

pub fn group_use(op: &Operand, index: u32) -> Use {
    Use {
        kind: GROUP_USE,
        inst: op.inst,
        fields: [op.slot, op.class, index, 0],
    }
}

fn mask_of(class: u32) -> u32 {
    match class {
        0 => u32::MAX,
        WIDE => 0x06,
        7 => 0xe0,
        8 => 0x140,
        EMPTY => 0,
        _ => 1 << class,
    }
}

fn size_of(class: u32) -> u32 {
    match class {
        1 | 3 => 2,
        TRIPLES => 3,
        _ => 1,
    }
}

impl Draft {
    pub fn new(rng: &mut Rng) -> Self {
        let mut job = Job {
            adjust: rng.below(3),
            scales: [1.0; 3],
            banks: vec![0],
            ..Job::default()
        };
        for class in 0..32 {
            let (mask, size) = (mask_of(class), size_of(class));
            job.classes.push(Class {
                mask,
                cost: 1.0,
                size,
                spillslots: rng.chance(20),
            });
        }
        let insts = rng.within((STACKS, INSTS - 1));
        for insts in [insts, INSTS - insts] {
            job.blocks.push(Block {
                insts,
                frequency: rng.below(9) as f32,
            });
        }
        Self {
            job,
            pieces: Vec::new(),
            rows: [0; 4],
        }
    }

    pub fn done(mut self, rng: &mut Rng) -> Job {
        pieces::put(&mut self.job, rng, self.pieces);
        self.job
    }

    pub fn add(&mut self, rows: [usize; 4]) {
        for (sum, more) in self.rows.iter_mut().zip(rows) {
            *sum += more;
        }
    }

    /// A new set of one value.
    pub fn set(&mut self) -> u32 {
        let number = self.job.values.len() as u32;
        self.job.values.push(Value {
            bank: 0,
            leader: number,
            remat: 0,
        });
        number
    }

    pub fn piece(&mut self, value: u32, from: u32, to: u32, uses: Vec<Use>) {
        self.pieces.push(Piece {
            value,
            from,
            to,
            flags: 0,
            uses,
        });
    }

    pub fn operand(&mut self, inst: u32, slot: u32, vgroup: usize, class: u32) -> Operand {
        let operand = Operand {
            inst,
            slot,
            vgroup: vgroup as u32,
            class,
        };
        self.job.operands.push(operand);
        operand
    }

    /// The slots of this operand's set: one for each value group.
    fn next_slot(&self) -> u32 {
        self.job.vgroups.len() as u32
    }

    /// Sets of one segment without uses: a register each.
    pub fn bare(&mut self, count: usize) {
        for _ in 0..count {
            let value = self.set();
            self.piece(value, 0, 1, Vec::new());
        }
        self.add([count, count, 0, 0]);
    }

    /// One set, one register, of segments without uses.
    pub fn bare_segs(&mut self, count: usize) {
        let value = self.set();
        for number in 0..count as u32 {
            let from = 4 * (number / 3) + number % 3;
            let to = from + 1 + u32::from(number % 3 == 2);
            self.piece(value, from, to, Vec::new());
        }
        self.add([1, count, 0, 0]);
    }

    /// A set without class uses, whose uses are counted alone.
    pub fn pad(&mut self, count: usize) {
        let value = self.set();
        let u = Use {
            kind: BLOCKPARAM_OUT,
            inst: 0,
            fields: [0; 4],
        };
        self.piece(value, 0, 4, vec![u; count]);
        self.add([1, 1, count, 0]);
    }

    /// Uses of one instruction each in another class: all but the first are turned, and have a register each.
    pub fn stacks(&mut self, registers: usize) {
        let mut left = registers as u32;
        while left > 0 {
            let (value, mut uses) = (self.set(), Vec::new());
            for inst in 0..STACKS {
                let count = left.min(LEAVES);
                left -= count;
                uses.extend((0..count).map(|number| class_use(inst, leaf(inst + number))));
                self.add([
                    count as usize,
                    count as usize,
                    (2 * count).saturating_sub(1) as usize,
                    0,
                ]);
            }
            self.piece(value, 0, 4 * STACKS, uses);
        }
    }

    /// The same with a block parameter before each instruction's uses, which stands in each of its registers.
    pub fn led_stacks(&mut self, stacks: usize, each: u32) {
        for chunk in (0..stacks as u32)
            .collect::<Vec<_>>()
            .chunks(STACKS as usize)
        {
            let value = self.set();
            for inst in 0..chunk.len() as u32 {
                let mut uses = vec![Use {
                    kind: BLOCKPARAM_IN,
                    inst,
                    fields: [0; 4],
                }];
                uses.extend((0..each).map(|number| class_use(inst, leaf(inst + number))));
                self.piece(value, 4 * inst, 4 * inst + 4, uses);
                self.add([each as usize, each as usize, 3 * each as usize - 1, 0]);
            }
        }
    }

    /// A block parameter, a use that stays, and many that are turned, of six classes: few registers, many uses.
    pub fn crowd(&mut self, turned: u32) {
        let value = self.set();
        let mut uses = vec![
            Use {
                kind: BLOCKPARAM_IN,
                inst: 0,
                fields: [0; 4],
            },
            class_use(0, leaf(0)),
        ];
        uses.extend((0..turned).map(|number| class_use(0, leaf(1 + number % 6))));
        self.piece(value, 0, 4, uses);
        self.add([7, 7, 2 + 2 * turned as usize + 6, 0]);
    }

    /// Group uses each of another class than the one before: a register and a group for each.
    pub fn groups(&mut self, count: usize) {
        let mut left = count as u32;
        while left > 0 {
            let (value, slot) = (self.set(), self.next_slot());
            let vgroup = self.job.vgroups.len();
            self.job.vgroups.push(vec![value, value]);
            let row = left.min(INSTS);
            let uses = (0..row).map(|inst| {
                let op = self.operand(inst, slot, vgroup, PAIRS[inst as usize % 2]);
                group_use(&op, inst / 2 % 2)
            });
            let uses = uses.collect();
            self.piece(value, 0, 4 * INSTS, uses);
            left -= row;
        }
        self.add([count; 4]);
    }

    /// Pairs that two sets share: for each operand a group with both places taken.
    pub fn pairs(&mut self, count: u32) {
        let (first, second, slot) = (self.set(), self.set(), self.next_slot());
        let vgroup = self.job.vgroups.len();
        self.job.vgroups.push(vec![first, second]);
        let ops: Vec<Operand> = (0..count)
            .map(|inst| self.operand(inst, slot, vgroup, PAIRS[inst as usize % 2]))
            .collect();
        for (index, value) in [first, second].into_iter().enumerate() {
            let uses = ops.iter().map(|op| group_use(op, index as u32)).collect();
            self.piece(value, 0, 4 * INSTS, uses);
        }
        let count = count as usize;
        self.add([2 * count, 2 * count, 2 * count, count]);
    }

    /// One set that makes a group of three places for `count` operands, two of them left to a later set.
    pub fn open(&mut self, count: u32) -> Open {
        let (value, slot) = (self.set(), self.next_slot());
        let vgroup = self.job.vgroups.len();
        self.job.vgroups.push(vec![value; 3]);
        let uses = (0..count).map(|inst| {
            let op = self.operand(inst, slot, vgroup, TRIPLES);
            group_use(&op, 0)
        });
        let uses = uses.collect();
        self.piece(value, 0, 4 * INSTS, uses);
        self.add([1, 1, count as usize, 1]);
        Open { vgroup, count }
    }

    /// The later set: its places alternate from operand to operand, so that it is cut at each; the first two parts
    /// join, the others merge.
    pub fn close(&mut self, open: Open) {
        let value = self.set();
        self.job.vgroups[open.vgroup][1..].fill(value);
        let ops = self
            .job
            .operands
            .iter()
            .filter(|op| op.vgroup as usize == open.vgroup);
        let uses = ops
            .enumerate()
            .map(|(number, op)| group_use(op, 1 + number as u32 % 2))
            .collect();
        self.piece(value, 0, 4 * INSTS, uses);
        let count = open.count as usize;
        self.add([count.min(2), count, count, 0]);
    }
}

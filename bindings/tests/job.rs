//! Anything that the job's types can express, drawn at random: never refused by 1, and in the job's own rows by the
//! number of the usual room.

#[path = "../examples/common/mod.rs"]
mod common;

use common::random::Random;
use cundzeli::Refusal;
use cundzeli::build::{
    Book, ClassData, Hint, Job, Operand, Options, Remat, Rows, Tables, Work, build_binary,
    build_in_rows,
};
use cundzeli::{
    BlockData, Flags, Inst, PhysReg, Point, RegBank, RegClass, RegClassMask, UseKind, Value,
    ValueGroup,
};
use std::convert::Infallible;

const JOBS: u64 = 60_000;

/// How wild the numbers of a job are: 0 keeps to what is likely to be in order.
struct Draw {
    random: Random,
    wild: usize,
}

impl Draw {
    fn chance(&mut self) -> bool {
        self.wild > 0 && self.random.one_in(self.wild)
    }

    /// A number below `n`, or any.
    fn number(&mut self, n: usize) -> u32 {
        if self.chance() {
            let edges = [0, 15, 16, 31, 32, 512, 4096, 65_536, u32::MAX];
            return if self.random.one_in(2) {
                self.random.pick(&edges)
            } else {
                self.random.word()
            };
        }
        self.random.below(n) as u32
    }

    fn count(&mut self, usual: usize, most: usize) -> usize {
        let rare = self.chance() && self.random.one_in(40);
        self.random.below(if rare { most } else { usual } + 1)
    }

    fn float(&mut self) -> f32 {
        if self.chance() {
            return f32::from_bits(self.random.word());
        }
        self.random.pick(&[0.0, 0.5, 1.0, 2.0, 1000.0])
    }

    fn truth(&mut self) -> bool {
        self.random.one_in(2)
    }

    fn inst(&mut self) -> Inst {
        Inst(self.number(12))
    }

    /// Any point that there is.
    fn point(&mut self) -> Point {
        let number = self.number(48);
        Point::from_number(number).unwrap_or(Inst(number / 4).normal())
    }

    fn flags(&mut self) -> Flags {
        let bits = self.random.below(16) as u32;
        Flags::from_bits(bits).expect("below 16")
    }

    fn class(&mut self) -> ClassData {
        ClassData {
            subclasses: RegClassMask(self.number(16)),
            cost: self.float(),
            group_size: if self.chance() { self.number(9) } else { 1 },
            spillslots: self.truth(),
        }
    }

    fn block(&mut self) -> BlockData {
        BlockData::new(self.number(5).max(1), self.float())
    }

    fn options(&mut self) -> Options {
        Options {
            adjust: self.number(3),
            cheaper_than_move: self.float(),
            cheaper_than_load: self.float(),
            indirect: self.float(),
        }
    }

    fn book(&mut self) -> Book {
        let mut book = Book::new(RegClass(self.number(4)), self.class());
        let pairs = ClassData::new(RegClassMask(2));
        let group_size = 2;
        book.class(ClassData { group_size, ..pairs });
        for _ in 0..2 + self.count(1, 40) {
            book.class(self.class());
        }
        for _ in 0..self.count(1, 12) {
            book.bank(RegClass(self.number(4)));
        }
        for _ in 0..1 + self.count(3, 300) {
            book.reg(self.truth());
        }
        book
    }

    fn kind(&mut self) -> UseKind<Infallible> {
        let (slot, group_index) = (self.number(3) as u16, self.number(2) as u8);
        let (reg, class) = (PhysReg(self.number(2)), RegClass(self.number(4)));
        match self.random.below(9) {
            0 => UseKind::FixedDef { reg },
            1 => UseKind::FixedUse { reg },
            2 => UseKind::TiedUse {
                use_slot: slot,
                def_slot: self.number(3) as u16,
                class,
                group_index,
            },
            3 => UseKind::ClassUse { slot, class },
            4 => UseKind::ClassDef { slot, class },
            5 => UseKind::GroupClassUse { slot, class, group_index },
            6 => UseKind::GroupClassDef { slot, class, group_index },
            7 => UseKind::BlockparamIn { blockparam_idx: self.number(4) },
            _ => UseKind::BlockparamOut,
        }
    }

    /// Values, value groups, operands and hints.
    fn values(&mut self, job: &mut Job) {
        for _ in 0..1 + self.count(3, 1100) {
            let remats = [
                Remat::None,
                Remat::CheaperThanMove,
                Remat::CheaperThanLoad,
                Remat::Indirect,
            ];
            let (bank, remat) = (RegBank(self.number(1)), self.random.pick(&remats));
            match self.random.below(4) {
                0 => job.value_led_by(Value(self.number(1)), bank, remat),
                _ => job.value(bank, remat),
            };
        }
        for _ in 0..self.count(1, 300) {
            let many = if self.chance() { 40 } else { 3 };
            let members = 0..self.count(2, many);
            let members: Vec<Value> = members.map(|_| Value(self.number(2))).collect();
            job.vgroup(&members);
        }
    }

    fn operands(&mut self, job: &mut Job) {
        for _ in 0..self.count(1, 1100) {
            job.operand(Operand {
                inst: self.inst(),
                slot: self.number(3) as u16,
                vgroup: ValueGroup(self.number(1)),
                class: RegClass(self.number(4)),
            });
        }
        for _ in 0..self.count(1, 1100) {
            job.hint(Hint {
                value: Value(self.number(2)),
                inst: self.inst(),
                incoming: self.truth(),
            });
        }
    }

    /// Segments in rising order where the numbers are tame, and uses that may lie inside.
    fn segments(&mut self, job: &mut Job) {
        for value in 0..self.count(2, 1100) as u32 {
            let ends = [self.point(), self.point()];
            let (from, to) = (ends[0].min(ends[1]), ends[0].max(ends[1]));
            let value = Value(if self.chance() { self.number(3) } else { value });
            let mut uses = job.segment(value, from, to, self.flags());
            let middle = Inst((from.number() + (to.number() - from.number()) / 2) / 4);
            for _ in 0..self.count(3, 1500) {
                let inst = if self.chance() { self.inst() } else { middle };
                uses.add(inst, self.kind());
            }
        }
    }

    fn job(&mut self) -> Job {
        let mut job = Job::new(&self.book(), self.options(), self.block());
        for _ in 0..2 + self.count(4, 600) {
            job.block(self.block());
        }
        self.values(&mut job);
        self.operands(&mut job);
        self.segments(&mut job);
        job
    }
}

#[test]
fn no_job_is_refused_by_1() {
    let mut draw = Draw { random: Random::new(1), wild: 0 };
    let (mut tables, mut work) = (Tables::new(), Work::new());
    let mut numbers = [0; 10];
    for seed in 0..JOBS {
        draw.random = Random::new(seed);
        draw.wild = draw.random.pick(&[0, 0, 1000, 300, 100, 30, 10, 3, 1]);
        let job = draw.job().bytes();
        let end = build_binary(&job, &mut tables, &mut work);
        let usual = build_in_rows(&job, Rows::USUAL, &mut tables, &mut work);
        assert_eq!(end, usual, "seed {seed}");
        numbers[end.map_or_else(Refusal::number, |_| 0) as usize] += 1;
    }
    println!("by number, 0 for a result: {numbers:?}");
    assert_eq!(numbers[1], 0);
    for number in [0, 2, 3, 4, 5, 6, 7, 8] {
        assert!(numbers[number] > 100, "{number} is seldom: {numbers:?}");
    }
}

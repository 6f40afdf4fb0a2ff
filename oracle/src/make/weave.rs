//! Many groups and merges: bundles of sets that meet in the same group operands. The first set of a bundle makes a
//! group for each stretch between its cuts, the others are cut elsewhere, join and merge.

use super::book;
use super::pieces::{self, Piece};
use super::rng::Rng;
use super::style::Floats;
use super::write::sheet_of;
use crate::entry;
use crate::job::{
    Block, CLASS_DEF, CLASS_USE, Class, GROUP_DEF, GROUP_USE, Job, Operand, Use, Value,
};
use crate::run::{End, run};
use reference::watch::Placed;

/// Group sizes, each with two classes, one within the other.
const SIZES: [u32; 3] = [2, 3, 5];
/// Classes of single registers that share nothing.
pub const LEAVES: u32 = 3;

pub struct Weave {
    bank: u32,
    /// The top class; behind it two for each size, and the leaves.
    top: u32,
}

/// The least of groups and of merges, and of bytes, of a job.
const FEW: (usize, usize) = (8, 0);
const MANY: (usize, usize) = (100, 20_001);

fn wanted(seed: u64) -> (usize, usize) {
    if seed % 7 == 6 { MANY } else { FEW }
}

pub fn what(seed: u64) -> String {
    let (least, bytes) = wanted(seed);
    let long = if bytes > 0 { ", long" } else { "" };
    format!("merges: {least} groups and {least} merges or more{long}")
}

/// Adds bundles until the job has as many groups and merges, and bytes, as are wanted.
pub fn make(rng: &mut Rng, seed: u64) -> Job {
    let (least, bytes) = wanted(seed);
    loop {
        let mut job = start(rng);
        let weave = Weave::new(&mut job, rng);
        let mut pieces = Vec::new();
        let (mut groups, mut merges) = (0, 0);
        while groups < least || merges < least || size(&job, &pieces) <= bytes {
            let (more_groups, more_merges) = weave.bundle(&mut job, rng, &mut pieces);
            groups += more_groups;
            merges += more_merges;
        }
        pieces::put(&mut job, rng, pieces);
        let sound = entry::refusal(&job).is_none() && sheet_of(&job).len() > bytes;
        if sound && groups_and_merges(&job) == Some((groups, merges)) {
            return job;
        }
    }
}

/// Options and blocks.
fn start(rng: &mut Rng) -> Job {
    let mut job = Job {
        adjust: rng.below(4),
        scales: [1.0, 0.5, 2.0],
        ..Job::default()
    };
    for _ in 0..rng.within((1, 4)) {
        let frequency = book::frequency(rng, Floats::Plain);
        let insts = rng.within((8, 20));
        job.blocks.push(Block { insts, frequency });
    }
    job
}

/// About how many bytes the sheet will have.
pub fn size(job: &Job, pieces: &[Piece]) -> usize {
    let uses: usize = pieces.iter().map(|piece| 17 + 16 * piece.uses.len()).sum();
    sheet_of(job).len() + uses
}

/// The groups and merges of an accepted job.
pub fn groups_and_merges(job: &Job) -> Option<(usize, usize)> {
    let whole = run(job, None);
    let merges = whole
        .log
        .placed
        .iter()
        .filter(|&&placed| placed == Placed::Merged)
        .count();
    (whole.end == End::Done).then(|| (whole.regs.groups().len(), merges))
}

impl Weave {
    /// A bank and its classes, behind those that the job has.
    pub fn new(job: &mut Job, rng: &mut Rng) -> Self {
        let top = job.classes.len() as u32;
        let bank = job.banks.len() as u32;
        job.banks.push(top);
        let count = 1 + 2 * SIZES.len() as u32 + LEAVES;
        for number in 0..count {
            let (size, mask) = match number {
                0 => (1, (1 << count) - 1),
                1..=6 => (
                    SIZES[(number as usize - 1) / 2],
                    1 << number | 1 << (number + number % 2),
                ),
                _ => (1, 1 << number),
            };
            let cost = book::cost(rng, Floats::Plain);
            job.classes.push(Class {
                mask: mask << top,
                cost,
                size,
                spillslots: rng.chance(20),
            });
        }
        Self { bank, top }
    }

    pub fn leaf(&self, number: u32) -> u32 {
        self.top + 2 * SIZES.len() as u32 + 1 + number % LEAVES
    }

    pub fn pairs(&self) -> u32 {
        self.top + 1
    }

    pub fn value(&self, job: &mut Job, leader: Option<u32>) -> u32 {
        let number = job.values.len() as u32;
        let leader = leader.unwrap_or(number);
        job.values.push(Value {
            bank: self.bank,
            leader,
            remat: number % 4,
        });
        number
    }

    /// Draws a bundle until it meets no stop, and says how many groups and merges it has. Bundles share no operand, so
    /// what holds of one alone holds beside others.
    pub fn bundle(&self, job: &mut Job, rng: &mut Rng, pieces: &mut Vec<Piece>) -> (usize, usize) {
        let clear = Job {
            segs: Vec::new(),
            uses: Vec::new(),
            ..job.clone()
        };
        loop {
            let mut alone = clear.clone();
            let drawn = self.draw(&mut alone, rng);
            pieces::put(&mut alone, rng, drawn.clone());
            if let Some(found) = groups_and_merges(&alone) {
                (job.values, job.vgroups, job.operands) =
                    (alone.values, alone.vgroups, alone.operands);
                pieces.extend(drawn);
                return found;
            }
        }
    }

    /// As many sets as the groups have places, some of two values; operands that use them all; cuts between.
    fn draw(&self, job: &mut Job, rng: &mut Rng) -> Vec<Piece> {
        let kind = rng.weighted(&[80, 15, 5]) as u32;
        let last = job.inst_count() as u32;
        let mut strands: Vec<Vec<Piece>> = (0..SIZES[kind as usize])
            .map(|_| self.strand(job, rng, last))
            .collect();
        let breaks: Vec<u32> = (0..strands.len())
            .map(|place| if place == 0 { 30 } else { rng.within((40, 90)) })
            .collect();
        let slot = job.vgroups.len() as u32;
        let mut inst = rng.below(4);
        while inst + 1 < last {
            self.knot(job, rng, &mut strands, inst, slot, self.top + 1 + 2 * kind);
            for (place, strand) in strands.iter_mut().enumerate() {
                if rng.chance(breaks[place]) {
                    self.cut(rng, strand, inst + 1);
                }
            }
            inst += rng.within((2, 6));
        }
        strands.into_iter().flatten().collect()
    }

    /// The segments of a set: one, or two of different values that touch.
    fn strand(&self, job: &mut Job, rng: &mut Rng, last: u32) -> Vec<Piece> {
        let first = self.value(job, None);
        let piece = |value: u32, from: u32, to: u32, flags: u32| Piece {
            value,
            from,
            to,
            flags,
            uses: Vec::new(),
        };
        if rng.chance(70) {
            return vec![piece(first, 0, 4 * last, rng.below(4))];
        }
        let second = self.value(job, Some(first));
        let middle = 4 * rng.within((1, last - 1));
        vec![
            piece(first, 0, middle, rng.below(4)),
            piece(second, middle, 4 * last, rng.below(4)),
        ]
    }

    /// An operand of the values that live there, and their uses of it.
    fn knot(
        &self,
        job: &mut Job,
        rng: &mut Rng,
        strands: &mut [Vec<Piece>],
        inst: u32,
        slot: u32,
        class: u32,
    ) {
        let members: Vec<u32> = strands
            .iter()
            .map(|strand| strand[living(strand, inst)].value)
            .collect();
        let operand = Operand {
            inst,
            slot,
            vgroup: vgroup_of(job, members),
            class: class + u32::from(rng.chance(20)),
        };
        job.operands.push(operand);
        let kind = if rng.chance(90) { GROUP_USE } else { GROUP_DEF };
        for (index, strand) in strands.iter_mut().enumerate() {
            let at = living(strand, inst);
            let fields = [slot, operand.class, index as u32, 0];
            if rng.chance(96) {
                strand[at].uses.push(Use { kind, inst, fields });
            }
        }
    }

    /// A use of a class that no group class shares.
    fn cut(&self, rng: &mut Rng, strand: &mut [Piece], inst: u32) {
        let at = living(strand, inst);
        let kind = if rng.chance(80) { CLASS_USE } else { CLASS_DEF };
        strand[at].uses.push(Use {
            kind,
            inst,
            fields: [rng.below(4), self.leaf(rng.below(LEAVES)), 0, 0],
        });
    }
}

/// The value group of these members, a new one if there is none.
fn vgroup_of(job: &mut Job, members: Vec<u32>) -> u32 {
    let known = job.vgroups.iter().rposition(|known| *known == members);
    let vgroup = known.unwrap_or_else(|| {
        job.vgroups.push(members);
        job.vgroups.len() - 1
    });
    vgroup as u32
}

/// The segment that lives at an instruction.
fn living(strand: &[Piece], inst: u32) -> usize {
    strand
        .iter()
        .position(|piece| 4 * inst < piece.to)
        .unwrap_or(strand.len() - 1)
}

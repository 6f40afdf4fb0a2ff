//! Sets that run side by side and meet in the same group operands: the first
//! makes the groups, the others join and, where they are cut, merge.

use super::book;
use super::pieces::{self, Piece};
use super::rng::Rng;
use super::style::Floats;
use crate::job::{
    BLOCKPARAM_IN, Block, CLASS_USE, Class, GROUP_DEF, GROUP_USE, Job, Operand, Use, Value,
};

/// Classes 1 to 3 are of groups, 4 to 6 of single registers.
const GROUPS: (u32, u32) = (1, 3);
const SINGLES: (u32, u32) = (4, 6);

pub fn make(rng: &mut Rng) -> Job {
    let mut job = Job {
        adjust: rng.below(4),
        scales: std::array::from_fn(|_| book::cost(rng, Floats::Plain)),
        ..Job::default()
    };
    let size = rng.pick(&[2, 2, 2, 3, 3, 4, 8]);
    classes(&mut job, rng, size);
    let insts = rng.within((3, 12));
    blocks(&mut job, rng, insts);
    let mut pieces = strands(&mut job, rng, size, insts);
    knots(&mut job, rng, size, insts, &mut pieces);
    for piece in &mut pieces {
        plain_uses(rng, insts, piece);
    }
    pieces::put(&mut job, rng, pieces);
    job
}

/// A book that nests; every third one has bits at random besides.
fn classes(job: &mut Job, rng: &mut Rng, size: u32) {
    let loose = rng.chance(40);
    let nested = [0x7f, 0x0e, 0x04, 0x08, 0x10, 0x76 & !rng.bits(), 0x40];
    for (number, mut mask) in nested.into_iter().enumerate() {
        let group = (1..=3).contains(&number);
        if loose && number > 0 {
            mask = rng.bits() & 0x7f | rng.pick(&[0, 1 << number]);
        }
        if group {
            mask &= 0x0e;
        }
        job.classes.push(Class {
            mask: closed(mask, number as u32, loose),
            cost: book::cost(rng, Floats::Plain),
            size: if group { size } else { 1 },
            spillslots: rng.chance(20),
        });
    }
    job.banks.push(0);
    job.regs.push(false);
}

/// A nested book's class 5 holds itself, and class 1 only with 2 and 3.
fn closed(mask: u32, number: u32, loose: bool) -> u32 {
    match number {
        5 if !loose && mask & 2 != 0 => mask | 0x2e,
        5 if !loose => mask | 0x20,
        _ => mask,
    }
}

fn blocks(job: &mut Job, rng: &mut Rng, insts: u32) {
    let first = rng.within((1, insts));
    for insts in [first, insts - first] {
        if insts > 0 {
            let frequency = book::frequency(rng, Floats::Plain);
            job.blocks.push(Block { insts, frequency });
        }
    }
}

/// One set for each place of the groups, of one value or of two that touch.
fn strands(job: &mut Job, rng: &mut Rng, size: u32, insts: u32) -> Vec<Piece> {
    let mut pieces = Vec::new();
    for _ in 0..size {
        let leader = job.values.len() as u32;
        let middle = rng.within((2, 4 * insts - 2));
        let middle = middle - u32::from(middle % 4 == 3);
        let ends = if rng.chance(35) {
            vec![0, middle, 4 * insts]
        } else {
            vec![0, 4 * insts]
        };
        for pair in ends.windows(2) {
            let value = job.values.len() as u32;
            job.values.push(Value {
                bank: 0,
                leader,
                remat: 0,
            });
            pieces.push(Piece {
                value,
                from: pair[0],
                to: pair[1],
                flags: rng.below(4),
                uses: Vec::new(),
            });
        }
    }
    pieces
}

/// Operands whose groups are the values that live there.
fn knots(job: &mut Job, rng: &mut Rng, size: u32, insts: u32, pieces: &mut [Piece]) {
    let mut inst = rng.below(insts);
    for slot in 0..rng.within((2, 6)) {
        if rng.chance(70) {
            inst = rng.below(insts);
        }
        let kind = if rng.chance(95) { GROUP_USE } else { GROUP_DEF };
        let mut members: Vec<u32> = living(job, pieces, inst, size);
        if rng.chance(10) {
            members[1] = members[0];
        }
        let vgroup = job.vgroups.len() as u32;
        let class = rng.within(GROUPS);
        let class = if rng.chance(60) { 1 } else { class };
        job.vgroups.push(members.clone());
        job.operands.push(Operand {
            inst,
            slot,
            vgroup,
            class,
        });
        for (index, &value) in members.iter().enumerate() {
            if rng.chance(95) {
                let fields = [slot, class, index as u32, 0];
                pieces::add(&mut pieces[value as usize], Use { kind, inst, fields });
            }
        }
    }
}

/// The value of each set that lives at the instruction's uses.
fn living(job: &Job, pieces: &[Piece], inst: u32, size: u32) -> Vec<u32> {
    let lives = |piece: &&Piece| piece.from < 4 * inst + 4 && 4 * inst + 2 <= piece.to;
    let values: Vec<u32> = pieces
        .iter()
        .filter(lives)
        .map(|piece| piece.value)
        .collect();
    let mut leaders: Vec<u32> = job.values.iter().map(|value| value.leader).collect();
    leaders.dedup();
    let of = |leader: u32| {
        let mut living = values.iter().copied();
        living.find(|&value| job.values[value as usize].leader == leader)
    };
    let members = leaders.iter().map(|&leader| of(leader).unwrap_or(leader));
    members.take(size as usize).collect()
}

fn plain_uses(rng: &mut Rng, insts: u32, piece: &mut Piece) {
    if piece.value == 0 || rng.chance(30) {
        return;
    }
    let knotted: Vec<u32> = piece.uses.iter().map(|u| u.inst).collect();
    for _ in 0..rng.within((1, 3)) {
        let at_knot = !knotted.is_empty() && rng.chance(40);
        let inst = if at_knot {
            rng.pick(&knotted)
        } else {
            rng.below(insts)
        };
        let fields = [9, rng.within(SINGLES), 0, 0];
        if piece.from < 4 * inst + 4 {
            pieces::add(
                piece,
                Use {
                    kind: CLASS_USE,
                    inst,
                    fields,
                },
            );
        }
    }
    if rng.chance(25) {
        let inst = piece.from / 4;
        let fields = [rng.below(3), 0, 0, 0];
        pieces::add(
            piece,
            Use {
                kind: BLOCKPARAM_IN,
                inst,
                fields,
            },
        );
    }
    pieces::shuffle(rng, &mut piece.uses);
}

//! Whole jobs that pass the entry tests, drawn by a style.

use super::book;
use super::pieces::{Piece, operands, plain_uses, put, shuffle};
use super::rng::Rng;
use super::style::Style;
use crate::entry;
use crate::job::{Block, Hint, Job, Value};

pub fn make(rng: &mut Rng, style: &Style) -> Job {
    let mut job = Job::default();
    book::fill(&mut job, rng, style);
    blocks(&mut job, rng, style);
    values(&mut job, rng, style);
    vgroups(&mut job, rng, style);
    hints(&mut job, rng, style);
    let mut pieces = pieces(&job, rng, style);
    for piece in &mut pieces {
        plain_uses(&job, rng, style, piece);
    }
    operands(&mut job, rng, style, &mut pieces);
    for piece in &mut pieces {
        shuffle(rng, &mut piece.uses);
    }
    put(&mut job, rng, pieces);
    debug_assert_eq!(entry::refusal(&job), None);
    job
}

fn blocks(job: &mut Job, rng: &mut Rng, style: &Style) {
    let insts = rng.within(style.insts);
    let count = rng.within(style.blocks).min(insts);
    let mut left = insts;
    for number in 0..count {
        let others = count - number - 1;
        let insts = if others == 0 {
            left
        } else {
            rng.within((1, left - others))
        };
        left -= insts;
        job.blocks.push(Block {
            insts,
            frequency: book::frequency(rng, style.floats),
        });
    }
}

fn values(job: &mut Job, rng: &mut Rng, style: &Style) {
    for number in 0..rng.within(style.values) {
        let leaders: Vec<u32> = leaders(job);
        let joins = !leaders.is_empty() && rng.chance(style.shared);
        let leader = if joins { rng.pick(&leaders) } else { number };
        job.values.push(Value {
            bank: rng.below(job.banks.len() as u32),
            leader,
            remat: if rng.chance(70) { 0 } else { rng.below(4) },
        });
    }
}

fn leaders(job: &Job) -> Vec<u32> {
    let numbers = 0..job.values.len() as u32;
    numbers
        .filter(|&number| job.values[number as usize].leader == number)
        .collect()
}

fn vgroups(job: &mut Job, rng: &mut Rng, style: &Style) {
    let sizes: Vec<u32> = job.classes.iter().map(|class| class.size).collect();
    let sizes: Vec<u32> = sizes.into_iter().filter(|&size| size > 1).collect();
    if sizes.is_empty() {
        return;
    }
    for _ in 0..rng.within(style.vgroups) {
        if let Some(last) = job.vgroups.last()
            && rng.chance(style.same)
        {
            job.vgroups.push(last.clone());
            continue;
        }
        let size = rng.pick(&sizes);
        let mut members: Vec<u32> = Vec::new();
        for _ in 0..size {
            members.push(member(job, rng, &members));
        }
        job.vgroups.push(members);
    }
}

/// A value for a group: mostly one that is not in it yet.
fn member(job: &Job, rng: &mut Rng, members: &[u32]) -> u32 {
    let tries = if rng.chance(85) { 4 } else { 1 };
    let draw = |rng: &mut Rng| rng.below(job.values.len() as u32);
    let mut value = draw(rng);
    for _ in 1..tries {
        if members.contains(&value) {
            value = draw(rng);
        }
    }
    value
}

fn hints(job: &mut Job, rng: &mut Rng, style: &Style) {
    let mut keys: Vec<(u32, u32, bool)> = Vec::new();
    for _ in 0..rng.within(style.hints) {
        let value = rng.below(job.values.len() as u32);
        let inst = rng.below(job.inst_count() as u32 + 1);
        keys.push((value, inst, rng.chance(50)));
    }
    keys.sort();
    let hint = |(value, inst, incoming)| Hint {
        value,
        inst,
        incoming,
    };
    job.hints = keys.into_iter().map(hint).collect();
}

/// The segments of every set, sets rising.
fn pieces(job: &Job, rng: &mut Rng, style: &Style) -> Vec<Piece> {
    let mut pieces = Vec::new();
    for leader in leaders(job) {
        let numbers = 0..job.values.len() as u32;
        let set: Vec<u32> = numbers
            .filter(|&number| job.values[number as usize].leader == leader)
            .collect();
        if rng.chance(10) {
            continue;
        }
        for (from, to) in ranges(job, rng, style) {
            let flag = |rng: &mut Rng, bit: u32| if rng.chance(style.flags) { bit } else { 0 };
            let flags = flag(rng, 1) | flag(rng, 2) | flag(rng, 4) | flag(rng, 8);
            pieces.push(Piece {
                value: rng.pick(&set),
                from,
                to,
                flags,
                uses: Vec::new(),
            });
        }
    }
    pieces
}

/// Ranges in order, some of them touching.
fn ranges(job: &Job, rng: &mut Rng, style: &Style) -> Vec<(u32, u32)> {
    let last = 4 * job.inst_count() as u32;
    let mut points = Vec::new();
    if rng.chance(style.long) {
        points.extend([rng.below(3).min(last - 1), last - rng.pick(&[0, 0, 2, 3])]);
    }
    for _ in 0..2 * rng.within(style.segs) {
        let point = rng.below(last + 1);
        points.push(point - u32::from(point % 4 == 3));
    }
    points.sort();
    points.dedup();
    let mut ranges = Vec::new();
    let mut at = 0;
    while at + 1 < points.len() {
        ranges.push((points[at], points[at + 1]));
        at += if rng.chance(60) { 1 } else { 2 };
    }
    ranges
}

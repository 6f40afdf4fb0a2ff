//! Jobs with an entry rule broken, one cause at a time.

use super::limits::one_above;
use super::rng::Rng;
use crate::job::{BLOCKPARAM_OUT, CLASS_USE, Class, GROUP_USE, Hint, Job, Operand, Use, Value};

/// The lowest float above 2^20, and floats that are no cost or frequency.
const BAD_COSTS: [u32; 6] = [
    0x4980_0001,
    0x7f80_0000,
    0x7fc0_0000,
    0x8000_0000,
    0xbf80_0000,
    0xff80_0000,
];

/// Breaks rule 2 to 7 in one of its ways, if the job has what it takes.
pub fn break_rule(job: &mut Job, rng: &mut Rng, rule: u32) {
    match rule {
        2 => one_above(job, rng),
        3 => break_book(job, rng),
        4 => break_function(job, rng),
        5 => break_hints(job, rng),
        6 => break_segs(job, rng),
        _ => break_uses(job, rng),
    }
}

/// A place in a table that is not empty.
fn place<T>(rng: &mut Rng, table: &[T]) -> usize {
    rng.below(table.len() as u32) as usize
}

/// A number no entry has: the count, or far above it.
fn unknown(rng: &mut Rng, count: usize) -> u32 {
    if rng.chance(70) {
        count as u32
    } else {
        rng.pick(&[255, 256, 65_535, 65_536, u32::MAX])
            .max(count as u32)
    }
}

fn break_book(job: &mut Job, rng: &mut Rng) {
    let class = place(rng, &job.classes);
    let count = job.classes.len();
    match rng.below(7) {
        0 => {
            let bank = place(rng, &job.banks);
            job.banks[bank] = unknown(rng, count);
        }
        1 if !job.values.is_empty() => {
            let value = place(rng, &job.values);
            job.values[value].bank = unknown(rng, job.banks.len());
        }
        2 if count < 32 => job.classes[class].mask |= 1 << rng.within((count as u32, 31)),
        3 => job.classes[class].cost = f32::from_bits(rng.pick(&BAD_COSTS)),
        4 => job.scales[rng.below(3) as usize] = f32::from_bits(rng.pick(&BAD_COSTS)),
        5 => job.classes[class].size = rng.pick(&[0, 9, u32::MAX]),
        _ => mixed_sizes(job, rng, class),
    }
}

/// Gives a class of groups a subclass of another size.
fn mixed_sizes(job: &mut Job, rng: &mut Rng, class: usize) {
    job.classes[class].size = rng.within((2, 8));
    let size = job.classes[class].size;
    let mut known = job.classes.iter().take(32);
    let other = known.position(|sub| sub.size != size);
    match other {
        Some(sub) => job.classes[class].mask |= 1 << sub,
        None => job.classes[class].size = 0,
    }
}

fn break_function(job: &mut Job, rng: &mut Rng) {
    let block = place(rng, &job.blocks);
    if job.values.is_empty() {
        job.blocks[block].insts = 0;
        return;
    }
    let value = place(rng, &job.values);
    match rng.below(6) {
        0 => job.blocks[block].insts = 0,
        1 => job.blocks[block].frequency = f32::from_bits(rng.pick(&BAD_COSTS[1..])),
        2 => job.values[value].leader = unknown(rng, job.values.len()),
        3 => {
            job.values.push(Value {
                leader: value as u32,
                ..job.values[value]
            });
            let last = job.values.len() as u32 - 1;
            job.values.push(Value {
                leader: last,
                ..job.values[value]
            });
        }
        4 => {
            let size = rng.pick(&[0, 1, 9, 300]);
            let mut members = vec![0; size];
            if size == 0 && rng.chance(50) {
                members = vec![0, job.values.len() as u32];
            }
            job.vgroups.push(members);
        }
        _ => break_operands(job, rng),
    }
}

fn break_operands(job: &mut Job, rng: &mut Rng) {
    if job.operands.is_empty() {
        add_operand(job);
    }
    let at = place(rng, &job.operands);
    let insts = job.inst_count() as usize;
    let operand = &mut job.operands[at];
    match rng.below(6) {
        0 => operand.inst = unknown(rng, insts),
        1 => operand.slot = rng.pick(&[65_536, u32::MAX]),
        2 => operand.vgroup = unknown(rng, job.vgroups.len()),
        3 => operand.class = unknown(rng, job.classes.len()),
        4 => {
            let members = job.vgroups.get(operand.vgroup as usize);
            let size = members.map_or(0, |members| members.len() as u32);
            let other = job.classes.iter().position(|class| class.size != size);
            operand.class = other.unwrap_or(job.classes.len()) as u32;
        }
        _ => {
            let twin = *operand;
            job.operands.push(twin);
        }
    }
}

/// A group class, a group and an operand of it, all sound.
fn add_operand(job: &mut Job) {
    let class = job.classes.len() as u32;
    if class < 32 {
        job.classes.push(Class {
            mask: 1 << class,
            cost: 1.0,
            size: 2,
            spillslots: false,
        });
    }
    job.vgroups.push(vec![0, 0]);
    let vgroup = job.vgroups.len() as u32 - 1;
    job.operands.push(Operand {
        inst: 0,
        slot: 9,
        vgroup,
        class,
    });
}

fn break_hints(job: &mut Job, rng: &mut Rng) {
    let insts = job.inst_count() as u32;
    let values = job.values.len() as u32;
    let hint = |value: u32, inst: u32, incoming: bool| Hint {
        value,
        inst,
        incoming,
    };
    match rng.below(5) {
        0 => job.hints.push(hint(values, 0, false)),
        1 => job
            .hints
            .push(hint(values.saturating_sub(1), insts + 1, true)),
        2 => job.hints = vec![hint(0, 0, true), hint(0, 0, false)],
        3 => job.hints = vec![hint(0, 1, false), hint(0, 0, true)],
        _ => job.hints = vec![hint(1, 0, false), hint(0, 0, false)],
    }
}

fn break_segs(job: &mut Job, rng: &mut Rng) {
    if job.segs.is_empty() {
        return;
    }
    let last = 4 * job.inst_count() as u32;
    let at = place(rng, &job.segs);
    let count = job.segs.len();
    let seg = &mut job.segs[at];
    match rng.below(9) {
        0 => seg.to = seg.from,
        1 => std::mem::swap(&mut seg.from, &mut seg.to),
        2 => seg.value = unknown(rng, job.values.len()),
        3 => seg.from = seg.from / 4 * 4 + 3,
        4 => seg.to = seg.to / 4 * 4 + 3,
        5 => seg.to = last + rng.pick(&[1, 2, 4]),
        6 => seg.to = u32::MAX - rng.below(2),
        _ if count == 1 => seg.from = seg.to,
        7 => job.segs.swap(at, (at + 1) % count),
        _ => {
            let mut twin = job.segs[at].clone();
            twin.uses = twin.uses.end..twin.uses.end;
            job.segs.insert(at + 1, twin);
        }
    }
}

fn break_uses(job: &mut Job, rng: &mut Rng) {
    if job.segs.is_empty() {
        return;
    }
    let at = place(rng, &job.segs);
    let first = job.segs[at].from / 4;
    let insts = job.inst_count() as u32;
    let plain = |kind: u32, inst: u32, fields: [u32; 4]| Use { kind, inst, fields };
    let classes = job.classes.len();
    let bad = match rng.below(12) {
        0 => plain(BLOCKPARAM_OUT, insts, [0; 4]),
        1 => plain(CLASS_USE, first, [0, unknown(rng, classes), 0, 0]),
        2 => plain(rng.below(2), first, [unknown(rng, job.regs.len()), 0, 0, 0]),
        3 => plain(CLASS_USE, first, [65_536, 0, 0, 0]),
        4 => plain(
            2,
            first,
            rng.pick(&[
                [65_536, 0, 0, 0],
                [0, 65_536, 0, 0],
                [0, 0, classes as u32, 0],
                [0, 0, 0, 256],
            ]),
        ),
        5 => plain(3, first, [0; 4]),
        6 if first > 0 => plain(1 + 7 * rng.below(2), first - 1, [0; 4]),
        7 => plain(CLASS_USE, job.segs[at].to / 4, [0; 4]),
        8 => plain(GROUP_USE, first, [77, 0, 0, 0]),
        9 | 10 => return break_group_use(job, rng),
        _ => return swap_uses(job, at),
    };
    add_use(job, rng, at, bad);
}

/// Puts a use at one end of a segment's list.
fn add_use(job: &mut Job, rng: &mut Rng, at: usize, u: Use) {
    let uses = job.segs[at].uses.clone();
    let place = if rng.chance(50) { uses.start } else { uses.end };
    job.uses.insert(place, u);
    job.segs[at].uses.end += 1;
    for seg in &mut job.segs[at + 1..] {
        seg.uses = seg.uses.start + 1..seg.uses.end + 1;
    }
}

/// A group use with another class, index or slot.
fn break_group_use(job: &mut Job, rng: &mut Rng) {
    let places: Vec<usize> = (0..job.uses.len())
        .filter(|&i| job.uses[i].is_group())
        .collect();
    if places.is_empty() {
        return;
    }
    let u = &mut job.uses[rng.pick(&places)];
    match rng.below(5) {
        0 => u.fields[0] += 1,
        1 => u.fields[1] = (u.fields[1] + 1) % job.classes.len() as u32,
        2 => u.fields[2] = rng.pick(&[8, 255, 256]),
        3 => u.fields[2] += 1,
        _ => u.fields[2] = 0,
    }
}

fn swap_uses(job: &mut Job, at: usize) {
    let uses = job.segs[at].uses.clone();
    if uses.len() > 1 {
        job.uses.swap(uses.start, uses.end - 1);
    }
}

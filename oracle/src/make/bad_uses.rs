//! Jobs that are sound but for one use: every cause of number 7, for every kind of use that can have it.

use super::rng::Rng;
use super::{soup, style};
use crate::entry;
use crate::job::{BLOCKPARAM_OUT, CLASS_DEF, CLASS_USE, GROUP_DEF, GROUP_USE, Job, Operand, Use};

/// Puts one bad use into a segment, if the segment has what it takes.
type Edit = fn(&mut Job, &mut Rng, usize, u32) -> Option<()>;

const ALL: &[u32] = &[0, 1, 2, 4, 5, 6, 7, 8, 9];
const GROUPS: &[u32] = &[GROUP_USE, GROUP_DEF];

/// Each cause, the kinds that can have it, and the edit.
const CAUSES: &[(&str, &[u32], Edit)] = &[
    ("falls in position", ALL, falls),
    ("unknown instruction", &[1, 2, 8], next_inst),
    ("unknown instruction, far", ALL, far_inst),
    ("unknown class", &[2, 4, 5, 6, 7], class),
    ("unknown register", &[0, 1], register),
    ("slot beyond its type", &[2, 4, 5, 6, 7], slot),
    ("definition's slot beyond its type", &[2], def_slot),
    ("index beyond its type", &[2, 6, 7], index),
    ("class beyond its type", &[2, 4, 5, 6, 7], class_beyond),
    ("register beyond its type", &[0, 1], register_beyond),
    ("kind 3", &[3], conflict),
    ("from at the next Boundary", ALL, from_at),
    ("from above the next Boundary", ALL, from_above),
    (
        "end_point above to, a Boundary",
        ALL,
        |job, rng, at, kind| behind_to(job, rng, at, kind, 0),
    ),
    ("end_point above to, an Early", ALL, |job, rng, at, kind| {
        behind_to(job, rng, at, kind, 1)
    }),
    ("end_point above to, a Normal", ALL, |job, rng, at, kind| {
        behind_to(job, rng, at, kind, 2)
    }),
    ("no operand", GROUPS, no_operand),
    ("another class", GROUPS, other_class),
    ("index without a member", GROUPS, no_member),
    ("index of another value, of its set", GROUPS, value_of_set),
    (
        "index of another value, of another set",
        GROUPS,
        value_of_other,
    ),
];

/// The cause and the kind that a seed stands for: as many seeds in a row as there are pairs give each once.
fn case(seed: u64) -> (&'static str, u32, Edit) {
    let pairs = CAUSES
        .iter()
        .flat_map(|&(name, kinds, edit)| kinds.iter().map(move |&kind| (name, kind, edit)));
    let pairs: Vec<_> = pairs.collect();
    pairs[(seed % pairs.len() as u64) as usize]
}

pub fn what(seed: u64) -> String {
    let (name, kind, _) = case(seed);
    format!("7: {name}, kind {kind}")
}

pub fn make(rng: &mut Rng, seed: u64) -> Job {
    let (_, kind, edit) = case(seed);
    loop {
        let mut job = soup::make(rng, &style::of("groups").unwrap());
        if job.segs.is_empty()
            || job.regs.is_empty()
            || !job.classes.iter().any(|class| class.size > 1)
        {
            continue;
        }
        let at = rng.below(job.segs.len() as u32) as usize;
        if edit(&mut job, rng, at, kind).is_some() {
            assert_eq!(entry::refusal(&job), Some(7));
            return job;
        }
    }
}

/// Spoils the last use list of a job that has what the seed's cause takes, or one of the lists before it.
pub fn spoil(mut job: Job, rng: &mut Rng, seed: u64) -> Job {
    let (_, kind, edit) = case(seed);
    let ready = !job.regs.is_empty();
    let done = ready
        && (0..job.segs.len())
            .rev()
            .any(|at| edit(&mut job, rng, at, kind).is_some());
    debug_assert!(!done || entry::refusal(&job) == Some(7));
    job
}

/// Where a use of the kind ends, counted from its instruction's Boundary.
fn end_of(kind: u32) -> u32 {
    match kind {
        0 | CLASS_DEF | GROUP_DEF | BLOCKPARAM_OUT => 4,
        CLASS_USE | GROUP_USE => 2,
        _ => 0,
    }
}

/// The instructions at which the segment may have a use of the kind.
fn insts(job: &Job, at: usize, kind: u32) -> Vec<u32> {
    let seg = &job.segs[at];
    let fits = |&inst: &u32| seg.from < 4 * inst + 4 && 4 * inst + end_of(kind) <= seg.to;
    (0..job.inst_count() as u32).filter(fits).collect()
}

/// A sound use of the kind at an instruction, but for where it stands; a group use comes with an operand of its own.
fn sound(job: &mut Job, rng: &mut Rng, at: usize, kind: u32, inst: u32) -> Use {
    let class = rng.below(job.classes.len() as u32);
    let fields = match kind {
        0 | 1 => [rng.below(job.regs.len() as u32), 0, 0, 0],
        2 => [rng.below(9), rng.below(9), class, rng.below(256)],
        4 | 5 => [rng.below(9), class, 0, 0],
        6 | 7 => group_fields(job, rng, at, inst),
        8 => [rng.below(9), 0, 0, 0],
        _ => [0; 4],
    };
    Use { kind, inst, fields }
}

/// Slot, class and index of a new operand that has the segment's value.
fn group_fields(job: &mut Job, rng: &mut Rng, at: usize, inst: u32) -> [u32; 4] {
    let numbers = 0..job.classes.len() as u32;
    let classes: Vec<u32> = numbers
        .filter(|&class| job.classes[class as usize].size > 1)
        .collect();
    let class = rng.pick(&classes);
    let size = job.classes[class as usize].size;
    let index = rng.below(size);
    let mut members: Vec<u32> = (0..size)
        .map(|_| rng.below(job.values.len() as u32))
        .collect();
    members[index as usize] = job.segs[at].value;
    let vgroup = job.vgroups.len() as u32;
    job.vgroups.push(members);
    let slot = free_slot(job, inst);
    job.operands.push(Operand {
        inst,
        slot,
        vgroup,
        class,
    });
    [slot, class, index, 0]
}

/// The lowest slot that no operand of the instruction has.
fn free_slot(job: &Job, inst: u32) -> u32 {
    let taken = |slot: u32| {
        job.operands
            .iter()
            .any(|op| (op.inst, op.slot) == (inst, slot))
    };
    (0..).find(|&slot| !taken(slot)).unwrap_or(0)
}

/// Puts a use behind those of its segment that come before it.
fn put(job: &mut Job, at: usize, u: Use) {
    let before = job
        .uses_of(&job.segs[at])
        .iter()
        .filter(|other| other.inst <= u.inst)
        .count();
    put_at(job, at, job.segs[at].uses.start + before, u);
}

fn put_at(job: &mut Job, at: usize, place: usize, u: Use) {
    job.uses.insert(place, u);
    job.segs[at].uses.end += 1;
    for seg in &mut job.segs[at + 1..] {
        seg.uses = seg.uses.start + 1..seg.uses.end + 1;
    }
}

/// Puts a sound use of the kind with one of its fields changed.
fn put_changed(
    job: &mut Job,
    rng: &mut Rng,
    at: usize,
    kind: u32,
    field: usize,
    change: impl Fn(&Job, &mut Rng, Use) -> Option<u32>,
) -> Option<()> {
    let insts = insts(job, at, kind);
    if insts.is_empty() {
        return None;
    }
    let inst = rng.pick(&insts);
    let mut u = sound(job, rng, at, kind, inst);
    u.fields[field] = change(job, rng, u)?;
    put(job, at, u);
    Some(())
}

/// A sound use behind one of a later instruction.
fn falls(job: &mut Job, rng: &mut Rng, at: usize, kind: u32) -> Option<()> {
    let end = job.segs[at].uses.end;
    let last = job.uses_of(&job.segs[at]).last()?.inst;
    let insts: Vec<u32> = insts(job, at, kind)
        .into_iter()
        .filter(|&inst| inst < last)
        .collect();
    if insts.is_empty() {
        return None;
    }
    let inst = rng.pick(&insts);
    let u = sound(job, rng, at, kind, inst);
    put_at(job, at, end, u);
    Some(())
}

/// The instruction behind the last, in a segment that ends at its Boundary.
fn next_inst(job: &mut Job, rng: &mut Rng, at: usize, kind: u32) -> Option<()> {
    let inst = job.inst_count() as u32;
    if job.segs[at].to < 4 * inst {
        return None;
    }
    let u = sound(job, rng, at, kind, inst);
    put(job, at, u);
    Some(())
}

/// An instruction far behind; four times some of them is a point of the segment again, modulo 2^32.
fn far_inst(job: &mut Job, rng: &mut Rng, at: usize, kind: u32) -> Option<()> {
    let insts = insts(job, at, kind);
    if insts.is_empty() {
        return None;
    }
    let good = rng.pick(&insts);
    let mut u = sound(job, rng, at, kind, good);
    let count = job.inst_count() as u32;
    u.inst = rng.pick(&[
        count,
        count + 1,
        65_536 + good,
        (1 << 30) + good,
        (3 << 30) + good,
        u32::MAX,
    ]);
    put(job, at, u);
    Some(())
}

/// The field that has the class.
fn class_field(kind: u32) -> usize {
    if kind == 2 { 2 } else { 1 }
}

fn class(job: &mut Job, rng: &mut Rng, at: usize, kind: u32) -> Option<()> {
    put_changed(job, rng, at, kind, class_field(kind), |job, rng, _| {
        let count = job.classes.len() as u32;
        Some(rng.pick(&[count, count, 31, 32, 255]))
    })
}

/// A class whose low eight bits are right.
fn class_beyond(job: &mut Job, rng: &mut Rng, at: usize, kind: u32) -> Option<()> {
    let field = class_field(kind);
    put_changed(job, rng, at, kind, field, |_, rng, u| {
        Some(256 * rng.pick(&[1, 1, 2, 256, 65_536]) + u.fields[field])
    })
}

fn register(job: &mut Job, rng: &mut Rng, at: usize, kind: u32) -> Option<()> {
    put_changed(job, rng, at, kind, 0, |job, rng, u| {
        let count = job.regs.len() as u32;
        Some(rng.pick(&[count, count, 255, 256 + u.fields[0], 65_535]))
    })
}

/// A register whose low sixteen bits are right.
fn register_beyond(job: &mut Job, rng: &mut Rng, at: usize, kind: u32) -> Option<()> {
    put_changed(job, rng, at, kind, 0, |_, rng, u| {
        Some(65_536 * rng.pick(&[1, 1, 2, 65_535]) + u.fields[0])
    })
}

/// A slot whose low sixteen bits are right.
fn slot(job: &mut Job, rng: &mut Rng, at: usize, kind: u32) -> Option<()> {
    put_changed(job, rng, at, kind, 0, |_, rng, u| {
        Some(65_536 * rng.pick(&[1, 1, 2, 65_535]) + u.fields[0])
    })
}

fn def_slot(job: &mut Job, rng: &mut Rng, at: usize, kind: u32) -> Option<()> {
    put_changed(job, rng, at, kind, 1, |_, rng, u| {
        Some(65_536 * rng.pick(&[1, 1, 2, 65_535]) + u.fields[1])
    })
}

/// An index whose low eight bits are right.
fn index(job: &mut Job, rng: &mut Rng, at: usize, kind: u32) -> Option<()> {
    let field = if kind == 2 { 3 } else { 2 };
    put_changed(job, rng, at, kind, field, |_, rng, u| {
        Some(256 * rng.pick(&[1, 1, 2, 256, 65_536]) + u.fields[field])
    })
}

/// A use of the kind that only a result has.
fn conflict(job: &mut Job, rng: &mut Rng, at: usize, kind: u32) -> Option<()> {
    let insts = insts(job, at, kind);
    if insts.is_empty() {
        return None;
    }
    let inst = rng.pick(&insts);
    put(
        job,
        at,
        Use {
            kind,
            inst,
            fields: [0; 4],
        },
    );
    Some(())
}

/// A use whose next Boundary is `from`.
fn from_at(job: &mut Job, rng: &mut Rng, at: usize, kind: u32) -> Option<()> {
    let from = job.segs[at].from;
    if from == 0 || from % 4 != 0 {
        return None;
    }
    let u = sound(job, rng, at, kind, from / 4 - 1);
    put(job, at, u);
    Some(())
}

/// A use whose next Boundary is before `from`.
fn from_above(job: &mut Job, rng: &mut Rng, at: usize, kind: u32) -> Option<()> {
    let insts = job.segs[at].from.saturating_sub(1) / 4;
    if insts == 0 {
        return None;
    }
    let any = rng.below(insts);
    let inst = rng.pick(&[insts - 1, any]);
    let u = sound(job, rng, at, kind, inst);
    put(job, at, u);
    Some(())
}

/// A use of the first instruction at which it ends above `to`, where `to` has this slot.
fn behind_to(job: &mut Job, rng: &mut Rng, at: usize, kind: u32, slot: u32) -> Option<()> {
    let seg = &job.segs[at];
    let ends_above = |&inst: &u32| seg.from < 4 * inst + 4 && 4 * inst + end_of(kind) > seg.to;
    let first = (0..job.inst_count() as u32).find(ends_above);
    let inst = first.filter(|_| seg.to % 4 == slot)?;
    let u = sound(job, rng, at, kind, inst);
    put(job, at, u);
    Some(())
}

/// A slot that no operand has at this instruction, though one has it elsewhere where that can be.
fn no_operand(job: &mut Job, rng: &mut Rng, at: usize, kind: u32) -> Option<()> {
    put_changed(job, rng, at, kind, 0, |job, rng, u| {
        let others = job
            .operands
            .iter()
            .filter(|op| op.inst != u.inst)
            .map(|op| op.slot);
        let here = |slot: u32| {
            job.operands
                .iter()
                .any(|op| (op.inst, op.slot) == (u.inst, slot))
        };
        let mut slots: Vec<u32> = others.filter(|&slot| !here(slot)).collect();
        slots.push(free_slot(job, u.inst));
        Some(rng.pick(&slots))
    })
}

fn other_class(job: &mut Job, rng: &mut Rng, at: usize, kind: u32) -> Option<()> {
    put_changed(job, rng, at, kind, 1, |job, rng, u| {
        let class = rng.below(job.classes.len() as u32);
        (class != u.fields[1]).then_some(class)
    })
}

fn no_member(job: &mut Job, rng: &mut Rng, at: usize, kind: u32) -> Option<()> {
    put_changed(job, rng, at, kind, 2, |job, rng, _| {
        let size = job.vgroups.last()?.len() as u32;
        Some(rng.pick(&[size, size, size.max(7), 8, 255]))
    })
}

fn value_of_set(job: &mut Job, rng: &mut Rng, at: usize, kind: u32) -> Option<()> {
    other_value(job, rng, at, kind, true)
}

fn value_of_other(job: &mut Job, rng: &mut Rng, at: usize, kind: u32) -> Option<()> {
    other_value(job, rng, at, kind, false)
}

/// The index of another value, of the same set or of another.
fn other_value(job: &mut Job, rng: &mut Rng, at: usize, kind: u32, same_set: bool) -> Option<()> {
    let value = job.segs[at].value;
    put_changed(job, rng, at, kind, 2, |job, rng, _| {
        let leader = |value: u32| job.values[value as usize].leader;
        let wanted = |member: u32| member != value && (leader(member) == leader(value)) == same_set;
        let members = job.vgroups.last()?;
        let places: Vec<usize> = (0..members.len())
            .filter(|&place| wanted(members[place]))
            .collect();
        (!places.is_empty()).then(|| rng.pick(&places) as u32)
    })
}

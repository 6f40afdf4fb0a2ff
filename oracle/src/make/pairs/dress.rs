//! What a sound job gets more, so that more of its records can be changed and the job stay sound.

use super::edits::{Parts, parts, whole};
use super::near;
use crate::entry;
use crate::job::{BLOCKPARAM_IN, BLOCKPARAM_OUT, Class, Hint, Job, Operand, Use, Value};
use crate::make::rng::Rng;

const TIED_USE: u32 = 2;

type Dress = fn(&mut Rng, &mut Job);

/// Each with how often of a hundred times it is put on.
const DRESSES: [(u32, Dress); 9] = [
    (6, classes),
    (20, regs),
    (25, value),
    (35, vgroup),
    (25, operand),
    (30, hints),
    (40, split),
    (50, ends),
    (25, costs),
];

/// A dress that the job is not sound with is left off.
pub fn dressed(rng: &mut Rng, mut job: Job) -> Job {
    for (percent, dress) in DRESSES {
        if rng.chance(percent) {
            let mut with = job.clone();
            dress(rng, &mut with);
            if entry::refusal(&with).is_none() {
                job = with;
            }
        }
    }
    job
}

/// So many classes that the highest bit of a mask is one of them.
fn classes(_: &mut Rng, job: &mut Job) {
    let last = Class {
        mask: 0,
        cost: 1.0,
        size: 1,
        spillslots: false,
    };
    job.classes.resize(32, last);
}

fn regs(rng: &mut Rng, job: &mut Job) {
    let most = rng.pick(&[2, 9, 10, 11]);
    for _ in job.regs.len()..most {
        job.regs.push(rng.chance(50));
    }
}

/// A value that nothing speaks of.
fn value(rng: &mut Rng, job: &mut Job) {
    let leader = job.values.len() as u32;
    job.values.push(Value {
        bank: near::below(rng, job.banks.len()),
        leader,
        remat: rng.below(4),
    });
}

/// Groups that no operand has; one may begin as the one before it.
fn vgroup(rng: &mut Rng, job: &mut Job) {
    let count = job.values.len();
    let members = (0..rng.within((2, 5))).map(|_| near::below(rng, count));
    let members: Vec<u32> = members.collect();
    if rng.chance(30) {
        job.vgroups.push(members.clone());
    }
    job.vgroups.push(members);
}

/// An operand that no use has.
fn operand(rng: &mut Rng, job: &mut Job) {
    if job.vgroups.is_empty() {
        vgroup(rng, job);
    }
    let vgroup = near::below(rng, job.vgroups.len());
    let size = job.vgroups[vgroup as usize].len() as u32;
    if !job.classes.iter().any(|class| class.size == size) {
        job.classes.push(Class {
            mask: 0,
            cost: 0.5,
            size,
            spillslots: true,
        });
    }
    let class = job.classes.iter().position(|class| class.size == size);
    job.operands.push(Operand {
        inst: near::below(rng, job.inst_count() as usize),
        slot: rng.pick(&[9, 10, 99, 65_535]),
        vgroup,
        class: class.unwrap_or_default() as u32,
    });
}

fn hints(rng: &mut Rng, job: &mut Job) {
    for _ in 0..rng.within((1, 3)) {
        job.hints.push(Hint {
            value: near::below(rng, job.values.len()),
            inst: near::below(rng, job.inst_count() as usize + 1),
            incoming: rng.chance(50),
        });
    }
    job.hints
        .sort_by_key(|hint| (hint.value, hint.inst, hint.incoming));
}

/// A segment parted at an instruction, with a use there that may stand in either part.
fn split(rng: &mut Rng, job: &mut Job) {
    let mut parts = parts(job);
    part(rng, &mut parts);
    whole(job, parts);
}

fn part(rng: &mut Rng, parts: &mut Parts) -> Option<()> {
    let at = near::place(rng, parts.len())?;
    let (mut first, uses) = parts[at].clone();
    let inside: Vec<u32> = (first.from / 4 + 1..first.to.div_ceil(4)).collect();
    let cut = inside[near::place(rng, inside.len())?];
    let mut second = first.clone();
    (first.to, second.from) = (4 * cut, 4 * cut);
    let (mut before, behind): (Vec<Use>, Vec<Use>) = uses.into_iter().partition(|u| u.inst < cut);
    before.push(param(rng, BLOCKPARAM_IN, cut));
    parts[at] = (first, before);
    parts.insert(at + 1, (second, behind));
    Some(())
}

/// A use near the end of a segment.
fn ends(rng: &mut Rng, job: &mut Job) {
    let classes = job.classes.len();
    let mut parts = parts(job);
    if let Some(at) = near::place(rng, parts.len()) {
        let (seg, uses) = &mut parts[at];
        let last = seg.to / 4;
        if last > 0 && seg.from < 4 * last {
            uses.push(match rng.below(3) {
                0 => tied(rng, classes, last - 1),
                1 => param(rng, BLOCKPARAM_OUT, last - 1),
                _ => param(rng, BLOCKPARAM_IN, last - 1),
            });
            uses.sort_by_key(|u| u.inst);
        }
    }
    whole(job, parts);
}

fn tied(rng: &mut Rng, classes: usize, inst: u32) -> Use {
    let slots = [0, 9, 10, 99, 65_535];
    let index = rng.pick(&[0, 9, 10, 99, 255]);
    Use {
        kind: TIED_USE,
        inst,
        fields: [
            rng.pick(&slots),
            rng.pick(&slots),
            near::below(rng, classes),
            index,
        ],
    }
}

fn param(rng: &mut Rng, kind: u32, inst: u32) -> Use {
    let parameter = rng.pick(&[0, 9, 10, 65_535, 65_536, 1 << 31, u32::MAX]);
    let field = if kind == BLOCKPARAM_IN { parameter } else { 0 };
    Use {
        kind,
        inst,
        fields: [field, 0, 0, 0],
    }
}

/// Floats with many digits, of which one can be changed.
fn costs(rng: &mut Rng, job: &mut Job) {
    for block in &mut job.blocks {
        block.frequency = f32::from_bits(rng.below(0x7f80_0000));
    }
    for class in &mut job.classes {
        class.cost = f32::from_bits(rng.below(0x4980_0001));
    }
}

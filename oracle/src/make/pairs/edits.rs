//! One edit of a job: a field of a record, a record more or less, two records exchanged.

use super::near;
use crate::job::{Block, Class, Hint, Job, Operand, Seg, USE_FIELDS, Use, Value};
use crate::make::rng::Rng;

/// Each segment with its uses.
pub type Parts = Vec<(Seg, Vec<Use>)>;

pub fn parts(job: &Job) -> Parts {
    let each = job.segs.iter();
    each.map(|seg| (seg.clone(), job.uses_of(seg).to_vec()))
        .collect()
}

pub fn whole(job: &mut Job, parts: Parts) {
    (job.segs, job.uses) = (Vec::new(), Vec::new());
    for (mut seg, uses) in parts {
        let start = job.uses.len();
        job.uses.extend(uses);
        seg.uses = start..job.uses.len();
        job.segs.push(seg);
    }
}

type Edit = fn(&mut Rng, &mut Job) -> Option<()>;

/// Each with how often it comes: what comes late in a sheet, and has many fields, the most.
const EDITS: [(u32, Edit); 11] = [
    (3, opt),
    (2, banks),
    (5, classes),
    (2, regs),
    (5, blocks),
    (5, values),
    (6, vgroups),
    (6, operands),
    (4, hints),
    (10, segs),
    (16, uses),
];

/// The job after one edit, whether sound or not.
pub fn edited(rng: &mut Rng, job: &Job) -> Job {
    let weights = EDITS.map(|(weight, _)| weight);
    loop {
        let mut other = job.clone();
        if EDITS[rng.weighted(&weights)].1(rng, &mut other).is_some() {
            return other;
        }
    }
}

/// A record more, one less, or two exchanged; or else the record to change.
fn table<'a, T: Clone>(
    rng: &mut Rng,
    table: &'a mut Vec<T>,
    new: impl FnOnce(&mut Rng) -> T,
) -> Option<Option<&'a mut T>> {
    let place = near::place(rng, table.len());
    match (rng.below(10), place) {
        (0, _) => table.push(new(rng)),
        (1, Some(at)) => table.insert(at, table[at].clone()),
        (2, Some(at)) => drop(table.remove(at)),
        (3, Some(at)) => {
            let next = (at + 1) % table.len();
            table.swap(at, next);
        }
        (_, Some(at)) => return Some(Some(&mut table[at])),
        (_, None) => return None,
    }
    Some(None)
}

fn opt(rng: &mut Rng, job: &mut Job) -> Option<()> {
    match rng.below(4) {
        0 => job.adjust = near::number(rng, job.adjust),
        place => {
            let scale = &mut job.scales[place as usize - 1];
            *scale = near::float(rng, *scale);
        }
    }
    Some(())
}

fn banks(rng: &mut Rng, job: &mut Job) -> Option<()> {
    let classes = job.classes.len();
    let bank = table(rng, &mut job.banks, |rng| near::below(rng, classes))?;
    if let Some(top) = bank {
        *top = match rng.chance(50) {
            true => near::below(rng, classes),
            false => near::number(rng, *top),
        };
    }
    Some(())
}

fn classes(rng: &mut Rng, job: &mut Job) -> Option<()> {
    let count = job.classes.len();
    let new = |rng: &mut Rng| Class {
        mask: rng.below(4),
        cost: near::float(rng, 1.0),
        size: rng.within((1, 3)),
        spillslots: rng.chance(50),
    };
    let Some(class) = table(rng, &mut job.classes, new)? else {
        return Some(());
    };
    match rng.below(5) {
        // the highest bit that it may have, or any of them
        0 => class.mask ^= 1 << (count - 1).min(31),
        1 => class.mask ^= 1 << near::below(rng, count.min(32)),
        2 => class.cost = near::float(rng, class.cost),
        3 => class.size = rng.within((1, 9)),
        _ => class.spillslots = !class.spillslots,
    }
    Some(())
}

fn regs(rng: &mut Rng, job: &mut Job) -> Option<()> {
    if let Some(memory) = table(rng, &mut job.regs, |rng| rng.chance(50))? {
        *memory = !*memory;
    }
    Some(())
}

fn blocks(rng: &mut Rng, job: &mut Job) -> Option<()> {
    let new = |rng: &mut Rng| Block {
        insts: rng.pick(&[1, 9, 10]),
        frequency: near::float(rng, 1.0),
    };
    let Some(block) = table(rng, &mut job.blocks, new)? else {
        return Some(());
    };
    match rng.below(3) {
        0 => block.insts = near::number(rng, block.insts),
        _ => block.frequency = near::float(rng, block.frequency),
    }
    Some(())
}

fn values(rng: &mut Rng, job: &mut Job) -> Option<()> {
    let (count, banks) = (job.values.len(), job.banks.len());
    let new = |rng: &mut Rng| Value {
        bank: near::below(rng, banks),
        leader: count as u32,
        remat: rng.below(4),
    };
    let Some(value) = table(rng, &mut job.values, new)? else {
        return Some(());
    };
    match rng.below(4) {
        0 => value.bank = near::below(rng, banks),
        1 => value.leader = near::below(rng, count),
        _ => value.remat = rng.below(4),
    }
    Some(())
}

fn vgroups(rng: &mut Rng, job: &mut Job) -> Option<()> {
    let count = job.values.len();
    let new = |rng: &mut Rng| {
        let members = (0..rng.within((2, 5))).map(|_| near::below(rng, count));
        members.collect()
    };
    let Some(members) = table(rng, &mut job.vgroups, new)? else {
        return Some(());
    };
    let at = near::place(rng, members.len());
    match (rng.below(4), at) {
        (0 | 1, _) => members.push(near::below(rng, count)),
        (2, _) => drop(members.pop()?),
        (_, at) => members[at?] = near::below(rng, count),
    }
    Some(())
}

fn operands(rng: &mut Rng, job: &mut Job) -> Option<()> {
    let groups = job.vgroups.len();
    let counts = [job.inst_count() as usize, job.classes.len()];
    let new = |rng: &mut Rng| Operand {
        inst: near::below(rng, counts[0]),
        slot: rng.pick(&[9, 10, 11, 99, 100]),
        vgroup: near::below(rng, groups),
        class: near::below(rng, counts[1]),
    };
    let Some(operand) = table(rng, &mut job.operands, new)? else {
        return Some(());
    };
    match rng.below(4) {
        0 => operand.inst = near::number(rng, operand.inst),
        1 => operand.slot = near::number(rng, operand.slot),
        2 => operand.vgroup = near::below(rng, groups),
        _ => operand.class = near::below(rng, counts[1]),
    }
    Some(())
}

fn hints(rng: &mut Rng, job: &mut Job) -> Option<()> {
    let counts = [job.values.len(), job.inst_count() as usize + 1];
    let new = |rng: &mut Rng| Hint {
        value: near::below(rng, counts[0]),
        inst: near::below(rng, counts[1]),
        incoming: rng.chance(50),
    };
    if let Some(hint) = table(rng, &mut job.hints, new)? {
        match rng.below(3) {
            0 => hint.value = near::number(rng, hint.value),
            1 => hint.inst = near::number(rng, hint.inst),
            _ => hint.incoming = !hint.incoming,
        }
    }
    if rng.chance(80) {
        job.hints
            .sort_by_key(|hint| (hint.value, hint.inst, hint.incoming));
    }
    Some(())
}

fn segs(rng: &mut Rng, job: &mut Job) -> Option<()> {
    let last = (job.inst_count() as u32).wrapping_mul(4);
    let mut parts = parts(job);
    let at = near::place(rng, parts.len());
    match (rng.below(12), at) {
        (0, _) => parts.push((added(rng, job, last)?, Vec::new())),
        (1, Some(at)) => drop(parts.remove(at)),
        // without its uses, or all of them to the one before
        (2, Some(at)) if at > 0 => {
            let (_, uses) = parts.remove(at);
            parts[at - 1].1.extend(uses);
        }
        // a use over the seg line between two segments, down or up
        (3 | 4, Some(at)) => {
            let next = (at + 1 < parts.len()).then_some(at + 1)?;
            let moved = parts[at].1.pop()?;
            parts[next].1.insert(0, moved);
        }
        (5, Some(at)) => {
            let before = at.checked_sub(1)?;
            let uses = &mut parts[at].1;
            let moved = (!uses.is_empty()).then(|| uses.remove(0))?;
            parts[before].1.push(moved);
        }
        (6 | 7, Some(at)) => {
            let seg = &mut parts[at].0;
            seg.to = near::number(rng, seg.to);
        }
        (8, Some(at)) => {
            let seg = &mut parts[at].0;
            seg.from = near::number(rng, seg.from);
        }
        (9, Some(at)) => parts[at].0.value = near::below(rng, job.values.len()),
        (_, Some(at)) => {
            let seg = &mut parts[at].0;
            seg.flags = near::number(rng, seg.flags) % 16;
        }
        (_, None) => return None,
    }
    whole(job, parts);
    Some(())
}

/// Behind the last segment in its set, or one of a value that has none.
fn added(rng: &mut Rng, job: &Job, most: u32) -> Option<Seg> {
    let last = job.segs.last();
    let (value, from) = match last {
        Some(last) if rng.chance(60) => (last.value, last.to),
        _ => ((job.values.len() as u32).checked_sub(1)?, 0),
    };
    Some(Seg {
        value,
        from,
        to: match rng.below(4) {
            0 => most,
            more => from.wrapping_add(more),
        },
        flags: rng.below(16),
        uses: 0..0,
    })
}

fn uses(rng: &mut Rng, job: &mut Job) -> Option<()> {
    let counts = [job.classes.len(), job.regs.len()];
    let mut parts = parts(job);
    let at = near::place(rng, parts.len())?;
    let (seg, uses) = &mut parts[at];
    let inst = rng.within((seg.from / 4, (seg.to / 4).max(seg.from / 4)));
    let drawn = |rng: &mut Rng| drawn(rng, inst, counts);
    if let Some(u) = table(rng, uses, drawn)? {
        let fields = &mut u.fields[..USE_FIELDS[u.kind as usize]];
        match (rng.below(6), near::place(rng, fields.len())) {
            (0, _) => u.inst = near::number(rng, u.inst),
            (1, _) => u.kind ^= 1,
            (2, _) => *u = drawn(rng),
            (_, Some(at)) => fields[at] = near::number(rng, fields[at]),
            (_, None) => u.kind = rng.below(10),
        }
    }
    if rng.chance(60) {
        uses.sort_by_key(|u| u.inst);
    }
    whole(job, parts);
    Some(())
}

/// A use of any kind but those of groups, which need an operand.
fn drawn(rng: &mut Rng, inst: u32, [classes, regs]: [usize; 2]) -> Use {
    let kind = rng.pick(&[0, 1, 2, 4, 5, 8, 9]);
    let (slot, class) = (rng.pick(&[0, 9, 10, 65_535]), near::below(rng, classes));
    let fields = match kind {
        0 | 1 => [near::below(rng, regs), 0, 0, 0],
        2 => [slot, rng.below(11), class, rng.pick(&[0, 9, 10, 255])],
        4 | 5 => [slot, class, 0, 0],
        8 => [slot, 0, 0, 0],
        _ => [0; 4],
    };
    Use { kind, inst, fields }
}

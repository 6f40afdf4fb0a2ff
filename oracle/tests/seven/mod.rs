//! Row 7 of the entry rules, read once more: every cause at every use, each looked at by itself.

use std::collections::BTreeSet;

use oracle::job::{Job, Seg, Use};

pub type Causes = BTreeSet<&'static str>;

/// An `end_point` above `to`, by the slot of `to`.
const END_ABOVE: [&str; 3] = [
    "end_point above to, a Boundary",
    "end_point above to, an Early",
    "end_point above to, a Normal",
];

/// Each cause with the kinds of use that can have it.
pub const CAUSES: [(&str, &[u32]); 20] = [
    ("falls in position", &[0, 1, 2, 4, 5, 6, 7, 8, 9]),
    ("unknown instruction", &[0, 1, 2, 4, 5, 6, 7, 8, 9]),
    ("unknown class", &[2, 4, 5, 6, 7]),
    ("unknown register", &[0, 1]),
    ("slot beyond its type", &[2, 4, 5, 6, 7]),
    ("definition's slot beyond its type", &[2]),
    ("index beyond its type", &[2, 6, 7]),
    ("class beyond its type", &[2, 4, 5, 6, 7]),
    ("register beyond its type", &[0, 1]),
    ("kind 3", &[3]),
    ("from at the next Boundary", &[0, 1, 2, 4, 5, 6, 7, 8, 9]),
    ("from above the next Boundary", &[0, 1, 2, 4, 5, 6, 7, 8, 9]),
    (END_ABOVE[0], &[0, 1, 2, 4, 5, 6, 7, 8, 9]),
    (END_ABOVE[1], &[0, 1, 2, 4, 5, 6, 7, 8, 9]),
    (END_ABOVE[2], &[0, 1, 2, 4, 5, 6, 7, 8, 9]),
    ("no operand", &[6, 7]),
    ("another class", &[6, 7]),
    ("index without a member", &[6, 7]),
    ("index of another value, of its set", &[6, 7]),
    ("index of another value, of another set", &[6, 7]),
];

/// A cause that brings others with it, since no job has the one without them; an unknown instruction brings an
/// `end_point` above `to` for most kinds.
const BRINGS: [(&str, &[&str]); 7] = [
    ("unknown instruction", &["no operand"]),
    ("unknown instruction", &END_ABOVE),
    ("unknown class", &["another class"]),
    ("class beyond its type", &["unknown class", "another class"]),
    ("register beyond its type", &["unknown register"]),
    ("slot beyond its type", &["no operand"]),
    ("index beyond its type", &["index without a member"]),
];

/// The one cause for which a job falls to number 7, with the kind of the one use that has it; none if there are more.
pub fn only_cause(job: &Job) -> Option<(&'static str, u32)> {
    let faults = job.segs.iter().flat_map(|seg| faults_of(job, seg));
    let [(kind, causes)] = &faults.collect::<Vec<_>>()[..] else {
        return None;
    };
    let brought = |&cause: &&str| {
        BRINGS
            .iter()
            .any(|(first, others)| causes.contains(first) && others.contains(&cause))
    };
    let own: Vec<&str> = causes
        .iter()
        .copied()
        .filter(|cause| !brought(cause))
        .collect();
    match own[..] {
        [cause] => Some((cause, *kind)),
        _ => None,
    }
}

/// The uses of a segment that have a fault, by kind, with all their causes.
fn faults_of(job: &Job, seg: &Seg) -> Vec<(u32, Causes)> {
    let mut faults = Vec::new();
    let mut before = 0;
    for u in job.uses_of(seg) {
        let mut causes = unknown(job, u);
        causes.extend(beyond(u));
        causes.extend(position(job, seg, u));
        causes.extend(group(job, seg, u));
        if u.inst < before {
            causes.insert("falls in position");
        }
        before = u.inst;
        if !causes.is_empty() {
            faults.push((u.kind, causes));
        }
    }
    faults
}

fn seen<const N: usize>(causes: [(bool, &'static str); N]) -> Causes {
    causes
        .into_iter()
        .filter(|(is, _)| *is)
        .map(|(_, cause)| cause)
        .collect()
}

/// The class and the index of a use, of the kinds that have them.
fn class_and_index(u: &Use) -> (Option<u32>, Option<u32>) {
    let [_, b, c, d] = u.fields;
    match u.kind {
        2 => (Some(c), Some(d)),
        4 | 5 => (Some(b), None),
        6 | 7 => (Some(b), Some(c)),
        _ => (None, None),
    }
}

/// Classes and registers that the job does not have, and the kind that only a result has.
fn unknown(job: &Job, u: &Use) -> Causes {
    let (class, _) = class_and_index(u);
    let no_class = class.is_some_and(|class| class as usize >= job.classes.len());
    let no_register = u.kind < 2 && u.fields[0] as usize >= job.regs.len();
    seen([
        (no_class, "unknown class"),
        (no_register, "unknown register"),
        (u.kind == 3, "kind 3"),
    ])
}

/// Fields above their types: registers and slots have sixteen bits, classes and indices eight.
fn beyond(u: &Use) -> Causes {
    let [a, b, ..] = u.fields;
    let (class, index) = class_and_index(u);
    let above_byte = |field: Option<u32>| field.is_some_and(|field| field >= 256);
    let two_slots = u.kind == 2;
    seen([
        (above_byte(class), "class beyond its type"),
        (above_byte(index), "index beyond its type"),
        (u.kind < 2 && a >= 65_536, "register beyond its type"),
        (class.is_some() && a >= 65_536, "slot beyond its type"),
        (
            two_slots && b >= 65_536,
            "definition's slot beyond its type",
        ),
    ])
}

fn position(job: &Job, seg: &Seg, u: &Use) -> Causes {
    let boundary = 4 * u64::from(u.inst);
    let end_point = match u.kind {
        0 | 5 | 7 | 9 => boundary + 4,
        4 | 6 => boundary + 2,
        _ => boundary,
    };
    let (from, to) = (u64::from(seg.from), u64::from(seg.to));
    let above = END_ABOVE[seg.to as usize % 4];
    seen([
        (u64::from(u.inst) >= job.inst_count(), "unknown instruction"),
        (from == boundary + 4, "from at the next Boundary"),
        (from > boundary + 4, "from above the next Boundary"),
        (end_point > to, above),
    ])
}

fn group(job: &Job, seg: &Seg, u: &Use) -> Causes {
    let [slot, class, index, _] = u.fields;
    if !matches!(u.kind, 6 | 7) {
        return Causes::new();
    }
    let Some(operand) = job
        .operands
        .iter()
        .find(|op| op.inst == u.inst && op.slot == slot)
    else {
        return seen([(true, "no operand")]);
    };
    let member = job.vgroups[operand.vgroup as usize].get(index as usize);
    let leader = |value: u32| job.values[value as usize].leader;
    let other = member.filter(|&&member| member != seg.value);
    let of_set = |&member: &u32| leader(member) == leader(seg.value);
    let in_set = other.is_some_and(of_set);
    let far = other.is_some_and(|member| !of_set(member));
    seen([
        (operand.class != class, "another class"),
        (member.is_none(), "index without a member"),
        (in_set, "index of another value, of its set"),
        (far, "index of another value, of another set"),
    ])
}

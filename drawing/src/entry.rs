//! Entry rules 2 to 7, and 10 behind them, tried again to find the first line that breaks the first of them. Each takes
//! those before it as passed.

use std::collections::HashMap;

use crate::forms::{Fault, fault};
use crate::job::{Class, Job, Operand, Seg, Use};

const MOST_COST: f32 = 1_048_576.0;

/// The first line of the first of the numbers 2 to 7 and 10 that the job falls to.
pub fn first_fault(job: &Job) -> Option<Fault> {
    let rules: [fn(&Job) -> Option<Fault>; 7] = [limits, book, function, hints, segments, uses, written];
    rules.iter().find_map(|rule| rule(job))
}

fn limits(job: &Job) -> Option<Fault> {
    let counts = [
        over("bank", 8, job.banks.iter().map(|row| row.line)),
        over("class", 32, job.classes.iter().map(|row| row.line)),
        over("reg", 256, job.regs.iter().map(|row| row.line)),
        over("block", 512, job.blocks.iter().map(|row| row.line)),
        too_many_insts(job),
        over("value", 1024, job.values.iter().map(|row| row.line)),
        over("vgroup", 256, job.vgroups.iter().map(|row| row.line)),
        over("operand", 1024, job.operands.iter().map(|row| row.line)),
        over("hint", 1024, job.hints.iter().map(|row| row.line)),
        over("seg", 1024, job.segs.iter().map(|row| row.line)),
        over("use", 4096, job.segs.iter().flat_map(|seg| seg.uses.iter().map(|row| row.line))),
    ];
    let adjust = job.opt.adjust;
    let k = (adjust > 65_535).then(|| fault(job.opt.line, 2, format!("k is {adjust}, above 65535")));
    k.into_iter().chain(counts.into_iter().flatten()).min_by_key(|fault| fault.line)
}

fn over(record: &str, most: usize, mut lines: impl Iterator<Item = usize>) -> Option<Fault> {
    let line = lines.nth(most)?;
    Some(fault(line, 2, format!("one {record} line more than the {most} there may be")))
}

fn too_many_insts(job: &Job) -> Option<Fault> {
    let mut sum = 0;
    let line = job.blocks.iter().find(|block| {
        sum += u64::from(block.insts);
        sum > 4096
    })?;
    Some(fault(line.line, 2, format!("with this block there are {sum} instructions, above 4096")))
}

fn book(job: &Job) -> Option<Fault> {
    let scale = job.opt.scales.iter().any(|&scale| !is_cost(scale));
    let scales = scale.then(|| fault(job.opt.line, 3, "a scale that is not 0 to 2^20"));
    let known = job.classes.len();
    let banks = || (job.banks.iter()).find(|bank| bank.top as usize >= known);
    let bank = || banks().map(|bank| fault(bank.line, 3, format!("there is no class {}", bank.top)));
    let classes = || job.classes.iter().find_map(|class| class_fault(job, class));
    let value = || job.values.iter().find(|value| value.bank as usize >= job.banks.len());
    let values = || value().map(|value| fault(value.line, 3, format!("there is no bank {}", value.bank)));
    scales.or_else(bank).or_else(classes).or_else(values)
}

fn class_fault(job: &Job, class: &Class) -> Option<Fault> {
    let members = (0..32).filter(|bit| class.mask >> bit & 1 == 1);
    let unknown = members.clone().find(|&bit| bit >= job.classes.len());
    let size_of = |&bit: &usize| job.classes.get(bit).map(|sub| sub.size);
    let other = members.clone().find(|bit| size_of(bit).is_some_and(|size| size != class.size));
    let why = if !is_cost(class.cost) {
        "its cost is not 0 to 2^20".into()
    } else if !(1..=8).contains(&class.size) {
        format!("its group size is {}, not 1 to 8", class.size)
    } else if let Some(bit) = unknown {
        format!("its mask has bit {bit}, and there is no class {bit}")
    } else if let Some(bit) = other.filter(|_| class.size > 1) {
        format!("its group size is {}, and its subclass {bit} has another", class.size)
    } else {
        return None;
    };
    Some(fault(class.line, 3, why))
}

/// Finite and not negative, minus zero included.
fn is_plain(float: f32) -> bool {
    float.is_finite() && float.is_sign_positive()
}

fn is_cost(float: f32) -> bool {
    is_plain(float) && float <= MOST_COST
}

fn function(job: &Job) -> Option<Fault> {
    blocks(job).or_else(|| leaders(job)).or_else(|| vgroups(job)).or_else(|| operands(job))
}

fn blocks(job: &Job) -> Option<Fault> {
    job.blocks.iter().find_map(|block| match block.insts {
        0 => Some(fault(block.line, 4, "the block is empty")),
        _ if !is_plain(block.frequency) => Some(fault(block.line, 4, "a bad frequency: negative or not finite")),
        _ => None,
    })
}

fn leaders(job: &Job) -> Option<Fault> {
    job.values.iter().find_map(|value| match job.set(value.leader) {
        None => Some(fault(value.line, 4, format!("its leader {} is no value", value.leader))),
        Some(set) if set != value.leader => {
            Some(fault(value.line, 4, format!("its leader {} does not lead itself", value.leader)))
        }
        _ => None,
    })
}

fn vgroups(job: &Job) -> Option<Fault> {
    job.vgroups.iter().find_map(|vgroup| {
        let many = vgroup.members.len();
        let unknown = vgroup.members.iter().find(|&&value| value as usize >= job.values.len());
        match unknown {
            _ if !(2..=8).contains(&many) => Some(fault(vgroup.line, 4, format!("{many} members, not 2 to 8"))),
            Some(value) => Some(fault(vgroup.line, 4, format!("there is no value {value}"))),
            None => None,
        }
    })
}

fn operands(job: &Job) -> Option<Fault> {
    let mut places = HashMap::new();
    job.operands.iter().find_map(|operand| {
        let before = places.insert((operand.inst, operand.slot), operand.line);
        let twice = before.map(|line| format!("line {line} has the operand of this instruction and slot"));
        let why = operand_range(job, operand).or(twice)?;
        Some(fault(operand.line, 4, why))
    })
}

fn operand_range(job: &Job, operand: &Operand) -> Option<String> {
    let Operand { inst, slot, vgroup, class, .. } = *operand;
    if u64::from(inst) >= job.insts() {
        return Some(format!("there is no instruction {inst}"));
    }
    if slot > 65_535 {
        return Some(format!("slot {slot} is above 65535"));
    }
    let Some(members) = job.vgroups.get(vgroup as usize).map(|vgroup| vgroup.members.len()) else {
        return Some(format!("there is no vgroup {vgroup}"));
    };
    let Some(size) = job.classes.get(class as usize).map(|class| class.size) else {
        return Some(format!("there is no class {class}"));
    };
    (members != size as usize)
        .then(|| format!("class {class} has group size {size}, vgroup {vgroup} has {members} members"))
}

fn hints(job: &Job) -> Option<Fault> {
    let mut last = (0, 0, false);
    job.hints.iter().find_map(|hint| {
        let key = (hint.value, hint.inst, hint.incoming);
        let falls = key < last;
        last = key;
        let why = if hint.value as usize >= job.values.len() {
            format!("there is no value {}", hint.value)
        } else if u64::from(hint.inst) > job.insts() {
            format!("instruction {} is above the count, {}", hint.inst, job.insts())
        } else if falls {
            "its value, instruction and direction fall behind those of the line before".into()
        } else {
            return None;
        };
        Some(fault(hint.line, 5, why))
    })
}

fn segments(job: &Job) -> Option<Fault> {
    let mut before: Option<&Seg> = None;
    job.segs.iter().find_map(|seg| {
        let why = alone(job, seg).or_else(|| behind(job, before?, seg));
        before = Some(seg);
        why.map(|why| fault(seg.line, 6, why))
    })
}

fn alone(job: &Job, seg: &Seg) -> Option<String> {
    let Seg { value, from, to, .. } = *seg;
    let last = 4 * job.insts();
    if value as usize >= job.values.len() {
        Some(format!("there is no value {value}"))
    } else if from >= to {
        Some(format!("the segment [{from}, {to}) is empty"))
    } else if from % 4 == 3 || to % 4 == 3 {
        Some("an end in slot 3".into())
    } else if u64::from(to) > last {
        Some(format!("it ends at {to}, past the last instruction's end, {last}"))
    } else {
        None
    }
}

fn behind(job: &Job, before: &Seg, seg: &Seg) -> Option<String> {
    let (last, set) = (job.set(before.value)?, job.set(seg.value)?);
    if set < last {
        Some(format!("sets not rising: set {set} behind set {last}"))
    } else if set == last && seg.from < before.to {
        let (from, to) = (before.from, before.to);
        Some(format!("it overlaps [{from}, {to}) of line {} in set {set}, or comes before it", before.line))
    } else {
        None
    }
}

type Places<'a> = HashMap<(u32, u32), &'a Operand>;

fn uses(job: &Job) -> Option<Fault> {
    let places = job.operands.iter().map(|operand| ((operand.inst, operand.slot), operand)).collect();
    job.segs.iter().find_map(|seg| uses_of(job, &places, seg))
}

fn uses_of(job: &Job, places: &Places, seg: &Seg) -> Option<Fault> {
    let mut last = 0;
    seg.uses.iter().find_map(|u| {
        let falls = u.inst < last;
        last = u.inst;
        let falling = || falls.then(|| "its instruction is below that of the use before".into());
        let why = position(job, seg, u).or_else(falling).or_else(|| own_fields(job, u));
        let why = why.or_else(|| group_operand(job, places, seg, u))?;
        Some(fault(u.line, 7, why))
    })
}

fn position(job: &Job, seg: &Seg, u: &Use) -> Option<String> {
    let end = end_point(u);
    if u64::from(u.inst) >= job.insts() {
        Some(format!("there is no instruction {}", u.inst))
    } else if u64::from(seg.from) >= 4 * (u64::from(u.inst) + 1) {
        Some(format!("the segment begins at {}, not below the next Boundary, {}", seg.from, 4 * u64::from(u.inst) + 4))
    } else if end > u64::from(seg.to) {
        Some(format!("the use ends at {end}, above the segment's end, {}", seg.to))
    } else {
        None
    }
}

/// Where a use ends, by kind.
fn end_point(u: &Use) -> u64 {
    let boundary = 4 * u64::from(u.inst);
    match u.kind {
        0 | 5 | 7 | 9 => boundary + 4,
        4 | 6 => boundary + 2,
        _ => boundary,
    }
}

fn own_fields(job: &Job, u: &Use) -> Option<String> {
    let [a, b, c, d] = u.fields;
    let reg = || (a as usize >= job.regs.len()).then(|| format!("there is no register {a}"));
    let slot = |slot: u32| (slot > 65_535).then(|| format!("slot {slot} is above 65535"));
    let index = |index: u32| (index > 255).then(|| format!("group index {index} is above 255"));
    let class = |class: u32| (class as usize >= job.classes.len()).then(|| format!("there is no class {class}"));
    match u.kind {
        0 | 1 => reg(),
        2 => slot(a).or(slot(b)).or(class(c)).or(index(d)),
        3 => Some("kind 3 stands in register sheets only".into()),
        4 | 5 => slot(a).or(class(b)),
        6 | 7 => slot(a).or(class(b)).or(index(c)),
        _ => None,
    }
}

fn group_operand(job: &Job, places: &Places, seg: &Seg, u: &Use) -> Option<String> {
    let [slot, class, index, _] = u.fields;
    if !u.is_group_use() {
        return None;
    }
    let Some(operand) = places.get(&(u.inst, slot)) else {
        return Some(format!("no operand line has instruction {}, slot {slot}", u.inst));
    };
    let members = job.vgroups.get(operand.vgroup as usize).map(|vgroup| vgroup.members.as_slice());
    match members.unwrap_or_default().get(index as usize) {
        _ if operand.class != class => Some(format!("its operand, line {}, has class {}", operand.line, operand.class)),
        None => Some(format!("vgroup {} has no member at index {index}", operand.vgroup)),
        Some(&value) if value != seg.value => {
            Some(format!("vgroup {} has value {value} at index {index}, not {}", operand.vgroup, seg.value))
        }
        _ => None,
    }
}

/// The written fields of the second form: those of blocks, whose lines come first, and those of segments.
fn written(job: &Job) -> Option<Fault> {
    let blocks = job.blocks.iter().zip(job.firsts()).find_map(|(block, first)| {
        let written = block.written.filter(|&written| u64::from(written) != first)?;
        let why = format!("the first instruction is written as {written}, and it is {first}");
        Some(fault(block.line, 10, why))
    });
    let segs = || {
        job.segs.iter().find_map(|seg| {
            let set = job.set(seg.value)?;
            let written = seg.written.filter(|&written| written != set)?;
            let why = format!("the set is written as {written}, and it is {set}, the leader of value {}", seg.value);
            Some(fault(seg.line, 10, why))
        })
    };
    blocks.or_else(segs)
}

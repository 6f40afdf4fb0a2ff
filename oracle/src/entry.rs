//! Entry tests 2 to 7. Each takes the ones before it as passed.

use std::collections::HashMap;

use crate::job::{BLOCKPARAM_IN, BLOCKPARAM_OUT, Class, Job, Operand, Seg, Use};

const MOST_COST: f32 = 1_048_576.0;

/// The lowest of the numbers 2 to 7 that the job falls to.
pub fn refusal(job: &Job) -> Option<u8> {
    let tests: [fn(&Job) -> bool; 6] = [
        within_limits,
        book_is_sound,
        function_is_sound,
        hints_are_sound,
        segs_are_sound,
        uses_are_sound,
    ];
    let failed = tests.iter().position(|sound| !sound(job))?;
    Some(failed as u8 + 2)
}

fn within_limits(job: &Job) -> bool {
    let counts = [
        (job.blocks.len(), 512),
        (job.values.len(), 1024),
        (job.vgroups.len(), 256),
        (job.operands.len(), 1024),
        (job.hints.len(), 1024),
        (job.segs.len(), 1024),
        (job.uses.len(), 4096),
        (job.classes.len(), 32),
        (job.banks.len(), 8),
        (job.regs.len(), 256),
        (job.adjust as usize, 65_535),
    ];
    job.inst_count() <= 4096 && counts.iter().all(|(count, most)| count <= most)
}

fn book_is_sound(job: &Job) -> bool {
    let classes = job.classes.len();
    job.scales.iter().all(|&scale| is_cost(scale))
        && job.banks.iter().all(|&top| (top as usize) < classes)
        && job.classes.iter().all(|class| class_is_sound(job, class))
        && (job.values.iter()).all(|value| (value.bank as usize) < job.banks.len())
}

fn class_is_sound(job: &Job, class: &Class) -> bool {
    let known = job.classes.len() as u32;
    let bits = (0..32).filter(|bit| class.mask >> bit & 1 == 1);
    is_cost(class.cost)
        && (1..=8).contains(&class.size)
        && bits.clone().all(|bit| bit < known)
        && (class.size == 1
            || bits
                .map(|bit| job.classes[bit as usize])
                .all(|sub| sub.size == class.size))
}

/// Finite and not negative, minus zero included.
fn is_plain(float: f32) -> bool {
    float.is_finite() && float.is_sign_positive()
}

fn is_cost(float: f32) -> bool {
    is_plain(float) && float <= MOST_COST
}

fn function_is_sound(job: &Job) -> bool {
    let blocks = (job.blocks.iter()).all(|block| block.insts > 0 && is_plain(block.frequency));
    let leaders = job.values.iter().all(|value| {
        (job.values.get(value.leader as usize)).is_some_and(|first| first.leader == value.leader)
    });
    let vgroups = job.vgroups.iter().all(|members| {
        (2..=8).contains(&members.len())
            && members
                .iter()
                .all(|&value| (value as usize) < job.values.len())
    });
    blocks && leaders && vgroups && operands_are_sound(job)
}

fn operands_are_sound(job: &Job) -> bool {
    let places = operand_places(job);
    places.len() == job.operands.len()
        && job.operands.iter().all(|operand| {
            let vgroup = job.vgroups.get(operand.vgroup as usize);
            let class = job.classes.get(operand.class as usize);
            u64::from(operand.inst) < job.inst_count()
                && operand.slot <= u32::from(u16::MAX)
                && vgroup
                    .zip(class)
                    .is_some_and(|(members, class)| members.len() == class.size as usize)
        })
}

/// Operands by instruction and slot.
fn operand_places(job: &Job) -> HashMap<(u32, u32), &Operand> {
    let keyed = job.operands.iter().map(|op| ((op.inst, op.slot), op));
    keyed.collect()
}

fn hints_are_sound(job: &Job) -> bool {
    let known = job.hints.iter().all(|hint| {
        (hint.value as usize) < job.values.len() && u64::from(hint.inst) <= job.inst_count()
    });
    let keys = job
        .hints
        .iter()
        .map(|hint| (hint.value, hint.inst, hint.incoming));
    known && keys.is_sorted()
}

fn segs_are_sound(job: &Job) -> bool {
    let last = 4 * job.inst_count();
    let each = job.segs.iter().all(|seg| {
        (seg.value as usize) < job.values.len()
            && seg.from < seg.to
            && seg.from % 4 != 3
            && seg.to % 4 != 3
            && u64::from(seg.to) <= last
    });
    each && job.segs.windows(2).all(|pair| {
        let set = |seg: &Seg| job.values[seg.value as usize].leader;
        set(&pair[0]) < set(&pair[1])
            || (set(&pair[0]) == set(&pair[1]) && pair[0].to <= pair[1].from)
    })
}

fn uses_are_sound(job: &Job) -> bool {
    let places = operand_places(job);
    job.segs.iter().all(|seg| {
        let uses = job.uses_of(seg);
        uses.is_sorted_by_key(|u| u.inst)
            && uses.iter().all(|u| {
                u64::from(u.inst) < job.inst_count()
                    && fields_are_sound(job, u)
                    && seg.from < 4 * (u.inst + 1)
                    && end_point(u) <= seg.to
                    && (!u.is_group() || operand_agrees(job, &places, seg, u))
            })
    })
}

fn fields_are_sound(job: &Job, u: &Use) -> bool {
    let slot = |field: u32| field <= u32::from(u16::MAX);
    let index = |field: u32| field <= u32::from(u8::MAX);
    let class = |field: u32| (field as usize) < job.classes.len();
    let f = u.fields;
    match u.kind {
        0 | 1 => (f[0] as usize) < job.regs.len(),
        2 => slot(f[0]) && slot(f[1]) && class(f[2]) && index(f[3]),
        4 | 5 => slot(f[0]) && class(f[1]),
        6 | 7 => slot(f[0]) && class(f[1]) && index(f[2]),
        BLOCKPARAM_IN | BLOCKPARAM_OUT => true,
        _ => false,
    }
}

/// Where a use ends, by kind; kind 3 never comes here.
fn end_point(u: &Use) -> u32 {
    let boundary = 4 * u.inst;
    match u.kind {
        0 | 5 | 7 | BLOCKPARAM_OUT => boundary + 4,
        4 | 6 => boundary + 2,
        _ => boundary,
    }
}

fn operand_agrees(job: &Job, places: &HashMap<(u32, u32), &Operand>, seg: &Seg, u: &Use) -> bool {
    places.get(&(u.inst, u.slot())).is_some_and(|operand| {
        let members = &job.vgroups[operand.vgroup as usize];
        operand.class == u.class() && members.get(u.index() as usize) == Some(&seg.value)
    })
}

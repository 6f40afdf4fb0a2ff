//! Segments with their uses, before they stand in a job.

use super::rng::Rng;
use super::style::Style;
use crate::job::{
    BLOCKPARAM_IN, BLOCKPARAM_OUT, CLASS_DEF, CLASS_USE, GROUP_DEF, GROUP_USE, Job, Operand, Seg,
    Use,
};

/// A segment with uses of its own, not yet in the job's list.
#[derive(Clone)]
pub struct Piece {
    pub value: u32,
    pub from: u32,
    pub to: u32,
    pub flags: u32,
    pub uses: Vec<Use>,
}

/// Mixes the order of uses at one instruction, in most lists.
pub fn shuffle(rng: &mut Rng, uses: &mut [Use]) {
    if rng.chance(60) {
        for last in (1..uses.len()).rev() {
            uses.swap(last, rng.below(last as u32 + 1) as usize);
        }
    }
}

/// Puts the pieces into the job, each with its uses in order.
pub fn put(job: &mut Job, rng: &mut Rng, pieces: Vec<Piece>) {
    for mut piece in pieces {
        // Block parameters come first at their instruction in most lists.
        let strict = rng.chance(90);
        piece
            .uses
            .sort_by_key(|u| (u.inst, strict && u.kind != BLOCKPARAM_IN));
        let first = job.uses.len();
        job.uses.extend(piece.uses);
        job.segs.push(Seg {
            value: piece.value,
            from: piece.from,
            to: piece.to,
            flags: piece.flags,
            uses: first..job.uses.len(),
        });
    }
}

/// Uses of all kinds but those of groups.
pub fn plain_uses(job: &Job, rng: &mut Rng, style: &Style, piece: &mut Piece) {
    let palette: Vec<u32> = (0..3).map(|_| some_class(job, rng)).collect();
    let bare = rng.chance(style.bare);
    let mut inst = None;
    for _ in 0..if bare { 0 } else { rng.within(style.uses) } {
        let here = inst.filter(|_| rng.chance(style.crowd));
        let Some(place) = here.or_else(|| some_inst(job, rng, style, piece)) else {
            continue;
        };
        inst = Some(place);
        let kind = rng.weighted(&style.kinds) as u32;
        let class = if rng.chance(70) {
            rng.pick(&palette)
        } else {
            some_class(job, rng)
        };
        if let Some(fields) = fields(job, rng, kind, class) {
            add(
                piece,
                Use {
                    kind,
                    inst: place,
                    fields,
                },
            );
        }
    }
}

/// Adds the use if it ends inside the piece, or the same as a plain use.
pub fn add(piece: &mut Piece, mut u: Use) -> bool {
    if end_point(&u) > piece.to {
        u.kind = match u.kind {
            CLASS_DEF => CLASS_USE,
            GROUP_DEF => GROUP_USE,
            _ => return false,
        };
    }
    let fits = end_point(&u) <= piece.to;
    if fits {
        piece.uses.push(u);
    }
    fits
}

fn end_point(u: &Use) -> u32 {
    match u.kind {
        0 | CLASS_DEF | GROUP_DEF | BLOCKPARAM_OUT => 4 * u.inst + 4,
        CLASS_USE | GROUP_USE => 4 * u.inst + 2,
        _ => 4 * u.inst,
    }
}

/// An instruction the piece may hold uses of.
fn some_inst(job: &Job, rng: &mut Rng, style: &Style, piece: &Piece) -> Option<u32> {
    let first = piece.from / 4;
    let last = (piece.to / 4).min(job.inst_count() as u32 - 1);
    if first > last {
        None
    } else if rng.chance(style.edges) {
        Some(rng.pick(&[first, last]))
    } else {
        Some(rng.within((first, last)))
    }
}

/// A class of single registers, rarely any other.
fn some_class(job: &Job, rng: &mut Rng) -> u32 {
    loop {
        let class = rng.below(job.classes.len() as u32);
        if job.classes[class as usize].size == 1 || rng.chance(15) {
            return class;
        }
    }
}

fn fields(job: &Job, rng: &mut Rng, kind: u32, class: u32) -> Option<[u32; 4]> {
    let slot = |rng: &mut Rng| if rng.chance(95) { rng.below(4) } else { 65_535 };
    Some(match kind {
        0 | 1 if job.regs.is_empty() => return None,
        0 | 1 => [rng.below(job.regs.len() as u32), 0, 0, 0],
        2 => [slot(rng), slot(rng), class, rng.below(256)],
        BLOCKPARAM_IN => [
            if rng.chance(95) {
                rng.below(3)
            } else {
                u32::MAX
            },
            0,
            0,
            0,
        ],
        BLOCKPARAM_OUT => [0; 4],
        _ => [slot(rng), class, 0, 0],
    })
}

/// Group operands, and uses of them in the pieces that live there.
pub fn operands(job: &mut Job, rng: &mut Rng, style: &Style, pieces: &mut [Piece]) {
    if job.vgroups.is_empty() {
        return;
    }
    let mut inst = rng.below(job.inst_count() as u32);
    for _ in 0..rng.within(style.operands) {
        if rng.chance(75) {
            inst = rng.below(job.inst_count() as u32);
        }
        let Some(operand) = some_operand(job, rng, inst) else {
            continue;
        };
        job.operands.push(operand);
        let members = job.vgroups[operand.vgroup as usize].clone();
        let kind = if rng.chance(85) { GROUP_USE } else { GROUP_DEF };
        for (index, &value) in members.iter().enumerate() {
            let times = rng.weighted(&[6, 94 - style.twice, style.twice]);
            for _ in 0..times {
                group_use(rng, pieces, operand, value, kind, index as u32);
            }
        }
    }
}

fn some_operand(job: &Job, rng: &mut Rng, inst: u32) -> Option<Operand> {
    let vgroup = rng.below(job.vgroups.len() as u32);
    let size = job.vgroups[vgroup as usize].len() as u32;
    let numbers = 0..job.classes.len() as u32;
    let classes: Vec<u32> = numbers
        .filter(|&class| job.classes[class as usize].size == size)
        .collect();
    let slot = if rng.chance(97) { rng.below(4) } else { 255 };
    let taken = (job.operands.iter()).any(|op| op.inst == inst && op.slot == slot);
    (!taken).then(|| Operand {
        inst,
        slot,
        vgroup,
        class: rng.pick(&classes),
    })
}

fn group_use(
    rng: &mut Rng,
    pieces: &mut [Piece],
    operand: Operand,
    value: u32,
    kind: u32,
    index: u32,
) {
    let u = Use {
        kind,
        inst: operand.inst,
        fields: [operand.slot, operand.class, index, 0],
    };
    for piece in pieces.iter_mut().filter(|piece| piece.value == value) {
        let lives = piece.from < 4 * (u.inst + 1) && end_point(&u) <= piece.to;
        if lives && add(piece, u) && rng.chance(90) {
            return;
        }
    }
}

//! Weights.

use std::collections::BTreeSet;

use oracle::job::Use;

use super::admit::Held;
use super::{Model, Piece};

/// The weight of a register of these pieces.
pub fn weight(model: &Model, held: &Held, pieces: &[Piece]) -> f32 {
    let insts: BTreeSet<u32> = pieces
        .iter()
        .flat_map(|piece| piece.from / 4..piece.to.div_ceil(4))
        .collect();
    let spillslots = model.job.classes[held.class as usize].spillslots;
    let own = if insts.len() <= 1 && !spillslots {
        f32::INFINITY
    } else {
        let count = insts.len() as u32 + model.job.adjust;
        (sum(model, pieces) / count as f32).min(f32::MAX)
    };
    let Some((group, index)) = (held.group.as_ref()).and_then(|g| Some((g.mapped?, g.index)))
    else {
        return own;
    };
    let members = model.groups[group].iter().enumerate();
    let others = members.filter(|(place, _)| *place as u32 != index);
    let weights = others.filter_map(|(_, member)| Some(model.regs[(*member)?].weight));
    weights.fold(own, f32::min)
}

fn sum(model: &Model, pieces: &[Piece]) -> f32 {
    let mut total = 0.0;
    for piece in pieces {
        for u in &piece.uses {
            let scale = match model.job.values[piece.value as usize].remat {
                0 => None,
                remat => Some(model.job.scales[remat as usize - 1]),
            };
            let cost = cost(model, u);
            let cost = scale.map_or(cost, |scale| cost * scale);
            if cost != 0.0 {
                let block = model.block_of[u.inst as usize];
                total += cost * model.job.blocks[block].frequency;
            }
        }
    }
    total
}

fn cost(model: &Model, u: &Use) -> f32 {
    match u.kind {
        0 | 1 if model.job.regs[u.fields[0] as usize] => 0.0,
        0 | 1 => 1.0,
        2 | 3 => 0.5,
        4..=7 => model.job.classes[u.class() as usize].cost,
        _ => 0.0,
    }
}

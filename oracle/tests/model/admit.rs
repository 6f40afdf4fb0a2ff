//! Admitting a use.

use oracle::job::{CLASS_DEF, CLASS_USE, GROUP_DEF, GROUP_USE, Use};

use super::Model;

/// What the uses so far leave held.
#[derive(Clone)]
pub struct Held {
    pub class: u32,
    pub group: Option<HeldGroup>,
    /// The register to merge into.
    pub merge: Option<usize>,
}

#[derive(Clone)]
pub struct HeldGroup {
    pub index: u32,
    pub mapped: Option<usize>,
    sets: [Option<u32>; 8],
}

impl Held {
    pub fn new(top: u32) -> Self {
        Self {
            class: top,
            group: None,
            merge: None,
        }
    }

    /// What is held with the use, or none if it is not admitted.
    pub fn admit(&self, model: &Model, u: &Use) -> Option<Held> {
        match u.kind {
            CLASS_USE | CLASS_DEF => Some(Held {
                class: common(model, self.class, u.class())?,
                ..self.clone()
            }),
            GROUP_USE | GROUP_DEF => self.admit_group(model, u),
            _ => Some(self.clone()),
        }
    }

    fn admit_group(&self, model: &Model, u: &Use) -> Option<Held> {
        let mut class = common(model, self.class, u.class())?;
        let mapped = model.mapping.get(&(u.inst, u.slot())).copied();
        let sets = sets_of(model, u);
        if let Some(before) = &self.group {
            let same = match (before.mapped, mapped) {
                (Some(old), Some(new)) => old == new,
                (Some(_), None) => false,
                (None, _) => true,
            };
            if before.index != u.index() || !same || before.sets != sets {
                return None;
            }
        }
        let mut merge = None;
        if let Some(group) = mapped {
            let members = &model.groups[group];
            if let Some(reg) = members[u.index() as usize] {
                class = common(model, self.class, model.regs[reg].class)?;
                merge = Some(reg);
            } else {
                for &member in members.iter().flatten() {
                    class = common(model, class, model.regs[member].class)?;
                }
            }
        }
        let index = u.index();
        Some(Held {
            class,
            group: Some(HeldGroup {
                index,
                mapped,
                sets,
            }),
            merge,
        })
    }
}

/// The lowest-numbered class in both masks.
fn common(model: &Model, a: u32, b: u32) -> Option<u32> {
    let mask = |class: u32| model.job.classes[class as usize].mask;
    let both = mask(a) & mask(b);
    (0..32).find(|bit| both >> bit & 1 == 1)
}

/// The value set of each place of the use's group.
fn sets_of(model: &Model, u: &Use) -> [Option<u32>; 8] {
    let mut operands = model.job.operands.iter();
    let operand = operands.find(|op| op.inst == u.inst && op.slot == u.slot());
    let members = &model.job.vgroups[operand.unwrap().vgroup as usize];
    std::array::from_fn(|place| {
        let value = members.get(place)?;
        Some(model.job.values[*value as usize].leader)
    })
}

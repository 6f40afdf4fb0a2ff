//! The cuts of a run, counted by what decided their side and their place.

use crate::job::Job;
use reference::watch::{Cut, Log};

/// How many cuts of a run are of each kind, in the order of `NAMES`.
pub type Counts = [usize; 6];

pub const NAMES: [&str; 6] = [
    "cuts",
    "cuts between unequal costs",
    "late cuts",
    "late cuts at a block's end",
    "late cuts at a block's end before `before`",
    "late cuts elsewhere than the early one",
];

pub fn counts(job: &Job, log: &Log) -> Counts {
    let mut counts = Counts::default();
    for cut in &log.cuts {
        for (count, is) in counts.iter_mut().zip(kinds(job, cut)) {
            *count += usize::from(is);
        }
    }
    counts
}

fn kinds(job: &Job, cut: &Cut) -> [bool; 6] {
    let ends = cut.late && ends_block(job, cut.at);
    [
        true,
        cut.costs[0] != cut.costs[1],
        cut.late,
        ends,
        ends && cut.at < cut.before,
        cut.late && crate::cut::cut(job, cut.after, cut.before, true) != Some(cut.at),
    ]
}

/// Whether an instruction is the one after the last of a block.
fn ends_block(job: &Job, inst: u32) -> bool {
    let mut end = 0;
    job.blocks.iter().any(|block| {
        end += block.insts;
        end == inst
    })
}

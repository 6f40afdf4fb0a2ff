//! The cut finder alone.

use reference::function::Inst;
use reference::internal::split_placement::SplitPlacement;

use crate::job::Job;
use crate::tables::Tables;

/// The cut between two instructions, or none if they are not
/// `after` < `before` < instructions.
pub fn cut(job: &Job, after: u32, before: u32, early: bool) -> Option<u32> {
    if after >= before || u64::from(before) >= job.inst_count() {
        return None;
    }
    let tables = Tables::new(job);
    let mut placement = SplitPlacement::new();
    placement.prepare(&tables);
    let inst = |number: u32| Inst::new(number as usize);
    let at = placement.find_optimal_split_point(inst(after), inst(before), early, &tables);
    Some(at.index() as u32)
}

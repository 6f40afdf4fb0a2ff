//! Which sets can hold a stop: all but those that take one register from their top class with no cut, no turned use
//! and no group.

use std::collections::BTreeMap;

use crate::job::{Job, Seg};

/// The sets that may have met the stop, by rising number.
pub fn suspects(job: &Job) -> Vec<u32> {
    let mut sets: BTreeMap<u32, Vec<&Seg>> = BTreeMap::new();
    for seg in &job.segs {
        let set = job.set(seg.value).unwrap_or(seg.value);
        sets.entry(set).or_default().push(seg);
    }
    sets.into_iter().filter(|(_, segs)| !is_plain(job, segs)).map(|(set, _)| set).collect()
}

/// Whether every use of the set is admitted in turn, and none is a group use.
fn is_plain(job: &Job, segs: &[&Seg]) -> bool {
    let top = segs.first().and_then(|seg| job.top(seg.value));
    let uses = segs.iter().flat_map(|seg| &seg.uses).filter(|u| u.is_class_use());
    let held = uses.fold(top, |held, u| if u.is_group_use() { None } else { common(job, held?, u.fields[1]) });
    held.is_some()
}

/// The lowest-numbered class in both subclass sets.
fn common(job: &Job, a: u32, b: u32) -> Option<u32> {
    let mask = |class: u32| job.classes.get(class as usize).map(|class| class.mask);
    let both = mask(a)? & mask(b)?;
    (both != 0).then(|| both.trailing_zeros())
}

/// How many sets have segments.
pub fn sets(job: &Job) -> Vec<u32> {
    let mut sets: Vec<u32> = job.segs.iter().filter_map(|seg| job.set(seg.value)).collect();
    sets.sort_unstable();
    sets.dedup();
    sets
}

//! Where a set was cut: between neighbouring own pieces that are in two registers, or were one segment.

use std::collections::{BTreeMap, HashMap};

use crate::job::Job;
use crate::registers::{Answer, Piece};

/// A cut between two registers, by position, at one Boundary or somewhere between two points.
#[derive(Clone, Debug, PartialEq, Eq)]
pub struct Cut {
    pub left: usize,
    pub right: usize,
    pub from: u32,
    pub to: u32,
}

impl Cut {
    /// The Boundaries that it may be at, first and last.
    fn boundaries(&self) -> (u32, u32) {
        (self.from.div_ceil(4), self.to / 4)
    }

    /// The instruction before which the cut is, if the pieces tell.
    pub fn instruction(&self) -> Option<u32> {
        let (first, last) = self.boundaries();
        (first == last).then_some(first)
    }

    pub fn words(&self) -> String {
        let (first, last) = self.boundaries();
        match self.instruction() {
            Some(at) => format!("cut before instruction {at}, at point {}", u64::from(at) * 4),
            None => format!("cut in a gap, before one of the instructions {first} to {last}"),
        }
    }
}

/// All cuts that the pieces show, set by set.
pub fn cuts(job: &Job, answer: &Answer) -> Vec<Cut> {
    let segs = segments(job);
    let mut sets: BTreeMap<u32, Vec<(usize, &Piece)>> = BTreeMap::new();
    for (r, vreg) in answer.vregs.iter().enumerate() {
        let own = vreg.pieces.iter().filter(|piece| !piece.conflict);
        sets.entry(vreg.set).or_default().extend(own.map(|piece| (r, piece)));
    }
    for pieces in sets.values_mut() {
        pieces.sort_by_key(|(r, piece)| (piece.from, piece.to, *r));
    }
    let pairs = sets.values().flat_map(|pieces| pieces.windows(2));
    pairs.filter_map(|pair| between(&segs, pair[0], pair[1])).collect()
}

/// The points of each value's segments, sorted.
type Segments = HashMap<u32, Vec<(u32, u32)>>;

fn segments(job: &Job) -> Segments {
    let mut segs = Segments::new();
    for seg in &job.segs {
        segs.entry(seg.value).or_default().push((seg.from, seg.to));
    }
    segs.values_mut().for_each(|points| points.sort_unstable());
    segs
}

fn between(segs: &Segments, (left, a): (usize, &Piece), (right, b): (usize, &Piece)) -> Option<Cut> {
    let cut = Cut { left, right, from: a.to, to: b.from };
    let (first, last) = cut.boundaries();
    let parted = left != right || one_segment(segs, a, b);
    (parted && a.to <= b.from && first <= last).then_some(cut)
}

/// Whether two pieces that meet were one segment.
fn one_segment(segs: &Segments, a: &Piece, b: &Piece) -> bool {
    let points = segs.get(&a.value).map(Vec::as_slice).unwrap_or_default();
    let next = points.partition_point(|&(from, _)| from < a.to);
    let across = next > 0 && a.to < points[next - 1].1;
    a.value == b.value && a.to == b.from && across
}

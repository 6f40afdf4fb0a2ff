//! Holds a register sheet to its job sheet: which conflict use each turned use became, and the first thing that
//! does not fit.

use std::collections::{HashMap, VecDeque};

use crate::job::{BLOCKPARAM_IN, CONFLICT, Job, Seg, Use};
use crate::registers::{Answer, Group, Piece, Vreg};

/// Where a use stands in the register sheet: register, piece, use, by position.
pub type Place = (usize, usize, usize);

/// A turned use: where it is marked, what it was in the job and where it went.
#[derive(Clone, Debug)]
pub struct Turned {
    pub own: Place,
    pub was: Option<Use>,
    pub conflict: Option<Place>,
}

#[derive(Clone, Debug, Default)]
pub struct Pair {
    pub turned: Vec<Turned>,
    /// What does not fit, the first of each kind.
    pub odd: Vec<String>,
}

/// The register sheet beside its job.
pub fn pair(job: &Job, answer: &Answer) -> Pair {
    let mut pair = Pair::default();
    pair.odd.extend(counts(answer));
    pair.odd.extend(answer.vregs.iter().enumerate().find_map(|(at, vreg)| register(job, answer, at, vreg)));
    pair.odd.extend(answer.groups.iter().find_map(|group| members(answer, group)));
    let missing = turned_uses(job, answer, &mut pair.turned);
    pair.odd.extend(missing.filter(|_| answer.whole));
    let stray = settle(job, answer, &mut pair.turned);
    pair.odd.extend(stray);
    pair
}

fn counts(answer: &Answer) -> Option<String> {
    let end = answer.end?;
    let (vregs, groups) = (answer.vregs.len(), answer.groups.len());
    let same = end.vregs as usize == vregs && end.groups as usize == groups;
    (!same).then(|| {
        let said = format!("{} registers and {} groups", end.vregs, end.groups);
        format!("Line {} of the register sheet: the end line says {said}, and there are {vregs} and {groups}", end.line)
    })
}

fn register(job: &Job, answer: &Answer, at: usize, vreg: &Vreg) -> Option<String> {
    let line = vreg.line;
    if vreg.number as usize != at {
        return Some(format!("Line {line} of the register sheet: register {} is the {at}th from 0", vreg.number));
    }
    if job.set(vreg.set) != Some(vreg.set) {
        return Some(format!("Line {line} of the register sheet: the job has no set {}", vreg.set));
    }
    if vreg.class as usize >= job.classes.len() {
        return Some(format!("Line {line} of the register sheet: the job has no class {}", vreg.class));
    }
    if let Some(group) = vreg.group.filter(|_| answer.end.is_some()) {
        let place = answer.groups.get(group as usize).and_then(|row| row.members.get(vreg.index as usize));
        if place != Some(&Some(vreg.number)) {
            return Some(format!(
                "Line {line} of the register sheet: group {group} does not have it at place {}",
                vreg.index
            ));
        }
    }
    vreg.pieces.iter().find_map(|piece| piece_fault(job, vreg, piece))
}

fn piece_fault(job: &Job, vreg: &Vreg, piece: &Piece) -> Option<String> {
    let line = piece.line;
    if job.set(piece.value) != Some(vreg.set) {
        return Some(format!(
            "Line {line} of the register sheet: value {} is not of set {} in the job",
            piece.value, vreg.set
        ));
    }
    if u64::from(piece.to) > 4 * job.insts() || piece.from >= piece.to {
        return Some(format!(
            "Line {line} of the register sheet: [{}, {}) is no piece of this job",
            piece.from, piece.to
        ));
    }
    None
}

fn members(answer: &Answer, row: &Group) -> Option<String> {
    let group = row.number;
    let is_there = |(place, number): (usize, u32)| {
        let vreg = answer.vregs.get(number as usize);
        vreg.is_some_and(|vreg| vreg.group == Some(group) && vreg.index as usize == place)
    };
    let mut taken = row.members.iter().enumerate().filter_map(|(place, member)| Some((place, (*member)?)));
    let odd = taken.find(|&member| !is_there(member))?;
    Some(format!(
        "Line {} of the register sheet: register {} does not say that it has place {} of group {group}",
        row.line, odd.1, odd.0
    ))
}

/// The own pieces of each value, by their points.
fn own_pieces(answer: &Answer) -> HashMap<u32, VecDeque<(usize, usize)>> {
    let all = answer.vregs.iter().enumerate().flat_map(|(r, vreg)| (0..vreg.pieces.len()).map(move |s| (r, s)));
    let mut own: Vec<_> = all.filter(|&(r, s)| !answer.vregs[r].pieces[s].conflict).collect();
    own.sort_by_key(|&(r, s)| (answer.vregs[r].pieces[s].from, r, s));
    let mut by_value: HashMap<u32, VecDeque<_>> = HashMap::new();
    for (r, s) in own {
        by_value.entry(answer.vregs[r].pieces[s].value).or_default().push_back((r, s));
    }
    by_value
}

/// Walks the job's segments over the own pieces, and notes every turned use. What does not fit is the answer.
fn turned_uses(job: &Job, answer: &Answer, turned: &mut Vec<Turned>) -> Option<String> {
    let mut own = own_pieces(answer);
    let mut odd = None;
    let mut segs: Vec<&Seg> = job.segs.iter().collect();
    segs.sort_by_key(|seg| (seg.from, seg.line));
    for seg in segs {
        let pieces = own.entry(seg.value).or_default();
        let found = segment(answer, seg, pieces, turned);
        odd = odd.or(found);
    }
    let left: Vec<_> = own.into_values().flatten().collect();
    for &(r, s) in &left {
        lost_turns(answer, r, s, turned);
    }
    let first = left.iter().map(|&(r, s)| answer.vregs[r].pieces[s].line).min();
    odd.or(first
        .map(|line| format!("Line {line} of the register sheet: an own piece that is part of no segment of the job")))
}

/// Turned uses of a piece that no segment explains: they are drawn, without what they were.
fn lost_turns(answer: &Answer, r: usize, s: usize, turned: &mut Vec<Turned>) {
    let uses = answer.vregs[r].pieces[s].uses.iter().enumerate();
    let lost = uses.filter(|(_, u)| u.kind == CONFLICT);
    turned.extend(lost.map(|(at, _)| Turned { own: (r, s, at), was: None, conflict: None }));
}

fn segment(
    answer: &Answer,
    seg: &Seg,
    pieces: &mut VecDeque<(usize, usize)>,
    turned: &mut Vec<Turned>,
) -> Option<String> {
    let (mut at, mut uses, mut odd) = (seg.from, seg.uses.iter(), None);
    while at < seg.to {
        let next = pieces.front().copied();
        let Some((r, s)) = next.filter(|&(r, s)| answer.vregs[r].pieces[s].from < seg.to) else {
            return odd.or(Some(format!("Line {} of the job sheet has no piece from point {at} on", seg.line)));
        };
        pieces.pop_front();
        let piece = &answer.vregs[r].pieces[s];
        let differs = walk_uses(piece, (r, s), &mut uses, turned);
        odd = odd.or(misfit(piece, seg, at)).or(differs);
        at = piece.to.max(at.saturating_add(1));
    }
    odd.or(uses.next().map(|u| format!("Line {} of the job sheet has no use line in the register sheet", u.line)))
}

fn misfit(piece: &Piece, seg: &Seg, at: u32) -> Option<String> {
    let (line, of) = (piece.line, seg.line);
    let words =
        || format!("Line {line} of the register sheet: the piece does not fit the segment of line {of} of the job");
    (piece.from != at || piece.to > seg.to).then(words)
}

fn walk_uses<'a>(
    piece: &Piece,
    (r, s): (usize, usize),
    uses: &mut impl Iterator<Item = &'a Use>,
    turned: &mut Vec<Turned>,
) -> Option<String> {
    let mut odd = None;
    for (at, u) in piece.uses.iter().enumerate() {
        let was = uses.next();
        let is_turned = u.kind == CONFLICT;
        let fits = was.is_some_and(|was| was.says(u) || (is_turned && was.inst == u.inst));
        if is_turned {
            turned.push(Turned { own: (r, s, at), was: was.copied().filter(|_| fits), conflict: None });
        }
        if !fits && odd.is_none() {
            odd = Some(format!("Line {} of the register sheet: the job has another use there, or none", u.line));
        }
    }
    odd
}

type Waiting = HashMap<(u32, u32, u32, [u32; 4]), VecDeque<Place>>;

/// Gives each turned use the conflict use that says the same. What is left over, or lacking, is the answer.
fn settle(job: &Job, answer: &Answer, turned: &mut [Turned]) -> Option<String> {
    let mut waiting = conflict_uses(answer);
    let mut lacking = None;
    for turn in turned.iter_mut() {
        let line = answer.vregs[turn.own.0].pieces[turn.own.1].uses[turn.own.2].line;
        turn.conflict = turn.was.and_then(|was| {
            let set = answer.vregs[turn.own.0].set;
            waiting.get_mut(&(set, was.inst, was.kind, was.fields))?.pop_front()
        });
        if turn.conflict.is_none() && answer.whole && !job.segs.is_empty() {
            lacking =
                lacking.or(Some(format!("Line {line} of the register sheet: no conflict piece has this turned use")));
        }
    }
    let lines = waiting.values().flatten().map(|&(r, s, u)| answer.vregs[r].pieces[s].uses[u].line);
    lacking.or(lines.min().map(|line| {
        format!("Line {line} of the register sheet: a use in a conflict piece that no turned use explains")
    }))
}

fn conflict_uses(answer: &Answer) -> Waiting {
    let mut waiting = Waiting::new();
    for (r, vreg) in answer.vregs.iter().enumerate() {
        for (s, piece) in vreg.pieces.iter().enumerate().filter(|(_, piece)| piece.conflict) {
            for (at, u) in piece.uses.iter().enumerate() {
                if at > 0 || u.kind != BLOCKPARAM_IN {
                    waiting.entry((vreg.set, u.inst, u.kind, u.fields)).or_default().push_back((r, s, at));
                }
            }
        }
    }
    waiting
}

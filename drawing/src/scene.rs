//! What is drawn: rows with bars and marks, made from registers or, where there are none, from the job's segments.

use std::collections::HashMap;

use crate::cuts::{Cut, cuts};
use crate::forms::{Fault, counted};
use crate::job::{Job, Seg, Use};
use crate::pair::{Pair, Place};
use crate::registers::{Answer, Piece, Vreg};
use crate::words::{
    class_words, exact, flag_words, readable, short, span_words, use_words, value_words, written_words,
};

/// As many as the largest job or answer has; more are left out, and counted.
const MOST_ROWS: usize = 4096;
const MOST_BARS: usize = 4096;
const MOST_MARKS: usize = 8192;
const MOST_GROUPS: usize = 512;

#[derive(Default)]
pub struct Scene {
    pub heads: Vec<&'static str>,
    pub rows: Vec<Row>,
    pub cuts: Vec<Cut>,
    pub links: Vec<Link>,
    pub groups: Vec<Bracket>,
    /// Whether the rows are registers, not segments of the job.
    pub registers: bool,
    pub left_out: LeftOut,
}

#[derive(Default)]
pub struct LeftOut {
    pub rows: usize,
    pub bars: usize,
    pub marks: usize,
    pub groups: usize,
}

pub struct Row {
    pub cells: Vec<String>,
    pub class: Option<u32>,
    pub set: Option<u32>,
    pub title: String,
    pub bars: Vec<Bar>,
    /// Whether the refusal speaks of it.
    pub pointed: bool,
}

pub struct Bar {
    pub from: u32,
    pub to: u32,
    pub flags: u32,
    pub conflict: bool,
    pub title: String,
    pub marks: Vec<Mark>,
}

pub struct Mark {
    pub kind: u32,
    pub inst: u32,
    pub short: String,
    pub title: String,
    pub pointed: bool,
}

/// A turned use and its use in a conflict piece.
pub struct Link {
    pub from: Place,
    pub to: Place,
    pub title: String,
}

/// A group: its number and, place by place, the row of the register there.
pub struct Bracket {
    pub number: u32,
    pub places: Vec<Option<usize>>,
    pub title: String,
}

/// What is to be said of a turned use, by where it stands.
type Notes = HashMap<Place, String>;

/// The rows of the registers.
pub fn of_registers(job: &Job, answer: &Answer, pair: &Pair) -> Scene {
    let notes = turned_notes(job, answer, pair);
    let rows = answer.vregs.iter().enumerate().map(|(at, vreg)| register_row(job, vreg, at, &notes));
    let heads = vec!["register", "set", "class", "weight", "group·place", "hint"];
    let mut scene = Scene { heads, registers: true, ..Scene::default() };
    scene.rows = rows.take(MOST_ROWS).collect();
    scene.left_out.rows = answer.vregs.len() - scene.rows.len();
    scene.cuts = cuts(job, answer);
    scene.links = pair.turned.iter().filter_map(|turn| link(answer, turn.own, turn.conflict?)).collect();
    scene.groups = brackets(answer);
    scene.left_out.groups = answer.groups.len() - scene.groups.len();
    trim(&mut scene);
    drop_empty_columns(&mut scene, 4);
    scene
}

/// The rows of the job's segments; the fault's line and the sets named are pointed at.
pub fn of_job(job: &Job, fault: Option<&Fault>, sets: &[u32]) -> Scene {
    let line = fault.map_or(0, |fault| fault.line);
    let rows = job.segs.iter().map(|seg| segment_row(job, seg, line, sets));
    let heads = vec!["line", "value", "set", "bank's top class", "points"];
    let mut scene = Scene { heads, ..Scene::default() };
    scene.rows = rows.take(MOST_ROWS).collect();
    scene.left_out.rows = job.segs.len() - scene.rows.len();
    trim(&mut scene);
    scene
}

/// Leaves out what no picture can hold: marks beyond the most, and lines to rows that are not there.
fn trim(scene: &mut Scene) {
    let mut room = MOST_BARS;
    for row in &mut scene.rows {
        scene.left_out.bars += shorten(&mut row.bars, &mut room);
    }
    let mut room = MOST_MARKS;
    for bar in scene.rows.iter_mut().flat_map(|row| &mut row.bars) {
        scene.left_out.marks += shorten(&mut bar.marks, &mut room);
    }
    let rows = &scene.rows;
    let there = |(r, s, u): Place| rows.get(r).and_then(|row| row.bars.get(s)?.marks.get(u)).is_some();
    scene.links.retain(|link| there(link.from) && there(link.to));
    scene.cuts.retain(|cut| cut.left.max(cut.right) < rows.len());
    for place in scene.groups.iter_mut().flat_map(|group| &mut group.places) {
        *place = place.filter(|&row| row < rows.len());
    }
}

/// Keeps what there is room for, and says how many were left out.
fn shorten<T>(list: &mut Vec<T>, room: &mut usize) -> usize {
    let out = list.len().saturating_sub(*room);
    list.truncate(*room);
    *room -= list.len();
    out
}

/// Columns from the first named on that say nothing are left away.
fn drop_empty_columns(scene: &mut Scene, first: usize) {
    for column in (first..scene.heads.len()).rev() {
        if scene.rows.iter().all(|row| row.cells.get(column).is_none_or(String::is_empty)) {
            scene.heads.remove(column);
            for row in scene.rows.iter_mut().filter(|row| column < row.cells.len()) {
                row.cells.remove(column);
            }
        }
    }
}

fn register_row(job: &Job, vreg: &Vreg, at: usize, notes: &Notes) -> Row {
    let group = vreg.group.map(|group| format!("{group}·{}", vreg.index));
    let hint = if vreg.fixed_hint { "fixed" } else { "" };
    let cells = vec![
        format!("r{}", vreg.number),
        vreg.set.to_string(),
        vreg.class.to_string(),
        readable(vreg.weight),
        group.unwrap_or_default(),
        hint.into(),
    ];
    let bars = vreg.pieces.iter().enumerate().map(|(s, piece)| piece_bar(job, vreg, piece, (at, s), notes));
    let title = register_title(job, vreg);
    Row { cells, class: Some(vreg.class), set: Some(vreg.set), title, bars: bars.collect(), pointed: false }
}

fn register_title(job: &Job, vreg: &Vreg) -> String {
    let group = match vreg.group {
        Some(group) => format!("place {} of group {group}", vreg.index),
        None => "no group".into(),
    };
    let hint = if vreg.fixed_hint { "a fixed hint" } else { "no fixed hint" };
    let uses = vreg.pieces.iter().map(|piece| piece.uses.len()).sum();
    let counts = format!("{}, {}", counted(vreg.pieces.len(), "piece"), counted(uses, "use"));
    let class = class_words(job, vreg.class as usize);
    let (number, set, weight, line) = (vreg.number, vreg.set, exact(vreg.weight), vreg.line);
    format!("register {number} of set {set}; {class}; weight {weight}; {group}; {hint}; {counts}; line {line}")
}

fn piece_bar(job: &Job, vreg: &Vreg, piece: &Piece, (r, s): (usize, usize), notes: &Notes) -> Bar {
    let origin = if piece.conflict { "conflict" } else { "own" };
    let Piece { from, to, flags, conflict, line, value, .. } = *piece;
    let (of, span, flag) = (value_words(job, value), span_words(from, to), flag_words(flags));
    let title = format!("register {}: {origin} piece of {of}, {span}; {flag}; line {line}", vreg.number);
    let marks = piece.uses.iter().enumerate().map(|(at, u)| {
        let note = notes.get(&(r, s, at)).map(String::as_str).unwrap_or_default();
        let title = format!("register {}, value {value}: {}{note}; line {}", vreg.number, use_words(job, u), u.line);
        mark(u, title, false)
    });
    Bar { from, to, flags, conflict, title, marks: marks.collect() }
}

fn mark(u: &Use, title: String, pointed: bool) -> Mark {
    Mark { kind: u.kind, inst: u.inst, short: short(u), title, pointed }
}

fn segment_row(job: &Job, seg: &Seg, line: usize, sets: &[u32]) -> Row {
    let set = job.set(seg.value);
    let class = job.top(seg.value);
    let known = |number: Option<u32>| number.map_or("?".into(), |number| number.to_string());
    let Seg { from, to, flags, value, .. } = *seg;
    let cells = vec![seg.line.to_string(), value.to_string(), known(set), known(class), format!("[{from}, {to})")];
    let (of, span, flag) = (value_words(job, value), span_words(from, to), flag_words(flags));
    let written = written_words("set", seg.written, set.map(u64::from));
    let title = format!("line {}: segment of {of}, {span}; {flag}{written}", seg.line);
    let marks = seg.uses.iter().map(|u| mark(u, format!("line {}: {}", u.line, use_words(job, u)), u.line == line));
    let marks: Vec<Mark> = marks.collect();
    let pointed =
        seg.line == line || marks.iter().any(|mark| mark.pointed) || set.is_some_and(|set| sets.contains(&set));
    let bar = Bar { from, to, flags, conflict: false, title: title.clone(), marks };
    Row { cells, class, set, title, bars: vec![bar], pointed }
}

/// What is said of a turned use, at both of its places.
fn turned_notes(job: &Job, answer: &Answer, pair: &Pair) -> Notes {
    let mut notes = HashMap::new();
    for turn in &pair.turned {
        let was = turn.was.map(|was| format!("; turned, it was {}", use_words(job, &was))).unwrap_or_default();
        let to = turn.conflict.map(|place| format!("; it is in {}", spot(answer, place))).unwrap_or_default();
        notes.insert(turn.own, was + &to);
        if let Some(place) = turn.conflict {
            notes.insert(place, format!("; turned, it is marked in {}", spot(answer, turn.own)));
        }
    }
    notes
}

fn spot(answer: &Answer, (r, s, u): Place) -> String {
    let vreg = &answer.vregs[r];
    format!("register {} at line {}", vreg.number, vreg.pieces[s].uses[u].line)
}

fn link(answer: &Answer, from: Place, to: Place) -> Option<Link> {
    let title = format!("turned use: from {} to {}", spot(answer, from), spot(answer, to));
    Some(Link { from, to, title })
}

fn brackets(answer: &Answer) -> Vec<Bracket> {
    let row = |member: u32| answer.vregs.iter().position(|vreg| vreg.number == member);
    let whole = answer.groups.iter().take(MOST_GROUPS).map(|group| {
        let places = group.members.iter().map(|member| row((*member)?)).collect();
        let names = group.members.iter().map(|member| member.map_or("-".into(), |number| format!("r{number}")));
        let names = names.collect::<Vec<_>>().join(", ");
        let title = format!("group {}: {names}; line {}", group.number, group.line);
        Bracket { number: group.number, places, title }
    });
    whole.collect()
}

//! Sheets of the second form: sound ones, rewritten from those of any profile, and damaged ones.

mod beside;
mod draft;
mod fields;
mod lines;
mod rewrite;

use super::damage;
use super::rng::Rng;
use crate::frames::Frame;
use crate::sheet;
use draft::{Draft, any_job};

pub use rewrite::second_form;

/// Sheets damaged in the second form, and the stream of their numbers.
pub const DAMAGED: &str = "second-damaged";
const STREAM: u64 = 14;
/// The sound sheets of all profiles mixed.
pub const MIXED: &str = "second";
/// In front of a profile's name: its sheets in the second form.
const OF: &str = "second:";

/// Of these many seeds in a row, each has a sheet of the profile that stands in its place.
const MIX: [&str; 20] = [
    "small",
    "classes",
    "groups",
    "hints",
    "floats",
    "leaning",
    "rooms",
    "bad-uses",
    "damaged",
    "groups",
    "damaged",
    "classes",
    "groups",
    "hints",
    "leaning",
    "damaged",
    "limits",
    "full-tables",
    "many-merges",
    "long-sheets",
];
/// How far the seeds of a profile go on, where a sheet falls to test 1.
const ON: u64 = 1_000_003;

pub fn make(profile: &str, seed: u64) -> Option<Frame> {
    if profile == DAMAGED {
        let bytes = of(seed).1(&mut Rng::new(seed, STREAM));
        return Some(Frame { bytes, room: None });
    }
    let first = first_form(profile, seed)?;
    Some(Frame {
        bytes: second_form(&first.bytes),
        ..first
    })
}

/// The sheet of the first form that a sound one of the second is made from: of the profile behind `second:`, or of the
/// mixture, where none falls to test 1.
pub fn first_form(profile: &str, seed: u64) -> Option<Frame> {
    if let Some(first) = profile.strip_prefix(OF) {
        let plain = super::PROFILES.contains(&first);
        return plain.then(|| super::make(first, seed)).flatten();
    }
    if profile != MIXED {
        return None;
    }
    let count = MIX.len() as u64;
    let profile = MIX[(seed % count) as usize];
    let mut seeds = (0..).map(|times| seed / count + ON * times);
    seeds.find_map(|seed| {
        let frame = super::make(profile, seed)?;
        sheet::read(&frame.bytes).map(|_| frame)
    })
}

/// What is done to a sheet, with the number that it then gets in front, or `any`; and its maker.
type Case = (String, Box<dyn Fn(&mut Rng) -> Vec<u8>>);

fn case(what: String, make: impl Fn(&mut Rng) -> Vec<u8> + 'static) -> Case {
    (what, Box::new(make))
}

/// How often each kind of damage without a certain number comes, and how often no damage.
const TIMES: usize = 8;

fn cases() -> Vec<Case> {
    let mut cases = fields::cases();
    cases.extend(lines::cases());
    cases.extend(beside::cases());
    let damages: [(&str, Damage); 5] = [
        ("bytes", damage::in_bytes),
        ("lines", damage::in_lines),
        ("fields", damage::in_fields),
        ("nothing", |_, sheet| sheet),
        ("nothing", |_, sheet| sheet),
    ];
    for (name, damage) in (0..TIMES).flat_map(|_| damages) {
        let make = move |rng: &mut Rng| {
            let sheet = any_draft(rng).sheet();
            damage(rng, sheet)
        };
        cases.push(case(format!("any: damage of {name}"), make));
    }
    cases
}

type Damage = fn(&mut Rng, Vec<u8>) -> Vec<u8>;

fn any_draft(rng: &mut Rng) -> Draft {
    Draft::new(any_job(rng))
}

/// As many seeds in a row as there are cases give each once.
fn of(seed: u64) -> Case {
    let mut cases = cases();
    let place = (seed % cases.len() as u64) as usize;
    cases.swap_remove(place)
}

pub fn count() -> u64 {
    cases().len() as u64
}

pub fn what(seed: u64) -> String {
    of(seed).0
}

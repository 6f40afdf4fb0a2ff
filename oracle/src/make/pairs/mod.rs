//! Sheets near one another: a sheet of a profile, a neighbour of it, and a neighbour of that one or another of the first.
//! Most neighbours are one line apart in the second form, and pass where the first sheet does; some are the same job in
//! the other form, some are damaged.

mod dress;
mod edits;
mod near;

use super::breaks::break_rule;
use super::rng::Rng;
use super::{damage, make, second_form, sheet_of};
use crate::answer::tested;
use crate::job::Job;
use crate::order::apart;
use crate::{entry, form};

/// The stream of the neighbours' numbers, before the name of the profile is added.
const STREAM: u64 = 20;
/// How often something is drawn anew until it is what it should be.
const TIMES: usize = 30;
/// Of a sheet, in bytes, to which close neighbours are sought.
const LONG: usize = 5000;
/// Of a job that can be broken by a rule.
const MOST_INSTS: u64 = 1 << 20;

/// Three sheets of a profile of either form, of which each is a neighbour of another. One of a pair of neighbours is as
/// often the first as the second.
pub fn three(profile: &str, seed: u64) -> Option<[Vec<u8>; 3]> {
    let bytes = make(profile, seed)?.bytes;
    let name = profile.bytes().map(u64::from).sum::<u64>();
    let mut rng = Rng::new(seed, STREAM + name);
    let first = dressed(&mut rng, bytes);
    let second = neighbour(&mut rng, &first);
    let third = match rng.below(10) {
        0..=7 => close(&mut rng, &first, &second),
        8 => neighbour(&mut rng, &second),
        _ => neighbour(&mut rng, &first),
    };
    let mut sheets = [first, second, third];
    if rng.chance(50) {
        sheets.reverse();
    }
    Some(sheets)
}

/// A sheet that passes, with records more that can be changed at will; another as it is.
fn dressed(rng: &mut Rng, sheet: Vec<u8>) -> Vec<u8> {
    match tested(&sheet) {
        Ok(job) => written(&dress::dressed(rng, job), is_second(&sheet)),
        Err(_) => sheet,
    }
}

/// A neighbour of the second that is one line apart from both, if such a one is found.
fn close(rng: &mut Rng, first: &[u8], second: &[u8]) -> Vec<u8> {
    if first.len() < LONG && apart(first, second) == 1 {
        for _ in 0..4 * TIMES {
            let third = neighbour(rng, second);
            if apart(first, &third) == 1 && apart(second, &third) == 1 {
                return third;
            }
        }
    }
    neighbour(rng, second)
}

fn is_second(sheet: &[u8]) -> bool {
    sheet.starts_with(form::LINE)
}

fn written(job: &Job, second: bool) -> Vec<u8> {
    let sheet = sheet_of(job);
    if second { second_form(&sheet) } else { sheet }
}

fn neighbour(rng: &mut Rng, sheet: &[u8]) -> Vec<u8> {
    let Some(form::Sheet { job, .. }) = form::read(sheet) else {
        return match rng.below(3) {
            0 => sheet.to_vec(),
            _ => damaged(rng, sheet.to_vec()),
        };
    };
    let second = is_second(sheet) != rng.chance(15);
    match rng.below(100) {
        0..=3 => sheet.to_vec(),
        4..=9 => written(&job, !is_second(sheet)),
        10..=71 => written(&sound(rng, &job, 1), second),
        72..=76 => written(&sound(rng, &job, 2), second),
        77..=80 => written(&edits::edited(rng, &job), second),
        81..=91 => written(&broken(rng, &job), second),
        92..=95 => wrong(rng, second_form(&sheet_of(&job))),
        _ => damaged(rng, written(&job, second)),
    }
}

/// Edited, and passing tests 2 to 7 if such an edit is found.
fn sound(rng: &mut Rng, job: &Job, times: usize) -> Job {
    let mut job = job.clone();
    for _ in 0..times {
        let mut drawn = (0..TIMES).map(|_| edits::edited(rng, &job));
        if let Some(sound) = drawn.find(|job| entry::refusal(job).is_none()) {
            job = sound;
        }
    }
    job
}

/// Each of 2 to 7 as often, if the job can be broken so.
fn broken(rng: &mut Rng, job: &Job) -> Job {
    let rule = rng.within((2, 7));
    let mut last = job.clone();
    // the rules are broken by points, of which these would have too many
    if job.inst_count() > MOST_INSTS {
        return last;
    }
    for _ in 0..TIMES {
        last = job.clone();
        break_rule(&mut last, rng, rule);
        if entry::refusal(&last).map(u32::from) == Some(rule) {
            break;
        }
    }
    last
}

/// A sheet of the second form with a written field that is another number.
fn wrong(rng: &mut Rng, sheet: Vec<u8>) -> Vec<u8> {
    let mut lines = damage::lines_of(&sheet);
    let has = |line: &[u8]| line.starts_with(b"block\t") || line.starts_with(b"seg\t");
    let places: Vec<usize> = (0..lines.len()).filter(|&at| has(&lines[at])).collect();
    if let Some(at) = near::place(rng, places.len()) {
        let line = &mut lines[places[at]];
        let tab = line.iter().rposition(|&byte| byte == b'\t').unwrap() + 1;
        let field = String::from_utf8_lossy(&line[tab..]).into_owned();
        let other = near::number(rng, field.parse().unwrap());
        line.splice(tab.., other.to_string().bytes());
    }
    damage::sheet_from(&lines)
}

fn damaged(rng: &mut Rng, sheet: Vec<u8>) -> Vec<u8> {
    match rng.below(3) {
        _ if sheet.is_empty() => sheet,
        0 => damage::in_bytes(rng, sheet),
        1 => damage::in_lines(rng, sheet),
        _ => damage::in_fields(rng, sheet),
    }
}

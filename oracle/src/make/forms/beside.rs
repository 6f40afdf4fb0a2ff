//! Written fields, wrong ones and sound ones, beside each of the other causes.

use super::draft::{Draft, any_job, until};
use super::fields::{Edit, NAMES, last_leading_zero, last_one_more, leading_zero, one_more};
use super::rewrite::{BLOCKS, SEGS};
use super::{Case, case};
use crate::answer::{Room, answer_job};
use crate::job::{Block, Job, Seg};
use crate::make::breaks::break_rule;
use crate::make::rng::Rng;
use crate::make::{full, limits};
use crate::{entry, sheet};

/// As many blocks, or segments, are near what a sheet may have.
const MANY: [usize; 2] = [500, 1000];
static BOTH: [usize; 2] = [BLOCKS, SEGS];

pub fn cases() -> Vec<Case> {
    let mut cases = Vec::new();
    for rule in 2..=7 {
        cases.extend(beside(rule, rule, move |rng| broken(rng, rule)));
    }
    cases.extend(beside(8, 10, stopped));
    cases.extend(beside(9, 10, overfull));
    cases.extend(many(BLOCKS));
    cases.extend(many(SEGS));
    cases.push(case("2: a sum above 4,294,967,295".into(), wrapped));
    cases
}

/// Nearly as many lines of a record as a sheet may have, and more: then 2, and 1 before it.
fn many(record: usize) -> Vec<Case> {
    let above = move |rng: &mut Rng| above(rng, record);
    let below = move |rng: &mut Rng| below(rng, record);
    let name = NAMES[record];
    let records = &BOTH[record..=record];
    vec![
        case(
            format!("10: the last {name} of many: one more"),
            move |rng| edited(rng, below, records, last_one_more),
        ),
        case(format!("2: too many of {name}"), move |rng| {
            Draft::new(above(rng)).sheet()
        }),
        case(
            format!("2: too many of {name}, the last: one more"),
            move |rng| edited(rng, above, records, last_one_more),
        ),
        case(
            format!("1: too many of {name}, the last: a leading zero"),
            move |rng| edited(rng, above, records, last_leading_zero),
        ),
    ]
}

/// A cause with sound fields, twice; with a wrong one of either record, and of both; with one that is no number.
fn beside(cause: u8, wrong: u8, job: impl Fn(&mut Rng) -> Job + Copy + 'static) -> Vec<Case> {
    let sound = || {
        case(format!("{cause}: sound fields"), move |rng| {
            Draft::new(job(rng)).sheet()
        })
    };
    let with = |expected: u8, what: &str, records: &'static [usize], change: Edit| {
        let what = format!("{expected}: {what} beside {cause}");
        case(what, move |rng| edited(rng, job, records, change))
    };
    vec![
        sound(),
        sound(),
        with(wrong, "a wrong first instruction", &BOTH[..1], one_more),
        with(wrong, "a wrong set", &BOTH[1..], one_more),
        with(wrong, "both wrong", &BOTH, one_more),
        with(1, "a bad first instruction", &BOTH[..1], leading_zero),
        with(1, "a bad set", &BOTH[1..], leading_zero),
    ]
}

fn edited(rng: &mut Rng, job: impl Fn(&mut Rng) -> Job, records: &[usize], edit: Edit) -> Vec<u8> {
    let draft = |rng: &mut Rng| Draft::new(job(rng));
    until(rng, draft, |rng, mut draft| {
        for &record in records {
            edit(rng, &mut draft, record)?;
        }
        Some(draft.sheet())
    })
}

/// A job that falls to a test of 2 to 7.
fn broken(rng: &mut Rng, rule: u8) -> Job {
    until(rng, any_job, |rng, mut job| {
        break_rule(&mut job, rng, u32::from(rule));
        (entry::refusal(&job) == Some(rule)).then_some(job)
    })
}

fn number_of(job: &Job) -> Option<u8> {
    answer_job(job, Room::default()).number
}

fn stopped(rng: &mut Rng) -> Job {
    until(rng, any_job, |_, job| {
        (number_of(&job) == Some(8)).then_some(job)
    })
}

fn overfull(rng: &mut Rng) -> Job {
    let job = |rng: &mut Rng| {
        let seed = u64::from(rng.bits());
        full::make(rng, seed)
    };
    until(rng, job, |_, job| {
        (number_of(&job) == Some(9)).then_some(job)
    })
}

/// A job that passes the tests and has nearly as many lines of a record as it may.
fn below(rng: &mut Rng, record: usize) -> Job {
    let job = |rng: &mut Rng| sheet::read(&limits::make(rng).bytes);
    until(rng, job, |_, job| {
        let job = job.filter(|job| entry::refusal(job).is_none())?;
        let count = [job.blocks.len(), job.segs.len()][record];
        (count >= MANY[record]).then_some(job)
    })
}

/// A job with more lines of a record than it may have.
fn above(rng: &mut Rng, record: usize) -> Job {
    let mut job = any_job(rng);
    let more = rng.within((1, 100)) as usize;
    let last = job.uses.len();
    match record {
        BLOCKS => job.blocks.resize(512 + more, job.blocks[0]),
        _ => job.segs.resize(
            1024 + more,
            Seg {
                value: 0,
                from: 0,
                to: 4,
                flags: 0,
                uses: last..last,
            },
        ),
    }
    job
}

/// Blocks whose counts have a sum of more than 32 bits, and the low 32 bits of each sum behind them.
fn wrapped(rng: &mut Rng) -> Vec<u8> {
    let mut job = any_job(rng);
    let first = job.blocks[0];
    let most = |rng: &mut Rng| Block {
        insts: u32::MAX - rng.below(3),
        ..first
    };
    job.blocks.splice(..0, [most(rng), most(rng)]);
    let mut draft = Draft::new(job);
    let mut next = 0u32;
    for (text, block) in draft.texts[BLOCKS].iter_mut().zip(&draft.job.blocks) {
        *text = format!("\t{next}");
        next = next.wrapping_add(block.insts);
    }
    draft.sheet()
}

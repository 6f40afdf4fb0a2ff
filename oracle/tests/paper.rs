//! The rules of the paper, written down once more and run beside the reference.

mod model;

use std::env;

use oracle::answer::{Room, answer_job, tested};
use oracle::make::make;

/// How many times as many sheets are compared: PAPER_TIMES, or one.
fn times() -> usize {
    env::var("PAPER_TIMES").map_or(1, |times| times.parse().unwrap())
}

/// Compares `count` sheets of a profile, or PAPER_TIMES as many; answers with
/// how many had a result, and how many merges these have in all.
fn compare(profile: &str, count: u64) -> (usize, usize) {
    let (mut accepted, mut merges) = (0, 0);
    for seed in 1_000_000..1_000_000 + count * times() as u64 {
        let frame = make(profile, seed).unwrap();
        let Ok(job) = tested(&frame.bytes) else {
            continue;
        };
        let room = frame.room.unwrap_or_default();
        let found = answer_job(&job, room);
        let sheet = || String::from_utf8_lossy(&frame.bytes).into_owned();
        match model::run(&job, room.0) {
            (model, None) => {
                accepted += 1;
                merges += model.merges;
                assert_eq!(found.text, model.sheet(), "{profile} {seed}\n{}", sheet());
            }
            (_, Some(model::Refused::Stop(stop))) => {
                let cause = found.cause.as_deref();
                assert_eq!(cause, Some(stop), "{profile} {seed}\n{}", sheet());
                assert_eq!(found.number, Some(8));
            }
            (model, Some(model::Refused::Room)) => {
                assert_eq!(found.number, Some(9), "{profile} {seed}\n{}", sheet());
                assert!(!room.holds(Room(model.rows())));
            }
        }
    }
    (accepted, merges)
}

#[test]
fn room_is_the_default_of_the_paper() {
    assert_eq!(Room::default().0, [4096, 4096, 8192, 512]);
}

#[test]
fn small_jobs_agree() {
    assert!(compare("small", 20_000).0 > 10_000);
}

#[test]
fn class_jobs_agree() {
    assert!(compare("classes", 20_000).0 > 10_000);
}

#[test]
fn group_jobs_agree() {
    let (accepted, merges) = compare("groups", 20_000);
    assert!(accepted > 10_000 && merges > 1_000);
}

#[test]
fn hint_jobs_agree() {
    assert!(compare("hints", 20_000).0 > 10_000);
}

#[test]
fn float_jobs_agree() {
    assert!(compare("floats", 20_000).0 > 10_000);
}

#[test]
fn room_jobs_agree() {
    assert!(compare("rooms", 20_000).0 > 4_000);
}

#[test]
fn limit_jobs_agree() {
    assert!(compare("limits", 40).0 > 20);
}

#[test]
fn damaged_jobs_agree() {
    assert!(compare("damaged", 20_000).0 > 100);
}

#[test]
fn full_tables_agree() {
    assert!(compare("full-tables", 84).0 > 3);
}

#[test]
fn many_merges_agree() {
    let (accepted, merges) = compare("many-merges", 200);
    assert!(accepted == 200 * times() && merges > 1_600);
}

#[test]
fn long_sheets_agree() {
    assert!(compare("long-sheets", 45).0 > 10);
}

#[test]
fn leaning_jobs_agree() {
    assert!(compare("leaning", 20_000).0 > 10_000);
}

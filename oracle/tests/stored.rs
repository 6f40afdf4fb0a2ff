//! The stored answers of crates/replay: each held to the reference and to the model, and those of the first form counted
//! by kind. stored_forms.rs has the second.

mod model;
mod seven;
mod shelf;

use std::collections::{BTreeMap, BTreeSet};
use std::fs;

use model::Refused;
use oracle::answer::{Room, answer, tested};
use oracle::cuts;
use oracle::job::Job;
use oracle::run::run;
use shelf::{Stored, first_forms, here, stored, told};

const ROOM: [usize; 4] = [4096, 4096, 8192, 512];
const TABLES: [&str; 4] = ["registers", "segments", "uses", "groups"];
const LONG: usize = 20_000;
const PAGE: usize = 65_536;
const LEAST: usize = 60;

/// The stored answers of an outcome whose sheets pass the tests up to a number, with their jobs.
fn jobs<'a>(stored: &'a [Stored], outcome: &str) -> Vec<(&'a Stored, Job)> {
    let of = stored.iter().filter(|one| one.outcome == outcome);
    of.map(|one| (one, oracle::sheet::read(&one.sheet).unwrap()))
        .collect()
}

fn count(counts: &mut BTreeMap<String, usize>, name: &str, is: bool) {
    *counts.entry(name.to_string()).or_default() += usize::from(is);
}

/// What the model says of a sheet that passes tests 1 to 7.
fn second(job: &Job) -> String {
    match model::run(job, ROOM) {
        (model, None) => model.sheet(),
        (_, Some(Refused::Stop(_))) => "refused\t8\n".to_string(),
        (_, Some(Refused::Room)) => "refused\t9\n".to_string(),
    }
}

#[test]
fn every_answer_is_the_reference_s_and_the_model_s() {
    for one in stored() {
        let found = answer(&one.sheet, Room(ROOM));
        assert_eq!(found.text, one.answer, "{} {}", one.number, one.source);
        let outcome = found
            .number
            .map_or("accepted".to_string(), |number| format!("refused {number}"));
        assert_eq!(outcome, one.outcome, "{}", one.number);
        if let Ok(job) = tested(&one.sheet) {
            assert_eq!(second(&job), one.answer, "{} {}", one.number, one.source);
        }
    }
}

#[test]
fn the_marked_cases_stand_first() {
    let stored = first_forms();
    let samples = fs::read_dir(here("../docs/samples"))
        .unwrap()
        .map(|entry| entry.unwrap().path());
    let mut samples: Vec<_> = samples
        .filter(|path| path.extension().is_some_and(|ending| ending == "job"))
        .collect();
    samples.sort();
    for (path, one) in samples.iter().zip(&stored) {
        assert_eq!(fs::read(path).unwrap(), one.sheet);
    }
    assert_eq!(
        stored
            .iter()
            .filter(|one| one.source.starts_with("docs/"))
            .count(),
        samples.len()
    );
    told("first form", stored.len());
}

/// Every cause of 7 by itself, with every kind of use that can have it.
#[test]
fn seven_has_every_cause() {
    let stored = first_forms();
    let jobs = jobs(&stored, "refused 7");
    let mut found = BTreeMap::new();
    for (one, job) in &jobs {
        let cause = seven::only_cause(job);
        if let Some(tag) = one.what.strip_prefix("7: ") {
            let (cause, kind) = cause.unwrap_or_else(|| panic!("{}: more than {tag}", one.number));
            assert_eq!(
                tag.replace(", far", ""),
                format!("{cause}, kind {kind}"),
                "{}",
                one.number
            );
        }
        cause
            .into_iter()
            .for_each(|cause| *found.entry(cause).or_insert(0) += 1);
    }
    for (cause, kinds) in seven::CAUSES {
        let each: Vec<usize> = kinds
            .iter()
            .map(|&kind| found.get(&(cause, kind)).copied().unwrap_or(0))
            .collect();
        assert!(each.iter().all(|&times| times > 0), "{cause}: {each:?}");
        told(&format!("7: {cause}"), each.iter().sum());
    }
    assert!(jobs.len() >= LEAST);
    told("refused 7", jobs.len());
}

/// The table that the first register too many overfills. A register too many is a segment too many.
fn overfull(rows: [usize; 4]) -> &'static str {
    let over: Vec<usize> = (0..4).filter(|&table| rows[table] > ROOM[table]).collect();
    match over[..] {
        [0, 1] => TABLES[0],
        [table] => TABLES[table],
        _ => "several tables",
    }
}

/// The table of a 9, whether its rows are one too many in all, and whether a stop comes later.
fn nine(job: &Job) -> (&'static str, bool, bool) {
    let table = overfull(model::run(job, ROOM).0.rows());
    let (whole, later) = model::run(job, [usize::MAX; 4]);
    let place = TABLES.iter().position(|&name| name == table).unwrap();
    let by_one = whole.rows()[place] == ROOM[place] + 1;
    (table, by_one && later.is_none(), later.is_some())
}

#[test]
fn nine_has_every_table() {
    let stored = first_forms();
    let jobs = jobs(&stored, "refused 9");
    let mut counts = BTreeMap::new();
    for (one, job) in &jobs {
        let (table, by_one, later) = nine(job);
        let made_for = one.what.starts_with(&format!("9: {table}, "));
        assert!(one.what == "-" || made_for, "{} {table}", one.number);
        assert!(by_one || !one.what.contains("by one"), "{}", one.number);
        count(&mut counts, table, true);
        count(&mut counts, &format!("{table}, by one row in all"), by_one);
        count(&mut counts, "before a later 8", later);
    }
    for table in TABLES {
        let by_one = format!("{table}, by one row in all");
        assert!(counts[table] >= 12 && counts[&by_one] >= 5);
    }
    assert!(jobs.len() >= LEAST && counts["before a later 8"] >= 6);
    counts
        .iter()
        .for_each(|(name, &count)| told(&format!("9: {name}"), count));
    told("refused 9", jobs.len());
}

/// Accepted jobs that fill a table to the last place.
#[test]
fn full_tables_are_accepted() {
    let stored = first_forms();
    let mut counts = BTreeMap::new();
    for (one, job) in jobs(&stored, "accepted") {
        let rows = model::run(&job, ROOM).0.rows();
        let full: Vec<usize> = (0..4).filter(|&table| rows[table] == ROOM[table]).collect();
        assert!(
            !full.is_empty() || !one.what.starts_with("fits"),
            "{}",
            one.number
        );
        full.iter()
            .for_each(|&table| count(&mut counts, TABLES[table], true));
    }
    for table in TABLES {
        told(&format!("accepted, exactly full: {table}"), counts[table]);
    }
}

/// The stored answers that are 8 beside a 9, by what they are made for.
fn eights<'a>(stored: &'a [Stored], part: &str) -> Vec<(&'a Stored, Job)> {
    let jobs = jobs(stored, "refused 8").into_iter();
    jobs.filter(|(one, _)| one.what.starts_with("8: ") && one.what.contains(part))
        .collect()
}

#[test]
fn eight_comes_first_in_one_register() {
    let stored = first_forms();
    let both = eights(&stored, "in one register");
    let mut tables = BTreeSet::new();
    for (one, job) in &both {
        let (model, refused) = model::run(job, ROOM);
        let named = |table: &usize| one.what.contains(&format!("9 for {}", TABLES[*table]));
        let table = (0..4).find(named).unwrap();
        assert_eq!(model.rows()[table], ROOM[table], "{}", one.number);
        let placing = matches!(refused, Some(Refused::Stop("mapped-twice" | "overlap")));
        assert!(placing, "{}", one.number);
        tables.insert(table);
    }
    assert_eq!(tables.len(), 4);
    told("8: and 9 in one register", both.len());
    told("8: a table full before it", eights(&stored, "full").len());
}

/// Without the set that stops, the job is a 9.
#[test]
fn eight_comes_before_a_later_nine() {
    let stored = first_forms();
    let before = eights(&stored, "before 9");
    for (one, job) in &before {
        let stopped = model::run(job, ROOM).0.set;
        let mut others = job.clone();
        others
            .segs
            .retain(|seg| job.values[seg.value as usize].leader != stopped);
        let refused = model::run(&others, ROOM).1;
        assert!(matches!(refused, Some(Refused::Room)), "{}", one.number);
    }
    assert!(before.len() >= 6);
    told("8: before a later 9", before.len());
}

#[test]
fn groups_and_merges_are_many() {
    let stored = first_forms();
    let (mut some, mut hundreds) = (0, 0);
    for (_, job) in jobs(&stored, "accepted") {
        let model = model::run(&job, ROOM).0;
        some += usize::from(model.groups.len() >= 8 && model.merges >= 8);
        hundreds += usize::from(model.groups.len() >= 100 && model.merges >= 100);
    }
    assert!(some >= LEAST && hundreds >= 8);
    told("accepted, 8 or more groups and 8 or more merges", some);
    told(
        "accepted, 100 or more groups and 100 or more merges",
        hundreds,
    );
}

/// Accepted jobs with cuts of each kind, as the reference makes them.
#[test]
fn late_cuts_are_many() {
    let stored = first_forms();
    let mut counts = [0; cuts::NAMES.len()];
    for (_, job) in jobs(&stored, "accepted") {
        let kinds = cuts::counts(&job, &run(&job, None).log);
        let pairs = counts.iter_mut().zip(kinds);
        pairs.for_each(|(jobs, count)| *jobs += usize::from(count > 0));
    }
    for (name, jobs) in cuts::NAMES.iter().zip(counts) {
        assert!(jobs >= 20, "{name}");
        told(&format!("accepted, with {name}"), jobs);
    }
}

/// Long sheets, without those that are made to fill the tables.
#[test]
fn sheets_are_long() {
    let stored = first_forms();
    let made_to_fill =
        |one: &Stored| one.source.starts_with("full-tables") || one.outcome == "refused 9";
    let long = stored
        .iter()
        .filter(|one| one.sheet.len() > LONG && !made_to_fill(one));
    let long: Vec<&Stored> = long.collect();
    let outcomes: BTreeSet<&str> = long.iter().map(|one| &*one.outcome).collect();
    assert_eq!(outcomes.len(), 9, "accepted, and refused by 1 to 8");
    let (accepted, refused): (Vec<&Stored>, Vec<&Stored>) =
        long.iter().partition(|one| one.outcome == "accepted");
    let pages = accepted
        .iter()
        .filter(|one| one.sheet.len() > PAGE && one.answer.len() > PAGE);
    let refused = refused.iter().filter(|one| one.sheet.len() > PAGE);
    let two = pages.clone().filter(|one| one.answer.len() > 2 * PAGE);
    assert!(long.len() >= LEAST && pages.clone().count() >= 12);
    told(
        "sheet over 20,000 bytes, not made to fill tables",
        long.len(),
    );
    told("of these accepted", accepted.len());
    told("of these sheet and answer over 65,536 bytes", pages.count());
    told(
        "of these sheet over 65,536 bytes, answer over 131,072",
        two.count(),
    );
    told("of these sheet over 65,536 bytes, refused", refused.count());
}

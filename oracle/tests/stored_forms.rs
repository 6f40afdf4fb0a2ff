//! The stored answers of crates/replay in the second form: the rewritten sheets beside their first forms, and those made
//! in the second form.

mod shelf;

use std::collections::BTreeMap;

use oracle::answer::tested;
use oracle::make::{make, second_damaged_cases, second_form, what};
use shelf::{Stored, first_forms, stored, told};

/// The most bytes that a sheet of a frame may have.
const MOST: usize = 262_144;
const OF: &str = "second form of ";
const MADE: &str = "second-damaged ";
const SAMPLE: &str = "second form, ";

fn sources(all: &[Stored], prefix: &str) -> Vec<usize> {
    let numbers = all.iter().filter_map(|one| one.source.strip_prefix(prefix));
    numbers.map(|number| number.parse().unwrap()).collect()
}

/// Every sheet of the first form that is not too long then, rewritten, with the same answer.
#[test]
fn the_rewritten_sheets_have_their_answers() {
    let (first, all) = (first_forms(), stored());
    let short = |one: &&Stored| second_form(&one.sheet).len() <= MOST;
    let numbers: Vec<usize> = first.iter().filter(short).map(|one| one.number).collect();
    assert_eq!(sources(&all, OF), numbers);
    for one in all.iter().filter(|one| one.source.starts_with(OF)) {
        let number: usize = one.source[OF.len()..].parse().unwrap();
        let of = &all[number - 1];
        assert_eq!(second_form(&of.sheet), one.sheet, "{}", one.number);
        assert_eq!(
            (&of.answer, &of.outcome, &of.what),
            (&one.answer, &one.outcome, &one.what),
            "{}",
            one.number
        );
    }
    told("second form, rewritten", numbers.len());
    let left = first.len() - numbers.len();
    told("too long in the second form, left out", left);
    told("all", all.len());
}

/// Every case of the profile once, with the number that its name begins with.
#[test]
fn the_made_sheets_go_through_all_cases() {
    let all = stored();
    let seeds: Vec<u64> = (0..second_damaged_cases()).collect();
    assert!(
        sources(&all, MADE)
            .into_iter()
            .eq(seeds.iter().map(|&seed| seed as usize))
    );
    let made = all.iter().filter(|one| one.source.starts_with(MADE));
    for (one, seed) in made.zip(&seeds) {
        assert_eq!(Some(&one.what), what("second-damaged", *seed).as_ref());
        assert_eq!(one.sheet, make("second-damaged", *seed).unwrap().bytes);
        let expected = format!("refused {}", &one.what[..one.what.find(':').unwrap()]);
        assert!(
            expected == "refused any" || expected == one.outcome,
            "{}",
            one.number
        );
    }
    told("second form, made", seeds.len());
}

/// The samples of the second form stand last, with the oracle's answers.
#[test]
fn the_samples_of_the_second_form_are_among_them() {
    let all = stored();
    let samples = all.iter().filter(|one| one.source.starts_with(SAMPLE));
    let mut outcomes: Vec<&str> = Vec::new();
    for one in samples {
        let path = format!("../{}", &one.source[SAMPLE.len()..]);
        assert_eq!(std::fs::read(shelf::here(&path)).unwrap(), one.sheet);
        outcomes.push(&one.outcome);
    }
    assert_eq!(outcomes, ["accepted", "accepted", "refused 10"]);
    told("second form, samples", outcomes.len());
}

/// How many sheets have an outcome, by the form that they are made in.
#[test]
fn both_forms_have_every_number() {
    let mut counts: BTreeMap<(&str, String), usize> = BTreeMap::new();
    for one in stored() {
        let second = one.source.starts_with("second");
        let form = ["first form", "second form"][usize::from(second)];
        *counts.entry((form, one.outcome)).or_default() += 1;
    }
    let numbers = (1..=10).map(|number| format!("refused {number}"));
    for outcome in numbers.chain(["accepted".to_string()]) {
        for (form, least) in [("first form", 10), ("second form", 15)] {
            let count = counts.remove(&(form, outcome.clone())).unwrap_or(0);
            let none = form == "first form" && outcome == "refused 10";
            assert!((count >= least) != none, "{form} {outcome}: {count}");
            told(&format!("{form}, {outcome}"), count);
        }
    }
    assert!(counts.is_empty(), "{counts:?}");
}

/// Without what it writes each is a sheet of the first form that passes tests 1 to 7, and not what that is rewritten to.
#[test]
fn ten_is_about_the_written_fields_alone() {
    let all = stored();
    let tens = all.iter().filter(|one| one.outcome == "refused 10");
    for one in tens.clone() {
        let text = std::str::from_utf8(&one.sheet).unwrap();
        let records = text.strip_prefix("form\t2\n").unwrap();
        let bare: Vec<&str> = records.lines().map(bare).collect();
        let first = format!("{}\n", bare.join("\n"));
        assert!(tested(first.as_bytes()).is_ok(), "{}", one.number);
        assert_ne!(second_form(first.as_bytes()), one.sheet, "{}", one.number);
    }
    assert!(tens.count() >= 60);
}

/// A line without its written field.
fn bare(line: &str) -> &str {
    let written = line.starts_with("block\t") || line.starts_with("seg\t");
    let last = line.rfind('\t').filter(|_| written);
    &line[..last.unwrap_or(line.len())]
}

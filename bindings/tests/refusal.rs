//! The refusals: their numbers, names and words.

use cundzeli::Refusal;
use std::error::Error;

#[test]
fn numbers_go_from_1_to_9() {
    let numbers: Vec<u32> = Refusal::all()
        .iter()
        .map(|refusal| refusal.number())
        .collect();
    assert_eq!(numbers, (1..=9).collect::<Vec<_>>());
    for number in (0..1).chain(10..100).chain([u32::MAX]) {
        assert!(Refusal::try_from(number).is_err());
    }
}

/// In the order and by the names of the definition's enum.
#[test]
fn names_are_the_definitions() {
    let text = include_str!("../../crates/definition/src/lib.rt");
    let (_, cases) = text.split_once("pub enum Refusal {").expect("the enum");
    let (cases, _) = cases.split_once('}').expect("its end");
    let cases: Vec<&str> = cases
        .split(',')
        .map(str::trim)
        .filter(|case| !case.is_empty())
        .collect();
    assert_eq!(cases.len(), Refusal::all().len());
    for (case, refusal) in cases.iter().zip(Refusal::all()) {
        let (name, _) = case.split_once('(').unwrap_or((case, ""));
        assert_eq!(name, format!("{refusal:?}"));
    }
}

#[test]
fn a_refusal_is_an_error() {
    let error: Box<dyn Error + Send + Sync> = Refusal::BadHint.into();
    let words = "refused by 5: hint's value unknown, instruction above the count; keys falling";
    assert_eq!(error.to_string(), words);
    let causes: Vec<&str> = Refusal::all()
        .iter()
        .map(|refusal| refusal.causes())
        .collect();
    assert!(causes.iter().all(|cause| !cause.contains("  ")));
}

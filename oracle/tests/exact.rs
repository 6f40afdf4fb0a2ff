//! A short run over weights in exact numbers: all held, and the wrong readings are seen to fail.

use std::io;
use std::sync::OnceLock;

use oracle::exact::counts::Counts;
use oracle::exact::survey::Survey;

/// 55,132 weights.
fn short() -> &'static Survey {
    static SHORT: OnceLock<Survey> = OnceLock::new();
    SHORT.get_or_init(|| Survey::of(40, 1, &mut io::sink()).unwrap())
}

fn made(name: &str) -> &'static Counts {
    let found = short().made.iter().find(|(kind, _)| *kind == name);
    &found.unwrap().1
}

#[test]
fn all_weights_hold_and_wrong_readings_do_not() {
    let sum = short().sum();
    assert_eq!((short().differ(), sum.failed), (0, 0));
    assert!(sum.failed_by_25 > 1_000 && sum.failed_less_a_use > 1_000);
    assert_eq!(sum.weights, 55_132);
    assert!(sum.within > 40_000);
    assert!(short().held());
}

/// Damaged sheets are seldom accepted: so few may have no such weight.
#[test]
fn every_profile_has_weights_within_the_conditions() {
    let profiles = short().results.iter();
    for (profile, results) in profiles.filter(|(profile, _)| *profile != "damaged") {
        assert!(results.counts.within > 10, "{profile}");
    }
}

#[test]
fn every_kind_has_weights_on_its_sides_of_the_conditions() {
    for (kind, counts) in &short().made {
        assert!(counts.within > 10, "{kind}");
    }
    let both = [
        "any patterns",
        "subnormal frequency",
        "products near 2^-126",
        "quotients near 2^-126",
        "sums near overflow",
        "subnormal products",
    ];
    for kind in both {
        assert!(made(kind).outside() > 10, "{kind}");
    }
    assert!(made("subnormal products").failed_outside > 10);
}

#[test]
fn the_worst_shares_are_near_what_roundings_can_do() {
    assert!(made("one way, to 16 uses").worst_share() > 420_000_000);
    assert!(made("one way, 4096 uses").worst_share() > 490_000_000);
    for (uses, counts) in &short().climbed {
        assert!(counts.worst_share() > 200_000_000, "{uses}");
    }
}

#[test]
fn the_same_seed_writes_the_same_counts() {
    let written = |seed| {
        let mut text = Vec::new();
        let survey = Survey::of(1, seed, &mut text).unwrap();
        survey.write(&mut text).unwrap();
        String::from_utf8(text).unwrap()
    };
    assert_eq!(written(1), written(1));
    assert_ne!(written(1), written(2));
    assert!(written(1).ends_with("all held\n"));
}

//! `compare PROGRAM PROFILE SEED COUNT`: runs PROGRAM on each sheet of the seeds
//! from SEED on, as `PROGRAM < sheet`, and holds what it writes to the oracle's
//! answer in `vregs`'s room, byte for byte. Its exit status has to be 0.

use std::collections::BTreeMap;
use std::process::exit;

use oracle::answer::{Room, answer};
use oracle::child::run;
use oracle::make::{PROFILES, make};

fn main() {
    let args: Vec<String> = std::env::args().skip(1).collect();
    let words: Vec<&str> = args.iter().map(String::as_str).collect();
    let [program, profile, seed, count] = words[..] else {
        usage();
    };
    let (seed, count) = (number(seed), number(count));
    let mut kinds: BTreeMap<String, u64> = BTreeMap::new();
    let mut differ = 0;
    for seed in seed..seed + count {
        let sheet = make(profile, seed).unwrap_or_else(|| usage()).bytes;
        let found = answer(&sheet, Room::default());
        let kind = found
            .number
            .map_or("accepted".to_string(), |number| format!("refused {number}"));
        *kinds.entry(kind).or_default() += 1;
        match run(program, &sheet) {
            Ok(text) if text == found.text.as_bytes() => {}
            Ok(_) => {
                println!("{profile} {seed} differs");
                differ += 1;
            }
            Err(error) => {
                println!("{profile} {seed}: {error}");
                differ += 1;
            }
        }
    }
    let kinds: Vec<String> = kinds
        .iter()
        .map(|(kind, count)| format!("{kind}: {count}"))
        .collect();
    println!(
        "{profile}: {count} sheets from {seed}, {differ} differ ({})",
        kinds.join(", ")
    );
    exit(i32::from(differ > 0));
}

fn usage() -> ! {
    eprintln!("usage: compare PROGRAM PROFILE SEED COUNT");
    eprintln!("profiles: {}", PROFILES.join(" "));
    exit(2)
}

fn number(word: &str) -> u64 {
    word.parse().unwrap_or_else(|_| usage())
}

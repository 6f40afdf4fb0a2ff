//! `compare_forms PROGRAM PROFILE SEED COUNT`: runs PROGRAM on each sheet of a profile of the second form, of the seeds
//! from SEED on, as `PROGRAM < sheet`, and holds what it writes to the oracle's answer in `vregs`'s room, byte for byte.
//! Where the sheet is made from one of the first form that does not fall to test 1, PROGRAM runs on that too, and the
//! two outputs are held to each other. Every exit status has to be 0.

use std::collections::BTreeMap;
use std::process::exit;

use oracle::answer::{Room, answer};
use oracle::child::run;
use oracle::make::{first_form, make, second_form};
use oracle::sheet;

#[derive(Default)]
struct Counts {
    /// Sheets by answer: accepted, or the number.
    answers: BTreeMap<Option<u8>, u64>,
    differ: u64,
    /// Sheets that were given in both forms.
    both: u64,
    both_differ: u64,
}

fn main() {
    let args: Vec<String> = std::env::args().skip(1).collect();
    let words: Vec<&str> = args.iter().map(String::as_str).collect();
    let [program, profile, seed, count] = words[..] else {
        usage();
    };
    let (seed, count) = (number(seed), number(count));
    let mut counts = Counts::default();
    for seed in seed..seed + count {
        counts.add(program, profile, seed);
    }
    println!("{profile}: {count} sheets from {seed}, {}", counts.text());
    exit(i32::from(counts.differ + counts.both_differ > 0));
}

fn usage() -> ! {
    eprintln!("usage: compare_forms PROGRAM PROFILE SEED COUNT");
    eprintln!("profiles: second, second-damaged, and those of gen behind `second:`");
    exit(2)
}

fn number(word: &str) -> u64 {
    word.parse().unwrap_or_else(|_| usage())
}

impl Counts {
    fn add(&mut self, program: &str, profile: &str, seed: u64) {
        let first = first_form(profile, seed).map(|frame| frame.bytes);
        let second = match &first {
            Some(first) => second_form(first),
            None => make(profile, seed).unwrap_or_else(|| usage()).bytes,
        };
        let found = answer(&second, Room::default());
        *self.answers.entry(found.number).or_default() += 1;
        let output = run(program, &second);
        match &output {
            Ok(output) if output == found.text.as_bytes() => {}
            Ok(_) => self.differs(format!("{profile} {seed} differs")),
            Err(error) => self.differs(format!("{profile} {seed}: {error}")),
        }
        if let Some(first) = first.filter(|first| sheet::read(first).is_some()) {
            self.both += 1;
            if run(program, &first).ok() != output.ok() {
                self.both_differ += 1;
                println!("{profile} {seed} differs from its first form");
            }
        }
    }

    fn differs(&mut self, line: String) {
        self.differ += 1;
        println!("{line}");
    }

    fn text(&self) -> String {
        let name = |number: &Option<u8>| {
            number.map_or("accepted".to_string(), |number| format!("refused {number}"))
        };
        let answers: Vec<String> = self
            .answers
            .iter()
            .map(|(number, count)| format!("{}: {count}", name(number)))
            .collect();
        format!(
            "{} differ; {} in both forms, {} differ ({})",
            self.differ,
            self.both,
            self.both_differ,
            answers.join(", ")
        )
    }
}

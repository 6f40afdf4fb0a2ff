//! `compare_convert TO_FORM2 TO_FORM1 PROFILE SEED COUNT`: runs both programs on each sheet of the seeds from SEED on,
//! as `PROGRAM < sheet`, and holds what they write to the second reading of the conversions, byte for byte. Where a sheet
//! is converted, what the program wrote is given to the other program, which has to write the sheet again. Every exit
//! status has to be 0.

use std::collections::BTreeMap;
use std::process::exit;

use oracle::child::run;
use oracle::convert::{number, to_form1, to_form2};
use oracle::make::make;

/// One of the two programs.
struct Side<'a> {
    name: &'static str,
    program: &'a str,
    /// What it has to write.
    expected: fn(&[u8]) -> Vec<u8>,
    /// Sheets by answer: converted, or the number.
    answers: BTreeMap<Option<u8>, u64>,
}

#[derive(Default)]
struct Counts {
    /// Outputs that are not the second reading's.
    differ: u64,
    /// Converted sheets that were given to the other program.
    trips: u64,
    /// Those that did not come home.
    lost: u64,
}

fn main() {
    let args: Vec<String> = std::env::args().skip(1).collect();
    let words: Vec<&str> = args.iter().map(String::as_str).collect();
    let [second, first, profile, seed, count] = words[..] else {
        usage();
    };
    let (seed, count) = (parsed(seed), parsed(count));
    let mut sides = [
        side("to_form2", second, to_form2),
        side("to_form1", first, to_form1),
    ];
    let mut counts = Counts::default();
    for seed in seed..seed + count {
        let sheet = make(profile, seed).unwrap_or_else(|| usage()).bytes;
        counts.add(&mut sides, &sheet, &format!("{profile} {seed}"));
    }
    println!(
        "{profile}: {count} sheets from {seed}, {} differ; {} round trips, {} differ ({})",
        counts.differ,
        counts.trips,
        counts.lost,
        sides.each_ref().map(Side::text).join("; ")
    );
    exit(i32::from(counts.differ + counts.lost > 0));
}

fn usage() -> ! {
    eprintln!("usage: compare_convert TO_FORM2 TO_FORM1 PROFILE SEED COUNT");
    eprintln!("profiles: those of gen");
    exit(2)
}

fn parsed(word: &str) -> u64 {
    word.parse().unwrap_or_else(|_| usage())
}

fn side<'a>(name: &'static str, program: &'a str, expected: fn(&[u8]) -> Vec<u8>) -> Side<'a> {
    Side {
        name,
        program,
        expected,
        answers: BTreeMap::new(),
    }
}

impl Side<'_> {
    fn text(&self) -> String {
        let answers = self.answers.iter().map(|(number, count)| match number {
            None => format!("converted: {count}"),
            Some(number) => format!("refused {number}: {count}"),
        });
        let answers: Vec<String> = answers.collect();
        format!("{} {}", self.name, answers.join(", "))
    }
}

impl Counts {
    fn add(&mut self, sides: &mut [Side; 2], sheet: &[u8], which: &str) {
        for place in 0..2 {
            let other = sides[1 - place].program;
            let side = &mut sides[place];
            let expected = (side.expected)(sheet);
            *side.answers.entry(number(&expected)).or_default() += 1;
            let name = side.name;
            let output = match run(side.program, sheet) {
                Ok(output) => output,
                Err(error) => {
                    self.differ += 1;
                    println!("{which}: {name}: {error}");
                    continue;
                }
            };
            if output != expected {
                self.differ += 1;
                println!("{which}: {name} differs");
            }
            if number(&expected).is_none() {
                self.trips += 1;
                if run(other, &output).ok().as_deref() != Some(sheet) {
                    self.lost += 1;
                    println!("{which}: does not come home from {name}");
                }
            }
        }
    }
}

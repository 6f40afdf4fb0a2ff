//! `exact [PER_PROFILE [SEED]]`: holds weights to their exact values in whole
//! numbers, those of generated sheets and those made to round badly. The exit
//! status is 0 if all held and 1 if not, or if a write failed.
//! `exact --words`: sheet frames on standard input, and an answer frame for
//! each that says what the theorem says of its registers.

use std::io::{self, BufWriter, Write};
use std::process::exit;

use oracle::exact::survey::Survey;
use oracle::exact::words::words;
use oracle::frames;

const PER_PROFILE: u64 = 10_000;

fn main() {
    let args: Vec<String> = std::env::args().skip(1).collect();
    let given: Vec<&str> = args.iter().map(String::as_str).collect();
    let done = match given[..] {
        [] => run(PER_PROFILE, 1),
        ["--words"] => stream(),
        [per_profile] => run(number(per_profile), 1),
        [per_profile, seed] => run(number(per_profile), number(seed)),
        _ => usage(),
    };
    match done {
        Ok(held) => exit(i32::from(!held)),
        Err(error) => {
            eprintln!("exact: the output is cut: {error}");
            exit(1);
        }
    }
}

fn stream() -> io::Result<bool> {
    let mut input = io::stdin().lock();
    let mut out = BufWriter::new(io::stdout().lock());
    while let Some(frame) = frames::read(&mut input)? {
        let said = words(&frame.bytes);
        writeln!(out, "answer\t{}\t-", said.len())?;
        out.write_all(said.as_bytes())?;
    }
    out.flush()?;
    Ok(true)
}

fn usage() -> ! {
    eprintln!("usage: exact [PER_PROFILE [SEED]]");
    eprintln!("       exact --words");
    exit(2)
}

fn number(word: &str) -> u64 {
    word.parse().unwrap_or_else(|_| usage())
}

fn run(per_profile: u64, seed: u64) -> io::Result<bool> {
    let mut out = io::stdout().lock();
    let survey = Survey::of(per_profile, seed, &mut out)?;
    survey.write(&mut out)?;
    out.flush()?;
    Ok(survey.held())
}

//! `gen PROFILE SEED`: one sheet. `gen PROFILE SEED COUNT`: frames of the seeds
//! from SEED on. `gen --stats PROFILE SEED COUNT`: what comes up in them.
//! `gen --threes PROFILE SEED COUNT`: six frames for each seed, the three pairs of three sheets near one another.
//! `gen --second`: the sheet on standard input, rewritten into the second form.
//! `gen --cases`: how many cases `second-damaged` goes through.
//! `gen --largest [tied|group]`: a sheet of the first form at every limit at once, with tied uses or with group uses.

use std::env;
use std::io::{self, BufWriter, Read, Write};
use std::process::exit;

use oracle::frames::{self, Frame};
use oracle::make::{
    LargestUses, PROFILES, largest, make, second_damaged_cases, second_form, sheet_of, three,
};
use oracle::tally::Tally;

fn main() {
    let args: Vec<String> = env::args().skip(1).collect();
    let words: Vec<&str> = args.iter().map(String::as_str).collect();
    let done = match words[..] {
        ["--second"] => second(),
        ["--cases"] => writeln!(io::stdout(), "{}", second_damaged_cases()),
        ["--largest"] | ["--largest", "tied"] => largest_sheet(LargestUses::Tied),
        ["--largest", "group"] => largest_sheet(LargestUses::Group),
        ["--stats", profile, seed, count] => stats(profile, number(seed), number(count)),
        ["--threes", profile, seed, count] => threes(profile, number(seed), number(count)),
        [profile, seed] => one(profile, number(seed)),
        [profile, seed, count] => many(profile, number(seed), number(count)),
        _ => usage(),
    };
    if let Err(error) = done {
        eprintln!("gen: {error}");
        exit(2);
    }
}

fn usage() -> ! {
    eprintln!("usage: gen [--stats] PROFILE SEED [COUNT]");
    eprintln!("       gen --threes PROFILE SEED COUNT");
    eprintln!("       gen --second");
    eprintln!("       gen --cases");
    eprintln!("       gen --largest [tied|group]");
    eprintln!("profiles: {}", PROFILES.join(" "));
    eprintln!("second second-damaged, and each of these behind `second:`");
    exit(2)
}

fn number(word: &str) -> u64 {
    word.parse().unwrap_or_else(|_| usage())
}

fn sheet(profile: &str, seed: u64) -> Frame {
    make(profile, seed).unwrap_or_else(|| usage())
}

fn one(profile: &str, seed: u64) -> io::Result<()> {
    let frame = sheet(profile, seed);
    if let Some(room) = frame.room {
        eprintln!("room {}", room.text());
    }
    io::stdout().write_all(&frame.bytes)
}

fn second() -> io::Result<()> {
    let mut sheet = Vec::new();
    io::stdin().read_to_end(&mut sheet)?;
    io::stdout().write_all(&second_form(&sheet))
}

fn largest_sheet(uses: LargestUses) -> io::Result<()> {
    io::stdout().write_all(&sheet_of(&largest(uses)))
}

fn many(profile: &str, seed: u64, count: u64) -> io::Result<()> {
    let mut out = BufWriter::new(io::stdout().lock());
    for seed in seed..seed + count {
        frames::write(&mut out, &sheet(profile, seed))?;
    }
    out.flush()
}

fn threes(profile: &str, seed: u64, count: u64) -> io::Result<()> {
    let mut out = BufWriter::new(io::stdout().lock());
    for seed in seed..seed + count {
        let sheets = three(profile, seed).unwrap_or_else(|| usage());
        for place in [0, 1, 1, 2, 0, 2] {
            let bytes = sheets[place].clone();
            frames::write(&mut out, &Frame { bytes, room: None })?;
        }
    }
    out.flush()
}

fn stats(profile: &str, seed: u64, count: u64) -> io::Result<()> {
    let mut tally = Tally::default();
    for seed in seed..seed + count {
        let odd = tally.odd.len();
        tally.add(&sheet(profile, seed));
        if tally.odd.len() > odd {
            println!("seed {seed}: {}", tally.odd[odd]);
        }
    }
    print!("{}", tally.table());
    Ok(())
}

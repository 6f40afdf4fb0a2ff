//! `store FOLDER PROFILE SEED COUNT [MOST_BYTES]`: writes sheets and their
//! answers, and a line for each into FOLDER/manifest. Numbers go on where the
//! manifest ends; sheets of more than MOST_BYTES are left out.

use std::fs::{self, OpenOptions};
use std::io::{self, BufWriter, Write};
use std::path::Path;
use std::process::exit;

use oracle::answer::{Room, answer};
use oracle::make::{make, what};

fn main() {
    let args: Vec<String> = std::env::args().skip(1).collect();
    let words: Vec<&str> = args.iter().map(String::as_str).collect();
    let (folder, profile, seed, count, most) = match words[..] {
        [folder, profile, seed, count] => (folder, profile, seed, count, usize::MAX),
        [folder, profile, seed, count, most] => {
            (folder, profile, seed, count, number(most) as usize)
        }
        _ => usage(),
    };
    let seeds = number(seed)..number(seed) + number(count);
    if let Err(error) = store(Path::new(folder), profile, seeds, most) {
        eprintln!("store: {error}");
        exit(2);
    }
}

fn usage() -> ! {
    eprintln!("usage: store FOLDER PROFILE SEED COUNT [MOST_BYTES]");
    exit(2)
}

fn number(word: &str) -> u64 {
    word.parse().unwrap_or_else(|_| usage())
}

fn store(folder: &Path, profile: &str, seeds: std::ops::Range<u64>, most: usize) -> io::Result<()> {
    fs::create_dir_all(folder)?;
    let path = folder.join("manifest");
    let mut next = fs::read_to_string(&path).map_or(0, |text| text.lines().count());
    let file = OpenOptions::new().append(true).create(true).open(path)?;
    let mut manifest = BufWriter::new(file);
    for seed in seeds {
        let frame = make(profile, seed).unwrap_or_else(|| usage());
        if frame.bytes.len() > most {
            continue;
        }
        let found = answer(&frame.bytes, frame.room.unwrap_or_default());
        let (job, out) = (format!("{next:04}.job"), format!("{next:04}.out"));
        fs::write(folder.join(&job), &frame.bytes)?;
        fs::write(folder.join(&out), &found.text)?;
        let room = frame.room.map_or("-".to_string(), Room::text);
        let stop = found.cause.as_deref().unwrap_or("-");
        let what = what(profile, seed).unwrap_or("-".to_string());
        writeln!(
            manifest,
            "{job}\t{out}\t{room}\t{stop}\t{profile} {seed}\t{what}"
        )?;
        next += 1;
    }
    manifest.flush()
}

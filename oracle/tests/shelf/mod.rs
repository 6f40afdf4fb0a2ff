//! The stored answers, read with their lines of stored.txt, and what the README says of them.

use std::path::Path;
use std::{env, fs};

/// A stored answer with its line of stored.txt.
pub struct Stored {
    pub number: usize,
    pub source: String,
    pub what: String,
    pub outcome: String,
    pub sheet: Vec<u8>,
    pub answer: String,
}

pub fn here(path: &str) -> std::path::PathBuf {
    Path::new(env!("CARGO_MANIFEST_DIR")).join(path)
}

/// Sheets and answers: a line of two numbers of eight digits parted by a tab, then the bytes of both.
fn frames() -> Vec<(Vec<u8>, String)> {
    let all = fs::read(here("../crates/replay/stdin")).unwrap();
    let (mut frames, mut rest) = (Vec::new(), &all[..]);
    while !rest.is_empty() {
        assert_eq!((rest[8], rest[17]), (b'\t', b'\n'));
        let number = |bytes: &[u8]| {
            std::str::from_utf8(bytes)
                .unwrap()
                .parse::<usize>()
                .unwrap()
        };
        let (sheet, answer) = (number(&rest[..8]), number(&rest[9..17]));
        assert!(sheet <= 262_144 && answer <= 524_288);
        let (frame, behind) = rest[18..].split_at(sheet + answer);
        frames.push((
            frame[..sheet].to_vec(),
            String::from_utf8(frame[sheet..].to_vec()).unwrap(),
        ));
        rest = behind;
    }
    frames
}

pub fn stored() -> Vec<Stored> {
    let lines = fs::read_to_string(here("stored.txt")).unwrap();
    let frames = frames();
    assert_eq!(lines.lines().count(), frames.len());
    let mut stored = Vec::new();
    for (place, (line, (sheet, answer))) in lines.lines().zip(frames).enumerate() {
        let fields: Vec<&str> = line.split('\t').collect();
        let [number, source, bytes, answer_bytes, outcome, what] = fields[..] else {
            panic!("{line}");
        };
        let sizes = (sheet.len().to_string(), answer.len().to_string());
        assert_eq!(
            (number, bytes, answer_bytes),
            (&*(place + 1).to_string(), &*sizes.0, &*sizes.1)
        );
        let [source, what, outcome] = [source, what, outcome].map(str::to_string);
        stored.push(Stored {
            number: place + 1,
            source,
            what,
            outcome,
            sheet,
            answer,
        });
    }
    stored
}

/// Those whose sheets were made in the first form.
pub fn first_forms() -> Vec<Stored> {
    let all = stored().into_iter();
    all.filter(|one| !one.source.starts_with("second"))
        .collect()
}

/// The table of the README has a line for each of the counts. STORED_TABLE prints them instead.
pub fn told(name: &str, count: usize) {
    let readme = fs::read_to_string(here("README.md")).unwrap();
    let line = format!("| {name} | {count} |");
    if env::var_os("STORED_TABLE").is_some() {
        return println!("{line}");
    }
    assert!(readme.contains(&line), "README.md lacks the line {line}");
}

//! Binary jobs damaged: cut off, added to, words drawn anew, counts changed, choices off their lists.

use super::binary::{CLASSES, HEADER, HINTS, REGS, SEGMENTS, USES, VALUES, VGROUPS, WIDTHS};
use super::binary::{joined, tables, words};
use super::random::Random;
use oracle::job::USE_FIELDS;

/// Numbers at which something ends.
const EDGES: [u32; 32] = [
    0,
    1,
    2,
    3,
    4,
    7,
    8,
    9,
    10,
    15,
    16,
    31,
    32,
    33,
    255,
    256,
    257,
    511,
    512,
    513,
    1024,
    1025,
    4096,
    4097,
    16_384,
    65_535,
    65_536,
    0x3f80_0000,
    0x7f80_0000,
    0x8000_0000,
    0x7fff_ffff,
    u32::MAX,
];

/// What the header has behind the counts.
fn options(words: &[u32]) -> [u32; 4] {
    let options = &words[WIDTHS.len()..HEADER];
    options.try_into().expect("four words")
}

fn to_bytes(words: &[u32]) -> Vec<u8> {
    words.iter().flat_map(|word| word.to_le_bytes()).collect()
}

fn drawn(random: &mut Random, old: u32) -> u32 {
    match random.below(6) {
        0 => old.wrapping_add(1),
        1 => old.wrapping_sub(1),
        2 => random.word(),
        3 => old ^ 1 << random.below(32),
        _ => random.pick(&EDGES),
    }
}

/// One change or two to a job that was in order.
pub fn damaged(job: &[u8], random: &mut Random) -> Vec<u8> {
    let mut bytes = job.to_vec();
    for _ in 0..1 + random.below(2) {
        match random.below(20) {
            0 => in_length(&mut bytes, random),
            1 => in_bytes(&mut bytes, random),
            2 => in_counts(&mut bytes, random),
            3 => fresh(&mut bytes, random),
            4..=7 => in_words(&mut bytes, random),
            8..=10 => off_list(&mut bytes, random),
            _ => in_rows(&mut bytes, random),
        }
    }
    bytes
}

fn in_length(bytes: &mut Vec<u8>, random: &mut Random) {
    match random.below(4) {
        0 => bytes.truncate(random.below(bytes.len() + 1)),
        1 => bytes.truncate(bytes.len().saturating_sub(1 + random.below(8))),
        2 => bytes.extend((0..1 + random.below(40)).map(|_| random.next() as u8)),
        _ => bytes.truncate(random.below(4 * HEADER + 5)),
    }
}

fn in_bytes(bytes: &mut Vec<u8>, random: &mut Random) {
    if bytes.is_empty() {
        return;
    }
    let at = random.below(bytes.len());
    match random.below(3) {
        0 => bytes[at] = random.next() as u8,
        1 => bytes.insert(at, random.next() as u8),
        _ => drop(bytes.remove(at)),
    }
}

fn in_words(bytes: &mut Vec<u8>, random: &mut Random) {
    let Some(mut words) = words(bytes).filter(|words| !words.is_empty()) else {
        return;
    };
    let at = random.below(words.len());
    match random.below(8) {
        0 => words.insert(at, random.pick(&EDGES)),
        1 => drop(words.remove(at)),
        2 => {
            let other = random.below(words.len());
            words.swap(at, other);
        }
        _ => words[at] = drawn(random, words[at]),
    }
    *bytes = to_bytes(&words);
}

/// A word of the header, the rows left as they are.
fn in_counts(bytes: &mut Vec<u8>, random: &mut Random) {
    let Some(mut words) = words(bytes).filter(|words| words.len() >= HEADER) else {
        return;
    };
    let at = random.below(HEADER);
    words[at] = drawn(random, words[at]);
    *bytes = to_bytes(&words);
}

/// Rows left out, doubled, swapped or drawn anew, and the header true to them.
fn in_rows(bytes: &mut Vec<u8>, random: &mut Random) {
    let Some(words) = words(bytes) else {
        return;
    };
    let Some(mut rows) = tables(&words) else {
        return;
    };
    let number = random.below(WIDTHS.len());
    let table = &mut rows[number];
    let at = random.below(table.len() + 1);
    let new = || vec![0; WIDTHS[number]];
    match random.below(6) {
        0 => table.insert(at, table.first().cloned().unwrap_or_else(new)),
        1 if at < table.len() => drop(table.remove(at)),
        2 if at < table.len() => table.swap(0, at),
        3 => table.clear(),
        4 if at < table.len() => {
            let place = random.below(WIDTHS[number]);
            table[at][place] = drawn(random, table[at][place]);
        }
        5 => table.insert(
            at,
            (0..WIDTHS[number]).map(|_| random.pick(&EDGES)).collect(),
        ),
        _ => {}
    }
    *bytes = joined(options(&words), &rows);
}

/// Bytes that never were a job.
fn fresh(bytes: &mut Vec<u8>, random: &mut Random) {
    *bytes = match random.below(16) {
        0 => Vec::new(),
        1 => vec![0; 4 * HEADER],
        2 => vec![0xff; 4 * (HEADER + random.below(20))],
        3 => (0..random.below(200))
            .map(|_| random.next() as u8)
            .collect(),
        4 => to_bytes(
            &(0..HEADER + random.below(40))
                .map(|_| random.pick(&EDGES))
                .collect::<Vec<_>>(),
        ),
        _ => return,
    }
}

/// The place of a choice in a row of a table, and its greatest number.
const CHOICES: [(usize, usize, u32); 6] = [
    (CLASSES, 3, 1),
    (REGS, 0, 1),
    (VALUES, 2, 3),
    (HINTS, 2, 1),
    (SEGMENTS, 3, 15),
    (USES, 0, 9),
];

/// A choice, kind or use count at or off its list.
fn off_list(bytes: &mut Vec<u8>, random: &mut Random) {
    let Some(words) = words(bytes) else {
        return;
    };
    let Some(mut rows) = tables(&words) else {
        return;
    };
    let counts = [(SEGMENTS, 4, words[USES])];
    let (table, place, most) = match random.below(3) {
        0 => counts[0],
        _ => random.pick(&CHOICES),
    };
    if rows[table].is_empty() {
        return;
    }
    let row = random.below(rows[table].len());
    let word = &mut rows[table][row][place];
    *word = match random.below(4) {
        0 => most,
        1 => most.wrapping_add(1),
        2 => random.below(most as usize + 1) as u32,
        _ => drawn(random, *word),
    };
    *bytes = joined(options(&words), &rows);
}

/// The same job with other words where none are read.
pub fn littered(job: &[u8], random: &mut Random) -> Vec<u8> {
    let words = words(job).expect("a job in order");
    let mut rows = tables(&words).expect("a job in order");
    for row in &mut rows[VGROUPS] {
        let unread = 1 + (row[0] as usize).min(8);
        row[unread..].fill_with(|| random.word());
    }
    for row in &mut rows[USES] {
        let unread = 2 + USE_FIELDS[row[0] as usize];
        row[unread..].fill_with(|| random.word());
    }
    joined(options(&words), &rows)
}

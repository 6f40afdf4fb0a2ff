//! Damaged files, thousands of them, the same each time: no panic, and a whole picture of each.

mod common;

use common::{Dice, Pair, pairs, xml_fault};
use drawing::draw;

const ROUNDS: usize = 200;

/// Small pairs, of which many can be tried.
fn small() -> Vec<Pair> {
    pairs().into_iter().filter(|pair| pair.job.len() < 1500).collect()
}

fn damaged(dice: &mut Dice, sheet: &[u8]) -> Vec<u8> {
    let mut bytes = sheet.to_vec();
    for _ in 0..=dice.below(3) {
        match dice.below(8) {
            0 => flip(dice, &mut bytes),
            1 => bytes.truncate(dice.below(bytes.len() + 1)),
            2 => lines(dice, &mut bytes, |all, at, _| drop(all.remove(at))),
            3 => lines(dice, &mut bytes, |all, at, other| all.insert(other, all[at].clone())),
            4 => lines(dice, &mut bytes, |all, at, other| all.swap(at, other)),
            5 => insert(dice, &mut bytes),
            _ => number(dice, &mut bytes),
        }
    }
    bytes
}

fn flip(dice: &mut Dice, bytes: &mut [u8]) {
    let at = dice.below(bytes.len());
    if let Some(byte) = bytes.get_mut(at) {
        *byte = dice.roll() as u8;
    }
}

fn insert(dice: &mut Dice, bytes: &mut Vec<u8>) {
    let at = dice.below(bytes.len() + 1);
    let parts: [&[u8]; 8] =
        [b"\n", b"\t", b"\t0", b"<&>\"'", b"\xff\x00", b"seg\t0\t0\t4\t0\n", b"end\n", b"form\t2\n"];
    bytes.splice(at..at, parts[dice.below(parts.len())].iter().copied());
}

/// Damage to whole lines.
fn lines(dice: &mut Dice, bytes: &mut Vec<u8>, damage: impl Fn(&mut Vec<Vec<u8>>, usize, usize)) {
    let mut all: Vec<Vec<u8>> = bytes.split_inclusive(|&byte| byte == b'\n').map(<[u8]>::to_vec).collect();
    if !all.is_empty() {
        let (at, other) = (dice.below(all.len()), dice.below(all.len()));
        damage(&mut all, at, other);
    }
    *bytes = all.concat();
}

/// Another number, an extreme one too, in the place of a field.
fn number(dice: &mut Dice, bytes: &mut Vec<u8>) {
    let numbers = ["0", "1", "3", "7", "4294967295", "4294967294", "65536", "-", "1073741824", "7fc00000", "ffffffff"];
    let starts: Vec<usize> = (0..bytes.len()).filter(|&at| bytes[at] == b'\t').collect();
    if let Some(&start) = starts.get(dice.below(starts.len())) {
        let length = bytes[start + 1..].iter().take_while(|&&byte| byte != b'\t' && byte != b'\n').count();
        let with = numbers[dice.below(numbers.len())];
        bytes.splice(start + 1..start + 1 + length, with.bytes());
    }
}

fn tried(job: &[u8], out: &[u8]) {
    let drawing = draw(job, out);
    let fault = xml_fault(&drawing.svg);
    assert_eq!(fault, None, "{}\n{}", String::from_utf8_lossy(job), String::from_utf8_lossy(out));
}

#[test]
fn damaged_job_sheets() {
    let mut dice = Dice(1);
    for pair in small() {
        (0..ROUNDS).for_each(|_| tried(&damaged(&mut dice, &pair.job), &pair.out));
    }
}

#[test]
fn damaged_register_sheets() {
    let mut dice = Dice(2);
    for pair in small() {
        (0..ROUNDS).for_each(|_| tried(&pair.job, &damaged(&mut dice, &pair.out)));
    }
}

#[test]
fn both_damaged() {
    let mut dice = Dice(3);
    for pair in pairs() {
        let rounds = if pair.job.len() < 1500 { ROUNDS } else { 20 };
        (0..rounds).for_each(|_| tried(&damaged(&mut dice, &pair.job), &damaged(&mut dice, &pair.out)));
    }
}

#[test]
fn noise() {
    let mut dice = Dice(4);
    for round in 0..2000 {
        let mut bytes = |most| (0..dice.below(most)).map(|_| dice.roll() as u8).collect::<Vec<u8>>();
        let (job, out) = (bytes(round / 4 + 1), bytes(round / 4 + 1));
        tried(&job, &out);
    }
}

/// Every cut of a register sheet is told, or is an answer that is whole.
#[test]
fn cut_register_sheets_are_told() {
    for pair in small() {
        for length in 0..pair.out.len() {
            let drawing = draw(&pair.job, &pair.out[..length]);
            assert!(drawing.svg.contains(">The register sheet is cut</text>"), "{} at {length}", pair.name);
            assert!(!drawing.remarks.is_empty());
        }
    }
}

/// Rows, uses, groups and blocks beyond what a job can have are left out, and the picture says so.
#[test]
fn too_much_is_left_out() {
    let head = "opt\t0\t3f800000\t3f800000\t3f800000\nbank\t0\nclass\t00000001\t3f800000\t1\t0\n";
    let job = |more: &str| format!("{head}{more}end\n").into_bytes();
    let block = "block\t4294967295\t3f800000\n";
    let value = "value\t0\t0\t0\n";
    let cases = [
        job(&(block.to_string() + value + &"seg\t0\t0\t4294967295\t0\n".repeat(5000))),
        job(&(block.to_string() + value + "seg\t0\t0\t4\t0\n" + &"use\t4\t0\t0\t0\n".repeat(9000))),
        job(&block.repeat(5000)),
    ];
    for sheet in &cases {
        let drawing = draw(sheet, b"refused\t2\n");
        assert_eq!(xml_fault(&drawing.svg), None);
        assert!(drawing.svg.contains(">Not all is drawn</text>"));
        assert!(drawing.svg.len() < 8_000_000);
    }
    let groups = draw(&cases[2], ("group\t0\t0\t-\n".repeat(3000) + "end\t0\t3000\n").as_bytes());
    assert!(groups.svg.contains(">Not all is drawn</text>"));
}

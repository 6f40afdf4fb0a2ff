//! Sheets damaged in their bytes, their fields or their rules.

use super::breaks::break_rule;
use super::rng::Rng;
use super::write::sheet_of;
use super::{soup, style};

const BYTES: &[u8] = b"\0\t\n\r 0123456789abcdefABCDEFx+-._gosv\x7f\x80\xff";

const FIELDS: &[&str] = &[
    "",
    "0",
    "00",
    "01",
    "1",
    "2",
    "3",
    "4",
    "7",
    "8",
    "9",
    "10",
    "15",
    "16",
    "31",
    "32",
    "33",
    "255",
    "256",
    "512",
    "1024",
    "4096",
    "4097",
    "16384",
    "65535",
    "65536",
    "16777216",
    "4294967295",
    "4294967296",
    "9999999999",
    "18446744073709551616",
    "-1",
    "+1",
    "1 ",
    " 1",
    "0x1",
    "1e3",
    "3f800000",
    "3F800000",
    "7f800000",
    "80000000",
    "ffffffff",
    "7fc00000",
    "-",
    "own",
    "use",
    "end",
    "\u{0}",
];

const NAMES: &[&str] = &[
    "opt", "bank", "class", "reg", "block", "value", "vgroup", "operand", "hint", "seg", "use",
    "end", "vreg", "group", "Opt", "",
];

pub fn make(rng: &mut Rng) -> Vec<u8> {
    let profile = rng.pick(&["small", "small", "groups", "hints", "floats"]);
    let mut job = soup::make(rng, &style::of(profile).unwrap());
    if rng.chance(45) {
        for _ in 0..rng.within((1, 2)) {
            let rule = rng.within((2, 7));
            break_rule(&mut job, rng, rule);
        }
        let sheet = sheet_of(&job);
        return if rng.chance(10) {
            in_bytes(rng, sheet)
        } else {
            sheet
        };
    }
    let sheet = sheet_of(&job);
    match rng.below(3) {
        0 => in_bytes(rng, sheet),
        1 => in_lines(rng, sheet),
        _ => in_fields(rng, sheet),
    }
}

pub fn in_bytes(rng: &mut Rng, mut sheet: Vec<u8>) -> Vec<u8> {
    for _ in 0..rng.within((1, 2)) {
        let at = rng.below(sheet.len() as u32) as usize;
        match rng.below(6) {
            0 => sheet[at] = rng.pick(BYTES),
            1 => sheet.insert(at, rng.pick(BYTES)),
            2 => drop(sheet.remove(at)),
            3 => sheet.truncate(at.max(1)),
            4 => sheet[at] = rng.bits() as u8,
            _ => ends(rng, &mut sheet),
        }
        if sheet.is_empty() {
            return sheet;
        }
    }
    sheet
}

/// Damage at the ends of lines and of the sheet.
fn ends(rng: &mut Rng, sheet: &mut Vec<u8>) {
    match rng.below(6) {
        0 => drop(sheet.pop()),
        1 => sheet.push(b'\n'),
        2 => sheet.extend_from_slice(b"end\n"),
        3 => sheet.push(0),
        4 => {
            *sheet = sheet
                .split(|&b| b == b'\n')
                .collect::<Vec<_>>()
                .join(&b"\r\n"[..])
        }
        _ => sheet.clear(),
    }
}

pub fn lines_of(sheet: &[u8]) -> Vec<Vec<u8>> {
    let body = sheet.strip_suffix(b"\n").unwrap_or(sheet);
    body.split(|&byte| byte == b'\n')
        .map(<[u8]>::to_vec)
        .collect()
}

pub fn sheet_from(lines: &[Vec<u8>]) -> Vec<u8> {
    lines
        .iter()
        .flat_map(|line| [&line[..], b"\n"].concat())
        .collect()
}

pub fn in_lines(rng: &mut Rng, sheet: Vec<u8>) -> Vec<u8> {
    let mut lines = lines_of(&sheet);
    let at = rng.below(lines.len() as u32) as usize;
    let other = rng.below(lines.len() as u32) as usize;
    match rng.below(5) {
        0 => drop(lines.remove(at)),
        1 => lines.insert(at, lines[other].clone()),
        2 => lines.swap(at, other),
        3 => lines.insert(at, Vec::new()),
        _ => {
            let name = rng.pick(NAMES);
            let end = lines[at]
                .iter()
                .position(|&b| b == b'\t')
                .unwrap_or(lines[at].len());
            lines[at].splice(..end, name.bytes());
        }
    }
    sheet_from(&lines)
}

pub fn in_fields(rng: &mut Rng, sheet: Vec<u8>) -> Vec<u8> {
    let mut lines = lines_of(&sheet);
    for _ in 0..rng.within((1, 2)) {
        let at = rng.below(lines.len() as u32) as usize;
        let mut fields: Vec<Vec<u8>> = lines[at]
            .split(|&b| b == b'\t')
            .map(<[u8]>::to_vec)
            .collect();
        let place = rng.below(fields.len() as u32) as usize;
        let drawn = rng.pick(FIELDS).as_bytes().to_vec();
        match rng.below(8) {
            0 => drop(fields.remove(place)),
            1 => fields.insert(place, drawn),
            2 => fields.push(drawn),
            3 => fields[place].insert(0, b'0'),
            4 => fields[place].make_ascii_uppercase(),
            _ if fields.len() > 1 => fields[place.max(1)] = drawn,
            _ => fields[place] = drawn,
        }
        lines[at] = fields.join(&b'\t');
    }
    sheet_from(&lines)
}

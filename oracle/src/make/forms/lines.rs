//! The form line changed, moved, doubled or left out; written fields where none belongs.

use super::draft::{Draft, any_job, until};
use super::rewrite::{BLOCKS, SEGS, record};
use super::{Case, case};
use crate::form;
use crate::make::damage::{lines_of, sheet_from};
use crate::make::rng::Rng;

/// What may stand where the form line stands, and is none.
const LINES: [&[u8]; 34] = [
    b"form\t0\n",
    b"form\t1\n",
    b"form\t3\n",
    b"form\t02\n",
    b"form\t22\n",
    b"form\t+2\n",
    b"form\t2.0\n",
    b"form\t2a\n",
    b"form\t4294967298\n",
    b"form\ttwo\n",
    b"form\t00000002\n",
    b"form\t\n",
    b"form\n",
    b"form\t\t2\n",
    b"form\t2\t\n",
    b"form\t2\t2\n",
    b"form\t2 \n",
    b"form\t 2\n",
    b"form 2\n",
    b"form2\n",
    b" form\t2\n",
    b"\tform\t2\n",
    b"form\t2\r\n",
    b"form\t2\r",
    b"form\t2\0\n",
    b"form\t2",
    b"form\t",
    b"Form\t2\n",
    b"FORM\t2\n",
    b"forms\t2\n",
    b"for\t2\n",
    b"\xef\xbb\xbfform\t2\n",
    b"\nform\t2\n",
    b"form\t2\n\n",
];

pub fn cases() -> Vec<Case> {
    let changed = LINES.into_iter().map(|line| {
        let what = format!("1: the form line is {}", line.escape_ascii());
        case(what, move |rng| other_line(rng, line))
    });
    changed.chain(moved()).chain(misplaced()).collect()
}

/// A sound sheet behind another form line.
fn behind_line(rng: &mut Rng, line: &[u8]) -> Draft {
    let mut draft = Draft::new(any_job(rng));
    draft.line = line.to_vec();
    draft
}

/// With the written fields or without them.
fn other_line(rng: &mut Rng, line: &[u8]) -> Vec<u8> {
    let mut draft = behind_line(rng, line);
    if rng.chance(30) {
        draft.texts = [Vec::new(), Vec::new()];
    }
    draft.sheet()
}

fn moved() -> Vec<Case> {
    let one = |what: &str, place: fn(&mut Rng, usize) -> usize, kept: bool| {
        case(what.to_string(), move |rng| move_line(rng, place, kept))
    };
    vec![
        one("1: the form line behind opt", |_, _| 1, false),
        one("1: the form line twice", |_, _| 0, true),
        one("1: the form line again behind opt", |_, _| 1, true),
        one("1: the form line again, anywhere", some_line, true),
        one("1: the form line elsewhere", some_line, false),
        one("1: the form line before end", |_, lines| lines - 1, false),
        one("1: the form line behind end", |_, lines| lines, false),
        one("1: the form line again behind end", |_, lines| lines, true),
        case("1: no form line".into(), |rng| {
            behind_line(rng, b"").sheet()
        }),
    ]
}

/// Behind the first line of a sheet.
fn some_line(rng: &mut Rng, lines: usize) -> usize {
    rng.within((1, lines as u32)) as usize
}

/// The form line put in front of the line of that number, and taken from the top or kept there.
fn move_line(rng: &mut Rng, place: fn(&mut Rng, usize) -> usize, kept: bool) -> Vec<u8> {
    let mut lines = lines_of(&behind_line(rng, b"").sheet());
    let place = place(rng, lines.len());
    let line = form::LINE[..form::LINE.len() - 1].to_vec();
    lines.insert(place, line.clone());
    if kept {
        lines.insert(0, line);
    }
    sheet_from(&lines)
}

fn misplaced() -> Vec<Case> {
    vec![
        case("1: no field written".into(), |rng| {
            bare(rng, &[BLOCKS, SEGS])
        }),
        case("1: no first instruction written".into(), |rng| {
            bare(rng, &[BLOCKS])
        }),
        case("1: no set written".into(), |rng| bare(rng, &[SEGS])),
        case("1: a field behind another record".into(), |rng| {
            behind_another(rng, |line| !line.starts_with(b"vgroup"))
        }),
        case("any: a field behind a vgroup".into(), |rng| {
            behind_another(rng, |line| line.starts_with(b"vgroup"))
        }),
        case("1: the frequency last".into(), |rng| traded(rng, BLOCKS)),
        case("any: the set in front of the flags".into(), |rng| {
            traded(rng, SEGS)
        }),
        case("any: the first form".into(), |rng| {
            behind_line(rng, b"").body
        }),
    ]
}

/// A job that has segments.
fn with_segs(rng: &mut Rng) -> Draft {
    until(rng, any_job, |_, job| {
        (!job.segs.is_empty()).then(|| Draft::new(job))
    })
}

fn bare(rng: &mut Rng, records: &[usize]) -> Vec<u8> {
    let mut draft = with_segs(rng);
    for &record in records {
        draft.texts[record].clear();
    }
    draft.sheet()
}

/// A field more in a line behind the form line that is neither of the two records.
fn behind_another(rng: &mut Rng, chosen: fn(&[u8]) -> bool) -> Vec<u8> {
    let sheet = |rng: &mut Rng| lines_of(&Draft::new(any_job(rng)).sheet());
    until(rng, sheet, |rng, mut lines| {
        let places: Vec<usize> = (1..lines.len())
            .filter(|&place| record(&lines[place]).is_none() && chosen(&lines[place]))
            .collect();
        let place = (!places.is_empty()).then(|| rng.pick(&places))?;
        lines[place].extend_from_slice(b"\t0");
        Some(sheet_from(&lines))
    })
}

/// The written field and the one before it trade places, in one line.
fn traded(rng: &mut Rng, kind: usize) -> Vec<u8> {
    let mut lines = lines_of(&with_segs(rng).sheet());
    let places: Vec<usize> = (0..lines.len())
        .filter(|&place| record(&lines[place]) == Some(kind))
        .collect();
    let place = rng.pick(&places);
    let mut fields: Vec<&[u8]> = lines[place].split(|&byte| byte == b'\t').collect();
    let last = fields.len() - 1;
    fields.swap(last - 1, last);
    let line = fields.join(&b'\t');
    lines[place] = line;
    sheet_from(&lines)
}

//! The order on two job sheets, a second reading of it: over the lines of both in the second form, as texts.

use std::cmp::Ordering;

use crate::answer::tested;
use crate::convert::to_form2;
use crate::form;

/// The words of the records, the earlier ones first.
const KINDS: [&[u8]; 12] = [
    b"opt", b"bank", b"class", b"reg", b"block", b"value", b"vgroup", b"operand", b"hint", b"use",
    b"seg", b"end",
];

/// What `order` writes.
pub fn order(first: &[u8], second: &[u8]) -> Vec<u8> {
    let answer = match (shelved(first), shelved(second)) {
        (Err(number), _) | (Ok(_), Err(number)) => format!("refused\t{number}\n"),
        (Ok(first), Ok(second)) => format!("{}\n", word(lines(&first).cmp(lines(&second)))),
    };
    answer.into_bytes()
}

/// The sheet in the second form, or the number of the test it falls to.
pub fn shelved(sheet: &[u8]) -> Result<Vec<u8>, u8> {
    tested(sheet)?;
    Ok(if sheet.starts_with(form::LINE) {
        sheet.to_vec()
    } else {
        to_form2(sheet)
    })
}

fn word(ordering: Ordering) -> &'static str {
    match ordering {
        Ordering::Less => "before",
        Ordering::Equal => "same",
        Ordering::Greater => "after",
    }
}

/// A line to be compared: the place of its word, and each field behind its length.
type Line<'a> = (usize, Vec<(usize, &'a [u8])>);

/// The lines behind the form line of a sheet that passed.
fn lines(sheet: &[u8]) -> impl Iterator<Item = Line<'_>> {
    let records = sheet[form::LINE.len()..].split_inclusive(|&byte| byte == b'\n');
    records.map(line)
}

/// No number has a zero in front, so the longer one is the greater; of two of the same length the digits tell. Masks and
/// floats have eight digits each, `a` to `f` above `0` to `9` as texts too.
fn line(record: &[u8]) -> Line<'_> {
    let record = record.strip_suffix(b"\n").expect("a whole line");
    let mut fields = record.split(|&byte| byte == b'\t');
    let name = fields.next().expect("a word");
    let kind = KINDS.iter().position(|&kind| kind == name);
    let fields = fields.map(|field| (field.len(), field)).collect();
    (kind.expect("a record's word"), fields)
}

/// How many lines of both are neither in front nor at the end the same: in the second form where both sheets pass, else as
/// they stand.
pub fn apart(first: &[u8], second: &[u8]) -> usize {
    match (shelved(first), shelved(second)) {
        (Ok(first), Ok(second)) => lines_apart(&first, &second),
        _ => lines_apart(first, second),
    }
}

fn lines_apart(first: &[u8], second: &[u8]) -> usize {
    let lines = |sheet| -> Vec<&[u8]> { <[u8]>::split(sheet, |&byte| byte == b'\n').collect() };
    let (first, second) = (lines(first), lines(second));
    let least = first.len().min(second.len());
    let front = (0..least).take_while(|&at| first[at] == second[at]).count();
    let (first, second) = (&first[front..], &second[front..]);
    let pairs = first.iter().rev().zip(second.iter().rev());
    let end = pairs.take_while(|(one, other)| one == other).count();
    first.len().max(second.len()) - end
}

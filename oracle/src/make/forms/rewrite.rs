//! Sheets rewritten into the second form line by line, by their texts alone, whatever else they are.

use crate::form;

/// The places of the two records in what is kept for each of them.
pub const BLOCKS: usize = 0;
pub const SEGS: usize = 1;

/// What stands behind each block line and behind each seg line, with its tab.
pub type Texts = [Vec<String>; 2];

/// The sheet with the form line in front, and with the implied field behind each line that begins with `block` or `seg`
/// and a tab. A sheet that is no sheet of the first form becomes none of the second.
pub fn second_form(sheet: &[u8]) -> Vec<u8> {
    let texts = implied(sheet).map(|fields| fields.into_iter().map(text).collect());
    assemble(form::LINE, sheet, &texts)
}

pub fn text(field: u32) -> String {
    format!("\t{field}")
}

/// Behind a block line the sum of the counts before it, behind a seg line the leader of its value; 0 where a sheet is too
/// broken to say, and for a sum above 4,294,967,295.
pub fn implied(sheet: &[u8]) -> [Vec<u32>; 2] {
    let (mut firsts, mut sets) = (Vec::new(), Vec::new());
    let (mut next, mut leaders) = (0u64, Vec::new());
    for line in lines(sheet) {
        if line.starts_with(b"block\t") {
            firsts.push(u32::try_from(next).unwrap_or(0));
            next += u64::from(field(line, 1).unwrap_or(0));
        } else if line.starts_with(b"value\t") {
            leaders.push(field(line, 2).unwrap_or(0));
        } else if line.starts_with(b"seg\t") {
            let leader = field(line, 1).and_then(|value| leaders.get(value as usize));
            sets.push(leader.copied().unwrap_or(0));
        }
    }
    [firsts, sets]
}

/// The sheet behind a form line, with a text behind each of its block and seg lines.
pub fn assemble(line: &[u8], sheet: &[u8], texts: &Texts) -> Vec<u8> {
    let mut texts = texts.each_ref().map(|texts| texts.iter());
    let mut written = Vec::new();
    for line in lines(sheet) {
        let text = match record(line) {
            Some(record) => texts[record].next().map_or("", String::as_str),
            None => "",
        };
        written.push([line, text.as_bytes()].concat());
    }
    [line, &written.join(&b'\n')].concat()
}

/// Which of the two records a line is.
pub fn record(line: &[u8]) -> Option<usize> {
    let names: [&[u8]; 2] = [b"block\t", b"seg\t"];
    names.iter().position(|name| line.starts_with(name))
}

/// The last one is empty where the sheet ends with a line feed.
fn lines(sheet: &[u8]) -> impl Iterator<Item = &[u8]> {
    sheet.split(|&byte| byte == b'\n')
}

fn field(line: &[u8], place: usize) -> Option<u32> {
    let field = line.split(|&byte| byte == b'\t').nth(place)?;
    std::str::from_utf8(field).ok()?.parse().ok()
}

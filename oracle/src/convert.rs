//! The two conversions of a job sheet, a second reading of them: the verdict by the tests of this oracle, and the sheet
//! moved as a text, line by line. A field that stands in the sheet is copied from it, never written anew.

use crate::answer::tested;

/// The first bytes of a sheet that counts as one of the second form, whatever follows.
const OPENING: &[u8; 7] = b"form\t2\n";

/// What `to_form2` writes.
pub fn to_form2(sheet: &[u8]) -> Vec<u8> {
    if sheet.starts_with(OPENING) {
        return refused(1);
    }
    tested(sheet).map_or_else(refused, |_| grown(sheet))
}

/// What `to_form1` writes.
pub fn to_form1(sheet: &[u8]) -> Vec<u8> {
    if !sheet.starts_with(OPENING) {
        return refused(1);
    }
    tested(sheet).map_or_else(refused, |_| shrunk(&sheet[OPENING.len()..]))
}

/// The number of an output that is a refusal. No job sheet begins so.
pub fn number(output: &[u8]) -> Option<u8> {
    let number = output.strip_prefix(b"refused\t")?.strip_suffix(b"\n")?;
    std::str::from_utf8(number).ok()?.parse().ok()
}

fn refused(number: u8) -> Vec<u8> {
    format!("refused\t{number}\n").into_bytes()
}

/// The form line, and the lines of a sheet that passed in the first form: behind a block's the instructions counted so
/// far, behind a segment's the leader as its value's line spells it.
fn grown(sheet: &[u8]) -> Vec<u8> {
    let mut text = OPENING.to_vec();
    let mut leaders: Vec<&[u8]> = Vec::new();
    let mut insts = 0;
    for line in sheet.split_inclusive(|&byte| byte == b'\n') {
        let fields = fields(line);
        match fields[0] {
            b"block" => {
                longer(&mut text, line, insts.to_string().as_bytes());
                insts += count(fields[1]);
            }
            b"seg" => longer(&mut text, line, leaders[count(fields[1])]),
            b"value" => {
                leaders.push(fields[2]);
                text.extend_from_slice(line);
            }
            _ => text.extend_from_slice(line),
        }
    }
    text
}

/// The lines of a sheet that passed in the second form, without the form line: of a block's and a segment's all that
/// stands before its last tab.
fn shrunk(records: &[u8]) -> Vec<u8> {
    let mut text = Vec::new();
    for line in records.split_inclusive(|&byte| byte == b'\n') {
        if [b"block".as_slice(), b"seg"].contains(&fields(line)[0]) {
            let tab = line.iter().rposition(|&byte| byte == b'\t');
            text.extend_from_slice(&line[..tab.expect("a line that passed has its fields")]);
            text.push(b'\n');
        } else {
            text.extend_from_slice(line);
        }
    }
    text
}

/// The name of a record and its fields.
fn fields(line: &[u8]) -> Vec<&[u8]> {
    let bare = line.strip_suffix(b"\n").unwrap_or(line);
    bare.split(|&byte| byte == b'\t').collect()
}

/// The line with a field more.
fn longer(text: &mut Vec<u8>, line: &[u8], field: &[u8]) {
    text.extend_from_slice(&line[..line.len() - 1]);
    text.push(b'\t');
    text.extend_from_slice(field);
    text.push(b'\n');
}

/// The number in a field of a sheet that passed.
fn count(field: &[u8]) -> usize {
    let text = std::str::from_utf8(field).expect("digits");
    text.parse().expect("a number")
}

//! The forms of a sheet: lines, fields, numbers and bits, and how bytes are shown to a reader.

/// A line that is no record where it stands, or breaks a rule: its number from 1, the refusal's number and the reason.
#[derive(Clone, Debug, PartialEq, Eq)]
pub struct Fault {
    pub line: usize,
    pub number: u8,
    pub why: String,
}

pub fn fault(line: usize, number: u8, why: impl Into<String>) -> Fault {
    let why = why.into();
    Fault { line, number, why }
}

/// The lines of a sheet without their line feeds, and whether the last one has one.
pub fn lines(sheet: &[u8]) -> (Vec<&[u8]>, bool) {
    match sheet.strip_suffix(b"\n") {
        Some(body) => (body.split(|&byte| byte == b'\n').collect(), true),
        None if sheet.is_empty() => (Vec::new(), false),
        None => (sheet.split(|&byte| byte == b'\n').collect(), false),
    }
}

/// The word of a line and its fields.
pub fn fields(line: &[u8]) -> (&[u8], Vec<&[u8]>) {
    let mut parts = line.split(|&byte| byte == b'\t');
    let word = parts.next().unwrap_or_default();
    (word, parts.collect())
}

/// Exactly as many fields as the record has.
pub fn exactly<'a, const N: usize>(fields: &[&'a [u8]]) -> Result<[&'a [u8]; N], String> {
    let many = fields.len();
    (fields.try_into()).map_err(|_| format!("{} where the record has {N}", counted(many, "field")))
}

/// A decimal number without leading zeros, up to 4,294,967,295.
pub fn number(field: &[u8]) -> Result<u32, String> {
    let plain = !field.is_empty() && field.iter().all(u8::is_ascii_digit) && (field[0] != b'0' || field.len() == 1);
    let parsed = std::str::from_utf8(field).ok().and_then(|digits| digits.parse().ok());
    match parsed {
        Some(number) if plain => Ok(number),
        _ if plain => Err(format!("{} is above 4294967295", quoted(field))),
        _ => Err(format!("{} is no number", quoted(field))),
    }
}

/// A number off a list that goes from 0 to the greatest.
pub fn choice(field: &[u8], greatest: u32) -> Result<u32, String> {
    match number(field)? {
        chosen if chosen <= greatest => Ok(chosen),
        chosen => Err(format!("{chosen} is not one of 0 to {greatest}")),
    }
}

/// Eight lower-case hexadecimal digits.
pub fn bits(field: &[u8]) -> Result<u32, String> {
    let digit = |byte: &u8| matches!(byte, b'0'..=b'9' | b'a'..=b'f');
    let text = std::str::from_utf8(field).ok();
    let read = text.and_then(|digits| u32::from_str_radix(digits, 16).ok());
    match read {
        Some(bits) if field.len() == 8 && field.iter().all(digit) => Ok(bits),
        _ => Err(format!("{} is not eight digits of 0 to 9 and a to f", quoted(field))),
    }
}

pub fn float(field: &[u8]) -> Result<f32, String> {
    bits(field).map(f32::from_bits)
}

/// A field in quotation marks, as far as it can be shown in one glance.
pub fn quoted(field: &[u8]) -> String {
    format!("\"{}\"", shown(field, 24))
}

/// Bytes as text of one line: a tab as an arrow, what is not printable ASCII by its number.
pub fn shown(bytes: &[u8], most: usize) -> String {
    let mut text: String = bytes.iter().take(most).map(|&byte| shown_byte(byte)).collect();
    if bytes.len() > most {
        text += &format!("… ({} bytes)", bytes.len());
    }
    text
}

fn shown_byte(byte: u8) -> String {
    match byte {
        b'\t' => "→".into(),
        b' '..=b'~' => char::from(byte).into(),
        _ => format!("\\x{byte:02x}"),
    }
}

/// A number with its noun, in the plural if need be.
pub fn counted(number: usize, noun: &str) -> String {
    let ending = if number == 1 { "" } else { "s" };
    format!("{number} {noun}{ending}")
}

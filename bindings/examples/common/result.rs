//! Results: the oracle's register sheets as rows of tables, and tables as register sheets.

use cundzeli::build::{Counts, Group, Origin, Register, Rows, Segment, Tables, Use};
use oracle::answer::{Answer, Room, answer_job};
use oracle::entry;
use oracle::job::Job;
use oracle::run::STOPS;
use std::fmt;

/// Words in a row of each table, and what they are called.
pub const WIDTHS: [usize; 4] = [8, 7, 6, 9];
pub const NAMES: [&str; 4] = ["registers", "segments", "uses", "groups"];

/// Stands for an end of the Rust that is none of its stops: no number.
pub const ODD: u32 = u32::MAX;

/// The rows of the four tables, one behind the other.
#[derive(Clone, Debug, Default, PartialEq, Eq)]
pub struct Made {
    pub tables: [Vec<u32>; 4],
}

impl Made {
    pub fn count(&self, table: usize) -> usize {
        self.tables[table].len() / WIDTHS[table]
    }

    /// What the result needs.
    pub fn need(&self) -> [u32; 4] {
        [0, 1, 2, 3].map(|table| self.count(table) as u32)
    }

    pub fn counts(&self) -> Counts {
        let [registers, _, _, groups] = self.need();
        Counts { registers, groups }
    }

    /// The slice that holds it, cut into tables with this many rows.
    pub fn bytes(&self, room: Room, length: usize) -> Vec<u8> {
        let mut bytes = vec![0; length];
        let mut at = 0;
        for ((table, width), rows) in self.tables.iter().zip(WIDTHS).zip(room.0) {
            for (place, word) in bytes[at..].chunks_exact_mut(4).zip(table) {
                place.copy_from_slice(&word.to_le_bytes());
            }
            at += 4 * width * rows;
        }
        bytes
    }
}

pub fn rows_of(counts: [u32; 4]) -> Rows {
    let [registers, segments, uses, groups] = counts;
    Rows { registers, segments, uses, groups }
}

/// The four numbers of rows.
pub fn counts_of(rows: Rows) -> [u32; 4] {
    [rows.registers, rows.segments, rows.uses, rows.groups]
}

/// The whole rows that a slice of `length` bytes has for each table.
pub fn room_in(counts: [u32; 4], length: usize) -> Room {
    let mut left = length / 4;
    let mut room = Room([0; 4]);
    for table in 0..4 {
        room.0[table] = (counts[table] as usize).min(left / WIDTHS[table]);
        left -= room.0[table] * WIDTHS[table];
    }
    room
}

/// What must come out of a job: the tables, or the number of the refusal.
pub fn expected(job: &Job, room: Room) -> Result<Made, u32> {
    if let Some(number) = entry::refusal(job) {
        return Err(number.into());
    }
    let Answer { text, number, cause } = answer_job(job, room);
    if cause.is_some_and(|cause| !STOPS.contains(&cause.as_str())) {
        return Err(ODD);
    }
    match number {
        Some(number) => Err(number.into()),
        None => Ok(parse(&text)),
    }
}

fn number(field: &str) -> u32 {
    field.parse().expect("a number")
}

/// A number and one more, 0 for none.
fn or_none(field: &str) -> u32 {
    if field == "-" { 0 } else { number(field) + 1 }
}

/// A register sheet as rows.
pub fn parse(text: &str) -> Made {
    let mut made = Made::default();
    for line in text.lines() {
        let fields: Vec<&str> = line.split('\t').collect();
        let first = [0, 1, 2].map(|table| made.count(table) as u32);
        let [registers, segments, uses, groups] = &mut made.tables;
        match fields[..] {
            ["vreg", _, set, class, weight, group, index, hint] => registers.extend([
                number(set),
                number(class),
                u32::from_str_radix(weight, 16).expect("a weight"),
                or_none(group),
                number(index),
                number(hint),
                first[1],
                0,
            ]),
            ["seg", value, from, to, flags, origin] => {
                segments.extend([value, from, to, flags].map(number));
                segments.extend([u32::from(origin == "conflict"), first[2], 0]);
                *registers.last_mut().expect("a register") += 1;
            }
            ["use", ref own @ ..] => {
                uses.extend(own.iter().map(|field| number(field)));
                uses.resize(6 * (first[2] as usize + 1), 0);
                *segments.last_mut().expect("a segment") += 1;
            }
            ["group", _, ref places @ ..] => {
                groups.push(places.len() as u32);
                groups.extend(places.iter().map(|place| or_none(place)));
                groups.resize(groups.len().next_multiple_of(9), 0);
            }
            ["end", _, _] => {}
            _ => panic!("no line of a register sheet: {line}"),
        }
    }
    made
}

/// Tab and number, or tab and dash.
fn dashed<T: fmt::Display>(number: Option<T>) -> String {
    number.map_or("\t-".to_string(), |number| format!("\t{number}"))
}

/// The register sheet of tables, as the oracle writes it.
pub fn sheet(tables: &Tables) -> String {
    let mut text = String::new();
    for register in tables.registers() {
        text += &register_lines(tables, &register);
    }
    for Group { number, members } in tables.groups() {
        let members: String = members.into_iter().map(dashed).collect();
        text += &format!("group\t{number}{members}\n");
    }
    let made = tables.made();
    text + &format!("end\t{}\t{}\n", made.registers, made.groups)
}

fn register_lines(tables: &Tables, register: &Register) -> String {
    let (number, set, class) = (register.number, register.set, register.class);
    let weight = register.weight.to_bits();
    let group = dashed(register.group.map(|place| place.group));
    let index = register.group.map_or(0, |place| place.index);
    let hint = u8::from(register.fixed_hint);
    let mut text =
        format!("vreg\t{number}\t{set}\t{class}\t{weight:08x}{group}\t{index}\t{hint}\n");
    for segment in tables.segments(register) {
        text += &segment_lines(tables, &segment);
    }
    text
}

fn segment_lines(tables: &Tables, segment: &Segment) -> String {
    let (value, from, to) = (segment.value, segment.from, segment.to);
    let flags = segment.flags.bits();
    let origin = match segment.origin {
        Origin::Own => "own",
        Origin::Conflict => "conflict",
    };
    let mut text = format!("seg\t{value}\t{from}\t{to}\t{flags}\t{origin}\n");
    for Use { inst, kind } in tables.uses(segment) {
        let fields = kind.fields().into_iter();
        let fields: String = fields.map(|field| format!("\t{field}")).collect();
        text += &format!("use\t{}\t{inst}{fields}\n", kind.number());
    }
    text
}

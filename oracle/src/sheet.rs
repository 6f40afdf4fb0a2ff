//! The reader of job sheets: test 1, over the whole sheet. The second form is in form.rs.

use crate::job::{Block, Class, Hint, Job, Operand, Seg, USE_FIELDS, Use, Value};

/// Record names in the order of the sheet. Uses stand with their segment.
const NAMES: [&[u8]; 11] = [
    b"opt", b"bank", b"class", b"reg", b"block", b"value", b"vgroup", b"operand", b"hint", b"seg",
    b"end",
];
pub const BLOCK: usize = 4;
pub const SEG: usize = 9;
const END: usize = 10;
/// The names that must come: opt, bank, class, block, end.
const NEEDED: [usize; 5] = [0, 1, 2, BLOCK, END];
/// The names that come once.
const ONCE: [usize; 2] = [0, END];

/// The job of a sheet of the first form, or none if the sheet falls to test 1.
pub fn read(sheet: &[u8]) -> Option<Job> {
    read_by(sheet, add)
}

/// The job of a sheet whose records, but for uses, are put into it by `add`: the number of the name, the fields.
pub fn read_by(
    sheet: &[u8],
    mut add: impl FnMut(&mut Job, usize, &[&[u8]]) -> Option<()>,
) -> Option<Job> {
    let body = sheet.strip_suffix(b"\n")?;
    let (mut job, mut seen) = (Job::default(), Seen::default());
    for line in body.split(|&byte| byte == b'\n') {
        let mut fields = line.split(|&byte| byte == b'\t');
        let name = fields.next()?;
        let fields: Vec<&[u8]> = fields.collect();
        if name == b"use" {
            (seen.rank == SEG).then_some(())?;
            add_use(&mut job, &fields)?;
        } else {
            add(&mut job, seen.next(name)?, &fields)?;
        }
    }
    let all = NEEDED.iter().all(|&name| seen.times[name] > 0);
    all.then_some(job)
}

/// The names that came, and the last of them.
#[derive(Default)]
struct Seen {
    times: [usize; NAMES.len()],
    rank: usize,
}

impl Seen {
    /// The number of the name, if it may come now.
    fn next(&mut self, name: &[u8]) -> Option<usize> {
        let this = NAMES.iter().position(|&known| known == name)?;
        self.times[this] += 1;
        if this < self.rank || (ONCE.contains(&this) && self.times[this] > 1) {
            return None;
        }
        self.rank = this;
        Some(this)
    }
}

/// Puts a record of the first form into the job.
pub fn add(job: &mut Job, name: usize, fields: &[&[u8]]) -> Option<()> {
    match name {
        0 => add_opt(job, exactly(fields)?)?,
        1 => job.banks.push(number(exactly::<1>(fields)?[0])?),
        2 => job.classes.push(class(exactly(fields)?)?),
        3 => job.regs.push(choice(exactly::<1>(fields)?[0], 1)? == 1),
        BLOCK => job.blocks.push(block(exactly(fields)?)?),
        5 => job.values.push(value(exactly(fields)?)?),
        6 => job.vgroups.push(
            fields
                .iter()
                .map(|field| number(field))
                .collect::<Option<_>>()?,
        ),
        7 => job.operands.push(operand(exactly(fields)?)?),
        8 => job.hints.push(hint(exactly(fields)?)?),
        SEG => job.segs.push(seg(exactly(fields)?, job.uses.len())?),
        END => exactly::<0>(fields).map(|_| ())?,
        _ => return None,
    }
    Some(())
}

pub fn exactly<'a, const N: usize>(fields: &[&'a [u8]]) -> Option<[&'a [u8]; N]> {
    fields.try_into().ok()
}

fn add_opt(job: &mut Job, fields: [&[u8]; 4]) -> Option<()> {
    job.adjust = number(fields[0])?;
    for (scale, field) in job.scales.iter_mut().zip(&fields[1..]) {
        *scale = float(field)?;
    }
    Some(())
}

fn class(fields: [&[u8]; 4]) -> Option<Class> {
    Some(Class {
        mask: hex(fields[0])?,
        cost: float(fields[1])?,
        size: number(fields[2])?,
        spillslots: choice(fields[3], 1)? == 1,
    })
}

pub fn block(fields: [&[u8]; 2]) -> Option<Block> {
    Some(Block {
        insts: number(fields[0])?,
        frequency: float(fields[1])?,
    })
}

fn value(fields: [&[u8]; 3]) -> Option<Value> {
    Some(Value {
        bank: number(fields[0])?,
        leader: number(fields[1])?,
        remat: choice(fields[2], 3)?,
    })
}

fn operand(fields: [&[u8]; 4]) -> Option<Operand> {
    Some(Operand {
        inst: number(fields[0])?,
        slot: number(fields[1])?,
        vgroup: number(fields[2])?,
        class: number(fields[3])?,
    })
}

fn hint(fields: [&[u8]; 3]) -> Option<Hint> {
    Some(Hint {
        value: number(fields[0])?,
        inst: number(fields[1])?,
        incoming: choice(fields[2], 1)? == 1,
    })
}

pub fn seg(fields: [&[u8]; 4], next_use: usize) -> Option<Seg> {
    Some(Seg {
        value: number(fields[0])?,
        from: number(fields[1])?,
        to: number(fields[2])?,
        flags: choice(fields[3], 15)?,
        uses: next_use..next_use,
    })
}

fn add_use(job: &mut Job, fields: &[&[u8]]) -> Option<()> {
    let (&kind, rest) = fields.split_first()?;
    let (&inst, own) = rest.split_first()?;
    let kind = choice(kind, USE_FIELDS.len() as u32 - 1)?;
    let inst = number(inst)?;
    if own.len() != USE_FIELDS[kind as usize] {
        return None;
    }
    let mut numbers = [0; 4];
    for (place, field) in numbers.iter_mut().zip(own) {
        *place = number(field)?;
    }
    job.uses.push(Use {
        kind,
        inst,
        fields: numbers,
    });
    job.segs.last_mut()?.uses.end = job.uses.len();
    Some(())
}

/// A decimal number without leading zeros, up to 4,294,967,295.
pub fn number(field: &[u8]) -> Option<u32> {
    if field.is_empty() || (field[0] == b'0' && field.len() > 1) {
        return None;
    }
    let mut value = 0u32;
    for &byte in field {
        let digit = byte.is_ascii_digit().then_some(u32::from(byte) & 15)?;
        value = value.checked_mul(10)?.checked_add(digit)?;
    }
    Some(value)
}

fn choice(field: &[u8], greatest: u32) -> Option<u32> {
    number(field).filter(|&chosen| chosen <= greatest)
}

/// Eight lower-case hexadecimal digits.
fn hex(field: &[u8]) -> Option<u32> {
    if field.len() != 8 {
        return None;
    }
    field.iter().try_fold(0, |value, &byte| {
        let digit = match byte {
            b'0'..=b'9' => byte - b'0',
            b'a'..=b'f' => byte - b'a' + 10,
            _ => return None,
        };
        Some(value << 4 | u32::from(digit))
    })
}

fn float(field: &[u8]) -> Option<f32> {
    hex(field).map(f32::from_bits)
}

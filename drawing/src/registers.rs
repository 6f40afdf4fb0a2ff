//! The register sheet: a refusal, or registers and groups, read as far as its lines are records in their order.

use crate::forms::{Fault, choice, exactly, fault, fields, float, lines, number, quoted};
use crate::job::{Use, a_use};

/// What a register sheet says, as far as it can be read.
#[derive(Clone, Debug, Default)]
pub struct Answer {
    pub refused: Option<u8>,
    pub vregs: Vec<Vreg>,
    pub groups: Vec<Group>,
    pub end: Option<End>,
    /// How many whole lines were read.
    pub lines: usize,
    /// The first line that is no record there.
    pub fault: Option<Fault>,
    /// Whether its last line is `end` or `refused`, with its line feed.
    pub whole: bool,
}

#[derive(Clone, Debug)]
pub struct Vreg {
    pub line: usize,
    pub number: u32,
    pub set: u32,
    pub class: u32,
    pub weight: f32,
    pub group: Option<u32>,
    pub index: u32,
    pub fixed_hint: bool,
    pub pieces: Vec<Piece>,
}

#[derive(Clone, Debug)]
pub struct Piece {
    pub line: usize,
    pub value: u32,
    pub from: u32,
    pub to: u32,
    pub flags: u32,
    pub conflict: bool,
    pub uses: Vec<Use>,
}

#[derive(Clone, Debug)]
pub struct Group {
    pub line: usize,
    pub number: u32,
    pub members: Vec<Option<u32>>,
}

#[derive(Clone, Copy, Debug)]
pub struct End {
    pub line: usize,
    pub vregs: u32,
    pub groups: u32,
}

/// The answer of a register sheet's bytes.
pub fn read(sheet: &[u8]) -> Answer {
    let (mut lines, ended) = lines(sheet);
    if !ended {
        lines.pop();
    }
    let mut answer = Answer::default();
    for (at, line) in lines.iter().enumerate() {
        if let Err(why) = answer.line(at + 1, line) {
            answer.fault = Some(fault(at + 1, 1, why));
            break;
        }
        answer.lines = at + 1;
    }
    answer.whole = ended && answer.fault.is_none() && answer.is_over();
    answer
}

impl Answer {
    fn is_over(&self) -> bool {
        self.end.is_some() || self.refused.is_some()
    }

    fn line(&mut self, at: usize, line: &[u8]) -> Result<(), String> {
        let (word, fields) = fields(line);
        if self.is_over() {
            return Err("a line behind the last one".into());
        }
        match word {
            b"refused" if at == 1 => self.refused = Some(refusal(&fields)?),
            b"vreg" if self.groups.is_empty() => self.vregs.push(vreg(at, exactly(&fields)?)?),
            b"seg" if self.groups.is_empty() => self.add_piece(piece(at, exactly(&fields)?)?)?,
            b"use" if self.groups.is_empty() => self.add_use(a_use(at, &fields)?)?,
            b"group" => self.groups.push(group(at, &fields)?),
            b"end" => self.end = Some(end(at, exactly(&fields)?)?),
            b"refused" | b"vreg" | b"seg" | b"use" => return Err("a record out of its order".into()),
            _ => return Err(format!("{} is no record's word", quoted(word))),
        }
        Ok(())
    }

    fn add_piece(&mut self, piece: Piece) -> Result<(), String> {
        let vreg = self.vregs.last_mut().ok_or("a seg line before any vreg line")?;
        vreg.pieces.push(piece);
        Ok(())
    }

    fn add_use(&mut self, read: Use) -> Result<(), String> {
        let piece = self.vregs.last_mut().and_then(|vreg| vreg.pieces.last_mut());
        piece.ok_or("a use line before any seg line of its register")?.uses.push(read);
        Ok(())
    }
}

fn refusal(fields: &[&[u8]]) -> Result<u8, String> {
    match choice(exactly::<1>(fields)?[0], 10)? {
        0 => Err("0 is no refusal's number".into()),
        number => Ok(number as u8),
    }
}

fn vreg(line: usize, fields: [&[u8]; 7]) -> Result<Vreg, String> {
    let [own, set, class, weight, group, index, hint] = fields;
    Ok(Vreg {
        line,
        number: number(own)?,
        set: number(set)?,
        class: number(class)?,
        weight: float(weight)?,
        group: or_dash(group)?,
        index: number(index)?,
        fixed_hint: choice(hint, 1)? == 1,
        pieces: Vec::new(),
    })
}

fn piece(line: usize, fields: [&[u8]; 5]) -> Result<Piece, String> {
    let [value, from, to, flags, origin] = fields;
    let conflict = match origin {
        b"own" => false,
        b"conflict" => true,
        _ => return Err(format!("{} is neither own nor conflict", quoted(origin))),
    };
    let (value, from, to) = (number(value)?, number(from)?, number(to)?);
    Ok(Piece { line, value, from, to, flags: choice(flags, 15)?, conflict, uses: Vec::new() })
}

fn group(line: usize, fields: &[&[u8]]) -> Result<Group, String> {
    let (own, members) = fields.split_first().ok_or("a group line without its number")?;
    let members = members.iter().map(|field| or_dash(field)).collect::<Result<_, _>>()?;
    Ok(Group { line, number: number(own)?, members })
}

fn end(line: usize, fields: [&[u8]; 2]) -> Result<End, String> {
    Ok(End { line, vregs: number(fields[0])?, groups: number(fields[1])? })
}

fn or_dash(field: &[u8]) -> Result<Option<u32>, String> {
    if field == b"-" { Ok(None) } else { number(field).map(Some) }
}

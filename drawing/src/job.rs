//! The job sheet, of either form: its records with the lines they stand on, read up to the first line that is no record
//! there.

use crate::forms::{Fault, bits, choice, counted, exactly, fault, fields, float, lines, number, quoted};

/// How many fields follow kind and instruction, by kind.
pub const USE_FIELDS: [usize; 10] = [1, 1, 4, 0, 2, 2, 3, 3, 1, 0];
pub const CONFLICT: u32 = 3;
pub const BLOCKPARAM_IN: u32 = 8;

#[derive(Clone, Debug, Default)]
pub struct Job {
    pub opt: Opt,
    pub banks: Vec<Bank>,
    pub classes: Vec<Class>,
    pub regs: Vec<Reg>,
    pub blocks: Vec<Block>,
    pub values: Vec<Value>,
    pub vgroups: Vec<Vgroup>,
    pub operands: Vec<Operand>,
    pub hints: Vec<Hint>,
    pub segs: Vec<Seg>,
}

#[derive(Clone, Copy, Debug, Default)]
pub struct Opt {
    pub line: usize,
    pub adjust: u32,
    pub scales: [f32; 3],
}

#[derive(Clone, Copy, Debug)]
pub struct Bank {
    pub line: usize,
    pub top: u32,
}

#[derive(Clone, Copy, Debug)]
pub struct Class {
    pub line: usize,
    pub mask: u32,
    pub cost: f32,
    pub size: u32,
    pub spillslots: bool,
}

#[derive(Clone, Copy, Debug)]
pub struct Reg {
    pub line: usize,
    pub memory: bool,
}

#[derive(Clone, Copy, Debug)]
pub struct Block {
    pub line: usize,
    pub insts: u32,
    pub frequency: f32,
    /// Its first instruction as the second form has it written.
    pub written: Option<u32>,
}

#[derive(Clone, Copy, Debug)]
pub struct Value {
    pub line: usize,
    pub bank: u32,
    pub leader: u32,
    pub remat: u32,
}

#[derive(Clone, Debug)]
pub struct Vgroup {
    pub line: usize,
    pub members: Vec<u32>,
}

#[derive(Clone, Copy, Debug)]
pub struct Operand {
    pub line: usize,
    pub inst: u32,
    pub slot: u32,
    pub vgroup: u32,
    pub class: u32,
}

#[derive(Clone, Copy, Debug)]
pub struct Hint {
    pub line: usize,
    pub value: u32,
    pub inst: u32,
    pub incoming: bool,
}

#[derive(Clone, Debug)]
pub struct Seg {
    pub line: usize,
    pub value: u32,
    pub from: u32,
    pub to: u32,
    pub flags: u32,
    /// Its set as the second form has it written.
    pub written: Option<u32>,
    pub uses: Vec<Use>,
}

#[derive(Clone, Copy, Debug)]
pub struct Use {
    pub line: usize,
    pub kind: u32,
    pub inst: u32,
    /// The kind's own fields, zeros behind them.
    pub fields: [u32; 4],
}

impl Use {
    /// Whether another use says the same, wherever it stands.
    pub fn says(&self, other: &Use) -> bool {
        (self.kind, self.inst, self.fields) == (other.kind, other.inst, other.fields)
    }

    /// Whether it is a use or definition of a class.
    pub fn is_class_use(&self) -> bool {
        (4..=7).contains(&self.kind)
    }

    pub fn is_group_use(&self) -> bool {
        matches!(self.kind, 6 | 7)
    }
}

impl Job {
    pub fn insts(&self) -> u64 {
        self.blocks.iter().map(|block| u64::from(block.insts)).sum()
    }

    /// The first instruction of each block: as many as the blocks before it have.
    pub fn firsts(&self) -> impl Iterator<Item = u64> {
        self.blocks.iter().scan(0, |next, block| {
            let first = *next;
            *next += u64::from(block.insts);
            Some(first)
        })
    }

    /// The set of a value.
    pub fn set(&self, value: u32) -> Option<u32> {
        self.values.get(value as usize).map(|value| value.leader)
    }

    /// The top class of a value's bank.
    pub fn top(&self, value: u32) -> Option<u32> {
        let bank = self.values.get(value as usize)?.bank;
        self.banks.get(bank as usize).map(|bank| bank.top)
    }
}

/// Record names in the order of the sheet. Uses stand with their segment.
const NAMES: [&str; 11] = ["opt", "bank", "class", "reg", "block", "value", "vgroup", "operand", "hint", "seg", "end"];
const SEG: usize = 9;
const END: usize = 10;
const NEEDED: [usize; 4] = [0, 1, 2, 4];

/// The first line of a sheet of the second form.
const SECOND: &[u8] = b"form\t2";

/// The job as far as it can be read, and the first line that falls to number 1.
pub fn read(sheet: &[u8]) -> (Job, Option<Fault>) {
    let (lines, ended) = lines(sheet);
    let mut reader = Reader::default();
    for (at, line) in lines.iter().enumerate() {
        let last_without_end = at + 1 == lines.len() && !ended;
        let read = match last_without_end {
            true => Err("the last line does not end with a line feed".into()),
            false => reader.line(at + 1, line),
        };
        if let Err(why) = read {
            return (reader.job, Some(fault(at + 1, 1, why)));
        }
    }
    let missing = (reader.seen[END] == 0).then(|| fault(lines.len().max(1), 1, at_end(lines.len())));
    (reader.job, missing)
}

fn at_end(lines: usize) -> &'static str {
    if lines == 0 { "the sheet is empty" } else { "the sheet stops here, and there is no end line" }
}

#[derive(Default)]
struct Reader {
    job: Job,
    /// Whether the sheet is of the second form.
    second: bool,
    rank: usize,
    seen: [usize; NAMES.len()],
}

impl Reader {
    fn line(&mut self, at: usize, line: &[u8]) -> Result<(), String> {
        if at == 1 && line == SECOND {
            self.second = true;
            return Ok(());
        }
        let (word, fields) = fields(line);
        if word == b"form" {
            return Err("a form line can only be the first line, and only form, tab, 2".into());
        }
        if word == b"use" {
            if self.rank != SEG {
                return Err("a use line that does not stand behind a seg line".into());
            }
            return self.add_use(at, &fields);
        }
        let known = NAMES.iter().position(|name| name.as_bytes() == word);
        let rank = known.ok_or_else(|| format!("{} is no record's word", quoted(word)))?;
        self.in_order(rank)?;
        self.rank = rank;
        self.seen[rank] += 1;
        self.add(at, rank, &fields)
    }

    fn in_order(&self, rank: usize) -> Result<(), String> {
        let (name, last) = (NAMES[rank], NAMES[self.rank]);
        let lacking = NEEDED.iter().find(|&&needed| needed < rank && self.seen[needed] == 0);
        if rank < self.rank {
            return Err(format!("wrong order: a {name} line behind a {last} line"));
        }
        if [0, END].contains(&rank) && self.seen[rank] > 0 {
            return Err(format!("a second {name} line"));
        }
        match lacking {
            Some(&needed) => Err(format!("there is no {} line before it", NAMES[needed])),
            None => Ok(()),
        }
    }

    fn add(&mut self, line: usize, rank: usize, fields: &[&[u8]]) -> Result<(), String> {
        let (job, second) = (&mut self.job, self.second);
        match rank {
            0 => job.opt = opt(line, exactly(fields)?)?,
            1 => job.banks.push(Bank { line, top: number(exactly::<1>(fields)?[0])? }),
            2 => job.classes.push(class(line, exactly(fields)?)?),
            3 => job.regs.push(Reg { line, memory: choice(exactly::<1>(fields)?[0], 1)? == 1 }),
            4 => job.blocks.push(block(line, parted(fields, second)?)?),
            5 => job.values.push(value(line, exactly(fields)?)?),
            6 => job.vgroups.push(vgroup(line, fields)?),
            7 => job.operands.push(operand(line, exactly(fields)?)?),
            8 => job.hints.push(hint(line, exactly(fields)?)?),
            SEG => job.segs.push(seg(line, parted(fields, second)?)?),
            _ => exactly::<0>(fields).map(|_| ())?,
        }
        Ok(())
    }

    fn add_use(&mut self, line: usize, fields: &[&[u8]]) -> Result<(), String> {
        let read = a_use(line, fields)?;
        if let Some(seg) = self.job.segs.last_mut() {
            seg.uses.push(read);
        }
        Ok(())
    }
}

/// A record's own fields, and the written one that the second form has behind them.
type Parted<'a, const N: usize> = ([&'a [u8]; N], Option<u32>);

fn parted<'a, const N: usize>(fields: &[&'a [u8]], second: bool) -> Result<Parted<'a, N>, String> {
    let (form, wanted) = if second { ("second", N + 1) } else { ("first", N) };
    if fields.len() != wanted {
        let many = counted(fields.len(), "field");
        return Err(format!("{many} where the record has {wanted} in the {form} form"));
    }
    let (own, written) = fields.split_at(N);
    let written = written.first().map(|field| number(field)).transpose()?;
    Ok((exactly(own)?, written))
}

fn opt(line: usize, fields: [&[u8]; 4]) -> Result<Opt, String> {
    let [adjust, to_move, load, indirect] = fields;
    let scales = [float(to_move)?, float(load)?, float(indirect)?];
    Ok(Opt { line, adjust: number(adjust)?, scales })
}

fn class(line: usize, fields: [&[u8]; 4]) -> Result<Class, String> {
    let [mask, cost, size, spillslots] = fields;
    let spillslots = choice(spillslots, 1)? == 1;
    Ok(Class { line, mask: bits(mask)?, cost: float(cost)?, size: number(size)?, spillslots })
}

fn block(line: usize, (fields, written): Parted<2>) -> Result<Block, String> {
    Ok(Block { line, insts: number(fields[0])?, frequency: float(fields[1])?, written })
}

fn value(line: usize, fields: [&[u8]; 3]) -> Result<Value, String> {
    let [bank, leader, remat] = fields;
    Ok(Value { line, bank: number(bank)?, leader: number(leader)?, remat: choice(remat, 3)? })
}

fn vgroup(line: usize, fields: &[&[u8]]) -> Result<Vgroup, String> {
    let members = fields.iter().map(|field| number(field)).collect::<Result<_, _>>()?;
    Ok(Vgroup { line, members })
}

fn operand(line: usize, fields: [&[u8]; 4]) -> Result<Operand, String> {
    let [inst, slot, vgroup, class] = fields;
    let (vgroup, class) = (number(vgroup)?, number(class)?);
    Ok(Operand { line, inst: number(inst)?, slot: number(slot)?, vgroup, class })
}

fn hint(line: usize, fields: [&[u8]; 3]) -> Result<Hint, String> {
    let [value, inst, incoming] = fields;
    Ok(Hint { line, value: number(value)?, inst: number(inst)?, incoming: choice(incoming, 1)? == 1 })
}

fn seg(line: usize, (fields, written): Parted<4>) -> Result<Seg, String> {
    let [value, from, to, flags] = fields;
    let flags = choice(flags, 15)?;
    Ok(Seg { line, value: number(value)?, from: number(from)?, to: number(to)?, flags, written, uses: Vec::new() })
}

/// A use line of either sheet.
pub fn a_use(line: usize, fields: &[&[u8]]) -> Result<Use, String> {
    let [kind, inst, own @ ..] = fields else {
        return Err(format!("{} where a use has at least 2", counted(fields.len(), "field")));
    };
    let kind = choice(kind, USE_FIELDS.len() as u32 - 1)?;
    let inst = number(inst)?;
    let wanted = USE_FIELDS[kind as usize];
    if own.len() != wanted {
        let many = counted(own.len(), "field");
        return Err(format!("{many} behind the instruction, where kind {kind} has {wanted}"));
    }
    let mut fields = [0; 4];
    for (place, field) in fields.iter_mut().zip(own) {
        *place = number(field)?;
    }
    Ok(Use { line, kind, inst, fields })
}

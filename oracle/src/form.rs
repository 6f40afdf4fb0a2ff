//! The second job form: its first line, the fields that it writes though they are implied, and number 10.

use crate::job::Job;
use crate::sheet::{self, BLOCK, SEG, exactly, number};

/// The bytes that open a sheet of the second form. A sheet that does not begin with them is one of the first.
pub const LINE: &[u8] = b"form\t2\n";

/// A sheet that passed test 1 in its own form.
pub struct Sheet {
    pub job: Job,
    /// None in the first form.
    pub written: Option<Written>,
}

/// What the second form writes besides the job. It is no part of the job.
#[derive(Default)]
pub struct Written {
    /// Of each block: its first instruction.
    pub firsts: Vec<u32>,
    /// Of each segment: its set.
    pub sets: Vec<u32>,
}

/// The sheet read in its own form, or none if it falls to test 1.
pub fn read(sheet: &[u8]) -> Option<Sheet> {
    let Some(records) = sheet.strip_prefix(LINE) else {
        let job = sheet::read(sheet)?;
        return Some(Sheet { job, written: None });
    };
    let mut written = Written::default();
    let job = sheet::read_by(records, |job, name, fields| match name {
        BLOCK => add_block(job, &mut written, exactly(fields)?),
        SEG => add_seg(job, &mut written, exactly(fields)?),
        _ => sheet::add(job, name, fields),
    })?;
    let written = Some(written);
    Some(Sheet { job, written })
}

fn add_block(job: &mut Job, written: &mut Written, fields: [&[u8]; 3]) -> Option<()> {
    let [insts, frequency, first] = fields;
    job.blocks.push(sheet::block([insts, frequency])?);
    written.firsts.push(number(first)?);
    Some(())
}

fn add_seg(job: &mut Job, written: &mut Written, fields: [&[u8]; 5]) -> Option<()> {
    let [value, from, to, flags, set] = fields;
    let next_use = job.uses.len();
    let seg = sheet::seg([value, from, to, flags], next_use)?;
    job.segs.push(seg);
    written.sets.push(number(set)?);
    Some(())
}

/// Number 10, where a written field is not the implied one. The job passed tests 2 to 7.
pub fn refusal(sheet: &Sheet) -> Option<u8> {
    let written = sheet.written.as_ref()?;
    let firsts = written.firsts.iter().map(|&first| u64::from(first));
    let sets = written.sets.iter().copied();
    let as_implied = firsts.eq(implied_firsts(&sheet.job)) && sets.eq(implied_sets(&sheet.job));
    (!as_implied).then_some(10)
}

/// Of each block: how many instructions the blocks before it have.
fn implied_firsts(job: &Job) -> impl Iterator<Item = u64> {
    job.blocks.iter().scan(0, |next, block| {
        let first = *next;
        *next += u64::from(block.insts);
        Some(first)
    })
}

/// Of each segment: the leader of its value.
fn implied_sets(job: &Job) -> impl Iterator<Item = u32> {
    let values = job.segs.iter().map(|seg| &job.values[seg.value as usize]);
    values.map(|value| value.leader)
}

//! The answer to a sheet: its register sheet or the number of its refusal.

use reference::watch::Placed;

use crate::job::Job;
use crate::run::{End, Run};
use crate::{entry, form, print, run};

/// Places in the result tables: registers, segments, uses, groups.
#[derive(Clone, Copy, PartialEq, Eq, Debug)]
pub struct Room(pub [usize; 4]);

impl Default for Room {
    fn default() -> Self {
        Self([4096, 4096, 8192, 512])
    }
}

impl Room {
    /// Reads `r,s,u,g`.
    pub fn parse(text: &str) -> Option<Self> {
        let counts: Option<Vec<usize>> = text.split(',').map(|part| part.parse().ok()).collect();
        Some(Self(counts?.try_into().ok()?))
    }

    pub fn holds(self, need: Room) -> bool {
        self.0.iter().zip(need.0).all(|(&have, need)| need <= have)
    }

    pub fn text(self) -> String {
        self.0.map(|count| count.to_string()).join(",")
    }
}

pub struct Answer {
    pub text: String,
    /// The refusal's number.
    pub number: Option<u8>,
    /// The name of a stop, or the message of a panic that is none.
    pub cause: Option<String>,
}

impl Answer {
    pub fn refused(number: u8, cause: Option<String>) -> Self {
        Self {
            text: format!("refused\t{number}\n"),
            number: Some(number),
            cause,
        }
    }
}

/// Reads, tests and runs a sheet.
pub fn answer(bytes: &[u8], room: Room) -> Answer {
    match tested(bytes) {
        Err(number) => Answer::refused(number, None),
        Ok(job) => answer_job(&job, room),
    }
}

/// The job of a sheet of either form, or the number of the test it falls to: 1, then 2 to 7, then 10.
pub fn tested(bytes: &[u8]) -> Result<Job, u8> {
    let sheet = form::read(bytes).ok_or(1)?;
    let number = entry::refusal(&sheet.job).or_else(|| form::refusal(&sheet));
    number.map_or(Ok(sheet.job), Err)
}

/// Runs a job that passed the tests.
pub fn answer_job(job: &Job, room: Room) -> Answer {
    let whole = run::run(job, None);
    if !room.holds(counts(&whole)) && overfills(job, &whole, room) {
        return Answer::refused(9, None);
    }
    match whole.end {
        End::Done => Answer {
            text: print::sheet(&whole, job.uses.len()),
            number: None,
            cause: None,
        },
        End::Stop(stop) => Answer::refused(8, Some(stop.to_string())),
        End::Odd(message) => Answer::refused(8, Some(message)),
        End::Halted => unreachable!("no halt was asked for"),
    }
}

/// What stands in the result tables: a turned use counts in both pieces.
pub fn counts(run: &Run) -> Room {
    let regs = &run.regs;
    let pieces = regs.virt_regs().flat_map(|reg| regs.segments(reg));
    let uses = pieces.clone().map(|piece| piece.use_list.len()).sum();
    Room([
        regs.num_virt_regs(),
        pieces.count(),
        uses,
        regs.groups().len(),
    ])
}

/// Whether a register that was placed without a stop overfills the room. The
/// counts never fall, so the last such register tells.
fn overfills(job: &Job, whole: &Run, room: Room) -> bool {
    if whole.end == End::Done {
        return true;
    }
    let placed = placed_whole(whole);
    let Some(&how) = placed.last() else {
        return false;
    };
    let halted = run::run(job, Some((placed.len() - 1, how)));
    assert_eq!(halted.end, End::Halted);
    !room.holds(counts(&halted))
}

/// The registers placed without a stop, in order.
fn placed_whole(run: &Run) -> &[Placed] {
    let placed = &run.log.placed;
    let unfinished = usize::from(run.log.group_open);
    &placed[..placed.len() - unfinished]
}

//! What is said above the picture: the refusal with its line, and what does not fit between the two sheets.

use crate::forms::Fault;
use crate::job::Job;
use crate::registers::Answer;
use crate::stops::{sets, suspects};
use crate::words::cause;

/// A box of text: a headline and sentences.
pub struct Note {
    pub head: String,
    pub body: Vec<String>,
}

#[derive(Default)]
pub struct Verdict {
    pub refusal: Option<Note>,
    pub remarks: Vec<Note>,
    /// The sets that a stop may be in, to be pointed at.
    pub sets: Vec<u32>,
    /// Whether the line found is the one that the refusal speaks of.
    pub line_known: bool,
}

pub fn verdict(job: &Job, fault: Option<&Fault>, answer: &Answer, odd: &[String]) -> Verdict {
    let mut verdict = Verdict::default();
    if let Some(number) = answer.refused {
        verdict.refuse(job, fault, number);
    } else if let Some(fault) = fault {
        verdict.remark("The job sheet is refused, and the register sheet is not its answer", line_words(fault));
        verdict.line_known = true;
    } else if let Some(first) = odd.first().filter(|_| !answer.vregs.is_empty() || answer.whole) {
        verdict.remark("The register sheet is not the answer to this job sheet", format!("{first}."));
    }
    verdict.wholeness(answer);
    verdict
}

/// The line and what is wrong with it.
fn line_words(fault: &Fault) -> String {
    format!("Line {} of the job sheet falls to number {}: {}.", fault.line, fault.number, fault.why)
}

/// A sheet is read up to a line that is no record.
fn up_to(job: &Job, fault: &Fault) -> &'static str {
    match fault.number {
        1 if job.blocks.is_empty() => " There is no block before it, so nothing is drawn.",
        1 => " What stands before it is drawn.",
        _ => "",
    }
}

impl Verdict {
    fn remark(&mut self, head: &str, sentence: String) {
        self.remarks.push(Note { head: head.into(), body: vec![sentence] });
    }

    fn refuse(&mut self, job: &Job, fault: Option<&Fault>, number: u8) {
        let mut body = vec![format!("Cause: {}.", cause(number))];
        match fault {
            Some(fault) if fault.number == number => {
                self.line_known = true;
                body.push(format!("Line {} of the job sheet: {}.{}", fault.line, fault.why, up_to(job, fault)));
            }
            Some(fault) => {
                body.push("The line can't be told.".into());
                self.remark("The refusal is not the answer to this job sheet", line_words(fault));
            }
            None if matches!(number, 8 | 9) => body.extend(self.while_placing(job, number)),
            None => {
                body.push("The line can't be told.".into());
                let passed = format!("No line of it falls to number {number}: it passes the entry rules.");
                self.remark("The refusal is not the answer to this job sheet", passed);
            }
        }
        self.refusal = Some(Note { head: format!("refused {number}"), body });
    }

    /// For 8 and 9: the set, if only one can be meant.
    fn while_placing(&mut self, job: &Job, number: u8) -> Vec<String> {
        let passed =
            "The job passed the entry rules (1 to 7 and 10) and stopped while registers were placed.".to_string();
        let all = sets(job);
        self.sets = if number == 8 { suspects(job) } else { all.clone() };
        let names = self.sets.iter().map(u32::to_string).collect::<Vec<_>>().join(", ");
        let which = match (self.sets.as_slice(), number) {
            ([], _) => "In no set of it can that be.".into(),
            ([set], _) => format!("It is in set {set}: no other set can be meant. {}", seg_lines(job, *set)),
            (_, 8) => {
                format!("It is in one of the sets {names}; which, and at which line, can't be told from the sheets.")
            }
            _ => "In which set, and at which line, can't be told from the sheets.".into(),
        };
        if self.sets.is_empty() {
            let none = format!("No set of it can give number {number}.");
            self.remark("The refusal is not the answer to this job sheet", none);
        } else if self.sets.len() > 1 && self.sets.len() == all.len() {
            self.sets.clear();
        }
        vec![passed, which]
    }

    fn wholeness(&mut self, answer: &Answer) {
        if let Some(fault) = &answer.fault {
            let words = format!("Line {}: {}. What stands before it is drawn.", fault.line, fault.why);
            self.remark("The register sheet can't be read to its end", words);
        } else if !answer.whole {
            let words = match answer.lines {
                0 => "No line of it could be read; the segments of the job are drawn.".to_string(),
                lines => format!(
                    "Line {lines} is its last whole line, and is neither end nor refused. It is drawn up to there."
                ),
            };
            self.remark("The register sheet is cut", words);
        }
    }
}

fn seg_lines(job: &Job, set: u32) -> String {
    let lines = job.segs.iter().filter(|seg| job.set(seg.value) == Some(set));
    let first = lines.clone().map(|seg| seg.line).min().unwrap_or_default();
    let last = lines.map(|seg| seg.uses.last().map_or(seg.line, |u| u.line)).max().unwrap_or_default();
    format!("Its lines are {first} to {last}; which of them, can't be told from the sheets.")
}

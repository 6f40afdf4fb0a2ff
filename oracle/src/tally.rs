//! How often things come up among generated sheets.

use std::collections::BTreeMap;

use crate::answer::{Room, answer_job, tested};
use crate::cuts;
use crate::frames::Frame;
use crate::job::{BLOCKPARAM_IN, Job};
use crate::print;
use crate::run::{End, Run, run};
use reference::internal::live_range::ValueSegment;
use reference::internal::uses::UseKind;
use reference::watch::Placed;

#[derive(Default)]
pub struct Tally {
    pub jobs: usize,
    /// Sheets in which a thing comes up, and how often in all.
    pub things: BTreeMap<String, (usize, usize)>,
    /// Ends that are none of the six stops.
    pub odd: Vec<String>,
}

impl Tally {
    pub fn add(&mut self, frame: &Frame) {
        self.jobs += 1;
        match tested(&frame.bytes) {
            Err(number) => self.see(&format!("refused {number}"), 1),
            Ok(job) => self.add_job(&job, frame.room.unwrap_or_default()),
        }
    }

    fn see(&mut self, thing: &str, times: usize) {
        if times > 0 {
            let entry = self.things.entry(thing.to_string()).or_default();
            entry.0 += 1;
            entry.1 += times;
        }
    }

    fn add_job(&mut self, job: &Job, room: Room) {
        self.see(
            if is_transitive(job) {
                "book transitive"
            } else {
                "book not transitive"
            },
            1,
        );
        self.see("several values in a set", mixed_sets(job));
        let found = answer_job(job, room);
        match found.number {
            Some(number) => self.see(&format!("refused {number}"), 1),
            None => self.see("accepted", 1),
        }
        let whole = run(job, None);
        match &whole.end {
            End::Stop(stop) => self.see(&format!("stop {stop}"), 1),
            End::Odd(message) => self.odd.push(message.clone()),
            _ => self.add_result(job, &whole),
        }
        self.add_log(job, &whole);
    }

    fn add_log(&mut self, job: &Job, whole: &Run) {
        let log = &whole.log;
        for (name, count) in cuts::NAMES.iter().zip(cuts::counts(job, log)) {
            self.see(name, count);
        }
        self.see("turns", log.turns);
        let count = |how: Placed| log.placed.iter().filter(|&&placed| placed == how).count();
        self.see("new groups", count(Placed::InNewGroup));
        self.see("joins", count(Placed::Joined));
        if whole.end == End::Done {
            self.see("merges", count(Placed::Merged));
        }
    }

    /// What only a finished run shows.
    fn add_result(&mut self, job: &Job, whole: &Run) {
        let regs = &whole.regs;
        let weights: Vec<f32> = regs.virt_regs().map(|reg| regs[reg].spill_weight).collect();
        let count = |wanted: &dyn Fn(f32) -> bool| weights.iter().filter(|&&w| wanted(w)).count();
        self.see("weight infinite", count(&f32::is_infinite));
        self.see("weight zero", count(&|weight| weight == 0.0));
        self.see("weight subnormal", count(&f32::is_subnormal));
        self.see("weight f32::MAX", count(&|weight| weight == f32::MAX));
        self.see(
            "fixed hint",
            regs.virt_regs()
                .filter(|&reg| regs[reg].has_fixed_hint)
                .count(),
        );
        let is_added = |piece: &&ValueSegment| print::is_added(whole, piece, job.uses.len());
        let pieces = regs.virt_regs().flat_map(|reg| regs.segments(reg));
        let led = pieces.filter(is_added).filter(|piece| {
            let first = whole.uses[piece.use_list][0].kind;
            matches!(first, UseKind::BlockparamIn { .. })
        });
        self.see("block parameter before a conflict", led.count());
        let lone = regs.virt_regs().map(|reg| regs.segments(reg));
        let lone: Vec<_> = lone
            .filter(|pieces| pieces.len() == 1 && is_added(&&pieces[0]))
            .map(|pieces| {
                (
                    set_of(job, pieces[0].value.index()),
                    pieces[0].live_range.from,
                )
            })
            .collect();
        let falls = lone.windows(2);
        let falls = falls.filter(|pair| pair[0].0 == pair[1].0 && pair[0].1 > pair[1].1);
        self.see("conflicts fall in instruction", falls.count());
        let hinted = job.segs.iter().filter(|seg| seg.flags & 4 != 0).count();
        if whole.log.conflicts > whole.log.turns {
            self.see("cut job with hinted segments", hinted);
        }
        let params = job.uses.iter().filter(|u| u.kind == BLOCKPARAM_IN).count();
        self.see("block parameter", params);
    }

    pub fn table(&self) -> String {
        let mut text = format!("{:<44}{:>9}{:>10}\n", "what", "sheets", "in all");
        text += &format!("{:<44}{:>9}\n", "sheets", self.jobs);
        for (thing, (jobs, times)) in &self.things {
            text += &format!("{thing:<44}{jobs:>9}{times:>10}\n");
        }
        text + &format!("{:<44}{:>9}\n", "ends that are no stop", self.odd.len())
    }
}

/// Whether every class's mask contains its members' masks.
fn is_transitive(job: &Job) -> bool {
    job.classes.iter().all(|class| {
        let members = job.classes.iter().enumerate();
        members
            .filter(|(number, _)| class.mask >> number & 1 == 1)
            .all(|(_, sub)| sub.mask & !class.mask == 0)
    })
}

fn set_of(job: &Job, value: usize) -> u32 {
    job.values[value].leader
}

/// Neighbouring segments of one set that differ in value.
fn mixed_sets(job: &Job) -> usize {
    let set = |value: u32| set_of(job, value as usize);
    let differ = |pair: &&[crate::job::Seg]| {
        pair[0].value != pair[1].value && set(pair[0].value) == set(pair[1].value)
    };
    job.segs.windows(2).filter(differ).count()
}

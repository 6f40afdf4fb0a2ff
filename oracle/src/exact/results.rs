//! Weights of accepted results: generated sheets, answered by the reference.

use std::io::{self, Write};

use crate::answer::{Room, answer_job, tested};
use crate::job::Job;
use crate::make::make;

use super::counts::{Counts, row};
use super::registers::{Register, read};

/// The profiles that make accepted jobs; of the last four a tenth as many sheets are made.
pub const PROFILES: [&str; 12] = [
    "small",
    "classes",
    "groups",
    "hints",
    "floats",
    "damaged",
    "rooms",
    "leaning",
    "limits",
    "full-tables",
    "many-merges",
    "long-sheets",
];
const WHOLE: usize = 8;

#[derive(Default)]
pub struct Results {
    pub sheets: u64,
    pub accepted: u64,
    pub registers: u64,
    /// Registers in groups, of which the theorem does not speak.
    pub in_groups: u64,
    /// The others of infinite weight, of which it does not speak either.
    pub infinite: u64,
    /// Those without a group whose weight is not what the rule gives.
    pub differ: u64,
    pub counts: Counts,
}

/// How many sheets a profile has where `per_profile` are asked for.
pub fn share_of(place: usize, per_profile: u64) -> u64 {
    if place < WHOLE {
        per_profile
    } else {
        per_profile.div_ceil(10)
    }
}

impl Results {
    /// The results of a profile's sheets; one that differs is written out.
    pub fn of(profile: &str, seed: u64, sheets: u64, out: &mut impl Write) -> io::Result<Self> {
        let mut results = Self::default();
        for seed in seed..seed + sheets {
            let sheet = make(profile, seed).expect("a profile").bytes;
            let differ = results.differ;
            results.add(&sheet);
            if results.differ > differ {
                writeln!(out, "{profile} {seed}: a weight differs from its rule")?;
                out.write_all(&sheet)?;
            }
        }
        Ok(results)
    }

    fn add(&mut self, sheet: &[u8]) {
        self.sheets += 1;
        let Ok(job) = tested(sheet) else {
            return;
        };
        let found = answer_job(&job, Room::default());
        if found.number.is_some() {
            return;
        }
        self.accepted += 1;
        for register in read(&found.text) {
            self.add_register(&job, &register);
        }
    }

    fn add_register(&mut self, job: &Job, register: &Register) {
        self.registers += 1;
        if register.in_group {
            self.in_groups += 1;
            return;
        }
        self.differ += u64::from(register.weight != register.weight_by_rule(job));
        if register.weight == f32::INFINITY.to_bits() {
            self.infinite += 1;
            return;
        }
        self.counts.test(&register.weighing(job));
    }

    pub fn line(&self) -> String {
        row([
            self.sheets,
            self.accepted,
            self.registers,
            self.in_groups,
            self.infinite,
            self.differ,
        ])
    }
}

/// What stands above the lines that `Results::line` gives.
pub const HEAD: [&str; 6] = [
    "sheets",
    "accepted",
    "registers",
    "in groups",
    "infinite",
    "differ",
];

#[cfg(test)]
mod tests {
    use super::*;

    /// One register of 1.0 and 1.0 over two instructions, and one that has only one instruction.
    const SHEET: &[u8] = b"opt\t0\t3f800000\t3f800000\t3f800000\nbank\t0\n\
        class\t00000001\t3f800000\t1\t0\nblock\t2\t3f800000\nvalue\t0\t0\t0\nvalue\t0\t1\t0\n\
        seg\t0\t2\t6\t0\nuse\t5\t0\t0\t0\nuse\t4\t1\t0\t0\nseg\t1\t0\t2\t0\nend\n";

    fn registers() -> (Job, Vec<Register>) {
        let job = tested(SHEET).unwrap();
        let found = answer_job(&job, Room::default());
        (job, read(&found.text))
    }

    #[test]
    fn a_sheet_is_counted() {
        let mut results = Results::default();
        results.add(SHEET);
        results.add(b"end\n");
        assert_eq!((results.sheets, results.accepted), (2, 1));
        assert_eq!((results.registers, results.infinite), (2, 1));
        assert_eq!((results.in_groups, results.differ), (0, 0));
        assert_eq!((results.counts.weights, results.counts.within), (1, 1));
    }

    #[test]
    fn another_weight_differs_but_in_a_group() {
        let (job, mut registers) = registers();
        registers[0].weight += 1;
        registers[1].weight = 0x3f80_0000;
        let mut results = Results::default();
        registers.iter().for_each(|r| results.add_register(&job, r));
        assert_eq!(results.differ, 2);
        registers[0].in_group = true;
        results.add_register(&job, &registers[0]);
        assert_eq!((results.differ, results.in_groups), (2, 1));
    }
}

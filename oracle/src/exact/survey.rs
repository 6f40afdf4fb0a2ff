//! All kinds of weights in one run: what came up, whether it held, and how it is written.

use std::io::{self, Write};

use super::adverse::{KINDS, climbed, counted};
use super::counts::{self, Counts, row, share_text};
use super::results::{self, PROFILES, Results, share_of};

/// The most uses of the weights that are climbed over.
const MOST_CLIMBED: u32 = 6;

pub struct Survey {
    /// By profile.
    pub results: Vec<(&'static str, Results)>,
    /// By kind.
    pub made: Vec<(&'static str, Counts)>,
    /// By number of uses.
    pub climbed: Vec<(u32, Counts)>,
}

impl Survey {
    /// `per_profile` sheets of each profile, and weights in proportion. Sheets that differ are written at once.
    pub fn of(per_profile: u64, seed: u64, out: &mut impl Write) -> io::Result<Self> {
        let mut results = Vec::new();
        for (place, profile) in PROFILES.into_iter().enumerate() {
            let sheets = share_of(place, per_profile);
            results.push((profile, Results::of(profile, seed, sheets, out)?));
        }
        let kinds = KINDS.iter().enumerate();
        let made = kinds.map(|(place, kind)| (kind.name, counted(place, seed, per_profile)));
        let uses = 1..=MOST_CLIMBED;
        let climbed = uses.map(|uses| (uses, climbed(uses, seed, per_profile)));
        Ok(Self {
            results,
            made: made.collect(),
            climbed: climbed.collect(),
        })
    }

    pub fn sum(&self) -> Counts {
        let results = self.results.iter().map(|(_, results)| &results.counts);
        let made = self.made.iter().map(|(_, counts)| counts);
        let climbed = self.climbed.iter().map(|(_, counts)| counts);
        results.chain(made).chain(climbed).sum()
    }

    /// Weights of results that are not what the rule gives.
    pub fn differ(&self) -> u64 {
        self.results.iter().map(|(_, results)| results.differ).sum()
    }

    /// No weight differs, none within the conditions fails, and both wrong readings fail.
    pub fn held(&self) -> bool {
        let sum = self.sum();
        let seen = sum.failed_by_25 > 0 && sum.failed_less_a_use > 0;
        self.differ() == 0 && sum.failed == 0 && seen
    }

    pub fn write(&self, out: &mut impl Write) -> io::Result<()> {
        write_row(out, "results", row(results::HEAD))?;
        for (profile, results) in &self.results {
            write_row(out, profile, results.line())?;
        }
        writeln!(out)?;
        write_row(out, "results", row(counts::HEAD))?;
        for (profile, results) in &self.results {
            write_row(out, profile, results.counts.line())?;
        }
        writeln!(out)?;
        self.write_made(out)?;
        self.write_worst(out)?;
        let held = if self.held() {
            "all held"
        } else {
            "not all held"
        };
        writeln!(out, "{held}")
    }

    fn write_made(&self, out: &mut impl Write) -> io::Result<()> {
        write_row(out, "made directly", row(counts::HEAD))?;
        for (kind, counts) in &self.made {
            write_row(out, kind, counts.line())?;
        }
        for (uses, counts) in &self.climbed {
            write_row(out, &format!("climbing, uses: {uses}"), counts.line())?;
        }
        writeln!(out)?;
        write_row(out, "", row(counts::HEAD))?;
        write_row(out, "all", self.sum().line())?;
        writeln!(out)
    }

    fn write_worst(&self, out: &mut impl Write) -> io::Result<()> {
        for (uses, counts) in &self.climbed {
            if let Some((share, weighing)) = &counts.worst {
                writeln!(out, "worst of uses: {uses}, share {}", share_text(*share))?;
                writeln!(out, "    {}", weighing.text())?;
            }
        }
        let sum = self.sum();
        if let Some((share, weighing)) = &sum.worst {
            let (uses, share) = (weighing.terms.len(), share_text(*share));
            writeln!(out, "worst of all: uses: {uses}, share {share}")?;
        }
        match &sum.smallest {
            Some(weighing) => writeln!(out, "smallest that failed: {}", weighing.text()),
            None => Ok(()),
        }
    }
}

fn write_row(out: &mut impl Write, name: &str, cells: String) -> io::Result<()> {
    writeln!(out, "{name:<22}{cells}")
}

#[cfg(test)]
mod tests {
    use super::*;

    fn survey(differ: u64, counts: Counts) -> Survey {
        let results = Results {
            differ,
            ..Results::default()
        };
        Survey {
            results: vec![("small", results)],
            made: vec![("zeros", counts)],
            climbed: Vec::new(),
        }
    }

    fn counts(failed: u64, by_25: u64, less_a_use: u64) -> Counts {
        Counts {
            failed,
            failed_by_25: by_25,
            failed_less_a_use: less_a_use,
            ..Counts::default()
        }
    }

    #[test]
    fn each_finding_is_one() {
        assert!(survey(0, counts(0, 1, 1)).held());
        assert!(!survey(1, counts(0, 1, 1)).held());
        assert!(!survey(0, counts(1, 1, 1)).held());
        assert!(!survey(0, counts(0, 0, 1)).held());
        assert!(!survey(0, counts(0, 1, 0)).held());
    }
}

//! A watch on the running pass, fed by the places where it traces or counts.
//!
//! The texts below are those of the supplied files: each names one place. A
//! register is weighed exactly once while it is placed, a new one before it is
//! emitted, a merged one after its pieces went in.

use std::cell::RefCell;
use std::fmt::Arguments;
use std::panic::panic_any;

/// A place in the pass that the watch knows.
#[derive(Clone, Copy, PartialEq, Eq, Debug)]
pub enum Point {
    Other,
    /// A use did not fit the register being built.
    Conflict,
    /// A use is turned into a conflict.
    Turn,
    /// A conflict use is about to be tried.
    Try,
    /// A conflict use was admitted.
    Admit,
    /// A register is being weighed.
    Weigh,
    /// A new group was made.
    NewGroup,
    /// A new register stands.
    Emit,
    /// A new register stands in a group.
    EmitInGroup,
    /// A cut was chosen, by the early rule or by the late one.
    CutEarly,
    CutLate,
}

const KNOWN: [(&str, Point); 10] = [
    ("vreg_conflicts", Point::Conflict),
    ("vreg_conflicts_on_same_inst", Point::Turn),
    ("Attempting to merge use: {}", Point::Try),
    ("-> success!", Point::Admit),
    (
        "Computing spill weight with {num_insts} instructions",
        Point::Weigh,
    ),
    ("Created new vreg group {vreg_group}", Point::NewGroup),
    ("Emitting {vreg}", Point::Emit),
    ("Emitting {vreg} in {vreg_group}", Point::EmitInGroup),
    (
        "Selecting split point at {split} between {after} and {before} (prefer start)",
        Point::CutEarly,
    ),
    (
        "Selecting split point at {split} between {after} and {before} (prefer end)",
        Point::CutLate,
    ),
];

/// The point a text names, found while compiling.
pub const fn point_of(text: &str) -> Point {
    let mut i = 0;
    while i < KNOWN.len() {
        if same(KNOWN[i].0.as_bytes(), text.as_bytes()) {
            return KNOWN[i].1;
        }
        i += 1;
    }
    Point::Other
}

const fn same(a: &[u8], b: &[u8]) -> bool {
    if a.len() != b.len() {
        return false;
    }
    let mut i = 0;
    while i < a.len() {
        if a[i] != b[i] {
            return false;
        }
        i += 1;
    }
    true
}

/// Whether what is traced at the point is wanted, not only that it was reached.
pub const fn is_read(point: Point) -> bool {
    matches!(point, Point::CutEarly | Point::CutLate)
}

/// How a register was placed.
#[derive(Clone, Copy, PartialEq, Eq, Debug)]
pub enum Placed {
    New,
    InNewGroup,
    Joined,
    Merged,
}

/// A cut: before instruction `at`, between the instructions of a start and an end.
#[derive(Clone, Copy, PartialEq, Debug)]
pub struct Cut {
    pub late: bool,
    pub at: u32,
    pub after: u32,
    pub before: u32,
    /// The costs that were compared: of the forward class, of the one at the end.
    pub costs: [f32; 2],
}

/// What was seen of one run.
#[derive(Clone, Default, Debug)]
pub struct Log {
    /// The registers in the order they were placed. A last entry may be of a
    /// register that met a stop while it was placed.
    pub placed: Vec<Placed>,
    pub conflicts: usize,
    pub turns: usize,
    pub cuts: Vec<Cut>,
    /// The last register met a stop after a group was made for it.
    pub group_open: bool,
    trying: bool,
    admitted: bool,
    running: bool,
    /// The last two costs of classes that were asked for.
    costs: [f32; 2],
    halt_after: Option<(usize, Placed)>,
}

/// Thrown where a round of conflict uses admitted none: the pass would go on
/// without end.
pub struct NoneAdmitted;

/// Thrown where the run was asked to halt.
pub struct Halted;

thread_local! {
    static LOG: RefCell<Log> = RefCell::new(Log::default());
}

/// Begins a run. With `halt_after` it halts once that register, which an
/// earlier run saw placed in that way, has its pieces in the tables.
pub fn begin(halt_after: Option<(usize, Placed)>) {
    LOG.with_borrow_mut(|log| {
        *log = Log {
            running: true,
            halt_after,
            ..Log::default()
        }
    });
}

/// What was seen since `begin`.
pub fn end() -> Log {
    LOG.take()
}

/// Takes note of the point; a bare build never does.
#[inline(always)]
pub fn reached(point: Point) {
    if !cfg!(feature = "bare") && !matches!(point, Point::Other) {
        record(point);
    }
}

/// Takes note of what is traced at a point; a bare build never does.
#[inline(always)]
pub fn said(point: Point, words: Arguments<'_>) {
    if !cfg!(feature = "bare") {
        read(point, words);
    }
}

fn read(point: Point, words: Arguments<'_>) {
    LOG.with_borrow_mut(|log| {
        if log.running {
            log.cut(point == Point::CutLate, &words.to_string());
        }
    });
}

/// Takes note of the cost of a class, where the pass asks for it; a bare build never does.
#[inline(always)]
pub fn asked(cost: f32) {
    if !cfg!(feature = "bare") {
        LOG.with_borrow_mut(|log| log.costs = [log.costs[1], cost]);
    }
}

fn record(point: Point) {
    let (lost, halt) = LOG.with_borrow_mut(|log| {
        let lost = log.see(point);
        (lost, log.halts_at(point))
    });
    if lost {
        panic_any(NoneAdmitted);
    }
    if halt {
        panic_any(Halted);
    }
}

impl Log {
    /// Takes note of the point; true if a round admitted none.
    fn see(&mut self, point: Point) -> bool {
        match point {
            Point::Other | Point::CutEarly | Point::CutLate => {}
            Point::Conflict => self.conflicts += 1,
            Point::Turn => self.turns += 1,
            Point::Try => self.trying = true,
            Point::Admit => self.admitted = true,
            Point::Weigh => return self.weigh(),
            Point::NewGroup => self.group_open = true,
            Point::Emit => self.emit(Placed::New),
            Point::EmitInGroup => {
                let fresh = std::mem::take(&mut self.group_open);
                self.emit(if fresh {
                    Placed::InNewGroup
                } else {
                    Placed::Joined
                });
            }
        }
        false
    }

    /// A weighed register counts as merged until it is emitted as a new one.
    fn weigh(&mut self) -> bool {
        let trying = std::mem::take(&mut self.trying);
        let admitted = std::mem::take(&mut self.admitted);
        if trying && !admitted {
            return true;
        }
        self.placed.push(Placed::Merged);
        false
    }

    /// Reads a cut off its words: three instructions, in the order of the text. The costs of both classes were the last
    /// ones asked for.
    fn cut(&mut self, late: bool, words: &str) {
        let numbers = words.split(|c: char| !c.is_ascii_digit());
        let numbers: Vec<u32> = numbers.filter_map(|word| word.parse().ok()).collect();
        let &[at, after, before] = &numbers[..] else {
            panic!("not the words of a cut: {words}");
        };
        self.cuts.push(Cut {
            late,
            at,
            after,
            before,
            costs: self.costs,
        });
    }

    fn emit(&mut self, how: Placed) {
        *self.placed.last_mut().unwrap() = how;
    }

    fn halts_at(&self, point: Point) -> bool {
        let Some((index, how)) = self.halt_after else {
            return false;
        };
        let here = match how {
            Placed::Merged => point == Point::Weigh,
            _ => matches!(point, Point::Emit | Point::EmitInGroup),
        };
        here && self.placed.len() == index + 1
    }
}

#[cfg(test)]
mod tests {
    use super::{KNOWN, is_read};

    const BUILDER: &str = include_str!(env!("VIRT_REGS_BUILDER"));
    const PLACEMENT: &str = include_str!(env!("VIRT_REGS_PLACEMENT"));

    #[test]
    fn each_known_text_stands_once() {
        for (text, point) in KNOWN {
            let file = if is_read(point) { PLACEMENT } else { BUILDER };
            let traced = file.matches(&format!("trace!(\"{text}\"")).count();
            let counted = file.matches(&format!("stat!(self.stats, {text})")).count();
            assert_eq!(traced + counted, 1, "{text}");
        }
    }

    /// The costs are the two asked for last before a cut: none is asked for between the comparison and the choice.
    #[test]
    fn a_cut_compares_two_costs_right_before_it() {
        let (before, behind) = BUILDER.split_once(".find_optimal_split_point(").unwrap();
        let asked = ".class_spill_cost(";
        let compared = before.rsplit("let prefer_early_split").next().unwrap();
        assert_eq!(compared.matches(asked).count(), 2);
        assert!(compared.contains("class_spill_cost(start_class)\n"));
        assert!(compared.contains(">= self.reginfo.class_spill_cost(end_class);"));
        assert!(!behind.contains(".find_optimal_split_point("));
        assert!(!PLACEMENT.contains(asked));
    }
}

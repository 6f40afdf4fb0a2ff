//! One run of the reference pass over a tested job.

use std::any::Any;
use std::cell::{Cell, RefCell};
use std::panic::{self, AssertUnwindSafe};
use std::sync::Once;

use reference::internal::coalescing::Coalescing;
use reference::internal::spill_allocator::SpillAllocator;
use reference::internal::split_placement::SplitPlacement;
use reference::internal::uses::Uses;
use reference::internal::virt_regs::VirtRegs;
use reference::internal::virt_regs::builder::VirtRegBuilder;
use reference::watch::{self, Halted, Log, NoneAdmitted, Placed};
use reference::{Options, Stats, union_find};

use crate::feed;
use crate::job::Job;
use crate::tables::Tables;

/// The stops, each with the message of the assertion that finds it. The last
/// has none: there the pass never ends, and the watch throws.
const MESSAGES: [(&str, &str); 5] = [
    (
        "no-start",
        "internal error: entered unreachable code: No conflicting use found in reverse scan",
    ),
    (
        "turned-def",
        "assertion failed: !conflict_use.kind.is_def()",
    ),
    (
        "values-differ",
        "assertion failed: uses.iter().all(|&u| u.0 == value)",
    ),
    ("mapped-twice", "assertion failed: prev.is_none()"),
    (
        "overlap",
        "assertion failed: seg.live_range.from >= segments.last().unwrap().live_range.to",
    ),
];
pub const NONE_ADMITTED: &str = "none-admitted";
pub const STOPS: [&str; 6] = [
    MESSAGES[0].0,
    MESSAGES[1].0,
    MESSAGES[2].0,
    MESSAGES[3].0,
    MESSAGES[4].0,
    NONE_ADMITTED,
];

#[derive(Clone, PartialEq, Eq, Debug)]
pub enum End {
    Done,
    Stop(&'static str),
    /// A panic that is none of the stops: its place and message.
    Odd(String),
    /// Halted where it was asked to.
    Halted,
}

pub struct Run {
    pub regs: VirtRegs,
    pub uses: Uses,
    pub log: Log,
    pub end: End,
}

thread_local! {
    static RUNNING: Cell<bool> = const { Cell::new(false) };
    static PANIC: RefCell<(String, String)> = const { RefCell::new((String::new(), String::new())) };
}

/// Keeps the message of a panic in the pass instead of printing it.
fn keep_messages() {
    static KEPT: Once = Once::new();
    KEPT.call_once(|| {
        let usual = panic::take_hook();
        panic::set_hook(Box::new(move |info| {
            if !RUNNING.get() {
                return usual(info);
            }
            let text = info.payload_as_str().unwrap_or("").to_string();
            let place = info.location().map_or(String::new(), |place| {
                let file = place.file().rsplit("src/").next().unwrap_or("");
                format!("{file}:{}", place.line())
            });
            PANIC.set((place, text));
        }));
    });
}

/// Runs the pass, whole or until the register named by `halt_after` is placed.
pub fn run(job: &Job, halt_after: Option<(usize, Placed)>) -> Run {
    keep_messages();
    let tables = Tables::new(job);
    let (mut ranges, mut uses, mut hints) = feed::empty_ranges(job, &tables);
    feed::fill_hints(job, &mut hints);
    feed::fill_ranges(job, &mut uses, &mut ranges);
    let leaders: Vec<u32> = job.values.iter().map(|value| value.leader).collect();
    union_find::set_leaders(&leaders);
    let mut placement = SplitPlacement::new();
    placement.prepare(&tables);
    let mut regs = VirtRegs::new();
    watch::begin(halt_after);
    RUNNING.set(true);
    let caught = panic::catch_unwind(AssertUnwindSafe(|| {
        regs.build_initial_vregs(
            &tables,
            &tables,
            &mut ranges,
            &mut Coalescing::new(),
            &mut uses,
            &hints,
            &placement,
            &mut SpillAllocator::new(),
            &mut VirtRegBuilder::new(),
            &mut Stats,
            &options(job),
        );
    }));
    RUNNING.set(false);
    let log = watch::end();
    let end = caught.map_or_else(|thrown| end_of(&*thrown), |()| End::Done);
    Run {
        regs,
        uses,
        log,
        end,
    }
}

fn options(job: &Job) -> Options {
    Options {
        spill_weight_adjust: job.adjust,
        direct_remat_cheaper_than_move_cost_scale: job.scales[0],
        direct_remat_cheaper_than_load_cost_scale: job.scales[1],
        indirect_remat_cost_scale: job.scales[2],
    }
}

fn end_of(thrown: &(dyn Any + Send)) -> End {
    if thrown.is::<NoneAdmitted>() {
        return End::Stop(NONE_ADMITTED);
    }
    if thrown.is::<Halted>() {
        return End::Halted;
    }
    PANIC.with_borrow(|(place, text)| {
        let known = MESSAGES.iter().find(|(_, message)| message == text);
        match known {
            Some((stop, _)) if place.starts_with("internal/virt_regs/builder.rs:") => {
                End::Stop(stop)
            }
            _ => End::Odd(format!("{place} {text}")),
        }
    })
}

//! The exported builder's time beside the Rust's, on the same jobs, in one driver:
//! `cargo run --offline --profile timing --features bare --example bench_build [JOBS [SEED]]`.
//!
//! Timed on the Rust's side is `VirtRegs::build_initial_vregs` alone. Live ranges, uses and sorted hints, the table of
//! split placement, the tables of blocks and operands and the leaders of the sets are ready before, one copy for each
//! call where the pass uses them up; the tables that it fills are those of the call before, cleared but allocated.
//! Timed beside it is the Rust from a decoded job to the result: all that is named above made anew, and then the pass.
//! Timed on our side is the whole exported function: the entry tests, the indexes it makes in the work space, zeros in
//! all tables that are lent, and the pass. The binary job, the tables and the work space are there before. It is taken
//! with tables that just hold the result, with the rows that the job's own counts name, and with the usual ones.
//! Behind the groups of jobs come shapes of one segment: uses of one class, a cut at every instruction, and a use turned
//! at every instruction.
//! Jobs that are refused are left out: without the watch the Rust does not find every stop.

mod common;

use common::{binary, result};
use cundzeli::build::{Rows, Tables, Work, build_in_rows};
use oracle::answer::Room;
use oracle::feed;
use oracle::job::Job;
use oracle::make::make;
use oracle::sheet;
use oracle::tables::Tables as Function;
use reference::internal::coalescing::Coalescing;
use reference::internal::hints::Hints;
use reference::internal::spill_allocator::SpillAllocator;
use reference::internal::split_placement::SplitPlacement;
use reference::internal::uses::Uses;
use reference::internal::value_live_ranges::ValueLiveRanges;
use reference::internal::virt_regs::VirtRegs;
use reference::internal::virt_regs::builder::VirtRegBuilder;
use reference::{Options, Stats, union_find};
use std::env;
use std::hint::black_box;
use std::process::exit;
use std::time::Instant;

/// Rounds for each job, each side's time taken once in each; what counts is the median.
const ROUNDS: usize = 11;
/// Calls are timed together until they take about this long, in nanoseconds.
const SPELL: f64 = 100_000.0;
const MOST_CALLS: usize = 256;

const CASE_A: &str = "opt 0 3f800000 3f800000 3f800000
bank 0
class 00000007 3f800000 1 0
class 00000002 3f800000 1 0
class 00000004 3f800000 1 0
block 2 3f800000
block 2 3f000000
value 0 0 0
seg 0 2 14 0
use 5 0 0 1
use 4 3 0 2
end
";

/// The Rust's side: what the pass reads, ready, and what it fills.
struct Rust<'a> {
    job: &'a Job,
    function: Function<'a>,
    hints: Hints,
    placement: SplitPlacement,
    options: Options,
    regs: VirtRegs,
    builder: VirtRegBuilder,
    coalescing: Coalescing,
    spill: SpillAllocator,
}

impl<'a> Rust<'a> {
    fn new(job: &'a Job) -> Self {
        let (function, hints, placement) = Self::ready(job);
        Self {
            job,
            function,
            hints,
            placement,
            options: Options {
                spill_weight_adjust: job.adjust,
                direct_remat_cheaper_than_move_cost_scale: job.scales[0],
                direct_remat_cheaper_than_load_cost_scale: job.scales[1],
                indirect_remat_cost_scale: job.scales[2],
            },
            regs: VirtRegs::new(),
            builder: VirtRegBuilder::new(),
            coalescing: Coalescing::new(),
            spill: SpillAllocator::new(),
        }
    }

    /// What the pass reads of a job, besides ranges and uses; the leaders of its sets are set.
    fn ready(job: &'a Job) -> (Function<'a>, Hints, SplitPlacement) {
        let function = Function::new(job);
        let (_, _, mut hints) = feed::empty_ranges(job, &function);
        feed::fill_hints(job, &mut hints);
        let mut placement = SplitPlacement::new();
        placement.prepare(&function);
        let leaders: Vec<u32> = job.values.iter().map(|value| value.leader).collect();
        union_find::set_leaders(&leaders);
        (function, hints, placement)
    }

    /// The ranges and the uses of its job, which a call uses up.
    fn inputs(&self) -> (ValueLiveRanges, Uses) {
        let (mut ranges, mut uses, _) = feed::empty_ranges(self.job, &self.function);
        feed::fill_ranges(self.job, &mut uses, &mut ranges);
        (ranges, uses)
    }

    fn pass(&mut self, ranges: &mut ValueLiveRanges, uses: &mut Uses) {
        self.regs.build_initial_vregs(
            black_box(&self.function),
            &self.function,
            ranges,
            &mut self.coalescing,
            uses,
            &self.hints,
            &self.placement,
            &mut self.spill,
            &mut self.builder,
            &mut Stats,
            &self.options,
        );
        black_box(&self.regs);
    }

    /// The time of so many calls of the pass.
    fn time(&mut self, calls: usize) -> f64 {
        let mut inputs: Vec<_> = (0..calls).map(|_| self.inputs()).collect();
        let start = Instant::now();
        for (ranges, uses) in &mut inputs {
            self.pass(ranges, uses);
        }
        start.elapsed().as_nanos() as f64
    }

    /// The time of so many ways from the decoded job to the result.
    fn time_all(&mut self, calls: usize) -> f64 {
        let start = Instant::now();
        for _ in 0..calls {
            (self.function, self.hints, self.placement) = Self::ready(black_box(self.job));
            let (mut ranges, mut uses) = self.inputs();
            self.pass(&mut ranges, &mut uses);
        }
        start.elapsed().as_nanos() as f64
    }
}

/// Our side: a binary job and tables of some size.
struct Ours<'a> {
    bytes: &'a [u8],
    rows: Rows,
    tables: Tables,
    work: Work,
}

impl<'a> Ours<'a> {
    fn new(bytes: &'a [u8], rows: Rows) -> Self {
        Self { bytes, rows, tables: Tables::new(), work: Work::new() }
    }

    /// One call; whether the job was accepted.
    fn call(&mut self) -> bool {
        let job = black_box(self.bytes);
        let made = build_in_rows(job, self.rows, &mut self.tables, &mut self.work);
        black_box((&made, self.tables.bytes().as_ptr()));
        made.is_ok()
    }

    /// One call, whose tables must hold this.
    fn checked(mut self, made: &result::Made) -> Self {
        assert!(self.call(), "refused");
        let [a, b, c, d] = result::counts_of(self.rows).map(|rows| rows as usize);
        let same = made.bytes(Room([a, b, c, d]), self.rows.bytes());
        assert!(self.tables.bytes() == same, "the results differ");
        self
    }

    fn time(&mut self, calls: usize) -> f64 {
        let start = Instant::now();
        for _ in 0..calls {
            self.call();
        }
        start.elapsed().as_nanos() as f64
    }
}

fn median(mut times: Vec<f64>) -> f64 {
    times.sort_by(f64::total_cmp);
    let middle = times.len() / 2;
    if times.len().is_multiple_of(2) {
        (times[middle - 1] + times[middle]) / 2.0
    } else {
        times[middle]
    }
}

/// The Rust's pass; ours with tables that just hold the result, with the job's own rows, with the usual ones; the Rust from
/// a decoded job to the result.
const SIDES: usize = 5;
const EXACT: usize = 1;
const OWN: usize = 2;
const USUAL: usize = 3;
const ALL: usize = 4;

/// Nanoseconds for one call on each side, the sides taken by turns.
fn times(sides: &mut [&mut dyn FnMut(usize) -> f64; SIDES]) -> [f64; SIDES] {
    let mut calls = [1; SIDES];
    for (side, calls) in sides.iter_mut().zip(&mut calls) {
        side(1);
        let once = side(4) / 4.0;
        *calls = ((SPELL / once.max(1.0)) as usize).clamp(1, MOST_CALLS);
    }
    let mut taken: [Vec<f64>; SIDES] = Default::default();
    for _ in 0..ROUNDS {
        for side in 0..SIDES {
            taken[side].push(sides[side](calls[side]) / calls[side] as f64);
        }
    }
    taken.map(median)
}

/// The times of all sides for one job. None if it is refused.
fn measure(job: &Job) -> Option<[f64; SIDES]> {
    let bytes = binary::write(job);
    if !Ours::new(&bytes, Rows::USUAL).call() {
        return None;
    }
    let made = result::expected(job, Room::default()).expect("a result");
    let ours = |rows| Ours::new(&bytes, rows).checked(&made);
    let mut exact = ours(result::rows_of(made.need()));
    let mut own = ours(Rows::for_job(&bytes));
    let mut usual = ours(Rows::USUAL);
    let mut rust = Rust::new(job);
    let mut whole = Rust::new(job);
    Some(times(&mut [
        &mut |calls| rust.time(calls),
        &mut |calls| exact.time(calls),
        &mut |calls| own.time(calls),
        &mut |calls| usual.time(calls),
        &mut |calls| whole.time_all(calls),
    ]))
}

/// Measures jobs until enough were accepted, and prints a row of the table.
fn group(name: &str, jobs: impl Iterator<Item = Job>, count: usize) {
    let measured: Vec<[f64; SIDES]> = jobs.filter_map(|job| measure(&job)).take(count).collect();
    let ratios = |side: usize| {
        let ratio = move |times: &[f64; SIDES]| times[side] / times[0];
        measured.iter().map(ratio).collect::<Vec<_>>()
    };
    let time = |side: usize| median(measured.iter().map(|times| times[side]).collect());
    let lowest = ratios(EXACT).into_iter().fold(f64::INFINITY, f64::min);
    let highest = ratios(EXACT).into_iter().fold(0.0, f64::max);
    let both = |side: usize| format!("{:.0} | {:.2}", time(side), median(ratios(side)));
    let (exact, own, usual) = (both(EXACT), both(OWN), both(USUAL));
    let (jobs, rust, all) = (measured.len(), time(0), time(ALL));
    let to_result = measured
        .iter()
        .map(|times| times[EXACT] / times[ALL])
        .collect();
    let to_result = median(to_result);
    println!(
        "| {name} | {jobs} | {rust:.0} | {exact} | {lowest:.2} to {highest:.2} | {own} | {usual} | {all:.0} | {to_result:.2} |"
    );
}

/// A job of one segment over one block, with class uses of these classes at each instruction.
fn shape(insts: usize, classes: impl Fn(usize) -> Vec<usize>) -> Job {
    let (book, _) = CASE_A.split_once("block").expect("blocks");
    let mut text = format!(
        "{book}block {insts} 3f800000\nvalue 0 0 0\nseg 0 0 {} 0\n",
        4 * insts
    );
    for inst in 0..insts {
        for class in classes(inst) {
            text.push_str(&format!("use 4 {inst} 0 {class}\n"));
        }
    }
    text.push_str("end\n");
    sheet::read(text.replace(' ', "\t").as_bytes()).expect("a sheet")
}

/// The shapes, each with so many uses.
fn shapes(uses: usize) {
    let one = |job| std::iter::once(job);
    group(
        &format!("one class, {uses} uses"),
        one(shape(uses, |_| vec![1])),
        1,
    );
    let cuts = shape(uses, |inst| vec![1 + inst % 2]);
    group(
        &format!("a cut at every instruction, {uses} uses"),
        one(cuts),
        1,
    );
    let turns = shape(uses / 2, |_| vec![1, 2]);
    group(
        &format!("a turn at every instruction, {uses} uses"),
        one(turns),
        1,
    );
}

/// The jobs of a profile, from a seed on.
fn jobs_of(profile: &'static str, seed: u64) -> impl Iterator<Item = Job> {
    let frames = (seed * 1000..).map(move |seed| make(profile, seed).expect("a profile"));
    frames.filter_map(|frame| sheet::read(&frame.bytes))
}

fn main() {
    if cfg!(debug_assertions) {
        eprintln!("bench_build: to be built by --profile timing");
        exit(2);
    }
    let mut args = env::args()
        .skip(1)
        .map(|arg| arg.parse().expect("a number"));
    let jobs = args.next().unwrap_or(100) as usize;
    let seed = args.next().unwrap_or(1);
    println!(
        "Medians over the jobs of a group; times in nanoseconds for one call; a ratio is ours to the Rust's."
    );
    println!();
    println!(
        "| Group | Jobs | Rust | Ours | Ratio | Lowest to highest | Ours, the job's own rows | Ratio \
         | Ours, usual room | Ratio | Rust, job to result | Ours to that |"
    );
    println!("|---|---:|---:|---:|---:|---:|---:|---:|---:|---:|---:|---:|");
    let case_a = sheet::read(CASE_A.replace(' ', "\t").as_bytes()).expect("a sheet");
    group("case A", std::iter::once(case_a), 1);
    group("small jobs", jobs_of("small", seed), jobs);
    group("class conflicts", jobs_of("classes", seed), jobs);
    group("groups", jobs_of("groups", seed), jobs);
    group("at the limits", jobs_of("limits", seed), jobs.div_ceil(4));
    for uses in [16, 256, 4096] {
        shapes(uses);
    }
}

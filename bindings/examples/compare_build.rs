//! The exported builder beside the Rust's `build_initial_vregs`, byte for byte, in one process.
//! `compare_build [JOBS [SEED]]`, or `compare_build --replay [r,s,u,g] < SHEET` for one job sheet.

mod common;

use common::random::Random;
use common::result::{
    Made, NAMES, ODD, WIDTHS, counts_of, expected, parse, room_in, rows_of, sheet,
};
use common::{binary, damage, typed};
use cundzeli::Refusal;
use cundzeli::build::{Builder, Counts, Rows, Tables, Work, build_in_bytes, build_in_rows};
use oracle::answer::Room;
use oracle::frames::Frame;
use oracle::job::Job;
use oracle::make::{PROFILES, make, sheet_of};
use oracle::{cuts, entry, run};
use std::hint::black_box;
use std::io::Read;
use std::process::exit;
use std::{env, io};

/// Bytes before and behind what is lent, which must stay as they are.
const GUARD: usize = 64;
/// The longest slice that is lent where the numbers of rows ask for more.
const LONGEST: usize = 600_000;

/// One job under trial.
struct Case<'a> {
    origin: String,
    bytes: &'a [u8],
    /// None where the bytes fall to test 1.
    job: Option<&'a Job>,
}

/// What is lent for the result: numbers of rows, and the slice's length.
#[derive(Clone, Copy)]
struct Lent {
    rows: [u32; 4],
    length: usize,
}

impl Lent {
    fn whole(rows: [u32; 4]) -> Self {
        let length = rows_of(rows).bytes().min(LONGEST);
        Self { rows, length }
    }

    fn usual() -> Self {
        Self::whole(counts_of(Rows::USUAL))
    }

    /// The rows that the job's own counts name.
    fn own(job: &[u8]) -> Self {
        Self::whole(counts_of(Rows::for_job(job)))
    }

    fn room(self) -> Room {
        room_in(self.rows, self.length)
    }
}

struct Trials {
    random: Random,
    work: Work,
    /// Kept through all jobs that the types can express, and how many there were.
    builder: Builder,
    typed: u64,
    /// Calls in the jobs' own rows.
    own: u64,
    /// How many jobs of the profiles have cuts of each kind.
    cuts: [u64; cuts::NAMES.len()],
    /// How often each number was given, 0 for a result: in this part, and in those before.
    numbers: [u64; 10],
    total: [u64; 10],
}

fn describe(end: &Result<Counts, u32>) -> String {
    match end {
        Ok(made) => format!("{} registers, {} groups", made.registers, made.groups),
        Err(ODD) => "an end that is none of the stops".to_string(),
        Err(number) => format!("refused by {number}"),
    }
}

/// Prints the job that differs and ends the comparison.
fn differs(case: &Case, lent: Lent, what: &str) -> ! {
    let (room, length) = (lent.room().text(), lent.length);
    println!("{}: a difference", case.origin);
    println!("lent: rows {:?} in {length} bytes, room {room}", lent.rows);
    println!("{what}");
    let Some(job) = case.job else {
        println!("no job: bytes {:02x?}", case.bytes);
        exit(1)
    };
    if binary::write(job) != case.bytes {
        println!("bytes, of which some are not read: {:02x?}", case.bytes);
    }
    println!("replay by: compare_build --replay {room} < SHEET, where SHEET is");
    print!("{}", String::from_utf8_lossy(&sheet_of(job)));
    exit(1)
}

/// The first row in which the tables differ.
fn first_difference(room: Room, ours: &[u8], theirs: &[u8]) -> String {
    let at = ours.iter().zip(theirs).position(|(a, b)| a != b);
    let at = at.expect("a difference");
    let mut start = 0;
    for table in 0..4 {
        let width = 4 * WIDTHS[table];
        let row = (at - start) / width;
        if row < room.0[table] {
            let place = start + row * width;
            let words = |bytes: &[u8]| binary::words(&bytes[place..place + width]).unwrap();
            let (name, ours, theirs) = (NAMES[table], words(ours), words(theirs));
            return format!("{name} row {row}: {ours:?}\n    expected {theirs:?}");
        }
        start += room.0[table] * width;
    }
    format!("byte {at} behind the tables: {}", ours[at])
}

impl Trials {
    fn new(seed: u64) -> Self {
        Self {
            random: Random::new(seed),
            work: Work::new(),
            builder: Builder::new(),
            typed: 0,
            own: 0,
            cuts: [0; cuts::NAMES.len()],
            numbers: [0; 10],
            total: [0; 10],
        }
    }

    /// One call, at any address, over space that holds anything. Sees that nothing else was written.
    fn call(&mut self, case: &Case, lent: Lent) -> (Result<Counts, u32>, Vec<u8>) {
        let odd = self.random.below(8);
        let filling = self.random.next() as u8;
        let mut job = vec![filling; odd + case.bytes.len() + GUARD];
        job[odd..odd + case.bytes.len()].copy_from_slice(case.bytes);
        let before = job.clone();
        let shift = GUARD + self.random.below(8);
        let mut out = vec![filling; shift + lent.length + GUARD];
        if self.random.one_in(64) {
            self.work.bytes().fill(filling);
        }
        let end = build_in_bytes(
            &job[odd..odd + case.bytes.len()],
            &mut out[shift..shift + lent.length],
            rows_of(lent.rows),
            &mut self.work,
        );
        if *black_box(&mut job) != before {
            differs(case, lent, "the job's bytes were changed");
        }
        let outside = out[..shift].iter().chain(&out[shift + lent.length..]);
        if !outside.into_iter().all(|&byte| byte == filling) {
            differs(case, lent, "bytes beside the result were changed");
        }
        let end = end.map_err(Refusal::number);
        (end, out[shift..shift + lent.length].to_vec())
    }

    /// Compares one call with the oracle. Gives what came out.
    fn judge(&mut self, case: &Case, lent: Lent) -> Result<Made, u32> {
        let theirs = case.job.map_or(Err(1), |job| expected(job, lent.room()));
        let (end, out) = self.call(case, lent);
        let wanted = theirs.as_ref().map(Made::counts).map_err(|&number| number);
        if end != wanted {
            let (ours, theirs) = (describe(&end), describe(&wanted));
            differs(case, lent, &format!("{ours}\n    expected {theirs}"));
        }
        let none = Made::default();
        let filled = theirs.as_ref().unwrap_or(&none);
        let bytes = filled.bytes(lent.room(), lent.length);
        if out != bytes {
            differs(case, lent, &first_difference(lent.room(), &out, &bytes));
        }
        self.numbers[end.err().unwrap_or(0) as usize] += 1;
        theirs
    }

    /// In the usual room and in the job's own rows: the same answer, which is given.
    fn usual(&mut self, case: &Case) -> Result<Made, u32> {
        let usual = self.judge(case, Lent::usual());
        let own = Lent::own(case.bytes);
        if self.judge(case, own) != usual {
            differs(case, own, "another answer than in the usual room");
        }
        self.own += 1;
        usual
    }

    /// Where the types can express the job: the same bytes by them, and the same answer, read by them too.
    fn by_types(&mut self, case: &Case, usual: &Result<Made, u32>) {
        let Some(job) = case.job.and_then(typed::typed) else {
            return;
        };
        let lent = Lent::own(case.bytes);
        if job.bytes() != case.bytes {
            differs(case, lent, "other bytes by the types");
        }
        let ours = self.builder.build(&job).map_err(Refusal::number);
        let read = ours.map(|tables| parse(&sheet(tables)));
        if read != *usual {
            differs(case, lent, &format!("{read:?} by the types"));
        }
        if let (Ok(tables), Ok(made)) = (ours, usual) {
            let bytes = made.bytes(lent.room(), lent.length);
            if tables.bytes() != bytes {
                differs(case, lent, "other tables by the types");
            }
        }
        self.typed += 1;
    }

    /// Any numbers of rows in a slice of any length, often near what is needed.
    fn any_room(&mut self, need: [u32; 4]) -> Lent {
        let random = &mut self.random;
        let rows = need.map(|need| match random.below(12) {
            0 => 0,
            1 => random.below(need as usize + 3) as u32,
            2 => random.below(64) as u32,
            3 => random.word(),
            4 => u32::MAX,
            _ => need + random.below(10) as u32,
        });
        let mut lent = Lent::whole(rows);
        lent.length = match random.below(8) {
            0 => random.below(lent.length + 1),
            1 => lent.length.saturating_sub(random.below(40)),
            2 => lent.length + random.below(40),
            3 => random.below(2000),
            _ => lent.length,
        };
        lent
    }

    /// A job in the usual room and in others: its own rows, any, exactly what the result needs, one row less.
    fn rooms(&mut self, case: &Case, given: Option<Room>) {
        if let Some(Room(rows)) = given {
            let lent = Lent::whole(rows.map(|rows| rows as u32));
            let _ = self.judge(case, lent);
        }
        let usual = self.usual(case);
        self.by_types(case, &usual);
        let need = usual.as_ref().map_or([3, 4, 8, 1], Made::need);
        let lent = self.any_room(need);
        let _ = self.judge(case, lent);
        if usual.is_err() {
            return;
        }
        let exact = Lent::whole(need);
        if self.judge(case, exact).is_err() {
            differs(case, exact, "what the result needs is not enough");
        }
        let table = self.random.below(4);
        if need[table] > 0 {
            let mut less = need;
            less[table] -= 1;
            let _ = self.judge(case, Lent::whole(less));
        }
    }

    /// The sheets of one profile.
    fn profile(&mut self, profile: &str, seeds: std::ops::Range<u64>) {
        let mut jobs = 0;
        for seed in seeds {
            let frame = frame(profile, seed);
            let Some(job) = oracle::sheet::read(&frame.bytes) else {
                continue;
            };
            jobs += 1;
            let case = Case {
                origin: format!("{profile}, seed {seed}"),
                bytes: &binary::write(&job),
                job: Some(&job),
            };
            self.rooms(&case, frame.room);
            self.count_cuts(&job);
        }
        let typed = std::mem::take(&mut self.typed);
        self.line(profile, &format!("{jobs} jobs, {typed} by the types too"));
    }

    /// Takes note of the cuts that the Rust makes in a job that passes the tests.
    fn count_cuts(&mut self, job: &Job) {
        if entry::refusal(job).is_some() {
            return;
        }
        let counts = cuts::counts(job, &run::run(job, None).log);
        for (jobs, count) in self.cuts.iter_mut().zip(counts) {
            *jobs += u64::from(count > 0);
        }
    }

    /// Jobs of all profiles with their bytes damaged, each in any room.
    fn damaged(&mut self, seeds: std::ops::Range<u64>) {
        let mut readable = 0;
        let count = seeds.end - seeds.start;
        for seed in seeds {
            let bytes = damage::damaged(&job_of(seed, &mut self.random), &mut self.random);
            let job = binary::read(&bytes);
            readable += u64::from(job.is_some());
            let case =
                Case { origin: format!("damaged bytes, {seed}"), bytes: &bytes, job: job.as_ref() };
            let lent = self.any_room([20, 30, 60, 5]);
            let _ = self.judge(&case, lent);
            let _ = self.usual(&case);
        }
        let what = format!("{count} slices, {readable} of them pass test 1");
        self.line("damaged bytes", &what);
    }

    /// Jobs with anything in the words that are not read.
    fn littered(&mut self, seeds: std::ops::Range<u64>) {
        let count = seeds.end - seeds.start;
        for seed in seeds {
            let plain = job_of(seed, &mut self.random);
            let bytes = damage::littered(&plain, &mut self.random);
            let job = binary::read(&plain);
            let case = Case {
                origin: format!("littered words, {seed}"),
                bytes: &bytes,
                job: job.as_ref(),
            };
            let _ = self.usual(&case);
        }
        self.line("littered words", &format!("{count} jobs"));
    }

    /// Prints the counts since the last line, and begins anew.
    fn line(&mut self, part: &str, what: &str) {
        let counts = std::mem::take(&mut self.numbers);
        println!("{part}: {what}, {}: no difference", told(&counts));
        for (sum, count) in self.total.iter_mut().zip(counts) {
            *sum += count;
        }
    }
}

fn told(numbers: &[u64; 10]) -> String {
    let calls: u64 = numbers.iter().sum();
    let mut text = format!("{calls} calls: {} accepted", numbers[0]);
    for (number, count) in numbers.iter().enumerate().skip(1) {
        if *count > 0 {
            text += &format!(", {count} refused by {number}");
        }
    }
    text
}

fn frame(profile: &str, seed: u64) -> Frame {
    make(profile, seed).expect("a profile")
}

/// A small job of any profile but `damaged`, or rarely a large one.
fn job_of(seed: u64, random: &mut Random) -> Vec<u8> {
    let profile = if random.one_in(200) {
        "limits"
    } else {
        random.pick(&["small", "classes", "groups", "hints", "floats"])
    };
    let job = oracle::sheet::read(&frame(profile, seed).bytes).expect("a job");
    binary::write(&job)
}

/// Both answers to one sheet.
fn replay(room: Option<&str>) {
    let room = room.map_or(Some(Room::default()), Room::parse);
    let room = room.expect("a room r,s,u,g");
    let mut bytes = Vec::new();
    io::stdin().read_to_end(&mut bytes).expect("a sheet");
    let job = oracle::sheet::read(&bytes).expect("a sheet that passes test 1");
    let (mut tables, mut work) = (Tables::new(), Work::new());
    let rows = rows_of(room.0.map(|rows| rows as u32));
    let ours = match build_in_rows(&binary::write(&job), rows, &mut tables, &mut work) {
        Ok(_) => sheet(&tables),
        Err(refusal) => format!("refused\t{}\n", refusal.number()),
    };
    let theirs = oracle::answer::answer(&bytes, room).text;
    print!("the exported builder:\n{ours}the oracle:\n{theirs}");
    if ours != theirs {
        println!("a difference");
        exit(1);
    }
    println!("no difference");
}

/// Profiles of large jobs: a fiftieth of the others.
const LARGE: [&str; 4] = ["limits", "full-tables", "many-merges", "long-sheets"];

fn main() {
    let args: Vec<String> = env::args().skip(1).collect();
    if args.first().is_some_and(|arg| arg == "--replay") {
        return replay(args.get(1).map(String::as_str));
    }
    let mut args = args.iter().map(|arg| arg.parse::<u64>().expect("a number"));
    let jobs = args.next().unwrap_or(2000);
    let seed = args.next().unwrap_or(1);
    let mut trials = Trials::new(seed);
    for profile in PROFILES {
        let fewer = if LARGE.contains(&profile) { 50 } else { 1 };
        let count = jobs.div_ceil(fewer);
        trials.profile(profile, seed * count..(seed + 1) * count);
    }
    trials.littered(seed * jobs..(seed + 1) * jobs);
    trials.damaged(seed * 4 * jobs..(seed + 1) * 4 * jobs);
    let own = trials.own;
    println!("in all: {}: no difference", told(&trials.total));
    println!("of these {own} in the job's own rows: the answer of the usual room each time");
    for (name, jobs) in cuts::NAMES.iter().zip(trials.cuts) {
        println!("jobs of the profiles with {name}: {jobs}");
    }
}

//! The exported cut finder beside the Rust's `SplitPlacement::find_optimal_split_point`, and on damaged input beside
//! document 01's numbers. `compare_cuts [QUERIES [SEED]]`.

use cundzeli::Refusal;
use cundzeli::cut::{Work, find_in_bytes};
use oracle::job::{Block, Job};
use oracle::tables::Tables;
use reference::function::Inst;
use reference::internal::split_placement::SplitPlacement;
use std::env;
use std::process::exit;

/// xorshift64*.
struct Random(u64);

impl Random {
    fn next(&mut self) -> u64 {
        self.0 ^= self.0 >> 12;
        self.0 ^= self.0 << 25;
        self.0 ^= self.0 >> 27;
        self.0.wrapping_mul(0x2545_f491_4f6c_dd1d)
    }

    fn below(&mut self, n: u64) -> u64 {
        (self.next() >> 16) % n
    }

    fn one_in(&mut self, n: u64) -> bool {
        self.below(n) == 0
    }
}

const INFINITY: u32 = 0x7f80_0000;

/// How the frequencies of one function are drawn.
#[derive(Clone, Copy, PartialEq, Eq)]
enum Style {
    Equal,
    Few,
    Zeros,
    Subnormal,
    Huge,
    Neighbours,
    Any,
}

const STYLES: [Style; 7] = [
    Style::Equal,
    Style::Few,
    Style::Zeros,
    Style::Subnormal,
    Style::Huge,
    Style::Neighbours,
    Style::Any,
];

fn frequency(style: Style, base: u32, random: &mut Random) -> u32 {
    match style {
        Style::Equal => base,
        Style::Few => (random.below(3) as f32 + 1.0).to_bits(),
        Style::Zeros => [0, 0, 1, 0x3f80_0000][random.below(4) as usize],
        Style::Subnormal => random.below(0x0080_0000) as u32,
        Style::Huge => INFINITY - 1 - random.below(1 << 20) as u32,
        Style::Neighbours => base.saturating_sub(random.below(3) as u32),
        Style::Any => random.below(INFINITY as u64) as u32,
    }
}

fn blocks(random: &mut Random) -> Vec<Block> {
    let count = match random.below(20) {
        0 => 512,
        1..=3 => 1 + random.below(512),
        4..=8 => 1 + random.below(40),
        _ => 1 + random.below(8),
    };
    let longest = (4096 / count)
        .min(if random.one_in(3) { 1 } else { 12 })
        .max(1);
    let style = STYLES[random.below(STYLES.len() as u64) as usize];
    let base = random.below(INFINITY as u64) as u32;
    (0..count)
        .map(|_| Block {
            insts: 1 + random.below(longest) as u32,
            frequency: f32::from_bits(frequency(style, base, random)),
        })
        .collect()
}

fn rows(blocks: &[Block]) -> Vec<u8> {
    let words = blocks
        .iter()
        .flat_map(|block| [block.insts, block.frequency.to_bits()]);
    words.flat_map(u32::to_le_bytes).collect()
}

fn rust(placement: &SplitPlacement, tables: &Tables, after: u32, before: u32, early: bool) -> u32 {
    let inst = |number: u32| Inst::new(number as usize);
    placement
        .find_optimal_split_point(inst(after), inst(before), early, tables)
        .index() as u32
}

/// Document 01's answer to any input: its numbers, or what the Rust gives.
fn expected(bytes: &[u8], after: u32, before: u32, side: u32) -> Result<u32, Refusal> {
    if side > 1 || !bytes.len().is_multiple_of(8) || bytes.is_empty() {
        return Err(Refusal::NotARecord);
    }
    let word = |at: usize| u32::from_le_bytes(bytes[at..at + 4].try_into().unwrap());
    let rows: Vec<(u32, u32)> = (0..bytes.len())
        .step_by(8)
        .map(|at| (word(at), word(at + 4)))
        .collect();
    let total: u64 = rows.iter().map(|row| u64::from(row.0)).sum();
    if rows.len() > 512 || total > 4096 {
        return Err(Refusal::OverALimit);
    }
    let fine = rows.iter().all(|&(insts, bits)| {
        let frequency = f32::from_bits(bits);
        insts > 0 && frequency.is_finite() && frequency.is_sign_positive()
    });
    if !fine || after >= before || u64::from(before) >= total {
        return Err(Refusal::BadFunction);
    }
    let blocks = rows
        .iter()
        .map(|&(insts, bits)| Block { insts, frequency: f32::from_bits(bits) })
        .collect();
    let job = Job { blocks, ..Job::default() };
    let tables = Tables::new(&job);
    let mut placement = SplitPlacement::new();
    placement.prepare(&tables);
    Ok(rust(&placement, &tables, after, before, side == 0))
}

struct Counts {
    queries: u64,
    moved: u64,
    answers: [u64; 5],
}

fn differs(
    what: &str,
    bytes: &[u8],
    query: (u32, u32, u32),
    ours: Result<u32, Refusal>,
    theirs: Result<u32, Refusal>,
) -> ! {
    println!("{what}: {query:?} over {bytes:02x?}: {ours:?}, expected {theirs:?}");
    exit(1)
}

/// Accepted queries, early and late, against the Rust.
fn accepted(queries: u64, random: &mut Random, work: &mut Work, counts: &mut Counts) {
    while counts.queries < queries {
        let blocks = blocks(random);
        let bytes = rows(&blocks);
        let job = Job { blocks, ..Job::default() };
        let tables = Tables::new(&job);
        let insts = job.inst_count();
        if insts < 2 {
            continue;
        }
        let mut placement = SplitPlacement::new();
        placement.prepare(&tables);
        for _ in 0..8 {
            let before = 1 + random.below(insts - 1) as u32;
            let after = if random.one_in(3) {
                before - 1 - random.below(u64::from(before.min(6))) as u32
            } else {
                random.below(u64::from(before)) as u32
            };
            for side in 0..2 {
                let theirs = Ok(rust(&placement, &tables, after, before, side == 0));
                let ours = find_in_bytes(&bytes, after, before, side, work);
                if ours != theirs {
                    differs("accepted", &bytes, (after, before, side), ours, theirs);
                }
                counts.queries += 1;
                let unmoved = if side == 0 { after + 1 } else { before };
                counts.moved += u64::from(ours != Ok(unmoved));
            }
        }
    }
}

/// One change to an input that was in order, or bytes that never were.
fn damaged(random: &mut Random) -> (Vec<u8>, u32, u32, u32) {
    let mut blocks = blocks(random);
    blocks.truncate(1 + random.below(12) as usize);
    let mut bytes = rows(&blocks);
    let insts: u32 = blocks.iter().map(|block| block.insts).sum();
    let mut before = random.below(u64::from(insts)) as u32;
    let mut after = random.below(u64::from(before) + 1) as u32;
    let mut side = random.below(2) as u32;
    for _ in 0..1 + random.below(2) {
        let row = random.below(bytes.len() as u64 / 8 + 1) as usize * 8;
        match random.below(12) {
            0 => side = 2 + random.next() as u32 % 3,
            1 => bytes.truncate(random.below(bytes.len() as u64 + 1) as usize),
            2 => bytes.extend((0..random.below(9)).map(|byte| byte as u8)),
            3 => bytes = (0..random.below(40)).map(|_| random.next() as u8).collect(),
            4 if row + 8 <= bytes.len() => bytes[row..row + 4].fill(0),
            5 if row + 8 <= bytes.len() => {
                bytes[row..row + 4].copy_from_slice(&(random.next() as u32).to_le_bytes())
            }
            6 if row + 8 <= bytes.len() => {
                let bits = [
                    INFINITY,
                    INFINITY - 1,
                    0x8000_0000,
                    0xbf80_0000,
                    0x7fc0_0000,
                    0xffff_ffff,
                ][random.below(6) as usize];
                bytes[row + 4..row + 8].copy_from_slice(&bits.to_le_bytes());
            }
            7 => before = random.next() as u32,
            8 => after = random.next() as u32,
            9 => (after, before) = (before, after),
            10 => bytes = [1, 0, 0, 0, 0, 0, 128, 63].repeat(510 + random.below(5) as usize),
            _ => {
                let rest = 4095 - insts.min(4095) + random.below(4) as u32;
                bytes.extend(rest.to_le_bytes());
                bytes.extend([0, 0, 128, 63]);
            }
        }
    }
    (bytes, after, before, side)
}

fn main() {
    let mut args = env::args()
        .skip(1)
        .map(|arg| arg.parse::<u64>().expect("a number"));
    let queries = args.next().unwrap_or(600_000);
    let seed = args.next().unwrap_or(1);
    let mut random = Random(seed.wrapping_mul(0x9e37_79b9_7f4a_7c15) | 1);
    let mut work = Work::new();
    let mut counts = Counts { queries: 0, moved: 0, answers: [0; 5] };
    work.bytes()
        .iter_mut()
        .for_each(|byte| *byte = random.next() as u8);
    accepted(queries, &mut random, &mut work, &mut counts);
    println!(
        "{} accepted queries, {} of them moved by a frequency: no difference",
        counts.queries, counts.moved
    );
    for _ in 0..queries {
        let (bytes, after, before, side) = damaged(&mut random);
        let theirs = expected(&bytes, after, before, side);
        let ours = find_in_bytes(&bytes, after, before, side, &mut work);
        if ours != theirs {
            differs("damaged", &bytes, (after, before, side), ours, theirs);
        }
        counts.answers[ours.map_or_else(Refusal::number, |_| 0) as usize] += 1;
    }
    let [accepted, one, two, _, four] = counts.answers;
    println!(
        "{queries} damaged inputs: {one} refused by 1, {two} by 2, {four} by 4, {accepted} still in order: no difference"
    );
}

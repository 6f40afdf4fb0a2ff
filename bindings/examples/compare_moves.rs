//! The exported function `find_cut_moves` beside the Rust's `SplitPlacement::find_optimal_split_point`, asked again
//! with one frequency changed, and on damaged input beside the numbers. `compare_moves [QUERIES [SEED]]`.
//!
//! The Rust has no such question. It only compares frequencies with each other, so while one block's frequency rises
//! the cut can change where it meets another block's and nowhere else. Between these it is the same, and the fewest
//! steps to another cut end at an end of such a stretch: at zero, at the greatest frequency, at another block's
//! frequency, or one step beside it. There the Rust is asked, for every block, whatever the ends are: the fewest steps
//! to another answer are the row that is expected. Functions of many blocks and frequencies, where that is too much,
//! are asked so at the blocks from that of `after` to that of `before` and at their frequencies; their other blocks at
//! zero, at the greatest frequency and at two more.
//!
//! Then for each row (of long lists for some): one step less does not move the Rust's cut, and the steps themselves and
//! two patterns further on do.

#[allow(dead_code)]
#[path = "common/random.rs"]
mod random;

use cundzeli::cut::Work;
use cundzeli::moves::{MovesEnd, ROW, Way, end_in_bytes};
use random::Random;
use reference::function::{self as f, Block, Function, Inst, InstRange, Value, ValueGroup};
use reference::internal::split_placement::SplitPlacement;
use reference::reginfo::{RegBank, RegClass, RegUnit};
use std::env;
use std::fmt::Debug;
use std::ops::Range;
use std::process::exit;

const INFINITY: u32 = 0x7f80_0000;
const GREATEST: u32 = INFINITY - 1;

/// Instruction count and pattern of the frequency.
type Row = (u32, u32);

#[derive(Clone, Copy, Debug)]
struct Query {
    after: u32,
    before: u32,
    side: u32,
}

/// What a call is handed: the blocks, the query, and the bytes of its list.
#[derive(Debug)]
struct Input {
    bytes: Vec<u8>,
    query: Query,
    length: usize,
}

/// A block by its fewest steps.
#[derive(Clone, Copy, Debug, PartialEq, Eq)]
struct Found {
    block: u32,
    way: Way,
    steps: u32,
}

// ---- the Rust

/// A function's blocks, as the Rust asks for them.
struct Blocks {
    /// The first instruction of each, then the instruction count.
    starts: Vec<u32>,
    frequencies: Vec<f32>,
}

impl Blocks {
    fn new(rows: &[Row]) -> Self {
        let mut starts = vec![0];
        for &(insts, _) in rows {
            starts.push(starts[starts.len() - 1] + insts);
        }
        let frequencies = rows.iter().map(|row| f32::from_bits(row.1)).collect();
        Self { starts, frequencies }
    }

    fn insts(&self) -> u32 {
        self.starts[self.frequencies.len()]
    }

    fn block_of(&self, inst: u32) -> usize {
        self.starts.partition_point(|&start| start <= inst) - 1
    }
}

impl Function for Blocks {
    fn num_insts(&self) -> usize {
        self.insts() as usize
    }

    fn num_blocks(&self) -> usize {
        self.frequencies.len()
    }

    fn block_insts(&self, block: Block) -> InstRange {
        let at = |place: usize| Inst::new(self.starts[place] as usize);
        InstRange::new(at(block.index()), at(block.index() + 1))
    }

    fn inst_block(&self, inst: Inst) -> Block {
        Block::new(self.block_of(inst.index() as u32))
    }

    fn block_frequency(&self, block: Block) -> f32 {
        self.frequencies[block.index()]
    }

    // Split placement asks nothing else.

    fn entry_points(&self) -> &[Block] {
        unreachable!()
    }
    fn block_succs(&self, _: Block) -> &[Block] {
        unreachable!()
    }
    fn block_preds(&self, _: Block) -> &[Block] {
        unreachable!()
    }
    fn block_immediate_dominator(&self, _: Block) -> Option<Block> {
        unreachable!()
    }
    fn block_params(&self, _: Block) -> &[Value] {
        unreachable!()
    }
    fn terminator_kind(&self, _: Inst) -> Option<f::TerminatorKind> {
        unreachable!()
    }
    fn jump_blockparams(&self, _: Block) -> &[Value] {
        unreachable!()
    }
    fn block_is_critical_edge(&self, _: Block) -> bool {
        unreachable!()
    }
    fn inst_operands(&self, _: Inst) -> &[f::Operand] {
        unreachable!()
    }
    fn inst_clobbers(&self, _: Inst) -> impl Iterator<Item = RegUnit> {
        std::iter::empty()
    }
    fn num_values(&self) -> usize {
        unreachable!()
    }
    fn value_bank(&self, _: Value) -> RegBank {
        unreachable!()
    }
    fn num_value_groups(&self) -> usize {
        unreachable!()
    }
    fn value_group_members(&self, _: ValueGroup) -> &[Value] {
        unreachable!()
    }
    fn can_rematerialize(&self, _: Value) -> Option<(f::RematCost, RegClass)> {
        unreachable!()
    }
    fn can_indirectly_rematerialize(&self, _: Value) -> Option<f::IndirectRemat<'_>> {
        unreachable!()
    }
    fn can_eliminate_dead_inst(&self, _: Inst) -> bool {
        unreachable!()
    }
}

/// The Rust's cut finder over blocks whose frequencies change.
struct Rust {
    blocks: Blocks,
    placement: SplitPlacement,
    /// How often a frequency was changed.
    changes: u64,
}

impl Rust {
    fn new(rows: &[Row]) -> Self {
        let (blocks, mut placement) = (Blocks::new(rows), SplitPlacement::new());
        placement.prepare(&blocks);
        Self { blocks, placement, changes: 0 }
    }

    fn cut(&self, query: &Query) -> u32 {
        let [after, before] = [query.after, query.before].map(|number| Inst::new(number as usize));
        let (early, blocks) = (query.side == 0, &self.blocks);
        let cut = self
            .placement
            .find_optimal_split_point(after, before, early, blocks);
        cut.index() as u32
    }

    /// Gives a block another frequency.
    fn change(&mut self, block: usize, bits: u32) {
        self.blocks.frequencies[block] = f32::from_bits(bits);
        self.placement.prepare(&self.blocks);
        self.changes += 1;
    }

    /// Whether the cut of a query is another than `held` if a block has this frequency.
    fn moved(&mut self, query: &Query, held: u32, block: usize, bits: u32) -> bool {
        let own = self.blocks.frequencies[block].to_bits();
        self.change(block, bits);
        let cut = self.cut(query);
        self.change(block, own);
        cut != held
    }
}

// ---- the second reading

/// The ends of all stretches between some frequencies, by rising pattern.
fn ends(frequencies: impl Iterator<Item = u32>) -> Vec<u32> {
    let beside = |bits: u32| [bits.saturating_sub(1), bits, (bits + 1).min(GREATEST)];
    let mut ends: Vec<u32> = frequencies.flat_map(beside).collect();
    ends.extend([0, GREATEST]);
    ends.sort_unstable();
    ends.dedup();
    ends
}

/// Asks for one block at some patterns, and puts its fewest steps, if any, into the list of each query.
fn read(
    rust: &mut Rust,
    block: usize,
    patterns: &[u32],
    queries: &[(Query, u32)],
    lists: &mut [Vec<Found>],
) {
    let own = rust.blocks.frequencies[block].to_bits();
    let mut fewest: Vec<Option<Found>> = vec![None; queries.len()];
    for &bits in patterns {
        rust.change(block, bits);
        for ((query, held), fewest) in queries.iter().zip(&mut fewest) {
            if rust.cut(query) == *held {
                continue;
            }
            let way = if bits > own { Way::Up } else { Way::Down };
            let found = Found { block: block as u32, way, steps: bits.abs_diff(own) };
            match fewest {
                Some(old) if old.steps < found.steps => {}
                Some(old) if old.steps == found.steps => {
                    assert_eq!(*old, found, "two ways at once")
                }
                _ => *fewest = Some(found),
            }
        }
    }
    rust.change(block, own);
    for (list, fewest) in lists.iter_mut().zip(fewest) {
        list.extend(fewest);
    }
}

/// The list that is expected for each query, with the cut that the Rust answers to it.
fn lists(
    rust: &mut Rust,
    queries: &[(Query, u32)],
    whole: bool,
    random: &mut Random,
) -> Vec<Vec<Found>> {
    let count = rust.blocks.frequencies.len();
    let between = if whole {
        0..count
    } else {
        between(&rust.blocks, queries)
    };
    let own = |&frequency: &f32| frequency.to_bits();
    let inside = ends(rust.blocks.frequencies[between.clone()].iter().map(own));
    let mut lists = vec![Vec::new(); queries.len()];
    for block in 0..count {
        if between.contains(&block) {
            read(rust, block, &inside, queries, &mut lists);
        } else {
            let any = [(); 2].map(|()| random.below(INFINITY as usize) as u32);
            let outside = [0, GREATEST, any[0], any[1]];
            read(rust, block, &outside, queries, &mut lists);
        }
    }
    for list in &mut lists {
        list.sort_by_key(|found| (found.steps, found.block));
    }
    lists
}

/// The blocks from that of the least `after` to that of the greatest `before`.
fn between(blocks: &Blocks, queries: &[(Query, u32)]) -> Range<usize> {
    let from = queries
        .iter()
        .map(|(query, _)| blocks.block_of(query.after));
    let to = queries
        .iter()
        .map(|(query, _)| blocks.block_of(query.before));
    from.min().unwrap_or(0)..to.max().map_or(0, |last| last + 1)
}

/// Whether the changes that the whole reading makes are not too many.
fn affordable(rows: &[Row]) -> bool {
    let ends = ends(rows.iter().map(|row| row.1)).len();
    rows.len() * rows.len() * ends <= 8_000_000
}

/// One step less leaves the cut, and patterns further on move it.
fn hold(rust: &mut Rust, query: &Query, held: u32, found: &Found, random: &mut Random) -> bool {
    let block = found.block as usize;
    let own = rust.blocks.frequencies[block].to_bits();
    let (less, target, further) = match found.way {
        Way::Up => (
            own + found.steps - 1,
            own + found.steps,
            GREATEST - own - found.steps,
        ),
        Way::Down => (own - found.steps + 1, own - found.steps, own - found.steps),
    };
    let mut any = || {
        let on = random.below(further as usize + 1) as u32;
        if found.way == Way::Up {
            target + on
        } else {
            target - on
        }
    };
    let (near, far) = (any(), any());
    !rust.moved(query, held, block, less)
        && [target, near, far]
            .iter()
            .all(|&bits| rust.moved(query, held, block, bits))
}

// ---- ours

/// The bytes beside the blocks and beside the list.
const BESIDE: usize = 16;

/// A place for the blocks and the list of a call, at any addresses, with bytes beside them.
struct Place {
    blocks: Vec<u8>,
    list: Vec<u8>,
    work: Work,
}

impl Place {
    /// Calls, and gives the end and the list; all else must be as it was.
    fn call(&mut self, input: &Input, random: &mut Random) -> (MovesEnd, &[u8]) {
        let [from, at] = [(); 2].map(|()| random.below(BESIDE));
        let blocks = from..from + input.bytes.len();
        let list = at..at + input.length;
        self.blocks.clear();
        self.blocks.resize(from, 0x5a);
        self.blocks.extend(&input.bytes);
        self.blocks.extend([0x5a; BESIDE]);
        self.list.clear();
        self.list.resize(list.end + BESIDE, 0xa5);
        self.work.bytes().fill(random.word() as u8);
        let Query { after, before, side } = input.query;
        let end = end_in_bytes(
            &self.blocks[blocks.clone()],
            after,
            before,
            side,
            &mut self.list[list.clone()],
            &mut self.work,
        );
        let beside = |bytes: &[u8], byte: u8| bytes.iter().all(|&other| other == byte);
        let kept = self.blocks[blocks.clone()] == input.bytes
            && beside(&self.blocks[..from], 0x5a)
            && beside(&self.blocks[blocks.end..], 0x5a)
            && beside(&self.list[..at], 0xa5)
            && beside(&self.list[list.end..], 0xa5);
        if !kept {
            differs("written outside the list", input, &end, &"nothing");
        }
        (end, &self.list[list])
    }

    /// A call that must be refused by a number: count 0, and the list zero.
    fn refused(&mut self, input: &Input, number: u32, random: &mut Random) {
        let (end, ours) = self.call(input, random);
        let theirs = MovesEnd { number, count: 0 };
        if end != theirs || ours.iter().any(|&byte| byte != 0) {
            differs("refused", input, &(end, ours), &theirs);
        }
    }

    /// A call that must give these rows, and zeros behind them.
    fn accepted(&mut self, input: &Input, list: &[Found], random: &mut Random) {
        let theirs = MovesEnd { number: 0, count: list.len() as u32 };
        let (end, ours) = self.call(input, random);
        if end != theirs || *ours != bytes_of(list, input.length) {
            differs("accepted", input, &(end, ours), &list);
        }
    }
}

/// Prints the input as a line for the driver `moves`, and ends.
fn differs(what: &str, input: &Input, ours: &dyn Debug, theirs: &dyn Debug) -> ! {
    let Query { after, before, side } = input.query;
    let digits: String = input
        .bytes
        .iter()
        .map(|byte| format!("{byte:02x}"))
        .collect();
    let digits = if digits.is_empty() { "-" } else { &digits };
    println!("{what}: {ours:x?}, expected {theirs:x?}, over");
    println!("{side}\t{after}\t{before}\t{}\t{digits}", input.length);
    exit(1)
}

/// The list that holds these rows.
fn bytes_of(list: &[Found], length: usize) -> Vec<u8> {
    let words = list
        .iter()
        .flat_map(|found| [found.block, found.way.number(), found.steps]);
    let mut bytes: Vec<u8> = words.flat_map(u32::to_le_bytes).collect();
    bytes.resize(length, 0);
    bytes
}

// ---- what is asked

/// How the frequencies of one function are drawn.
#[derive(Clone, Copy)]
enum Style {
    Equal,
    Few,
    Zeros,
    Subnormal,
    Huge,
    Greatest,
    Neighbours,
    Edges,
    Any,
}

const STYLES: [Style; 9] = [
    Style::Equal,
    Style::Few,
    Style::Zeros,
    Style::Subnormal,
    Style::Huge,
    Style::Greatest,
    Style::Neighbours,
    Style::Edges,
    Style::Any,
];

fn frequency(style: Style, base: u32, random: &mut Random) -> u32 {
    match style {
        Style::Equal => base,
        Style::Few => (random.below(3) as f32 + 1.0).to_bits(),
        Style::Zeros => random.pick(&[0, 0, 1, 0x3f80_0000]),
        Style::Subnormal => random.below(0x0080_0000) as u32,
        Style::Huge => GREATEST - random.below(1 << 20) as u32,
        Style::Greatest => GREATEST - random.below(3) as u32,
        Style::Neighbours => base.saturating_sub(random.below(3) as u32),
        Style::Edges => random.pick(&[0, 1, base, GREATEST - 1, GREATEST]),
        Style::Any => random.below(INFINITY as usize) as u32,
    }
}

fn function(random: &mut Random) -> Vec<Row> {
    let count = match random.below(200) {
        0 => 512,
        1..=3 => 100 + random.below(413),
        4..=29 => 1 + random.below(40),
        _ => 1 + random.below(10),
    };
    let most = if random.one_in(2) { 1 } else { 12 };
    let longest = (4096 / count).min(most);
    let style = random.pick(&STYLES);
    let base = random.below(INFINITY as usize) as u32;
    (0..count)
        .map(|_| {
            let bits = frequency(style, base, random);
            (1 + random.below(longest) as u32, bits)
        })
        .collect()
}

fn to_bytes(rows: &[Row]) -> Vec<u8> {
    let words = rows.iter().flat_map(|&(insts, bits)| [insts, bits]);
    words.flat_map(u32::to_le_bytes).collect()
}

/// Ends in order, no more than `widest` apart: a fourth of them near each other, a half rather far.
fn ends_in_order(insts: u32, widest: usize, random: &mut Random) -> (u32, u32) {
    let (style, last) = (random.below(4), insts as usize - 1);
    let far = if style < 2 { last / 2 } else { 0 };
    let before = last - random.below(last - far);
    let most = if style == 2 { 6 } else { widest };
    let near = if style < 2 { before / 2 } else { 0 };
    let apart = 1 + near + random.below(before - near);
    ((before - apart.min(most)) as u32, before as u32)
}

/// Bytes of a list that has a row for each block, at or above what is needed.
fn fine_length(count: usize, random: &mut Random) -> usize {
    ROW * count
        + match random.below(4) {
            0 => 0,
            1 => 1 + random.below(ROW),
            2 => random.below(4 * ROW),
            _ => ROW * random.below(4),
        }
}

/// Bytes of a list that has fewer rows than blocks, often one byte fewer than is needed.
fn short_length(count: usize, random: &mut Random) -> usize {
    let needed = ROW * count;
    match random.below(4) {
        0 => needed - 1,
        1 => needed - 1 - random.below(ROW),
        2 => 0,
        _ => random.below(needed),
    }
}

#[derive(Default)]
struct Counts {
    queries: u64,
    functions: u64,
    long: u64,
    changes: u64,
    up: u64,
    down: u64,
    empty: u64,
    short: u64,
    answers: [u64; 10],
    compared: u64,
}

impl Counts {
    /// An accepted query with this list.
    fn add(&mut self, list: &[Found]) {
        let up = list.iter().filter(|found| found.way == Way::Up).count();
        self.queries += 1;
        self.empty += u64::from(list.is_empty());
        self.up += up as u64;
        self.down += (list.len() - up) as u64;
    }
}

/// Ends in order, each pair early and late, with the cut that the Rust answers.
fn queries(rust: &Rust, whole: bool, random: &mut Random) -> Vec<(Query, u32)> {
    let (pairs, widest) = if whole { (8, 4096) } else { (1, 64) };
    let mut queries = Vec::new();
    for _ in 0..pairs {
        let (after, before) = ends_in_order(rust.blocks.insts(), widest, random);
        for side in 0..2 {
            let query = Query { after, before, side };
            queries.push((query, rust.cut(&query)));
        }
    }
    queries
}

/// One function in order: some ends, both sides, in lists that are long enough, and now and then in one that is not.
fn accepted(random: &mut Random, place: &mut Place, counts: &mut Counts) {
    let rows = function(random);
    let (mut rust, whole) = (Rust::new(&rows), affordable(&rows));
    if rust.blocks.insts() < 2 {
        return;
    }
    let queries = queries(&rust, whole, random);
    let lists = lists(&mut rust, &queries, whole, random);
    for ((query, held), list) in queries.into_iter().zip(lists) {
        let length = fine_length(rows.len(), random);
        let mut input = Input { bytes: to_bytes(&rows), query, length };
        place.accepted(&input, &list, random);
        for found in &list {
            let looked_at = list.len() <= 40 || random.one_in(list.len() / 20);
            if looked_at && !hold(&mut rust, &query, held, found, random) {
                differs("a row", &input, found, &"the fewest steps");
            }
        }
        counts.add(&list);
        if random.one_in(4) {
            input.length = short_length(rows.len(), random);
            place.refused(&input, 9, random);
            counts.short += 1;
        }
    }
    counts.functions += 1;
    counts.long += u64::from(whole && rows.len() >= 100);
    counts.changes += rust.changes;
}

// ---- damaged input

fn rows_of(bytes: &[u8]) -> Vec<Row> {
    let words: Vec<u32> = bytes
        .as_chunks()
        .0
        .iter()
        .map(|&word| u32::from_le_bytes(word))
        .collect();
    words.chunks_exact(2).map(|row| (row[0], row[1])).collect()
}

/// The number that an input must be answered by: those of the cut finder, then 9 for a list with too few rows.
fn number(input: &Input) -> u32 {
    let Input { bytes, query, length } = input;
    if query.side > 1 || !bytes.len().is_multiple_of(8) || bytes.is_empty() {
        return 1;
    }
    let rows = rows_of(bytes);
    let total: u64 = rows.iter().map(|row| u64::from(row.0)).sum();
    if rows.len() > 512 || total > 4096 {
        return 2;
    }
    let fine = rows.iter().all(|&(insts, bits)| {
        let frequency = f32::from_bits(bits);
        insts > 0 && frequency.is_finite() && frequency.is_sign_positive()
    });
    if !fine || query.after >= query.before || u64::from(query.before) >= total {
        return 4;
    }
    if length / ROW < rows.len() { 9 } else { 0 }
}

const BAD_FREQUENCIES: [u32; 9] = [
    INFINITY,
    INFINITY + 1,
    0x7fc0_0000,
    0x7fff_ffff,
    0x8000_0000,
    0x8000_0001,
    0xbf80_0000,
    0xff80_0000,
    u32::MAX,
];

/// One change to the bytes of the blocks.
fn damage_bytes(bytes: &mut Vec<u8>, random: &mut Random) {
    let row = random.below(bytes.len() / 8 + 1) * 8;
    let inside = row + 8 <= bytes.len();
    match random.below(10) {
        0 => bytes.truncate(random.below(bytes.len() + 1)),
        1 => bytes.extend((0..random.below(9)).map(|byte| byte as u8)),
        2 => *bytes = (0..random.below(40)).map(|_| random.word() as u8).collect(),
        3 if inside => bytes[row..row + 4].fill(0),
        4 if inside => bytes[row..row + 4].copy_from_slice(&random.word().to_le_bytes()),
        5 | 6 if inside => {
            let bits = random.pick(&BAD_FREQUENCIES);
            bytes[row + 4..row + 8].copy_from_slice(&bits.to_le_bytes());
        }
        7 => *bytes = [1, 0, 0, 0, 0, 0, 128, 63].repeat(510 + random.below(5)),
        // Counts that add up to a little above 2^32, and would be in order if they wrapped.
        8 if inside => {
            let counts = rows_of(bytes).into_iter().map(|row| row.0);
            let all = counts.fold(0, u32::wrapping_add);
            let others = all.wrapping_sub(rows_of(bytes)[row / 8].0);
            let count = (random.below(4097) as u32).wrapping_sub(others);
            bytes[row..row + 4].copy_from_slice(&count.to_le_bytes());
        }
        _ => {
            let insts: u64 = rows_of(bytes).iter().map(|row| u64::from(row.0)).sum();
            let rest = 4095_u64.saturating_sub(insts) as u32 + random.below(4) as u32;
            bytes.extend(rest.to_le_bytes());
            bytes.extend([0, 0, 128, 63]);
        }
    }
}

/// Changes to an input that was in order, or bytes that never were, and any list.
fn damaged(random: &mut Random) -> Input {
    let mut rows = function(random);
    rows.truncate(1 + random.below(12));
    let mut bytes = to_bytes(&rows);
    let insts: u32 = rows.iter().map(|row| row.0).sum();
    let (mut after, mut before, mut side) = (0, 0, random.below(2) as u32);
    if insts > 1 {
        (after, before) = ends_in_order(insts, 4096, random);
    }
    for _ in 0..random.below(4) {
        let any = random.word();
        match random.below(12) {
            0 => side = random.pick(&[2, 3, 256, 1 << 31, u32::MAX]),
            1 => before = random.pick(&[after, insts, insts + 1, any]),
            2 => after = random.pick(&[before, before.saturating_add(1), any]),
            3 => (after, before) = (before, after),
            _ => damage_bytes(&mut bytes, random),
        }
    }
    let count = bytes.len() / 8;
    let length = if random.one_in(3) && count > 0 {
        short_length(count, random)
    } else {
        fine_length(count, random)
    };
    let query = Query { after, before, side };
    Input { bytes, query, length }
}

/// An input that is still in order, as any other; of those of many blocks only some.
fn in_order(input: &Input, place: &mut Place, random: &mut Random, counts: &mut Counts) {
    let rows = rows_of(&input.bytes);
    if rows.len() > 40 && !random.one_in(64) {
        let (end, _) = place.call(input, random);
        if end.number != 0 {
            differs("in order", input, &end, &"number 0");
        }
        return;
    }
    let mut rust = Rust::new(&rows);
    let held = rust.cut(&input.query);
    let list = lists(&mut rust, &[(input.query, held)], true, random).remove(0);
    place.accepted(input, &list, random);
    counts.compared += 1;
}

fn main() {
    let mut args = env::args()
        .skip(1)
        .map(|arg| arg.parse::<u64>().expect("a number"));
    let queries = args.next().unwrap_or(600_000);
    let mut random = Random::new(args.next().unwrap_or(1));
    let mut place = Place { blocks: Vec::new(), list: Vec::new(), work: Work::new() };
    let mut counts = Counts::default();
    while counts.queries < queries {
        accepted(&mut random, &mut place, &mut counts);
    }
    let Counts { queries: asked, functions, long, changes, up, down, empty, short, .. } = counts;
    println!(
        "{asked} accepted queries over {functions} functions, {long} of 100 blocks or more asked whole; {changes} \
         changes of a frequency: no difference"
    );
    println!(
        "{} rows, {up} up and {down} down; {empty} empty lists",
        up + down
    );
    println!("{short} of the queries again in a list that is too short: each refused by 9");
    for _ in 0..queries {
        let input = damaged(&mut random);
        let number = number(&input);
        match number {
            0 => in_order(&input, &mut place, &mut random, &mut counts),
            _ => place.refused(&input, number, &mut random),
        }
        counts.answers[number as usize] += 1;
    }
    let [fine, one, two, _, four, _, _, _, _, nine] = counts.answers;
    println!(
        "{queries} damaged inputs: {one} refused by 1, {two} by 2, {four} by 4, {nine} by 9, {fine} still in order, \
         {} of these held against the Rust: no difference",
        counts.compared
    );
}

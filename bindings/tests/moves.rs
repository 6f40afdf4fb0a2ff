//! What would move a cut: the marked cases, edges of the frequencies, the refusals in order, the bytes of the list, and
//! every row held against the cut finder, asked again.

#[allow(dead_code)]
#[path = "../examples/common/random.rs"]
mod random;

use cundzeli::Refusal::{BadFunction, Full, NotARecord, OverALimit};
use cundzeli::cut::{Blocks, Side, Work, find};
use cundzeli::moves::Way::{Down, Up};
use cundzeli::moves::{Move, MoveList, MovesEnd, ROW, Way, end_in_bytes, moves, moves_in_bytes};
use cundzeli::{Block, BlockData, Inst, Refusal};
use random::Random;

/// Instructions and frequency of each block.
type Rows<'a> = &'a [(u32, f32)];

/// Block, way and steps.
type Found = (u32, Way, u32);

const SIDES: [Side; 2] = [Side::Early, Side::Late];
const GREATEST: u32 = 0x7f7f_ffff;

fn blocks(rows: Rows) -> Blocks {
    let mut rows = rows
        .iter()
        .map(|&(insts, frequency)| BlockData::new(insts, frequency));
    let mut blocks = Blocks::new(rows.next().expect("a block"));
    rows.for_each(|block| blocks.push(block));
    blocks
}

fn one(found: Move) -> Found {
    (found.block.0, found.way, found.steps)
}

fn among(rows: Rows, after: u32, before: u32, side: Side) -> Result<Vec<Found>, Refusal> {
    let (blocks, mut list) = (blocks(rows), MoveList::new(rows.len()));
    let (after, before) = (Inst(after), Inst(before));
    let found = moves(&blocks, after, before, side, &mut list, &mut Work::new())?;
    Ok(found.into_iter().map(one).collect())
}

/// Both sides' answers to ends that are in order.
fn both(rows: Rows, after: u32, before: u32) -> [Vec<Found>; 2] {
    SIDES.map(|side| among(rows, after, before, side).expect("ends in order"))
}

/// Blocks of four instructions with these patterns, asked from the first instruction to the last, so that all are open.
fn patterns<const N: usize>(bits: [u32; N]) -> [Vec<Found>; 2] {
    let rows = bits.map(|bits| (4, f32::from_bits(bits)));
    both(&rows, 0, 4 * N as u32 - 1)
}

const F_EARLY: [Found; 3] = [(1, Up, 1), (2, Down, 1), (0, Down, 4_194_304)];
const F_LATE: [Found; 3] = [(1, Down, 1), (2, Up, 1), (0, Down, 4_194_305)];

#[test]
fn case_f() {
    let rows = [(4, 3.0), (4, 2.0), (8, 2.0)];
    let [early, late] = both(&rows, 1, 13);
    assert_eq!(early, F_EARLY);
    assert_eq!(late, F_LATE);
}

/// The instructions of a block don't matter, as long as the same blocks are open.
#[test]
fn case_f_in_shorter_blocks() {
    let rows = [(3, 3.0), (3, 2.0), (4, 2.0)];
    let [early, late] = both(&rows, 0, 7);
    assert_eq!(early, F_EARLY);
    assert_eq!(late, F_LATE);
}

#[test]
fn case_g() {
    let rows = [(4, 3.0), (4, 2.0), (8, 1.0)];
    let [early, late] = both(&rows, 1, 8);
    let expected = [
        (1, Down, 8_388_608),
        (2, Up, 8_388_608),
        (0, Down, 12_582_912),
    ];
    assert_eq!(early, expected);
    assert_eq!(late, [(0, Down, 4_194_305), (1, Up, 4_194_305)]);
}

#[test]
fn equal_frequencies() {
    let [early, late] = patterns([1.0_f32.to_bits(); 3]);
    assert_eq!(early, [(0, Up, 1), (1, Down, 1), (2, Down, 1)]);
    assert_eq!(late, [(0, Down, 1), (1, Down, 1), (2, Up, 1)]);
}

/// None can go below zero; the chosen one can go above the others.
#[test]
fn zeros() {
    let [early, late] = patterns([0; 3]);
    assert_eq!(early, [(0, Up, 1)]);
    assert_eq!(late, [(2, Up, 1)]);
}

/// A block that is ahead need not go below zero, only down to it.
#[test]
fn zero_and_one_step_above() {
    let [early, late] = patterns([1, 0, 1]);
    assert_eq!(early, [(0, Down, 1), (1, Up, 1)]);
    assert_eq!(late, [(1, Up, 1), (2, Down, 1)]);
}

/// Nothing is above the greatest frequency, so the chosen block of two that both have it stays.
#[test]
fn the_greatest_frequency() {
    let [early, late] = patterns([GREATEST; 2]);
    assert_eq!(early, [(1, Down, 1)]);
    assert_eq!(late, [(0, Down, 1)]);
}

/// Where the other block is ahead an equal frequency is enough, else one above the greatest would be needed.
#[test]
fn the_greatest_frequency_on_one_side() {
    let [early, late] = patterns([1, GREATEST]);
    assert_eq!(early, [(1, Down, GREATEST)]);
    assert_eq!(late, [(0, Up, GREATEST - 1), (1, Down, GREATEST - 1)]);
    let [early, late] = patterns([GREATEST, 1]);
    assert_eq!(early, [(0, Down, GREATEST - 1), (1, Up, GREATEST - 1)]);
    assert_eq!(late, [(0, Down, GREATEST)]);
}

/// From zero to the greatest and back: no move has more steps than frequencies leave.
#[test]
fn the_most_steps() {
    let [early, late] = patterns([0, GREATEST]);
    assert_eq!(early, []);
    assert_eq!(late, [(0, Up, GREATEST), (1, Down, GREATEST)]);
    let [early, late] = patterns([GREATEST, 0]);
    assert_eq!(early, [(0, Down, GREATEST), (1, Up, GREATEST)]);
    assert_eq!(late, []);
}

#[test]
fn one_block() {
    for bits in [0, 1, 1.0_f32.to_bits(), GREATEST] {
        assert_eq!(patterns([bits]), [[], []]);
    }
}

/// Both ends in one block, or next to each other: there is one place.
#[test]
fn one_place() {
    let rows = [(4, 3.0), (4, 2.0), (8, 1.0)];
    assert_eq!(both(&rows, 4, 7), [[], []]);
    assert_eq!(both(&rows, 3, 4), [[], []]);
    assert_eq!(both(&rows, 0, 1), [[], []]);
}

/// The second least frequency on both sides of the least: the one that is ahead decides how far the chosen block goes.
#[test]
fn second_least_on_both_sides() {
    let [early, late] = patterns([20, 10, 20]);
    assert_eq!(early, [(0, Down, 10), (1, Up, 10), (2, Down, 11)]);
    assert_eq!(late, [(1, Up, 10), (2, Down, 10), (0, Down, 11)]);
    let [early, late] = patterns([21, 10, 20]);
    assert_eq!(early, [(0, Down, 11), (1, Up, 11), (2, Down, 11)]);
    assert_eq!(late, [(1, Up, 10), (2, Down, 10), (0, Down, 12)]);
}

/// A block outside the ends is never named, however low it is.
#[test]
fn blocks_outside() {
    let rows = [(4, 0.0), (4, 2.0), (4, 2.0), (4, 0.0)];
    let [early, late] = both(&rows, 4, 10);
    assert_eq!(early, [(1, Up, 1), (2, Down, 1)]);
    assert_eq!(late, [(1, Down, 1), (2, Up, 1)]);
    // From the last instruction of block 0, or to the first of block 3: one side has these too.
    assert_eq!(both(&rows, 3, 10).map(|found| found.len()), [2, 3]);
    assert_eq!(both(&rows, 4, 12).map(|found| found.len()), [3, 2]);
}

#[test]
fn the_most_blocks() {
    let rows: Vec<(u32, f32)> = (0..512).map(|n| (8, (1024 - n) as f32)).collect();
    let found = among(&rows, 0, 4095, Side::Early).expect("512 blocks");
    let expected: Vec<u32> = (0..512).rev().collect();
    let named: Vec<u32> = found.iter().map(|&(block, ..)| block).collect();
    assert_eq!(named[2..], expected[2..]);
    assert_eq!(named[..2], [510, 511], "equal steps, by rising block");
    assert!(found.is_sorted_by_key(|&(block, _, steps)| (steps, block)));
}

#[test]
fn targets() {
    let found = |way, steps| Move { block: Block(0), way, steps };
    assert_eq!(found(Down, 4_194_304).target(3.0), 2.0);
    assert_eq!(found(Up, 1).target(0.0).to_bits(), 1);
    assert_eq!(found(Up, GREATEST).target(0.0), f32::MAX);
    assert_eq!(found(Down, GREATEST).target(f32::MAX).to_bits(), 0);
    assert_eq!([Up, Down].map(Way::number), [0, 1]);
}

/// Asks in a list that holds other bytes, which must be zero then; gives the number.
fn refused(bytes: &[u8], after: u32, before: u32, side: u32, length: usize) -> Refusal {
    let (mut list, mut work, given) = (vec![0xa5; length], Work::new(), bytes.to_vec());
    let end = end_in_bytes(bytes, after, before, side, &mut list, &mut work);
    assert_eq!(end.count, 0);
    assert!(list.iter().all(|&byte| byte == 0));
    assert_eq!(bytes, given);
    Refusal::try_from(end.number).expect("a refusal")
}

#[test]
fn refusals() {
    let (fine, room) = (blocks(&[(4, 3.0), (4, 2.0)]), 2 * ROW);
    assert_eq!(refused(&[], 0, 1, 0, room), NotARecord);
    assert_eq!(refused(fine.bytes(), 0, 1, 2, room), NotARecord);
    assert_eq!(refused(fine.bytes(), 0, 1, u32::MAX, room), NotARecord);
    assert_eq!(refused(&fine.bytes()[..15], 0, 1, 0, room), NotARecord);
    let (many, huge) = (blocks(&[(1, 1.0); 513]), blocks(&[(u32::MAX, 1.0); 512]));
    assert_eq!(refused(many.bytes(), 0, 1, 0, 513 * ROW), OverALimit);
    assert_eq!(refused(huge.bytes(), 0, 1, 0, 512 * ROW), OverALimit);
    let wrapping = blocks(&[(4, 1.0), (u32::MAX, 1.0), (5, 1.0)]);
    assert_eq!(refused(wrapping.bytes(), 0, 1, 0, 3 * ROW), OverALimit);
    let bad = [
        (0, 1.0),
        (4, -0.0),
        (4, -1.0),
        (4, f32::INFINITY),
        (4, f32::NAN),
    ];
    for row in bad {
        let bad = blocks(&[(4, 1.0), row]);
        assert_eq!(refused(bad.bytes(), 0, 1, 0, room), BadFunction);
    }
    for (after, before) in [(1, 1), (2, 1), (0, 8), (u32::MAX, 0), (0, u32::MAX)] {
        for side in 0..2 {
            assert_eq!(
                refused(fine.bytes(), after, before, side, room),
                BadFunction
            );
        }
    }
    for side in 0..2 {
        assert_eq!(refused(fine.bytes(), 0, 7, side, room - 1), Full);
        assert_eq!(refused(fine.bytes(), 0, 1, side, room - 1), Full);
    }
}

/// The lowest that applies, and 9 last of all.
#[test]
fn the_order_of_refusals() {
    let long = blocks(&[(0, 3.0), (4097, f32::NAN)]);
    for room in [0, ROW, 2 * ROW] {
        assert_eq!(refused(long.bytes(), 5, 1, 2, room), NotARecord);
        assert_eq!(refused(&long.bytes()[1..], 5, 1, 0, room), NotARecord);
        assert_eq!(refused(long.bytes(), 5, 1, 0, room), OverALimit);
    }
    let (bad, fine) = (blocks(&[(4, 1.0), (4, -0.0)]), blocks(&[(4, 1.0); 2]));
    for room in [0, ROW, 2 * ROW] {
        assert_eq!(refused(bad.bytes(), 0, 1, 0, room), BadFunction);
        assert_eq!(refused(fine.bytes(), 1, 1, 0, room), BadFunction);
        assert_eq!(refused(fine.bytes(), 0, 8, 0, room), BadFunction);
    }
    for room in [0, 1, ROW, 2 * ROW - 1] {
        assert_eq!(refused(fine.bytes(), 0, 1, 0, room), Full);
    }
}

/// Any length: short ones are refused, and in others the rows come first and zeros behind them.
#[test]
fn lengths_of_the_list() {
    let rows = blocks(&[(4, 1.0), (4, 3.0), (4, 2.0)]);
    // Blocks 1 and 2 are open; block 0 has a row that stays empty.
    let expected = [1_u32, 1, 4_194_304, 2, 0, 4_194_304].map(u32::to_le_bytes);
    for length in 0..6 * ROW {
        let (mut list, mut work) = (vec![0xa5; length], Work::new());
        let end = end_in_bytes(rows.bytes(), 4, 11, 0, &mut list, &mut work);
        if length < 3 * ROW {
            assert_eq!(end, MovesEnd { number: Full.number(), count: 0 });
            assert!(list.iter().all(|&byte| byte == 0));
        } else {
            assert_eq!(end, MovesEnd { number: 0, count: 2 });
            assert_eq!(list[..2 * ROW], *expected.as_flattened());
            assert!(list[2 * ROW..].iter().all(|&byte| byte == 0));
        }
    }
}

/// The types say the same: a list for fewer blocks, or a byte short of what is needed, is refused.
#[test]
fn lists_that_are_lent() {
    let rows = blocks(&[(4, 1.0); 3]);
    let ask = |mut list: MoveList| {
        list.bytes().fill(0xa5);
        let found = moves(
            &rows,
            Inst(0),
            Inst(9),
            Side::Early,
            &mut list,
            &mut Work::new(),
        );
        let bytes = list.bytes().iter().filter(|&&byte| byte != 0).count();
        (found.map(|found| found.len()), bytes)
    };
    for length in [0, 1, ROW, 2 * ROW, 3 * ROW - 1] {
        assert_eq!(ask(MoveList::of_bytes(length)), (Err(Full), 0));
    }
    // Three rows: a step each, the blocks 1 and 2, and the way down of these.
    let fine = (Ok(3), 7);
    assert_eq!(ask(MoveList::of_bytes(3 * ROW)), fine);
    assert_eq!(ask(MoveList::of_bytes(3 * ROW + 1)), fine);
    assert_eq!(ask(MoveList::new(3)), fine);
    assert_eq!(ask(MoveList::default()), fine);
}

#[test]
fn the_work_space_may_hold_anything() {
    let rows = blocks(&[(4, 3.0), (4, 2.0), (8, 2.0)]);
    let mut random = Random::new(5);
    let mut answers = Vec::new();
    for round in 0..300 {
        let mut work = Work::new();
        let bytes = work.bytes();
        match round {
            0..256 => bytes.fill(round as u8),
            _ => bytes.fill_with(|| random.word() as u8),
        }
        for side in 0..2 {
            let mut list = [0xa5; 40];
            let count = moves_in_bytes(rows.bytes(), 1, 13, side, &mut list, &mut work);
            answers.push((side, count, list));
        }
    }
    assert!(answers.chunks(2).all(|pair| pair == &answers[..2]));
    assert_eq!(answers[0].1, Ok(3));
}

/// Frequencies of one function: few different ones, neighbours, zeros, any.
fn frequency(style: usize, base: u32, random: &mut Random) -> u32 {
    match style {
        0 => (random.below(3) as f32 + 1.0).to_bits(),
        1 => base.saturating_sub(random.below(3) as u32),
        2 => random.below(3) as u32,
        3 => GREATEST - random.below(3) as u32,
        4 => random.pick(&[0, 1, 0x3f80_0000, GREATEST - 1, GREATEST]),
        _ => random.below(GREATEST as usize + 1) as u32,
    }
}

fn function(random: &mut Random) -> Vec<(u32, f32)> {
    let (style, base) = (random.below(7), random.below(GREATEST as usize + 1) as u32);
    let count = match random.below(10) {
        0 => 1 + random.below(60),
        _ => 2 + random.below(7),
    };
    (0..count)
        .map(|_| {
            let bits = frequency(style, base, random);
            (1 + random.below(4) as u32, f32::from_bits(bits))
        })
        .collect()
}

/// A function and a question that is in order, with the instruction that the cut finder answers.
struct Asked {
    rows: Vec<(u32, f32)>,
    after: Inst,
    before: Inst,
    side: Side,
    held: Inst,
}

impl Asked {
    fn new(rows: &[(u32, f32)], after: u32, before: u32, side: Side, work: &mut Work) -> Self {
        let (rows, after, before) = (rows.to_vec(), Inst(after), Inst(before));
        let mut asked = Self { rows, after, before, side, held: Inst(0) };
        asked.held = asked.cut(work);
        asked
    }

    fn cut(&self, work: &mut Work) -> Inst {
        let blocks = blocks(&self.rows);
        find(&blocks, self.after, self.before, self.side, work).expect("ends in order")
    }

    fn moves(&self, list: &mut MoveList, work: &mut Work) -> Vec<Move> {
        let blocks = blocks(&self.rows);
        let found = moves(&blocks, self.after, self.before, self.side, list, work);
        found.expect("ends in order")
    }

    /// Whether the cut is another if the block has this frequency.
    fn moved(&mut self, block: Block, frequency: f32, work: &mut Work) -> bool {
        let place = block.0 as usize;
        let own = std::mem::replace(&mut self.rows[place].1, frequency);
        let cut = self.cut(work);
        self.rows[place].1 = own;
        cut != self.held
    }

    /// By the steps of a row the cut moves, by one less it does not.
    fn hold(&mut self, row: Move, work: &mut Work) {
        let own = self.rows[row.block.0 as usize].1;
        let less = Move { steps: row.steps - 1, ..row };
        assert!(self.moved(row.block, row.target(own), work), "{row:?}");
        assert!(!self.moved(row.block, less.target(own), work), "{row:?}");
    }
}

/// A question of each side.
fn asked(random: &mut Random, work: &mut Work) -> Option<[Asked; 2]> {
    let rows = function(random);
    let insts: u32 = rows.iter().map(|row| row.0).sum();
    let before = 1 + random.below((insts as usize).checked_sub(1).filter(|&n| n > 0)?) as u32;
    let after = random.below(before as usize) as u32;
    Some(SIDES.map(|side| Asked::new(&rows, after, before, side, work)))
}

/// What the first row promises, and every other: its frequency moved by the steps, the cut finder answers another
/// instruction; by one step less, the same.
#[test]
fn every_row_is_the_fewest_steps() {
    let (mut random, mut work, mut list) = (Random::new(12), Work::new(), MoveList::default());
    let (mut empty, mut ways) = (0, [0; 2]);
    for _ in 0..20_000 {
        let pair = asked(&mut random, &mut work);
        for mut asked in pair.into_iter().flatten() {
            let found = asked.moves(&mut list, &mut work);
            assert!(found.is_sorted_by_key(|row| (row.steps, row.block)));
            empty += u32::from(found.is_empty());
            for row in found {
                asked.hold(row, &mut work);
                ways[row.way.number() as usize] += 1;
            }
        }
    }
    assert!(empty > 1_000 && ways.iter().all(|&way| way > 10_000));
}

/// A block that is not named has no effect: at zero, at the greatest frequency, and at some between.
#[test]
fn what_is_not_named_does_not_move_the_cut() {
    let (mut random, mut work, mut list) = (Random::new(13), Work::new(), MoveList::default());
    let mut unnamed = 0;
    for _ in 0..5_000 {
        let pair = asked(&mut random, &mut work);
        for mut asked in pair.into_iter().flatten() {
            let found = asked.moves(&mut list, &mut work);
            for block in (0..asked.rows.len() as u32).map(Block) {
                if found.iter().any(|row| row.block == block) {
                    continue;
                }
                let any = random.below(GREATEST as usize + 1) as u32;
                for bits in [0, any, GREATEST] {
                    assert!(!asked.moved(block, f32::from_bits(bits), &mut work));
                }
                unnamed += 1;
            }
        }
    }
    assert!(unnamed > 10_000);
}

/// What the types express is never refused by 1, and by 2 and 4 exactly as the cut finder does.
#[test]
fn the_types_refuse_as_the_cut_finder() {
    let numbers = [0, 1, 2, 7, 8, 4095, 4096, u32::MAX];
    let floats = [0.0, -0.0, 1.0, f32::NAN, f32::INFINITY];
    let (mut work, mut list, mut accepted) = (Work::new(), MoveList::new(1), 0);
    for (insts, frequency) in numbers.iter().flat_map(|&n| floats.map(|float| (n, float))) {
        let rows = blocks(&[(insts, frequency)]);
        for (after, before) in numbers
            .iter()
            .flat_map(|&n| numbers.map(|m| (Inst(n), Inst(m))))
        {
            for side in SIDES {
                let cut = find(&rows, after, before, side, &mut work);
                let found = moves(&rows, after, before, side, &mut list, &mut work);
                assert_ne!(found, Err(NotARecord));
                assert_eq!(found.as_ref().err(), cut.as_ref().err());
                accepted += u32::from(found.is_ok());
            }
        }
    }
    assert!(accepted > 0);
}

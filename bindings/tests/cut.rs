//! The marked cases F and G, and the refusals in order.

use cundzeli::Refusal::{BadFunction, NotARecord, OverALimit};
use cundzeli::cut::{Blocks, Side, Work, find, find_in_bytes};
use cundzeli::{BlockData, Inst};

fn blocks(rows: &[(u32, f32)]) -> Blocks {
    let mut rows = rows
        .iter()
        .map(|&(insts, frequency)| BlockData::new(insts, frequency));
    let mut blocks = Blocks::new(rows.next().expect("a block"));
    rows.for_each(|block| blocks.push(block));
    blocks
}

#[test]
fn case_f() {
    let rows = blocks(&[(4, 3.0), (4, 2.0), (8, 2.0)]);
    let mut work = Work::new();
    let mut cut = |side| find(&rows, Inst(1), Inst(13), side, &mut work);
    assert_eq!(cut(Side::Early), Ok(Inst(4)));
    assert_eq!(cut(Side::Late), Ok(Inst(13)));
}

#[test]
fn case_g() {
    let rows = blocks(&[(4, 3.0), (4, 2.0), (8, 1.0)]);
    let cut = find(&rows, Inst(1), Inst(8), Side::Early, &mut Work::new());
    assert_eq!(cut, Ok(Inst(8)));
}

#[test]
fn refusals() {
    let mut work = Work::new();
    let mut ask =
        |bytes: &[u8], after, before, side| find_in_bytes(bytes, after, before, side, &mut work);
    let fine = blocks(&[(4, 3.0), (4, 2.0)]);
    assert_eq!(ask(&[], 0, 1, 0), Err(NotARecord));
    assert_eq!(ask(fine.bytes(), 0, 1, 2), Err(NotARecord));
    assert_eq!(ask(&fine.bytes()[..15], 0, 1, 0), Err(NotARecord));
    let long = blocks(&[(0, 3.0), (4097, f32::NAN)]);
    assert_eq!(ask(long.bytes(), 5, 1, 2), Err(NotARecord));
    assert_eq!(ask(long.bytes(), 5, 1, 0), Err(OverALimit));
    let (many, huge) = (blocks(&[(1, 1.0); 513]), blocks(&[(u32::MAX, 1.0); 512]));
    assert_eq!(ask(many.bytes(), 0, 1, 0), Err(OverALimit));
    assert_eq!(ask(huge.bytes(), 0, 1, 0), Err(OverALimit));
    let most = blocks(&[(8, 1.0); 512]);
    assert_eq!(ask(most.bytes(), 4094, 4095, 0), Ok(4095));
    for (insts, frequency) in [(0, 1.0), (4, -0.0), (4, f32::INFINITY)] {
        let bad = blocks(&[(4, 1.0), (insts, frequency)]);
        assert_eq!(ask(bad.bytes(), 0, 1, 0), Err(BadFunction));
    }
    assert_eq!(ask(fine.bytes(), 1, 1, 0), Err(BadFunction));
    assert_eq!(ask(fine.bytes(), 0, 8, 0), Err(BadFunction));
    assert_eq!(ask(fine.bytes(), 6, 7, 1), Ok(7));
}

/// What the types express is never refused by 1, whatever the numbers are.
#[test]
fn the_types_never_give_1() {
    let numbers = [0, 1, 2, 7, 8, 4095, 4096, u32::MAX];
    let floats = [0.0, -0.0, 1.0, f32::NAN, f32::INFINITY];
    let (mut work, mut accepted) = (Work::new(), 0);
    for (insts, frequency) in numbers.iter().flat_map(|&n| floats.map(|float| (n, float))) {
        let rows = blocks(&[(insts, frequency)]);
        for (after, before) in numbers
            .iter()
            .flat_map(|&n| numbers.map(|m| (Inst(n), Inst(m))))
        {
            for side in [Side::Early, Side::Late] {
                let end = find(&rows, after, before, side, &mut work);
                assert_ne!(end, Err(NotARecord));
                accepted += u32::from(end.is_ok());
            }
        }
    }
    assert!(accepted > 0);
}

//! Numbers and places near others.

use crate::make::rng::Rng;

const DIGITS: [u32; 15] = [
    0,
    1,
    9,
    10,
    99,
    100,
    255,
    256,
    999,
    1000,
    65_535,
    65_536,
    65_537,
    2_147_483_648,
    4_294_967_295,
];
/// 0, the least above it, 0.5, 1.0 and its neighbours, 2.0 and the one below, 2^20, the greatest.
const FLOATS: [u32; 10] = [
    0,
    1,
    0x3f00_0000,
    0x3f7f_ffff,
    0x3f80_0000,
    0x3f80_0001,
    0x3fff_ffff,
    0x4000_0000,
    0x4980_0000,
    0x7f7f_ffff,
];

/// The last place or the first more often than others; none where there is no place.
pub fn place(rng: &mut Rng, count: usize) -> Option<usize> {
    let last = count.checked_sub(1)?;
    Some(match rng.below(10) {
        0..=3 => last,
        4 => 0,
        _ => rng.below(count as u32) as usize,
    })
}

pub fn number(rng: &mut Rng, number: u32) -> u32 {
    match rng.below(10) {
        0..=2 => number.wrapping_add(1),
        3 | 4 => number.wrapping_sub(1),
        5 => number.wrapping_mul(10),
        6 => number / 10,
        7 => number ^ (1 << rng.below(16)),
        _ => rng.pick(&DIGITS),
    }
}

/// A number below the bound; 0 where there is none.
pub fn below(rng: &mut Rng, bound: usize) -> u32 {
    rng.below(bound.max(1) as u32)
}

pub fn float(rng: &mut Rng, float: f32) -> f32 {
    let bits = float.to_bits();
    f32::from_bits(match rng.below(8) {
        0 => bits.wrapping_add(1),
        1 => bits.wrapping_sub(1),
        2 | 3 => bits ^ (1 << rng.below(31)),
        4 => bits ^ (1 << 30),
        _ => rng.pick(&FLOATS),
    })
}

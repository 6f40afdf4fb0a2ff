//! Jobs with a room at, or just below, what they need.

use super::rng::Rng;
use super::write::sheet_of;
use super::{braids, soup, stops, style};
use crate::answer::{Room, counts};
use crate::frames::Frame;
use crate::run;

pub fn make(rng: &mut Rng) -> Frame {
    let job = match rng.pick(&["small", "classes", "groups", "braids", "stops"]) {
        "braids" => braids::make(rng),
        "stops" => stops::make(rng),
        profile => soup::make(rng, &style::of(profile).unwrap()),
    };
    let mut room = counts(&run::run(&job, None));
    let table = rng.below(4) as usize;
    match rng.below(4) {
        0 => {}
        1 | 2 => room.0[table] = room.0[table].saturating_sub(1),
        _ => room.0[table] = rng.below(room.0[table] as u32 + 1) as usize,
    }
    Frame {
        bytes: sheet_of(&job),
        room: Some(spread(rng, room, table)),
    }
}

/// Often leaves the other tables ample, so that one alone decides.
fn spread(rng: &mut Rng, mut room: Room, table: usize) -> Room {
    if rng.chance(50) {
        for (other, count) in room.0.iter_mut().enumerate() {
            if other != table {
                *count += 10;
            }
        }
    }
    room
}

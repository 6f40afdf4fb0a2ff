//! Generated job sheets: the same profile and seed always give the same sheet.

mod bad_uses;
mod book;
mod braids;
mod breaks;
mod damage;
mod falling;
mod forms;
mod full;
mod leaning;
mod limits;
mod long;
mod pairs;
mod pieces;
pub(crate) mod rng;
mod rooms;
mod soup;
mod stops;
mod style;
mod tiny;
mod weave;
mod write;

use crate::frames::Frame;
use rng::Rng;

pub use forms::{count as second_damaged_cases, first_form, second_form};
pub use limits::{Uses as LargestUses, largest};
pub use pairs::three;
pub use write::sheet_of;

/// The profiles of the first form. Those of the second are `second`, `second-damaged` and, for each of these, its name
/// behind `second:`.
pub const PROFILES: [&str; 13] = [
    "small",
    "classes",
    "groups",
    "hints",
    "floats",
    "limits",
    "damaged",
    "rooms",
    "bad-uses",
    "full-tables",
    "many-merges",
    "long-sheets",
    "leaning",
];

/// One sheet of a profile, with a room where the profile sets one.
pub fn make(profile: &str, seed: u64) -> Option<Frame> {
    if profile.starts_with(forms::MIXED) {
        return forms::make(profile, seed);
    }
    let place = PROFILES.iter().position(|&known| known == profile)?;
    let mut rng = Rng::new(seed, place as u64);
    let plain = |job| Frame {
        bytes: sheet_of(&job),
        room: None,
    };
    Some(match profile {
        "limits" => limits::make(&mut rng),
        "damaged" => Frame {
            bytes: damage::make(&mut rng),
            room: None,
        },
        "long-sheets" => Frame {
            bytes: long::make(&mut rng, seed),
            room: None,
        },
        "rooms" => rooms::make(&mut rng),
        "bad-uses" => plain(bad_uses::make(&mut rng, seed)),
        "full-tables" => plain(full::make(&mut rng, seed)),
        "many-merges" => plain(weave::make(&mut rng, seed)),
        "leaning" => plain(leaning::make(&mut rng)),
        "small" if seed.is_multiple_of(2) => plain(tiny::mixed(seed / 2)),
        "classes" if rng.chance(6) => plain(falling::make(&mut rng)),
        "groups" => plain(match rng.below(10) {
            0..=5 => braids::make(&mut rng),
            6 => soup::make(&mut rng, &style::of("knots")?),
            7 => stops::make(&mut rng),
            _ => soup::make(&mut rng, &style::of("groups")?),
        }),
        _ => plain(soup::make(&mut rng, &style::of(profile)?)),
    })
}

/// What a sheet is made for, in the profiles that go through cases by their seeds.
pub fn what(profile: &str, seed: u64) -> Option<String> {
    match profile {
        "bad-uses" => Some(bad_uses::what(seed)),
        "full-tables" => Some(full::what(seed)),
        "many-merges" => Some(weave::what(seed)),
        "long-sheets" => Some(long::what(seed)),
        forms::DAMAGED => Some(forms::what(seed)),
        _ => None,
    }
}

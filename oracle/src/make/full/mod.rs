//! Jobs that fill the tables of `vregs` to the last place, one row more, and stops beside.

mod draft;
mod stops;
mod straws;

use super::rng::Rng;
use crate::answer::Room;
use crate::job::Job;
use draft::{Draft, EMPTY, class_def, class_use, group_use, leaf};
use stops::{STOPS, Stop, own_operand};
use straws::{STRAWS, Straw};

pub const REGISTERS: usize = 0;
pub const SEGMENTS: usize = 1;
pub const USES: usize = 2;
pub const GROUPS: usize = 3;
/// Uses of a set whose turned uses have a register each and a block parameter in each register.
const LED: usize = 3 * draft::LEAVES as usize - 1;

/// What a job is made for, and its maker.
type Case = (String, Box<dyn Fn(&mut Rng) -> Job>);

fn case(what: String, make: impl Fn(&mut Rng) -> Job + 'static) -> Case {
    (what, Box::new(make))
}

/// As many seeds in a row as there are cases give each once.
fn of(seed: u64) -> Case {
    let mut cases = fits();
    cases.extend(overfull());
    cases.extend(against());
    let place = (seed % cases.len() as u64) as usize;
    cases.swap_remove(place)
}

pub fn what(seed: u64) -> String {
    of(seed).0
}

pub fn make(rng: &mut Rng, seed: u64) -> Job {
    of(seed).1(rng)
}

fn limit(table: usize) -> usize {
    Room::default().0[table]
}

fn fits() -> Vec<Case> {
    vec![
        case("fits: all four tables".into(), fits_all),
        case("fits: segments".into(), fits_segments),
        case("fits: uses".into(), fits_uses),
        case("fits: groups".into(), |rng| full(rng, GROUPS)),
        case("fits: groups and pairs".into(), fits_pairs),
    ]
}

fn overfull() -> Vec<Case> {
    let mut cases = Vec::new();
    for (table, (name, straws)) in STRAWS.into_iter().enumerate() {
        for (place, straw) in straws.into_iter().enumerate() {
            for behind in 0..if table == GROUPS { 3 } else { 2 } {
                let how = ["by one", "more behind", "far more behind"][behind];
                let what = format!("9: {name}, {how}: {}", straw.name);
                cases.push(case(what, move |rng| {
                    over(rng, table, &STRAWS[table].1[place], behind as u32)
                }));
            }
        }
    }
    cases
}

/// 8 and 9 in one register, in one set and in different sets.
fn against() -> Vec<Case> {
    let mut cases = in_one_register();
    cases.extend([0, 1, 2, 4, 5].map(|stop| {
        let what = format!("8: {}, the groups full", STOPS[stop].name);
        case(what, move |rng| full_then(rng, GROUPS, &STOPS[stop]))
    }));
    for (stop, Stop { name, .. }) in STOPS.iter().enumerate() {
        let nine = format!("9: groups, before 8: {name}");
        cases.push(case(nine, move |rng| nine_then(rng, &STOPS[stop])));
        let eight = format!("8: {name}, before 9 for groups");
        cases.push(case(eight, move |rng| then_nine(rng, &STOPS[stop])));
    }
    let own = "9: groups, before 8 of its set: none-admitted".into();
    let part = "9: groups, before 8 of its set: turned-def".into();
    cases.extend([case(own, own_then_conflict), case(part, part_then_def)]);
    cases
}

/// The two stops that a register meets while it is placed, with the tables that it would overfill.
fn in_one_register() -> Vec<Case> {
    let twice = [REGISTERS, SEGMENTS, USES, GROUPS].map(|table| (3, table));
    let overlap = [SEGMENTS, USES].map(|table| (4, table));
    let both = twice.into_iter().chain(overlap);
    let cases = both.map(|(stop, table): (usize, usize)| {
        let (stop_name, table_name) = (STOPS[stop].name, STRAWS[table].0);
        let what = format!("8: {stop_name}, and 9 for {table_name}, in one register");
        case(what, move |rng| full_then(rng, table, &STOPS[stop]))
    });
    cases.collect()
}

/// A few parts of every kind, so that no two jobs have the same sets before those that fill. Without merges where the
/// registers are to be filled, since they would fill the segments first.
fn prelude(draft: &mut Draft, rng: &mut Rng, table: usize) {
    draft.bare(6 + rng.below(6) as usize);
    if rng.chance(50) {
        draft.pairs(rng.within((1, 3)));
    }
    if rng.chance(50) {
        let most = if table == REGISTERS { 2 } else { 5 };
        let open = draft.open(rng.within((1, most)));
        draft.close(open);
    }
}

/// Takes one table to a number of rows, and leaves room in the others.
fn fill(draft: &mut Draft, rng: &mut Rng, table: usize, rows: usize) {
    match table {
        REGISTERS => draft.stacks(rows - draft.rows[REGISTERS]),
        SEGMENTS => {
            draft.bare_segs(20 + rng.below(40) as usize);
            draft.stacks(rows - draft.rows[SEGMENTS]);
        }
        USES => {
            draft.led_stacks((rows - draft.rows[USES] - 1) / LED, draft::LEAVES);
            draft.pad(rows - draft.rows[USES]);
        }
        _ => draft.groups(rows - draft.rows[GROUPS]),
    }
}

/// One table full to the last place.
fn full(rng: &mut Rng, table: usize) -> Job {
    let mut draft = Draft::new(rng);
    prelude(&mut draft, rng, table);
    fill(&mut draft, rng, table, limit(table));
    draft.done(rng)
}

/// One row too many by the last register of a set, and perhaps more sets behind it.
fn over(rng: &mut Rng, table: usize, straw: &Straw, behind: u32) -> Job {
    let mut draft = Draft::new(rng);
    let open = (straw.open > 0).then(|| draft.open(straw.open));
    prelude(&mut draft, rng, table);
    fill(&mut draft, rng, table, limit(table) + 1 - straw.rows[table]);
    (straw.put)(&mut draft, open);
    if behind > 0 {
        draft.groups(behind as usize * 2);
        draft.bare(behind as usize);
    }
    draft.done(rng)
}

/// A table full to the last place where the register comes that meets a stop.
fn full_then(rng: &mut Rng, table: usize, stop: &Stop) -> Job {
    let mut draft = Draft::new(rng);
    prelude(&mut draft, rng, table);
    fill(&mut draft, rng, table, limit(table) - stop.before[table]);
    (stop.put)(&mut draft);
    draft.done(rng)
}

fn nine_then(rng: &mut Rng, stop: &Stop) -> Job {
    let mut draft = Draft::new(rng);
    prelude(&mut draft, rng, GROUPS);
    fill(&mut draft, rng, GROUPS, limit(GROUPS) + 1);
    (stop.put)(&mut draft);
    draft.done(rng)
}

fn then_nine(rng: &mut Rng, stop: &Stop) -> Job {
    let mut draft = Draft::new(rng);
    prelude(&mut draft, rng, GROUPS);
    (stop.put)(&mut draft);
    fill(&mut draft, rng, GROUPS, limit(GROUPS) + 1);
    draft.done(rng)
}

/// A set whose own register is one group too many, and whose turned use no register admits.
fn own_then_conflict(rng: &mut Rng) -> Job {
    let mut draft = Draft::new(rng);
    prelude(&mut draft, rng, GROUPS);
    fill(&mut draft, rng, GROUPS, limit(GROUPS));
    let (value, op) = own_operand(&mut draft, 1);
    draft.piece(value, 0, 8, vec![group_use(&op, 0), class_use(1, EMPTY)]);
    draft.done(rng)
}

/// A set whose first part is one group too many, and whose second part has a definition to turn.
fn part_then_def(rng: &mut Rng) -> Job {
    let mut draft = Draft::new(rng);
    prelude(&mut draft, rng, GROUPS);
    fill(&mut draft, rng, GROUPS, limit(GROUPS));
    let (value, op) = own_operand(&mut draft, 1);
    let uses = vec![
        group_use(&op, 0),
        class_def(5, leaf(0)),
        class_def(5, leaf(1)),
    ];
    draft.piece(value, 0, 24, uses);
    draft.done(rng)
}

/// Registers, segments, uses and groups all full.
fn fits_all(rng: &mut Rng) -> Job {
    let mut draft = Draft::new(rng);
    draft.groups(limit(GROUPS));
    draft.led_stacks(40, draft::LEAVES);
    draft.stacks(102 * draft::LEAVES as usize);
    draft.pad(limit(USES) - draft.rows[USES]);
    draft.bare(limit(REGISTERS) - draft.rows[REGISTERS]);
    draft.done(rng)
}

/// Segments full, by merges and segments without uses; registers below.
fn fits_segments(rng: &mut Rng) -> Job {
    let mut draft = Draft::new(rng);
    for _ in 0..2 {
        let open = draft.open(draft::INSTS);
        draft.close(open);
    }
    for _ in 0..4 {
        draft.bare_segs(240);
    }
    draft.stacks(limit(SEGMENTS) - draft.rows[SEGMENTS]);
    draft.done(rng)
}

/// Uses full, by uses that are turned; few registers.
fn fits_uses(rng: &mut Rng) -> Job {
    let mut draft = Draft::new(rng);
    while draft.rows[USES] + 408 <= limit(USES) {
        draft.crowd(200);
    }
    draft.pad(limit(USES) - draft.rows[USES]);
    draft.done(rng)
}

/// Groups full, both places of a hundred of them taken.
fn fits_pairs(rng: &mut Rng) -> Job {
    let mut draft = Draft::new(rng);
    draft.pairs(draft::INSTS);
    fill(&mut draft, rng, GROUPS, limit(GROUPS));
    draft.done(rng)
}

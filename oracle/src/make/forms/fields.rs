//! Written fields that are other numbers, or no numbers.

use super::draft::{Draft, any_job, until};
use super::rewrite::{BLOCKS, SEGS};
use super::{Case, case};
use crate::make::rng::Rng;

pub const NAMES: [&str; 2] = ["first instruction", "set"];

/// A written field of a sound sheet.
pub struct Spot<'a> {
    draft: &'a Draft,
    record: usize,
    place: usize,
}

impl Spot<'_> {
    fn implied(&self) -> u64 {
        self.neighbour(0)
    }

    /// The field so many lines behind, from the first again behind the last.
    fn neighbour(&self, behind: usize) -> u64 {
        let fields = &self.draft.implied[self.record];
        u64::from(fields[(self.place + behind) % fields.len()])
    }

    fn before(&self) -> u64 {
        self.neighbour(self.draft.implied[self.record].len() - 1)
    }

    /// The block's number, or that of the segment's value.
    fn own(&self) -> u64 {
        match self.record {
            BLOCKS => self.place as u64,
            _ => u64::from(self.draft.job.segs[self.place].value),
        }
    }

    /// The count of what the field is a number of.
    fn count(&self) -> u64 {
        match self.record {
            BLOCKS => self.draft.job.inst_count(),
            _ => self.draft.job.values.len() as u64,
        }
    }
}

/// What stands instead of a field, its tab with it.
pub type Change = fn(&Spot) -> String;

fn number(number: u64) -> String {
    format!("\t{number}")
}

/// Numbers: 10, where it is not the one that was there.
const OTHERS: [(&str, Change); 11] = [
    ("one more", |spot| number(spot.implied() + 1)),
    ("one less", |spot| number(spot.implied().saturating_sub(1))),
    ("0", |_| number(0)),
    ("256 more", |spot| number(spot.implied() + 256)),
    ("65,536 more", |spot| number(spot.implied() + 65_536)),
    ("the greatest number", |_| number(u64::from(u32::MAX))),
    ("four times as much", |spot| number(4 * spot.implied())),
    ("the count", |spot| number(spot.count())),
    ("the block's or the value's own number", |spot| {
        number(spot.own())
    }),
    ("that of the line before", |spot| number(spot.before())),
    ("that of the line behind", |spot| number(spot.neighbour(1))),
];

/// No numbers, or a field too many or too few: 1.
const FORMS: [(&str, Change); 20] = [
    ("2^32 more", |spot| number(spot.implied() + (1 << 32))),
    ("2^64 more", |spot| {
        format!("\t{}", u128::from(spot.implied()) + (1 << 64))
    }),
    ("4294967296", |_| number(1 << 32)),
    ("a leading zero", |spot| format!("\t0{}", spot.implied())),
    ("empty", |_| "\t".into()),
    ("a blank before it", |spot| format!("\t {}", spot.implied())),
    ("a blank behind it", |spot| format!("\t{} ", spot.implied())),
    ("a plus", |spot| format!("\t+{}", spot.implied())),
    ("a minus", |spot| format!("\t-{}", spot.implied())),
    ("a minus alone", |_| "\t-".into()),
    ("eight digits", |spot| format!("\t{:08x}", spot.implied())),
    ("a letter behind it", |spot| {
        format!("\t{}a", spot.implied())
    }),
    ("a fraction", |spot| format!("\t{}.0", spot.implied())),
    ("a carriage return", |spot| {
        format!("\t{}\r", spot.implied())
    }),
    ("a zero byte", |spot| format!("\t{}\0", spot.implied())),
    ("a blank for the tab", |spot| format!(" {}", spot.implied())),
    ("no tab", |spot| format!("{}", spot.implied())),
    ("left out", |_| String::new()),
    ("twice", |spot| {
        format!("\t{}\t{}", spot.implied(), spot.implied())
    }),
    ("an empty field more", |spot| {
        format!("\t{}\t", spot.implied())
    }),
];
/// A leading zero, left out, twice: those that a whole column gets.
const FORMS_OF_ALL: [usize; 3] = [3, 17, 18];

/// Which of a sheet's fields of a record are changed.
#[derive(Clone, Copy)]
enum At {
    One,
    Last,
    All,
}

pub fn cases() -> Vec<Case> {
    let mut cases = Vec::new();
    for record in [BLOCKS, SEGS] {
        for (how, change) in OTHERS {
            cases.push(changed(10, At::One, record, how, change));
            cases.push(changed(10, At::Last, record, how, change));
            cases.push(changed(10, At::All, record, how, change));
        }
        for (how, change) in FORMS {
            cases.push(changed(1, At::One, record, how, change));
        }
        for (how, change) in FORMS_OF_ALL.map(|place| FORMS[place]) {
            cases.push(changed(1, At::All, record, how, change));
        }
    }
    cases
}

fn changed(expected: u8, at: At, record: usize, how: &str, change: Change) -> Case {
    let which = match at {
        At::One => "a",
        At::Last => "the last",
        At::All => "every",
    };
    let what = format!("{expected}: {which} {}: {how}", NAMES[record]);
    case(what, move |rng| {
        let draft = |rng: &mut Rng| Draft::new(any_job(rng));
        until(rng, draft, |rng, draft| put(rng, draft, at, record, change)).sheet()
    })
}

/// The draft with its fields changed, if that makes them other texts where it is asked for.
fn put(rng: &mut Rng, mut draft: Draft, at: At, record: usize, change: Change) -> Option<Draft> {
    let texts = changed_texts(&draft, record, change);
    let count = texts.len();
    let others: Vec<usize> = (0..count)
        .filter(|&place| texts[place] != draft.texts[record][place])
        .collect();
    let last = others.last().copied()?;
    let place = match at {
        At::All => {
            draft.texts[record] = texts;
            return Some(draft);
        }
        At::Last if last + 1 < count => return None,
        At::Last => last,
        At::One => rng.pick(&others),
    };
    draft.texts[record][place] = texts[place].clone();
    Some(draft)
}

fn changed_texts(draft: &Draft, record: usize, change: Change) -> Vec<String> {
    let places = 0..draft.texts[record].len();
    let spot = |place| Spot {
        draft,
        record,
        place,
    };
    places.map(|place| change(&spot(place))).collect()
}

/// Changes a written field of the record, if there is one.
pub type Edit = fn(&mut Rng, &mut Draft, usize) -> Option<()>;

pub fn one_more(rng: &mut Rng, draft: &mut Draft, record: usize) -> Option<()> {
    let place = any_place(rng, draft, record)?;
    change_at(draft, record, place, OTHERS[0].1)
}

pub fn leading_zero(rng: &mut Rng, draft: &mut Draft, record: usize) -> Option<()> {
    let place = any_place(rng, draft, record)?;
    change_at(draft, record, place, FORMS[FORMS_OF_ALL[0]].1)
}

pub fn last_one_more(_: &mut Rng, draft: &mut Draft, record: usize) -> Option<()> {
    let place = draft.texts[record].len().checked_sub(1)?;
    change_at(draft, record, place, OTHERS[0].1)
}

pub fn last_leading_zero(_: &mut Rng, draft: &mut Draft, record: usize) -> Option<()> {
    let place = draft.texts[record].len().checked_sub(1)?;
    change_at(draft, record, place, FORMS[FORMS_OF_ALL[0]].1)
}

fn any_place(rng: &mut Rng, draft: &Draft, record: usize) -> Option<usize> {
    let count = draft.texts[record].len() as u32;
    (count > 0).then(|| rng.below(count) as usize)
}

fn change_at(draft: &mut Draft, record: usize, place: usize, change: Change) -> Option<()> {
    let spot = Spot {
        draft,
        record,
        place,
    };
    draft.texts[record][place] = change(&spot);
    Some(())
}

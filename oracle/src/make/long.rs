//! Long sheets: sets of all kinds and bundles of groups in one job, accepted, or refused by one thing.

use super::breaks::break_rule;
use super::pieces::{self, Piece};
use super::rng::Rng;
use super::style::{self, Style};
use super::weave::{self, Weave};
use super::write::sheet_of;
use super::{bad_uses, soup};
use crate::answer::{Room, answer};
use crate::job::{CLASS_DEF, CLASS_USE, GROUP_USE, Job, Operand, Seg, Use};
use crate::run::{End, run};

/// What `vregs` writes at once.
const PAGE: usize = 65_536;
/// Least of bytes of every sheet.
const LONG: usize = 20_001;

/// How far a sheet and its answer may go beyond what is asked for.
const NEAR: usize = 16_384;

/// What a sheet is: the number that refuses it or none, the least of its bytes and of its answer's.
#[derive(Clone, Copy)]
struct Shape {
    number: Option<u8>,
    sheet: usize,
    answer: usize,
}

const fn accepted(sheet: usize, answer: usize) -> Shape {
    Shape {
        number: None,
        sheet,
        answer,
    }
}

const fn refused(number: u8, sheet: usize) -> Shape {
    Shape {
        number: Some(number),
        sheet,
        answer: 0,
    }
}

/// The shapes, each with how many seeds in a row have it; behind the last the first comes again.
const SHAPES: [(u64, Shape); 14] = [
    (9, accepted(PAGE + 1, PAGE + 1)),
    (3, accepted(PAGE + 1, 2 * PAGE + 1)),
    (4, accepted(LONG, LONG)),
    (3, refused(1, LONG)),
    (3, refused(2, LONG)),
    (3, refused(3, LONG)),
    (3, refused(4, LONG)),
    (3, refused(5, LONG)),
    (3, refused(6, LONG)),
    (3, refused(7, LONG)),
    (5, refused(8, LONG)),
    (1, refused(1, PAGE + 1)),
    (1, refused(7, PAGE + 1)),
    (1, refused(8, PAGE + 1)),
];

fn shape(seed: u64) -> Shape {
    let mut shapes = SHAPES
        .iter()
        .flat_map(|&(times, shape)| (0..times).map(move |_| shape));
    let count: u64 = SHAPES.iter().map(|&(times, _)| times).sum();
    shapes.nth((seed % count) as usize).unwrap_or(SHAPES[0].1)
}

pub fn what(seed: u64) -> String {
    let shape = shape(seed);
    let outcome = shape
        .number
        .map_or("accepted".to_string(), |number| format!("refused {number}"));
    let pages = if shape.sheet > PAGE {
        "over a page"
    } else {
        "over 20,000 bytes"
    };
    let answer = match shape.answer / PAGE {
        0 => "",
        1 => ", the answer over a page",
        _ => ", the answer over two pages",
    };
    format!("long: {outcome}, {pages}{answer}")
}

pub fn make(rng: &mut Rng, seed: u64) -> Vec<u8> {
    let shape = shape(seed);
    loop {
        let (job, weave) = job(rng, shape);
        let sheet = match shape.number {
            None => sheet_of(&job),
            Some(1) => damaged(rng, sheet_of(&job)),
            Some(8) => sheet_of(&with_stop(job, rng, &weave)),
            Some(7) => sheet_of(&bad_uses::spoil(job, rng, seed)),
            Some(rule) => sheet_of(&broken(job, rng, u32::from(rule))),
        };
        let found = answer(&sheet, Room::default());
        let near = |least: usize, bytes: usize| (least..least + NEAR).contains(&bytes);
        let answered = shape.number.is_some() || near(shape.answer, found.text.len());
        if found.number == shape.number && near(shape.sheet, sheet.len()) && answered {
            return sheet;
        }
    }
}

/// Sets of all kinds of uses, hints and flags. Where the answer is to have more than two pages they are cut often.
fn style_of(shape: Shape) -> Style {
    let page = shape.sheet > PAGE;
    let cut = shape.answer > 2 * PAGE;
    Style {
        insts: if page { (200, 400) } else { (60, 120) },
        blocks: if page { (20, 60) } else { (5, 20) },
        classes: (4, 9),
        values: if page { (270, 310) } else { (40, 60) },
        segs: (1, 4),
        uses: (0, 7),
        hints: if page { (500, 1000) } else { (100, 300) },
        kinds: if cut {
            [2, 4, 4, 0, 60, 6, 0, 0, 3, 3]
        } else {
            [20, 30, 20, 0, 12, 1, 0, 0, 3, 10]
        },
        crowd: 12,
        books: if cut { [0, 0, 0, 1] } else { [4, 0, 0, 1] },
        ..style::of("classes").unwrap()
    }
}

/// An accepted job of about as many bytes as the shape asks for.
fn job(rng: &mut Rng, shape: Shape) -> (Job, Weave) {
    let mut job = soup::make(rng, &style_of(shape));
    tame(&mut job);
    let weave = Weave::new(&mut job, rng);
    let mut pieces: Vec<Piece> = Vec::new();
    while weave::size(&job, &pieces) < shape.sheet + 300 {
        weave.bundle(&mut job, rng, &mut pieces);
    }
    pieces::put(&mut job, rng, pieces);
    (job, weave)
}

/// Takes the uses away from every set that meets a stop. Without groups no set touches another.
fn tame(job: &mut Job) {
    let leader = |job: &Job, seg: &Seg| job.values[seg.value as usize].leader;
    let sets: Vec<Vec<Seg>> = job
        .segs
        .chunk_by(|a, b| leader(job, a) == leader(job, b))
        .map(<[Seg]>::to_vec)
        .collect();
    let (mut segs, mut uses) = (Vec::new(), Vec::new());
    for set in sets {
        let alone = Job {
            segs: set.clone(),
            ..job.clone()
        };
        let kept = run(&alone, None).end == End::Done;
        for mut seg in set {
            let first = uses.len();
            if kept {
                uses.extend_from_slice(job.uses_of(&seg));
            }
            seg.uses = first..uses.len();
            segs.push(seg);
        }
    }
    (job.segs, job.uses) = (segs, uses);
}

/// One rule of 2 to 6 broken.
fn broken(mut job: Job, rng: &mut Rng, rule: u32) -> Job {
    break_rule(&mut job, rng, rule);
    job
}

/// A last set that meets a stop: two definitions, a class of another bank, or an operand mapped twice.
fn with_stop(mut job: Job, rng: &mut Rng, weave: &Weave) -> Job {
    let value = weave.value(&mut job, None);
    let [first, second] = [0, 1].map(|number| weave.leaf(number));
    let uses = match rng.below(3) {
        0 => vec![class_use(CLASS_DEF, first), class_use(CLASS_DEF, second)],
        1 => vec![class_use(CLASS_USE, first), class_use(CLASS_USE, 1)],
        _ => vec![group_use(&mut job, value, weave.pairs()); 2],
    };
    let (from, to, flags) = (0, 8, 0);
    let piece = Piece {
        value,
        from,
        to,
        flags,
        uses,
    };
    pieces::put(&mut job, rng, vec![piece]);
    job
}

fn class_use(kind: u32, class: u32) -> Use {
    let fields = [0, class, 0, 0];
    Use {
        kind,
        inst: 1,
        fields,
    }
}

/// A use of an operand of its own.
fn group_use(job: &mut Job, value: u32, class: u32) -> Use {
    let (inst, slot, vgroup) = (1, 60_000, job.vgroups.len() as u32);
    job.vgroups.push(vec![value, value]);
    job.operands.push(Operand {
        inst,
        slot,
        vgroup,
        class,
    });
    let fields = [slot, class, 0, 0];
    Use {
        kind: GROUP_USE,
        inst,
        fields,
    }
}

/// A form of a number or of a line that no record has, within the last hundred bytes.
fn damaged(rng: &mut Rng, mut sheet: Vec<u8>) -> Vec<u8> {
    let body = sheet.len() - b"end\n".len();
    let near: Vec<usize> = (body - 96..body)
        .filter(|&place| sheet[place] == b'\t')
        .collect();
    let place = rng.pick(&near);
    match rng.below(6) {
        0 => sheet.truncate(body),
        1 => sheet.truncate(body + 3),
        2 => sheet.insert(place + 1, b'0'),
        3 => sheet[place] = b' ',
        4 => sheet.extend_from_slice(b"\n"),
        _ => sheet.insert(body - 1, b'\r'),
    }
    sheet
}

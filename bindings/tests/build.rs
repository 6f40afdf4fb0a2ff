//! Marked cases through the wrapper, the refusals, and the deepest jobs on a thread with a small stack.

#[path = "../examples/common/mod.rs"]
mod common;

use common::{binary, result, typed};
use cundzeli::Refusal::{self, Full, Stopped};
use cundzeli::build::{
    Book, Builder, ClassData, Counts, Hint, Job, Options, Origin, Remat, Rows, Tables, Use, Work,
    build, build_binary, build_in_bytes, build_in_rows,
};
use cundzeli::{
    BlockData, Flags, Inst, RegBank, RegClass, RegClassMask, UseKind, Value, VirtReg, VirtRegGroup,
};
use oracle::answer::{Room, answer_job};
use oracle::job::{self, CLASS_USE, Job as Sheet};
use oracle::sheet;
use std::thread;

/// Case A's job, with the segment and uses left out.
fn job_a() -> Job {
    let mut book = Book::new(RegClass(0), ClassData::new(RegClassMask(7)));
    book.class(ClassData::new(RegClassMask(2)));
    book.class(ClassData::new(RegClassMask(4)));
    let mut job = Job::new(&book, Options::default(), BlockData::new(2, 1.0));
    job.block(BlockData::new(2, 0.5));
    job.value(RegBank(0), Remat::None);
    job
}

#[test]
fn case_a_cuts_once() {
    let mut job = job_a();
    let (slot, class) = (0, RegClass(2));
    job.segment(Value(0), Inst(0).normal(), Inst(3).normal(), Flags::NONE)
        .add(Inst(0), UseKind::ClassDef { slot, class: RegClass(1) })
        .add(Inst(3), UseKind::ClassUse { slot, class });
    let tables = build(&job).expect("a result");
    let registers: Vec<_> = tables.registers().collect();
    assert_eq!(registers.len(), 2);
    let kinds = |place: usize| (registers[place].class, registers[place].weight);
    assert_eq!((kinds(0), kinds(1)), ((RegClass(1), 0.5), (class, 0.25)));
    assert!(registers.iter().all(|register| register.group.is_none()));
    let ends = |place: usize| {
        let segment = tables.segments(&registers[place]).next().unwrap();
        (segment.from, segment.to, segment.flags, segment.origin)
    };
    let (from, cut, to) = (Inst(0).normal(), Inst(2).boundary(), Inst(3).normal());
    assert_eq!(ends(0), (from, cut, Flags::LIVE_OUT, Origin::Own));
    assert_eq!(ends(1), (cut, to, Flags::LIVE_IN, Origin::Own));
    let kind = UseKind::ClassUse { slot, class };
    let last = Use { inst: Inst(3), kind };
    assert_eq!(tables.uses(&tables.segment(1)).collect::<Vec<_>>(), [last]);
}

#[test]
fn case_j_is_empty() {
    let mut tables = Tables::new();
    let made = build_in_rows(&job_a().bytes(), Rows::USUAL, &mut tables, &mut Work::new());
    assert_eq!(made, Ok(Counts::default()));
    assert_eq!(tables.bytes(), vec![0; 460_800]);
    assert_eq!(build(&job_a()).map(|tables| tables.bytes().len()), Ok(0));
}

const BOOK: &str = "opt 0 3f800000 3f800000 3f800000
bank 0
class 00000007 3f800000 1 0
class 00000002 3f800000 1 0
class 00000004 3f800000 1 0
block 2 3f800000
block 2 3f000000
value 0 0 0
";

/// A book whose class 1 shares nothing with the top class 0.
const APART: &str = "opt 0 3f800000 3f800000 3f800000
bank 0
class 00000001 3f800000 1 0
class 00000002 3f800000 1 0
block 2 3f800000
value 0 0 0
";

/// A sheet, written with blanks, as a job.
fn read(text: &str) -> Sheet {
    sheet::read(text.replace(' ', "\t").as_bytes()).expect("a sheet")
}

/// The register sheet of a job by the exported builder, or its refusal.
fn sheet_by(job: &Sheet, rows: Rows) -> Result<String, Refusal> {
    let mut tables = Tables::new();
    build_in_rows(&binary::write(job), rows, &mut tables, &mut Work::new())?;
    Ok(result::sheet(&tables))
}

fn refusal(text: &str, rows: Rows) -> Option<Refusal> {
    sheet_by(&read(text), rows).err()
}

#[test]
fn case_e_turns_the_second_use() {
    let text = format!("{BOOK}seg 0 0 14 0\nuse 4 1 0 1\nuse 4 1 1 2\nend\n");
    let expected = "vreg 0 0 1 3ec00000 - 0 0
seg 0 0 14 0 own
use 4 1 0 1
use 3 1
vreg 1 0 2 7f800000 - 0 0
seg 0 4 6 1 conflict
use 4 1 1 2
end 2 0
";
    let made = sheet_by(&read(&text), Rows::USUAL);
    assert_eq!(made, Ok(expected.replace(' ', "\t")));
}

#[test]
fn a_group_is_made_and_joined() {
    let text = "opt 0 3f800000 3f800000 3f800000
bank 0
class 00000003 3f800000 1 0
class 00000002 3f800000 2 0
block 2 3f800000
value 0 0 0
value 0 1 0
vgroup 0 1
operand 1 0 0 1
seg 0 0 6 0
use 6 1 0 1 0
seg 1 0 6 0
use 6 1 0 1 1
end
";
    let job = read(text);
    let theirs = answer_job(&job, Room::default());
    assert_eq!(theirs.number, None);
    assert_eq!(sheet_by(&job, Rows::USUAL), Ok(theirs.text));
    let tables = build(&typed::typed(&job).expect("a typed job")).expect("a result");
    assert_eq!(tables.made().groups, 1);
    let members = [Some(VirtReg(0)), Some(VirtReg(1))];
    assert_eq!(tables.group(VirtRegGroup(0)).members, members);
}

#[test]
fn the_stops_are_8() {
    let b = format!("{APART}seg 0 0 6 0\nuse 4 1 0 1\nend\n");
    let c = format!("{APART}seg 0 2 8 0\nuse 5 0 0 1\nend\n");
    let d = "opt 0 3f800000 3f800000 3f800000
bank 0
class 0000001f 3f800000 1 0
class 00000002 3f800000 1 0
class 00000004 3f800000 1 0
class 0000000e 3f800000 1 0
class 00000014 3f800000 1 0
block 4 3f800000
value 0 0 0
seg 0 0 14 0
use 4 1 0 3
use 4 3 0 4
end
";
    for text in [&b, &c, d] {
        assert_eq!(refusal(text, Rows::USUAL), Some(Stopped));
    }
}

fn rows(counts: [u32; 4]) -> Rows {
    result::rows_of(counts)
}

#[test]
fn nine_comes_before_a_later_stop() {
    let b = format!("{APART}seg 0 0 6 0\nuse 4 1 0 1\nend\n");
    assert_eq!(refusal(&b, rows([1, 1, 1, 0])), Some(Stopped));
    assert_eq!(refusal(&b, rows([0, 1, 1, 0])), Some(Full));
    assert_eq!(refusal(&b, rows([1, 0, 1, 0])), Some(Full));
    assert_eq!(refusal(&b, rows([1, 1, 0, 0])), Some(Full));
}

/// What makes case A's job refused, the lowest number last.
fn spoil(job: &mut Job, number: u32) {
    let value = Value(9);
    let (from, to) = (Inst(0).boundary(), Inst(1).boundary());
    match number {
        7 => drop(
            job.segment(Value(0), from, to, Flags::NONE)
                .add(Inst(9), UseKind::BlockparamOut),
        ),
        6 => drop(job.segment(value, from, to, Flags::NONE)),
        5 => job.hint(Hint { value, inst: Inst(0), incoming: true }),
        4 => drop(job.vgroup(&[Value(0); 9])),
        3 => drop(job.value(RegBank(9), Remat::None)),
        _ => drop((0..512).map(|_| job.block(BlockData::new(1, 1.0))).last()),
    }
}

#[test]
fn the_lowest_number_comes_and_the_slice_is_zero() {
    let (mut job, mut work) = (job_a(), Work::new());
    let mut ask = |bytes: &[u8]| {
        let mut out = [0xa5; 1000];
        let end = build_in_bytes(bytes, &mut out, rows([4, 4, 4, 4]), &mut work);
        assert!(out == [0; 1000]);
        end.map_or_else(Refusal::number, |_| 0)
    };
    assert_eq!(ask(&job.bytes()), 0);
    for number in (2..=7).rev() {
        spoil(&mut job, number);
        assert_eq!(ask(&job.bytes()), number);
    }
    assert_eq!(ask(&job.bytes()[1..]), 1);
    assert_eq!(ask(&[]), 1);
}

/// Tables that were lent for a larger job have what a fresh call has.
#[test]
fn tables_are_lent_again() {
    let sheets = [
        format!("{BOOK}seg 0 0 14 0\nuse 4 1 0 1\nuse 4 1 1 2\nend\n"),
        format!("{BOOK}seg 0 2 14 0\nuse 5 0 0 1\nuse 4 3 0 2\nend\n"),
        format!("{BOOK}seg 0 2 14 0\nend\n"),
        format!("{BOOK}seg 0 2 14 0\nuse 3 0\nend\n"),
        format!("{BOOK}end\n"),
    ];
    let (mut tables, mut work) = (Tables::new(), Work::new());
    for text in sheets.iter().chain(sheets.iter().rev()) {
        let job = binary::write(&read(text));
        let mut fresh = Tables::new();
        let made = build_binary(&job, &mut fresh, &mut Work::new());
        assert_eq!(build_binary(&job, &mut tables, &mut work), made);
        assert_eq!(tables.bytes(), fresh.bytes());
        assert_eq!(tables.made(), made.unwrap_or_default());
        assert_eq!(tables.rows(), Rows::for_job(&job));
    }
}

#[test]
fn a_builder_is_empty_after_a_refusal() {
    let (mut builder, mut job) = (Builder::new(), job_a());
    job.segment(Value(0), Inst(0).normal(), Inst(3).normal(), Flags::NONE);
    assert_eq!(
        builder.build(&job).map(|tables| tables.made().registers),
        Ok(1)
    );
    spoil(&mut job, 4);
    assert_eq!(builder.build(&job).err(), Some(Refusal::BadFunction));
    let tables = builder.into_tables();
    assert_eq!(tables.made(), Counts::default());
    assert!(tables.bytes().iter().all(|&byte| byte == 0));
    assert_eq!(
        format!("{tables:?}"),
        "Tables { registers: [], groups: [], .. }"
    );
}

/// One value over 4,096 instructions, and a top class over `classes` that share nothing.
fn long_job(classes: u32, frequency: impl Fn(u32) -> f32) -> Sheet {
    let mut job = Sheet { scales: [1.0; 3], banks: vec![0], ..Sheet::default() };
    for number in 0..=classes {
        job.classes.push(job::Class {
            mask: if number == 0 {
                u32::MAX >> (31 - classes)
            } else {
                1 << number
            },
            cost: 1.0,
            size: 1,
            spillslots: false,
        });
    }
    job.blocks
        .extend((0..512).map(|number| job::Block { insts: 8, frequency: frequency(number) }));
    job.values.push(job::Value { bank: 0, leader: 0, remat: 0 });
    job.segs
        .push(job::Seg { value: 0, from: 0, to: 4 * 4096, flags: 0, uses: 0..4096 });
    job
}

fn class_use(inst: u32, slot: u32, class: u32) -> job::Use {
    job::Use { kind: CLASS_USE, inst, fields: [slot, class, 0, 0] }
}

/// The exported builder's result on a thread with a stack of 2 MB is the oracle's, on a large one.
fn on_a_small_stack(job: Sheet) -> Counts {
    let other = job.clone();
    let large = thread::Builder::new().stack_size(256 << 20);
    let theirs = large.spawn(move || result::expected(&other, Room::default()));
    let theirs = theirs.unwrap().join().unwrap().expect("a result");
    let ours = typed::typed(&job).expect("a typed job");
    let small = thread::Builder::new().stack_size(2 << 20);
    let ours = small.spawn(move || build(&ours));
    let tables = ours.unwrap().join().unwrap().expect("a result");
    let [a, b, c, d] = result::counts_of(tables.rows()).map(|rows| rows as usize);
    let bytes = theirs.bytes(Room([a, b, c, d]), tables.bytes().len());
    assert!(tables.bytes() == bytes, "the tables differ");
    theirs.counts()
}

#[test]
fn the_most_cuts_need_no_more_stack_than_2_mb() {
    let ways: [fn(u32) -> f32; 3] = [
        |_| 1.0,
        |number| number as f32,
        |number| (512 - number) as f32,
    ];
    for frequency in ways {
        let mut job = long_job(2, frequency);
        let uses = (0..4096).map(|inst| class_use(inst, 0, 1 + inst % 2));
        job.uses.extend(uses);
        assert_eq!(on_a_small_stack(job).registers, 4096);
    }
}

#[test]
fn the_most_turns_need_no_more_stack_than_2_mb() {
    let mut job = long_job(31, |_| 1.0);
    let uses = (0..4096).map(|slot| class_use(0, slot, 1 + slot % 31));
    job.uses.extend(uses);
    on_a_small_stack(job);
    let mut job = long_job(2, |_| 1.0);
    let uses = (0..4096).map(|slot| class_use(slot / 2, slot % 2, 1 + slot % 2));
    job.uses.extend(uses);
    on_a_small_stack(job);
}

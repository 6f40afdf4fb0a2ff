//! The rows that a job's own counts name: jobs that come near them, and the answer of the usual room in each.

#[path = "../examples/common/mod.rs"]
mod common;

use common::result::sheet;
use cundzeli::Refusal::{Full, NotARecord};
use cundzeli::build::{
    Book, ClassData, Job, Operand, Options, Remat, Rows, Tables, Work, build, build_binary,
    build_in_rows,
};
use cundzeli::{BlockData, Flags, Inst, RegBank, RegClass, RegClassMask, UseKind, Value};

fn class(mask: u32) -> ClassData {
    ClassData::new(RegClassMask(mask))
}

/// How many rows of each table a result has.
fn used(tables: &Tables) -> Rows {
    let segments = || {
        tables
            .registers()
            .flat_map(|register| tables.segments(&register))
    };
    let uses = segments().map(|segment| tables.uses(&segment).len());
    Rows {
        registers: tables.made().registers,
        segments: segments().count() as u32,
        uses: uses.sum::<usize>() as u32,
        groups: tables.made().groups,
    }
}

/// The rows that the result needs, which must be the same in the usual room and in the job's own rows.
fn need(job: &Job) -> Rows {
    let (mut usual, mut work) = (Tables::new(), Work::new());
    let made = build_in_rows(&job.bytes(), Rows::USUAL, &mut usual, &mut work);
    let own = build(job).expect("a result");
    assert_eq!(made, Ok(own.made()));
    assert_eq!(sheet(&usual), sheet(&own));
    used(&own)
}

/// Sets of one segment without a use: as many registers and segments as rows.
#[test]
fn segments_alone_fill_their_rows() {
    let mut job = Job::new(
        &Book::new(RegClass(0), class(1)),
        Options::default(),
        BlockData::new(1, 1.0),
    );
    for _ in 0..1024 {
        let value = job.value(RegBank(0), Remat::None);
        job.segment(value, Inst(0).boundary(), Inst(1).boundary(), Flags::NONE);
    }
    let rows = Rows::for_job(&job.bytes());
    assert_eq!(need(&job), rows);
    assert_eq!((rows.registers, rows.segments), (1024, 1024));
}

/// A use in every class but one, at one instruction behind a block parameter: all but one are turned, and each conflict
/// piece begins with the parameter.
#[test]
fn turns_come_near_three_rows_a_use() {
    let mut book = Book::new(RegClass(0), class(u32::MAX));
    let classes: Vec<RegClass> = (1..32)
        .map(|number| book.class(class(1 << number)))
        .collect();
    let mut job = Job::new(&book, Options::default(), BlockData::new(1, 1.0));
    let value = job.value(RegBank(0), Remat::None);
    let mut uses = job.segment(value, Inst(0).boundary(), Inst(0).normal(), Flags::NONE);
    uses.add(Inst(0), UseKind::BlockparamIn { blockparam_idx: 0 });
    for (slot, class) in (0..).zip(classes) {
        uses.add(Inst(0), UseKind::ClassUse { slot, class });
    }
    let (rows, need) = (Rows::for_job(&job.bytes()), need(&job));
    assert_eq!((rows.registers, need.registers), (33, 31));
    assert_eq!((rows.segments, need.segments), (33, 31));
    assert_eq!((rows.uses, need.uses), (96, 92));
}

/// Group uses whose index changes from one to the next: a register and a group for each operand.
fn job_of_groups(count: u32) -> Job {
    let mut book = Book::new(RegClass(0), class(0b11));
    let pairs = book.class(ClassData { group_size: 2, ..class(0b10) });
    let mut job = Job::new(&book, Options::default(), BlockData::new(count, 1.0));
    let value = job.value(RegBank(0), Remat::None);
    let vgroup = job.vgroup(&[value; 2]);
    let (slot, class) = (0, pairs);
    for inst in (0..count).map(Inst) {
        job.operand(Operand { inst, slot, vgroup, class });
    }
    let (from, to) = (Inst(0).boundary(), Inst(count).boundary());
    let mut uses = job.segment(value, from, to, Flags::NONE);
    for inst in 0..count {
        let kind = UseKind::GroupClassUse { slot, class, group_index: (inst % 2) as u8 };
        uses.add(Inst(inst), kind);
    }
    job
}

#[test]
fn groups_fill_their_rows() {
    let job = job_of_groups(512);
    assert_eq!(need(&job).groups, 512);
    assert_eq!(Rows::for_job(&job.bytes()).groups, 512);
}

/// Where the usual room is too small, so are the job's own rows; more can be named.
#[test]
fn a_full_usual_room_is_9_in_the_own_rows_too() {
    let bytes = job_of_groups(513).bytes();
    let (mut tables, mut work) = (Tables::new(), Work::new());
    let usual = build_in_rows(&bytes, Rows::USUAL, &mut tables, &mut work);
    assert_eq!(usual, Err(Full));
    assert_eq!(build_binary(&bytes, &mut tables, &mut work), Err(Full));
    let more = Rows { groups: 513, ..Rows::USUAL };
    let made = build_in_rows(&bytes, more, &mut tables, &mut work);
    assert_eq!(made.map(|made| made.groups), Ok(513));
}

#[test]
fn any_bytes_have_rows() {
    assert_eq!(Rows::for_job(&[]), Rows::NONE);
    assert_eq!(Rows::for_job(&[0xff; 56]), Rows::USUAL);
    let (mut tables, mut work) = (Tables::new(), Work::new());
    for length in 0..60 {
        let bytes = vec![0xff; length];
        assert!(Rows::for_job(&bytes).bytes() <= Rows::USUAL.bytes());
        let end = build_binary(&bytes, &mut tables, &mut work);
        assert_eq!(end, Err(NotARecord));
    }
}

/// A value that leads no set has no segment, and asks for no row.
#[test]
fn values_without_segments_ask_for_nothing() {
    let mut job = job_of_groups(1);
    let before = Rows::for_job(&job.bytes());
    job.value_led_by(Value(0), RegBank(0), Remat::None);
    assert_eq!(Rows::for_job(&job.bytes()), before);
    assert_eq!(need(&job).registers, 1);
}

//! The result tables, and their rows as plain structs.

use super::Counts;
use super::rows::{GROUP, REGISTER, Rows, SEGMENT, USE};
use crate::{Flags, Inst, Point, RegClass, UseKind, Value, ValueSet, VirtReg, VirtRegGroup};
use std::fmt;
use std::ops::Range;

/// A virtual register.
///
/// ```
/// use cundzeli::{ValueSet, VirtReg};
/// # use cundzeli::build::{Book, ClassData, Job, Options, Remat, build};
/// # use cundzeli::{BlockData, Flags, Inst, RegBank, RegClass, RegClassMask, UseKind};
/// # let class = RegClass(0);
/// # let book = Book::new(class, ClassData::new(RegClassMask(1)));
/// # let mut job = Job::new(&book, Options::default(), BlockData::new(4, 1.0));
/// # let value = job.value(RegBank(0), Remat::None);
///
/// job.segment(value, Inst(0).normal(), Inst(3).normal(), Flags::NONE)
///     .add(Inst(0), UseKind::ClassDef { slot: 0, class });
/// let tables = build(&job)?;
/// let register = tables.register(VirtReg(0));
/// assert_eq!((register.number, register.set), (VirtReg(0), ValueSet::from(value)));
/// assert_eq!((register.class, register.weight, register.group), (class, 0.25, None));
/// assert_eq!((register.fixed_hint, register.segments), (false, 0..1));
/// # Ok::<(), cundzeli::Refusal>(())
/// ```
#[derive(Clone, Debug, PartialEq)]
pub struct Register {
    /// Its number.
    pub number: VirtReg,
    /// The set that its values are of.
    pub set: ValueSet,
    /// The class that its uses narrow its bank's top class to; one for all registers of a group.
    pub class: RegClass,
    /// Its spill weight; infinite if it can't be spilled.
    pub weight: f32,
    /// Its group and its place there, or none.
    pub group: Option<GroupPlace>,
    /// Whether one of its pieces has a fixed hint.
    pub fixed_hint: bool,
    /// Its rows in the segments.
    pub segments: Range<u32>,
}

/// Where a register stands in a group.
///
/// ```
/// use cundzeli::VirtRegGroup;
/// use cundzeli::build::{GroupPlace, Operand};
/// # use cundzeli::build::{Book, ClassData, Job, Options, Remat, build};
/// # use cundzeli::{BlockData, Flags, Inst, RegBank, RegClass, RegClassMask, UseKind};
/// # let mut book = Book::new(RegClass(0), ClassData::new(RegClassMask(0b11)));
/// # let pairs = book.class(ClassData { group_size: 2, ..ClassData::new(RegClassMask(0b10)) });
/// # let mut job = Job::new(&book, Options::default(), BlockData::new(4, 1.0));
/// # let members = [(); 2].map(|()| job.value(RegBank(0), Remat::None));
///
/// let vgroup = job.vgroup(&members);
/// job.operand(Operand { inst: Inst(1), slot: 0, vgroup, class: pairs });
/// job.segment(members[1], Inst(0).boundary(), Inst(1).normal(), Flags::NONE)
///     .add(Inst(1), UseKind::GroupClassUse { slot: 0, class: pairs, group_index: 1 });
/// let places: Vec<_> = build(&job)?.registers().map(|register| register.group).collect();
/// assert_eq!(places, [Some(GroupPlace { group: VirtRegGroup(0), index: 1 })]);
/// # Ok::<(), cundzeli::Refusal>(())
/// ```
#[derive(Clone, Copy, Debug, PartialEq, Eq)]
pub struct GroupPlace {
    /// The group.
    pub group: VirtRegGroup,
    /// The place, from 0.
    pub index: u32,
}

/// Where a piece comes from.
///
/// Two uses of one instruction that no class fits: the second is turned, and stands in a conflict piece as it was.
///
/// ```
/// use cundzeli::build::{Book, ClassData, Job, Options, Origin, Remat, build};
/// use cundzeli::{BlockData, Flags, Inst, RegBank, RegClass, RegClassMask, Turned, UseKind};
///
/// let mut book = Book::new(RegClass(0), ClassData::new(RegClassMask(0b111)));
/// let left = book.class(ClassData::new(RegClassMask(0b010)));
/// let right = book.class(ClassData::new(RegClassMask(0b100)));
/// let mut job = Job::new(&book, Options::default(), BlockData::new(2, 1.0));
/// let value = job.value(RegBank(0), Remat::None);
/// job.segment(value, Inst(0).boundary(), Inst(1).normal(), Flags::NONE)
///     .add(Inst(1), UseKind::ClassUse { slot: 0, class: left })
///     .add(Inst(1), UseKind::ClassUse { slot: 1, class: right });
///
/// let tables = build(&job)?;
/// let pieces: Vec<_> = tables.registers().flat_map(|register| tables.segments(&register)).collect();
/// assert_eq!((pieces[0].origin, pieces[1].origin), (Origin::Own, Origin::Conflict));
/// let last = |place: usize| tables.uses(&pieces[place]).last().map(|one| one.kind);
/// assert_eq!(last(0), Some(UseKind::ConstraintConflict(Turned)));
/// assert_eq!(last(1), Some(UseKind::ClassUse { slot: 1, class: right }));
/// # Ok::<(), cundzeli::Refusal>(())
/// ```
#[derive(Clone, Copy, Debug, PartialEq, Eq)]
pub enum Origin {
    /// A segment of the job, or a part of one.
    Own,
    /// It was added for uses that conflict.
    Conflict,
}

/// A piece of a register: a live range segment of one value.
///
/// Two pieces of one segment, which was cut before instruction 1:
///
/// ```
/// use cundzeli::build::Segment;
/// # use cundzeli::build::{Book, ClassData, Job, Options, Remat, build};
/// # use cundzeli::{BlockData, Flags, Inst, RegBank, RegClass, RegClassMask, UseKind};
/// # let mut book = Book::new(RegClass(0), ClassData::new(RegClassMask(0b111)));
/// # let left = book.class(ClassData::new(RegClassMask(0b010)));
/// # let right = book.class(ClassData::new(RegClassMask(0b100)));
/// # let mut job = Job::new(&book, Options::default(), BlockData::new(4, 1.0));
/// # let value = job.value(RegBank(0), Remat::None);
///
/// job.segment(value, Inst(0).normal(), Inst(3).normal(), Flags::NONE)
///     .add(Inst(0), UseKind::ClassDef { slot: 0, class: left })
///     .add(Inst(3), UseKind::ClassUse { slot: 0, class: right });
/// let tables = build(&job)?;
/// let pieces: Vec<Segment> = tables.registers().flat_map(|register| tables.segments(&register)).collect();
/// assert_eq!((pieces[0].from, pieces[0].to), (Inst(0).normal(), Inst(1).boundary()));
/// assert_eq!((pieces[1].from, pieces[1].to), (Inst(1).boundary(), Inst(3).normal()));
/// assert_eq!((pieces[0].flags, pieces[1].flags), (Flags::LIVE_OUT, Flags::LIVE_IN));
/// assert_eq!((&pieces[0].uses, &pieces[1].uses), (&(0..1), &(1..2)));
/// # Ok::<(), cundzeli::Refusal>(())
/// ```
#[derive(Clone, Debug, PartialEq, Eq)]
pub struct Segment {
    /// Whose piece it is.
    pub value: Value,
    /// Its first point.
    pub from: Point,
    /// The point behind its last one.
    pub to: Point,
    /// Its flags.
    pub flags: Flags,
    /// Where it comes from.
    pub origin: Origin,
    /// Its rows in the uses.
    pub uses: Range<u32>,
}

/// A use: as in the job, or [turned](UseKind::ConstraintConflict).
///
/// ```
/// use cundzeli::build::Use;
/// # use cundzeli::build::{Book, ClassData, Job, Options, Remat, build};
/// # use cundzeli::{BlockData, Flags, Inst, RegBank, RegClass, RegClassMask, UseKind};
/// # let class = RegClass(0);
/// # let book = Book::new(class, ClassData::new(RegClassMask(1)));
/// # let mut job = Job::new(&book, Options::default(), BlockData::new(4, 1.0));
/// # let value = job.value(RegBank(0), Remat::None);
///
/// job.segment(value, Inst(0).boundary(), Inst(3).normal(), Flags::NONE)
///     .add(Inst(0), UseKind::BlockparamIn { blockparam_idx: 1 })
///     .add(Inst(3), UseKind::ClassUse { slot: 2, class });
/// let last = Use { inst: Inst(3), kind: UseKind::ClassUse { slot: 2, class } };
/// assert_eq!(build(&job)?.a_use(1), last);
/// # Ok::<(), cundzeli::Refusal>(())
/// ```
#[derive(Clone, Copy, Debug, PartialEq, Eq)]
pub struct Use {
    /// Where it stands.
    pub inst: Inst,
    /// What it asks for.
    pub kind: UseKind,
}

/// A group of registers.
///
/// A place stays empty where the value has no use in the operand:
///
/// ```
/// use cundzeli::VirtReg;
/// use cundzeli::build::Operand;
/// # use cundzeli::build::{Book, ClassData, Job, Options, Remat, build};
/// # use cundzeli::{BlockData, Flags, Inst, RegBank, RegClass, RegClassMask, UseKind};
/// # let mut book = Book::new(RegClass(0), ClassData::new(RegClassMask(0b11)));
/// # let pairs = book.class(ClassData { group_size: 2, ..ClassData::new(RegClassMask(0b10)) });
/// # let mut job = Job::new(&book, Options::default(), BlockData::new(4, 1.0));
/// # let members = [(); 2].map(|()| job.value(RegBank(0), Remat::None));
///
/// let vgroup = job.vgroup(&members);
/// job.operand(Operand { inst: Inst(1), slot: 0, vgroup, class: pairs });
/// job.segment(members[1], Inst(0).boundary(), Inst(1).normal(), Flags::NONE)
///     .add(Inst(1), UseKind::GroupClassUse { slot: 0, class: pairs, group_index: 1 });
/// let members = build(&job)?.groups().map(|group| group.members).collect::<Vec<_>>();
/// assert_eq!(members, [[None, Some(VirtReg(0))]]);
/// # Ok::<(), cundzeli::Refusal>(())
/// ```
#[derive(Clone, Debug, PartialEq, Eq)]
pub struct Group {
    /// Its number.
    pub number: VirtRegGroup,
    /// Its places: a register each, or none.
    pub members: Vec<Option<VirtReg>>,
}

/// Tables for one result. They can be lent for any number of builds, and grow as a job needs.
///
/// ```
/// use cundzeli::build::{Book, ClassData, Job, Operand, Options, Remat, build};
/// use cundzeli::{BlockData, Flags, Inst, RegBank, RegClass, RegClassMask, UseKind, VirtReg};
///
/// let mut book = Book::new(RegClass(0), ClassData::new(RegClassMask(0b11)));
/// let pairs = book.class(ClassData { group_size: 2, ..ClassData::new(RegClassMask(0b10)) });
/// let mut job = Job::new(&book, Options::default(), BlockData::new(2, 1.0));
/// let members = [(); 2].map(|()| job.value(RegBank(0), Remat::None));
/// let (inst, slot, vgroup) = (Inst(1), 0, job.vgroup(&members));
/// job.operand(Operand { inst, slot, vgroup, class: pairs });
/// for (group_index, value) in (0..).zip(members) {
///     let kind = UseKind::GroupClassUse { slot, class: pairs, group_index };
///     job.segment(value, Inst(0).boundary(), inst.normal(), Flags::NONE).add(inst, kind);
/// }
///
/// let tables = build(&job)?;
/// for register in tables.registers() {
///     assert_eq!((register.class, register.weight), (pairs, 0.5));
///     for segment in tables.segments(&register) {
///         assert_eq!((segment.from, segment.to), (Inst(0).boundary(), inst.normal()));
///         assert!(tables.uses(&segment).all(|one| one.inst == inst));
///     }
/// }
/// let group = tables.groups().next().expect("a group");
/// assert_eq!(group.members, [Some(VirtReg(0)), Some(VirtReg(1))]);
/// # Ok::<(), cundzeli::Refusal>(())
/// ```
#[derive(Clone)]
pub struct Tables {
    /// At least as long as the rows ask for.
    bytes: Vec<u8>,
    rows: Rows,
    made: Counts,
}

impl Default for Tables {
    fn default() -> Self {
        Self::new()
    }
}

impl Tables {
    /// Tables without a row.
    ///
    /// ```
    /// use cundzeli::build::{Rows, Tables};
    ///
    /// let tables = Tables::new();
    /// assert_eq!((tables.rows(), tables.registers().len()), (Rows::NONE, 0));
    /// ```
    pub fn new() -> Self {
        Self { bytes: Vec::new(), rows: Rows::NONE, made: Counts::default() }
    }

    /// The slice to lend for a build in so many rows. What it holds before does not matter.
    pub(super) fn lend(&mut self, rows: Rows) -> &mut [u8] {
        self.made = Counts::default();
        self.rows = rows;
        let length = rows.bytes();
        if self.bytes.len() < length {
            self.bytes.resize(length, 0);
        }
        &mut self.bytes[..length]
    }

    /// What a build made in the slice that was lent.
    pub(super) fn fill(&mut self, made: Counts) {
        self.made = made;
    }

    /// All four tables as the last build left them (docs/TABLES.md), cut by [`rows`](Self::rows).
    ///
    /// The first row: set 0, class 0, and the weight's bits.
    ///
    /// ```
    /// # use cundzeli::build::{Book, ClassData, Job, Options, Remat, build};
    /// # use cundzeli::{BlockData, Flags, Inst, RegBank, RegClass, RegClassMask, UseKind};
    /// # let class = RegClass(0);
    /// # let book = Book::new(class, ClassData::new(RegClassMask(1)));
    /// # let mut job = Job::new(&book, Options::default(), BlockData::new(4, 1.0));
    /// # let value = job.value(RegBank(0), Remat::None);
    /// job.segment(value, Inst(0).normal(), Inst(3).normal(), Flags::NONE)
    ///     .add(Inst(0), UseKind::ClassDef { slot: 0, class });
    /// let tables = build(&job)?;
    /// assert_eq!(tables.bytes().len(), tables.rows().bytes());
    /// assert_eq!(tables.bytes()[..8], [0; 8]);
    /// assert_eq!(tables.bytes()[8..12], 0.25_f32.to_le_bytes());
    /// # Ok::<(), cundzeli::Refusal>(())
    /// ```
    pub fn bytes(&self) -> &[u8] {
        &self.bytes[..self.rows.bytes()]
    }

    /// The rows that the last build was lent.
    ///
    /// ```
    /// use cundzeli::build::{Rows, Tables, Work, build_binary, build_in_rows};
    /// # use cundzeli::build::{Book, ClassData, Job, Options, Remat, build};
    /// # use cundzeli::{BlockData, Flags, Inst, RegBank, RegClass, RegClassMask, UseKind};
    /// # let class = RegClass(0);
    /// # let book = Book::new(class, ClassData::new(RegClassMask(1)));
    /// # let mut job = Job::new(&book, Options::default(), BlockData::new(4, 1.0));
    /// # let value = job.value(RegBank(0), Remat::None);
    /// # job.segment(value, Inst(0).normal(), Inst(3).normal(), Flags::NONE);
    ///
    /// let (mut tables, mut work) = (Tables::new(), Work::new());
    /// build_in_rows(&job.bytes(), Rows::USUAL, &mut tables, &mut work)?;
    /// assert_eq!(tables.rows(), Rows::USUAL);
    /// build_binary(&job.bytes(), &mut tables, &mut work)?;
    /// assert_eq!(tables.rows(), Rows { registers: 1, segments: 1, ..Rows::NONE });
    /// # Ok::<(), cundzeli::Refusal>(())
    /// ```
    pub fn rows(&self) -> Rows {
        self.rows
    }

    /// How many registers and groups the last build made: none where it was refused.
    ///
    /// ```
    /// use cundzeli::build::{Counts, Tables, Work, build_binary};
    /// # use cundzeli::build::{Book, ClassData, Job, Options, Remat, build};
    /// # use cundzeli::{BlockData, Flags, Inst, RegBank, RegClass, RegClassMask, UseKind};
    /// # let class = RegClass(0);
    /// # let book = Book::new(class, ClassData::new(RegClassMask(1)));
    /// # let mut job = Job::new(&book, Options::default(), BlockData::new(4, 1.0));
    /// # let value = job.value(RegBank(0), Remat::None);
    /// # job.segment(value, Inst(0).normal(), Inst(3).normal(), Flags::NONE);
    ///
    /// let (mut tables, mut work) = (Tables::new(), Work::new());
    /// let made = build_binary(&job.bytes(), &mut tables, &mut work)?;
    /// assert_eq!((tables.made(), made.registers), (made, 1));
    /// assert!(build_binary(b"no job", &mut tables, &mut work).is_err());
    /// assert_eq!(tables.made(), Counts::default());
    /// # Ok::<(), cundzeli::Refusal>(())
    /// ```
    pub fn made(&self) -> Counts {
        self.made
    }

    /// The row at `place` of a table of `W` words a row that begins behind `before` words.
    fn row<const W: usize>(&self, before: usize, place: u32) -> [u32; W] {
        let at = 4 * (before + place as usize * W);
        let mut row = [0; W];
        for (word, bytes) in row.iter_mut().zip(self.bytes()[at..].chunks_exact(4)) {
            *word = u32::from_le_bytes(bytes.try_into().expect("four bytes"));
        }
        row
    }

    /// The words before the segments, the uses, the groups.
    fn before(&self) -> [usize; 3] {
        let segments = self.rows.registers as usize * REGISTER;
        let uses = segments + self.rows.segments as usize * SEGMENT;
        [segments, uses, uses + self.rows.uses as usize * USE]
    }

    /// A register, of those that were made.
    ///
    /// # Panics
    ///
    /// If it was not made.
    ///
    /// ```
    /// use cundzeli::VirtReg;
    /// # use cundzeli::build::{Book, ClassData, Job, Options, Remat, build};
    /// # use cundzeli::{BlockData, Flags, Inst, RegBank, RegClass, RegClassMask, UseKind};
    /// # let class = RegClass(0);
    /// # let book = Book::new(class, ClassData::new(RegClassMask(1)));
    /// # let mut job = Job::new(&book, Options::default(), BlockData::new(4, 1.0));
    /// # let value = job.value(RegBank(0), Remat::None);
    ///
    /// // A register of one instruction can't be spilled.
    /// job.segment(value, Inst(0).boundary(), Inst(1).boundary(), Flags::NONE);
    /// let tables = build(&job)?;
    /// assert_eq!(tables.register(VirtReg(0)).weight, f32::INFINITY);
    /// # Ok::<(), cundzeli::Refusal>(())
    /// ```
    ///
    /// A number is good for the tables that it came from:
    ///
    /// ```should_panic
    /// # use cundzeli::VirtReg;
    /// # use cundzeli::build::Tables;
    /// Tables::new().register(VirtReg(0));
    /// ```
    pub fn register(&self, number: VirtReg) -> Register {
        assert!(number.0 < self.made.registers, "no register {number}");
        let row = self.row::<REGISTER>(0, number.0);
        let [set, class, weight, group, index, hint, first, count] = row;
        let group = group.checked_sub(1).map(VirtRegGroup);
        Register {
            number,
            set: ValueSet(set),
            class: RegClass(class),
            weight: f32::from_bits(weight),
            group: group.map(|group| GroupPlace { group, index }),
            fixed_hint: hint != 0,
            segments: first..first + count,
        }
    }

    /// All registers, by rising number: set by set, in a set those made by cuts by their points, then those made for
    /// conflicts.
    ///
    /// By their weights, the cheapest to spill first:
    ///
    /// ```
    /// # use cundzeli::build::{Book, ClassData, Job, Options, Remat, build};
    /// # use cundzeli::{BlockData, Flags, Inst, RegBank, RegClass, RegClassMask, UseKind};
    /// # let class = RegClass(0);
    /// # let book = Book::new(class, ClassData::new(RegClassMask(1)));
    /// # let mut job = Job::new(&book, Options::default(), BlockData::new(4, 1.0));
    /// for last in [3, 1] {
    ///     let value = job.value(RegBank(0), Remat::None);
    ///     let mut uses = job.segment(value, Inst(0).boundary(), Inst(4).boundary(), Flags::NONE);
    ///     (0..=last).for_each(|inst| _ = uses.add(Inst(inst), UseKind::ClassUse { slot: 0, class }));
    /// }
    /// let mut registers: Vec<_> = build(&job)?.registers().collect();
    /// registers.sort_by(|one, other| one.weight.total_cmp(&other.weight));
    /// assert_eq!((registers[0].weight, registers[1].weight), (0.5, 1.0));
    /// # Ok::<(), cundzeli::Refusal>(())
    /// ```
    pub fn registers(&self) -> impl ExactSizeIterator<Item = Register> {
        (0..self.made.registers).map(|number| self.register(VirtReg(number)))
    }

    /// The piece at a row that a register names. Rows that none names are zero.
    ///
    /// # Panics
    ///
    /// If the table has no such row.
    ///
    /// ```
    /// use cundzeli::VirtReg;
    /// # use cundzeli::build::{Book, ClassData, Job, Options, Remat, build};
    /// # use cundzeli::{BlockData, Flags, Inst, RegBank, RegClass, RegClassMask, UseKind};
    /// # let class = RegClass(0);
    /// # let book = Book::new(class, ClassData::new(RegClassMask(1)));
    /// # let mut job = Job::new(&book, Options::default(), BlockData::new(4, 1.0));
    /// # let value = job.value(RegBank(0), Remat::None);
    ///
    /// job.segment(value, Inst(0).normal(), Inst(1).normal(), Flags::LIVE_OUT);
    /// job.segment(value, Inst(2).boundary(), Inst(3).normal(), Flags::LIVE_IN);
    /// let tables = build(&job)?;
    /// let register = tables.register(VirtReg(0));
    /// let last = tables.segment(register.segments.end - 1);
    /// assert_eq!((last.to, last.flags), (Inst(3).normal(), Flags::LIVE_IN));
    /// # Ok::<(), cundzeli::Refusal>(())
    /// ```
    pub fn segment(&self, place: u32) -> Segment {
        assert!(place < self.rows.segments, "no segment {place}");
        let [before, _, _] = self.before();
        let [value, from, to, flags, origin, first, count] = self.row::<SEGMENT>(before, place);
        let point = |number| Point::from_number(number).expect("a point in a result");
        let conflict = origin == 1;
        let origins = [Origin::Own, Origin::Conflict];
        Segment {
            value: Value(value),
            from: point(from),
            to: point(to),
            flags: Flags::from_bits(flags).expect("flags in a result"),
            origin: origins[usize::from(conflict)],
            uses: first..first + count,
        }
    }

    /// The pieces of a register, by their points.
    ///
    /// How many points a register lives at:
    ///
    /// ```
    /// # use cundzeli::build::{Book, ClassData, Job, Options, Remat, build};
    /// # use cundzeli::{BlockData, Flags, Inst, RegBank, RegClass, RegClassMask, UseKind};
    /// # let class = RegClass(0);
    /// # let book = Book::new(class, ClassData::new(RegClassMask(1)));
    /// # let mut job = Job::new(&book, Options::default(), BlockData::new(4, 1.0));
    /// # let value = job.value(RegBank(0), Remat::None);
    /// job.segment(value, Inst(0).normal(), Inst(1).normal(), Flags::LIVE_OUT);
    /// job.segment(value, Inst(2).boundary(), Inst(3).normal(), Flags::LIVE_IN);
    /// let tables = build(&job)?;
    /// let points = tables.registers().map(|register| {
    ///     let lengths = tables.segments(&register).map(|piece| piece.to.number() - piece.from.number());
    ///     lengths.sum::<u32>()
    /// });
    /// assert_eq!(points.collect::<Vec<_>>(), [4 + 6]);
    /// # Ok::<(), cundzeli::Refusal>(())
    /// ```
    pub fn segments<'a>(
        &'a self,
        register: &Register,
    ) -> impl ExactSizeIterator<Item = Segment> + use<'a> {
        let rows = register.segments.clone();
        rows.map(|place| self.segment(place))
    }

    /// The use at a row that a piece names. Rows that none names are zero.
    ///
    /// # Panics
    ///
    /// If the table has no such row.
    ///
    /// ```
    /// # use cundzeli::build::{Book, ClassData, Job, Options, Remat, build};
    /// # use cundzeli::{BlockData, Flags, Inst, RegBank, RegClass, RegClassMask, UseKind};
    /// # let class = RegClass(0);
    /// # let book = Book::new(class, ClassData::new(RegClassMask(1)));
    /// # let mut job = Job::new(&book, Options::default(), BlockData::new(4, 1.0));
    /// # let value = job.value(RegBank(0), Remat::None);
    /// job.segment(value, Inst(0).normal(), Inst(3).normal(), Flags::NONE)
    ///     .add(Inst(0), UseKind::ClassDef { slot: 0, class })
    ///     .add(Inst(3), UseKind::ClassUse { slot: 0, class });
    /// let tables = build(&job)?;
    /// let piece = tables.segment(0);
    /// assert_eq!(tables.a_use(piece.uses.start).inst, Inst(0));
    /// assert_eq!(tables.a_use(piece.uses.end - 1).inst, Inst(3));
    /// # Ok::<(), cundzeli::Refusal>(())
    /// ```
    pub fn a_use(&self, place: u32) -> Use {
        assert!(place < self.rows.uses, "no use {place}");
        let [_, before, _] = self.before();
        let [kind, inst, fields @ ..] = self.row::<USE>(before, place);
        Use { inst: Inst(inst), kind: UseKind::of_row(kind, fields) }
    }

    /// The uses of a piece, in their order.
    ///
    /// The instructions that a register is read by:
    ///
    /// ```
    /// # use cundzeli::build::{Book, ClassData, Job, Options, Remat, build};
    /// # use cundzeli::{BlockData, Flags, Inst, RegBank, RegClass, RegClassMask, UseKind};
    /// # let class = RegClass(0);
    /// # let book = Book::new(class, ClassData::new(RegClassMask(1)));
    /// # let mut job = Job::new(&book, Options::default(), BlockData::new(4, 1.0));
    /// # let value = job.value(RegBank(0), Remat::None);
    /// job.segment(value, Inst(0).normal(), Inst(3).normal(), Flags::NONE)
    ///     .add(Inst(0), UseKind::ClassDef { slot: 0, class })
    ///     .add(Inst(1), UseKind::ClassUse { slot: 0, class })
    ///     .add(Inst(3), UseKind::ClassUse { slot: 0, class });
    /// let tables = build(&job)?;
    /// let read = tables.uses(&tables.segment(0)).filter(|one| matches!(one.kind, UseKind::ClassUse { .. }));
    /// assert_eq!(read.map(|one| one.inst).collect::<Vec<_>>(), [Inst(1), Inst(3)]);
    /// # Ok::<(), cundzeli::Refusal>(())
    /// ```
    pub fn uses<'a>(&'a self, segment: &Segment) -> impl ExactSizeIterator<Item = Use> + use<'a> {
        let rows = segment.uses.clone();
        rows.map(|place| self.a_use(place))
    }

    /// A group, of those that were made.
    ///
    /// # Panics
    ///
    /// If it was not made.
    ///
    /// The class of a group is that of its registers:
    ///
    /// ```
    /// use cundzeli::VirtReg;
    /// # use cundzeli::build::Operand;
    /// # use cundzeli::build::{Book, ClassData, Job, Options, Remat, build};
    /// # use cundzeli::{BlockData, Flags, Inst, RegBank, RegClass, RegClassMask, UseKind};
    /// # let mut book = Book::new(RegClass(0), ClassData::new(RegClassMask(0b11)));
    /// # let pairs = book.class(ClassData { group_size: 2, ..ClassData::new(RegClassMask(0b10)) });
    /// # let mut job = Job::new(&book, Options::default(), BlockData::new(4, 1.0));
    /// # let members = [(); 2].map(|()| job.value(RegBank(0), Remat::None));
    /// # let vgroup = job.vgroup(&members);
    /// # job.operand(Operand { inst: Inst(1), slot: 0, vgroup, class: pairs });
    /// # for (group_index, value) in (0..).zip(members) {
    /// #     job.segment(value, Inst(0).boundary(), Inst(1).normal(), Flags::NONE)
    /// #         .add(Inst(1), UseKind::GroupClassUse { slot: 0, class: pairs, group_index });
    /// # }
    ///
    /// let tables = build(&job)?;
    /// let place = tables.register(VirtReg(0)).group.expect("a group");
    /// let members = tables.group(place.group).members.into_iter().flatten();
    /// let classes = members.map(|member| tables.register(member).class);
    /// assert_eq!(classes.collect::<Vec<_>>(), [pairs, pairs]);
    /// # Ok::<(), cundzeli::Refusal>(())
    /// ```
    pub fn group(&self, number: VirtRegGroup) -> Group {
        assert!(number.0 < self.made.groups, "no group {number}");
        let [_, _, before] = self.before();
        let [size, places @ ..] = self.row::<GROUP>(before, number.0);
        let members = places[..size as usize].iter();
        let members = members.map(|member| member.checked_sub(1).map(VirtReg));
        Group { number, members: members.collect() }
    }

    /// All groups, by rising number.
    ///
    /// Each register of a group names its place there:
    ///
    /// ```
    /// use cundzeli::build::GroupPlace;
    /// # use cundzeli::build::Operand;
    /// # use cundzeli::build::{Book, ClassData, Job, Options, Remat, build};
    /// # use cundzeli::{BlockData, Flags, Inst, RegBank, RegClass, RegClassMask, UseKind};
    /// # let mut book = Book::new(RegClass(0), ClassData::new(RegClassMask(0b11)));
    /// # let pairs = book.class(ClassData { group_size: 2, ..ClassData::new(RegClassMask(0b10)) });
    /// # let mut job = Job::new(&book, Options::default(), BlockData::new(4, 1.0));
    /// # let members = [(); 2].map(|()| job.value(RegBank(0), Remat::None));
    /// # let vgroup = job.vgroup(&members);
    /// # job.operand(Operand { inst: Inst(1), slot: 0, vgroup, class: pairs });
    /// # for (group_index, value) in (0..).zip(members) {
    /// #     job.segment(value, Inst(0).boundary(), Inst(1).normal(), Flags::NONE)
    /// #         .add(Inst(1), UseKind::GroupClassUse { slot: 0, class: pairs, group_index });
    /// # }
    ///
    /// let tables = build(&job)?;
    /// assert_eq!(tables.groups().len(), 1);
    /// for group in tables.groups() {
    ///     for (index, member) in (0..).zip(group.members) {
    ///         let register = tables.register(member.expect("a register"));
    ///         assert_eq!(register.group, Some(GroupPlace { group: group.number, index }));
    ///     }
    /// }
    /// # Ok::<(), cundzeli::Refusal>(())
    /// ```
    pub fn groups(&self) -> impl ExactSizeIterator<Item = Group> {
        (0..self.made.groups).map(|number| self.group(VirtRegGroup(number)))
    }
}

/// The registers and groups that were made.
impl fmt::Debug for Tables {
    fn fmt(&self, f: &mut fmt::Formatter<'_>) -> fmt::Result {
        f.debug_struct("Tables")
            .field("registers", &self.registers().collect::<Vec<_>>())
            .field("groups", &self.groups().collect::<Vec<_>>())
            .finish_non_exhaustive()
    }
}

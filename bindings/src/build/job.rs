//! A job, written part by part.

use super::book::{Book, Options};
use super::table::Table;
use crate::{Block, BlockData, Flags, Inst, Point, RegBank, RegClass, UseKind, Value, ValueGroup};
use std::convert::Infallible;

/// How a value can be made again, which scales the costs of its uses.
///
/// ```
/// use cundzeli::build::{Book, ClassData, Job, Options, Remat, build};
/// use cundzeli::{BlockData, Flags, Inst, RegBank, RegClass, RegClassMask, UseKind};
///
/// let class = RegClass(0);
/// let book = Book::new(class, ClassData::new(RegClassMask(1)));
/// let weight = |remat| {
///     let options = Options { cheaper_than_load: 0.25, ..Options::default() };
///     let mut job = Job::new(&book, options, BlockData::new(2, 1.0));
///     let value = job.value(RegBank(0), remat);
///     job.segment(value, Inst(0).boundary(), Inst(1).normal(), Flags::LIVE_IN)
///         .add(Inst(1), UseKind::ClassUse { slot: 0, class });
///     build(&job).map(|tables| tables.registers().next().map(|register| register.weight))
/// };
/// assert_eq!(weight(Remat::None).unwrap(), Some(0.5));
/// assert_eq!(weight(Remat::CheaperThanLoad).unwrap(), Some(0.125));
/// ```
#[derive(Clone, Copy, Debug, Default, PartialEq, Eq)]
pub enum Remat {
    /// It can't.
    #[default]
    None,
    /// More cheaply than it is moved.
    CheaperThanMove,
    /// More cheaply than it is loaded.
    CheaperThanLoad,
    /// From other values.
    Indirect,
}

/// An operand that is a value group.
///
/// A pair must be of a class of pairs:
///
/// ```
/// use cundzeli::Refusal;
/// use cundzeli::build::Operand;
/// # use cundzeli::build::{Book, ClassData, Job, Options, Remat, build};
/// # use cundzeli::{BlockData, Flags, Inst, RegBank, RegClass, RegClassMask, UseKind};
/// # let mut book = Book::new(RegClass(0), ClassData::new(RegClassMask(0b11)));
/// # let pairs = book.class(ClassData { group_size: 2, ..ClassData::new(RegClassMask(0b10)) });
/// # let mut job = Job::new(&book, Options::default(), BlockData::new(4, 1.0));
/// # let members = [(); 2].map(|()| job.value(RegBank(0), Remat::None));
///
/// let vgroup = job.vgroup(&members);
/// let mut single = job.clone();
/// job.operand(Operand { inst: Inst(1), slot: 0, vgroup, class: pairs });
/// assert!(build(&job).is_ok());
/// single.operand(Operand { inst: Inst(1), slot: 0, vgroup, class: RegClass(0) });
/// assert_eq!(build(&single).err(), Some(Refusal::BadFunction));
/// ```
#[derive(Clone, Copy, Debug, PartialEq, Eq)]
pub struct Operand {
    /// Where it stands.
    pub inst: Inst,
    /// Which operand of the instruction it is.
    pub slot: u16,
    /// What it is made of.
    pub vgroup: ValueGroup,
    /// Its class, whose group size is the number of the value group's members.
    pub class: RegClass,
}

/// A hint to a fixed register. They go by value, then by instruction, outgoing before incoming.
///
/// ```
/// use cundzeli::build::{Book, ClassData, Hint, Job, Options, Remat, build};
/// use cundzeli::{BlockData, Inst, Refusal, RegBank, RegClass, RegClassMask};
///
/// let book = Book::new(RegClass(0), ClassData::new(RegClassMask(1)));
/// let mut job = Job::new(&book, Options::default(), BlockData::new(2, 1.0));
/// let value = job.value(RegBank(0), Remat::None);
/// job.hint(Hint { value, inst: Inst(1), incoming: false });
/// job.hint(Hint { value, inst: Inst(1), incoming: true });
/// assert!(build(&job).is_ok());
/// job.hint(Hint { value, inst: Inst(0), incoming: true });
/// assert_eq!(build(&job).err(), Some(Refusal::BadHint));
/// ```
#[derive(Clone, Copy, Debug, PartialEq, Eq)]
pub struct Hint {
    /// Whose register is hinted.
    pub value: Value,
    /// Where.
    pub inst: Inst,
    /// Incoming, or else outgoing.
    pub incoming: bool,
}

/// Places for members in a row of a value group.
const MEMBERS: usize = 8;

/// A job in parts. Blocks, values and value groups are numbered from 0 in the order in which they are added.
///
/// Nothing is tested here: [`build`](super::build()) refuses what is not in order. But **no job of this type is refused
/// by 1**, whatever is put into it. Number 1 has these grounds (docs/TABLES.md), and each is ruled out:
///
/// - *The slice is not as long as its header says.* [`bytes`](Self::bytes) counts the rows that it writes, and a table
///   can't have more rows than a word counts (adding one panics).
/// - *No bank, no class or no block.* A [`Book`] begins with a bank and a class, a job with a book and a block, and
///   nothing is ever taken away.
/// - *A choice off its list.* Spillslots, memory and incoming are `bool`, remat is [`Remat`], and flags are [`Flags`],
///   whose sum is 15 at most.
/// - *A kind above 9.* Kinds are [`UseKind`]. Kind 3 can't be given either: a job's has no
///   [`ConstraintConflict`](UseKind::ConstraintConflict).
/// - *Use counts that fall, begin above 0 or pass the number of uses; uses without a segment.* A segment is begun with
///   the number of uses so far, which never falls, and is 0 for the first one, since uses are added through
///   [`SegmentUses`] alone, which a begun segment gives.
///
/// What the types rule out besides: a slot 3 of a point (6), a slot or group index beyond its type (4, 7).
///
/// ```
/// use cundzeli::build::{Book, ClassData, Job, Options, Remat, build};
/// use cundzeli::{BlockData, Flags, Inst, RegBank, RegClass, RegClassMask, UseKind};
///
/// let mut book = Book::new(RegClass(0), ClassData::new(RegClassMask(0b111)));
/// let left = book.class(ClassData::new(RegClassMask(0b010)));
/// let right = book.class(ClassData::new(RegClassMask(0b100)));
///
/// let mut job = Job::new(&book, Options::default(), BlockData::new(2, 1.0));
/// job.block(BlockData::new(2, 0.5));
/// let value = job.value(RegBank(0), Remat::None);
/// job.segment(value, Inst(0).normal(), Inst(3).normal(), Flags::NONE)
///     .add(Inst(0), UseKind::ClassDef { slot: 0, class: left })
///     .add(Inst(3), UseKind::ClassUse { slot: 0, class: right });
///
/// let tables = build(&job)?;
/// assert_eq!(tables.made().registers, 2);
/// # Ok::<(), cundzeli::Refusal>(())
/// ```
#[derive(Clone, Debug)]
pub struct Job {
    options: Options,
    book: Book,
    blocks: Table<2>,
    values: Table<3>,
    vgroups: Table<9>,
    operands: Table<4>,
    hints: Table<3>,
    segments: Table<5>,
    uses: Table<6>,
}

impl Job {
    /// A job over a book, begun with block 0.
    ///
    /// The book is copied: what is added to it later is not in the job.
    ///
    /// ```
    /// # use cundzeli::build::{Book, ClassData, Job, Options, Remat, build};
    /// # use cundzeli::{BlockData, Flags, Inst, RegBank, RegClass, RegClassMask, UseKind};
    /// let mut book = Book::new(RegClass(0), ClassData::new(RegClassMask(1)));
    /// let before = Job::new(&book, Options::default(), BlockData::new(2, 1.0));
    /// book.reg(false);
    /// let after = Job::new(&book, Options::default(), BlockData::new(2, 1.0));
    /// assert_eq!(before.bytes().len() + 4, after.bytes().len());
    /// ```
    pub fn new(book: &Book, options: Options, first: BlockData) -> Self {
        let mut job = Self {
            options,
            book: book.clone(),
            blocks: Table::new(),
            values: Table::new(),
            vgroups: Table::new(),
            operands: Table::new(),
            hints: Table::new(),
            segments: Table::new(),
            uses: Table::new(),
        };
        job.block(first);
        job
    }

    /// The next block.
    ///
    /// The instructions of a block are counted on from those before it:
    ///
    /// ```
    /// use cundzeli::{Block, Refusal};
    /// # use cundzeli::build::{Book, ClassData, Job, Options, Remat, build};
    /// # use cundzeli::{BlockData, Flags, Inst, RegBank, RegClass, RegClassMask, UseKind};
    /// # let class = RegClass(0);
    /// # let book = Book::new(class, ClassData::new(RegClassMask(1)));
    /// # let mut job = Job::new(&book, Options::default(), BlockData::new(4, 1.0));
    /// # let value = job.value(RegBank(0), Remat::None);
    ///
    /// job.segment(value, Inst(3).normal(), Inst(5).normal(), Flags::NONE);
    /// assert_eq!(build(&job).err(), Some(Refusal::BadSegment), "there are 4 instructions");
    /// assert_eq!(job.block(BlockData::new(2, 0.5)), Block(1));
    /// assert!(build(&job).is_ok());
    /// ```
    pub fn block(&mut self, block: BlockData) -> Block {
        Block(self.blocks.add(block.row()))
    }

    /// The next value, which leads its set.
    ///
    /// ```
    /// use cundzeli::Refusal;
    /// # use cundzeli::build::{Book, ClassData, Job, Options, Remat, build};
    /// # use cundzeli::{BlockData, Flags, Inst, RegBank, RegClass, RegClassMask, UseKind};
    /// # let class = RegClass(0);
    /// # let book = Book::new(class, ClassData::new(RegClassMask(1)));
    /// # let mut job = Job::new(&book, Options::default(), BlockData::new(4, 1.0));
    /// # let value = job.value(RegBank(0), Remat::None);
    ///
    /// assert_ne!(job.value(RegBank(0), Remat::CheaperThanMove), value);
    /// assert!(build(&job).is_ok());
    /// job.value(RegBank(1), Remat::None);
    /// assert_eq!(build(&job).err(), Some(Refusal::BadBook), "there is no bank 1");
    /// ```
    pub fn value(&mut self, bank: RegBank, remat: Remat) -> Value {
        self.value_led_by(Value(self.values.count()), bank, remat)
    }

    /// The next value, in the set of another one that leads itself. The segments of a set never overlap.
    ///
    /// Both have one register:
    ///
    /// ```
    /// # use cundzeli::build::{Book, ClassData, Job, Options, Remat, build};
    /// # use cundzeli::{BlockData, Flags, Inst, RegBank, RegClass, RegClassMask, UseKind};
    /// # let class = RegClass(0);
    /// # let book = Book::new(class, ClassData::new(RegClassMask(1)));
    /// # let mut job = Job::new(&book, Options::default(), BlockData::new(4, 1.0));
    /// # let value = job.value(RegBank(0), Remat::None);
    /// let other = job.value_led_by(value, RegBank(0), Remat::None);
    /// job.segment(value, Inst(0).normal(), Inst(1).normal(), Flags::NONE);
    /// job.segment(other, Inst(1).normal(), Inst(3).normal(), Flags::NONE);
    /// let tables = build(&job)?;
    /// let pieces = tables.registers().map(|register| register.segments.len());
    /// assert_eq!(pieces.collect::<Vec<_>>(), [2]);
    /// # Ok::<(), cundzeli::Refusal>(())
    /// ```
    pub fn value_led_by(&mut self, leader: Value, bank: RegBank, remat: Remat) -> Value {
        Value(self.values.add([bank.0, leader.0, remat as u32]))
    }

    /// The next value group, of 2 to 8 members. Of more, the first 8 and their number are written, and refused (4).
    ///
    /// ```
    /// use cundzeli::Refusal;
    /// # use cundzeli::build::{Book, ClassData, Job, Options, Remat, build};
    /// # use cundzeli::{BlockData, Flags, Inst, RegBank, RegClass, RegClassMask, UseKind};
    /// # let class = RegClass(0);
    /// # let book = Book::new(class, ClassData::new(RegClassMask(1)));
    /// # let mut job = Job::new(&book, Options::default(), BlockData::new(4, 1.0));
    /// # let value = job.value(RegBank(0), Remat::None);
    ///
    /// for count in 0..12 {
    ///     let mut job = job.clone();
    ///     job.vgroup(&vec![value; count]);
    ///     let refused = !(2..=8).contains(&count);
    ///     assert_eq!(build(&job).err(), refused.then_some(Refusal::BadFunction));
    /// }
    /// ```
    pub fn vgroup(&mut self, members: &[Value]) -> ValueGroup {
        let mut row = [0; 1 + MEMBERS];
        row[0] = u32::try_from(members.len()).unwrap_or(u32::MAX);
        for (place, &member) in row[1..].iter_mut().zip(members) {
            *place = member.0;
        }
        ValueGroup(self.vgroups.add(row))
    }

    /// An operand that is a value group. No two have the same instruction and slot.
    ///
    /// ```
    /// use cundzeli::Refusal;
    /// use cundzeli::build::Operand;
    /// # use cundzeli::build::{Book, ClassData, Job, Options, Remat, build};
    /// # use cundzeli::{BlockData, Flags, Inst, RegBank, RegClass, RegClassMask, UseKind};
    /// # let mut book = Book::new(RegClass(0), ClassData::new(RegClassMask(0b11)));
    /// # let pairs = book.class(ClassData { group_size: 2, ..ClassData::new(RegClassMask(0b10)) });
    /// # let mut job = Job::new(&book, Options::default(), BlockData::new(4, 1.0));
    /// # let members = [(); 2].map(|()| job.value(RegBank(0), Remat::None));
    ///
    /// let vgroup = job.vgroup(&members);
    /// for slot in [0, 1] {
    ///     job.operand(Operand { inst: Inst(1), slot, vgroup, class: pairs });
    /// }
    /// assert!(build(&job).is_ok());
    /// job.operand(Operand { inst: Inst(1), slot: 0, vgroup, class: pairs });
    /// assert_eq!(build(&job).err(), Some(Refusal::BadFunction));
    /// ```
    pub fn operand(&mut self, operand: Operand) {
        let slot = u32::from(operand.slot);
        let (vgroup, class) = (operand.vgroup.0, operand.class.0);
        self.operands.add([operand.inst.0, slot, vgroup, class]);
    }

    /// A hint, behind those before it.
    ///
    /// Of the two pieces of a cut only that of the hint has the flag:
    ///
    /// ```
    /// use cundzeli::build::Hint;
    /// # use cundzeli::build::{Book, ClassData, Job, Options, Remat, build};
    /// # use cundzeli::{BlockData, Flags, Inst, RegBank, RegClass, RegClassMask, UseKind};
    /// # let mut book = Book::new(RegClass(0), ClassData::new(RegClassMask(0b111)));
    /// # let left = book.class(ClassData::new(RegClassMask(0b010)));
    /// # let right = book.class(ClassData::new(RegClassMask(0b100)));
    /// # let mut job = Job::new(&book, Options::default(), BlockData::new(4, 1.0));
    /// # let value = job.value(RegBank(0), Remat::None);
    ///
    /// job.hint(Hint { value, inst: Inst(0), incoming: true });
    /// job.segment(value, Inst(0).normal(), Inst(3).normal(), Flags::FIXED_HINT)
    ///     .add(Inst(0), UseKind::ClassDef { slot: 0, class: left })
    ///     .add(Inst(3), UseKind::ClassUse { slot: 0, class: right });
    /// let hints: Vec<bool> = build(&job)?.registers().map(|register| register.fixed_hint).collect();
    /// assert_eq!(hints, [true, false]);
    /// # Ok::<(), cundzeli::Refusal>(())
    /// ```
    pub fn hint(&mut self, hint: Hint) {
        let incoming = u32::from(hint.incoming);
        self.hints.add([hint.value.0, hint.inst.0, incoming]);
    }

    /// Begins a segment, and gives what its uses are added by. Segments go by set, in a set by their points.
    ///
    /// ```
    /// use cundzeli::Refusal;
    /// # use cundzeli::build::{Book, ClassData, Job, Options, Remat, build};
    /// # use cundzeli::{BlockData, Flags, Inst, RegBank, RegClass, RegClassMask, UseKind};
    /// # let class = RegClass(0);
    /// # let book = Book::new(class, ClassData::new(RegClassMask(1)));
    /// # let mut job = Job::new(&book, Options::default(), BlockData::new(4, 1.0));
    /// # let value = job.value(RegBank(0), Remat::None);
    ///
    /// job.segment(value, Inst(0).normal(), Inst(2).boundary(), Flags::LIVE_OUT);
    /// job.segment(value, Inst(3).boundary(), Inst(3).normal(), Flags::LIVE_IN);
    /// assert_eq!(build(&job)?.made().registers, 1);
    /// job.segment(value, Inst(1).boundary(), Inst(2).boundary(), Flags::NONE);
    /// assert_eq!(build(&job).err(), Some(Refusal::BadSegment), "it is behind the others");
    /// # Ok::<(), cundzeli::Refusal>(())
    /// ```
    pub fn segment(
        &mut self,
        value: Value,
        from: Point,
        to: Point,
        flags: Flags,
    ) -> SegmentUses<'_> {
        let (from, to, before) = (from.number(), to.number(), self.uses.count());
        self.segments.add([value.0, from, to, flags.bits(), before]);
        SegmentUses(&mut self.uses)
    }

    /// The tables in their order in the slice: how many rows, and their words.
    fn tables(&self) -> [(u32, &[u32]); 10] {
        [
            (self.book.banks.count(), self.book.banks.words()),
            (self.book.classes.count(), self.book.classes.words()),
            (self.book.regs.count(), self.book.regs.words()),
            (self.blocks.count(), self.blocks.words()),
            (self.values.count(), self.values.words()),
            (self.vgroups.count(), self.vgroups.words()),
            (self.operands.count(), self.operands.words()),
            (self.hints.count(), self.hints.words()),
            (self.segments.count(), self.segments.words()),
            (self.uses.count(), self.uses.words()),
        ]
    }

    /// The binary job (docs/TABLES.md).
    ///
    /// Fourteen words of header, then a bank, a class, a block and a value:
    ///
    /// ```
    /// # use cundzeli::build::{Book, ClassData, Job, Options, Remat, build};
    /// # use cundzeli::{BlockData, Flags, Inst, RegBank, RegClass, RegClassMask, UseKind};
    /// # let class = RegClass(0);
    /// # let book = Book::new(class, ClassData::new(RegClassMask(1)));
    /// # let mut job = Job::new(&book, Options::default(), BlockData::new(4, 1.0));
    /// # let value = job.value(RegBank(0), Remat::None);
    /// let bytes = job.bytes();
    /// assert_eq!(bytes.len(), 4 * (14 + 1 + 4 + 2 + 3));
    /// assert_eq!(bytes[..16], [1, 0, 0, 0, 1, 0, 0, 0, 0, 0, 0, 0, 1, 0, 0, 0]);
    /// ```
    pub fn bytes(&self) -> Vec<u8> {
        let mut bytes = Vec::new();
        self.write(&mut bytes);
        bytes
    }

    /// The binary job in place of what the vector holds.
    ///
    /// ```
    /// # use cundzeli::build::{Book, ClassData, Job, Options, Remat, build};
    /// # use cundzeli::{BlockData, Flags, Inst, RegBank, RegClass, RegClassMask, UseKind};
    /// # let class = RegClass(0);
    /// # let book = Book::new(class, ClassData::new(RegClassMask(1)));
    /// # let mut job = Job::new(&book, Options::default(), BlockData::new(4, 1.0));
    /// # let value = job.value(RegBank(0), Remat::None);
    /// let mut bytes = b"of another job".repeat(100);
    /// job.write(&mut bytes);
    /// assert_eq!(bytes, job.bytes());
    /// ```
    pub fn write(&self, bytes: &mut Vec<u8>) {
        bytes.clear();
        let tables = self.tables();
        let counts = tables.map(|(count, _)| count);
        let parts = tables.map(|(_, words)| words);
        let header = [&counts[..], &self.options.words()];
        for &word in header.into_iter().chain(parts).flatten() {
            bytes.extend_from_slice(&word.to_le_bytes());
        }
    }
}

/// The uses of the segment that was begun last.
///
/// ```
/// use cundzeli::build::{Book, ClassData, Job, Options, Remat, build};
/// use cundzeli::{BlockData, Flags, Inst, RegBank, RegClass, RegClassMask, UseKind};
///
/// let book = Book::new(RegClass(0), ClassData::new(RegClassMask(1)));
/// let mut job = Job::new(&book, Options::default(), BlockData::new(8, 1.0));
/// let value = job.value(RegBank(0), Remat::None);
/// let mut uses = job.segment(value, Inst(0).boundary(), Inst(7).normal(), Flags::LIVE_IN);
/// for inst in 0..8 {
///     uses.add(Inst(inst), UseKind::ClassUse { slot: 0, class: RegClass(0) });
/// }
/// let tables = build(&job)?;
/// assert_eq!(tables.segment(0).uses, 0..8);
/// # Ok::<(), cundzeli::Refusal>(())
/// ```
///
/// A job is given no conflict:
///
/// ```compile_fail,E0308
/// # use cundzeli::build::{Book, ClassData, Job, Options, Remat};
/// # use cundzeli::{BlockData, Flags, Inst, RegBank, RegClass, RegClassMask, Turned, UseKind};
/// # let book = Book::new(RegClass(0), ClassData::new(RegClassMask(1)));
/// # let mut job = Job::new(&book, Options::default(), BlockData::new(8, 1.0));
/// # let value = job.value(RegBank(0), Remat::None);
/// # let mut uses = job.segment(value, Inst(0).boundary(), Inst(7).normal(), Flags::LIVE_IN);
/// uses.add(Inst(0), UseKind::ConstraintConflict(Turned));
/// ```
#[derive(Debug)]
pub struct SegmentUses<'a>(&'a mut Table<6>);

impl SegmentUses<'_> {
    /// A use behind those before it. They go by instruction; those of one instruction in any order, which counts.
    ///
    /// ```
    /// use cundzeli::Refusal;
    /// # use cundzeli::build::{Book, ClassData, Job, Options, Remat, build};
    /// # use cundzeli::{BlockData, Flags, Inst, RegBank, RegClass, RegClassMask, UseKind};
    /// # let class = RegClass(0);
    /// # let book = Book::new(class, ClassData::new(RegClassMask(1)));
    /// # let mut job = Job::new(&book, Options::default(), BlockData::new(4, 1.0));
    /// # let value = job.value(RegBank(0), Remat::None);
    ///
    /// let refused = |first, second| {
    ///     let mut job = job.clone();
    ///     job.segment(value, Inst(0).boundary(), Inst(3).normal(), Flags::NONE)
    ///         .add(first, UseKind::ClassUse { slot: 0, class })
    ///         .add(second, UseKind::ClassUse { slot: 1, class });
    ///     build(&job).err()
    /// };
    /// assert_eq!(refused(Inst(2), Inst(2)), None);
    /// assert_eq!(refused(Inst(3), Inst(2)), Some(Refusal::BadUse));
    /// ```
    pub fn add(&mut self, inst: Inst, kind: UseKind<Infallible>) -> &mut Self {
        let [a, b, c, d] = kind.words();
        self.0.add([kind.number(), inst.0, a, b, c, d]);
        self
    }
}

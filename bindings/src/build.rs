//! The builder: `build_initial_vregs` over a job, into tables that grow as it needs.
//!
//! | Call | Job | Tables |
//! |---|---|---|
//! | [`build`] | a [`Job`] | made for the call |
//! | [`Builder::build`] | a [`Job`] | kept from call to call |
//! | [`build_binary`] | a binary job | lent, and grown as the job needs |
//! | [`build_in_rows`] | a binary job | lent, and grown to the rows that are named |
//! | [`build_in_bytes`] | any bytes | any bytes |
//!
//! The first three name the rows by [`Rows::for_job`], so that only what a job can need is set to zero.
//! A thread with 2 MB of stack is enough for every job.
//!
//! ```
//! use cundzeli::build::{Book, Builder, ClassData, Job, Options, Remat};
//! use cundzeli::{BlockData, Flags, Inst, RegBank, RegClass, RegClassMask, UseKind};
//!
//! let class = RegClass(0);
//! let book = Book::new(class, ClassData::new(RegClassMask::of([class])));
//! let mut builder = Builder::new();
//! for insts in [2, 4, 8] {
//!     let mut job = Job::new(&book, Options::default(), BlockData::new(insts, 1.0));
//!     let value = job.value(RegBank(0), Remat::None);
//!     job.segment(value, Inst(0).normal(), Inst(insts - 1).normal(), Flags::NONE)
//!         .add(Inst(0), UseKind::ClassDef { slot: 0, class })
//!         .add(Inst(insts - 1), UseKind::ClassUse { slot: 0, class });
//!     let tables = builder.build(&job)?;
//!     let weights: Vec<f32> = tables.registers().map(|register| register.weight).collect();
//!     assert_eq!(weights, [2.0 / insts as f32]);
//! }
//! # Ok::<(), cundzeli::Refusal>(())
//! ```

mod book;
mod job;
mod rows;
mod table;
mod tables;

use crate::Refusal;
use std::fmt;

pub use book::{Book, ClassData, Options};
pub use job::{Hint, Job, Operand, Remat, SegmentUses};
pub use rows::Rows;
pub use tables::{Group, GroupPlace, Origin, Register, Segment, Tables, Use};

/// The bytes of the work space, for the largest job that is accepted.
///
/// The space for any call in the usual rows:
///
/// ```
/// use cundzeli::build::{Rows, WORK};
///
/// assert_eq!(WORK + Rows::USUAL.bytes(), 571_400);
/// ```
pub const WORK: usize = 110_600;

#[repr(C)]
struct BuildEnd {
    number: u32,
    registers: u32,
    groups: u32,
}

impl BuildEnd {
    fn result(self) -> Result<Counts, Refusal> {
        match self.number {
            0 => Ok(Counts { registers: self.registers, groups: self.groups }),
            number => Err(Refusal::answered(number)),
        }
    }
}

unsafe extern "C" {
    /// A slice is its address and its length.
    fn build_initial_vregs(
        job: *const u8,
        job_length: usize,
        out: *mut u8,
        out_length: usize,
        registers: u32,
        segments: u32,
        uses: u32,
        groups: u32,
        work: *mut [u8; WORK],
    ) -> BuildEnd;
}

/// How many registers and groups were made.
///
/// A value without a segment has no register:
///
/// ```
/// use cundzeli::build::Counts;
/// # use cundzeli::build::{Book, ClassData, Job, Options, Remat, build};
/// # use cundzeli::{BlockData, Flags, Inst, RegBank, RegClass, RegClassMask, UseKind};
/// # let class = RegClass(0);
/// # let book = Book::new(class, ClassData::new(RegClassMask(1)));
/// # let mut job = Job::new(&book, Options::default(), BlockData::new(4, 1.0));
/// # let value = job.value(RegBank(0), Remat::None);
///
/// let _unused = job.value(RegBank(0), Remat::None);
/// job.segment(value, Inst(0).normal(), Inst(2).normal(), Flags::NONE);
/// assert_eq!(build(&job)?.made(), Counts { registers: 1, groups: 0 });
/// # Ok::<(), cundzeli::Refusal>(())
/// ```
#[derive(Clone, Copy, Debug, Default, PartialEq, Eq)]
pub struct Counts {
    /// Registers.
    pub registers: u32,
    /// Groups.
    pub groups: u32,
}

/// Space that the builder works in. One serves any number of calls; what it holds does not matter.
///
/// ```
/// use cundzeli::build::{Tables, Work, build_binary};
/// # use cundzeli::build::{Book, ClassData, Job, Options, Remat, build};
/// # use cundzeli::{BlockData, Flags, Inst, RegBank, RegClass, RegClassMask, UseKind};
/// # let class = RegClass(0);
/// # let book = Book::new(class, ClassData::new(RegClassMask(1)));
/// # let mut job = Job::new(&book, Options::default(), BlockData::new(4, 1.0));
/// # let value = job.value(RegBank(0), Remat::None);
/// # job.segment(value, Inst(0).normal(), Inst(2).normal(), Flags::NONE);
///
/// let (mut tables, mut work) = (Tables::new(), Work::new());
/// let first = build_binary(&job.bytes(), &mut tables, &mut work)?;
/// assert!(build_binary(b"no job", &mut tables, &mut work).is_err());
/// assert_eq!(build_binary(&job.bytes(), &mut tables, &mut work), Ok(first));
/// # Ok::<(), cundzeli::Refusal>(())
/// ```
pub struct Work(Box<[u8; WORK]>);

impl Work {
    /// Space for calls.
    ///
    /// ```
    /// use cundzeli::build::{Counts, Tables, Work, build_binary};
    /// # use cundzeli::build::{Book, ClassData, Job, Options, Remat, build};
    /// # use cundzeli::{BlockData, Flags, Inst, RegBank, RegClass, RegClassMask, UseKind};
    /// # let class = RegClass(0);
    /// # let book = Book::new(class, ClassData::new(RegClassMask(1)));
    /// # let mut job = Job::new(&book, Options::default(), BlockData::new(4, 1.0));
    /// # let value = job.value(RegBank(0), Remat::None);
    ///
    /// let made = build_binary(&job.bytes(), &mut Tables::new(), &mut Work::new());
    /// assert_eq!(made, Ok(Counts::default()), "a job without a segment");
    /// ```
    pub fn new() -> Self {
        let bytes = vec![0; WORK].into_boxed_slice();
        Self(bytes.try_into().expect("as many bytes as asked for"))
    }

    /// For trials: work space that holds these bytes.
    ///
    /// ```
    /// use cundzeli::build::{Tables, Work, build_binary};
    /// # use cundzeli::build::{Book, ClassData, Job, Options, Remat, build};
    /// # use cundzeli::{BlockData, Flags, Inst, RegBank, RegClass, RegClassMask, UseKind};
    /// # let class = RegClass(0);
    /// # let book = Book::new(class, ClassData::new(RegClassMask(1)));
    /// # let mut job = Job::new(&book, Options::default(), BlockData::new(4, 1.0));
    /// # let value = job.value(RegBank(0), Remat::None);
    /// # job.segment(value, Inst(0).normal(), Inst(2).normal(), Flags::NONE);
    ///
    /// let [mut clean, mut filled] = [Tables::new(), Tables::new()];
    /// let mut work = Work::new();
    /// build_binary(&job.bytes(), &mut clean, &mut work)?;
    /// work.bytes().fill(0xff);
    /// build_binary(&job.bytes(), &mut filled, &mut work)?;
    /// assert_eq!(clean.bytes(), filled.bytes());
    /// # Ok::<(), cundzeli::Refusal>(())
    /// ```
    pub fn bytes(&mut self) -> &mut [u8; WORK] {
        &mut self.0
    }
}

impl Default for Work {
    fn default() -> Self {
        Self::new()
    }
}

impl fmt::Debug for Work {
    fn fmt(&self, f: &mut fmt::Formatter<'_>) -> fmt::Result {
        f.write_str("Work")
    }
}

/// All that calls need, kept from one to the next: the binary job, the tables, the work space.
///
/// ```
/// use cundzeli::build::{Book, Builder, ClassData, Job, Options};
/// use cundzeli::{BlockData, Refusal, RegClass, RegClassMask};
///
/// let book = Book::new(RegClass(0), ClassData::new(RegClassMask(1)));
/// let mut builder = Builder::new();
/// let mut registers = |insts| {
///     let job = Job::new(&book, Options::default(), BlockData::new(insts, 1.0));
///     builder.build(&job).map(|tables| tables.made().registers)
/// };
/// assert_eq!(registers(0), Err(Refusal::BadFunction));
/// assert_eq!(registers(4096), Ok(0));
/// ```
#[derive(Debug, Default)]
pub struct Builder {
    job: Vec<u8>,
    tables: Tables,
    work: Work,
}

impl Builder {
    /// Space for calls. It grows with the jobs.
    ///
    /// ```
    /// use cundzeli::build::{Builder, Rows};
    ///
    /// assert_eq!(Builder::new().into_tables().rows(), Rows::NONE);
    /// ```
    pub fn new() -> Self {
        Self::default()
    }

    /// Builds the virtual registers of a job, in place of those before.
    ///
    /// # Errors
    ///
    /// By 2 to 9; never by 1.
    ///
    /// Of two definitions at one instruction that no class fits none can be turned. The builder serves on:
    ///
    /// ```
    /// use cundzeli::Refusal;
    /// use cundzeli::build::Builder;
    /// # use cundzeli::build::{Book, ClassData, Job, Options, Remat, build};
    /// # use cundzeli::{BlockData, Flags, Inst, RegBank, RegClass, RegClassMask, UseKind};
    /// # let mut book = Book::new(RegClass(0), ClassData::new(RegClassMask(0b111)));
    /// # let left = book.class(ClassData::new(RegClassMask(0b010)));
    /// # let right = book.class(ClassData::new(RegClassMask(0b100)));
    /// # let mut job = Job::new(&book, Options::default(), BlockData::new(4, 1.0));
    /// # let value = job.value(RegBank(0), Remat::None);
    /// # job.segment(value, Inst(0).normal(), Inst(2).normal(), Flags::NONE);
    ///
    /// let mut builder = Builder::new();
    /// assert_eq!(builder.build(&job)?.registers().len(), 1);
    /// let mut bad = job.clone();
    /// bad.segment(value, Inst(2).normal(), Inst(3).normal(), Flags::NONE)
    ///     .add(Inst(2), UseKind::ClassDef { slot: 0, class: left })
    ///     .add(Inst(2), UseKind::ClassDef { slot: 1, class: right });
    /// assert_eq!(builder.build(&bad).err(), Some(Refusal::Stopped));
    /// assert_eq!(builder.build(&job)?.registers().len(), 1);
    /// # Ok::<(), cundzeli::Refusal>(())
    /// ```
    pub fn build(&mut self, job: &Job) -> Result<&Tables, Refusal> {
        job.write(&mut self.job);
        build_binary(&self.job, &mut self.tables, &mut self.work)?;
        Ok(&self.tables)
    }

    /// The tables of the last build.
    ///
    /// ```
    /// use cundzeli::build::Builder;
    /// # use cundzeli::build::{Book, ClassData, Job, Options, Remat, build};
    /// # use cundzeli::{BlockData, Flags, Inst, RegBank, RegClass, RegClassMask, UseKind};
    /// # let class = RegClass(0);
    /// # let book = Book::new(class, ClassData::new(RegClassMask(1)));
    /// # let mut job = Job::new(&book, Options::default(), BlockData::new(4, 1.0));
    /// # let value = job.value(RegBank(0), Remat::None);
    ///
    /// let mut builder = Builder::new();
    /// assert_eq!(builder.build(&job)?.made().registers, 0);
    /// job.segment(value, Inst(0).normal(), Inst(2).normal(), Flags::NONE);
    /// builder.build(&job)?;
    /// assert_eq!(builder.into_tables().made().registers, 1);
    /// # Ok::<(), cundzeli::Refusal>(())
    /// ```
    pub fn into_tables(self) -> Tables {
        self.tables
    }
}

/// Builds the virtual registers of one job. For many jobs a [`Builder`] keeps its space.
///
/// # Errors
///
/// By 2 to 9; never by 1.
///
/// ```
/// use cundzeli::build::{Book, ClassData, Job, Options, build};
/// use cundzeli::{BlockData, Refusal, RegClass, RegClassMask};
///
/// let book = Book::new(RegClass(7), ClassData::new(RegClassMask(1)));
/// let job = Job::new(&book, Options::default(), BlockData::new(1, 1.0));
/// let refusal = build(&job).expect_err("a top class that is none");
/// assert_eq!(refusal, Refusal::BadBook);
/// ```
pub fn build(job: &Job) -> Result<Tables, Refusal> {
    let mut builder = Builder::new();
    builder.build(job)?;
    Ok(builder.into_tables())
}

/// Builds the virtual registers of a binary job (docs/TABLES.md), in [rows that its header names](Rows::for_job).
///
/// # Errors
///
/// By 1 where the bytes are no job, or by 2 to 9. Then the tables are empty.
///
/// ```
/// use cundzeli::Refusal;
/// use cundzeli::build::{Tables, Work, build_binary};
/// # use cundzeli::build::{Book, ClassData, Job, Options, Remat, build};
/// # use cundzeli::{BlockData, Flags, Inst, RegBank, RegClass, RegClassMask, UseKind};
/// # let class = RegClass(0);
/// # let book = Book::new(class, ClassData::new(RegClassMask(1)));
/// # let mut job = Job::new(&book, Options::default(), BlockData::new(4, 1.0));
/// # let value = job.value(RegBank(0), Remat::None);
/// # job.segment(value, Inst(0).normal(), Inst(2).normal(), Flags::NONE);
///
/// let mut bytes = job.bytes();
/// let (mut tables, mut work) = (Tables::new(), Work::new());
/// build_binary(&bytes, &mut tables, &mut work)?;
/// assert_eq!(tables.registers().len(), 1);
///
/// bytes.pop();
/// assert_eq!(build_binary(&bytes, &mut tables, &mut work), Err(Refusal::NotARecord));
/// assert_eq!(tables.registers().len(), 0);
/// # Ok::<(), cundzeli::Refusal>(())
/// ```
pub fn build_binary(job: &[u8], tables: &mut Tables, work: &mut Work) -> Result<Counts, Refusal> {
    build_in_rows(job, Rows::for_job(job), tables, work)
}

/// The same in rows that are named.
///
/// # Errors
///
/// As [`build_binary`]; by 9 where one of the numbers is too small.
///
/// ```
/// use cundzeli::build::{Book, ClassData, Job, Options, Remat, Rows, Tables, Work, build_in_rows};
/// use cundzeli::{BlockData, Flags, Inst, Refusal, RegBank, RegClass, RegClassMask};
///
/// let book = Book::new(RegClass(0), ClassData::new(RegClassMask(1)));
/// let mut job = Job::new(&book, Options::default(), BlockData::new(1, 1.0));
/// let value = job.value(RegBank(0), Remat::None);
/// job.segment(value, Inst(0).boundary(), Inst(1).boundary(), Flags::NONE);
///
/// let (mut tables, mut work) = (Tables::new(), Work::new());
/// let mut registers = |rows| {
///     let made = build_in_rows(&job.bytes(), rows, &mut tables, &mut work);
///     made.map(|made| made.registers)
/// };
/// assert_eq!(registers(Rows::USUAL), Ok(1));
/// assert_eq!(registers(Rows { segments: 0, ..Rows::USUAL }), Err(Refusal::Full));
/// ```
pub fn build_in_rows(
    job: &[u8],
    rows: Rows,
    tables: &mut Tables,
    work: &mut Work,
) -> Result<Counts, Refusal> {
    let counts = build_in_bytes(job, tables.lend(rows), rows, work)?;
    tables.fill(counts);
    Ok(counts)
}

/// The same over any bytes and numbers of rows: what is not in order, or has no room, is refused, and then `out` is
/// zero. `out` is cut from the front into the four tables; where it is too short a table has as many whole rows as are
/// left for it.
///
/// # Errors
///
/// By 1 to 9.
///
/// ```
/// use cundzeli::build::{Book, ClassData, Counts, Job, Options, Remat, Rows, Work, build_in_bytes};
/// use cundzeli::{BlockData, Flags, Inst, Refusal, RegBank, RegClass, RegClassMask};
///
/// let book = Book::new(RegClass(0), ClassData::new(RegClassMask(1)));
/// let mut job = Job::new(&book, Options::default(), BlockData::new(1, 1.0));
/// let value = job.value(RegBank(0), Remat::None);
/// job.segment(value, Inst(0).boundary(), Inst(1).boundary(), Flags::NONE);
///
/// let rows = Rows { registers: 1, segments: 1, uses: 0, groups: 0 };
/// let (mut out, mut work) = ([0xff; 60], Work::new());
/// let made = build_in_bytes(&job.bytes(), &mut out, rows, &mut work);
/// assert_eq!(made, Ok(Counts { registers: 1, groups: 0 }));
/// assert_eq!(out[8..12], f32::INFINITY.to_le_bytes());
///
/// let refused = build_in_bytes(&job.bytes(), &mut out[..59], rows, &mut work);
/// assert_eq!(refused, Err(Refusal::Full));
/// assert_eq!(out[..59], [0; 59]);
/// ```
pub fn build_in_bytes(
    job: &[u8],
    out: &mut [u8],
    rows: Rows,
    work: &mut Work,
) -> Result<Counts, Refusal> {
    // SAFETY: the function reads `job_length` bytes at `job`, and reads and writes `out_length` bytes at `out` and the
    // array at `work`. All three are borrowed for the call, and it keeps none of them. It is proved to stay inside
    // them, for all bytes and numbers.
    let end = unsafe {
        build_initial_vregs(
            job.as_ptr(),
            job.len(),
            out.as_mut_ptr(),
            out.len(),
            rows.registers,
            rows.segments,
            rows.uses,
            rows.groups,
            &mut *work.0,
        )
    };
    end.result()
}

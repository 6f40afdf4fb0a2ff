//! How many rows the result tables have.

/// Words in a row of each table.
pub(super) const REGISTER: usize = 8;
pub(super) const SEGMENT: usize = 7;
pub(super) const USE: usize = 6;
pub(super) const GROUP: usize = 9;

/// Places in a job's header.
const OPERANDS: usize = 6;
const SEGMENTS: usize = 8;
const USES: usize = 9;

/// How many rows each table has.
///
/// ```
/// use cundzeli::build::{Book, ClassData, Job, Options, Rows};
/// use cundzeli::{BlockData, RegClass, RegClassMask};
///
/// let book = Book::new(RegClass(0), ClassData::new(RegClassMask(1)));
/// let job = Job::new(&book, Options::default(), BlockData::new(8, 1.0));
/// assert_eq!(Rows::for_job(&job.bytes()).bytes(), 0);
/// assert_eq!(Rows::USUAL.bytes(), 460_800);
/// ```
#[derive(Clone, Copy, Debug, PartialEq, Eq)]
pub struct Rows {
    /// Registers.
    pub registers: u32,
    /// Pieces of registers.
    pub segments: u32,
    /// Uses of pieces.
    pub uses: u32,
    /// Groups.
    pub groups: u32,
}

impl Rows {
    /// No row: a job with a segment is then refused by 9.
    ///
    /// ```
    /// use cundzeli::Refusal;
    /// use cundzeli::build::{Rows, Tables, Work, build_in_rows};
    /// # use cundzeli::build::{Book, ClassData, Job, Options, Remat, build};
    /// # use cundzeli::{BlockData, Flags, Inst, RegBank, RegClass, RegClassMask, UseKind};
    /// # let class = RegClass(0);
    /// # let book = Book::new(class, ClassData::new(RegClassMask(1)));
    /// # let mut job = Job::new(&book, Options::default(), BlockData::new(4, 1.0));
    /// # let value = job.value(RegBank(0), Remat::None);
    ///
    /// let refused = |job: &Job| build_in_rows(&job.bytes(), Rows::NONE, &mut Tables::new(), &mut Work::new()).err();
    /// assert_eq!(refused(&job), None);
    /// job.segment(value, Inst(0).boundary(), Inst(1).boundary(), Flags::NONE);
    /// assert_eq!(refused(&job), Some(Refusal::Full));
    /// ```
    pub const NONE: Self = Self { registers: 0, segments: 0, uses: 0, groups: 0 };

    /// What the program `vregs` has.
    ///
    /// The greatest counts name them, and so no job's own rows are more:
    ///
    /// ```
    /// use cundzeli::build::Rows;
    ///
    /// assert_eq!(Rows::for_job(&[0xff; 40]), Rows::USUAL);
    /// ```
    pub const USUAL: Self = Self { registers: 4096, segments: 4096, uses: 8192, groups: 512 };

    /// Rows that are enough for a job wherever the [usual](Self::USUAL) ones are, and never more than these: with S
    /// segments, U uses and O operands in its header, S + U registers, S + U segments, 3 × U uses and O groups, each at
    /// most the usual number. In them **a job has the same answer as in the usual ones**, refusals included, and only
    /// they are set to zero in a call.
    ///
    /// They are never too few. Take a job that passes tests 1 to 7 (any other is refused in any room), and any moment
    /// of its build at which a register is to be placed: the registers placed so far and this one need no more rows.
    ///
    /// - *Turns and cuts together are at most U.* Each of them uses up a class use of its own. A turn turns a class use
    ///   that was not turned before, and a turned use is never turned again. A cut lies behind the start, which is a
    ///   class use that was not admitted and so is not turned; the part before the cut, with the start in it, holds
    ///   only uses that the forward scan admitted, so it is placed as it is and no later turn or cut concerns it. (Both
    ///   are proved in crates/definition/proofs/Fuel.antt: with every turn and every cut the class uses that are left
    ///   fall, and the part before a cut is always admitted.)
    /// - *A conflict register takes up at least one turned use*, which then is in no other: a round that admits none is
    ///   a stop. It has one piece.
    /// - *Registers*: one for each set that has a segment, at most S; one more for each cut; at most one for each turn.
    ///   A merge adds none. In all S + U.
    /// - *Segments*: a cut parts at most one segment in two, so pieces of the job's segments are at most S and one for
    ///   each cut; at most one for each turn. A merge moves pieces, and they count once. In all S + U.
    /// - *Uses*: each use of the job once in its own piece, as it was or turned; each turned one once more in a
    ///   conflict piece; at most one BlockparamIn for each conflict piece. In all U and twice the turns, at most 3 × U.
    /// - *Groups*: a register makes a group only where none of its group operands is mapped, and maps them all, at
    ///   least one. An operand stays mapped. In all O.
    ///
    /// So in S + U, S + U, 3 × U and O rows no table is ever full; and where the usual number stands in place of a
    /// greater one, that table is full at the same register as in the usual room. A job that is refused by 9 there may
    /// still be built in more rows by [`build_in_rows`](super::build_in_rows).
    ///
    /// The job is any bytes; of those that are no job the answer is 1 in any room.
    ///
    /// With one segment and two uses:
    ///
    /// ```
    /// use cundzeli::build::{Rows, Tables, Work, build_in_rows};
    /// # use cundzeli::build::{Book, ClassData, Job, Options, Remat, build};
    /// # use cundzeli::{BlockData, Flags, Inst, RegBank, RegClass, RegClassMask, UseKind};
    /// # let mut book = Book::new(RegClass(0), ClassData::new(RegClassMask(0b111)));
    /// # let left = book.class(ClassData::new(RegClassMask(0b010)));
    /// # let right = book.class(ClassData::new(RegClassMask(0b100)));
    /// # let mut job = Job::new(&book, Options::default(), BlockData::new(4, 1.0));
    /// # let value = job.value(RegBank(0), Remat::None);
    /// # job.segment(value, Inst(0).normal(), Inst(3).normal(), Flags::NONE)
    /// #     .add(Inst(0), UseKind::ClassDef { slot: 0, class: left })
    /// #     .add(Inst(3), UseKind::ClassUse { slot: 0, class: right });
    ///
    /// let bytes = job.bytes();
    /// let rows = Rows::for_job(&bytes);
    /// assert_eq!(rows, Rows { registers: 3, segments: 3, uses: 6, groups: 0 });
    /// let [own, usual] = [rows, Rows::USUAL]
    ///     .map(|rows| build_in_rows(&bytes, rows, &mut Tables::new(), &mut Work::new()));
    /// assert_eq!(own, usual);
    /// assert!(own.is_ok());
    /// assert_eq!(Rows::for_job(b"no job"), Rows::NONE);
    /// ```
    pub fn for_job(job: &[u8]) -> Self {
        let [operands, segments, uses] = [OPERANDS, SEGMENTS, USES].map(|place| word(job, place));
        let pieces = segments.saturating_add(uses);
        Self {
            registers: pieces.min(Self::USUAL.registers),
            segments: pieces.min(Self::USUAL.segments),
            uses: uses.saturating_mul(3).min(Self::USUAL.uses),
            groups: operands.min(Self::USUAL.groups),
        }
    }

    /// The bytes of tables with this many rows.
    ///
    /// ```
    /// use cundzeli::build::Rows;
    ///
    /// let rows = Rows { registers: 1, segments: 1, uses: 1, groups: 1 };
    /// assert_eq!(rows.bytes(), 4 * (8 + 7 + 6 + 9));
    /// ```
    pub fn bytes(self) -> usize {
        let words = self.registers as usize * REGISTER
            + self.segments as usize * SEGMENT
            + self.uses as usize * USE
            + self.groups as usize * GROUP;
        4 * words
    }
}

/// A word of a slice, 0 behind its end.
fn word(bytes: &[u8], place: usize) -> u32 {
    let word = bytes[bytes.len().min(4 * place)..].first_chunk();
    word.map_or(0, |&word| u32::from_le_bytes(word))
}

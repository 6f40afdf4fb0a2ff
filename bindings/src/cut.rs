//! The cut finder: `find_optimal_split_point` over a function's blocks.
//!
//! ```
//! use cundzeli::cut::{Blocks, Side, Work, find};
//! use cundzeli::{BlockData, Inst};
//!
//! let mut blocks = Blocks::new(BlockData::new(4, 3.0));
//! blocks.push(BlockData::new(4, 2.0));
//! blocks.push(BlockData::new(8, 2.0));
//! let mut work = Work::new();
//! let early = find(&blocks, Inst(1), Inst(13), Side::Early, &mut work)?;
//! let late = find(&blocks, Inst(1), Inst(13), Side::Late, &mut work)?;
//! assert_eq!((early, late), (Inst(4), Inst(13)));
//! # Ok::<(), cundzeli::Refusal>(())
//! ```

use crate::{BlockData, Inst, Refusal};
use std::fmt;

/// The bytes of the table of block starts, for the most blocks that are accepted.
///
/// ```
/// use cundzeli::cut::{Blocks, Side, WORK, Work, find};
/// use cundzeli::{BlockData, Inst, Refusal};
///
/// let cut = |count: usize| {
///     let mut blocks = Blocks::new(BlockData::new(8, 1.0));
///     (1..count).for_each(|_| blocks.push(BlockData::new(8, 1.0)));
///     find(&blocks, Inst(0), Inst(8), Side::Late, &mut Work::new())
/// };
/// assert_eq!(WORK, 4104);
/// assert_eq!(cut(512), Ok(Inst(8)));
/// assert_eq!(cut(513), Err(Refusal::OverALimit));
/// ```
pub const WORK: usize = 4104;

#[repr(C)]
struct Cut {
    number: u32,
    inst: u32,
}

unsafe extern "C" {
    /// A slice is its address and its length.
    fn find_optimal_split_point(
        blocks: *const u8,
        length: usize,
        after: u32,
        before: u32,
        side: u32,
        work: *mut [u8; WORK],
    ) -> Cut;
}

/// Which of the places of equal frequency is taken.
///
/// ```
/// use cundzeli::cut::{Blocks, Side, Work, find};
/// use cundzeli::{BlockData, Inst};
///
/// let mut blocks = Blocks::new(BlockData::new(4, 1.0));
/// blocks.push(BlockData::new(4, 1.0));
/// let cut = |side| find(&blocks, Inst(0), Inst(7), side, &mut Work::new());
/// assert_eq!(cut(Side::Early), Ok(Inst(1)));
/// assert_eq!(cut(Side::Late), Ok(Inst(7)));
/// ```
#[derive(Clone, Copy, Debug, PartialEq, Eq)]
pub enum Side {
    /// The earliest, by the blocks that begin there.
    Early,
    /// The latest, by the blocks that end there.
    Late,
}

impl Side {
    /// 0 for early, 1 for late.
    ///
    /// ```
    /// use cundzeli::BlockData;
    /// use cundzeli::cut::{Blocks, Side, Work, find_in_bytes};
    ///
    /// let blocks = Blocks::new(BlockData::new(4, 1.0));
    /// let cut = |side: Side| find_in_bytes(blocks.bytes(), 0, 3, side.number(), &mut Work::new());
    /// assert_eq!([Side::Early, Side::Late].map(Side::number), [0, 1]);
    /// assert_eq!([Side::Early, Side::Late].map(cut), [Ok(1), Ok(3)]);
    /// ```
    pub fn number(self) -> u32 {
        match self {
            Side::Early => 0,
            Side::Late => 1,
        }
    }
}

/// Space that the finder works in. One serves any number of calls; what it holds does not matter.
///
/// ```
/// use cundzeli::cut::{Blocks, Side, Work, find};
/// use cundzeli::{BlockData, Inst};
///
/// let blocks = Blocks::new(BlockData::new(10, 1.0));
/// let mut work = Work::new();
/// for before in 1..10 {
///     assert_eq!(find(&blocks, Inst(0), Inst(before), Side::Late, &mut work), Ok(Inst(before)));
/// }
/// ```
pub struct Work(Box<[u8; WORK]>);

impl Work {
    /// Space for calls.
    ///
    /// ```
    /// use cundzeli::cut::{Blocks, Side, Work, find};
    /// use cundzeli::{BlockData, Inst};
    ///
    /// let blocks = Blocks::new(BlockData::new(2, 1.0));
    /// assert_eq!(find(&blocks, Inst(0), Inst(1), Side::Early, &mut Work::new()), Ok(Inst(1)));
    /// ```
    pub fn new() -> Self {
        Self(Box::new([0; WORK]))
    }

    /// For trials: work space that holds these bytes.
    ///
    /// A call that is refused leaves it as it was:
    ///
    /// ```
    /// use cundzeli::cut::{Work, find_in_bytes};
    ///
    /// let mut work = Work::new();
    /// work.bytes().fill(7);
    /// assert!(find_in_bytes(&[], 0, 1, 0, &mut work).is_err());
    /// assert!(work.bytes().iter().all(|&byte| byte == 7));
    /// ```
    pub fn bytes(&mut self) -> &mut [u8; WORK] {
        &mut self.0
    }
}

impl Default for Work {
    fn default() -> Self {
        Self::new()
    }
}

impl fmt::Debug for Work {
    fn fmt(&self, f: &mut fmt::Formatter<'_>) -> fmt::Result {
        f.write_str("Work")
    }
}

/// A function's blocks in order, as rows of bytes: one at least.
///
/// The cut goes where the function is run least:
///
/// ```
/// use cundzeli::cut::{Blocks, Side, Work, find};
/// use cundzeli::{BlockData, Inst};
///
/// let mut blocks = Blocks::new(BlockData::new(4, 1.0));
/// for frequency in [8.0, 0.25, 8.0] {
///     blocks.push(BlockData::new(4, frequency));
/// }
/// assert_eq!(find(&blocks, Inst(1), Inst(14), Side::Early, &mut Work::new()), Ok(Inst(8)));
/// ```
#[derive(Clone, Debug)]
pub struct Blocks(Vec<u8>);

impl Blocks {
    /// The blocks of a function, begun with the first.
    ///
    /// ```
    /// use cundzeli::BlockData;
    /// use cundzeli::cut::Blocks;
    ///
    /// let blocks = Blocks::new(BlockData::new(3, 1.0));
    /// assert_eq!(blocks.bytes(), [3, 0, 0, 0, 0, 0, 0x80, 0x3f]);
    /// ```
    pub fn new(first: BlockData) -> Self {
        let mut blocks = Self(Vec::new());
        blocks.push(first);
        blocks
    }

    /// The next block.
    ///
    /// The limit is tested by a call, not here:
    ///
    /// ```
    /// use cundzeli::cut::{Blocks, Side, Work, find};
    /// use cundzeli::{BlockData, Inst, Refusal};
    ///
    /// let mut blocks = Blocks::new(BlockData::new(4096, 1.0));
    /// assert!(find(&blocks, Inst(0), Inst(9), Side::Early, &mut Work::new()).is_ok());
    /// blocks.push(BlockData::new(1, 1.0));
    /// let refused = find(&blocks, Inst(0), Inst(9), Side::Early, &mut Work::new());
    /// assert_eq!(refused, Err(Refusal::OverALimit));
    /// ```
    pub fn push(&mut self, block: BlockData) {
        self.0
            .extend(block.row().into_iter().flat_map(u32::to_le_bytes));
    }

    /// The rows.
    ///
    /// ```
    /// use cundzeli::BlockData;
    /// use cundzeli::cut::Blocks;
    ///
    /// let mut blocks = Blocks::new(BlockData::new(1, 1.0));
    /// blocks.push(BlockData::new(2, 0.5));
    /// let counts = blocks.bytes().chunks(8).map(|row| row[0]);
    /// assert_eq!(counts.collect::<Vec<_>>(), [1, 2]);
    /// ```
    pub fn bytes(&self) -> &[u8] {
        &self.0
    }
}

/// The instruction before which a cut between `after` and `before` is best made.
///
/// # Errors
///
/// By 2 for more than 512 blocks or 4,096 instructions; by 4 for a block that is empty or of bad frequency and for ends
/// that are not `after` < `before` < instructions. Never by 1: the blocks are whole rows, one at least, and a side is
/// on its list.
///
/// ```
/// use cundzeli::cut::{Blocks, Side, Work, find};
/// use cundzeli::{BlockData, Inst, Refusal};
///
/// let mut blocks = Blocks::new(BlockData::new(4, 1.0));
/// blocks.push(BlockData::new(4, 0.5));
/// let mut work = Work::new();
/// let mut cut = |after, before| find(&blocks, Inst(after), Inst(before), Side::Early, &mut work);
/// assert_eq!(cut(0, 3), Ok(Inst(1)));
/// assert_eq!(cut(0, 6), Ok(Inst(4)));
/// assert_eq!(cut(3, 3), Err(Refusal::BadFunction));
/// assert_eq!(cut(3, 8), Err(Refusal::BadFunction));
/// ```
pub fn find(
    blocks: &Blocks,
    after: Inst,
    before: Inst,
    side: Side,
    work: &mut Work,
) -> Result<Inst, Refusal> {
    find_in_bytes(blocks.bytes(), after.0, before.0, side.number(), work).map(Inst)
}

/// The same over any bytes and numbers. A row of a block is two little-endian words, instruction count and bits of the
/// frequency; side 0 is early, 1 late.
///
/// # Errors
///
/// As [`find`], and by 1 for a side off its list, for bytes that are not whole rows, and for no block.
///
/// ```
/// use cundzeli::Refusal;
/// use cundzeli::cut::{Work, find_in_bytes};
///
/// // Two blocks of 4 and 2 instructions, run 1.0 and 0.5 times.
/// let rows = [4, 0x3f80_0000, 2, 0x3f00_0000].map(u32::to_le_bytes);
/// let bytes = rows.as_flattened();
/// let mut work = Work::new();
/// assert_eq!(find_in_bytes(bytes, 0, 5, 0, &mut work), Ok(4));
/// assert_eq!(find_in_bytes(bytes, 0, 5, 2, &mut work), Err(Refusal::NotARecord));
/// assert_eq!(find_in_bytes(&bytes[1..], 0, 5, 0, &mut work), Err(Refusal::NotARecord));
/// ```
pub fn find_in_bytes(
    bytes: &[u8],
    after: u32,
    before: u32,
    side: u32,
    work: &mut Work,
) -> Result<u32, Refusal> {
    // SAFETY: the function reads `length` bytes at `blocks` and reads and writes the array at `work`. Both are
    // borrowed for the call, and it keeps neither. It is proved to stay inside them, for all bytes and numbers.
    let cut = unsafe {
        find_optimal_split_point(
            bytes.as_ptr(),
            bytes.len(),
            after,
            before,
            side,
            &mut *work.0,
        )
    };
    match cut.number {
        0 => Ok(cut.inst),
        number => Err(Refusal::answered(number)),
    }
}

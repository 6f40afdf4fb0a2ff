//! What would move a cut: each block whose frequency by itself could do so, with the way and the fewest steps.
//!
//! A step is one bit pattern of an `f32`: from a frequency to the next one that there is. The cut moves if
//! [`find`](crate::cut::find), asked again, answers another instruction.
//!
//! ```
//! use cundzeli::cut::{Blocks, Side, Work};
//! use cundzeli::moves::{Move, MoveList, Way, moves};
//! use cundzeli::{Block, BlockData, Inst};
//!
//! let mut blocks = Blocks::new(BlockData::new(4, 3.0));
//! blocks.push(BlockData::new(4, 2.0));
//! blocks.push(BlockData::new(8, 2.0));
//! let (mut list, mut work) = (MoveList::new(3), Work::new());
//! let early = moves(&blocks, Inst(1), Inst(13), Side::Early, &mut list, &mut work)?;
//! let expected = [
//!     Move { block: Block(1), way: Way::Up, steps: 1 },
//!     Move { block: Block(2), way: Way::Down, steps: 1 },
//!     Move { block: Block(0), way: Way::Down, steps: 4_194_304 },
//! ];
//! assert_eq!(early, expected);
//! # Ok::<(), cundzeli::Refusal>(())
//! ```

use crate::cut::{Blocks, Side, WORK, Work};
use crate::{Block, Inst, Refusal};

/// The bytes of a row of the list: three little-endian words, the block, the number of the way and the steps.
///
/// ```
/// use cundzeli::moves::{MoveList, ROW};
///
/// assert_eq!(ROW, 12);
/// assert_eq!(MoveList::new(7).bytes().len(), 7 * ROW);
/// ```
pub const ROW: usize = 12;

/// The most blocks that are accepted.
const MOST_BLOCKS: usize = 512;

/// The pattern of the greatest frequency.
const GREATEST: u32 = f32::MAX.to_bits();

/// The two words that the exported function answers: number 0 and how many rows the list has, or the number of a
/// refusal and 0.
///
/// ```
/// use cundzeli::cut::Work;
/// use cundzeli::moves::{MovesEnd, end_in_bytes};
///
/// let end = end_in_bytes(&[], 0, 1, 0, &mut [], &mut Work::new());
/// assert_eq!(end, MovesEnd { number: 1, count: 0 });
/// ```
#[derive(Clone, Copy, Debug, PartialEq, Eq)]
#[repr(C)]
pub struct MovesEnd {
    /// 0, or the number of a refusal.
    pub number: u32,
    /// The rows of the list.
    pub count: u32,
}

unsafe extern "C" {
    /// A slice is its address and its length.
    fn find_cut_moves(
        blocks: *const u8,
        blocks_length: usize,
        after: u32,
        before: u32,
        side: u32,
        list: *mut u8,
        list_length: usize,
        work: *mut [u8; WORK],
    ) -> MovesEnd;
}

/// Which way a frequency goes to move a cut.
///
/// The block that the cut was judged by goes up, until another one is taken; any other goes down, until it is taken:
///
/// ```
/// use cundzeli::cut::{Blocks, Side, Work};
/// use cundzeli::moves::{MoveList, Way, moves};
/// use cundzeli::{Block, BlockData, Inst};
///
/// let mut blocks = Blocks::new(BlockData::new(4, 2.0));
/// blocks.push(BlockData::new(4, 1.0));
/// let mut list = MoveList::new(2);
/// let found = moves(&blocks, Inst(0), Inst(7), Side::Early, &mut list, &mut Work::new())?;
/// let ways: Vec<_> = found.iter().map(|found| (found.block, found.way)).collect();
/// assert_eq!(ways, [(Block(0), Way::Down), (Block(1), Way::Up)]);
/// # Ok::<(), cundzeli::Refusal>(())
/// ```
#[derive(Clone, Copy, Debug, PartialEq, Eq, Hash)]
pub enum Way {
    /// To a greater frequency.
    Up,
    /// To a lesser one.
    Down,
}

impl Way {
    /// 0 for up, 1 for down.
    ///
    /// ```
    /// use cundzeli::moves::Way;
    ///
    /// assert_eq!([Way::Up, Way::Down].map(Way::number), [0, 1]);
    /// ```
    pub fn number(self) -> u32 {
        match self {
            Way::Up => 0,
            Way::Down => 1,
        }
    }

    /// The way of a number in a row. Panics for one that an archive can't write.
    fn written(number: u32) -> Self {
        let ways = [Way::Up, Way::Down];
        let known = ways.into_iter().find(|way| way.number() == number);
        known.unwrap_or_else(|| panic!("way {number}: the archive is of another version"))
    }
}

/// A block whose frequency by itself could move a cut.
///
/// ```
/// use cundzeli::Block;
/// use cundzeli::moves::{Move, Way};
///
/// let found = Move { block: Block(0), way: Way::Down, steps: 0x0080_0000 };
/// assert_eq!(found.target(2.0), 1.0, "from a power of two to the next, in the bits of the exponent");
/// ```
#[derive(Clone, Copy, Debug, PartialEq, Eq, Hash)]
pub struct Move {
    /// The block.
    pub block: Block,
    /// The way that its frequency has to go.
    pub way: Way,
    /// The fewest steps that move the cut: 1 at least. Any more, as far as there are frequencies, move it too.
    pub steps: u32,
}

impl Move {
    /// The frequency that the steps lead to from the block's own one: the nearest that moves the cut.
    ///
    /// # Panics
    ///
    /// If they lead to no frequency, from zero up to the greatest `f32`. From the frequency that the block had in the
    /// call they always lead to one.
    ///
    /// ```
    /// use cundzeli::cut::{Blocks, Side, Work, find};
    /// use cundzeli::moves::{MoveList, moves};
    /// use cundzeli::{BlockData, Inst};
    ///
    /// let rows = [2.0, 1.5, 1.75];
    /// let function = |rows: [f32; 3]| {
    ///     let [first, second, third] = rows.map(|frequency| BlockData::new(4, frequency));
    ///     let mut blocks = Blocks::new(first);
    ///     blocks.push(second);
    ///     blocks.push(third);
    ///     blocks
    /// };
    /// let cut = |rows| find(&function(rows), Inst(0), Inst(11), Side::Early, &mut Work::new());
    /// let mut list = MoveList::new(3);
    /// let found = moves(&function(rows), Inst(0), Inst(11), Side::Early, &mut list, &mut Work::new())?;
    /// for found in found {
    ///     let mut changed = rows;
    ///     let frequency = &mut changed[found.block.0 as usize];
    ///     *frequency = found.target(*frequency);
    ///     assert_ne!(cut(changed)?, cut(rows)?);
    /// }
    /// # Ok::<(), cundzeli::Refusal>(())
    /// ```
    pub fn target(self, own: f32) -> f32 {
        let bits = match self.way {
            Way::Up => own.to_bits().checked_add(self.steps),
            Way::Down => own.to_bits().checked_sub(self.steps),
        };
        let known = bits.filter(|&bits| bits <= GREATEST);
        f32::from_bits(known.expect("no frequency so many steps away"))
    }

    /// The move of a row.
    fn of_row(row: &[u8]) -> Self {
        let words = row.as_chunks().0;
        let [block, way, steps] = [0, 1, 2].map(|place| u32::from_le_bytes(words[place]));
        Self { block: Block(block), way: Way::written(way), steps }
    }
}

/// The list that a call is lent, a row for each block. One serves any number of calls; what it holds does not matter.
///
/// A call needs as many rows as the function has blocks, however few could move the cut:
///
/// ```
/// use cundzeli::cut::{Blocks, Side, Work};
/// use cundzeli::moves::{MoveList, moves};
/// use cundzeli::{BlockData, Inst, Refusal};
///
/// let mut blocks = Blocks::new(BlockData::new(4, 1.0));
/// blocks.push(BlockData::new(4, 1.0));
/// let among = |mut list| moves(&blocks, Inst(0), Inst(2), Side::Early, &mut list, &mut Work::new());
/// assert_eq!(among(MoveList::new(2)), Ok(vec![]), "both ends are in one block");
/// assert_eq!(among(MoveList::new(1)), Err(Refusal::Full));
/// ```
#[derive(Clone, Debug)]
pub struct MoveList(Vec<u8>);

impl MoveList {
    /// A list for the blocks of a function, so many.
    ///
    /// ```
    /// use cundzeli::BlockData;
    /// use cundzeli::cut::Blocks;
    /// use cundzeli::moves::MoveList;
    ///
    /// let blocks = Blocks::new(BlockData::new(4, 1.0));
    /// let mut list = MoveList::new(blocks.bytes().len() / 8);
    /// assert_eq!(list.bytes(), [0; 12]);
    /// ```
    pub fn new(blocks: usize) -> Self {
        Self::of_bytes(ROW * blocks)
    }

    /// For trials: a list of any length in bytes. Those behind the last whole row are set to zero by a call.
    ///
    /// ```
    /// use cundzeli::cut::{Blocks, Side, Work};
    /// use cundzeli::moves::{MoveList, moves};
    /// use cundzeli::{BlockData, Inst, Refusal};
    ///
    /// let blocks = Blocks::new(BlockData::new(4, 1.0));
    /// let among = |list: &mut MoveList| moves(&blocks, Inst(0), Inst(2), Side::Late, list, &mut Work::new());
    /// assert_eq!(among(&mut MoveList::of_bytes(11)), Err(Refusal::Full));
    /// let mut list = MoveList::of_bytes(13);
    /// list.bytes().fill(7);
    /// assert_eq!(among(&mut list), Ok(vec![]), "there is no other block to be taken");
    /// assert_eq!(list.bytes(), [0; 13]);
    /// ```
    pub fn of_bytes(length: usize) -> Self {
        Self(vec![0; length])
    }

    /// For trials: the bytes of the list.
    ///
    /// ```
    /// use cundzeli::cut::{Blocks, Side, Work};
    /// use cundzeli::moves::{MoveList, moves};
    /// use cundzeli::{BlockData, Inst};
    ///
    /// let mut blocks = Blocks::new(BlockData::new(1, 0.0));
    /// blocks.push(BlockData::new(1, 0.0));
    /// blocks.push(BlockData::new(1, 0.0));
    /// let mut list = MoveList::new(3);
    /// moves(&blocks, Inst(0), Inst(2), Side::Early, &mut list, &mut Work::new())?;
    /// // Block 1, up, one step: block 2 has no frequency below zero to go to.
    /// assert_eq!(list.bytes()[..12], [1, 0, 0, 0, 0, 0, 0, 0, 1, 0, 0, 0]);
    /// assert_eq!(list.bytes()[12..], [0; 24]);
    /// # Ok::<(), cundzeli::Refusal>(())
    /// ```
    pub fn bytes(&mut self) -> &mut [u8] {
        &mut self.0
    }
}

/// A list for any function that is accepted.
///
/// ```
/// use cundzeli::moves::{MoveList, ROW};
///
/// assert_eq!(MoveList::default().bytes().len(), 512 * ROW);
/// ```
impl Default for MoveList {
    fn default() -> Self {
        Self::new(MOST_BLOCKS)
    }
}

/// Each block whose frequency by itself could move the cut that [`find`](crate::cut::find) answers, from the fewest
/// steps, those of equal steps by rising block. A block that is not named can't, by any frequency; if none is named,
/// no block can.
///
/// # Errors
///
/// By 2 and 4 where [`find`](crate::cut::find) is refused so; by 9, after these, for a list with fewer rows than the
/// function has blocks. Never by 1, as there.
///
/// ```
/// use cundzeli::cut::{Blocks, Side, Work};
/// use cundzeli::moves::{Move, MoveList, Way, moves};
/// use cundzeli::{Block, BlockData, Inst, Refusal};
///
/// let mut blocks = Blocks::new(BlockData::new(4, 1.0));
/// blocks.push(BlockData::new(4, 0.5));
/// let (mut list, mut work) = (MoveList::default(), Work::new());
/// let mut among =
///     |after, before| moves(&blocks, Inst(after), Inst(before), Side::Late, &mut list, &mut work);
/// // At equal frequencies block 1 is taken, so block 0 has to go below it, or block 1 above block 0.
/// let steps = 1.0_f32.to_bits() - 0.5_f32.to_bits() + 1;
/// let expected = vec![
///     Move { block: Block(0), way: Way::Down, steps },
///     Move { block: Block(1), way: Way::Up, steps },
/// ];
/// assert_eq!(among(0, 7), Ok(expected));
/// assert_eq!(among(0, 4), Ok(vec![]), "every place up to there is judged by block 0");
/// assert_eq!(among(4, 4), Err(Refusal::BadFunction));
/// ```
pub fn moves(
    blocks: &Blocks,
    after: Inst,
    before: Inst,
    side: Side,
    list: &mut MoveList,
    work: &mut Work,
) -> Result<Vec<Move>, Refusal> {
    let (bytes, list) = (blocks.bytes(), list.bytes());
    let count = moves_in_bytes(bytes, after.0, before.0, side.number(), list, work)?;
    let rows = &list[..ROW * count as usize];
    Ok(rows.chunks_exact(ROW).map(Move::of_row).collect())
}

/// The same over any bytes and numbers, and in any bytes: how many rows the list has then. A row of a block is as for
/// [`find_in_bytes`](crate::cut::find_in_bytes), and so is a side; a row of the list is three little-endian words,
/// block, way (0 up, 1 down) and steps.
///
/// The rows stand at the front, and every byte behind them is zero; after a refusal all bytes are.
///
/// # Errors
///
/// As [`moves`], and by 1 for a side off its list, for bytes that are not whole rows, and for no block.
///
/// ```
/// use cundzeli::Refusal;
/// use cundzeli::cut::Work;
/// use cundzeli::moves::moves_in_bytes;
///
/// // Two blocks of 4 and 2 instructions, run 1.0 and 0.5 times.
/// let rows = [4, 0x3f80_0000, 2, 0x3f00_0000].map(u32::to_le_bytes);
/// let (mut list, mut work) = ([7; 25], Work::new());
/// assert_eq!(moves_in_bytes(rows.as_flattened(), 0, 5, 0, &mut list, &mut work), Ok(2));
/// // Block 0 down by 0080_0000 steps, block 1 up by as many.
/// assert_eq!(list[..12], [0, 0, 0, 0, 1, 0, 0, 0, 0, 0, 0x80, 0]);
/// assert_eq!(list[12..24], [1, 0, 0, 0, 0, 0, 0, 0, 0, 0, 0x80, 0]);
/// assert_eq!(list[24], 0);
/// let refused = moves_in_bytes(rows.as_flattened(), 0, 5, 0, &mut list[..23], &mut work);
/// assert_eq!((refused, list), (Err(Refusal::Full), [0; 25]));
/// ```
pub fn moves_in_bytes(
    bytes: &[u8],
    after: u32,
    before: u32,
    side: u32,
    list: &mut [u8],
    work: &mut Work,
) -> Result<u32, Refusal> {
    let end = end_in_bytes(bytes, after, before, side, list, work);
    match end.number {
        0 => Ok(end.count),
        number => Err(Refusal::answered(number)),
    }
}

/// For trials: the same call, and its two words as they are answered.
///
/// ```
/// use cundzeli::cut::Work;
/// use cundzeli::moves::{MovesEnd, end_in_bytes};
///
/// let rows = [4, 0x3f80_0000].map(u32::to_le_bytes);
/// let mut end =
///     |before, list: &mut [u8]| end_in_bytes(rows.as_flattened(), 0, before, 0, list, &mut Work::new());
/// assert_eq!(end(3, &mut [7; 12]), MovesEnd { number: 0, count: 0 });
/// assert_eq!(end(4, &mut [7; 12]), MovesEnd { number: 4, count: 0 });
/// assert_eq!(end(3, &mut [7; 11]), MovesEnd { number: 9, count: 0 });
/// ```
pub fn end_in_bytes(
    bytes: &[u8],
    after: u32,
    before: u32,
    side: u32,
    list: &mut [u8],
    work: &mut Work,
) -> MovesEnd {
    // SAFETY: the function reads `blocks_length` bytes at `blocks`, and reads and writes `list_length` bytes at `list`
    // and the array at `work`. All are borrowed for the call, those that are written for it alone, and it keeps none.
    // It is proved to stay inside them, for all bytes and numbers.
    unsafe {
        find_cut_moves(
            bytes.as_ptr(),
            bytes.len(),
            after,
            before,
            side,
            list.as_mut_ptr(),
            list.len(),
            work.bytes(),
        )
    }
}

#[cfg(test)]
mod tests {
    use super::{Move, Way};
    use crate::Block;

    #[test]
    #[should_panic(expected = "way 2: the archive is of another version")]
    fn a_way_that_is_not_known_is_not_lost() {
        Way::written(2);
    }

    #[test]
    #[should_panic(expected = "no frequency so many steps away")]
    fn there_is_nothing_above_the_greatest_frequency() {
        Move { block: Block(0), way: Way::Up, steps: 1 }.target(f32::MAX);
    }

    #[test]
    #[should_panic(expected = "no frequency so many steps away")]
    fn there_is_nothing_below_zero() {
        Move { block: Block(0), way: Way::Down, steps: 1 }.target(0.0);
    }
}

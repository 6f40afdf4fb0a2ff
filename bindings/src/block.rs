//! A block, as all modules take it.

/// A block of a function.
///
/// ```
/// use cundzeli::BlockData;
///
/// let block = BlockData { insts: 2, frequency: 0.5 };
/// assert_eq!(block, BlockData::new(2, 0.5));
/// ```
#[derive(Clone, Copy, Debug, PartialEq)]
pub struct BlockData {
    /// How many instructions it has: 1 at least, 4,096 at most in all blocks together.
    pub insts: u32,
    /// How often it is run: finite, not negative, no minus zero.
    pub frequency: f32,
}

impl BlockData {
    /// A block of so many instructions, run so often.
    ///
    /// ```
    /// use cundzeli::cut::{Blocks, Side, Work, find};
    /// use cundzeli::{BlockData, Inst, Refusal};
    ///
    /// let cut = |block| find(&Blocks::new(block), Inst(0), Inst(1), Side::Early, &mut Work::new());
    /// assert_eq!(cut(BlockData::new(2, 0.0)), Ok(Inst(1)));
    /// assert_eq!(cut(BlockData::new(2, -0.0)), Err(Refusal::BadFunction));
    /// ```
    pub fn new(insts: u32, frequency: f32) -> Self {
        Self { insts, frequency }
    }

    /// Its row, in a job and before the cut finder.
    pub(crate) fn row(self) -> [u32; 2] {
        [self.insts, self.frequency.to_bits()]
    }
}

//! A table of a job: rows of words.

/// Rows of `W` words, at most `u32::MAX` of them.
#[derive(Clone, Debug)]
pub(super) struct Table<const W: usize>(Vec<[u32; W]>);

impl<const W: usize> Table<W> {
    pub(super) fn new() -> Self {
        Self(Vec::new())
    }

    /// Adds a row and gives its number. Panics where the number of rows would not fit a word of the header.
    pub(super) fn add(&mut self, row: [u32; W]) -> u32 {
        let number = self.count();
        assert!(number < u32::MAX, "more rows than a job can count");
        self.0.push(row);
        number
    }

    pub(super) fn count(&self) -> u32 {
        self.0.len() as u32
    }

    pub(super) fn words(&self) -> &[u32] {
        self.0.as_flattened()
    }
}

//! The numbers that a call is refused by.

use std::error::Error;
use std::fmt;

/// Why a job or a query was refused. One enum for all modules: [`cut`](crate::cut) gives 1, 2 and 4,
/// [`moves`](crate::moves) these and 9, [`build`](crate::build) all nine. After a refusal every result table is empty
/// and the job is as it was.
///
/// The tests go by number, the lowest that applies is given; 8 and 9 come as they are met while registers are placed.
/// Later versions may have more numbers.
///
/// The functions are proved to answer no other number than these and 0. An archive that did would be of another
/// version, so nothing that it says could be read: such a call panics, naming the number.
///
/// ```
/// use cundzeli::Refusal;
///
/// let refusal = Refusal::try_from(2)?;
/// assert_eq!(refusal, Refusal::OverALimit);
/// assert_eq!(refusal.number(), 2);
/// assert_eq!(refusal.to_string(), "refused by 2: a count or k above its limit");
/// assert_eq!(Refusal::try_from(0).unwrap_err().to_string(), "0 is the number of no refusal");
/// # Ok::<(), cundzeli::UnknownNumber>(())
/// ```
#[derive(Clone, Copy, Debug, PartialEq, Eq, PartialOrd, Ord, Hash)]
#[non_exhaustive]
#[repr(u32)]
pub enum Refusal {
    /// 1: not the form of a job. What the types of this crate express is never refused by it; bytes may be.
    NotARecord = 1,
    /// 2: a count or k above its limit.
    OverALimit = 2,
    /// 3: the register book, a value's bank or a scale.
    BadBook = 3,
    /// 4: a block, a leader, a value group or an operand; or the ends of a cut.
    BadFunction = 4,
    /// 5: a hint.
    BadHint = 5,
    /// 6: a segment.
    BadSegment = 6,
    /// 7: a use.
    BadUse = 7,
    /// 8: a sound job to which the rules give no registers.
    Stopped = 8,
    /// 9: the result needs more rows than a table has; or a list of moves has fewer rows than there are blocks.
    Full = 9,
}

/// Every refusal, by rising number.
const ALL: [Refusal; 9] = [
    Refusal::NotARecord,
    Refusal::OverALimit,
    Refusal::BadBook,
    Refusal::BadFunction,
    Refusal::BadHint,
    Refusal::BadSegment,
    Refusal::BadUse,
    Refusal::Stopped,
    Refusal::Full,
];

/// The cause of each, in the words of document 01.
const CAUSES: [&str; 9] = [
    "line not a record, unknown kind, wrong order, number form, choice off its list",
    "a count or k above its limit",
    "unknown top class, value's bank or mask bit; bad cost, scale; group size not 1 to 8; class of size 2 or more \
     with a subclass of another size",
    "block empty or of bad frequency; leader not leading itself; vgroup not 2 to 8 known values; operand twice, out \
     of range, or class size not the vgroup's; cut ends not `after` < `before` < instructions",
    "hint's value unknown, instruction above the count; keys falling",
    "segment empty, of no value, slot 3, past the last instruction, overlapping or unsorted in its set; sets not \
     rising",
    "use falling in position, unknown instruction, class or register, field beyond its UseKind type, kind 3; `from` \
     not below the next Boundary, or `end_point` above `to`; group use without its operand, of another class, or \
     whose index has no member or another value",
    "a stop: no start in the backward scan; the use to turn is a definition; conflict uses of one instruction differ \
     in value; one operand mapped twice; an old piece of a merged register ends after the first new piece starts and \
     starts before the last new one ends; a round that admits none of the conflict uses left",
    "a register to be placed, with its pieces, their uses and new group, overfills a lent table (merging adds no \
     register; moved pieces count once)",
];

impl Refusal {
    /// Every refusal, by rising number.
    ///
    /// ```
    /// use cundzeli::Refusal;
    ///
    /// for &refusal in Refusal::all() {
    ///     assert_eq!(Refusal::try_from(refusal.number()), Ok(refusal));
    /// }
    /// ```
    pub fn all() -> &'static [Refusal] {
        &ALL
    }

    /// Its number, from 1.
    ///
    /// ```
    /// use cundzeli::Refusal;
    ///
    /// assert_eq!((Refusal::NotARecord.number(), Refusal::Full.number()), (1, 9));
    /// assert!(Refusal::BadBook < Refusal::BadUse, "they are in the order of their numbers");
    /// ```
    pub fn number(self) -> u32 {
        self as u32
    }

    /// All causes that it is given for.
    ///
    /// ```
    /// use cundzeli::Refusal;
    ///
    /// assert!(Refusal::BadHint.causes().starts_with("hint's value unknown"));
    /// assert!(Refusal::Stopped.to_string().ends_with(Refusal::Stopped.causes()));
    /// ```
    pub fn causes(self) -> &'static str {
        CAUSES[self as usize - 1]
    }

    /// The refusal of a number that an archive answered. Panics for one that it can't answer.
    pub(crate) fn answered(number: u32) -> Self {
        let known = Self::try_from(number);
        known.unwrap_or_else(|unknown| panic!("{unknown}: the archive is of another version"))
    }
}

impl fmt::Display for Refusal {
    fn fmt(&self, f: &mut fmt::Formatter<'_>) -> fmt::Result {
        write!(f, "refused by {}: {}", self.number(), self.causes())
    }
}

impl Error for Refusal {}

/// A number that no refusal has.
///
/// ```
/// use cundzeli::{Refusal, UnknownNumber};
///
/// assert_eq!(Refusal::try_from(10), Err(UnknownNumber(10)));
/// assert_eq!(UnknownNumber(10).to_string(), "10 is the number of no refusal");
/// ```
#[derive(Clone, Copy, Debug, PartialEq, Eq)]
pub struct UnknownNumber(
    /// The number.
    pub u32,
);

impl fmt::Display for UnknownNumber {
    fn fmt(&self, f: &mut fmt::Formatter<'_>) -> fmt::Result {
        write!(f, "{} is the number of no refusal", self.0)
    }
}

impl Error for UnknownNumber {}

impl TryFrom<u32> for Refusal {
    type Error = UnknownNumber;

    fn try_from(number: u32) -> Result<Self, UnknownNumber> {
        let found = ALL.iter().find(|refusal| refusal.number() == number);
        found.copied().ok_or(UnknownNumber(number))
    }
}

#[cfg(test)]
mod tests {
    use super::Refusal;

    #[test]
    #[should_panic(expected = "10 is the number of no refusal: the archive is of another version")]
    fn a_number_that_is_not_known_is_not_lost() {
        Refusal::answered(10);
    }
}

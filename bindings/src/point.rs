//! Points of live ranges.

use crate::Inst;
use std::fmt;

/// Where in an instruction a point lies.
///
/// ```
/// use cundzeli::{Point, Slot};
///
/// let slots = (20..23).filter_map(Point::from_number).map(Point::slot);
/// assert!(slots.eq([Slot::Boundary, Slot::Early, Slot::Normal]));
/// ```
#[derive(Clone, Copy, Debug, PartialEq, Eq, PartialOrd, Ord, Hash)]
pub enum Slot {
    /// Before the instruction. Only here is a segment cut.
    Boundary,
    /// Where ranges of early definitions begin.
    Early,
    /// Where ranges of other definitions begin and those of uses end.
    Normal,
}

const SLOTS: [Slot; 3] = [Slot::Boundary, Slot::Early, Slot::Normal];

/// A point of a live range: 4 × instruction + slot. A segment holds the points from `from` up to, not including, `to`.
///
/// ```
/// use cundzeli::{Inst, Point, Slot};
///
/// let point = Point::new(Inst(3), Slot::Normal);
/// assert_eq!(point, Inst(3).normal());
/// assert_eq!(point.number(), 14);
/// assert_eq!(Point::from_number(14), Some(point));
/// assert_eq!((point.inst(), point.slot()), (Inst(3), Slot::Normal));
/// assert!(point < Inst(4).boundary());
/// assert_eq!(Point::from_number(15), None, "slot 3 is never used");
/// ```
#[derive(Clone, Copy, Debug, PartialEq, Eq, PartialOrd, Ord, Hash)]
pub struct Point(u32);

impl Point {
    /// The point at a slot of an instruction.
    ///
    /// # Panics
    ///
    /// If the instruction is above 1,073,741,823, where the number of the point would not fit; a job has 4,096
    /// instructions at most.
    ///
    /// ```
    /// use cundzeli::{Inst, Point, Slot};
    ///
    /// assert_eq!(Point::new(Inst(0), Slot::Boundary).number(), 0);
    /// assert_eq!(Point::new(Inst(4095), Slot::Normal).number(), 16_382);
    /// ```
    pub fn new(inst: Inst, slot: Slot) -> Self {
        let first = inst
            .0
            .checked_mul(4)
            .expect("an instruction without points");
        Self(first + slot as u32)
    }

    /// The point of this number, or none for a slot 3.
    ///
    /// ```
    /// use cundzeli::{Inst, Point};
    ///
    /// assert_eq!(Point::from_number(21), Some(Inst(5).early()));
    /// assert_eq!((0..400).filter_map(Point::from_number).count(), 300);
    /// ```
    pub fn from_number(number: u32) -> Option<Self> {
        (number % 4 < 3).then_some(Self(number))
    }

    /// 4 × instruction + slot.
    ///
    /// ```
    /// use cundzeli::Inst;
    ///
    /// let point = Inst(5).early();
    /// assert_eq!(point.number(), 4 * 5 + 1);
    /// assert_eq!(point.to_string(), "21");
    /// ```
    pub fn number(self) -> u32 {
        self.0
    }

    /// The instruction it lies in.
    ///
    /// ```
    /// use cundzeli::Inst;
    ///
    /// let (from, to) = (Inst(2).normal(), Inst(9).boundary());
    /// assert_eq!((from.inst(), to.inst()), (Inst(2), Inst(9)));
    /// ```
    pub fn inst(self) -> Inst {
        Inst(self.0 / 4)
    }

    /// The slot of that instruction.
    ///
    /// ```
    /// use cundzeli::{Inst, Slot};
    ///
    /// let can_be_cut = |inst: Inst| [inst.boundary(), inst.normal()].map(|point| point.slot() == Slot::Boundary);
    /// assert_eq!(can_be_cut(Inst(7)), [true, false]);
    /// ```
    pub fn slot(self) -> Slot {
        SLOTS[self.0 as usize % 4]
    }
}

/// The number, as in a sheet.
impl fmt::Display for Point {
    fn fmt(&self, f: &mut fmt::Formatter<'_>) -> fmt::Result {
        self.0.fmt(f)
    }
}

//! One tuple struct for each kind of index, as the Rust's entity types.

use crate::{Point, Slot};
use std::fmt;

macro_rules! indices {
    ($($(#[$about:meta])* $name:ident;)*) => {$(
        $(#[$about])*
        #[derive(Clone, Copy, Debug, PartialEq, Eq, PartialOrd, Ord, Hash)]
        pub struct $name(
            /// Its number, from 0.
            pub u32,
        );

        impl From<u32> for $name {
            fn from(number: u32) -> Self {
                Self(number)
            }
        }

        impl From<$name> for u32 {
            fn from(index: $name) -> Self {
                index.0
            }
        }

        /// The number, as in a sheet.
        impl fmt::Display for $name {
            fn fmt(&self, f: &mut fmt::Formatter<'_>) -> fmt::Result {
                self.0.fmt(f)
            }
        }
    )*};
}

indices! {
    /// An instruction, counted through all blocks.
    ///
    /// ```
    /// use cundzeli::Inst;
    ///
    /// let inst = Inst(3);
    /// assert_eq!(inst.boundary().number(), 12);
    /// assert_eq!(inst.normal().number(), 14);
    /// assert_eq!(inst.next(), Inst(4));
    /// ```
    Inst;
    /// A block.
    ///
    /// ```
    /// use cundzeli::Block;
    /// # use cundzeli::build::{Book, ClassData, Job, Options, Remat, build};
    /// # use cundzeli::{BlockData, Flags, Inst, RegBank, RegClass, RegClassMask, UseKind};
    /// # let class = RegClass(0);
    /// # let book = Book::new(class, ClassData::new(RegClassMask(1)));
    /// # let mut job = Job::new(&book, Options::default(), BlockData::new(4, 1.0));
    /// # let value = job.value(RegBank(0), Remat::None);
    ///
    /// assert_eq!(job.block(BlockData::new(1, 1.0)), Block(1), "a job begins with block 0");
    /// ```
    Block;
    /// A value.
    ///
    /// ```
    /// use cundzeli::Value;
    /// # use cundzeli::build::{Book, ClassData, Job, Options, Remat, build};
    /// # use cundzeli::{BlockData, Flags, Inst, RegBank, RegClass, RegClassMask, UseKind};
    /// # let class = RegClass(0);
    /// # let book = Book::new(class, ClassData::new(RegClassMask(1)));
    /// # let mut job = Job::new(&book, Options::default(), BlockData::new(4, 1.0));
    /// # let value = job.value(RegBank(0), Remat::None);
    ///
    /// assert_eq!(value, Value(0));
    /// assert_eq!(job.value(RegBank(0), Remat::None).to_string(), "1");
    /// ```
    Value;
    /// A value group of a job.
    ///
    /// ```
    /// use cundzeli::ValueGroup;
    /// # use cundzeli::build::{Book, ClassData, Job, Options, Remat, build};
    /// # use cundzeli::{BlockData, Flags, Inst, RegBank, RegClass, RegClassMask, UseKind};
    /// # let mut book = Book::new(RegClass(0), ClassData::new(RegClassMask(0b11)));
    /// # let pairs = book.class(ClassData { group_size: 2, ..ClassData::new(RegClassMask(0b10)) });
    /// # let mut job = Job::new(&book, Options::default(), BlockData::new(4, 1.0));
    /// # let members = [(); 2].map(|()| job.value(RegBank(0), Remat::None));
    ///
    /// assert_eq!(job.vgroup(&members), ValueGroup(0));
    /// ```
    ValueGroup;
    /// A set: the values of one leader. It has the leader's number.
    ///
    /// ```
    /// use cundzeli::{Value, ValueSet};
    /// # use cundzeli::build::{Book, ClassData, Job, Options, Remat, build};
    /// # use cundzeli::{BlockData, Flags, Inst, RegBank, RegClass, RegClassMask, UseKind};
    /// # let class = RegClass(0);
    /// # let book = Book::new(class, ClassData::new(RegClassMask(1)));
    /// # let mut job = Job::new(&book, Options::default(), BlockData::new(4, 1.0));
    /// # let value = job.value(RegBank(0), Remat::None);
    ///
    /// let other = job.value_led_by(value, RegBank(0), Remat::None);
    /// job.segment(other, Inst(0).normal(), Inst(2).normal(), Flags::NONE);
    /// let sets: Vec<_> = build(&job)?.registers().map(|register| register.set).collect();
    /// assert_eq!((other, sets), (Value(1), vec![ValueSet::from(value)]));
    /// # Ok::<(), cundzeli::Refusal>(())
    /// ```
    ValueSet;
    /// A register bank.
    ///
    /// ```
    /// use cundzeli::build::{Book, ClassData};
    /// use cundzeli::{RegBank, RegClass, RegClassMask};
    ///
    /// let mut book = Book::new(RegClass(0), ClassData::new(RegClassMask(0b01)));
    /// let floats = book.class(ClassData::new(RegClassMask(0b10)));
    /// assert_eq!(book.bank(floats), RegBank(1), "a book begins with bank 0");
    /// ```
    RegBank;
    /// A register class.
    ///
    /// ```
    /// use cundzeli::build::{Book, ClassData};
    /// use cundzeli::{RegClass, RegClassMask};
    ///
    /// let mut book = Book::new(RegClass(0), ClassData::new(RegClassMask(0b11)));
    /// let next = book.class(ClassData::new(RegClassMask::of([RegClass(1)])));
    /// assert_eq!(next, RegClass(1), "a book begins with class 0");
    /// ```
    RegClass;
    /// A physical register.
    ///
    /// A register that the book does not have is refused:
    ///
    /// ```
    /// use cundzeli::{PhysReg, Refusal};
    /// # use cundzeli::build::{Book, ClassData, Job, Options, Remat, build};
    /// # use cundzeli::{BlockData, Flags, Inst, RegBank, RegClass, RegClassMask, UseKind};
    /// # let class = RegClass(0);
    /// # let book = Book::new(class, ClassData::new(RegClassMask(1)));
    /// # let mut job = Job::new(&book, Options::default(), BlockData::new(4, 1.0));
    /// # let value = job.value(RegBank(0), Remat::None);
    ///
    /// job.segment(value, Inst(0).boundary(), Inst(1).normal(), Flags::NONE)
    ///     .add(Inst(1), UseKind::FixedUse { reg: PhysReg(0) });
    /// assert_eq!(build(&job).err(), Some(Refusal::BadUse));
    /// ```
    PhysReg;
    /// A virtual register of a result.
    ///
    /// Numbers are dense, so they can be places in a vector of one's own:
    ///
    /// ```
    /// use cundzeli::VirtReg;
    /// # use cundzeli::build::{Book, ClassData, Job, Options, Remat, build};
    /// # use cundzeli::{BlockData, Flags, Inst, RegBank, RegClass, RegClassMask, UseKind};
    /// # let mut book = Book::new(RegClass(0), ClassData::new(RegClassMask(0b111)));
    /// # let left = book.class(ClassData::new(RegClassMask(0b010)));
    /// # let right = book.class(ClassData::new(RegClassMask(0b100)));
    /// # let mut job = Job::new(&book, Options::default(), BlockData::new(4, 1.0));
    /// # let value = job.value(RegBank(0), Remat::None);
    /// # job.segment(value, Inst(0).normal(), Inst(3).normal(), Flags::NONE)
    /// #     .add(Inst(0), UseKind::ClassDef { slot: 0, class: left })
    /// #     .add(Inst(3), UseKind::ClassUse { slot: 0, class: right });
    ///
    /// let tables = build(&job)?;
    /// let numbers: Vec<VirtReg> = tables.registers().map(|register| register.number).collect();
    /// assert_eq!(numbers, [VirtReg(0), VirtReg(1)]);
    /// # Ok::<(), cundzeli::Refusal>(())
    /// ```
    VirtReg;
    /// A group of virtual registers of a result.
    ///
    /// ```
    /// use cundzeli::VirtRegGroup;
    /// # use cundzeli::build::Operand;
    /// # use cundzeli::build::{Book, ClassData, Job, Options, Remat, build};
    /// # use cundzeli::{BlockData, Flags, Inst, RegBank, RegClass, RegClassMask, UseKind};
    /// # let mut book = Book::new(RegClass(0), ClassData::new(RegClassMask(0b11)));
    /// # let pairs = book.class(ClassData { group_size: 2, ..ClassData::new(RegClassMask(0b10)) });
    /// # let mut job = Job::new(&book, Options::default(), BlockData::new(4, 1.0));
    /// # let members = [(); 2].map(|()| job.value(RegBank(0), Remat::None));
    /// # let vgroup = job.vgroup(&members);
    /// # job.operand(Operand { inst: Inst(1), slot: 0, vgroup, class: pairs });
    /// # for (group_index, value) in (0..).zip(members) {
    /// #     job.segment(value, Inst(0).boundary(), Inst(1).normal(), Flags::NONE)
    /// #         .add(Inst(1), UseKind::GroupClassUse { slot: 0, class: pairs, group_index });
    /// # }
    ///
    /// let tables = build(&job)?;
    /// let places = tables.registers().filter_map(|register| register.group);
    /// assert_eq!(places.filter(|place| place.group == VirtRegGroup(0)).count(), 2);
    /// # Ok::<(), cundzeli::Refusal>(())
    /// ```
    VirtRegGroup;
}

impl Inst {
    /// The instruction behind this one.
    ///
    /// # Panics
    ///
    /// If it is the last that a `u32` can name.
    ///
    /// ```
    /// use cundzeli::Inst;
    ///
    /// assert_eq!(Inst(4095).next(), Inst(4096));
    /// ```
    pub fn next(self) -> Self {
        Self(self.0.checked_add(1).expect("no instruction behind it"))
    }

    /// The point before it. Panics as [`Point::new`] does, and so do the next two.
    ///
    /// A segment up to here ends before the instruction:
    ///
    /// ```
    /// use cundzeli::{Inst, Slot};
    ///
    /// let end = Inst(5).boundary();
    /// assert!(Inst(4).normal() < end && end < Inst(5).early());
    /// assert_eq!(end.slot(), Slot::Boundary);
    /// ```
    pub fn boundary(self) -> Point {
        Point::new(self, Slot::Boundary)
    }

    /// The point at which ranges of early definitions begin.
    ///
    /// ```
    /// use cundzeli::Inst;
    ///
    /// let early = Inst(5).early();
    /// assert_eq!((early.number(), early.inst()), (21, Inst(5)));
    /// ```
    pub fn early(self) -> Point {
        Point::new(self, Slot::Early)
    }

    /// The point at which ranges of other definitions begin and those of uses end.
    ///
    /// A value that an instruction uses and one that it defines meet here, and share no point:
    ///
    /// ```
    /// use cundzeli::Inst;
    ///
    /// let (used, defined) = (Inst(2).boundary()..Inst(5).normal(), Inst(5).normal()..Inst(9).boundary());
    /// assert_eq!(used.end, defined.start);
    /// assert!(!used.contains(&Inst(5).normal()) && defined.contains(&Inst(5).normal()));
    /// ```
    pub fn normal(self) -> Point {
        Point::new(self, Slot::Normal)
    }
}

impl From<Value> for ValueSet {
    /// The set that this value leads.
    fn from(leader: Value) -> Self {
        Self(leader.0)
    }
}

/// Which classes are subclasses of a class: bit c for class c.
///
/// ```
/// use cundzeli::{RegClass, RegClassMask};
///
/// let mask = RegClassMask::of([RegClass(0), RegClass(2)]);
/// assert_eq!(mask, RegClassMask(0b101));
/// assert!(mask.contains(RegClass(2)) && !mask.contains(RegClass(1)));
/// ```
#[derive(Clone, Copy, Debug, PartialEq, Eq, Hash)]
pub struct RegClassMask(
    /// The bits.
    pub u32,
);

impl RegClassMask {
    /// The mask of some classes.
    ///
    /// # Panics
    ///
    /// If one has a number above 31; a job has 32 classes at most.
    ///
    /// ```
    /// use cundzeli::{RegClass, RegClassMask};
    ///
    /// assert_eq!(RegClassMask::of([]), RegClassMask(0));
    /// assert_eq!(RegClassMask::of((0..32).map(RegClass)), RegClassMask(u32::MAX));
    /// ```
    pub fn of(classes: impl IntoIterator<Item = RegClass>) -> Self {
        let bit = |class: RegClass| 1_u32.checked_shl(class.0).expect("a class above 31");
        Self(classes.into_iter().map(bit).fold(0, |mask, bit| mask | bit))
    }

    /// Whether a class is in it.
    ///
    /// ```
    /// use cundzeli::{RegClass, RegClassMask};
    ///
    /// let all = RegClassMask(u32::MAX);
    /// assert!(all.contains(RegClass(31)));
    /// assert!(!all.contains(RegClass(32)), "there is no such class");
    /// ```
    pub fn contains(self, class: RegClass) -> bool {
        self.0
            .checked_shr(class.0)
            .is_some_and(|bits| bits & 1 == 1)
    }
}

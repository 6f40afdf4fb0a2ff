//! The register book and the options of a job.

use super::table::Table;
use crate::{PhysReg, RegBank, RegClass, RegClassMask};

/// A register class.
///
/// ```
/// use cundzeli::RegClassMask;
/// use cundzeli::build::ClassData;
///
/// let pairs = ClassData { group_size: 2, ..ClassData::new(RegClassMask(2)) };
/// assert_eq!((pairs.cost, pairs.spillslots), (1.0, false));
/// ```
#[derive(Clone, Copy, Debug, PartialEq)]
pub struct ClassData {
    /// Its subclasses. It need not be among them.
    pub subclasses: RegClassMask,
    /// The cost of a use: 0 to 2^20.
    pub cost: f32,
    /// How many registers a group has, 1 to 8; 1 for no group.
    pub group_size: u32,
    /// Whether spill slots belong to it.
    pub spillslots: bool,
}

impl ClassData {
    /// A class for single registers with these subclasses: cost 1.0, no spillslots.
    ///
    /// ```
    /// use cundzeli::build::{Book, ClassData, Job, Options, build};
    /// use cundzeli::{BlockData, Refusal, RegClass, RegClassMask};
    ///
    /// let class = ClassData::new(RegClassMask(0b11));
    /// assert_eq!((class.cost, class.group_size, class.spillslots), (1.0, 1, false));
    ///
    /// let book = Book::new(RegClass(0), class);
    /// let job = Job::new(&book, Options::default(), BlockData::new(1, 1.0));
    /// assert_eq!(build(&job).err(), Some(Refusal::BadBook), "there is no class 1");
    /// ```
    pub fn new(subclasses: RegClassMask) -> Self {
        Self { subclasses, cost: 1.0, group_size: 1, spillslots: false }
    }
}

/// What counts of the options: the weight adjust and the scales of rematerialization.
///
/// ```
/// use cundzeli::build::Options;
///
/// let options = Options { cheaper_than_move: 0.5, ..Options::default() };
/// assert_eq!((options.adjust, options.cheaper_than_load, options.indirect), (0, 1.0, 1.0));
/// ```
#[derive(Clone, Copy, Debug, PartialEq)]
pub struct Options {
    /// k, to 65,535: added to the number of instructions that a weight is divided by.
    pub adjust: u32,
    /// Scale of the costs of a value that is cheaper than a move: 0 to 2^20, as the other two.
    pub cheaper_than_move: f32,
    /// The same for a value that is cheaper than a load.
    pub cheaper_than_load: f32,
    /// The same for a value that is made again from others.
    pub indirect: f32,
}

impl Default for Options {
    /// No adjust, and every scale 1.0.
    fn default() -> Self {
        Self { adjust: 0, cheaper_than_move: 1.0, cheaper_than_load: 1.0, indirect: 1.0 }
    }
}

impl Options {
    pub(super) fn words(self) -> [u32; 4] {
        let [a, b, c] = [
            self.cheaper_than_move,
            self.cheaper_than_load,
            self.indirect,
        ]
        .map(f32::to_bits);
        [self.adjust, a, b, c]
    }
}

/// The register book of a machine: banks, classes, registers, each numbered from 0 in the order in which they are
/// added. One serves the jobs of any number of functions.
///
/// ```
/// use cundzeli::build::{Book, ClassData};
/// use cundzeli::{PhysReg, RegBank, RegClass, RegClassMask};
///
/// let mut book = Book::new(RegClass(0), ClassData::new(RegClassMask(0b11)));
/// let low = book.class(ClassData::new(RegClassMask(0b10)));
/// assert_eq!(low, RegClass(1));
/// assert_eq!(book.bank(low), RegBank(1));
/// assert_eq!(book.reg(false), PhysReg(0));
/// ```
#[derive(Clone, Debug)]
pub struct Book {
    pub(super) banks: Table<1>,
    pub(super) classes: Table<4>,
    pub(super) regs: Table<1>,
}

impl Book {
    /// A book of one bank and one class: bank 0, whose top class is `top`, and class 0. `top` may be added later.
    ///
    /// ```
    /// use cundzeli::Refusal;
    /// # use cundzeli::build::{Book, ClassData, Job, Options, Remat, build};
    /// # use cundzeli::{BlockData, Flags, Inst, RegBank, RegClass, RegClassMask, UseKind};
    ///
    /// let mut book = Book::new(RegClass(1), ClassData::new(RegClassMask(0b01)));
    /// let empty = |book: &Book| build(&Job::new(book, Options::default(), BlockData::new(1, 1.0))).err();
    /// assert_eq!(empty(&book), Some(Refusal::BadBook));
    /// assert_eq!(book.class(ClassData::new(RegClassMask(0b11))), RegClass(1));
    /// assert_eq!(empty(&book), None);
    /// ```
    pub fn new(top: RegClass, class: ClassData) -> Self {
        let mut book = Self { banks: Table::new(), classes: Table::new(), regs: Table::new() };
        book.bank(top);
        book.class(class);
        book
    }

    /// The next bank, by the class that its registers start from.
    ///
    /// Without a use that narrows it, a register has the top class of its value's bank:
    ///
    /// ```
    /// # use cundzeli::build::{Book, ClassData, Job, Options, Remat, build};
    /// # use cundzeli::{BlockData, Flags, Inst, RegBank, RegClass, RegClassMask, UseKind};
    /// # let mut book = Book::new(RegClass(0), ClassData::new(RegClassMask(1)));
    /// let floats = book.class(ClassData::new(RegClassMask(0b10)));
    /// let bank = book.bank(floats);
    /// let mut job = Job::new(&book, Options::default(), BlockData::new(4, 1.0));
    /// let value = job.value(bank, Remat::None);
    /// job.segment(value, Inst(0).normal(), Inst(3).normal(), Flags::NONE);
    /// let classes: Vec<RegClass> = build(&job)?.registers().map(|register| register.class).collect();
    /// assert_eq!(classes, [floats]);
    /// # Ok::<(), cundzeli::Refusal>(())
    /// ```
    pub fn bank(&mut self, top: RegClass) -> RegBank {
        RegBank(self.banks.add([top.0]))
    }

    /// The next class.
    ///
    /// A use narrows the class, and its cost is the class's:
    ///
    /// ```
    /// use cundzeli::VirtReg;
    /// # use cundzeli::build::{Book, ClassData, Job, Options, Remat, build};
    /// # use cundzeli::{BlockData, Flags, Inst, RegBank, RegClass, RegClassMask, UseKind};
    /// # let mut book = Book::new(RegClass(0), ClassData::new(RegClassMask(0b11)));
    ///
    /// let dear = book.class(ClassData { cost: 6.0, ..ClassData::new(RegClassMask(0b10)) });
    /// let mut job = Job::new(&book, Options::default(), BlockData::new(4, 1.0));
    /// let value = job.value(RegBank(0), Remat::None);
    /// job.segment(value, Inst(0).boundary(), Inst(3).boundary(), Flags::LIVE_IN)
    ///     .add(Inst(1), UseKind::ClassUse { slot: 0, class: dear });
    /// let register = build(&job)?.register(VirtReg(0));
    /// assert_eq!((register.class, register.weight), (dear, 2.0));
    /// # Ok::<(), cundzeli::Refusal>(())
    /// ```
    pub fn class(&mut self, class: ClassData) -> RegClass {
        let spillslots = u32::from(class.spillslots);
        let (mask, cost) = (class.subclasses.0, class.cost.to_bits());
        RegClass(self.classes.add([mask, cost, class.group_size, spillslots]))
    }

    /// The next register, and whether it lies in memory: fixed uses of it then cost nothing.
    ///
    /// ```
    /// # use cundzeli::build::{Book, ClassData, Job, Options, Remat, build};
    /// # use cundzeli::{BlockData, Flags, Inst, RegBank, RegClass, RegClassMask, UseKind};
    /// let weight = |memory| {
    ///     let mut book = Book::new(RegClass(0), ClassData::new(RegClassMask(1)));
    ///     let reg = book.reg(memory);
    ///     let mut job = Job::new(&book, Options::default(), BlockData::new(4, 1.0));
    ///     let value = job.value(RegBank(0), Remat::None);
    ///     job.segment(value, Inst(0).boundary(), Inst(1).normal(), Flags::LIVE_IN)
    ///         .add(Inst(1), UseKind::FixedUse { reg });
    ///     build(&job).map(|tables| tables.registers().map(|register| register.weight).sum::<f32>())
    /// };
    /// assert_eq!((weight(false)?, weight(true)?), (0.5, 0.0));
    /// # Ok::<(), cundzeli::Refusal>(())
    /// ```
    pub fn reg(&mut self, memory: bool) -> PhysReg {
        PhysReg(self.regs.add([u32::from(memory)]))
    }
}

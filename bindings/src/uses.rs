//! What the uses of a segment ask for, and the flags of its list.

use crate::{PhysReg, RegClass};
use std::convert::Infallible;
use std::ops::{BitOr, BitOrAssign};

/// Stands in a result for a use that was turned into a conflict.
///
/// ```
/// use cundzeli::{Turned, UseKind};
/// # use cundzeli::build::{Book, ClassData, Job, Options, Remat, build};
/// # use cundzeli::{BlockData, Flags, Inst, RegBank, RegClass, RegClassMask};
/// # let mut book = Book::new(RegClass(0), ClassData::new(RegClassMask(0b111)));
/// # let left = book.class(ClassData::new(RegClassMask(0b010)));
/// # let right = book.class(ClassData::new(RegClassMask(0b100)));
/// # let mut job = Job::new(&book, Options::default(), BlockData::new(4, 1.0));
/// # let value = job.value(RegBank(0), Remat::None);
///
/// job.segment(value, Inst(0).boundary(), Inst(1).normal(), Flags::NONE)
///     .add(Inst(1), UseKind::ClassUse { slot: 0, class: left })
///     .add(Inst(1), UseKind::ClassUse { slot: 1, class: right });
/// let tables = build(&job)?;
/// let turned = UseKind::ConstraintConflict(Turned);
/// assert_eq!(tables.uses(&tables.segment(0)).position(|one| one.kind == turned), Some(1));
/// # Ok::<(), cundzeli::Refusal>(())
/// ```
#[derive(Clone, Copy, Debug, PartialEq, Eq, Hash)]
pub struct Turned;

/// What a use asks of its value's register, in the order and with the fields of the Rust's `UseKind`.
///
/// Results have `UseKind`, which is `UseKind<Turned>`. Jobs have `UseKind<Infallible>`: of that type there is no
/// [`ConstraintConflict`](Self::ConstraintConflict), which a job is refused for (7).
///
/// ```
/// use cundzeli::{RegClass, Turned, UseKind};
///
/// fn asks_for(kind: UseKind) -> Option<RegClass> {
///     match kind {
///         UseKind::ClassUse { class, .. } | UseKind::ClassDef { class, .. } => Some(class),
///         UseKind::GroupClassUse { class, .. } | UseKind::GroupClassDef { class, .. } => Some(class),
///         _ => None,
///     }
/// }
/// let class = RegClass(2);
/// assert_eq!(asks_for(UseKind::ClassUse { slot: 0, class }), Some(class));
/// assert_eq!(asks_for(UseKind::ConstraintConflict(Turned)), None);
/// ```
#[derive(Clone, Copy, Debug, PartialEq, Eq, Hash)]
pub enum UseKind<C = Turned> {
    /// 0: a definition in a fixed register.
    FixedDef {
        /// The register.
        reg: PhysReg,
    },
    /// 1: a use in a fixed register.
    FixedUse {
        /// The register.
        reg: PhysReg,
    },
    /// 2: a use that is tied to a definition of the same instruction.
    TiedUse {
        /// The operand that is used.
        use_slot: u16,
        /// The operand that is defined.
        def_slot: u16,
        /// The class of the tied operand.
        class: RegClass,
        /// The value's place in its value group, or 0.
        group_index: u8,
    },
    /// 3: a use that was turned into a conflict. As it was, it stands in a conflict piece of its instruction.
    ConstraintConflict(
        /// Has a value in results alone.
        C,
    ),
    /// 4: a use in a class.
    ClassUse {
        /// The operand.
        slot: u16,
        /// Its class.
        class: RegClass,
    },
    /// 5: a definition in a class.
    ClassDef {
        /// The operand.
        slot: u16,
        /// Its class.
        class: RegClass,
    },
    /// 6: a use in a class, as part of a group.
    GroupClassUse {
        /// The operand.
        slot: u16,
        /// Its class.
        class: RegClass,
        /// The value's place in the operand's value group.
        group_index: u8,
    },
    /// 7: a definition in a class, as part of a group.
    GroupClassDef {
        /// The operand.
        slot: u16,
        /// Its class.
        class: RegClass,
        /// The value's place in the operand's value group.
        group_index: u8,
    },
    /// 8: the value comes in as a block parameter.
    BlockparamIn {
        /// Which parameter of the block.
        blockparam_idx: u32,
    },
    /// 9: the value goes out as a block parameter.
    BlockparamOut,
}

impl<C> UseKind<C> {
    /// Its number, 0 to 9.
    ///
    /// ```
    /// use cundzeli::{PhysReg, UseKind};
    ///
    /// let kinds: [UseKind; 2] = [UseKind::FixedUse { reg: PhysReg(7) }, UseKind::BlockparamOut];
    /// assert_eq!(kinds.map(|kind| kind.number()), [1, 9]);
    /// ```
    pub fn number(&self) -> u32 {
        match self {
            UseKind::FixedDef { .. } => 0,
            UseKind::FixedUse { .. } => 1,
            UseKind::TiedUse { .. } => 2,
            UseKind::ConstraintConflict(_) => 3,
            UseKind::ClassUse { .. } => 4,
            UseKind::ClassDef { .. } => 5,
            UseKind::GroupClassUse { .. } => 6,
            UseKind::GroupClassDef { .. } => 7,
            UseKind::BlockparamIn { .. } => 8,
            UseKind::BlockparamOut => 9,
        }
    }

    /// Its fields as in a sheet.
    ///
    /// ```
    /// use cundzeli::{RegClass, UseKind};
    ///
    /// let kind: UseKind = UseKind::ClassDef { slot: 1, class: RegClass(2) };
    /// assert_eq!((kind.number(), kind.fields()), (5, vec![1, 2]));
    /// ```
    pub fn fields(&self) -> Vec<u32> {
        let count = [1, 1, 4, 0, 2, 2, 3, 3, 1, 0][self.number() as usize];
        self.words()[..count].to_vec()
    }

    /// Its fields, zeros behind them.
    pub(crate) fn words(&self) -> [u32; 4] {
        match *self {
            UseKind::FixedDef { reg } | UseKind::FixedUse { reg } => [reg.0, 0, 0, 0],
            UseKind::TiedUse { use_slot, def_slot, class, group_index } => [
                use_slot.into(),
                def_slot.into(),
                class.0,
                group_index.into(),
            ],
            UseKind::ClassUse { slot, class } | UseKind::ClassDef { slot, class } => {
                [slot.into(), class.0, 0, 0]
            }
            UseKind::GroupClassUse { slot, class, group_index }
            | UseKind::GroupClassDef { slot, class, group_index } => {
                [slot.into(), class.0, group_index.into(), 0]
            }
            UseKind::BlockparamIn { blockparam_idx } => [blockparam_idx, 0, 0, 0],
            UseKind::ConstraintConflict(_) | UseKind::BlockparamOut => [0; 4],
        }
    }
}

/// A field of a result, which is within its type since the job's was.
fn field<T: TryFrom<u32>>(word: u32) -> T {
    let Ok(field) = T::try_from(word) else {
        panic!("a field beyond its type in a result: {word}")
    };
    field
}

impl UseKind {
    /// The kind of a row of a result.
    pub(crate) fn of_row(kind: u32, [a, b, c, d]: [u32; 4]) -> Self {
        match kind {
            0 => UseKind::FixedDef { reg: PhysReg(a) },
            1 => UseKind::FixedUse { reg: PhysReg(a) },
            2 => UseKind::TiedUse {
                use_slot: field(a),
                def_slot: field(b),
                class: RegClass(c),
                group_index: field(d),
            },
            3 => UseKind::ConstraintConflict(Turned),
            4 | 5 => Self::of_class(kind == 5, field(a), RegClass(b)),
            6 | 7 => Self::of_group(kind == 7, field(a), RegClass(b), field(c)),
            8 => UseKind::BlockparamIn { blockparam_idx: a },
            9 => UseKind::BlockparamOut,
            _ => panic!("no kind of use in a result: {kind}"),
        }
    }

    fn of_class(def: bool, slot: u16, class: RegClass) -> Self {
        if def {
            UseKind::ClassDef { slot, class }
        } else {
            UseKind::ClassUse { slot, class }
        }
    }

    fn of_group(def: bool, slot: u16, class: RegClass, group_index: u8) -> Self {
        if def {
            UseKind::GroupClassDef { slot, class, group_index }
        } else {
            UseKind::GroupClassUse { slot, class, group_index }
        }
    }
}

impl From<UseKind<Infallible>> for UseKind {
    /// A job's use as it stands in the result, unless it was turned.
    ///
    /// ```
    /// use cundzeli::UseKind;
    /// use std::convert::Infallible;
    ///
    /// let given: UseKind<Infallible> = UseKind::BlockparamIn { blockparam_idx: 3 };
    /// let found: UseKind = UseKind::BlockparamIn { blockparam_idx: 3 };
    /// assert_eq!(UseKind::from(given), found);
    /// ```
    fn from(kind: UseKind<Infallible>) -> Self {
        Self::of_row(kind.number(), kind.words())
    }
}

/// The flags of a segment.
///
/// ```
/// use cundzeli::Flags;
///
/// let flags = [Flags::NONE, Flags::LIVE_IN, Flags::LIVE_OUT, Flags::FIXED_HINT, Flags::FIXED_DEF];
/// assert_eq!(flags.map(Flags::bits), [0, 1, 2, 4, 8]);
///
/// let flags = Flags::LIVE_IN | Flags::FIXED_DEF;
/// assert!(flags.live_in && flags.fixed_def && !flags.live_out);
/// assert_eq!(flags.bits(), 9);
/// assert_eq!(Flags::from_bits(9), Some(flags));
/// assert_eq!(Flags::from_bits(16), None);
/// ```
#[derive(Clone, Copy, Debug, Default, PartialEq, Eq, Hash)]
pub struct Flags {
    /// 1: the value comes from a segment before it.
    pub live_in: bool,
    /// 2: the value goes on to a segment behind it.
    pub live_out: bool,
    /// 4: it has a hint to a fixed register.
    pub fixed_hint: bool,
    /// 8: its first use is a [`FixedDef`](UseKind::FixedDef).
    pub fixed_def: bool,
}

impl Flags {
    /// No flag.
    pub const NONE: Self = Self::of(0);
    /// [`live_in`](Self::live_in) alone.
    pub const LIVE_IN: Self = Self::of(1);
    /// [`live_out`](Self::live_out) alone.
    pub const LIVE_OUT: Self = Self::of(2);
    /// [`fixed_hint`](Self::fixed_hint) alone.
    pub const FIXED_HINT: Self = Self::of(4);
    /// [`fixed_def`](Self::fixed_def) alone.
    pub const FIXED_DEF: Self = Self::of(8);

    /// The flags of the lowest four bits.
    const fn of(bits: u32) -> Self {
        Self {
            live_in: bits & 1 != 0,
            live_out: bits & 2 != 0,
            fixed_hint: bits & 4 != 0,
            fixed_def: bits & 8 != 0,
        }
    }

    /// The flags of a sum, or none above 15.
    ///
    /// ```
    /// use cundzeli::Flags;
    ///
    /// assert_eq!(Flags::from_bits(3), Some(Flags::LIVE_IN | Flags::LIVE_OUT));
    /// assert!((0..16).all(|bits| Flags::from_bits(bits).map(Flags::bits) == Some(bits)));
    /// ```
    pub fn from_bits(bits: u32) -> Option<Self> {
        (bits < 16).then(|| Self::of(bits))
    }

    /// The sum of its flags' numbers.
    ///
    /// ```
    /// use cundzeli::Flags;
    ///
    /// let flags = Flags { live_out: true, fixed_hint: true, ..Flags::NONE };
    /// assert_eq!(flags.bits(), 2 + 4);
    /// ```
    pub fn bits(self) -> u32 {
        let flags = [self.live_in, self.live_out, self.fixed_hint, self.fixed_def];
        let bits = flags.iter().zip([1, 2, 4, 8]);
        bits.map(|(&flag, bit)| u32::from(flag) * bit).sum()
    }
}

impl BitOr for Flags {
    type Output = Self;

    fn bitor(self, other: Self) -> Self {
        Self::of(self.bits() | other.bits())
    }
}

impl BitOrAssign for Flags {
    fn bitor_assign(&mut self, other: Self) {
        *self = *self | other;
    }
}

//! Cundzeli's proved entry points as a code generator calls them: the virtual registers of a function's live ranges
//! ([`build`]), the best place of a cut ([`cut`]), and what would move it ([`moves`]).
//!
//! What is right is document 01's, and for [`moves`] change request 12's; the functions are proved equal to it, for all
//! bytes and numbers (docs/REVIEW.md).
//! This crate is the thin part around them that no proof speaks of: types for what a job says and what a result has.
//!
//! ```
//! use cundzeli::build::{Book, ClassData, Job, Options, Remat, build};
//! use cundzeli::{BlockData, Flags, Inst, RegBank, RegClass, RegClassMask, UseKind};
//!
//! // The machine: class 0 over two classes that share nothing.
//! let mut book = Book::new(RegClass(0), ClassData::new(RegClassMask(0b111)));
//! let left = book.class(ClassData::new(RegClassMask(0b010)));
//! let right = book.class(ClassData::new(RegClassMask(0b100)));
//!
//! // The function: two blocks, the second run half as often, and a value defined in the one and used in the other.
//! let mut job = Job::new(&book, Options::default(), BlockData::new(2, 1.0));
//! job.block(BlockData::new(2, 0.5));
//! let value = job.value(RegBank(0), Remat::None);
//! job.segment(value, Inst(0).normal(), Inst(3).normal(), Flags::NONE)
//!     .add(Inst(0), UseKind::ClassDef { slot: 0, class: left })
//!     .add(Inst(3), UseKind::ClassUse { slot: 0, class: right });
//!
//! // No class fits both, so there is a cut before instruction 2, where the second block begins.
//! let tables = build(&job)?;
//! let registers: Vec<_> = tables.registers().collect();
//! assert_eq!(registers.len(), 2);
//! assert_eq!((registers[0].class, registers[0].weight), (left, 0.5));
//! assert_eq!((registers[1].class, registers[1].weight), (right, 0.25));
//! let behind = tables.segments(&registers[1]).next().expect("a piece");
//! assert_eq!((behind.from, behind.flags), (Inst(2).boundary(), Flags::LIVE_IN));
//! # Ok::<(), cundzeli::Refusal>(())
//! ```

#![warn(missing_docs)]

mod block;
pub mod build;
pub mod cut;
mod index;
pub mod moves;
mod point;
mod refusal;
mod uses;

pub use block::BlockData;
pub use index::{
    Block, Inst, PhysReg, RegBank, RegClass, RegClassMask, Value, ValueGroup, ValueSet, VirtReg,
    VirtRegGroup,
};
pub use point::{Point, Slot};
pub use refusal::{Refusal, UnknownNumber};
pub use uses::{Flags, Turned, UseKind};

/// The example of README.md.
#[cfg(doctest)]
#[doc = include_str!("../README.md")]
struct Readme;

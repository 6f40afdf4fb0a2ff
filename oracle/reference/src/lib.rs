//! The reference pass: the supplied files, compiled as they are but for the one
//! alteration of builder.rs, over stand-ins for what is not supplied.

extern crate alloc;
extern crate self as hashbrown;
extern crate self as rustc_hash;
extern crate self as smallvec;

#[macro_use]
mod macros;
pub mod stand_ins;
pub mod watch;

pub use stand_ins::containers::{FxBuildHasher, HashMap, SmallVec};
pub use stand_ins::passes::{RegAllocError, RegisterAllocator};
pub use stand_ins::settings::{Options, Stats};
pub use stand_ins::{debug_utils, union_find};

include!(concat!(env!("OUT_DIR"), "/tree.rs"));

#[cfg(test)]
#[path = "../alteration.rs"]
mod alteration;

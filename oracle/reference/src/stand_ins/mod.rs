//! Small replacements for parts of the crate, and of other crates, that are
//! not supplied.

pub mod containers;
pub mod debug_utils;
pub mod entity;
pub mod passes;
pub mod settings;
pub mod union_find;

//! What the comparison, the benchmark and the tests share: jobs and results between the oracle's form and tables.

#![allow(dead_code)]

pub mod binary;
pub mod damage;
pub mod random;
pub mod result;
pub mod typed;

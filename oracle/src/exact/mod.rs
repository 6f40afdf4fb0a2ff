//! Weights held to their exact values, in whole numbers.

pub mod adverse;
pub mod bound;
pub mod counts;
pub mod natural;
pub mod registers;
pub mod results;
pub mod survey;
pub mod units;
pub mod weighing;
pub mod words;

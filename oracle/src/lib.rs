//! Job sheets read, tested and run through the reference pass.

pub mod answer;
pub mod child;
pub mod convert;
pub mod cut;
pub mod cuts;
pub mod entry;
pub mod exact;
pub mod feed;
pub mod form;
pub mod frames;
pub mod job;
pub mod make;
pub mod order;
pub mod print;
pub mod run;
pub mod sheet;
pub mod tables;
pub mod tally;

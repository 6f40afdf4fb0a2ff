//! Draws a job sheet with its register sheet as one SVG.

mod cuts;
mod entry;
mod forms;
mod head;
mod job;
mod layout;
mod legend;
mod lines;
mod marks;
mod page;
mod pair;
mod picture;
mod registers;
mod rows;
mod scene;
mod stops;
mod style;
mod svg;
mod verdict;
mod words;

pub use forms::Fault;

/// A picture, and what is to be said of the two sheets besides: that one is cut, or that they don't belong together.
pub struct Drawing {
    pub svg: String,
    pub remarks: Vec<String>,
}

/// The picture of any two files.
pub fn draw(job_sheet: &[u8], register_sheet: &[u8]) -> Drawing {
    let (job, unread) = job::read(job_sheet);
    let fault = unread.or_else(|| entry::first_fault(&job));
    let answer = registers::read(register_sheet);
    picture::draw(job_sheet, &job, fault, &answer)
}

/// The first line of a job sheet that falls to one of the numbers 1 to 7 and 10, which are tried in this order.
pub fn first_fault(job_sheet: &[u8]) -> Option<Fault> {
    let (job, unread) = job::read(job_sheet);
    unread.or_else(|| entry::first_fault(&job))
}

//! What is said of each register of a sheet that the theorem speaks of, to be computed by the checker too.

use crate::answer::{Room, answer_job, tested};
use crate::job::Job;

use super::bound::{Exact, POWER};
use super::registers::{Register, read};

/// A line for each register without group and of finite weight; none for a sheet that is refused.
pub fn words(sheet: &[u8]) -> String {
    let Ok(job) = tested(sheet) else {
        return String::new();
    };
    let found = answer_job(&job, Room::default());
    if found.number.is_some() {
        return String::new();
    }
    let registers = read(&found.text);
    let lines = registers.iter().enumerate();
    lines
        .filter_map(|(number, r)| line(&job, number, r))
        .collect()
}

/// The register's number, n, whether the conditions hold, whether the bound does, the exact sum in hexadecimal.
fn line(job: &Job, number: usize, register: &Register) -> Option<String> {
    let infinite = register.weight == f32::INFINITY.to_bits();
    if register.in_group || infinite {
        return None;
    }
    let weighing = register.weighing(job);
    let exact = Exact::of(&weighing.terms);
    let fine = u8::from(weighing.weight().fine);
    let weight = f32::from_bits(register.weight);
    let near = u8::from(exact.bounds(weight, weighing.divisor(), POWER));
    let sum = exact.sum.hex();
    Some(format!("{number}\t{}\t{fine}\t{near}\t{sum}\n", exact.uses))
}

#[cfg(test)]
mod tests {
    use super::*;

    /// A register of one use of cost 1.5 over two instructions, and one that is infinite.
    const SHEET: &[u8] = b"opt\t0\t3f800000\t3f800000\t3f800000\nbank\t0\n\
        class\t00000001\t3fc00000\t1\t0\nblock\t2\t3f800000\nvalue\t0\t0\t0\nvalue\t0\t1\t0\n\
        seg\t0\t0\t2\t0\nseg\t1\t2\t6\t0\nuse\t4\t1\t0\t0\nend\n";

    #[test]
    fn a_line_for_each_register_spoken_of() {
        let sum = format!("c{}", "0".repeat(111));
        assert_eq!(words(SHEET), format!("1\t1\t1\t1\t{sum}\n"));
        assert_eq!(words(b"end\n"), "");
    }
}

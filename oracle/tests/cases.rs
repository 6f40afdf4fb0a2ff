//! The marked cases A to J, and the order of the refusals.

use oracle::answer::{Room, answer};
use oracle::cut::cut;
use oracle::sheet;

const BOOK: &str = "opt 0 3f800000 3f800000 3f800000
bank 0
class 00000007 3f800000 1 0
class 00000002 3f800000 1 0
class 00000004 3f800000 1 0
";

fn tabs(text: &str) -> String {
    text.replace(' ', "\t")
}

fn answers(text: &str) -> String {
    answer(tabs(text).as_bytes(), Room::default()).text
}

/// The number and the stop of a refused sheet.
fn refused(text: &str) -> (Option<u8>, Option<String>) {
    let found = answer(tabs(text).as_bytes(), Room::default());
    (found.number, found.cause)
}

fn stop(name: &str) -> (Option<u8>, Option<String>) {
    (Some(8), Some(name.to_string()))
}

/// A job of one value over A's book with the given tail.
fn job(tail: &str) -> String {
    format!("{BOOK}block 2 3f800000\nblock 2 3f000000\nvalue 0 0 0\n{tail}end\n")
}

#[test]
fn case_a_cuts_once() {
    let sheet = job("seg 0 2 14 0\nuse 5 0 0 1\nuse 4 3 0 2\n");
    let expected = "vreg 0 0 1 3f000000 - 0 0
seg 0 2 8 2 own
use 5 0 0 1
vreg 1 0 2 3e800000 - 0 0
seg 0 8 14 1 own
use 4 3 0 2
end 2 0
";
    assert_eq!(answers(&sheet), tabs(expected));
}

/// Case A with the costs of classes 1 and 2: where it is cut, and the weights of both registers.
fn leaning(cost: &str, other: &str) -> (String, Vec<String>) {
    let book = BOOK
        .replace("00000002 3f800000", &format!("00000002 {cost}"))
        .replace("00000004 3f800000", &format!("00000004 {other}"));
    let sheet = job("seg 0 2 14 0\nuse 5 0 0 1\nuse 4 3 0 2\n").replace(BOOK, &book);
    let text = answers(&sheet);
    let field = |line: &str, place: usize| line.split('\t').nth(place).unwrap().to_string();
    let lines = |kind: &'static str| text.lines().filter(move |line| line.starts_with(kind));
    let to = lines("seg").next().map(|line| field(line, 3)).unwrap();
    (to, lines("vreg").map(|line| field(line, 4)).collect())
}

#[test]
fn a_cut_leans_toward_the_cheaper_class() {
    let cut = |to: &str, weights: [&str; 2]| (to.to_string(), weights.map(str::to_string).to_vec());
    assert_eq!(
        leaning("3f000000", "3f800000"),
        cut("12", ["3e2aaaab", "7f800000"])
    );
    assert_eq!(
        leaning("3f800000", "3f000000"),
        cut("8", ["3f000000", "3e000000"])
    );
    assert_eq!(
        leaning("3f000000", "3f000000"),
        cut("8", ["3e800000", "3e000000"])
    );
}

/// A book whose class 1 shares nothing with the top class 0.
const APART: &str = "opt 0 3f800000 3f800000 3f800000
bank 0
class 00000001 3f800000 1 0
class 00000002 3f800000 1 0
block 2 3f800000
value 0 0 0
";

#[test]
fn case_b_admits_none() {
    let sheet = format!("{APART}seg 0 0 6 0\nuse 4 1 0 1\nend\n");
    assert_eq!(refused(&sheet), stop("none-admitted"));
}

#[test]
fn case_c_turns_a_definition() {
    let sheet = format!("{APART}seg 0 2 8 0\nuse 5 0 0 1\nend\n");
    assert_eq!(refused(&sheet), stop("turned-def"));
}

#[test]
fn case_d_finds_no_start() {
    let sheet = "opt 0 3f800000 3f800000 3f800000
bank 0
class 0000001f 3f800000 1 0
class 00000002 3f800000 1 0
class 00000004 3f800000 1 0
class 0000000e 3f800000 1 0
class 00000014 3f800000 1 0
block 4 3f800000
value 0 0 0
seg 0 0 14 0
use 4 1 0 3
use 4 3 0 4
end
";
    assert_eq!(refused(sheet), stop("no-start"));
}

#[test]
fn case_e_turns_the_second_use() {
    let sheet = job("seg 0 0 14 0\nuse 4 1 0 1\nuse 4 1 1 2\n");
    let expected = "vreg 0 0 1 3ec00000 - 0 0
seg 0 0 14 0 own
use 4 1 0 1
use 3 1
vreg 1 0 2 7f800000 - 0 0
seg 0 4 6 1 conflict
use 4 1 1 2
end 2 0
";
    assert_eq!(answers(&sheet), tabs(expected));
}

fn blocks(lines: &str) -> oracle::job::Job {
    sheet::read(tabs(&format!("{BOOK}{lines}end\n")).as_bytes()).unwrap()
}

#[test]
fn case_f_cuts_early_and_late() {
    let job = blocks("block 4 40400000\nblock 4 40000000\nblock 4 40000000\n");
    assert_eq!(cut(&job, 1, 10, true), Some(4));
    assert_eq!(cut(&job, 1, 10, false), Some(10));
}

#[test]
fn case_g_cuts_at_the_last_place() {
    let job = blocks("block 4 40400000\nblock 4 40000000\nblock 4 3f800000\n");
    assert_eq!(cut(&job, 1, 8, true), Some(8));
}

/// The weight of one use of cost 1 is one over the instructions counted.
fn weight_over(segs: &str, spillslots: u32) -> String {
    let sheet = format!(
        "opt 0 3f800000 3f800000 3f800000\nbank 0\nclass 00000001 3f800000 1 {spillslots}\n\
         block 4 3f800000\nvalue 0 0 0\n{segs}end\n"
    );
    let text = answers(&sheet);
    text.lines()
        .next()
        .unwrap()
        .split('\t')
        .nth(4)
        .unwrap()
        .to_string()
}

#[test]
fn case_h_counts_instructions_once() {
    let two = weight_over("seg 0 2 4 0\nseg 0 4 6 0\nuse 4 1 0 0\n", 1);
    assert_eq!(two, "3f000000");
    let one = weight_over("seg 0 0 1 0\nseg 0 1 2 0\nuse 4 0 0 0\n", 1);
    assert_eq!(one, "3f800000");
}

#[test]
fn case_i_is_finite_over_two_instructions() {
    assert_eq!(weight_over("seg 0 0 8 0\nuse 4 1 0 0\n", 0), "3f000000");
    assert_eq!(weight_over("seg 0 0 4 0\nuse 4 0 0 0\n", 0), "7f800000");
}

#[test]
fn case_j_is_empty() {
    assert_eq!(answers(&job("")), "end\t0\t0\n");
}

#[test]
fn the_whole_sheet_is_read_before_a_count_is_tested() {
    let many = "bank 0\n".repeat(9);
    let rest = "class 00000001 3f800000 1 0\nblock 1 3f800000\n";
    let sheet = format!("opt 0 3f800000 3f800000 3f800000\n{many}{rest}");
    assert_eq!(refused(&format!("{sheet}end\n")).0, Some(2));
    assert_eq!(refused(&format!("{sheet}end 1\n")).0, Some(1));
}

#[test]
fn nine_comes_before_a_later_stop_and_after_one_of_the_same_register() {
    let case_b = format!("{APART}seg 0 0 6 0\nuse 4 1 0 1\nend\n");
    let with = |room: &str| answer(tabs(&case_b).as_bytes(), Room::parse(room).unwrap()).number;
    assert_eq!(with("1,1,1,0"), Some(8));
    assert_eq!(with("0,1,1,0"), Some(9));
    assert_eq!(with("1,0,1,0"), Some(9));
    assert_eq!(with("1,1,0,0"), Some(9));
}

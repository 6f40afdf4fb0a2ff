//! Job sheets of the second form: the same pictures as in the first, and the lines of 1 and 10.

mod common;

use common::{Pair, docs, folder, offending, pairs, second, xml_fault};
use drawing::{draw, first_fault};

fn sample(name: &str) -> Pair {
    folder(&docs().join("samples/second")).into_iter().find(|pair| pair.name == name).unwrap()
}

fn is_second(sheet: &[u8]) -> bool {
    sheet.starts_with(b"form\t2\n")
}

fn passes(pair: &Pair) -> bool {
    !pair.out.starts_with(b"refused")
}

/// The sheet `sets` with other lines in the place of some; `|` parts several, and a blank stands for a tab.
fn with(damage: &[(usize, &str)]) -> Vec<u8> {
    let mut lines = lines_of(&sample("sets").job);
    for (line, text) in damage {
        lines[line - 1] = text.replace(' ', "\t").replace('|', "\n");
    }
    (lines.join("\n") + "\n").into_bytes()
}

fn lines_of(sheet: &[u8]) -> Vec<String> {
    std::str::from_utf8(sheet).unwrap().lines().map(String::from).collect()
}

/// The picture of a first form as that of the second should be: the form line comes before the blocks' lines.
fn one_line_on(svg: &str) -> String {
    let moved = |line: &str| {
        let (words, number) = line.strip_prefix("<title>block ")?.strip_suffix("</title>")?.split_once("; line ")?;
        Some(format!("<title>block {words}; line {}</title>\n", number.parse::<usize>().ok()? + 1))
    };
    svg.lines().map(|line| moved(line).unwrap_or_else(|| format!("{line}\n"))).collect()
}

#[test]
fn case_a_has_the_same_picture() {
    let first = folder(&docs().join("samples")).into_iter().find(|pair| pair.name == "A").unwrap();
    let again = sample("A");
    assert_eq!((second(&first.job), &first.out), (again.job.clone(), &again.out));
    let (one, two) = (draw(&first.job, &first.out), draw(&again.job, &again.out));
    assert_eq!((one_line_on(&one.svg), one.remarks), (two.svg.clone(), two.remarks));
    let differ = one.svg.lines().zip(two.svg.lines()).filter(|(a, b)| a != b).count();
    assert_eq!((differ, one.svg.lines().count()), (2, two.svg.lines().count()));
}

#[test]
fn sheets_that_pass_have_the_same_picture() {
    let all: Vec<Pair> = pairs().into_iter().filter(|pair| passes(pair) && !is_second(&pair.job)).collect();
    assert!(all.len() > 25, "{}", all.len());
    for pair in all {
        let (one, two) = (draw(&pair.job, &pair.out), draw(&second(&pair.job), &pair.out));
        assert_eq!(one_line_on(&one.svg), two.svg, "{}", pair.name);
        assert_eq!(two.remarks, Vec::<String>::new(), "{}", pair.name);
    }
}

/// A stop or a full table stays what it is, with the same sets.
#[test]
fn refusals_of_the_placing_are_the_same() {
    let placing = |pair: &Pair| matches!(pair.out.as_slice(), b"refused\t8\n" | b"refused\t9\n");
    for pair in pairs().iter().filter(|pair| placing(pair) && !is_second(&pair.job)) {
        let (one, two) = (draw(&pair.job, &pair.out), draw(&second(&pair.job), &pair.out));
        assert_eq!(two.remarks, Vec::<String>::new(), "{}", pair.name);
        assert_eq!((offending(&one.svg), offending(&two.svg)), (None, None));
        assert!(two.svg.contains("The job passed the entry rules (1 to 7 and 10)"), "{}", pair.name);
        let rings = |svg: &str| svg.matches("class=\"ring\"").count();
        assert_eq!(rings(&one.svg), rings(&two.svg));
    }
}

/// The line put into `sets`, and the number and line that are then at fault.
const CASES: &[(usize, &str, u8, usize)] = &[
    (1, "form 1", 1, 1),
    (1, "form 3", 1, 1),
    (1, "form 02", 1, 1),
    (1, "form", 1, 1),
    (1, "form ", 1, 1),
    (1, "form 2 2", 1, 1),
    (1, "form 2 ", 1, 1),
    (1, "Form 2", 1, 1),
    (1, "|form 2", 1, 1),
    (1, "form 2|form 2", 1, 2),
    (1, "opt 0 3f800000 3f800000 3f800000|form 2", 1, 2),
    (4, "form 2|class 0000000f 3f800000 1 0", 1, 4),
    (38, "form 2|end", 1, 38),
    (38, "end|form 2", 1, 39),
    (8, "block 2 3f800000", 1, 8),
    (8, "block 2 3f800000 0 0", 1, 8),
    (9, "block 2 3f800000 ", 1, 9),
    (9, "block 2 3f800000 02", 1, 9),
    (9, "block 2 3f800000 +2", 1, 9),
    (9, "block 2 3f800000 -", 1, 9),
    (9, "block 2 3f800000 4294967296", 1, 9),
    (22, "seg 0 0 16 0", 1, 22),
    (22, "seg 0 0 16 0 0 0", 1, 22),
    (26, "seg 5 0 8 0 ", 1, 26),
    (26, "seg 5 0 8 0 02", 1, 26),
    (26, "seg 5 0 8 0 4294967296", 1, 26),
    (11, "value 0 0 0 0", 1, 11),
    (23, "use 6 0 0 1 0 0", 1, 23),
    (38, "end 0", 1, 38),
    (16, "value 0 5 0", 6, 28),
    (8, "block 2 3f800000 1", 10, 8),
    (8, "block 2 3f800000 4294967295", 10, 8),
    (8, "block 1 3f800000 0|block 1 3f800000 0", 10, 9),
    (8, "block 3 3f800000 0", 10, 9),
    (9, "block 2 3f800000 1", 10, 9),
    (9, "block 2 3f800000 8", 10, 9),
    (10, "block 4 40800000 0", 10, 10),
    (10, "block 4 40800000 5", 10, 10),
    (22, "seg 0 0 16 0 1", 10, 22),
    (26, "seg 5 0 8 0 5", 10, 26),
    (28, "seg 2 8 24 0 4", 10, 28),
    (31, "seg 1 2 30 0 1", 10, 31),
    (31, "seg 1 2 30 0 6", 10, 31),
    (31, "seg 1 2 30 0 4294967295", 10, 31),
];

#[test]
fn the_line_is_named() {
    assert_eq!(first_fault(&with(&[])), None);
    for &(line, text, number, at) in CASES {
        let job = with(&[(line, text)]);
        named(&job, number, at, text);
        for other in (1..=10).filter(|&other| other != number) {
            let drawing = draw(&job, format!("refused\t{other}\n").as_bytes());
            assert_eq!((offending(&drawing.svg), drawing.remarks.len()), (None, 1), "{text}: {other}");
        }
        let passed = draw(&job, &sample("sets").out);
        let says = "The job sheet is refused, and the register sheet is not its answer: Line ";
        assert!(passed.remarks[0].starts_with(&format!("{says}{at} ")), "{text}: {:?}", passed.remarks);
    }
}

/// A sheet falls to a number at a line, and its picture says so.
fn named(job: &[u8], number: u8, at: usize, name: &str) {
    let fault = first_fault(job).unwrap_or_else(|| panic!("{name} is no fault"));
    assert_eq!((fault.number, fault.line), (number, at), "{name}: {}", fault.why);
    let drawing = draw(job, format!("refused\t{number}\n").as_bytes());
    assert_eq!(xml_fault(&drawing.svg), None);
    assert_eq!(drawing.remarks, Vec::<String>::new(), "{name}");
    assert_eq!(offending(&drawing.svg), Some(at.to_string().as_str()), "{name}");
    assert!(drawing.svg.contains(&format!(">refused {number}</text>")), "{name}");
}

/// What only looks like a form line, byte by byte.
#[test]
fn no_other_bytes_are_the_form_line() {
    let rest = lines_of(&sample("sets").job)[1..].join("\n") + "\n";
    for line in ["form 2", "form\t2 ", "form\t2\r", " form\t2", "\u{feff}form\t2", "form\t2\0", "form\t\t2", "FORM\t2"]
    {
        named(format!("{line}\n{rest}").as_bytes(), 1, 1, line);
    }
    named(rest.as_bytes(), 1, 7, "no form line");
    named(b"form\t2\n", 1, 1, "nothing behind it");
    named(b"form\t2", 1, 1, "no line feed");
}

#[test]
fn lower_numbers_come_first() {
    let wrong = (10, "block 4 40800000 5");
    let lower = [
        (38, "end 0", 1, 38),
        (2, "opt 65536 3f800000 3f800000 3f800000", 2, 2),
        (3, "bank 4", 3, 3),
        (8, "block 0 3f800000 0", 4, 8),
        (11, "value 0 1 0", 4, 11),
        (22, "hint 6 0 0|seg 0 0 16 0 0", 5, 22),
        (31, "seg 6 2 30 0 6", 6, 31),
        (37, "use 3 7", 7, 37),
    ];
    for (line, text, number, at) in lower {
        named(&with(&[wrong, (line, text)]), number, at, text);
    }
    named(&with(&[wrong, (22, "seg 0 0 16 0 1")]), 10, 10, "both fields");
}

/// In every sheet that passes, each written field by itself.
#[test]
fn every_written_field_is_compared() {
    for pair in pairs().iter().filter(|pair| passes(pair)) {
        let job = if is_second(&pair.job) { pair.job.clone() } else { second(&pair.job) };
        let lines = lines_of(&job);
        let has_one = |line: &String| line.starts_with("block\t") || line.starts_with("seg\t");
        for at in (0..lines.len()).filter(|&at| has_one(&lines[at])) {
            let (own, written) = lines[at].rsplit_once('\t').unwrap();
            let mut lines = lines.clone();
            lines[at] = format!("{own}\t{}", written.parse::<u32>().unwrap() + 1);
            let fault = first_fault((lines.join("\n") + "\n").as_bytes()).unwrap();
            assert_eq!((fault.number, fault.line), (10, at + 1), "{}", pair.name);
        }
    }
}

#[test]
fn number_10_is_told_in_words() {
    let ten = sample("ten");
    let svg = draw(&ten.job, &ten.out).svg;
    assert!(svg.contains("Cause: a written set or first instruction differs from the implied one."));
    assert!(svg.contains("Line 31 of the job sheet: the set is written as 1, and it is 4, the leader of value 1."));
    assert_eq!((offending(&svg), svg.matches("; set written as 1</title>").count()), (Some("31"), 2));
    let block = draw(&with(&[(9, "block 2 3f800000 1")]), b"refused\t10\n").svg;
    assert!(block.contains("Line 9 of the job sheet: the first instruction is written as 1, and it is 2."));
    assert_eq!(block.matches("; first instruction written as 1; line 9</title>").count(), 1);
}

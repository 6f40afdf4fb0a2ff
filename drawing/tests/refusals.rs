//! Damaged job sheets: the picture names the number and the line.

mod common;

use common::{docs, folder, offending, xml_fault};
use drawing::{draw, first_fault};

const SOUND: &str = "opt 0 3f800000 3f800000 3f800000
bank 0
class 0000000f 3f800000 1 0
class 00000002 3f800000 2 0
class 00000004 3f800000 1 0
class 00000008 3f800000 1 0
reg 0
block 3 3f800000
block 3 40800000
value 0 0 0
value 0 1 0
vgroup 0 1
operand 4 0 0 1
hint 0 1 0
hint 0 1 1
seg 0 2 18 0
use 5 0 0 0
use 6 4 0 1 0
seg 1 6 18 0
use 5 1 0 2
use 4 3 0 3
use 6 4 0 1 1
end
";

fn sheet(text: &str) -> Vec<u8> {
    text.replace(' ', "\t").into_bytes()
}

/// The sound sheet with one line in the place of another; `|` parts several.
fn with(line: usize, text: &str) -> Vec<u8> {
    let mut lines: Vec<&str> = SOUND.lines().collect();
    let text = text.replace('|', "\n");
    lines[line - 1] = &text;
    sheet(&(lines.join("\n") + "\n"))
}

/// The line put in, its number, and the line and number that are then at fault.
const CASES: &[(usize, &str, u8, usize)] = &[
    (1, "opt 0 3f800000 3f800000", 1, 1),
    (1, "opt 00 3f800000 3f800000 3f800000", 1, 1),
    (1, "opt 4294967296 3f800000 3f800000 3f800000", 1, 1),
    (1, "opt 0 3F800000 3f800000 3f800000", 1, 1),
    (2, "class 00000001 3f800000 1 0", 1, 2),
    (3, "klass 0000000f 3f800000 1 0", 1, 3),
    (3, "class 0000000f 3f800000 1 2", 1, 3),
    (7, "reg 2", 1, 7),
    (8, "value 0 0 0", 1, 8),
    (10, "value 0 0 4", 1, 10),
    (10, "use 4 0 0 0", 1, 10),
    (11, "", 1, 11),
    (14, "hint 0 1 2", 1, 14),
    (16, "seg 0 2 18 16", 1, 16),
    (17, "use 10 0 0 0", 1, 17),
    (17, "use 5 0 0", 1, 17),
    (17, "use 5", 1, 17),
    (20, "bank 0", 1, 20),
    (23, "end|end", 1, 24),
    (23, "end 0", 1, 23),
    (1, "opt 65536 3f800000 3f800000 3f800000", 2, 1),
    (2, "bank 0|bank 0|bank 0|bank 0|bank 0|bank 0|bank 0|bank 0|bank 0", 2, 10),
    (9, "block 4094 40800000", 2, 9),
    (9, "block 4294967295 40800000", 2, 9),
    (1, "opt 0 3f800000 bf800000 3f800000", 3, 1),
    (1, "opt 0 3f800000 3f800000 49800001", 3, 1),
    (2, "bank 4", 3, 2),
    (3, "class 0000001f 3f800000 1 0", 3, 3),
    (4, "class 00000002 7f800000 2 0", 3, 4),
    (4, "class 00000002 3f800000 9 0", 3, 4),
    (4, "class 00000006 3f800000 2 0", 3, 4),
    (11, "value 1 1 0", 3, 11),
    (8, "block 0 3f800000", 4, 8),
    (8, "block 3 80000000", 4, 8),
    (8, "block 3 7fc00000", 4, 8),
    (10, "value 0 1 0|value 0 0 0", 4, 10),
    (11, "value 0 7 0", 4, 11),
    (12, "vgroup 0", 4, 12),
    (12, "vgroup", 4, 12),
    (12, "vgroup 0 2", 4, 12),
    (13, "operand 6 0 0 1", 4, 13),
    (13, "operand 4 65536 0 1", 4, 13),
    (13, "operand 4 0 1 1", 4, 13),
    (13, "operand 4 0 0 2", 4, 13),
    (13, "operand 4 0 0 1|operand 4 0 0 1", 4, 14),
    (14, "hint 2 1 0", 5, 14),
    (14, "hint 0 7 0", 5, 14),
    (14, "hint 0 1 1|hint 0 1 0", 5, 15),
    (16, "seg 2 2 18 0", 6, 16),
    (16, "seg 0 18 18 0", 6, 16),
    (16, "seg 0 3 18 0", 6, 16),
    (16, "seg 0 2 26 0", 6, 16),
    (19, "seg 0 6 18 0", 6, 19),
    (16, "seg 1 2 8 0", 6, 19),
    (16, "seg 1 2 4 0|seg 0 2 18 0", 6, 17),
    (18, "use 6 4 0 1 0|seg 0 16 20 0", 6, 19),
    (17, "use 5 5 0 0", 7, 17),
    (17, "use 5 9 0 0", 7, 17),
    (17, "use 5 0 0 4", 7, 17),
    (17, "use 5 0 65536 0", 7, 17),
    (17, "use 0 0 1", 7, 17),
    (17, "use 3 0", 7, 17),
    (17, "use 2 0 0 0 0 256", 7, 17),
    (18, "use 6 3 0 1 0", 7, 18),
    (18, "use 6 4 0 2 0", 7, 18),
    (18, "use 6 4 0 1 1", 7, 18),
    (18, "use 6 4 0 1 2", 7, 18),
    (19, "seg 1 8 18 0", 7, 20),
    (21, "use 4 0 0 3", 7, 21),
    (22, "use 6 4 0 1 1|use 4 3 0 3", 7, 23),
    (22, "use 5 4 0 2", 7, 22),
];

#[test]
fn the_sound_sheet_is_sound() {
    assert_eq!(first_fault(&sheet(SOUND)), None);
}

#[test]
fn the_line_is_named() {
    for &(line, text, number, at) in CASES {
        let job = with(line, text);
        let fault = first_fault(&job).unwrap_or_else(|| panic!("line {line}: {text} is no fault"));
        assert_eq!((fault.number, fault.line), (number, at), "line {line}: {text}: {}", fault.why);
        let drawing = draw(&job, format!("refused\t{number}\n").as_bytes());
        assert_eq!(xml_fault(&drawing.svg), None);
        assert_eq!(drawing.remarks, Vec::<String>::new(), "{text}");
        assert_eq!(offending(&drawing.svg), Some(at.to_string().as_str()), "{text}");
        assert!(drawing.svg.contains(&format!(">refused {number}</text>")), "{text}");
    }
}

/// A number that is not the sheet's own is told, and no line is guessed.
#[test]
fn another_number_is_told() {
    for &(line, text, number, _) in CASES {
        for other in (1..=10).filter(|&other| other != number) {
            let drawing = draw(&with(line, text), format!("refused\t{other}\n").as_bytes());
            assert_eq!(offending(&drawing.svg), None, "{text}");
            assert_eq!(drawing.remarks.len(), 1, "{text}");
        }
    }
    for number in (1..=7).chain([10]) {
        let drawing = draw(&sheet(SOUND), format!("refused\t{number}\n").as_bytes());
        assert_eq!((offending(&drawing.svg), drawing.remarks.len()), (None, 1));
        assert!(drawing.svg.contains("The line can&apos;t be told."));
    }
}

/// Refusals have the numbers 1 to 10.
#[test]
fn no_refusal_has_another_number() {
    for number in ["0", "11", "010", "-", "", "10\t0"] {
        let drawing = draw(&sheet(SOUND), format!("refused\t{number}\n").as_bytes());
        assert_eq!(drawing.remarks.len(), 1, "{number}");
        assert!(drawing.remarks[0].starts_with("The register sheet can't be read to its end: Line 1: "), "{number}");
    }
}

#[test]
fn ends_of_a_sheet() {
    let text = SOUND.trim_end();
    let whole = first_fault(&sheet(text)).unwrap();
    assert_eq!((whole.number, whole.line), (1, 23));
    let without = first_fault(&sheet(text.trim_end_matches("end"))).unwrap();
    assert_eq!((without.number, without.line), (1, 22));
    let empty = first_fault(b"").unwrap();
    assert_eq!((empty.number, empty.line), (1, 1));
}

/// The malformed line is shown as it stands, and what was read before it is drawn.
#[test]
fn number_1_shows_the_line() {
    let svg = draw(&with(18, "use 6 4 \u{7f}<&> 0"), b"refused\t1\n").svg;
    assert_eq!(offending(&svg), Some("18"));
    assert!(svg.contains(">use→6→4→\\x7f&lt;&amp;&gt;→0</text>"), "{svg}");
    assert_eq!(svg.matches("class=\"segment\"").count(), 1);
    let first = draw(&with(1, "nothing"), b"refused\t1\n").svg;
    assert_eq!(offending(&first), Some("1"));
    assert!(first.contains(">nothing</text>"));
}

#[test]
fn a_refused_job_is_drawn() {
    let pair = folder(&docs().join("pictures")).into_iter().find(|pair| pair.name == "refused").unwrap();
    let svg = draw(&pair.job, &pair.out).svg;
    assert_eq!(svg.matches("class=\"segment\"").count(), 2);
    assert_eq!(svg.matches("class=\"use kind-").count(), 5);
    assert_eq!(svg.matches("class=\"ring\"").count(), 1);
    assert_eq!(offending(&svg), Some("19"));
}

/// A stop names its set where only one can be meant, the ones that can where there are several.
#[test]
fn stops_name_their_set() {
    for pair in folder(&docs().join("samples")).iter().filter(|pair| pair.out == b"refused\t8\n") {
        assert!(draw(&pair.job, &pair.out).svg.contains("It is in set 0: no other set can be meant."), "{}", pair.name);
    }
    let plain = "value 0 0 0|value 0 1 0|value 0 2 0|seg 0 0 6 0|use 4 1 0 0|seg 1 0 6 0|use 4 1 0 2|use 4 1 0 3";
    let head: String = SOUND.lines().take(9).map(|line| format!("{line}\n")).collect();
    let job = |more: &str| sheet(&format!("{head}{}\n", format!("{plain}{more}|end").replace('|', "\n")));
    let one = draw(&job("|seg 2 0 6 0|use 4 1 0 2"), b"refused\t8\n").svg;
    assert!(one.contains("It is in set 1: no other set can be meant. Its lines are 15 to 17;"), "{one}");
    let two = draw(&job("|seg 2 0 6 0|use 4 1 0 2|use 4 1 1 3"), b"refused\t8\n").svg;
    assert!(two.contains("It is in one of the sets 1, 2;"));
    let none = draw(&sheet(&format!("{head}end\n")), b"refused\t8\n");
    assert_eq!(none.remarks.len(), 1);
    let full = draw(&job(""), b"refused\t9\n").svg;
    assert!(full.contains("In which set, and at which line, can&apos;t be told from the sheets."));
}

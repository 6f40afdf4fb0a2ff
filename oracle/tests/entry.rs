//! Each cause of the numbers 1 to 7, one edit at a time on a sound sheet.

use oracle::answer::{Room, answer};

const SOUND: &str = "opt 0 3f800000 3f800000 3f800000
bank 0
class 0000000f 3f800000 1 0
class 00000002 3f800000 1 1
class 00000004 3f800000 2 0
class 00000008 3f800000 3 0
reg 0
block 2 3f800000
block 2 3f000000
value 0 0 0
value 0 1 3
value 0 0 0
vgroup 0 1
operand 1 0 0 2
hint 0 0 0
hint 0 0 1
hint 1 4 1
seg 0 0 6 0
use 8 0 4294967295
use 6 1 0 2 0
seg 2 6 16 15
use 1 2 0
seg 1 2 16 0
use 5 0 65535 1
use 6 1 0 2 1
use 2 2 65535 65535 1 255
use 9 3
end
";

fn number_of(text: &str) -> Option<u8> {
    answer(text.replace(' ', "\t").as_bytes(), Room::default()).number
}

/// The number after `old`, which stands once, became `new`.
fn after(old: &str, new: &str) -> Option<u8> {
    assert_eq!(SOUND.matches(old).count(), 1, "{old:?}");
    number_of(&SOUND.replace(old, new))
}

fn all(number: u8, edits: &[(&str, &str)]) {
    for (old, new) in edits {
        assert_eq!(after(old, new), Some(number), "{old:?} to {new:?}");
    }
}

#[test]
fn the_sheet_is_sound() {
    assert_eq!(number_of(SOUND), None);
}

#[test]
fn one_is_about_lines() {
    all(
        1,
        &[
            ("opt 0", "opt 00"),
            ("opt 0", "opt "),
            ("opt 0", "opt +0"),
            ("opt 0", "opt 4294967296"),
            ("opt 0 3f800000", "opt 0 3F800000"),
            ("opt 0 3f800000", "opt 0 3f80000"),
            ("opt 0 3f800000 3f800000 3f800000\n", ""),
            ("bank 0\n", ""),
            ("bank 0\n", "bank 0 \n"),
            ("bank 0\n", "bank 0\r\n"),
            ("bank 0\n", "bank 0\n\n"),
            ("bank 0\n", "Bank 0\n"),
            ("1 1\nclass 00000004", "1 2\nclass 00000004"),
            ("class 00000008", "class 8"),
            ("reg 0\n", "reg 2\n"),
            ("reg 0\nblock 2 3f800000\n", "block 2 3f800000\nreg 0\n"),
            ("value 0 1 3\n", "value 0 1 4\n"),
            ("value 0 1 3\n", "value 0 1\n"),
            ("vgroup 0 1\n", "vgroup 0 x\n"),
            ("hint 1 4 1", "hint 1 4 2"),
            ("16 15\n", "16 16\n"),
            ("use 9 3\n", "use 10 3\n"),
            ("use 9 3\n", "use 9 3 0\n"),
            ("use 9 3\n", "use 9\n"),
            ("use 9 3\n", "use\n"),
            ("seg 0 0 6 0\nuse", "use"),
            ("end\n", ""),
            ("end\n", "end"),
            ("end\n", "end\n\n"),
            ("end\n", "end\nend\n"),
            ("end\n", "end 0\n"),
            ("end\n", "seg 0 0 4 0\nend\0\n"),
        ],
    );
    assert_eq!(number_of(""), Some(1));
    assert_eq!(number_of("end\n"), Some(1));
    let no_block = SOUND.lines().filter(|line| !line.starts_with("block"));
    let text: String = no_block.map(|line| format!("{line}\n")).collect();
    assert_eq!(number_of(&text), Some(1));
    let no_class = SOUND.lines().filter(|line| !line.starts_with("class"));
    let text: String = no_class.map(|line| format!("{line}\n")).collect();
    assert_eq!(number_of(&text), Some(1));
}

#[test]
fn two_is_about_counts() {
    all(
        2,
        &[
            ("opt 0", "opt 65536"),
            ("block 2 3f800000", "block 4095 3f800000"),
        ],
    );
    let sound = |line: &str, most: usize| {
        let there = SOUND
            .lines()
            .filter(|l| l.split(' ').next() == line.split(' ').next());
        let missing = most - there.count();
        let first = SOUND.find(&format!("\n{line}")).unwrap() + 1;
        let more = |count: usize| {
            let (before, behind) = SOUND.split_at(first);
            number_of(&format!(
                "{before}{}{behind}",
                format!("{line}\n").repeat(count)
            ))
        };
        (more(missing), more(missing + 1))
    };
    assert_eq!(sound("bank 0", 8), (None, Some(2)));
    assert_eq!(sound("reg 0", 256), (None, Some(2)));
    assert_eq!(sound("block 2 3f800000", 512), (None, Some(2)));
    assert_eq!(sound("vgroup 0 1", 256), (None, Some(2)));
    assert_eq!(sound("hint 0 0 0", 1024), (None, Some(2)));
    assert_eq!(sound("use 1 2 0", 4096), (None, Some(2)));
    assert_eq!(sound("class 0000000f 3f800000 1 0", 32).1, Some(2));
    assert_eq!(sound("value 0 0 0", 1024).1, Some(2));
    assert_eq!(sound("operand 1 0 0 2", 1024).1, Some(2));
    assert_eq!(sound("seg 0 0 6 0", 1024).1, Some(2));
}

#[test]
fn three_is_about_the_book() {
    all(
        3,
        &[
            ("bank 0", "bank 4"),
            ("opt 0 3f800000", "opt 0 49800001"),
            ("opt 0 3f800000", "opt 0 80000000"),
            ("opt 0 3f800000", "opt 0 7fc00000"),
            ("class 00000002 3f800000", "class 00000002 7f800000"),
            ("class 00000002 3f800000", "class 00000002 bf800000"),
            ("class 00000002", "class 00000012"),
            ("class 00000002", "class 80000002"),
            ("class 0000000f 3f800000 1", "class 0000000f 3f800000 0"),
            ("class 00000008 3f800000 3", "class 00000008 3f800000 9"),
            ("class 00000008", "class 00000009"),
            ("class 00000008", "class 0000000c"),
            ("value 0 1 3", "value 1 1 3"),
        ],
    );
    assert_eq!(
        after("class 00000002 3f800000", "class 00000002 49800000"),
        None
    );
}

#[test]
fn four_is_about_the_function() {
    all(
        4,
        &[
            ("block 2 3f000000", "block 0 3f000000"),
            ("block 2 3f000000", "block 2 80000000"),
            ("block 2 3f000000", "block 2 7f800000"),
            ("value 0 1 3", "value 0 3 3"),
            ("value 0 1 3", "value 0 2 3"),
            ("vgroup 0 1", "vgroup"),
            ("vgroup 0 1", "vgroup 0"),
            ("vgroup 0 1", "vgroup 0 3"),
            ("vgroup 0 1", "vgroup 0 1\nvgroup 0 0 0 0 0 0 0 0 0"),
            ("operand 1 0 0 2", "operand 1 0 0 2\noperand 1 0 0 2"),
            ("operand 1 0 0 2", "operand 4 0 0 2"),
            ("operand 1 0 0 2", "operand 1 65536 0 2"),
            ("operand 1 0 0 2", "operand 1 0 1 2"),
            ("operand 1 0 0 2", "operand 1 0 0 4"),
            ("operand 1 0 0 2", "operand 1 0 0 3"),
        ],
    );
    assert_eq!(after("block 2 3f000000", "block 2 7f7fffff"), None);
}

#[test]
fn five_is_about_hints() {
    all(
        5,
        &[
            ("hint 1 4 1", "hint 3 4 1"),
            ("hint 1 4 1", "hint 1 5 1"),
            ("hint 0 0 1\n", "hint 0 0 1\nhint 0 0 0\n"),
            ("hint 0 0 0\nhint", "hint 0 1 0\nhint"),
            ("hint 0 0 0\nhint", "hint 1 0 0\nhint"),
        ],
    );
    assert_eq!(after("hint 1 4 1\n", "hint 1 4 1\nhint 1 4 1\n"), None);
}

#[test]
fn six_is_about_segments() {
    all(
        6,
        &[
            ("seg 0 0 6 0", "seg 0 6 6 0"),
            ("seg 0 0 6 0", "seg 3 0 6 0"),
            ("seg 2 6 16 15", "seg 2 7 16 15"),
            ("seg 2 6 16 15", "seg 2 6 15 15"),
            ("seg 2 6 16 15", "seg 2 6 17 15"),
            ("seg 2 6 16 15", "seg 2 5 16 15"),
            ("seg 1 2 16 0\n", "seg 1 2 16 0\nseg 0 8 9 0\n"),
            ("seg 1 2 16 0\n", "seg 0 0 1 0\nseg 1 2 16 0\n"),
            ("seg 2 6 16 15", "seg 2 6 4294967294 15"),
        ],
    );
}

#[test]
fn seven_is_about_uses() {
    all(
        7,
        &[
            ("use 8 0 4294967295\n", "use 8 1 0\nuse 8 0 0\n"),
            ("use 9 3", "use 9 4"),
            ("use 9 3", "use 3 3"),
            ("use 9 3", "use 9 3\nuse 5 3 65536 1"),
            ("use 9 3", "use 9 3\nuse 5 3 0 4"),
            ("use 1 2 0", "use 1 2 1"),
            ("use 1 2 0", "use 0 3 0\nuse 0 3 1"),
            ("use 1 2 0", "use 1 0 0"),
            ("65535 65535 1 255", "65536 65535 1 255"),
            ("65535 65535 1 255", "65535 65536 1 255"),
            ("65535 65535 1 255", "65535 65535 4 255"),
            ("65535 65535 1 255", "65535 65535 1 256"),
            ("seg 0 0 6 0", "seg 0 0 5 0"),
            ("seg 1 2 16 0", "seg 1 4 16 0"),
            ("seg 1 2 16 0", "seg 1 2 14 0"),
            ("use 6 1 0 2 1", "use 6 1 1 2 1"),
            ("use 6 1 0 2 1", "use 6 1 0 3 1"),
            ("use 6 1 0 2 1", "use 6 1 0 2 2"),
            ("use 6 1 0 2 1", "use 6 1 0 2 0"),
            ("use 6 1 0 2 1", "use 6 1 0 2 256"),
        ],
    );
}

#[test]
fn the_lowest_number_is_given() {
    let both = |first: (&str, &str), second: (&str, &str)| {
        number_of(&SOUND.replace(first.0, first.1).replace(second.0, second.1))
    };
    assert_eq!(both(("use 9 3", "use 3 3"), ("bank 0", "bank 9")), Some(3));
    assert_eq!(
        both(("use 9 3", "use 3 3"), ("opt 0", "opt 65536")),
        Some(2)
    );
    assert_eq!(
        both(("seg 0 0 6", "seg 0 6 6"), ("hint 1 4", "hint 1 5")),
        Some(5)
    );
    assert_eq!(
        both(("seg 0 0 6", "seg 0 6 6"), ("value 0 1", "value 0 2")),
        Some(4)
    );
    assert_eq!(both(("opt 0", "opt 65536"), ("end\n", "end")), Some(1));
}

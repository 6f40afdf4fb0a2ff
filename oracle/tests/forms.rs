//! The second job form: each reading of it by name, on small sheets, with numbers written by hand; and generated sheets,
//! held to another way of reading them.

use std::collections::BTreeMap;

use oracle::answer::{Room, answer, tested};
use oracle::make::{PROFILES, first_form, make, second_damaged_cases, second_form, what};
use oracle::sheet;

const BODY: &str = "opt 0 3f800000 3f800000 3f800000
bank 0
class 0000000f 3f800000 1 0
class 00000002 3f800000 1 1
class 00000004 3f800000 2 0
class 00000008 3f800000 3 0
reg 0
block 2 3f800000 0
block 2 3f000000 2
value 0 0 0
value 0 1 3
value 0 0 0
vgroup 0 1
operand 1 0 0 2
hint 0 0 0
hint 0 0 1
hint 1 4 1
seg 0 0 6 0 0
use 8 0 4294967295
use 6 1 0 2 0
seg 2 6 16 15 0
use 1 2 0
seg 1 2 16 0 1
use 5 0 65535 1
use 6 1 0 2 1
use 2 2 65535 65535 1 255
use 9 3
end
";
/// The same in the first form.
const FIRST: &str = "opt 0 3f800000 3f800000 3f800000
bank 0
class 0000000f 3f800000 1 0
class 00000002 3f800000 1 1
class 00000004 3f800000 2 0
class 00000008 3f800000 3 0
reg 0
block 2 3f800000
block 2 3f000000
value 0 0 0
value 0 1 3
value 0 0 0
vgroup 0 1
operand 1 0 0 2
hint 0 0 0
hint 0 0 1
hint 1 4 1
seg 0 0 6 0
use 8 0 4294967295
use 6 1 0 2 0
seg 2 6 16 15
use 1 2 0
seg 1 2 16 0
use 5 0 65535 1
use 6 1 0 2 1
use 2 2 65535 65535 1 255
use 9 3
end
";

fn tabs(text: &str) -> String {
    text.replace(' ', "\t")
}

fn number_of(text: &str) -> Option<u8> {
    answer(tabs(text).as_bytes(), Room::default()).number
}

fn sound() -> String {
    format!("form 2\n{BODY}")
}

/// The number after each of `edits`, whose first text stands once, was made in the sound sheet.
fn after(edits: &[(&str, &str)]) -> Option<u8> {
    let mut text = sound();
    for (old, new) in edits {
        assert_eq!(text.matches(old).count(), 1, "{old:?}");
        text = text.replace(old, new);
    }
    number_of(&text)
}

fn all(number: u8, edits: &[(&str, &str)]) {
    for &(old, new) in edits {
        assert_eq!(after(&[(old, new)]), Some(number), "{old:?} to {new:?}");
    }
}

#[test]
fn both_forms_are_sound_and_have_the_same_answer() {
    let [first, second] = [FIRST, &sound()].map(|text| {
        let found = answer(tabs(text).as_bytes(), Room::default());
        (found.number, found.text)
    });
    assert_eq!(first.0, None);
    assert_eq!(first, second);
}

const CASE_A: &str = "form 2
opt 0 3f800000 3f800000 3f800000
bank 0
class 00000007 3f800000 1 0
class 00000002 3f800000 1 0
class 00000004 3f800000 1 0
block 2 3f800000 0
block 2 3f000000 2
value 0 0 0
seg 0 2 14 0 0
use 5 0 0 1
use 4 3 0 2
end
";
const ANSWER_OF_A: &str = "vreg 0 0 1 3f000000 - 0 0
seg 0 2 8 2 own
use 5 0 0 1
vreg 1 0 2 3e800000 - 0 0
seg 0 8 14 1 own
use 4 3 0 2
end 2 0
";

#[test]
fn case_a_in_the_second_form_prints_its_answer() {
    let found = answer(tabs(CASE_A).as_bytes(), Room::default());
    assert_eq!(found.text, tabs(ANSWER_OF_A));
}

/// What may stand for the form line, and is none.
const LINES: [&str; 18] = [
    "",
    "form 1\n",
    "form 0\n",
    "form 3\n",
    "form 02\n",
    "form 22\n",
    "form 4294967298\n",
    "form \n",
    "form\n",
    "form 2 \n",
    "form 2 2\n",
    "form 2\r\n",
    "form 2",
    "form 2\n\n",
    "\nform 2\n",
    "Form 2\n",
    " form 2\n",
    "form 2\nform 2\n",
];

/// R-3.1: once, as the first line, these bytes.
#[test]
fn r_3_1_the_form_line() {
    all(1, &LINES.map(|line| ("form 2\n", line)));
    all(
        1,
        &[
            ("bank 0\n", "form 2\nbank 0\n"),
            ("end\n", "form 2\nend\n"),
            ("end\n", "end\nform 2\n"),
        ],
    );
    let blank = tabs(&sound()).replacen('\t', " ", 1);
    assert_eq!(answer(blank.as_bytes(), Room::default()).number, Some(1));
    let line = sound().len() - BODY.len();
    for cut in 0..=line {
        assert_eq!(number_of(&sound()[..cut]), Some(1), "{cut}");
    }
}

/// R-3.1: in a sheet of the first form every line that begins so is of an unknown kind.
#[test]
fn r_3_1_no_form_line_is_known_in_the_first_form() {
    for line in ["form 1\n", "form 2\n", "form\n"] {
        assert_eq!(number_of(&format!("{line}{FIRST}")), Some(1), "{line}");
        assert_eq!(number_of(&format!("{FIRST}{line}")), Some(1), "{line}");
        let behind = FIRST.replace("bank 0\n", &format!("{line}bank 0\n"));
        assert_eq!(number_of(&behind), Some(1), "{line}");
    }
}

/// R-3.2: three fields and five, each a number like others.
#[test]
fn r_3_2_the_written_fields() {
    for (line, field) in [("block 2 3f000000 2", "2"), ("seg 1 2 16 0 1", "1")] {
        let rest = line.strip_suffix(field).unwrap();
        let others = [
            rest.trim_end().to_string(),
            rest.to_string(),
            format!("{line} "),
            format!("{line} {field}"),
            format!("{line}\r"),
            format!("{rest}0{field}"),
            format!("{rest}+{field}"),
            format!("{rest}-{field}"),
            format!("{rest}4294967296"),
            format!("{rest}18446744073709551617"),
            format!("{rest}0000000{field}"),
            format!("{rest}{field}a"),
        ];
        for other in others {
            all(1, &[(line, &other)]);
        }
        all(10, &[(line, &format!("{rest}4294967295"))]);
    }
}

/// Other records with a field more.
const LONGER: [(&str, &str); 10] = [
    (
        "opt 0 3f800000 3f800000 3f800000\n",
        "opt 0 3f800000 3f800000 3f800000 0\n",
    ),
    ("bank 0\n", "bank 0 0\n"),
    (
        "class 00000008 3f800000 3 0\n",
        "class 00000008 3f800000 3 0 0\n",
    ),
    ("reg 0\n", "reg 0 0\n"),
    ("value 0 1 3\n", "value 0 1 3 1\n"),
    ("operand 1 0 0 2\n", "operand 1 0 0 2 0\n"),
    ("hint 1 4 1\n", "hint 1 4 1 1\n"),
    ("use 1 2 0\n", "use 1 2 0 0\n"),
    ("use 9 3\n", "use 9 3 1\n"),
    ("end\n", "end 0\n"),
];

/// R-3.2: no record of the first form has them, and no other record of the second has more than before.
#[test]
fn r_3_2_no_other_record_changes() {
    for (old, new) in [
        ("block 2 3f000000\n", "block 2 3f000000 2\n"),
        ("seg 1 2 16 0\n", "seg 1 2 16 0 1\n"),
    ] {
        assert_eq!(FIRST.matches(old).count(), 1);
        assert_eq!(number_of(&FIRST.replace(old, new)), Some(1), "{new}");
    }
    all(1, &LONGER);
}

/// R-3.3: the instructions of the blocks before it; the leader of the value, whichever value it is.
#[test]
fn r_3_3_the_implied_ones() {
    let blocks = "block 2 3f800000 0\nblock 2 3f000000 2\n";
    let with = |lines: &str| after(&[(blocks, lines)]);
    assert_eq!(with("block 4 3f800000 0\n"), None);
    assert_eq!(with("block 1 3f800000 0\nblock 3 3f000000 1\n"), None);
    let three = "block 1 3f800000 0\nblock 2 3f000000 1\nblock 1 3f000000 3\n";
    assert_eq!(with(three), None);
    assert_eq!(with(&three.replace(" 3\n", " 2\n")), Some(10));
    assert_eq!(with(&three.replace(" 3\n", " 1\n")), Some(10));
    assert_eq!(with("block 1 3f800000 1\nblock 3 3f000000 2\n"), Some(10));
    assert_eq!(with("block 1 3f800000 1\nblock 3 3f000000 1\n"), Some(10));
    assert_eq!(with("block 1 3f800000 1\nblock 3 3f000000 4\n"), Some(10));
    all(
        10,
        &[
            ("seg 2 6 16 15 0", "seg 2 6 16 15 2"),
            ("seg 2 6 16 15 0", "seg 2 6 16 15 1"),
            ("seg 1 2 16 0 1", "seg 1 2 16 0 0"),
            ("seg 1 2 16 0 1", "seg 1 2 16 0 2"),
            ("seg 0 0 6 0 0", "seg 0 0 6 0 1"),
        ],
    );
}

/// R-3.4: a set that is no value and a first instruction above the count are 10 like any other.
#[test]
fn r_3_4_no_rule_of_their_own() {
    all(
        10,
        &[
            ("seg 1 2 16 0 1", "seg 1 2 16 0 3"),
            ("seg 1 2 16 0 1", "seg 1 2 16 0 1024"),
            ("seg 1 2 16 0 1", "seg 1 2 16 0 4294967295"),
            ("block 2 3f000000 2", "block 2 3f000000 4"),
            ("block 2 3f000000 2", "block 2 3f000000 5"),
            ("block 2 3f000000 2", "block 2 3f000000 4097"),
            ("block 2 3f800000 0", "block 2 3f800000 4294967295"),
        ],
    );
    let both = [
        ("seg 1 2 16 0 1", "seg 1 2 16 0 0"),
        ("block 2 3f000000 2", "block 2 3f000000 3"),
    ];
    assert_eq!(after(&both), Some(10));
}

/// A written field that differs.
const WRONG: [(&str, &str); 2] = [
    ("seg 1 2 16 0 1", "seg 1 2 16 0 0"),
    ("block 2 3f000000 2", "block 2 3f000000 3"),
];
/// Another cause beside it.
const CAUSES: [(u8, &str, &str); 10] = [
    (1, "end\n", "end\nend\n"),
    (1, "seg 0 0 6 0 0", "seg 0 0 6 0 00"),
    (2, "opt 0", "opt 65536"),
    (3, "bank 0\n", "bank 9\n"),
    (4, "operand 1 0 0 2", "operand 4 0 0 2"),
    (4, "block 2 3f800000 0", "block 0 3f800000 0"),
    (5, "hint 1 4 1", "hint 1 5 1"),
    (6, "seg 2 6 16 15 0", "seg 2 6 17 15 0"),
    (6, "seg 2 6 16 15 0", "seg 3 6 16 15 0"),
    (7, "use 9 3", "use 3 3"),
];

/// R-3.5: each of the tests 1 to 7 comes before 10.
#[test]
fn r_3_5_one_to_seven_come_before_ten() {
    for wrong in WRONG {
        assert_eq!(after(&[wrong]), Some(10));
        for (number, old, new) in CAUSES {
            let edits = [wrong, (old, new)];
            assert_eq!(after(&edits), Some(number), "{edits:?}");
        }
    }
}

/// R-3.5: of a segment of no value, an empty block and too many instructions, whatever is written.
#[test]
fn r_3_5_any_field_may_stand_beside_another_cause() {
    for set in ["0", "3", "4294967295"] {
        let new = format!("seg 3 6 16 15 {set}");
        all(6, &[("seg 2 6 16 15 0", &new)]);
    }
    for first in ["0", "1", "2", "4294967295"] {
        let new = format!("block 0 3f000000 {first}");
        all(4, &[("block 2 3f000000 2", &new)]);
    }
    all(2, &[("block 2 3f800000 0", "block 4294967295 3f800000 0")]);
}

/// Case B in the second form: its only use is admitted by no register.
const STOPS: &str = "form 2
opt 0 3f800000 3f800000 3f800000
bank 0
class 00000001 3f800000 1 0
class 00000002 3f800000 1 0
block 2 3f800000 0
value 0 0 0
seg 0 0 6 0 0
use 4 1 0 1
end
";

/// R-3.5: 10 comes before 8 and 9.
#[test]
fn r_3_5_ten_comes_before_eight_and_nine() {
    let in_room =
        |text: &str, room: &str| answer(tabs(text).as_bytes(), Room::parse(room).unwrap()).number;
    let wrong_set = STOPS.replace("seg 0 0 6 0 0", "seg 0 0 6 0 1");
    let wrong_first = STOPS.replace("3f800000 0\nvalue", "3f800000 2\nvalue");
    assert_eq!(in_room(STOPS, "1,1,1,0"), Some(8));
    assert_eq!(in_room(STOPS, "0,1,1,0"), Some(9));
    for room in ["1,1,1,0", "0,1,1,0", "0,0,0,0"] {
        assert_eq!(in_room(&wrong_set, room), Some(10), "{room}");
        assert_eq!(in_room(&wrong_first, room), Some(10), "{room}");
    }
}

/// R-3.6: the number alone.
#[test]
fn r_3_6_effects() {
    let text = sound().replace("seg 1 2 16 0 1", "seg 1 2 16 0 0");
    let found = answer(tabs(&text).as_bytes(), Room::default());
    assert_eq!((&*found.text, found.cause), ("refused\t10\n", None));
}

#[test]
fn the_rewriting_is_as_written_by_hand() {
    let rewritten = second_form(tabs(FIRST).as_bytes());
    assert_eq!(String::from_utf8(rewritten).unwrap(), tabs(&sound()));
    let broken =
        "block\nblock x y\nblock 4294967295 z\nblock 1\nblock\t\nvalue 0\nseg 0 1\nseg 1\nseg x";
    let expected = "form 2\nblock\nblock x y 0\nblock 4294967295 z 0\nblock 1 4294967295\nblock\t 0\nvalue 0\nseg 0 1 0\nseg 1 0\nseg x 0";
    let rewritten = second_form(tabs(broken).as_bytes());
    assert_eq!(String::from_utf8(rewritten).unwrap(), tabs(expected));
}

/// A decimal number without leading zeros, up to 4,294,967,295.
fn is_number(field: &[u8]) -> bool {
    let text = String::from_utf8_lossy(field);
    let number = text.parse::<u32>().ok();
    number.is_some_and(|number| number.to_string() == text)
}

/// The sheet without its form line and the last fields of its block and seg lines, or none if one of these is no number.
fn stripped(records: &[u8]) -> Option<Vec<u8>> {
    let mut lines = Vec::new();
    for line in records.split(|&byte| byte == b'\n') {
        let mut fields: Vec<&[u8]> = line.split(|&byte| byte == b'\t').collect();
        if fields.len() > 1 && [b"block".as_slice(), b"seg"].contains(&fields[0]) {
            fields.pop().filter(|field| is_number(field))?;
        }
        lines.push(fields.join(&b'\t'));
    }
    Some(lines.join(&b'\n'))
}

/// The answer by the texts alone: the first form's, but 10 for a sheet that is not what its own first form is rewritten to.
fn by_text(sheet: &[u8]) -> String {
    let Some(records) = sheet.strip_prefix(b"form\t2\n") else {
        return answer(sheet, Room::default()).text;
    };
    let Some(first) = stripped(records) else {
        return "refused\t1\n".to_string();
    };
    if tested(&first).is_ok() && second_form(&first) != sheet {
        return "refused\t10\n".to_string();
    }
    answer(&first, Room::default()).text
}

#[test]
fn damaged_sheets_are_answered_as_by_their_texts() {
    let mut numbers: BTreeMap<Option<u8>, usize> = BTreeMap::new();
    for seed in 0..24 * second_damaged_cases() {
        let bytes = make("second-damaged", seed).unwrap().bytes;
        let found = answer(&bytes, Room::default());
        assert_eq!(found.text, by_text(&bytes), "second-damaged {seed}");
        *numbers.entry(found.number).or_default() += 1;
    }
    let every: Vec<Option<u8>> = [None].into_iter().chain((1..=10).map(Some)).collect();
    assert!(numbers.keys().copied().eq(every), "{numbers:?}");
    assert!(numbers.values().all(|&count| count >= 24), "{numbers:?}");
}

/// Case A cut at every byte, and with every byte left out, changed or one more before it.
#[test]
fn sheets_near_case_a_are_answered_as_by_their_texts() {
    let whole = tabs(CASE_A).into_bytes();
    let mut tens = 0;
    for place in 0..whole.len() {
        let (before, behind) = whole.split_at(place);
        let mut near = vec![before.to_vec(), [before, &behind[1..]].concat()];
        for byte in *b"\0\t\n\r 0123456789afxF-+." {
            near.push([before, &[byte], &behind[1..]].concat());
            near.push([before, &[byte], behind].concat());
        }
        for sheet in near {
            let found = answer(&sheet, Room::default());
            let text = String::from_utf8_lossy(&sheet);
            assert_eq!(found.text, by_text(&sheet), "{text:?}");
            tens += usize::from(found.number == Some(10));
        }
    }
    assert!(tens > 60, "{tens}");
}

/// The number that stands in front of what a sheet is made for.
#[test]
fn damaged_sheets_get_their_numbers() {
    for seed in 0..8 * second_damaged_cases() {
        let what = what("second-damaged", seed).unwrap();
        let Ok(number) = what[..what.find(':').unwrap()].parse() else {
            assert!(what.starts_with("any: "), "{what}");
            continue;
        };
        let bytes = make("second-damaged", seed).unwrap().bytes;
        let found = answer(&bytes, Room::default()).number;
        assert_eq!(found, Some(number), "second-damaged {seed}: {what}");
    }
}

#[test]
fn both_forms_of_a_sheet_have_the_same_answer() {
    for profile in PROFILES {
        let large = ["limits", "full-tables", "many-merges", "long-sheets"].contains(&profile);
        for seed in 0..if large { 20 } else { 1000 } {
            let second = make(&format!("second:{profile}"), seed).unwrap();
            let first = make(profile, seed).unwrap();
            let room = first.room.unwrap_or_default();
            assert_eq!(first.room, second.room);
            let [first, second] = [first, second].map(|frame| answer(&frame.bytes, room).text);
            assert_eq!(first, second, "{profile} {seed}");
        }
    }
}

#[test]
fn mixed_sheets_are_sound() {
    for seed in 0..1000 {
        let first = first_form("second", seed).unwrap();
        assert!(sheet::read(&first.bytes).is_some());
        let second = make("second", seed).unwrap();
        assert_eq!(second.bytes, second_form(&first.bytes));
        let [first, second] = [first, second].map(|frame| answer(&frame.bytes, Room::default()));
        assert_eq!(first.text, second.text, "second {seed}");
        assert!(![Some(1), Some(10)].contains(&second.number));
    }
}

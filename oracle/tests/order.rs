//! The second reading of the order, on small sheets written by hand, each difference by itself, and on generated ones;
//! and what the threes of compare_order.sh bring up.

use std::collections::BTreeMap;

use oracle::answer::{Room, answer};
use oracle::convert::{number, to_form1, to_form2};
use oracle::make::{PROFILES, make, second_form, three};
use oracle::order::{order, shelved};

fn tabs(text: &str) -> Vec<u8> {
    text.replace(' ', "\t").into_bytes()
}

/// What is written of two sheets, without its line feed.
fn told(first: &[u8], second: &[u8]) -> String {
    let output = String::from_utf8(order(first, second)).unwrap();
    let word = output.strip_suffix('\n').unwrap();
    word.replace('\t', " ")
}

/// A text of the first form in both forms.
fn forms(text: &str) -> [Vec<u8>; 2] {
    let first = tabs(text);
    let second = to_form2(&first);
    assert_eq!(number(&second), None, "{text}");
    assert_eq!(to_form1(&second), first);
    [first, second]
}

/// The first goes before the second, whatever form either has; and each is the same as itself.
fn goes_before(first: &str, second: &str) {
    let (first, second) = (forms(first), forms(second));
    for one in &first {
        for other in &second {
            assert_eq!(told(one, other), "before");
            assert_eq!(told(other, one), "after");
        }
        assert_eq!(told(one, &first[0]), "same");
        assert_eq!(told(&first[1], one), "same");
    }
}

fn edited(text: &str, old: &str, new: &str) -> String {
    assert_eq!(text.matches(old).count(), 1, "{old:?}");
    text.replace(old, new)
}

/// Every record and every kind of use but 3. What can be changed without a change of something before it has a record
/// that nothing speaks of.
const EVERY: &str = "opt 9 3f000000 3e800000 3e000000
bank 0
bank 3
class 0000000f 3f800000 1 0
class 00000009 3f800000 1 1
class 00000004 3f800000 2 0
class 00000008 00000000 3 0
class 00000000 3f000000 1 0
class 00000000 3f800000 2 0
reg 0
reg 1
reg 0
block 9 3f800000
block 2 3f000000
block 93 00000000
block 2 3fffffff
value 0 0 0
value 0 1 3
value 1 0 1
value 1 3 2
value 0 0 0
vgroup 0 0
vgroup 1 0 1
vgroup 0 0
vgroup 0 1 2
operand 1 9 0 2
operand 1 10 0 2
operand 1 11 1 3
operand 1 12 1 3
operand 9 9 0 2
hint 0 0 0
hint 0 0 1
hint 1 9 0
seg 0 0 8 0
use 8 0 9
use 6 1 9 2 0
use 7 1 9 2 0
seg 0 9 12 9
seg 2 16 424 15
use 1 5 0
use 9 104
seg 1 2 424 0
use 5 0 9 1
use 7 1 11 3 0
use 2 2 9 9 1 9
use 4 3 9 0
use 0 105 0
seg 3 421 424 8
end
";

/// In every field the lesser before the greater, and 9 before 10.
const FIELDS: [(&str, &str); 47] = [
    ("opt 9 3f000000", "opt 10 3f000000"),
    ("opt 9 3f000000 3e800000", "opt 9 3f000001 3e800000"),
    ("3e800000 3e000000\n", "3f000000 3e000000\n"),
    ("3e800000 3e000000\n", "3e800000 3f000000\n"),
    ("bank 0\n", "bank 1\n"),
    ("bank 3\n", "bank 5\n"),
    ("class 00000009", "class 0000000a"),
    ("class 00000000 3f000000", "class 00000001 3f000000"),
    ("class 00000000 3f000000", "class 00000000 40000000"),
    ("3f000000 1 0\nclass", "3f000000 8 0\nclass"),
    ("3f000000 1 0\nclass", "3f000000 1 1\nclass"),
    ("reg 0\nreg 1\n", "reg 1\nreg 1\n"),
    ("reg 1\nreg 0\n", "reg 1\nreg 1\n"),
    ("block 9 3f800000", "block 10 3f800000"),
    ("block 93 00000000", "block 100 00000000"),
    ("block 93 00000000", "block 93 00000001"),
    ("block 2 3fffffff", "block 2 40000000"),
    ("value 0 0 0\nvgroup", "value 1 0 0\nvgroup"),
    ("value 0 0 0\nvgroup", "value 0 4 0\nvgroup"),
    ("value 0 0 0\nvgroup", "value 0 0 3\nvgroup"),
    ("vgroup 0 1 2", "vgroup 1 1 2"),
    ("vgroup 0 1 2", "vgroup 0 2 2"),
    ("vgroup 0 1 2", "vgroup 0 1 3"),
    ("operand 9 9 0 2", "operand 10 9 0 2"),
    ("operand 9 9 0 2", "operand 9 10 0 2"),
    ("operand 9 9 0 2", "operand 9 9 2 2"),
    ("operand 9 9 0 2", "operand 9 9 0 5"),
    ("hint 1 9 0", "hint 2 9 0"),
    ("hint 1 9 0", "hint 1 10 0"),
    ("hint 1 9 0", "hint 1 9 1"),
    ("seg 0 9 12 9", "seg 2 9 12 9"),
    ("seg 0 9 12 9", "seg 0 10 12 9"),
    ("seg 0 9 12 9", "seg 0 9 13 9"),
    ("seg 0 9 12 9", "seg 0 9 12 10"),
    ("use 0 105 0", "use 1 105 0"),
    ("use 0 105 0", "use 0 105 1"),
    ("use 1 5 0", "use 1 10 0"),
    ("use 1 5 0", "use 1 5 2"),
    ("use 2 2 9 9 1 9", "use 2 3 9 9 1 9"),
    ("use 2 2 9 9 1 9", "use 2 2 10 9 1 9"),
    ("use 2 2 9 9 1 9", "use 2 2 9 10 1 9"),
    ("use 2 2 9 9 1 9", "use 2 2 9 9 2 9"),
    ("use 2 2 9 9 1 9", "use 2 2 9 9 1 10"),
    ("use 4 3 9 0", "use 4 3 10 0"),
    ("use 4 3 9 0", "use 5 3 9 0"),
    ("use 4 3 9 0", "use 4 9 9 0"),
    ("use 4 3 9 0", "use 4 3 9 1"),
];
/// The others of the kinds of use.
const USES: [(&str, &str); 9] = [
    ("use 5 0 9 1", "use 5 1 9 1"),
    ("use 5 0 9 1", "use 5 0 10 1"),
    ("use 5 0 9 1", "use 5 0 9 2"),
    ("use 6 1 9 2 0", "use 6 1 10 2 0"),
    ("use 6 1 9 2 0", "use 6 1 9 2 1"),
    ("use 7 1 9 2 0", "use 7 1 10 2 0"),
    ("use 7 1 9 2 0", "use 7 1 9 2 1"),
    ("use 8 0 9", "use 8 0 10"),
    ("use 9 104", "use 9 105"),
];

#[test]
fn each_field() {
    for (old, new) in FIELDS.into_iter().chain(USES) {
        goes_before(EVERY, &edited(EVERY, old, new));
    }
}

/// The highest number in a field of each form; the length tells before the digits.
#[test]
fn numbers_by_size() {
    let parameters = [
        "0",
        "1",
        "5",
        "9",
        "10",
        "11",
        "49",
        "50",
        "99",
        "100",
        "101",
        "999",
        "1000",
        "65535",
        "65536",
        "999999999",
        "1000000000",
        "2147483647",
        "2147483648",
        "4294967294",
        "4294967295",
    ];
    for pair in parameters.windows(2) {
        let with = |parameter: &str| edited(EVERY, "use 8 0 9", &format!("use 8 0 {parameter}"));
        goes_before(&with(pair[0]), &with(pair[1]));
    }
    goes_before(
        &edited(EVERY, "opt 9 ", "opt 9999 "),
        &edited(EVERY, "opt 9 ", "opt 65535 "),
    );
}

/// Whole numbers by their bits: no bit is a sign, and `a` to `f` are digits above 9.
#[test]
fn masks_and_floats_by_their_bits() {
    let masks = [
        "00000000", "00000001", "00000009", "0000000a", "0000000f", "00000010", "0fffffff",
        "7fffffff", "80000000", "80000001", "fffffff9", "ffffffff",
    ];
    let more = "class 00000000 3f800000 1 0\n".repeat(26);
    let many = edited(EVERY, "reg 0\nreg 1\n", &format!("{more}reg 0\nreg 1\n"));
    for pair in masks.windows(2) {
        let with = |mask: &str| edited(&many, "class 0000000f", &format!("class {mask}"));
        goes_before(&with(pair[0]), &with(pair[1]));
    }
    let floats = [
        "00000000", "00000001", "007fffff", "00800000", "39999999", "3a000000", "3f7fffff",
        "3f800000", "3fffffff", "40000000", "49800000", "7f7fffff",
    ];
    for pair in floats.windows(2) {
        let with = |float: &str| edited(EVERY, "block 93 00000000", &format!("block 93 {float}"));
        goes_before(&with(pair[0]), &with(pair[1]));
        if pair[1] < "49800001" {
            let with = |float: &str| edited(EVERY, "00 3e000000\n", &format!("00 {float}\n"));
            goes_before(&with(pair[0]), &with(pair[1]));
            let with = |float: &str| edited(EVERY, "08 00000000 3", &format!("08 {float} 3"));
            goes_before(&with(pair[0]), &with(pair[1]));
        }
    }
    // with the highest bit a float passes nowhere
    let minus = edited(EVERY, "block 93 00000000", "block 93 80000000");
    assert_eq!(told(&tabs(EVERY), &tabs(&minus)), "refused 4");
    let minus = edited(EVERY, "00 3e000000\n", "00 be000000\n");
    assert_eq!(told(&tabs(&minus), &tabs(EVERY)), "refused 3");
}

/// The first difference tells, and not the second, in a line and behind it.
#[test]
fn the_first_difference() {
    let both = [
        ("opt 9 3f000000", "opt 10 3e000000"),
        ("class 00000000 3f000000 1 0", "class 00000001 3e000000 1 0"),
        ("block 93 00000000\nblock 2", "block 94 00000000\nblock 1"),
        ("vgroup 0 1 2", "vgroup 0 2"),
        ("vgroup 0 0\nvgroup 0 1 2", "vgroup 0 0 0\nvgroup 0 0 2"),
        (
            "operand 9 9 0 2\nhint 0 0 0",
            "operand 9 10 0 2\nhint 0 0 1",
        ),
        ("hint 1 9 0", "hint 2 5 0"),
        ("seg 0 9 12 9", "seg 0 10 12 8"),
        ("seg 0 9 12 9", "seg 0 9 13 8"),
        ("use 1 5 0\nuse 9 104", "use 1 6 0\nuse 9 103"),
        ("use 2 2 9 9 1 9", "use 2 2 9 10 0 8"),
        ("use 4 3 9 0", "use 4 4 8 0"),
        ("use 4 3 9 0", "use 5 2 9 0"),
    ];
    for (old, new) in both {
        goes_before(EVERY, &edited(EVERY, old, new));
    }
    let changed = edited(EVERY, "opt 9 ", "opt 10 ");
    goes_before(
        EVERY,
        &edited(&changed, "use 0 105 0\nseg 3 421 424 8\n", ""),
    );
}

/// Of vgroups the one that ends first.
#[test]
fn a_vgroup_begins_another() {
    for (old, new) in [
        ("vgroup 0 1 2", "vgroup 0 1 2 0"),
        ("vgroup 0 1 2", "vgroup 0 1 2 4 4 4 4 4"),
    ] {
        goes_before(EVERY, &edited(EVERY, old, new));
    }
    goes_before(&edited(EVERY, "vgroup 0 1 2", "vgroup 0 1"), EVERY);
    // the lesser member tells before the end of a line
    goes_before(&edited(EVERY, "vgroup 0 1 2", "vgroup 0 0 4 4"), EVERY);
}

/// A record more of each kind goes before the kind that comes next, even if it has greater fields.
#[test]
fn a_record_more() {
    let more = [
        ("bank 3\n", "bank 3\nbank 5\n"),
        (
            "class 00000000 3f800000 2 0\n",
            "class 00000000 3f800000 2 0\nclass 0000003f 49800000 1 1\n",
        ),
        ("reg 1\nreg 0\n", "reg 1\nreg 0\nreg 1\n"),
        (
            "block 2 3fffffff\n",
            "block 2 3fffffff\nblock 3000 7f7fffff\n",
        ),
        ("value 0 0 0\nvgroup", "value 0 0 0\nvalue 1 5 3\nvgroup"),
        ("vgroup 0 1 2\n", "vgroup 0 1 2\nvgroup 4 4 4 4\n"),
        ("operand 9 9 0 2\n", "operand 9 9 0 2\noperand 105 0 1 3\n"),
        ("hint 1 9 0\n", "hint 1 9 0\nhint 4 106 1\n"),
        ("use 7 1 9 2 0\n", "use 7 1 9 2 0\nuse 8 2 4294967295\n"),
        ("use 9 104\n", "use 9 104\nuse 9 105\n"),
        ("seg 3 421 424 8\n", "seg 3 421 424 8\nuse 9 105\n"),
        ("seg 3 421 424 8\n", "seg 3 421 422 8\nseg 3 422 424 15\n"),
    ];
    for (old, new) in &more[..11] {
        goes_before(&edited(EVERY, old, new), EVERY);
    }
    // here the first line that differs is that of the segment before
    goes_before(&edited(EVERY, more[11].0, more[11].1), EVERY);
}

const SMALLEST: &str = "opt 0 00000000 00000000 00000000
bank 0
class 00000000 00000000 1 0
block 1 00000000
end
";

/// Each kind against each later one that can stand in the same place.
#[test]
fn kinds_in_order() {
    let value = edited(SMALLEST, "end\n", "value 0 0 0\nend\n");
    let group = edited(
        &value,
        "class 00000000 00000000 1 0\n",
        "class 00000000 00000000 2 0\n",
    );
    let grouped = edited(&group, "end\n", "vgroup 0 0\nend\n");
    let behind_blocks = ["value 0 0 0\n", ""];
    let behind_values = [
        "value 0 1 3\n",
        "vgroup 0 0\n",
        "hint 0 1 1\n",
        "seg 0 0 4 15\n",
        "",
    ];
    let behind_groups = [
        "vgroup 0 0 0 0\n",
        "operand 0 65535 0 0\n",
        "hint 0 1 1\n",
        "seg 0 0 4 15\n",
        "",
    ];
    let behind_segs = ["use 9 0\n", "seg 0 2 4 15\n", ""];
    let seg = edited(&value, "end\n", "seg 0 0 2 0\nend\n");
    let wide = edited(&value, "end\n", "seg 0 0 4 0\nend\n");
    let behind = |text: &str, lines: &str| edited(text, "end\n", &format!("{lines}end\n"));
    let in_order = |text: &str, lines: &[&str]| {
        for (place, earlier) in lines.iter().enumerate() {
            for later in &lines[place + 1..] {
                goes_before(&behind(text, earlier), &behind(text, later));
            }
        }
    };
    in_order(SMALLEST, &behind_blocks);
    in_order(&value, &behind_values);
    in_order(&grouped, &behind_groups);
    in_order(&seg, &behind_segs[1..]);
    in_order(&wide, &["use 9 0\n", ""]);
    in_order(&seg, &["use 8 0 4294967295\n", "seg 0 2 4 15\n", ""]);
    // behind the class line
    let class = "class 00000000 00000000 1 0\n";
    let before_block = [
        "class 00000000 00000000 1 0\n",
        "reg 1\n",
        "block 1 00000000\n",
    ];
    for (place, earlier) in before_block.iter().enumerate() {
        for later in &before_block[place + 1..] {
            let with = |line: &str| edited(SMALLEST, class, &format!("{class}{line}"));
            goes_before(&with(earlier), &with(later));
        }
    }
    let with = edited(SMALLEST, "bank 0\n", "bank 0\nbank 0\n");
    goes_before(&with, SMALLEST);
}

/// A use of two segments: where the first has it, it stands where the other has its second segment.
#[test]
fn use_against_seg_and_end() {
    let first = "opt 0 00000000 00000000 00000000
bank 0
class 00000000 00000000 1 0
block 3 00000000
value 0 0 0
seg 0 0 8 0
use 8 2 7
seg 0 8 12 0
end
";
    let second = edited(
        first,
        "use 8 2 7\nseg 0 8 12 0\n",
        "seg 0 8 12 0\nuse 8 2 7\n",
    );
    goes_before(first, &second);
    goes_before(first, &edited(first, "use 8 2 7\n", ""));
    goes_before(&second, &edited(first, "use 8 2 7\n", ""));
    goes_before(&second, &edited(&second, "seg 0 8 12 0\nuse 8 2 7\n", ""));
    goes_before(first, &edited(first, "seg 0 8 12 0\n", ""));
    // a use against the end
    let last = edited(first, "seg 0 8 12 0\n", "");
    goes_before(&last, &edited(&last, "use 8 2 7\n", ""));
}

/// One job in both forms is the same, and so is what `second_form` of the generators makes of it.
#[test]
fn the_same_job() {
    for text in [EVERY, SMALLEST] {
        let [first, second] = forms(text);
        for one in [&first, &second, &second_form(&first)] {
            for other in [&first, &second] {
                assert_eq!(told(one, other), "same");
            }
        }
    }
}

/// For each number a sheet with it in the first form, and one in the second.
fn refused() -> Vec<(u8, Vec<u8>)> {
    let causes = [
        (1, "end\n", ""),
        (1, "hint 1 9 0", "hint 1 09 0"),
        (2, "opt 9 ", "opt 65536 "),
        (3, "bank 3\n", "bank 6\n"),
        (4, "operand 9 9 0 2", "operand 106 9 0 2"),
        (5, "hint 1 9 0", "hint 1 107 0"),
        (6, "seg 2 16 424 15", "seg 2 16 425 15"),
        (7, "use 9 104", "use 3 104"),
    ];
    let mut sheets = vec![(1, Vec::new()), (1, tabs("form 2\n")), (1, tabs("\n"))];
    for (number, old, new) in causes {
        let sheet = tabs(&edited(EVERY, old, new));
        sheets.push((number, second_form(&sheet)));
        sheets.push((number, sheet));
    }
    let second = String::from_utf8(to_form2(&tabs(EVERY))).unwrap();
    for (old, new) in [
        ("\t8\t3\n", "\t8\t0\n"),
        ("block\t93\t00000000\t11\n", "block\t93\t00000000\t9\n"),
    ] {
        sheets.push((10, edited(&second, old, new).into_bytes()));
    }
    sheets
}

/// The first sheet's number, or else the second's.
#[test]
fn each_refusal() {
    let [first, second] = forms(EVERY);
    let refused = refused();
    for (number, sheet) in &refused {
        let expected = format!("refused {number}");
        for sound in [&first, &second] {
            assert_eq!(told(sheet, sound), expected);
            assert_eq!(told(sound, sheet), expected);
        }
        assert_eq!(told(sheet, sheet), expected);
        for (_, other) in &refused {
            assert_eq!(told(sheet, other), expected);
        }
    }
}

/// A job that stops, and one that overfills the tables of `vregs`, are compared as any other.
#[test]
fn eight_and_nine_play_no_part() {
    let stops = "opt 0 3f800000 3f800000 3f800000
bank 0
class 00000001 3f800000 1 0
class 00000002 3f800000 1 0
block 2 3f800000
value 0 0 0
seg 0 0 6 0
use 4 1 0 1
end
";
    let number = |sheet: &[u8]| answer(sheet, Room::default()).number;
    assert_eq!(number(&tabs(stops)), Some(8));
    goes_before(stops, &edited(stops, "use 4 1 0 1", "use 4 1 1 1"));
    let mut full = (0..).map(|seed| make("full-tables", seed).unwrap().bytes);
    let full = full.find(|sheet| number(sheet) == Some(9)).unwrap();
    assert_eq!(told(&full, &second_form(&full)), "same");
}

/// Where two second-form texts first differ: the word and the place of the field, or both words.
fn difference(first: &[u8], second: &[u8]) -> Option<String> {
    let lines = |sheet: &[u8]| -> Vec<Vec<String>> {
        let text = String::from_utf8(sheet.to_vec()).unwrap();
        let line = |line: &str| line.split('\t').map(str::to_string).collect();
        text.lines().map(line).collect()
    };
    let (first, second) = (lines(first), lines(second));
    let (one, other) = first
        .iter()
        .zip(&second)
        .find(|(one, other)| one != other)?;
    let least = one.len().min(other.len());
    let place = (0..least).find(|&at| one[at] != other[at]).unwrap_or(least);
    Some(match place {
        0 => {
            let mut words = [one[0].as_str(), &other[0]];
            words.sort_unstable();
            words.join(" and ")
        }
        _ if place == least => format!("{} longer", one[0]),
        _ => format!("{} {place}", one[0]),
    })
}

/// As many threes of each profile as compare_order.sh runs with COUNT 80: every answer comes up, each number in either
/// place and in both, and each place of a difference; and what is read is an order.
#[test]
fn everything_comes_up() {
    let (mut answers, mut places) = (BTreeMap::new(), BTreeMap::new());
    let mut threes = 0;
    for (profile, count) in profiles(80) {
        for seed in 1..=count {
            let sheets = three(&profile, seed).unwrap();
            let which = format!("{profile} {seed}");
            let texts = sheets.each_ref().map(|sheet| shelved(sheet).ok());
            let said = [0, 1, 2].map(|a| [0, 1, 2].map(|b| told(&sheets[a], &sheets[b])));
            threes += 1;
            if texts.iter().all(Option::is_some) {
                is_an_order(&said, &which);
            }
            for (a, b) in [(0, 1), (1, 2), (0, 2)] {
                let said = &said[a][b];
                let said = match (&texts[a], &texts[b]) {
                    (Some(first), Some(second)) => {
                        let place = difference(first, second);
                        assert_eq!(place.is_none(), said == "same", "{which}");
                        *places.entry(place.unwrap_or_default()).or_insert(0) += 1;
                        said.clone()
                    }
                    (None, Some(_)) => format!("{said} first"),
                    (Some(_), None) => format!("{said} second"),
                    (None, None) => format!("{said} both"),
                };
                *answers.entry(said).or_insert(0) += 1;
            }
        }
    }
    assert_eq!(threes, 21 * 80 + 8 * 8);
    for word in ["before", "same", "after"] {
        assert!(answers[word] >= 400, "{answers:?}");
    }
    for number in [1, 2, 3, 4, 5, 6, 7, 10] {
        for side in ["first", "second", "both"] {
            let name = format!("refused {number} {side}");
            assert!(answers.get(&name) >= Some(&10), "{name}: {answers:?}");
        }
    }
    assert_eq!(answers.len(), 3 + 3 * 8, "{answers:?}");
    for place in PLACES {
        assert!(places.contains_key(place), "{place}: {places:?}");
    }
}

/// Where two sheets may first differ. The third field of a block and the fifth of a segment are implied by what stands
/// before them.
const PLACES: [&str; 40] = [
    "opt 1",
    "opt 2",
    "opt 3",
    "opt 4",
    "bank 1",
    "class 1",
    "class 2",
    "class 3",
    "class 4",
    "reg 1",
    "block 1",
    "block 2",
    "value 1",
    "value 2",
    "value 3",
    "vgroup 1",
    "vgroup 2",
    "vgroup longer",
    "operand 1",
    "operand 2",
    "operand 3",
    "hint 1",
    "hint 2",
    "hint 3",
    "seg 1",
    "seg 2",
    "seg 3",
    "seg 4",
    "use 1",
    "use 2",
    "use 3",
    "use 4",
    "bank and class",
    "block and class",
    "block and reg",
    "operand and vgroup",
    "hint and seg",
    "seg and use",
    "end and seg",
    "end and use",
];

/// The answers to three sheets that pass.
fn is_an_order(said: &[[String; 3]; 3], which: &str) {
    let places = || 0..3;
    for (a, b) in places().flat_map(|a| places().map(move |b| (a, b))) {
        let turned = match said[a][b].as_str() {
            "before" => "after",
            "after" => "before",
            _ => "same",
        };
        assert_eq!(said[b][a], turned, "{which}");
        for c in places() {
            let steps = [&said[a][b], &said[b][c]];
            if steps.iter().all(|step| *step != "after") {
                let same = steps.iter().all(|step| *step == "same");
                let expected = if same { "same" } else { "before" };
                assert_eq!(said[a][c], expected, "{which}");
            }
        }
    }
}

/// The profiles of compare_order.sh and how many threes of each.
fn profiles(count: u64) -> Vec<(String, u64)> {
    let mut all = Vec::new();
    for profile in PROFILES {
        let count = match profile {
            "limits" | "full-tables" | "many-merges" | "long-sheets" => count.div_ceil(10),
            _ => count,
        };
        all.push((profile.to_string(), count));
        all.push((format!("second:{profile}"), count));
    }
    all.push(("second".to_string(), count));
    all.push(("second-damaged".to_string(), 2 * count));
    all
}

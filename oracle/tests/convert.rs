//! The second reading of the two conversions, on small sheets written by hand and on generated ones, and what the
//! profiles of compare_convert.sh bring up.

use std::collections::BTreeMap;

use oracle::answer::{Room, answer, tested};
use oracle::convert::{number, to_form1, to_form2};
use oracle::form;
use oracle::job::Job;
use oracle::make::{LargestUses, PROFILES, largest, make, second_form, sheet_of};

fn tabs(text: &str) -> String {
    text.replace(' ', "\t")
}

/// What both conversions write, `to_form2`'s first; texts with blanks for tabs.
fn both(text: &str) -> [String; 2] {
    let sheet = tabs(text).into_bytes();
    [to_form2, to_form1].map(|convert| {
        let output = String::from_utf8(convert(&sheet)).unwrap();
        output.replace('\t', " ")
    })
}

fn refused(number: u8) -> String {
    format!("refused {number}\n")
}

/// Each is the other's conversion, and the wrong program answers 1.
fn pair(first: &str, second: &str) {
    assert_eq!(both(first), [second.to_string(), refused(1)]);
    assert_eq!(both(second), [refused(1), first.to_string()]);
}

const A: &str = "opt 0 3f800000 3f800000 3f800000
bank 0
class 00000007 3f800000 1 0
class 00000002 3f800000 1 0
class 00000004 3f800000 1 0
block 2 3f800000
block 2 3f000000
value 0 0 0
seg 0 2 14 0
use 5 0 0 1
use 4 3 0 2
end
";
const SECOND_A: &str = "form 2
opt 0 3f800000 3f800000 3f800000
bank 0
class 00000007 3f800000 1 0
class 00000002 3f800000 1 0
class 00000004 3f800000 1 0
block 2 3f800000 0
block 2 3f000000 2
value 0 0 0
seg 0 2 14 0 0
use 5 0 0 1
use 4 3 0 2
end
";

#[test]
fn case_a_both_ways() {
    pair(A, SECOND_A);
    let sample = |name: &str| std::fs::read(format!("../docs/samples/{name}")).unwrap();
    assert_eq!(to_form2(&sample("A.job")), sample("second/A.job"));
    assert_eq!(to_form1(&sample("second/A.job")), sample("A.job"));
}

/// Every record, every kind of use but 3, which 7 refuses; value 2 is of value 0's set.
const EVERY: &str = "opt 65535 3f000000 3e800000 3e000000
bank 0
bank 3
class 0000000f 3f800000 1 0
class 00000002 3f800000 1 1
class 00000004 3f800000 2 0
class 00000008 00000000 3 0
reg 0
reg 1
block 10 3f800000
block 1 3f000000
block 93 00000000
block 2 7f7fffff
value 0 0 0
value 0 1 3
value 1 0 1
value 1 3 2
vgroup 0 1
vgroup 1 0 1
operand 1 0 0 2
operand 1 1 1 3
operand 105 65535 1 3
hint 0 0 0
hint 0 0 1
hint 1 106 1
seg 0 0 6 0
use 8 0 4294967295
use 6 1 0 2 0
seg 2 6 424 15
use 1 2 0
use 9 104
seg 1 2 424 0
use 5 0 65535 1
use 6 1 0 2 1
use 7 1 1 3 0
use 2 2 65535 65535 1 255
use 4 3 0 0
use 6 105 65535 3 2
seg 3 421 424 8
use 0 105 1
end
";
const SECOND_EVERY: &str = "form 2
opt 65535 3f000000 3e800000 3e000000
bank 0
bank 3
class 0000000f 3f800000 1 0
class 00000002 3f800000 1 1
class 00000004 3f800000 2 0
class 00000008 00000000 3 0
reg 0
reg 1
block 10 3f800000 0
block 1 3f000000 10
block 93 00000000 11
block 2 7f7fffff 104
value 0 0 0
value 0 1 3
value 1 0 1
value 1 3 2
vgroup 0 1
vgroup 1 0 1
operand 1 0 0 2
operand 1 1 1 3
operand 105 65535 1 3
hint 0 0 0
hint 0 0 1
hint 1 106 1
seg 0 0 6 0 0
use 8 0 4294967295
use 6 1 0 2 0
seg 2 6 424 15 0
use 1 2 0
use 9 104
seg 1 2 424 0 1
use 5 0 65535 1
use 6 1 0 2 1
use 7 1 1 3 0
use 2 2 65535 65535 1 255
use 4 3 0 0
use 6 105 65535 3 2
seg 3 421 424 8 3
use 0 105 1
end
";

#[test]
fn every_record_both_ways() {
    pair(EVERY, SECOND_EVERY);
}

const SMALLEST: &str = "opt 0 00000000 00000000 00000000
bank 0
class 00000000 00000000 1 0
block 1 00000000
end
";

#[test]
fn the_smallest_sheet_both_ways() {
    let second = SMALLEST.replace("block 1 00000000", "block 1 00000000 0");
    pair(SMALLEST, &format!("form 2\n{second}"));
}

/// A cause for each number, in lines that both forms have.
const CAUSES: [(u8, &str, &str); 9] = [
    (1, "end\n", "end\nend\n"),
    (1, "hint 1 106 1", "hint 1 0106 1"),
    (2, "opt 65535", "opt 65536"),
    (3, "bank 3\n", "bank 4\n"),
    (4, "operand 105 65535 1 3", "operand 106 65535 1 3"),
    (5, "hint 1 106 1", "hint 1 107 1"),
    (6, "seg 2 6 424 15", "seg 2 6 428 15"),
    (7, "use 9 104", "use 3 104"),
    (7, "use 9 104", "use 1 1 0"),
];
/// Written fields that differ.
const WRONG: [(&str, &str); 4] = [
    ("seg 2 6 424 15 0\n", "seg 2 6 424 15 2\n"),
    ("seg 3 421 424 8 3\n", "seg 3 421 424 8 4294967295\n"),
    ("block 10 3f800000 0\n", "block 10 3f800000 1\n"),
    ("block 2 7f7fffff 104\n", "block 2 7f7fffff 106\n"),
];

fn edited(text: &str, (old, new): (&str, &str)) -> String {
    assert_eq!(text.matches(old).count(), 1, "{old:?}");
    text.replace(old, new)
}

/// the same number in both forms, whatever is written; the wrong program answers 1.
#[test]
fn each_refusal() {
    for (number, old, new) in CAUSES {
        let first = edited(EVERY, (old, new));
        assert_eq!(both(&first), [refused(number), refused(1)], "{new}");
        let second = edited(SECOND_EVERY, (old, new));
        assert_eq!(both(&second), [refused(1), refused(number)], "{new}");
        for wrong in WRONG.iter().filter(|wrong| second.contains(wrong.0)) {
            let beside = edited(&second, *wrong);
            assert_eq!(both(&beside), [refused(1), refused(number)], "{new}");
        }
    }
    for wrong in WRONG {
        let second = edited(SECOND_EVERY, wrong);
        assert_eq!(both(&second), [refused(1), refused(10)], "{wrong:?}");
    }
}

/// the first seven bytes alone say which form an input has.
#[test]
fn the_wrong_program_and_no_sheet() {
    let of_none = [
        "",
        "\n",
        "f",
        "form",
        "form 2",
        "form 2\r\n",
        "\nform 2\n",
        "form 1\n",
        "\0",
        "end\n",
        "x",
    ];
    for text in of_none {
        assert_eq!(both(text), [refused(1), refused(1)], "{text:?}");
        let before = format!("{text}{A}");
        let expected = if text.is_empty() {
            SECOND_A.to_string()
        } else {
            refused(1)
        };
        assert_eq!(both(&before), [expected, refused(1)], "{text:?}");
    }
    for text in ["form 2\n", "form 2\n\n", "form 2\nform 2\n", "form 2\n\0"] {
        assert_eq!(both(text), [refused(1), refused(1)], "{text:?}");
    }
    // the first form behind the form line, the second without it, the form line twice
    let bare = SECOND_A.strip_prefix("form 2\n").unwrap();
    for text in [
        &format!("form 2\n{A}"),
        bare,
        &format!("form 2\n{SECOND_A}"),
    ] {
        assert_eq!(both(text), [refused(1), refused(1)], "{text:?}");
    }
    // a sheet of the first form with another cause is 1 for to_form1, one of the second for to_form2
    let book = edited(A, ("bank 0\n", "bank 9\n"));
    assert_eq!(both(&book), [refused(3), refused(1)]);
    let book = edited(SECOND_A, ("bank 0\n", "bank 9\n"));
    assert_eq!(both(&book), [refused(1), refused(3)]);
}

fn in_default_room(sheet: &[u8]) -> Option<u8> {
    answer(sheet, Room::default()).number
}

/// Case B: its only use is admitted by no register.
const STOPS: &str = "opt 0 3f800000 3f800000 3f800000
bank 0
class 00000001 3f800000 1 0
class 00000002 3f800000 1 0
block 2 3f800000
value 0 0 0
seg 0 0 6 0
use 4 1 0 1
end
";

/// a job that stops is converted.
#[test]
fn eight_plays_no_part() {
    assert_eq!(in_default_room(tabs(STOPS).as_bytes()), Some(8));
    let second = STOPS.replace("block 2 3f800000", "block 2 3f800000 0");
    let second = second.replace("seg 0 0 6 0", "seg 0 0 6 0 0");
    pair(STOPS, &format!("form 2\n{second}"));
}

/// a job that overfills `vregs`'s tables is converted.
#[test]
fn nine_plays_no_part() {
    let sheets = (0..84).map(|seed| make("full-tables", seed).unwrap().bytes);
    let full = sheets.filter(|sheet| in_default_room(sheet) == Some(9));
    let mut count = 0;
    for first in full {
        let second = to_form2(&first);
        assert_eq!(second, second_form(&first));
        assert_eq!(in_default_room(&second), Some(9));
        assert_eq!(to_form1(&second), first);
        count += 1;
    }
    assert!(count > 50, "{count}");
}

/// Sheets at every limit at once; each count one above it is 2.
#[test]
fn the_largest_sheets() {
    for uses in [LargestUses::Tied, LargestUses::Group] {
        let job = largest(uses);
        let tables = [
            (job.blocks.len(), 512),
            (job.inst_count() as usize, 4096),
            (job.values.len(), 1024),
            (job.vgroups.len(), 256),
            (job.vgroups.iter().map(Vec::len).min().unwrap(), 8),
            (job.operands.len(), 1024),
            (job.hints.len(), 1024),
            (job.segs.len(), 1024),
            (job.uses.len(), 4096),
            (job.regs.len(), 256),
            (job.classes.len(), 32),
            (job.banks.len(), 8),
            (job.adjust as usize, 65_535),
        ];
        assert!(tables.iter().all(|(count, most)| count == most));
        let first = sheet_of(&job);
        let second = to_form2(&first);
        assert_eq!(number(&second), None);
        assert_eq!(second, second_form(&first));
        assert_eq!(to_form1(&second), first);
        for (place, raise) in ABOVE.iter().enumerate() {
            let mut job = job.clone();
            raise(&mut job);
            let above = sheet_of(&job);
            assert_eq!(number(&to_form2(&above)), Some(2), "{place}");
            let above = second_form(&above);
            assert_eq!(number(&to_form1(&above)), Some(2), "{place}");
        }
    }
}

/// One above a limit.
const ABOVE: [fn(&mut Job); 12] = [
    |job| job.adjust += 1,
    |job| job.banks.push(0),
    |job| job.classes.push(job.classes[0]),
    |job| job.regs.push(false),
    |job| job.blocks.push(job.blocks[0]),
    |job| job.blocks[511].insts += 1,
    |job| job.values.push(job.values[0]),
    |job| job.vgroups.push(vec![0, 1]),
    |job| job.operands.push(job.operands[0]),
    |job| job.hints.push(job.hints[1023]),
    |job| {
        let mut last = job.segs[1023].clone();
        last.uses.start = last.uses.end;
        job.segs.push(last);
    },
    |job| {
        job.uses.push(job.uses[4095]);
        job.segs[1023].uses.end += 1;
    },
];

/// A converted sheet passes, comes home, and is what the generator's own rewriting has; a refused one gets its number.
fn holds_together(sheet: &[u8], which: &str) -> [Option<u8>; 2] {
    let outputs = [to_form2(sheet), to_form1(sheet)];
    let numbers = outputs.each_ref().map(|output| number(output));
    let of_second = sheet.starts_with(form::LINE);
    assert_eq!(numbers[usize::from(!of_second)], Some(1), "{which}");
    let place = usize::from(of_second);
    assert_eq!(numbers[place], tested(sheet).err(), "{which}");
    if numbers[place].is_none() {
        let moved = &outputs[place];
        assert!(tested(moved).is_ok(), "{which}");
        let [first, second] = if of_second {
            [moved.as_slice(), sheet]
        } else {
            [sheet, moved]
        };
        assert_eq!(second_form(first), second, "{which}");
        assert_eq!(to_form2(first), second, "{which}");
        assert_eq!(to_form1(second), first, "{which}");
    }
    numbers
}

/// As many sheets of each profile as compare_convert.sh runs if nothing is said: every number comes up in each program.
#[test]
fn every_number_comes_up() {
    let mut counts: [BTreeMap<Option<u8>, usize>; 2] = Default::default();
    for (profile, count) in profiles(150) {
        for seed in 1..=count {
            let sheet = make(&profile, seed).unwrap().bytes;
            let numbers = holds_together(&sheet, &format!("{profile} {seed}"));
            for (counts, number) in counts.iter_mut().zip(numbers) {
                *counts.entry(number).or_default() += 1;
            }
        }
    }
    let sheets: usize = counts[0].values().sum();
    assert_eq!(sheets, 4020);
    let seven: Vec<Option<u8>> = [None].into_iter().chain((1..=7).map(Some)).collect();
    let ten: Vec<Option<u8>> = seven.iter().copied().chain([Some(10)]).collect();
    assert!(counts[0].keys().eq(&seven), "{counts:?}");
    assert!(counts[1].keys().eq(&ten), "{counts:?}");
    let least = counts.iter().flat_map(BTreeMap::values).min();
    assert!(least >= Some(&10), "{counts:?}");
}

/// The profiles of compare_convert.sh and how many sheets of each.
fn profiles(count: u64) -> Vec<(String, u64)> {
    let mut all = Vec::new();
    for profile in PROFILES {
        let (first, second) = match profile {
            "limits" | "full-tables" | "many-merges" | "long-sheets" => {
                (count.div_ceil(10), count.div_ceil(10))
            }
            "damaged" => (4 * count, count),
            _ => (count, count),
        };
        all.push((profile.to_string(), first));
        all.push((format!("second:{profile}"), second));
    }
    all.push(("second".to_string(), count));
    all.push(("second-damaged".to_string(), 4 * count));
    all
}

/// Both forms of case A cut at every byte, and with every byte left out, changed or one more before it.
#[test]
fn sheets_near_case_a() {
    let mut converted = [0; 2];
    for whole in [A, SECOND_A].map(|text| tabs(text).into_bytes()) {
        for place in 0..whole.len() {
            let (before, behind) = whole.split_at(place);
            let mut near = vec![before.to_vec(), [before, &behind[1..]].concat()];
            for byte in *b"\0\t\n\r 0123456789afxF-+." {
                near.push([before, &[byte], &behind[1..]].concat());
                near.push([before, &[byte], behind].concat());
            }
            for sheet in near {
                let numbers = holds_together(&sheet, &String::from_utf8_lossy(&sheet));
                for (count, number) in converted.iter_mut().zip(numbers) {
                    *count += usize::from(number.is_none());
                }
            }
        }
    }
    assert!(converted.iter().all(|&count| count > 300), "{converted:?}");
}

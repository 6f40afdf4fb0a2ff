//! Every pair of sheets in the repository draws, whole, the same each time, and as docs/pictures has it.

mod common;

use common::{docs, folder, lines_of, pairs, xml_fault};
use drawing::draw;

fn count(svg: &str, class: &str) -> usize {
    svg.matches(&format!(" class=\"{class}")).count()
}

#[test]
fn there_are_pairs() {
    assert!(folder(&docs().join("samples")).len() >= 10);
    assert_eq!(folder(&docs().join("samples/second")).len(), 3);
    assert!(pairs().len() >= 162, "{}", pairs().len());
    assert!(pairs().iter().any(|pair| pair.out.starts_with(b"refused")));
}

#[test]
fn is_well_formed() {
    for pair in pairs() {
        let svg = draw(&pair.job, &pair.out).svg;
        assert_eq!(xml_fault(&svg), None, "{}", pair.name);
        assert!(!svg.contains("<script") && !svg.contains("href"), "{}", pair.name);
        for part in ["viewBox=\"0 0 ", "xml:lang=\"en\"", "role=\"img\"", "<title id=", "<desc id="] {
            assert!(svg.contains(part), "{}: {part}", pair.name);
        }
    }
}

#[test]
fn the_check_of_xml_sees_faults() {
    let good = draw(b"", b"").svg;
    assert_eq!(xml_fault(&good), None);
    for (from, to) in [("</svg>", ""), ("</g>", "</h>"), ("role=\"img\"", "role=img"), ("</title>", "&</title>")] {
        assert!(xml_fault(&good.replacen(from, to, 1)).is_some(), "{from} {to}");
    }
}

#[test]
fn every_line_of_the_register_sheet_is_drawn() {
    for pair in pairs().iter().filter(|pair| !pair.out.starts_with(b"refused")) {
        let svg = draw(&pair.job, &pair.out).svg;
        let drawn = [count(&svg, "register\""), count(&svg, "piece "), count(&svg, "use "), count(&svg, "group\"")];
        let lines = ["vreg", "seg", "use", "group"].map(|word| lines_of(&pair.out, word));
        assert_eq!(drawn, lines, "{}", pair.name);
        assert_eq!(count(&svg, "block\""), lines_of(&pair.job, "block"), "{}", pair.name);
    }
}

/// Each line of the register sheet has its tooltip, with what it says.
#[test]
fn every_register_and_use_is_named() {
    for pair in pairs().iter().filter(|pair| !pair.out.starts_with(b"refused")) {
        let svg = draw(&pair.job, &pair.out).svg;
        let sheet = String::from_utf8(pair.out.clone()).unwrap();
        for (at, line) in sheet.lines().enumerate() {
            let fields: Vec<&str> = line.split('\t').collect();
            let words = match fields[0] {
                "vreg" => format!("<title>register {} of set {}; class {}: ", fields[1], fields[2], fields[3]),
                "use" => format!("(kind {}) at instruction {}", fields[1], fields[2]),
                "group" => format!("<title>group {}: ", fields[1]),
                _ => continue,
            };
            let said = svg.lines().any(|text| text.contains(&words) && text.contains(&format!("; line {}<", at + 1)));
            assert!(said, "{} line {}: {words}", pair.name, at + 1);
        }
    }
}

#[test]
fn kinds_and_flags_have_their_shapes() {
    let conflict = folder(&docs().join("pictures")).into_iter().find(|pair| pair.name == "conflict").unwrap();
    let svg = draw(&conflict.job, &conflict.out).svg;
    assert_eq!((count(&svg, "use kind-3\""), count(&svg, "link\"")), (3, 3));
    assert_eq!((count(&svg, "piece own\""), count(&svg, "piece conflict\"")), (3, 2));
    assert_eq!(count(&svg, "cut\""), 1);
    assert!(svg.contains(">cut 6</text>") && svg.contains(">inf</text>") && svg.contains(">0.25</text>"));
    assert!(svg.contains("fill=\"url(#hatch-2)\"") && svg.contains("<pattern id=\"hatch-2\""));
}

#[test]
fn cuts_are_drawn_at_their_boundary() {
    let sample = folder(&docs().join("samples")).into_iter().find(|pair| pair.name == "A").unwrap();
    let svg = draw(&sample.job, &sample.out).svg;
    assert!(svg.contains("<title>cut before instruction 2, at point 8</title>"));
    assert!(svg.contains(">cut 2</text>"));
}

/// Between pieces that do not meet, the pieces tell the cut only where one Boundary lies between them.
#[test]
fn cuts_in_gaps() {
    let head = "opt 0 3f800000 3f800000 3f800000\nbank 0\nclass 00000007 3f800000 1 0\nclass 00000002 3f800000 1 0\n\
                class 00000004 3f800000 1 0\nblock 8 3f800000\nvalue 0 0 0\n";
    let sheets = |from: u32, weight: &str| {
        let job = format!("{head}seg 0 2 4 0\nuse 5 0 0 1\nseg 0 {from} 26 0\nuse 4 6 0 2\nend\n");
        let first = "vreg 0 0 1 7f800000 - 0 0\nseg 0 2 4 0 own\nuse 5 0 0 1\n";
        let out = format!("{first}vreg 1 0 2 {weight} - 0 0\nseg 0 {from} 26 0 own\nuse 4 6 0 2\nend 2 0\n");
        draw(job.replace(' ', "\t").as_bytes(), out.replace(' ', "\t").as_bytes())
    };
    let wide = sheets(14, "3e800000");
    assert_eq!(wide.remarks, Vec::<String>::new());
    assert!(wide.svg.contains("<title>cut in a gap, before one of the instructions 1 to 3</title>"));
    assert!(!wide.svg.contains("class=\"small bold\">cut "));
    let tight = sheets(6, "3e2aaaab").svg;
    assert!(tight.contains("<title>cut before instruction 1, at point 4</title>") && tight.contains(">cut 1</text>"));
}

#[test]
fn true_pairs_have_no_remark() {
    for pair in pairs() {
        let drawing = draw(&pair.job, &pair.out);
        assert_eq!(drawing.remarks, Vec::<String>::new(), "{}", pair.name);
        assert!(!drawing.svg.contains("class=\"remark\""), "{}", pair.name);
    }
}

/// A sheet with another's answer is told, but for refusals while registers are placed.
#[test]
fn mixed_pairs_are_told() {
    let mut all = folder(&docs().join("samples"));
    all.extend(folder(&docs().join("samples/second")));
    all.extend(folder(&docs().join("pictures")));
    let mut told = 0;
    for (a, b) in all.iter().flat_map(|a| all.iter().map(move |b| (a, b))).filter(|(a, b)| a.out != b.out) {
        let drawing = draw(&a.job, &b.out);
        assert_eq!(xml_fault(&drawing.svg), None);
        let refusals = a.out.starts_with(b"refused") || b.out.starts_with(b"refused");
        assert!(refusals || !drawing.remarks.is_empty(), "{} with the answer of {}", a.name, b.name);
        told += usize::from(!drawing.remarks.is_empty());
    }
    assert!(told > 100, "{told}");
}

#[test]
fn is_the_same_each_time() {
    for pair in pairs() {
        assert_eq!(draw(&pair.job, &pair.out).svg, draw(&pair.job, &pair.out).svg, "{}", pair.name);
    }
}

/// The box of a text line: left, top, right, bottom. Upright names of blocks are left out.
fn text_box(line: &str) -> Option<(f64, f64, f64, f64)> {
    let field = |name: &str| line.split_once(&format!(" {name}=\"")).and_then(|(_, rest)| rest.split_once('"'));
    let (x, y): (f64, f64) = (field("x")?.0.parse().ok()?, field("y")?.0.parse().ok()?);
    let class = field("class")?.0;
    let words = line.split_once('>')?.1.strip_suffix("</text>")?;
    let letters = words.replace("&apos;", "'").replace("&quot;", "'").replace("&lt;", "<").replace("&gt;", ">");
    let size = [("big", 14.0), ("small", 9.0)].iter().find(|(name, _)| class.contains(name)).map_or(11.0, |one| one.1);
    let width = letters.replace("&amp;", "&").chars().count() as f64 * size * 0.58;
    let left = if class.contains("end") { x - width } else { x };
    let left = if class.contains("mid") { x - width / 2.0 } else { left };
    Some((left, y - 0.75 * size, left + width, y))
}

/// No text lies over another or leaves the picture, by the width that letters have in usual fonts.
#[test]
fn no_texts_overlap() {
    for pair in pairs() {
        let svg = draw(&pair.job, &pair.out).svg;
        let right: f64 = svg.split_once("viewBox=\"0 0 ").unwrap().1.split_once(' ').unwrap().0.parse().unwrap();
        let texts: Vec<(&str, _)> = svg.lines().filter_map(|line| Some((line, text_box(line)?))).collect();
        assert!(texts.len() > 3);
        for (at, (line, a)) in texts.iter().enumerate() {
            assert!(a.0 >= 0.0 && a.2 <= right, "{}: {line} leaves the picture", pair.name);
            let over = texts[..at].iter().find(|(_, b)| a.0 < b.2 && b.0 < a.2 && a.1 < b.3 && b.1 < a.3);
            assert!(over.is_none(), "{}: {line} lies over {}", pair.name, over.unwrap().0);
        }
    }
}

/// docs/pictures/make.sh was run since the last change.
#[test]
fn kept_pictures_are_as_drawn() {
    let mut kept = folder(&docs().join("pictures"));
    kept.extend(folder(&docs().join("samples")).into_iter().filter(|pair| pair.name == "A"));
    assert_eq!(kept.len(), 5);
    for pair in kept {
        let file = docs().join("pictures").join(&pair.name).with_extension("svg");
        assert_eq!(std::fs::read_to_string(file).unwrap(), draw(&pair.job, &pair.out).svg, "{}", pair.name);
    }
}

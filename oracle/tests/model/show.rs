//! The register sheet of a model.

use std::fmt::Write;

use oracle::job::USE_FIELDS;

use super::{Model, Piece};

pub fn sheet(model: &Model) -> String {
    let mut text = String::new();
    for (number, reg) in model.regs.iter().enumerate() {
        let (set, class, weight, index) = (reg.set, reg.class, reg.weight.to_bits(), reg.index);
        let group = place(reg.group);
        let hint = u8::from(reg.pieces.iter().any(|piece| piece.flags & 4 != 0));
        writeln!(
            text,
            "vreg\t{number}\t{set}\t{class}\t{weight:08x}\t{group}\t{index}\t{hint}"
        )
        .unwrap();
        for piece in &reg.pieces {
            piece_lines(&mut text, piece);
        }
    }
    for (number, members) in model.groups.iter().enumerate() {
        let members: Vec<String> = members.iter().map(|&member| place(member)).collect();
        writeln!(text, "group\t{number}\t{}", members.join("\t")).unwrap();
    }
    writeln!(text, "end\t{}\t{}", model.regs.len(), model.groups.len()).unwrap();
    text
}

fn place(number: Option<usize>) -> String {
    number.map_or("-".to_string(), |number| number.to_string())
}

fn piece_lines(text: &mut String, piece: &Piece) {
    let (value, from, to, flags) = (piece.value, piece.from, piece.to, piece.flags);
    let whose = if piece.added { "conflict" } else { "own" };
    writeln!(text, "seg\t{value}\t{from}\t{to}\t{flags}\t{whose}").unwrap();
    for u in &piece.uses {
        write!(text, "use\t{}\t{}", u.kind, u.inst).unwrap();
        for field in &u.fields[..USE_FIELDS[u.kind as usize]] {
            write!(text, "\t{field}").unwrap();
        }
        text.push('\n');
    }
}

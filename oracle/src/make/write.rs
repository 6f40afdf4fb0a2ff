//! Jobs written as sheets.

use std::fmt::Write;

use crate::job::{Job, Seg, USE_FIELDS, Use};

pub fn sheet_of(job: &Job) -> Vec<u8> {
    let mut text = String::new();
    book(&mut text, job);
    function(&mut text, job);
    for seg in &job.segs {
        seg_lines(&mut text, job, seg);
    }
    text.push_str("end\n");
    text.into_bytes()
}

fn book(text: &mut String, job: &Job) {
    let [a, b, c] = job.scales.map(f32::to_bits);
    writeln!(text, "opt\t{}\t{a:08x}\t{b:08x}\t{c:08x}", job.adjust).unwrap();
    for top in &job.banks {
        writeln!(text, "bank\t{top}").unwrap();
    }
    for class in &job.classes {
        let (mask, cost) = (class.mask, class.cost.to_bits());
        let (size, spillslots) = (class.size, u8::from(class.spillslots));
        writeln!(text, "class\t{mask:08x}\t{cost:08x}\t{size}\t{spillslots}").unwrap();
    }
    for &memory in &job.regs {
        writeln!(text, "reg\t{}", u8::from(memory)).unwrap();
    }
}

fn function(text: &mut String, job: &Job) {
    for block in &job.blocks {
        let frequency = block.frequency.to_bits();
        writeln!(text, "block\t{}\t{frequency:08x}", block.insts).unwrap();
    }
    for value in &job.values {
        writeln!(
            text,
            "value\t{}\t{}\t{}",
            value.bank, value.leader, value.remat
        )
        .unwrap();
    }
    for members in &job.vgroups {
        text.push_str("vgroup");
        for member in members {
            write!(text, "\t{member}").unwrap();
        }
        text.push('\n');
    }
    for op in &job.operands {
        let (inst, slot, vgroup, class) = (op.inst, op.slot, op.vgroup, op.class);
        writeln!(text, "operand\t{inst}\t{slot}\t{vgroup}\t{class}").unwrap();
    }
    for hint in &job.hints {
        let incoming = u8::from(hint.incoming);
        writeln!(text, "hint\t{}\t{}\t{incoming}", hint.value, hint.inst).unwrap();
    }
}

fn seg_lines(text: &mut String, job: &Job, seg: &Seg) {
    let (value, from, to, flags) = (seg.value, seg.from, seg.to, seg.flags);
    writeln!(text, "seg\t{value}\t{from}\t{to}\t{flags}").unwrap();
    for u in job.uses_of(seg) {
        use_line(text, u);
    }
}

fn use_line(text: &mut String, u: &Use) {
    write!(text, "use\t{}\t{}", u.kind, u.inst).unwrap();
    for field in &u.fields[..USE_FIELDS[u.kind as usize]] {
        write!(text, "\t{field}").unwrap();
    }
    text.push('\n');
}

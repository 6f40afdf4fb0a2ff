//! The register sheet.

use std::fmt::Write;

use reference::entity::ReservedValue;
use reference::internal::live_range::ValueSegment;
use reference::internal::uses::{Use, UseKind, UseList};
use reference::internal::virt_regs::{VirtReg, VirtRegGroup};

use crate::run::Run;

/// The sheet of a run that is done, for a job of `job_uses` uses.
pub fn sheet(run: &Run, job_uses: usize) -> String {
    let mut text = String::new();
    for reg in run.regs.virt_regs() {
        vreg_line(&mut text, run, reg);
        for seg in run.regs.segments(reg) {
            let added = is_added(run, seg, job_uses);
            seg_lines(&mut text, run, seg, added);
        }
    }
    for group in run.regs.groups() {
        group_line(&mut text, run, group);
    }
    let groups = run.regs.groups().len();
    line(
        &mut text,
        format_args!("end\t{}\t{groups}", run.regs.num_virt_regs()),
    );
    text
}

fn line(text: &mut String, content: std::fmt::Arguments) {
    writeln!(text, "{content}").unwrap();
}

fn vreg_line(text: &mut String, run: &Run, reg: VirtReg) {
    let data = &run.regs[reg];
    let group = (data.group.expand()).map_or("-".to_string(), |group| group.index().to_string());
    line(
        text,
        format_args!(
            "vreg\t{}\t{}\t{}\t{:08x}\t{group}\t{}\t{}",
            reg.index(),
            data.value_set.index(),
            data.class.index(),
            data.spill_weight.to_bits(),
            data.group_index,
            u8::from(data.has_fixed_hint),
        ),
    );
}

fn seg_lines(text: &mut String, run: &Run, seg: &ValueSegment, added: bool) {
    line(
        text,
        format_args!(
            "seg\t{}\t{}\t{}\t{}\t{}",
            seg.value.index(),
            seg.live_range.from.bits,
            seg.live_range.to.bits,
            flags(seg.use_list),
            if added { "conflict" } else { "own" },
        ),
    );
    for u in &run.uses[seg.use_list] {
        use_line(text, u);
    }
}

fn flags(list: UseList) -> u8 {
    u8::from(list.has_livein())
        | u8::from(list.has_liveout()) << 1
        | u8::from(list.has_fixedhint()) << 2
        | u8::from(list.has_fixeddef()) << 3
}

/// Whether the piece was added for a conflict: its uses, of which it has at
/// least one, then lie behind the job's.
pub fn is_added(run: &Run, seg: &ValueSegment, job_uses: usize) -> bool {
    let all = run.uses[UseList::empty()].as_ptr();
    let own = &run.uses[seg.use_list];
    !own.is_empty() && own.as_ptr() >= all.wrapping_add(job_uses)
}

fn use_line(text: &mut String, u: &Use) {
    let (kind, fields) = kind_and_fields(u.kind);
    write!(text, "use\t{kind}\t{}", u.pos.index()).unwrap();
    for field in fields {
        write!(text, "\t{field}").unwrap();
    }
    text.push('\n');
}

fn kind_and_fields(kind: UseKind) -> (u8, Vec<u32>) {
    match kind {
        UseKind::FixedDef { reg } => (0, vec![reg.index() as u32]),
        UseKind::FixedUse { reg } => (1, vec![reg.index() as u32]),
        UseKind::TiedUse {
            use_slot,
            def_slot,
            class,
            group_index,
        } => {
            let class = class.index() as u32;
            let fields = vec![use_slot.into(), def_slot.into(), class, group_index.into()];
            (2, fields)
        }
        UseKind::ConstraintConflict {} => (3, vec![]),
        UseKind::ClassUse { slot, class } => (4, vec![slot.into(), class.index() as u32]),
        UseKind::ClassDef { slot, class } => (5, vec![slot.into(), class.index() as u32]),
        UseKind::GroupClassUse {
            slot,
            class,
            group_index,
        } => {
            let class = class.index() as u32;
            (6, vec![slot.into(), class, group_index.into()])
        }
        UseKind::GroupClassDef {
            slot,
            class,
            group_index,
        } => {
            let class = class.index() as u32;
            (7, vec![slot.into(), class, group_index.into()])
        }
        UseKind::BlockparamIn { blockparam_idx } => (8, vec![blockparam_idx]),
        UseKind::BlockparamOut {} => (9, vec![]),
    }
}

fn group_line(text: &mut String, run: &Run, group: VirtRegGroup) {
    write!(text, "group\t{}", group.index()).unwrap();
    for member in run.regs.group_members(group) {
        if member.is_reserved_value() {
            text.push_str("\t-");
        } else {
            write!(text, "\t{}", member.index()).unwrap();
        }
    }
    text.push('\n');
}

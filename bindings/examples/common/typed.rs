//! The oracle's jobs in the types of `cundzeli::build`, where these can express them.

use cundzeli::build::{Book, ClassData, Hint, Job, Operand, Options, Remat};
use cundzeli::{BlockData, Flags, Inst, PhysReg, Point, RegBank, RegClass, RegClassMask};
use cundzeli::{UseKind, Value, ValueGroup};
use oracle::job;
use std::convert::Infallible;

/// None for a kind 3, a slot 3 of a point, or a field beyond its type.
pub fn typed(from: &job::Job) -> Option<Job> {
    let [cheaper_than_move, cheaper_than_load, indirect] = from.scales;
    let options = Options { adjust: from.adjust, cheaper_than_move, cheaper_than_load, indirect };
    let (first, blocks) = from.blocks.split_first()?;
    let mut job = Job::new(&book(from)?, options, block(first));
    for next in blocks {
        job.block(block(next));
    }
    for value in &from.values {
        let (leader, bank) = (Value(value.leader), RegBank(value.bank));
        job.value_led_by(leader, bank, remat(value.remat)?);
    }
    operands(from, &mut job)?;
    segments(from, &mut job)?;
    Some(job)
}

fn book(from: &job::Job) -> Option<Book> {
    let (&top, banks) = from.banks.split_first()?;
    let (first, classes) = from.classes.split_first()?;
    let mut book = Book::new(RegClass(top), class(first));
    for &top in banks {
        book.bank(RegClass(top));
    }
    for next in classes {
        book.class(class(next));
    }
    for &memory in &from.regs {
        book.reg(memory);
    }
    Some(book)
}

fn class(from: &job::Class) -> ClassData {
    ClassData {
        subclasses: RegClassMask(from.mask),
        cost: from.cost,
        group_size: from.size,
        spillslots: from.spillslots,
    }
}

fn block(from: &job::Block) -> BlockData {
    BlockData::new(from.insts, from.frequency)
}

fn remat(number: u32) -> Option<Remat> {
    let remats = [
        Remat::None,
        Remat::CheaperThanMove,
        Remat::CheaperThanLoad,
        Remat::Indirect,
    ];
    remats.get(number as usize).copied()
}

/// Value groups, operands and hints.
fn operands(from: &job::Job, job: &mut Job) -> Option<()> {
    for members in &from.vgroups {
        let members: Vec<Value> = members.iter().copied().map(Value).collect();
        job.vgroup(&members);
    }
    for operand in &from.operands {
        job.operand(Operand {
            inst: Inst(operand.inst),
            slot: operand.slot.try_into().ok()?,
            vgroup: ValueGroup(operand.vgroup),
            class: RegClass(operand.class),
        });
    }
    for hint in &from.hints {
        job.hint(Hint { value: Value(hint.value), inst: Inst(hint.inst), incoming: hint.incoming });
    }
    Some(())
}

fn segments(from: &job::Job, job: &mut Job) -> Option<()> {
    for seg in &from.segs {
        let ends = (Point::from_number(seg.from)?, Point::from_number(seg.to)?);
        let flags = Flags::from_bits(seg.flags)?;
        let mut uses = job.segment(Value(seg.value), ends.0, ends.1, flags);
        for u in from.uses_of(seg) {
            uses.add(Inst(u.inst), kind(u)?);
        }
    }
    Some(())
}

fn kind(from: &job::Use) -> Option<UseKind<Infallible>> {
    let [a, b, c, d] = from.fields;
    let (reg, class) = (PhysReg(a), RegClass(b));
    Some(match from.kind {
        0 => UseKind::FixedDef { reg },
        1 => UseKind::FixedUse { reg },
        2 => UseKind::TiedUse {
            use_slot: a.try_into().ok()?,
            def_slot: b.try_into().ok()?,
            class: RegClass(c),
            group_index: d.try_into().ok()?,
        },
        4 | 5 => class_kind(from.kind == 5, a.try_into().ok()?, class),
        6 | 7 => group_kind(
            from.kind == 7,
            a.try_into().ok()?,
            class,
            c.try_into().ok()?,
        ),
        8 => UseKind::BlockparamIn { blockparam_idx: a },
        9 => UseKind::BlockparamOut,
        _ => return None,
    })
}

fn class_kind(def: bool, slot: u16, class: RegClass) -> UseKind<Infallible> {
    if def {
        UseKind::ClassDef { slot, class }
    } else {
        UseKind::ClassUse { slot, class }
    }
}

fn group_kind(def: bool, slot: u16, class: RegClass, group_index: u8) -> UseKind<Infallible> {
    if def {
        UseKind::GroupClassDef { slot, class, group_index }
    } else {
        UseKind::GroupClassUse { slot, class, group_index }
    }
}

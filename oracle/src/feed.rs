//! Fills the pass's own tables, which are private, by its own functions.

use reference::Stats;
use reference::function::{
    Block, Function, IndirectRemat, Inst, InstRange, Operand, RematCost, TerminatorKind, Value,
    ValueGroup,
};
use reference::internal::allocations::Allocations;
use reference::internal::hints::Hints;
use reference::internal::live_range::{LiveRangePoint, LiveRangeSegment, ValueSegment};
use reference::internal::reg_matrix::RegMatrix;
use reference::internal::uses::{Use, UseKind, Uses};
use reference::internal::value_live_ranges::{ValueLiveRanges, ValueSet};
use reference::reginfo::{PhysReg, RegBank, RegClass, RegUnit};

use crate::job::{self, Job};
use crate::tables::{Tables, unasked};

/// A function of one block that begins at `start`, without instructions to
/// look at. It ends in a jump to itself, so that a fixed definition in it
/// gives an incoming hint at `start`.
struct Loop {
    start: Inst,
    values: usize,
}

impl Function for Loop {
    unasked!();

    fn num_insts(&self) -> usize {
        0
    }

    fn num_blocks(&self) -> usize {
        0
    }

    fn block_insts(&self, _block: Block) -> InstRange {
        InstRange::new(self.start, self.start)
    }

    fn inst_block(&self, _inst: Inst) -> Block {
        Block::new(0)
    }

    fn block_succs(&self, _block: Block) -> &[Block] {
        const SELF: [Block; 1] = [Block::new(0)];
        &SELF
    }

    fn terminator_kind(&self, _inst: Inst) -> Option<TerminatorKind> {
        Some(TerminatorKind::Jump)
    }

    fn block_frequency(&self, _block: Block) -> f32 {
        0.0
    }

    fn inst_operands(&self, _inst: Inst) -> &[Operand] {
        &[]
    }

    fn num_values(&self) -> usize {
        self.values
    }

    fn value_bank(&self, _value: Value) -> RegBank {
        unreachable!()
    }

    fn num_value_groups(&self) -> usize {
        0
    }

    fn value_group_members(&self, _group: ValueGroup) -> &[Value] {
        unreachable!()
    }

    fn can_rematerialize(&self, _value: Value) -> Option<(RematCost, RegClass)> {
        unreachable!()
    }

    fn can_indirectly_rematerialize(&self, _value: Value) -> Option<IndirectRemat<'_>> {
        unreachable!()
    }
}

/// Empty tables for as many values as the job has.
pub fn empty_ranges(job: &Job, tables: &Tables) -> (ValueLiveRanges, Uses, Hints) {
    let mut ranges = ValueLiveRanges::new();
    let mut uses = Uses::new();
    let mut hints = Hints::new();
    let nothing = Loop {
        start: Inst::new(0),
        values: job.values.len(),
    };
    ranges.compute(
        &mut uses,
        &mut hints,
        &mut Allocations::default(),
        &mut RegMatrix,
        &mut Stats,
        &mut Vec::new(),
        &nothing,
        tables,
    );
    (ranges, uses, hints)
}

/// Gives each hint its key; register and weight are not looked at.
pub fn fill_hints(job: &Job, hints: &mut Hints) {
    for hint in &job.hints {
        let value = Value::new(hint.value as usize);
        let inst = Inst::new(hint.inst as usize);
        let at = |start: Inst| Loop {
            start,
            values: job.values.len(),
        };
        if hint.incoming {
            hints.add_fixed_def(value, inst, PhysReg::new(0), &at(inst));
        } else {
            hints.add_fixed_use(value, inst, PhysReg::new(0), None, &at(inst.next()));
        }
    }
    hints.sort_hints();
}

/// Adds the job's segments to their sets.
pub fn fill_ranges(job: &Job, uses: &mut Uses, ranges: &mut ValueLiveRanges) {
    for seg in &job.segs {
        let mut use_list = uses.add_use_list(job.uses_of(seg).iter().map(use_of));
        use_list.set_livein(seg.flags & 1 != 0);
        use_list.set_liveout(seg.flags & 2 != 0);
        use_list.set_fixedhint(seg.flags & 4 != 0);
        use_list.set_fixeddef(seg.flags & 8 != 0);
        let point = |bits| LiveRangePoint { bits };
        let set = job.values[seg.value as usize].leader;
        ranges[ValueSet::new(set as usize)].push(ValueSegment {
            live_range: LiveRangeSegment::new(point(seg.from), point(seg.to)),
            use_list,
            value: Value::new(seg.value as usize),
        });
    }
}

fn use_of(u: &job::Use) -> Use {
    let f = u.fields;
    let class = |field: u32| RegClass::new(field as usize);
    let reg = || PhysReg::new(f[0] as usize);
    let (slot, group_index) = (f[0] as u16, f[2] as u8);
    let kind = match u.kind {
        0 => UseKind::FixedDef { reg: reg() },
        1 => UseKind::FixedUse { reg: reg() },
        2 => UseKind::TiedUse {
            use_slot: slot,
            def_slot: f[1] as u16,
            class: class(f[2]),
            group_index: f[3] as u8,
        },
        job::CLASS_USE => UseKind::ClassUse {
            slot,
            class: class(f[1]),
        },
        job::CLASS_DEF => UseKind::ClassDef {
            slot,
            class: class(f[1]),
        },
        job::GROUP_USE => UseKind::GroupClassUse {
            slot,
            class: class(f[1]),
            group_index,
        },
        job::GROUP_DEF => UseKind::GroupClassDef {
            slot,
            class: class(f[1]),
            group_index,
        },
        job::BLOCKPARAM_IN => UseKind::BlockparamIn {
            blockparam_idx: f[0],
        },
        job::BLOCKPARAM_OUT => UseKind::BlockparamOut {},
        _ => unreachable!("kind 3 is refused"),
    };
    Use {
        pos: Inst::new(u.inst as usize),
        kind,
    }
}

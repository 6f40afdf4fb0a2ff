//! The job's tables, answering the questions the pass puts.

use std::collections::BTreeMap;
use std::ops::Range;

use reference::function::{
    self as f, Block, Function, IndirectRemat, Inst, InstRange, OperandConstraint, OperandKind,
    RematCost, TerminatorKind, Value, ValueGroup,
};
use reference::reginfo::{
    PhysReg, PhysRegSet, RegBank, RegClass, RegClassSet, RegGroup, RegGroupSet, RegInfo, RegUnit,
    SpillSlotSize,
};
use reference::watch;

use crate::job::{Job, Operand};

pub struct Tables<'a> {
    job: &'a Job,
    /// The first instruction of each block, then the instruction count.
    starts: Vec<u32>,
    block_of: Vec<u32>,
    operands: Operands,
    vgroups: Vec<Vec<Value>>,
}

impl<'a> Tables<'a> {
    pub fn new(job: &'a Job) -> Self {
        let mut starts = vec![0];
        let mut block_of = Vec::new();
        for (number, block) in job.blocks.iter().enumerate() {
            block_of.resize(block_of.len() + block.insts as usize, number as u32);
            starts.push(block_of.len() as u32);
        }
        let vgroups = job.vgroups.iter();
        let values = |group: &Vec<u32>| group.iter().map(|&v| Value::new(v as usize)).collect();
        Self {
            job,
            operands: Operands::new(job, block_of.len()),
            starts,
            block_of,
            vgroups: vgroups.map(values).collect(),
        }
    }
}

/// Each instruction's row of operands. Slots go far up and operands are few,
/// so the rows overlap in one list; only an operand's own place is ever read.
struct Operands {
    list: Vec<f::Operand>,
    rows: Vec<Range<usize>>,
}

impl Operands {
    fn new(job: &Job, insts: usize) -> Self {
        let mut all = Self {
            list: Vec::new(),
            rows: vec![0..0; insts],
        };
        let mut by_inst: BTreeMap<u32, Vec<&Operand>> = BTreeMap::new();
        for operand in &job.operands {
            by_inst.entry(operand.inst).or_default().push(operand);
        }
        for (inst, row) in by_inst {
            all.rows[inst as usize] = all.add(&row);
        }
        all
    }

    /// Lays a row where all of its places are free.
    fn add(&mut self, row: &[&Operand]) -> Range<usize> {
        let filler = f::Operand::fixed_nonallocatable(PhysReg::new(0));
        let place = |start: usize, operand: &Operand| start + operand.slot as usize;
        let free = |start: usize| {
            let mut taken = row.iter().filter_map(|op| self.list.get(place(start, op)));
            taken.all(|&there| there == filler)
        };
        let start = (0..).find(|&start| free(start)).unwrap();
        let length = 1 + row.iter().map(|op| op.slot as usize).max().unwrap();
        let end = start + length;
        self.list.resize(self.list.len().max(end), filler);
        for operand in row {
            self.list[place(start, operand)] = f::Operand::new(
                OperandKind::UseGroup(ValueGroup::new(operand.vgroup as usize)),
                OperandConstraint::Class(RegClass::new(operand.class as usize)),
            );
        }
        start..end
    }
}

/// The questions of `Function` that nothing here ever puts.
macro_rules! unasked {
    () => {
        fn entry_points(&self) -> &[Block] {
            unreachable!()
        }
        fn block_preds(&self, _block: Block) -> &[Block] {
            unreachable!()
        }
        fn block_immediate_dominator(&self, _block: Block) -> Option<Block> {
            unreachable!()
        }
        fn block_params(&self, _block: Block) -> &[Value] {
            unreachable!()
        }
        fn jump_blockparams(&self, _block: Block) -> &[Value] {
            unreachable!()
        }
        fn block_is_critical_edge(&self, _block: Block) -> bool {
            unreachable!()
        }
        fn inst_clobbers(&self, _inst: Inst) -> impl Iterator<Item = RegUnit> {
            core::iter::empty()
        }
        fn can_eliminate_dead_inst(&self, _inst: Inst) -> bool {
            unreachable!()
        }
    };
}
pub(crate) use unasked;

impl Function for Tables<'_> {
    unasked!();

    fn num_insts(&self) -> usize {
        self.block_of.len()
    }

    fn num_blocks(&self) -> usize {
        self.job.blocks.len()
    }

    fn block_insts(&self, block: Block) -> InstRange {
        let at = |place: usize| Inst::new(self.starts[place] as usize);
        InstRange::new(at(block.index()), at(block.index() + 1))
    }

    fn inst_block(&self, inst: Inst) -> Block {
        Block::new(self.block_of[inst.index()] as usize)
    }

    fn block_succs(&self, _block: Block) -> &[Block] {
        unreachable!()
    }

    fn terminator_kind(&self, _inst: Inst) -> Option<TerminatorKind> {
        unreachable!()
    }

    fn block_frequency(&self, block: Block) -> f32 {
        self.job.blocks[block.index()].frequency
    }

    fn inst_operands(&self, inst: Inst) -> &[f::Operand] {
        &self.operands.list[self.operands.rows[inst.index()].clone()]
    }

    fn num_values(&self) -> usize {
        self.job.values.len()
    }

    fn value_bank(&self, value: Value) -> RegBank {
        RegBank::new(self.job.values[value.index()].bank as usize)
    }

    fn num_value_groups(&self) -> usize {
        self.vgroups.len()
    }

    fn value_group_members(&self, group: ValueGroup) -> &[Value] {
        &self.vgroups[group.index()]
    }

    fn can_rematerialize(&self, value: Value) -> Option<(RematCost, RegClass)> {
        let cost = match self.job.values[value.index()].remat {
            1 => RematCost::CheaperThanMove,
            2 => RematCost::CheaperThanLoad,
            _ => return None,
        };
        Some((cost, RegClass::new(0)))
    }

    fn can_indirectly_rematerialize(&self, value: Value) -> Option<IndirectRemat<'_>> {
        (self.job.values[value.index()].remat == 3).then_some(IndirectRemat {
            constraint: OperandConstraint::Class(RegClass::new(0)),
            inputs: &[],
            allow_destination_overlap: true,
        })
    }
}

impl RegInfo for Tables<'_> {
    fn num_banks(&self) -> usize {
        self.job.banks.len()
    }

    fn top_level_class(&self, bank: RegBank) -> RegClass {
        RegClass::new(self.job.banks[bank.index()] as usize)
    }

    /// Spill slots are no part of the result.
    fn spillslot_size(&self, _bank: RegBank) -> SpillSlotSize {
        SpillSlotSize::new(1)
    }

    fn num_classes(&self) -> usize {
        self.job.classes.len()
    }

    fn class_includes_spillslots(&self, class: RegClass) -> bool {
        self.job.classes[class.index()].spillslots
    }

    fn class_spill_cost(&self, class: RegClass) -> f32 {
        let cost = self.job.classes[class.index()].cost;
        watch::asked(cost);
        cost
    }

    fn sub_classes(&self, class: RegClass) -> RegClassSet {
        RegClassSet::from_words([self.job.classes[class.index()].mask.into()])
    }

    fn class_group_size(&self, class: RegClass) -> usize {
        self.job.classes[class.index()].size as usize
    }

    fn num_regs(&self) -> usize {
        self.job.regs.len()
    }

    fn is_memory(&self, reg: PhysReg) -> bool {
        self.job.regs[reg.index()]
    }

    fn stack_to_stack_class(&self, _bank: RegBank) -> RegClass {
        unreachable!()
    }

    fn bank_for_class(&self, _class: RegClass) -> RegBank {
        unreachable!()
    }

    fn bank_for_reg(&self, _reg: PhysReg) -> Option<RegBank> {
        unreachable!()
    }

    fn class_members(&self, _class: RegClass) -> PhysRegSet {
        unreachable!()
    }

    fn class_group_members(&self, _class: RegClass) -> RegGroupSet {
        unreachable!()
    }

    fn allocation_order(&self, _class: RegClass) -> &[PhysReg] {
        unreachable!()
    }

    fn group_allocation_order(&self, _class: RegClass) -> &[RegGroup] {
        unreachable!()
    }

    fn reg_units(&self, _reg: PhysReg) -> impl Iterator<Item = RegUnit> {
        core::iter::empty()
    }

    fn num_reg_groups(&self) -> usize {
        unreachable!()
    }

    fn reg_group_members(&self, _group: RegGroup) -> &[PhysReg] {
        unreachable!()
    }

    fn group_for_reg(&self, _reg: PhysReg, _index: usize, _class: RegClass) -> Option<RegGroup> {
        unreachable!()
    }
}

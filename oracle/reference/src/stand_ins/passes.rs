//! The other passes, as far as the supplied files name them. None of these
//! functions is reached by the pass.

pub mod allocations {
    use crate::entity::CompactListPool;
    use crate::function::Inst;
    use crate::output::Allocation;

    pub struct Allocations {
        pub remat_inputs: CompactListPool<Allocation>,
    }

    impl Default for Allocations {
        fn default() -> Self {
            Self {
                remat_inputs: CompactListPool::new(),
            }
        }
    }

    impl Allocations {
        pub fn allocations(&self) -> &[Allocation] {
            unreachable!()
        }

        pub fn inst_allocations(&self, _inst: Inst) -> &[Allocation] {
            unreachable!()
        }

        pub fn set_allocation(&mut self, _inst: Inst, _slot: u16, _alloc: Allocation) {
            unreachable!()
        }
    }
}

pub mod reg_matrix {
    use crate::function::Value;
    use crate::internal::live_range::LiveRangeSegment;
    use crate::reginfo::RegUnit;

    #[derive(Default)]
    pub struct RegMatrix;

    impl RegMatrix {
        pub fn clear(&mut self) {}

        pub fn reserve_fixed_def(&mut self, _unit: RegUnit, _range: LiveRangeSegment) {
            unreachable!()
        }

        pub fn reserve_fixed_use(
            &mut self,
            _unit: RegUnit,
            _range: LiveRangeSegment,
            _value: Value,
        ) {
            unreachable!()
        }
    }
}

pub mod move_resolver {
    use crate::entity::CompactList;
    use crate::function::{Inst, Value};
    use crate::output::{Allocation, SpillSlot};
    use crate::reginfo::PhysReg;

    #[derive(Clone, Copy)]
    pub enum Edit {
        Move {
            to: Allocation,
            from: Allocation,
            value: Value,
        },
        EmergencySpill {
            to: SpillSlot,
            from: PhysReg,
        },
        EmergencyReload {
            to: PhysReg,
            from: SpillSlot,
        },
        Rematerialize {
            to: Allocation,
            value: Value,
        },
        IndirectRematerialize {
            to: Allocation,
            value: Value,
            inputs: CompactList<Allocation>,
        },
    }

    pub struct MoveResolver;

    impl MoveResolver {
        pub fn edits(&self) -> &[(Inst, Option<Edit>)] {
            unreachable!()
        }

        pub fn edits_from(&self, _inst: Inst) -> &[(Inst, Option<Edit>)] {
            unreachable!()
        }
    }
}

pub mod allocator {
    use crate::internal::virt_regs::VirtReg;
    use crate::reginfo::PhysReg;

    pub struct Allocator;

    impl Allocator {
        pub fn assignments(&self) -> impl Iterator<Item = (VirtReg, PhysReg)> {
            core::iter::empty()
        }
    }
}

pub struct RegisterAllocator {
    pub move_resolver: move_resolver::MoveResolver,
    pub spill_allocator: crate::internal::spill_allocator::SpillAllocator,
    pub allocator: allocator::Allocator,
    pub virt_regs: crate::internal::virt_regs::VirtRegs,
    pub allocations: allocations::Allocations,
}

#[derive(Debug)]
pub enum RegAllocError {
    FunctionTooBig,
}

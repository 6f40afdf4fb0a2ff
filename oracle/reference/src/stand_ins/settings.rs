//! The options the pass reads, and counters it does not.

pub struct Options {
    pub spill_weight_adjust: u32,
    pub direct_remat_cheaper_than_move_cost_scale: f32,
    pub direct_remat_cheaper_than_load_cost_scale: f32,
    pub indirect_remat_cost_scale: f32,
}

#[derive(Default)]
pub struct Stats;

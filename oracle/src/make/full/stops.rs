//! Sets that meet a stop, each by itself, to stand among the sets that fill the tables.

use super::draft::{Draft, EMPTY, ONE_WAY, PAIRS, WIDE, class_def, class_use, group_use, leaf};
use crate::job::{Operand, Value};

/// A stop's name, the rows that its set takes before the register that meets it, and the set.
pub struct Stop {
    pub name: &'static str,
    pub before: [usize; 4],
    pub put: fn(&mut Draft),
}

pub const STOPS: [Stop; 6] = [
    Stop {
        name: "no-start",
        before: [0; 4],
        put: no_start,
    },
    Stop {
        name: "turned-def",
        before: [0; 4],
        put: turned_def,
    },
    Stop {
        name: "values-differ",
        before: [1, 2, 3, 0],
        put: values_differ,
    },
    Stop {
        name: "mapped-twice",
        before: [0; 4],
        put: mapped_twice,
    },
    Stop {
        name: "overlap",
        before: [1, 1, 4, 1],
        put: overlap,
    },
    Stop {
        name: "none-admitted",
        before: [1, 1, 1, 0],
        put: none_admitted,
    },
];

fn no_start(draft: &mut Draft) {
    let value = draft.set();
    draft.piece(
        value,
        0,
        8,
        vec![class_use(0, ONE_WAY[0]), class_use(1, ONE_WAY[1])],
    );
}

fn turned_def(draft: &mut Draft) {
    let value = draft.set();
    draft.piece(
        value,
        0,
        8,
        vec![class_def(1, leaf(0)), class_def(1, leaf(1))],
    );
}

/// Two values of a set meet inside an instruction, and both have a use turned; its own register stands before.
fn values_differ(draft: &mut Draft) {
    let first = draft.set();
    let second = draft.job.values.len() as u32;
    draft.job.values.push(Value {
        bank: 0,
        leader: first,
        remat: 0,
    });
    draft.piece(
        first,
        4,
        6,
        vec![class_use(1, leaf(0)), class_use(1, leaf(1))],
    );
    draft.piece(second, 6, 8, vec![class_use(1, leaf(1))]);
}

/// An operand used twice by the register that makes its group.
fn mapped_twice(draft: &mut Draft) {
    let (value, op) = own_operand(draft, 1);
    draft.piece(value, 0, 8, vec![group_use(&op, 0); 2]);
}

/// A turned group use that merges into the register that it was turned out of. Before it its own register and a new
/// group stand.
fn overlap(draft: &mut Draft) {
    let (value, op) = own_operand(draft, 1);
    let turned = [
        class_use(1, leaf(0)),
        group_use(&op, 0),
        class_def(1, WIDE),
        group_use(&op, 0),
    ];
    draft.piece(value, 0, 8, turned.to_vec());
}

/// A use whose class shares nothing with the top: it is turned, and no register admits it.
fn none_admitted(draft: &mut Draft) {
    let value = draft.set();
    draft.piece(value, 0, 8, vec![class_use(1, EMPTY)]);
}

/// A set of its own with an operand of pairs.
pub fn own_operand(draft: &mut Draft, inst: u32) -> (u32, Operand) {
    let value = draft.set();
    let vgroup = draft.job.vgroups.len();
    draft.job.vgroups.push(vec![value, value]);
    let op = draft.operand(inst, vgroup as u32, vgroup, PAIRS[0]);
    (value, op)
}

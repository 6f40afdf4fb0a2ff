//! The set whose last register is one too many, in the ways that a register comes about.

use super::draft::{Draft, Open, PAIRS, class_use, group_use, leaf};
use super::stops::own_operand;
use crate::job::{GROUP_DEF, Use};

/// What the set adds to the tables, how many operands an earlier set leaves open for it, and the set.
pub struct Straw {
    pub name: &'static str,
    pub rows: [usize; 4],
    pub open: u32,
    pub put: fn(&mut Draft, Option<Open>),
}

const fn straw(name: &'static str, rows: [usize; 4], put: fn(&mut Draft, Option<Open>)) -> Straw {
    Straw {
        name,
        rows,
        open: 0,
        put,
    }
}

const BARE: Straw = straw("a set without uses", [1, 1, 0, 0], |draft, _| draft.bare(1));
const CUT: Straw = straw("a part behind a cut", [2, 2, 2, 0], |draft, _| cut(draft));
const CONFLICT: Straw = straw("a conflict register", [2, 2, 3, 0], |draft, _| {
    draft.stacks(2)
});
const LED: Straw = straw(
    "a conflict register with a block parameter",
    [2, 2, 5, 0],
    |draft, _| draft.led_stacks(1, 2),
);
const USE: Straw = straw("a set with one use", [1, 1, 1, 0], |draft, _| draft.pad(1));
const SEGMENTS: Straw = straw("a register of two segments", [1, 2, 0, 0], |draft, _| {
    draft.bare_segs(2)
});
const GROUP: Straw = straw("a register in a new group", [1; 4], |draft, _| {
    draft.groups(1)
});
const GROUP_CUT: Straw = straw("a new group behind a cut", [2; 4], |draft, _| {
    draft.groups(2)
});
const GROUP_CONFLICT: Straw = straw(
    "a new group of a conflict register",
    [2, 2, 3, 2],
    |draft, _| conflict(draft),
);
const GROUP_OF_DEF: Straw = straw("a new group of a definition", [1; 4], |draft, _| {
    definition(draft)
});
const GROUP_OF_PAIRS: Straw = straw("a new group behind pairs", [3, 3, 3, 2], |draft, _| {
    behind_pairs(draft)
});
const JOIN: Straw = Straw {
    name: "a register that joins",
    rows: [1, 1, 1, 0],
    open: 1,
    put: close,
};
const MERGE: Straw = Straw {
    name: "a merge",
    rows: [2, 3, 3, 0],
    open: 3,
    put: close,
};
const MERGED_GROUP: Straw = Straw {
    name: "a new group behind merges",
    rows: [3, 8, 8, 1],
    open: 7,
    put: behind_merges,
};

/// For each table what may overfill it alone; a register that is one too many is a segment too many as well.
pub const STRAWS: [(&str, [Straw; 6]); 4] = [
    ("registers", [BARE, CUT, CONFLICT, USE, GROUP, JOIN]),
    ("segments", [MERGE, SEGMENTS, CUT, CONFLICT, BARE, JOIN]),
    ("uses", [USE, LED, MERGE, CONFLICT, CUT, GROUP]),
    (
        "groups",
        [
            GROUP,
            GROUP_CUT,
            GROUP_CONFLICT,
            GROUP_OF_DEF,
            GROUP_OF_PAIRS,
            MERGED_GROUP,
        ],
    ),
];

fn cut(draft: &mut Draft) {
    let value = draft.set();
    draft.piece(
        value,
        0,
        40,
        vec![class_use(0, leaf(0)), class_use(9, leaf(1))],
    );
    draft.add([2, 2, 2, 0]);
}

/// Two group uses of one instruction whose classes share nothing.
fn conflict(draft: &mut Draft) {
    let (value, op) = own_operand(draft, 1);
    let other = draft.operand(1, op.slot + 100, op.vgroup as usize, PAIRS[1]);
    draft.piece(value, 0, 8, vec![group_use(&op, 0), group_use(&other, 1)]);
    draft.add([2, 2, 3, 2]);
}

fn definition(draft: &mut Draft) {
    let (value, op) = own_operand(draft, 1);
    let def = Use {
        kind: GROUP_DEF,
        ..group_use(&op, 1)
    };
    draft.piece(value, 6, 12, vec![def]);
    draft.add([1; 4]);
}

fn behind_pairs(draft: &mut Draft) {
    draft.pairs(1);
    draft.groups(1);
}

fn close(draft: &mut Draft, open: Option<Open>) {
    open.into_iter().for_each(|open| draft.close(open));
}

fn behind_merges(draft: &mut Draft, open: Option<Open>) {
    close(draft, open);
    draft.groups(1);
}

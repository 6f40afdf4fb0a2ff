//! What the profiles of whole jobs ask for.

/// From, to.
pub type Span = (u32, u32);

pub struct Style {
    pub insts: Span,
    pub blocks: Span,
    pub classes: Span,
    pub banks: Span,
    pub values: Span,
    /// Percent of values that join the set of an earlier one.
    pub shared: u32,
    /// Segments of a set.
    pub segs: Span,
    /// Percent of sets that live through the whole function.
    pub long: u32,
    /// Uses of a segment, group uses not counted.
    pub uses: Span,
    /// Weights of the kinds 0 to 9; kinds 3, 6 and 7 are not drawn.
    pub kinds: [u32; 10],
    /// Percent of uses at the instruction of the use before.
    pub crowd: u32,
    /// Percent of uses at the first or last instruction of their segment.
    pub edges: u32,
    /// Percent of segments without uses other than of groups.
    pub bare: u32,
    pub vgroups: Span,
    /// Percent of value groups with the members of the one before.
    pub same: u32,
    pub operands: Span,
    /// Percent of group uses written twice.
    pub twice: u32,
    pub hints: Span,
    /// Percent of segments with each flag.
    pub flags: u32,
    pub floats: Floats,
    /// Weights of the books: closed, with itself, any masks, leaves.
    pub books: [u32; 4],
}

#[derive(Clone, Copy, PartialEq, Eq)]
pub enum Floats {
    Plain,
    Extreme,
}

const CLASSES: Style = Style {
    insts: (2, 16),
    blocks: (1, 5),
    classes: (2, 7),
    banks: (1, 2),
    values: (1, 4),
    shared: 30,
    segs: (1, 3),
    long: 50,
    uses: (0, 7),
    kinds: [2, 4, 4, 0, 40, 8, 0, 0, 3, 3],
    crowd: 25,
    edges: 20,
    bare: 0,
    vgroups: (0, 0),
    same: 0,
    operands: (0, 0),
    twice: 4,
    hints: (0, 3),
    flags: 20,
    floats: Floats::Plain,
    books: [30, 20, 10, 40],
};

pub fn of(profile: &str) -> Option<Style> {
    Some(match profile {
        "small" => Style {
            insts: (1, 4),
            blocks: (1, 2),
            classes: (1, 4),
            banks: (1, 1),
            values: (1, 3),
            segs: (1, 2),
            uses: (0, 3),
            kinds: [1, 1, 1, 0, 6, 3, 0, 0, 2, 1],
            crowd: 40,
            vgroups: (0, 1),
            operands: (0, 2),
            hints: (0, 2),
            books: [1, 1, 1, 1],
            ..CLASSES
        },
        "classes" => CLASSES,
        "groups" => Style {
            insts: (2, 10),
            blocks: (1, 3),
            classes: (3, 7),
            banks: (1, 1),
            values: (2, 7),
            shared: 25,
            segs: (1, 3),
            long: 75,
            uses: (0, 2),
            kinds: [1, 1, 2, 0, 12, 1, 0, 0, 4, 1],
            crowd: 30,
            vgroups: (1, 3),
            operands: (1, 8),
            books: [40, 15, 5, 40],
            ..CLASSES
        },
        // One or two instructions, where values stand in several places.
        "knots" => Style {
            insts: (1, 2),
            blocks: (1, 1),
            classes: (2, 4),
            banks: (1, 1),
            values: (1, 3),
            shared: 70,
            segs: (1, 2),
            long: 90,
            uses: (0, 2),
            kinds: [1, 1, 1, 0, 15, 10, 0, 0, 6, 0],
            crowd: 60,
            edges: 60,
            bare: 30,
            vgroups: (1, 2),
            same: 70,
            operands: (2, 5),
            twice: 20,
            books: [40, 10, 10, 40],
            ..CLASSES
        },
        "hints" => Style {
            hints: (1, 12),
            flags: 60,
            uses: (1, 8),
            kinds: [3, 6, 2, 0, 40, 5, 0, 0, 2, 2],
            crowd: 10,
            books: [20, 10, 0, 70],
            ..CLASSES
        },
        "floats" => Style {
            blocks: (1, 6),
            kinds: [4, 8, 8, 0, 40, 5, 0, 0, 3, 3],
            floats: Floats::Extreme,
            books: [50, 10, 0, 40],
            vgroups: (0, 1),
            operands: (0, 3),
            ..CLASSES
        },
        // Long pieces over many blocks, with few uses in one instruction.
        "leaning" => Style {
            insts: (12, 64),
            blocks: (4, 16),
            classes: (3, 8),
            banks: (1, 1),
            values: (1, 4),
            segs: (1, 2),
            long: 85,
            uses: (2, 5),
            kinds: [1, 2, 2, 0, 70, 5, 0, 0, 2, 1],
            crowd: 3,
            edges: 10,
            vgroups: (0, 2),
            operands: (0, 6),
            books: [30, 10, 0, 60],
            ..CLASSES
        },
        _ => return None,
    })
}

//! Words for what the sheets say in numbers.

use crate::job::{Job, Use};

pub const KINDS: [&str; 10] = [
    "FixedDef",
    "FixedUse",
    "TiedUse",
    "ConstraintConflict",
    "ClassUse",
    "ClassDef",
    "GroupClassUse",
    "GroupClassDef",
    "BlockparamIn",
    "BlockparamOut",
];

/// The cause of a refusal, in the words of the papers that ask for it.
pub fn cause(number: u8) -> &'static str {
    match number {
        1 => "line not a record, unknown kind, wrong order, number form, choice off its list",
        2 => "a count or k above its limit",
        3 => {
            "unknown top class, value's bank or mask bit; bad cost, scale; group size not 1 to 8; \
             class of size 2 or more with a subclass of another size"
        }
        4 => {
            "block empty or of bad frequency; leader not leading itself; vgroup not 2 to 8 known values; \
             operand twice, out of range, or class size not the vgroup's; \
             cut ends not `after` < `before` < instructions"
        }
        5 => "hint's value unknown, instruction above the count; keys falling",
        6 => {
            "segment empty, of no value, slot 3, past the last instruction, overlapping or unsorted in its set; \
             sets not rising"
        }
        7 => {
            "use falling in position, unknown instruction, class or register, field beyond its UseKind type, kind 3; \
             `from` not below the next Boundary, or `end_point` above `to`; \
             group use without its operand, of another class, or whose index has no member or another value"
        }
        8 => {
            "a stop: no start in the backward scan; the use to turn is a definition; \
             conflict uses of one instruction differ in value; one operand mapped twice; \
             an old piece of a merged register ends after the first new piece starts and starts before the last new \
             one ends; a round that admits none of the conflict uses left"
        }
        9 => {
            "a register to be placed, with its pieces, their uses and new group, overfills a lent table \
             (merging adds no register; moved pieces count once)"
        }
        10 => "a written set or first instruction differs from the implied one",
        _ => "no refusal has this number",
    }
}

/// A float as a reader wants it: four digits, in powers of ten where it is far from 1.
pub fn readable(float: f32) -> String {
    let size = f64::from(float.abs());
    if float.is_nan() {
        "NaN".into()
    } else if float.is_infinite() {
        if float > 0.0 { "inf".into() } else { "-inf".into() }
    } else if float == 0.0 {
        "0".into()
    } else if (0.001..1_000_000.0).contains(&size) {
        let digits = (3 - size.log10().floor() as i32).clamp(0, 6) as usize;
        trimmed(&format!("{float:.digits$}"))
    } else {
        let text = format!("{float:.3e}");
        let (digits, power) = text.split_once('e').unwrap_or((&text, "0"));
        format!("{}e{power}", trimmed(digits))
    }
}

fn trimmed(digits: &str) -> String {
    let text = if digits.contains('.') { digits.trim_end_matches('0').trim_end_matches('.') } else { digits };
    text.into()
}

/// A float with its bits.
pub fn exact(float: f32) -> String {
    format!("{} (bits {:08x})", readable(float), float.to_bits())
}

/// The members of a mask, neighbours as a range.
pub fn members(mask: u32) -> String {
    let has = |bit: u32| bit < 32 && mask >> bit & 1 == 1;
    let starts = (0..32).filter(|&bit| has(bit) && (bit == 0 || !has(bit - 1)));
    let ranges = starts.map(|first| {
        let last = (first..32).take_while(|&bit| has(bit)).last().unwrap_or(first);
        if first == last { format!("{first}") } else { format!("{first}–{last}") }
    });
    let text = ranges.collect::<Vec<_>>().join(", ");
    if text.is_empty() { "none".into() } else { text }
}

/// Everything that a use line says.
pub fn use_words(job: &Job, u: &Use) -> String {
    let [a, b, c, d] = u.fields;
    let memory = || job.regs.get(a as usize).is_some_and(|reg| reg.memory);
    let own = match u.kind {
        0 | 1 if memory() => format!(", physical register {a}, which lies in memory"),
        0 | 1 => format!(", physical register {a}"),
        2 => format!(", use slot {a}, def slot {b}, class {c}, group index {d}"),
        4 | 5 => format!(", slot {a}, class {b}"),
        6 | 7 => format!(", slot {a}, class {b}, group index {c}"),
        8 => format!(", block parameter {a}"),
        _ => String::new(),
    };
    format!("{} (kind {}) at instruction {}{own}", kind_name(u.kind), u.kind, u.inst)
}

fn kind_name(kind: u32) -> &'static str {
    KINDS.get(kind as usize).copied().unwrap_or("unknown kind")
}

/// What stands beside a mark where there is room.
pub fn short(u: &Use) -> String {
    let [a, b, c, _] = u.fields;
    match u.kind {
        0 | 1 => format!("p{a}"),
        2 => format!("c{c}"),
        4 | 5 => format!("c{b}"),
        6 | 7 => format!("c{b}·{c}"),
        8 => format!("#{a}"),
        _ => String::new(),
    }
}

pub fn flag_words(flags: u32) -> String {
    let names = [(1, "live-in"), (2, "live-out"), (4, "fixed hint"), (8, "fixed def")];
    let set = names.iter().filter(|(bit, _)| flags & bit != 0).map(|(_, name)| *name);
    let text = set.collect::<Vec<_>>().join(", ");
    if text.is_empty() { "no flags".into() } else { text }
}

/// A point as instruction and slot.
pub fn point(point: u32) -> String {
    let slot = ["Boundary", "Early", "Normal", "slot 3"][point as usize % 4];
    format!("{point} (instruction {}, {slot})", point / 4)
}

pub fn span_words(from: u32, to: u32) -> String {
    format!("from point {} to point {}", point(from), point(to))
}

/// A value with its set and its remat.
pub fn value_words(job: &Job, value: u32) -> String {
    let Some(row) = job.values.get(value as usize) else {
        return format!("value {value} (not in the job sheet)");
    };
    let remat = match row.remat {
        0 => "no remat",
        1 => "cheaper than a move",
        2 => "cheaper than a load",
        _ => "indirect",
    };
    format!("value {value} (set {}, bank {}, {remat})", row.leader, row.bank)
}

/// What the second form has written, where it is not the implied one.
pub fn written_words(field: &str, written: Option<u32>, implied: Option<u64>) -> String {
    match written {
        Some(number) if implied != Some(u64::from(number)) => format!("; {field} written as {number}"),
        _ => String::new(),
    }
}

/// What a class line says.
pub fn class_words(job: &Job, class: usize) -> String {
    let Some(row) = job.classes.get(class) else {
        return format!("class {class}: not in the job sheet");
    };
    let spill = if row.spillslots { "with spillslots" } else { "no spillslots" };
    let (members, cost) = (members(row.mask), readable(row.cost));
    format!("class {class}: subclasses {members}; cost {cost}; group size {}; {spill}", row.size)
}

#[cfg(test)]
mod tests {
    use super::{members, point, readable};

    #[test]
    fn floats() {
        let all = [0.0, 0.5, 1.0 / 3.0, 1234.5, 999_999.0, 1e-5, 1e-45, f32::MAX, f32::INFINITY, -1.5, 0.99999];
        let words = ["0", "0.5", "0.3333", "1234", "999999", "1e-5", "1.401e-45", "3.403e38", "inf", "-1.5", "1"];
        assert_eq!(all.map(readable), words);
    }

    #[test]
    fn masks_and_points() {
        assert_eq!([0, 1, 0b10111, u32::MAX].map(members), ["none", "0", "0–2, 4", "0–31"]);
        assert_eq!(point(14), "14 (instruction 3, Normal)");
    }
}

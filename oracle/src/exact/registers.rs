//! The registers of a register sheet, and what the weight of each is made of.

use crate::job::{Job, Use};

use super::weighing::{Term, Weighing};

pub struct Register {
    pub class: u32,
    /// The pattern of the weight.
    pub weight: u32,
    pub in_group: bool,
    pub pieces: Vec<Piece>,
}

pub struct Piece {
    pub value: u32,
    pub from: u32,
    pub to: u32,
    pub uses: Vec<Use>,
}

/// The registers of a sheet that is no refusal, pieces and uses as they stand in it.
pub fn read(sheet: &str) -> Vec<Register> {
    let mut registers: Vec<Register> = Vec::new();
    for line in sheet.lines() {
        let fields: Vec<&str> = line.split('\t').collect();
        match fields[0] {
            "vreg" => registers.push(register(&fields)),
            "seg" => registers.last_mut().unwrap().pieces.push(piece(&fields)),
            "use" => {
                let last = registers.last_mut().unwrap().pieces.last_mut();
                last.unwrap().uses.push(use_of(&fields));
            }
            "group" | "end" => {}
            other => panic!("{other} in a register sheet"),
        }
    }
    registers
}

fn register(fields: &[&str]) -> Register {
    Register {
        class: number(fields[3]),
        weight: u32::from_str_radix(fields[4], 16).unwrap(),
        in_group: fields[5] != "-",
        pieces: Vec::new(),
    }
}

fn piece(fields: &[&str]) -> Piece {
    Piece {
        value: number(fields[1]),
        from: number(fields[2]),
        to: number(fields[3]),
        uses: Vec::new(),
    }
}

fn use_of(fields: &[&str]) -> Use {
    let mut own = [0; 4];
    for (place, field) in own.iter_mut().zip(&fields[3..]) {
        *place = number(field);
    }
    Use {
        kind: number(fields[1]),
        inst: number(fields[2]),
        fields: own,
    }
}

fn number(field: &str) -> u32 {
    field.parse().unwrap()
}

impl Register {
    /// Instructions that the pieces touch, each counted once.
    pub fn live_insts(&self) -> u32 {
        let (mut insts, mut seen) = (0, 0);
        for piece in &self.pieces {
            let end = piece.to.div_ceil(4);
            insts += end.saturating_sub(seen.max(piece.from / 4));
            seen = end;
        }
        insts
    }

    pub fn weighing(&self, job: &Job) -> Weighing {
        let uses = self.pieces.iter();
        let uses = uses.flat_map(|piece| piece.uses.iter().map(|u| (piece.value, u)));
        Weighing {
            terms: uses.map(|(value, u)| term(job, value, u)).collect(),
            insts: self.live_insts(),
            adjust: job.adjust,
        }
    }

    /// The pattern that the rule gives for a register without a group.
    pub fn weight_by_rule(&self, job: &Job) -> u32 {
        let spillslots = job.classes[self.class as usize].spillslots;
        if self.live_insts() <= 1 && !spillslots {
            return f32::INFINITY.to_bits();
        }
        self.weighing(job).weight().value.to_bits()
    }
}

fn term(job: &Job, value: u32, u: &Use) -> Term {
    let remat = job.values[value as usize].remat as usize;
    Term {
        cost: cost(job, u),
        scale: (remat > 0).then(|| job.scales[remat - 1]),
        frequency: frequency(job, u.inst),
    }
}

fn cost(job: &Job, u: &Use) -> f32 {
    match u.kind {
        0 | 1 if job.regs[u.fields[0] as usize] => 0.0,
        0 | 1 => 1.0,
        2 | 3 => 0.5,
        4..=7 => job.classes[u.class() as usize].cost,
        _ => 0.0,
    }
}

/// The frequency of the block that holds the instruction.
fn frequency(job: &Job, inst: u32) -> f32 {
    let mut end = 0;
    for block in &job.blocks {
        end += block.insts;
        if inst < end {
            return block.frequency;
        }
    }
    panic!("no block holds instruction {inst}")
}

#[cfg(test)]
mod tests {
    use super::*;
    use crate::answer::{Room, answer, tested};

    /// Two values of one set, blocks of different frequency, a fixed use of memory, k = 2.
    const JOB: &str = "opt\t2\t3f800000\t3f000000\t3f800000\nbank\t0\nclass\t00000001\t40400000\t1\t0\n\
        reg\t0\nreg\t1\nblock\t2\t3f800000\nblock\t2\t40800000\nvalue\t0\t0\t0\nvalue\t0\t0\t2\n\
        seg\t0\t2\t6\t0\nuse\t5\t0\t0\t0\nuse\t4\t1\t0\t0\nseg\t1\t6\t14\t0\nuse\t1\t2\t0\nuse\t1\t2\t1\n\
        use\t2\t3\t0\t1\t0\t0\nend\n";

    #[test]
    fn a_register_is_read_and_weighed_as_the_sheet_says() {
        let job = tested(JOB.as_bytes()).unwrap();
        let found = answer(JOB.as_bytes(), Room::default());
        let registers = read(&found.text);
        assert_eq!((registers.len(), registers[0].live_insts()), (1, 4));
        let terms = registers[0].weighing(&job).terms;
        let plain: Vec<_> = (terms.iter())
            .map(|t| (t.cost, t.scale, t.frequency))
            .collect();
        let half = Some(0.5);
        let class_use = (3.0, None, 1.0);
        let others = [(1.0, half, 4.0), (0.0, half, 4.0), (0.5, half, 4.0)];
        assert_eq!(plain[..2], [class_use; 2]);
        assert_eq!(plain[2..], others);
        assert_eq!(registers[0].weight, 1.5f32.to_bits());
        assert_eq!(registers[0].weight_by_rule(&job), 1.5f32.to_bits());
    }

    #[test]
    fn an_instruction_of_two_pieces_counts_once() {
        let piece = |from, to| Piece {
            value: 0,
            from,
            to,
            uses: Vec::new(),
        };
        let register = |pieces| Register {
            class: 0,
            weight: 0,
            in_group: false,
            pieces,
        };
        let insts = |pieces| register(pieces).live_insts();
        assert_eq!(insts(vec![piece(2, 6), piece(6, 14)]), 4);
        assert_eq!(insts(vec![piece(0, 1), piece(1, 2), piece(2, 4)]), 1);
        assert_eq!(insts(vec![piece(0, 4), piece(8, 9)]), 2);
    }
}

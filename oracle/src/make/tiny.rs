//! Every job of one small space, by number: a top class over two classes of
//! any masks, two instructions in one block or in two, one segment over both,
//! and up to three class uses or definitions.

use crate::job::{Block, CLASS_DEF, CLASS_USE, Class, Job, Seg, Use, Value};

/// Uses to choose from: two kinds, two instructions, three classes.
const CHOICES: u64 = 12;
/// Lists of none to three of them.
const LISTS: u64 = 1 + CHOICES + CHOICES * CHOICES + CHOICES * CHOICES * CHOICES;
/// Jobs in the space: masks of two classes, ways to part the blocks, lists.
const COUNT: u64 = 8 * 8 * 2 * LISTS;

/// The space in a mixed order: any COUNT numbers in a row give every job once.
pub fn mixed(number: u64) -> Job {
    const STEP: u64 = 104_729;
    make(number % COUNT * STEP % COUNT)
}

fn make(number: u64) -> Job {
    let (rest, list) = (number / LISTS, number % LISTS);
    let (rest, parted) = (rest / 2, rest % 2 == 1);
    let mut job = Job {
        scales: [1.0; 3],
        banks: vec![0],
        ..Job::default()
    };
    for mask in [7, rest % 8, rest / 8 % 8] {
        job.classes.push(Class {
            mask: mask as u32,
            cost: 1.0,
            size: 1,
            spillslots: false,
        });
    }
    let block = |insts: u32, frequency: f32| Block { insts, frequency };
    job.blocks = if parted {
        vec![block(1, 1.0), block(1, 0.5)]
    } else {
        vec![block(2, 1.0)]
    };
    job.values.push(Value {
        bank: 0,
        leader: 0,
        remat: 0,
    });
    job.uses = uses(list);
    job.segs.push(Seg {
        value: 0,
        from: 0,
        to: 8,
        flags: 0,
        uses: 0..job.uses.len(),
    });
    job
}

/// The list of that number, shorter lists first, sorted by instruction.
fn uses(mut number: u64) -> Vec<Use> {
    let mut length = 0;
    while number >= CHOICES.pow(length) {
        number -= CHOICES.pow(length);
        length += 1;
    }
    let mut uses = Vec::new();
    for slot in 0..length {
        let choice = (number % CHOICES) as u32;
        number /= CHOICES;
        uses.push(Use {
            kind: [CLASS_USE, CLASS_DEF][choice as usize % 2],
            inst: choice / 2 % 2,
            fields: [slot, choice / 4, 0, 0],
        });
    }
    uses.sort_by_key(|u| u.inst);
    uses
}

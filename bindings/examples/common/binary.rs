//! Binary jobs: written word by word from the oracle's jobs, and read by docs/TABLES.md once more.

use oracle::job::{self, Job, USE_FIELDS};

/// The binary job of a job, which may have what the types of `cundzeli::build` can't express.
pub fn write(job: &Job) -> Vec<u8> {
    let [a, b, c] = job.scales.map(f32::to_bits);
    joined([job.adjust, a, b, c], &rows(job))
}

fn table<T>(items: &[T], row: impl Fn(&T) -> Vec<u32>) -> Vec<Vec<u32>> {
    items.iter().map(row).collect()
}

fn rows(job: &Job) -> [Vec<Vec<u32>>; 10] {
    [
        table(&job.banks, |&top| vec![top]),
        table(&job.classes, class_row),
        table(&job.regs, |&memory| vec![memory.into()]),
        table(&job.blocks, |row| vec![row.insts, row.frequency.to_bits()]),
        table(&job.values, |row| vec![row.bank, row.leader, row.remat]),
        table(&job.vgroups, |members| vgroup_row(members)),
        table(&job.operands, |row| {
            vec![row.inst, row.slot, row.vgroup, row.class]
        }),
        table(&job.hints, |row| {
            vec![row.value, row.inst, row.incoming.into()]
        }),
        table(&job.segs, seg_row),
        table(&job.uses, |row| {
            [[row.kind, row.inst].as_slice(), &row.fields].concat()
        }),
    ]
}

fn class_row(class: &job::Class) -> Vec<u32> {
    let spillslots = class.spillslots.into();
    vec![class.mask, class.cost.to_bits(), class.size, spillslots]
}

fn vgroup_row(members: &[u32]) -> Vec<u32> {
    let mut row = vec![members.len() as u32];
    row.extend(members.iter().take(8));
    row.resize(9, 0);
    row
}

fn seg_row(seg: &job::Seg) -> Vec<u32> {
    vec![
        seg.value,
        seg.from,
        seg.to,
        seg.flags,
        seg.uses.start as u32,
    ]
}

/// Puts the rows behind a header that counts them.
pub fn joined(options: [u32; 4], rows: &[Vec<Vec<u32>>; 10]) -> Vec<u8> {
    let counts = rows.iter().map(|table| table.len() as u32);
    let all = rows.iter().flatten().flatten().copied();
    let words = counts.chain(options).chain(all);
    words.flat_map(u32::to_le_bytes).collect()
}

/// Words of the header, and words in a row of each table, in order.
pub const HEADER: usize = 14;
pub const WIDTHS: [usize; 10] = [1, 4, 1, 2, 3, 9, 4, 3, 5, 6];
pub const CLASSES: usize = 1;
pub const REGS: usize = 2;
pub const VALUES: usize = 4;
pub const VGROUPS: usize = 5;
pub const HINTS: usize = 7;
pub const SEGMENTS: usize = 8;
pub const USES: usize = 9;

/// The rows of the ten tables, or none if the slice is not exactly as long as its header says.
pub fn tables(words: &[u32]) -> Option<[Vec<Vec<u32>>; 10]> {
    let mut rest = words.get(HEADER..)?;
    let mut tables: [Vec<Vec<u32>>; 10] = Default::default();
    for (number, table) in tables.iter_mut().enumerate() {
        let length = WIDTHS[number].checked_mul(words[number] as usize)?;
        let (rows, behind) = rest.split_at_checked(length)?;
        *table = rows.chunks(WIDTHS[number]).map(<[u32]>::to_vec).collect();
        rest = behind;
    }
    rest.is_empty().then_some(tables)
}

/// The words of a slice of whole words.
pub fn words(bytes: &[u8]) -> Option<Vec<u32>> {
    let words = bytes.chunks_exact(4);
    let whole = words.remainder().is_empty();
    let word = |bytes: &[u8]| u32::from_le_bytes([bytes[0], bytes[1], bytes[2], bytes[3]]);
    whole.then(|| words.map(word).collect())
}

fn choice(word: u32, greatest: u32) -> Option<u32> {
    (word <= greatest).then_some(word)
}

/// The job of a slice, or none if it falls to test 1.
pub fn read(bytes: &[u8]) -> Option<Job> {
    let words = words(bytes)?;
    let rows = tables(&words)?;
    if words[0] == 0 || words[1] == 0 || words[3] == 0 {
        return None;
    }
    let mut job = Job {
        adjust: words[10],
        scales: [words[11], words[12], words[13]].map(f32::from_bits),
        ..Job::default()
    };
    read_book(&rows, &mut job)?;
    read_function(&rows, &mut job)?;
    for row in &rows[USES] {
        job.uses.push(read_use(row)?);
    }
    read_segments(&rows[SEGMENTS], &mut job)?;
    Some(job)
}

fn read_book(rows: &[Vec<Vec<u32>>; 10], job: &mut Job) -> Option<()> {
    job.banks = rows[0].iter().map(|row| row[0]).collect();
    for row in &rows[CLASSES] {
        job.classes.push(job::Class {
            mask: row[0],
            cost: f32::from_bits(row[1]),
            size: row[2],
            spillslots: choice(row[3], 1)? == 1,
        });
    }
    for row in &rows[REGS] {
        job.regs.push(choice(row[0], 1)? == 1);
    }
    Some(())
}

fn read_function(rows: &[Vec<Vec<u32>>; 10], job: &mut Job) -> Option<()> {
    for row in &rows[3] {
        job.blocks
            .push(job::Block { insts: row[0], frequency: f32::from_bits(row[1]) });
    }
    for row in &rows[VALUES] {
        job.values
            .push(job::Value { bank: row[0], leader: row[1], remat: choice(row[2], 3)? });
    }
    job.vgroups = rows[VGROUPS].iter().map(|row| members(row)).collect();
    for row in &rows[6] {
        job.operands.push(job::Operand {
            inst: row[0],
            slot: row[1],
            vgroup: row[2],
            class: row[3],
        });
    }
    for row in &rows[HINTS] {
        job.hints.push(job::Hint {
            value: row[0],
            inst: row[1],
            incoming: choice(row[2], 1)? == 1,
        });
    }
    Some(())
}

/// The members in use. More than eight are nine here: either is refused by 4.
fn members(row: &[u32]) -> Vec<u32> {
    match row[0] {
        0..=8 => row[1..=row[0] as usize].to_vec(),
        _ => vec![0; 9],
    }
}

fn read_use(row: &[u32]) -> Option<job::Use> {
    let kind = choice(row[0], 9)?;
    let own = USE_FIELDS[kind as usize];
    let mut fields = [0; 4];
    fields[..own].copy_from_slice(&row[2..2 + own]);
    Some(job::Use { kind, inst: row[1], fields })
}

/// A segment's uses go from its count up to the next one's, the last one's up to the number of uses.
fn read_segments(rows: &[Vec<u32>], job: &mut Job) -> Option<()> {
    let total = job.uses.len();
    if rows.is_empty() {
        return (total == 0).then_some(());
    }
    let mut starts: Vec<usize> = rows.iter().map(|row| row[4] as usize).collect();
    starts.push(total);
    if starts[0] != 0 || !starts.is_sorted() {
        return None;
    }
    for (row, ends) in rows.iter().zip(starts.windows(2)) {
        job.segs.push(job::Seg {
            value: row[0],
            from: row[1],
            to: row[2],
            flags: choice(row[3], 15)?,
            uses: ends[0]..ends[1],
        });
    }
    Some(())
}

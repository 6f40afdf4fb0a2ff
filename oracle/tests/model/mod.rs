//! The building rules, from the paper alone: lists copied, nothing shared.

mod admit;
mod place;
mod show;
mod weigh;

use std::collections::HashMap;
use std::ops::RangeInclusive;

use admit::Held;
use oracle::job::{BLOCKPARAM_IN, CLASS_DEF, GROUP_DEF, Job, Use};

#[derive(Debug)]
pub enum Refused {
    Stop(&'static str),
    Room,
}

#[derive(Clone)]
pub struct Piece {
    pub value: u32,
    pub from: u32,
    pub to: u32,
    pub flags: u32,
    pub uses: Vec<Use>,
    pub added: bool,
}

pub struct Reg {
    pub set: u32,
    pub class: u32,
    pub weight: f32,
    pub group: Option<usize>,
    pub index: u32,
    pub pieces: Vec<Piece>,
}

/// Of a use: its piece, and its place in the piece's list.
type Place = (usize, usize);

/// A use taken out of its list.
struct Turned {
    value: u32,
    u: Use,
    blockparam: Option<u32>,
}

pub struct Model<'a> {
    pub job: &'a Job,
    pub regs: Vec<Reg>,
    pub groups: Vec<Vec<Option<usize>>>,
    /// Operand, by instruction and slot, to group.
    pub mapping: HashMap<(u32, u32), usize>,
    pub block_of: Vec<usize>,
    /// Registers that were merged into one that stood.
    pub merges: usize,
    room: [usize; 4],
    /// The set being built.
    pub set: u32,
    top: u32,
    turned: Vec<Turned>,
}

/// The model of a tested job as far as it was built, and why no further.
pub fn run(job: &Job, room: [usize; 4]) -> (Model<'_>, Option<Refused>) {
    let mut model = empty(job, room);
    let refused = model.sets().err();
    (model, refused)
}

fn empty(job: &Job, room: [usize; 4]) -> Model<'_> {
    let blocks = job.blocks.iter().enumerate();
    Model {
        job,
        regs: Vec::new(),
        groups: Vec::new(),
        mapping: HashMap::new(),
        block_of: blocks
            .flat_map(|(b, block)| vec![b; block.insts as usize])
            .collect(),
        merges: 0,
        room,
        set: 0,
        top: 0,
        turned: Vec::new(),
    }
}

fn is_def(u: &Use) -> bool {
    matches!(u.kind, CLASS_DEF | GROUP_DEF)
}

impl Model<'_> {
    /// The register sheet.
    pub fn sheet(&self) -> String {
        show::sheet(self)
    }

    /// Builds the registers of every set.
    fn sets(&mut self) -> Result<(), Refused> {
        let job = self.job;
        let set_of = |value: u32| job.values[value as usize].leader;
        for segs in job.segs.chunk_by(|a, b| set_of(a.value) == set_of(b.value)) {
            let piece = |seg: &oracle::job::Seg| Piece {
                value: seg.value,
                from: seg.from,
                to: seg.to,
                flags: seg.flags,
                uses: job.uses_of(seg).to_vec(),
                added: false,
            };
            self.set = set_of(segs[0].value);
            self.top = job.banks[job.values[segs[0].value as usize].bank as usize];
            self.parts(segs.iter().map(piece).collect())?;
            self.conflicts()?;
        }
        Ok(())
    }

    /// Builds the set's registers but those of its conflicts.
    fn parts(&mut self, mut pieces: Vec<Piece>) -> Result<(), Refused> {
        loop {
            let (held, failing) = self.forward(&pieces);
            let Some(end) = failing else {
                return self.place(held, pieces);
            };
            let (start, at_end) = self.backward(&pieces, end)?;
            let (first, last) = (pieces[start.0].uses[start.1], pieces[end.0].uses[end.1]);
            if first.inst == last.inst {
                self.turn(&mut pieces, if is_def(&last) { start } else { end })?;
                continue;
            }
            let cost = |held: &Held| self.job.classes[held.class as usize].cost;
            let cut = if cost(&held) >= cost(&at_end) {
                self.early(first.inst, last.inst)
            } else {
                self.late(first.inst, last.inst)
            };
            let (left, right) = self.split(pieces, cut);
            let (held, failing) = self.forward(&left);
            assert!(failing.is_none(), "the part before a cut conflicts");
            self.place(held, left)?;
            pieces = right;
        }
    }

    /// What all uses leave held, or the first that is not admitted.
    fn forward(&self, pieces: &[Piece]) -> (Held, Option<Place>) {
        let mut held = Held::new(self.top);
        for (i, piece) in pieces.iter().enumerate() {
            for (j, u) in piece.uses.iter().enumerate() {
                match held.admit(self, u) {
                    Some(next) => held = next,
                    None => return (held, Some((i, j))),
                }
            }
        }
        (held, None)
    }

    /// The first use back from the failing one that is not admitted, and what is held there.
    fn backward(&self, pieces: &[Piece], end: Place) -> Result<(Place, Held), Refused> {
        let mut held = Held::new(self.top);
        for i in (0..=end.0).rev() {
            let count = if i == end.0 {
                end.1 + 1
            } else {
                pieces[i].uses.len()
            };
            for j in (0..count).rev() {
                match held.admit(self, &pieces[i].uses[j]) {
                    Some(next) => held = next,
                    None => return Ok(((i, j), held)),
                }
            }
        }
        Err(Refused::Stop("no-start"))
    }

    fn turn(&mut self, pieces: &mut [Piece], at: Place) -> Result<(), Refused> {
        let piece = &mut pieces[at.0];
        let u = piece.uses[at.1];
        if is_def(&u) {
            return Err(Refused::Stop("turned-def"));
        }
        let first = piece.uses[0];
        let leads = first.kind == BLOCKPARAM_IN && first.inst == u.inst;
        self.turned.push(Turned {
            value: piece.value,
            u,
            blockparam: leads.then_some(first.fields[0]),
        });
        piece.uses[at.1] = Use {
            kind: 3,
            inst: u.inst,
            fields: [0; 4],
        };
        Ok(())
    }

    /// Among `after` + 1 and the block starts above it up to `before`, the
    /// earliest whose block frequency is least.
    fn early(&self, after: u32, before: u32) -> u32 {
        let open = |inst: u32| inst == after + 1 || self.starts_block(inst);
        self.least(after + 1..=before, open, |inst| inst)[0]
    }

    /// Among `before` and the block ends from `after` + 1 to it, the latest
    /// whose preceding instruction's block frequency is least.
    fn late(&self, after: u32, before: u32) -> u32 {
        let open = |inst: u32| inst == before || self.starts_block(inst);
        *self
            .least(after + 1..=before, open, |inst| inst - 1)
            .last()
            .unwrap()
    }

    /// An instruction after the first starts a block where the one before it ends another.
    fn starts_block(&self, inst: u32) -> bool {
        self.block_of[inst as usize] != self.block_of[inst as usize - 1]
    }

    /// The open instructions of a range at which the frequency of the block that judges is least, in order.
    fn least(
        &self,
        range: RangeInclusive<u32>,
        open: impl Fn(u32) -> bool,
        judge: impl Fn(u32) -> u32,
    ) -> Vec<u32> {
        let block = |inst: u32| self.block_of[judge(inst) as usize];
        let frequency = |inst: u32| self.job.blocks[block(inst)].frequency;
        let places: Vec<u32> = range.filter(|&inst| open(inst)).collect();
        let frequencies = places.iter().map(|&inst| frequency(inst));
        let least = frequencies.fold(f32::INFINITY, f32::min);
        let cheap = places.into_iter();
        cheap.filter(|&inst| frequency(inst) == least).collect()
    }

    /// Cuts at the boundary before an instruction.
    fn split(&self, pieces: Vec<Piece>, inst: u32) -> (Vec<Piece>, Vec<Piece>) {
        let at = 4 * inst;
        let (mut left, mut right) = (Vec::new(), Vec::new());
        for piece in pieces {
            if piece.to <= at {
                left.push(piece);
            } else if piece.from >= at {
                right.push(piece);
            } else {
                let (a, b) = self.split_piece(piece, inst);
                left.push(a);
                right.push(b);
            }
        }
        assert!(
            !left.is_empty() && !right.is_empty(),
            "a cut outside the range"
        );
        (left, right)
    }

    fn split_piece(&self, piece: Piece, inst: u32) -> (Piece, Piece) {
        let (before, behind) = piece.uses.iter().partition(|u| u.inst < inst);
        let hinted = |from: u32, to: u32| {
            let keys = self
                .job
                .hints
                .iter()
                .filter(|hint| hint.value == piece.value);
            let mut keys = keys.map(|hint| (hint.inst, hint.incoming));
            piece.flags & 4 != 0 && keys.any(|key| (from, true) <= key && key <= (to, false))
        };
        let hint = |there: bool| if there { 4 } else { 0 };
        let left = Piece {
            to: 4 * inst,
            flags: piece.flags & 9 | 2 | hint(hinted(piece.from / 4, inst)),
            uses: before,
            ..piece
        };
        let right = Piece {
            from: 4 * inst,
            flags: piece.flags & 2 | 1 | hint(hinted(inst, piece.to.div_ceil(4))),
            uses: behind,
            ..piece
        };
        (left, right)
    }

    /// The registers of the turned uses, run by run.
    fn conflicts(&mut self) -> Result<(), Refused> {
        let turned = std::mem::take(&mut self.turned);
        for run in turned.chunk_by(|a, b| a.u.inst == b.u.inst) {
            if run.iter().any(|turned| turned.value != run[0].value) {
                return Err(Refused::Stop("values-differ"));
            }
            let mut left: Vec<Use> = run.iter().map(|turned| turned.u).collect();
            while !left.is_empty() {
                let (held, admitted) = self.round(&mut left);
                if admitted.is_empty() {
                    return Err(Refused::Stop("none-admitted"));
                }
                self.place(held, vec![conflict_piece(&run[0], admitted)])?;
            }
        }
        Ok(())
    }

    /// Takes out of the list what one register admits.
    fn round(&self, left: &mut Vec<Use>) -> (Held, Vec<Use>) {
        let mut held = Held::new(self.top);
        let (mut tried, mut untried) = (0, left.len());
        while tried < untried {
            match held.admit(self, &left[tried]) {
                Some(next) => {
                    held = next;
                    tried += 1;
                }
                None => {
                    untried -= 1;
                    left.swap(tried, untried);
                }
            }
        }
        (held, left.drain(..tried).collect())
    }
}

/// The piece of one conflict register, behind the block parameter if one led.
fn conflict_piece(first: &Turned, admitted: Vec<Use>) -> Piece {
    let inst = first.u.inst;
    let lead = first.blockparam.map(|number| Use {
        kind: BLOCKPARAM_IN,
        inst,
        fields: [number, 0, 0, 0],
    });
    Piece {
        value: first.value,
        from: 4 * inst,
        to: 4 * inst + 2,
        flags: u32::from(lead.is_none()),
        uses: lead.into_iter().chain(admitted).collect(),
        added: true,
    }
}

//! Placing a register: new, joined or merged.

use super::admit::Held;
use super::{Model, Piece, Refused, Reg, weigh};

impl Model<'_> {
    pub fn place(&mut self, held: Held, pieces: Vec<Piece>) -> Result<(), Refused> {
        if let Some(reg) = held.merge {
            self.merge(&held, reg, pieces)?;
        } else {
            self.put(&held, pieces)?;
        }
        self.check_room()
    }

    fn merge(&mut self, held: &Held, reg: usize, pieces: Vec<Piece>) -> Result<(), Refused> {
        let (first, last) = (pieces[0].from, pieces.last().unwrap().to);
        let old = &mut self.regs[reg].pieces;
        if old
            .iter()
            .any(|piece| piece.to > first && piece.from < last)
        {
            return Err(Refused::Stop("overlap"));
        }
        old.extend(pieces);
        old.sort_by_key(|piece| piece.from);
        self.merges += 1;
        let weight = weigh::weight(self, held, &self.regs[reg].pieces);
        self.agree(self.regs[reg].group.unwrap(), held.class, weight);
        Ok(())
    }

    fn put(&mut self, held: &Held, pieces: Vec<Piece>) -> Result<(), Refused> {
        let weight = weigh::weight(self, held, &pieces);
        let number = self.regs.len();
        let mut group = None;
        if let Some(in_group) = &held.group {
            let joined = match in_group.mapped {
                Some(joined) => joined,
                None => self.new_group(held.class, &pieces)?,
            };
            assert!(
                self.groups[joined][in_group.index as usize].is_none(),
                "a place taken"
            );
            self.groups[joined][in_group.index as usize] = Some(number);
            group = Some(joined);
        }
        self.regs.push(Reg {
            set: self.set,
            class: held.class,
            weight,
            group,
            index: held.group.as_ref().map_or(0, |in_group| in_group.index),
            pieces,
        });
        if let Some(group) = group {
            self.agree(group, held.class, weight);
        }
        Ok(())
    }

    fn new_group(&mut self, class: u32, pieces: &[Piece]) -> Result<usize, Refused> {
        let number = self.groups.len();
        for u in pieces
            .iter()
            .flat_map(|piece| &piece.uses)
            .filter(|u| u.is_group())
        {
            if self.mapping.insert((u.inst, u.slot()), number).is_some() {
                return Err(Refused::Stop("mapped-twice"));
            }
        }
        let size = self.job.classes[class as usize].size as usize;
        self.groups.push(vec![None; size]);
        Ok(number)
    }

    /// Sets class and weight of all members.
    fn agree(&mut self, group: usize, class: u32, weight: f32) {
        for &member in self.groups[group].iter().flatten() {
            self.regs[member].class = class;
            self.regs[member].weight = weight;
        }
    }

    fn check_room(&self) -> Result<(), Refused> {
        let need = self.rows();
        let fits = need.iter().zip(self.room).all(|(&need, have)| need <= have);
        if fits { Ok(()) } else { Err(Refused::Room) }
    }

    /// Registers, segments, uses and groups that stand.
    pub fn rows(&self) -> [usize; 4] {
        let pieces = self.regs.iter().flat_map(|reg| &reg.pieces);
        let uses = pieces.clone().map(|piece| piece.uses.len()).sum();
        [self.regs.len(), pieces.count(), uses, self.groups.len()]
    }
}

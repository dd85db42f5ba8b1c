//! Lots told apart by numbers, and the texts that they are ordered by.

use crate::ledger::Ledger;
use crate::names::{Index, NONE, mixed};

#[derive(Clone, Copy, Debug, PartialEq, Eq)]
pub struct Lot {
    /// Of `10^-8`.
    pub cost: i128,
    pub currency: u32,
    pub day: u32,
    pub label: u32,
}

impl Lot {
    fn hash(&self) -> u64 {
        let words = [self.cost as u64, u64::from(self.currency) << 32 | u64::from(self.day), u64::from(self.label)];
        let hash = words.into_iter().fold(0, mixed);
        hash ^ hash >> 32
    }
}

/// Each lot once, in the order in which they first came.
pub struct Lots {
    lots: Vec<Lot>,
    index: Index,
}

impl Lots {
    pub fn new() -> Lots {
        Lots { lots: Vec::new(), index: Index::new() }
    }

    pub fn get(&self, number: u32) -> &Lot {
        &self.lots[number as usize]
    }

    /// The number of a lot, a new one where there is none.
    pub fn of(&mut self, lot: Lot) -> u32 {
        let hash = lot.hash();
        match self.index.look_up(hash, |number| *self.get(number) == lot) {
            Ok(number) => number,
            Err(at) => {
                self.lots.push(lot);
                self.index.add(at, hash, |number| self.lots[number as usize].hash())
            }
        }
    }

    /// What tells the place of units among those of their currency in a table: none first, then by the lot.
    pub fn rank(&self, number: u32, ledger: &Ledger) -> Option<(&'static str, i128, u32, Option<&'static str>)> {
        let lot = (number != NONE).then(|| self.get(number))?;
        let label = (lot.label != NONE).then(|| ledger.labels.text(lot.label));
        Some((ledger.currencies.text(lot.currency), lot.cost, lot.day, label))
    }
}

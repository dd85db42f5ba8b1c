//! What is held, by currency and lot.

use crate::names::{NONE, QuickMap};

/// Sums of so few entries are looked through.
const FEW: usize = 16;

/// Counts of `10^-8`, each with its key of currency and lot; none is 0.
#[derive(Default)]
pub struct Sums {
    keys: Vec<u64>,
    counts: Vec<i128>,
    /// The places of entries, once there are more than a few.
    places: QuickMap<u64, u32>,
}

fn key(currency: u32, lot: u32) -> u64 {
    u64::from(currency) << 32 | u64::from(lot)
}

impl Sums {
    #[inline]
    fn place(&self, key: u64) -> Option<usize> {
        if self.places.is_empty() {
            return self.keys.iter().position(|of| *of == key);
        }
        self.places.get(&key).map(|place| *place as usize)
    }

    #[inline]
    pub fn add(&mut self, currency: u32, lot: u32, count: i128) {
        let key = key(currency, lot);
        let Some(place) = self.place(key) else {
            return self.push(key, count);
        };
        self.counts[place] += count;
        if self.counts[place] == 0 {
            self.remove(place);
        }
    }

    fn push(&mut self, key: u64, count: i128) {
        if count == 0 {
            return;
        }
        self.keys.push(key);
        self.counts.push(count);
        if !self.places.is_empty() {
            self.places.insert(key, self.keys.len() as u32 - 1);
        } else if self.keys.len() > FEW {
            self.places = self.keys.iter().copied().zip(0..).collect();
        }
    }

    /// Takes an entry out; the last one gets its place.
    fn remove(&mut self, place: usize) {
        let key = self.keys.swap_remove(place);
        self.counts.swap_remove(place);
        if self.places.is_empty() {
            return;
        }
        self.places.remove(&key);
        if let Some(moved) = self.keys.get(place) {
            self.places.insert(*moved, place as u32);
        }
    }

    /// Each with its currency and its lot, in no order.
    pub fn entries(&self) -> impl Iterator<Item = (u32, u32, i128)> {
        let entries = self.keys.iter().zip(&self.counts);
        entries.map(|(key, count)| ((key >> 32) as u32, *key as u32, *count))
    }

    /// The same without lots.
    #[inline]
    pub fn add_units(&mut self, currency: u32, count: i128) {
        self.add(currency, NONE, count);
    }
}

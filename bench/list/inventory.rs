//! What an account holds of a currency at cost, and what a sale takes of it.

use crate::lots::{Lot, Lots};
use crate::names::{NONE, QuickMap};
use std::collections::BTreeMap;
use std::collections::btree_map::Entry;

#[derive(Clone, Copy, Debug, Default, PartialEq, Eq)]
pub enum Method {
    #[default]
    Strict,
    Fifo,
    Lifo,
    None,
}

impl Method {
    pub fn named(name: &str) -> Option<Method> {
        match name {
            "STRICT" => Some(Method::Strict),
            "FIFO" => Some(Method::Fifo),
            "LIFO" => Some(Method::Lifo),
            "NONE" => Some(Method::None),
            _ => None,
        }
    }
}

/// What tells the lots that are meant; a day of 0 and a label of none are not written.
#[derive(Clone, Copy)]
pub struct Selector {
    /// The count of `10^-8`, and the currency.
    pub cost: Option<(i128, u32)>,
    pub day: u32,
    pub label: u32,
}

impl Selector {
    fn agrees(&self, lot: &Lot) -> bool {
        self.cost.is_none_or(|cost| cost == (lot.cost, lot.currency)) && (self.label == NONE || self.label == lot.label)
    }
}

/// A lot's place among those of its inventory, in the order in which they are taken: by day, from the last one under
/// LIFO, and those of a day as they came.
pub type Place = u64;

/// A lot with what is held of it.
#[derive(Clone, Copy)]
struct Held {
    lot: u32,
    count: i128,
}

/// What is taken of the lot at a place.
#[derive(Clone, Copy)]
pub struct Take {
    place: Place,
    pub lot: u32,
    pub count: i128,
    /// Nothing is left of it.
    is_all: bool,
}

pub struct Inventory {
    method: Method,
    /// What is held above 0, and what is below.
    sides: [BTreeMap<Place, Held>; 2],
    places: QuickMap<u32, Place>,
    came: u32,
}

fn side_of(count: i128) -> usize {
    usize::from(count < 0)
}

impl Inventory {
    pub fn new(method: Method) -> Self {
        Inventory { method, sides: Default::default(), places: QuickMap::default(), came: 0 }
    }

    pub fn is_empty(&self) -> bool {
        self.places.is_empty()
    }

    /// The first place of a day.
    fn first_of(&self, day: u32) -> Place {
        let order = if self.method == Method::Lifo { !day } else { day };
        u64::from(order) << 32
    }

    /// A new lot goes behind those of its day, one that is held keeps its place, and one that comes
    /// to 0 goes.
    pub fn add(&mut self, lot: u32, day: u32, count: i128) {
        if count == 0 {
            return;
        }
        let Some(&place) = self.places.get(&lot) else {
            self.came += 1;
            let place = self.first_of(day) | u64::from(self.came);
            self.places.insert(lot, place);
            self.sides[side_of(count)].insert(place, Held { lot, count });
            return;
        };
        let side = usize::from(self.sides[1].contains_key(&place));
        let Entry::Occupied(mut entry) = self.sides[side].entry(place) else {
            return;
        };
        let held = entry.get_mut();
        let sum = held.count + count;
        if sum.signum() == held.count.signum() {
            held.count = sum;
            return;
        }
        entry.remove();
        if sum == 0 {
            self.places.remove(&lot);
        } else {
            self.sides[1 - side].insert(place, Held { lot, count: sum });
        }
    }

    /// Whether units with braces are sold, and not bought.
    pub fn sells(&self, want: i128) -> bool {
        self.method != Method::None && want != 0 && !self.sides[side_of(-want)].is_empty()
    }

    /// The lots that a sale may take from.
    fn candidates<'i>(
        &'i self,
        want: i128,
        selector: &'i Selector,
        lots: &'i Lots,
    ) -> impl Iterator<Item = (Place, Held)> + Clone + 'i {
        let places = match selector.day {
            0 => 0..=Place::MAX,
            day => self.first_of(day)..=self.first_of(day) | u64::from(u32::MAX),
        };
        let held = self.sides[side_of(-want)].range(places);
        held.filter(move |(_, held)| selector.agrees(lots.get(held.lot))).map(|(place, held)| (*place, *held))
    }

    /// Takes what is sold from the lots and tells it behind other takes, or takes nothing where the sale is at fault.
    pub fn take(&mut self, want: i128, selector: &Selector, lots: &Lots, takes: &mut Vec<Take>) -> Option<()> {
        let candidates = self.candidates(want, selector, lots);
        if self.method == Method::Strict && is_ambiguous(candidates.clone(), want) {
            return None;
        }
        let before = takes.len();
        let mut rest = want;
        for (place, held) in candidates {
            let is_all = held.count.abs() <= rest.abs();
            let count = if is_all { -held.count } else { rest };
            takes.push(Take { place, lot: held.lot, count, is_all });
            rest -= count;
            if rest == 0 {
                break;
            }
        }
        if rest != 0 {
            takes.truncate(before);
            return None;
        }
        takes[before..].iter().for_each(|take| self.remove(take));
        Some(())
    }

    fn remove(&mut self, take: &Take) {
        let side = &mut self.sides[side_of(-take.count)];
        if take.is_all {
            side.remove(&take.place);
        } else if let Some(held) = side.get_mut(&take.place) {
            held.count += take.count;
        }
    }

    /// Puts back what was taken last.
    pub fn put_back(&mut self, take: &Take) {
        let side = &mut self.sides[side_of(-take.count)];
        side.entry(take.place).or_insert(Held { lot: take.lot, count: 0 }).count -= take.count;
    }

    /// Forgets the place of a lot of which nothing is left.
    pub fn forget(&mut self, take: &Take) {
        if take.is_all {
            self.places.remove(&take.lot);
        }
    }
}

/// Whether several lots may be taken from, and not all of them together are wanted.
fn is_ambiguous(candidates: impl Iterator<Item = (Place, Held)>, want: i128) -> bool {
    let (several, sum) = candidates.fold((0, 0), |(n, sum), (_, held)| (n + 1, sum + held.count));
    several > 1 && sum != -want
}

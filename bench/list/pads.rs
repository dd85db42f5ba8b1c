//! What pads insert.

use crate::holdings::pair;
use crate::ledger::{Ledger, Wide};
use crate::names::{NONE, Names, QuickMap};
use crate::numbers::Number;
use crate::rows::Row;

/// An amount is less than this count of `10^-8`.
const TOO_WIDE: i128 = 10i128.pow(20);

/// A pad, and what it inserts: by currency, counts of `10^-8`.
struct Pad {
    directive: u32,
    account: u32,
    source: u32,
    /// So many rows stand before what it inserts.
    at: usize,
    inserted: Vec<(u32, i128)>,
}

#[derive(Default)]
pub struct Pads {
    pads: Vec<Pad>,
    /// By account, those that some pad fills of itself and those above it.
    filled: Vec<Vec<u32>>,
    /// By account, its latest pad.
    latest: Vec<u32>,
    /// The pads and the currencies that have met their balance.
    met: QuickMap<u64, ()>,
    /// By filled account and currency, what it and those below it hold, and what pads on it inserted.
    sums: QuickMap<u64, i128>,
}

/// The accounts that are filled of one and those above it; no account is filled that is longer than the longest.
fn filled_of(account: &str, accounts: &Names, is_filled: &[bool], longest: usize) -> Vec<u32> {
    let ends = account.match_indices(':').map(|(end, _)| end).chain([account.len()]);
    let ends = ends.take_while(|end| *end <= longest);
    let names = ends.filter_map(|end| accounts.known(&account[..end]));
    names.filter(|name| is_filled[*name as usize]).collect()
}

impl Pads {
    pub fn new(ledger: &Ledger) -> Pads {
        if ledger.padded.is_empty() {
            return Pads::default();
        }
        let accounts = &ledger.accounts;
        let mut is_filled = vec![false; accounts.len()];
        for account in &ledger.padded {
            is_filled[*account as usize] = true;
        }
        let longest = ledger.padded.iter().map(|account| accounts.text(*account).len()).max().unwrap_or(0);
        let filled = accounts.texts().iter().map(|account| filled_of(account, accounts, &is_filled, longest));
        Pads { filled: filled.collect(), latest: vec![NONE; accounts.len()], ..Pads::default() }
    }

    pub fn is_empty(&self) -> bool {
        self.filled.is_empty()
    }

    /// Adds the rows of a transaction to what accounts hold.
    pub fn add(&mut self, rows: &[Row], wide: &Wide) {
        for row in rows {
            for account in &self.filled[row.account as usize] {
                let key = pair(*account, row.unit.currency());
                *self.sums.entry(key).or_default() += wide.at_8(row.count, row.unit);
            }
        }
    }

    pub fn pad(&mut self, directive: u32, account: u32, source: u32, at: usize) {
        self.latest[account as usize] = self.pads.len() as u32;
        self.pads.push(Pad { directive, account, source, at, inserted: Vec::new() });
    }

    /// The latest pad fills what lacks, unless the account holds the currency at cost.
    pub fn balance(
        &mut self,
        account: u32,
        currency: u32,
        number: i128,
        tolerance: i128,
        is_at_cost: impl FnOnce() -> bool,
    ) {
        let Some(&pad) = self.latest.get(account as usize).filter(|pad| **pad != NONE) else {
            return;
        };
        if self.met.insert(pair(pad, currency), ()).is_some() {
            return;
        }
        let sum = self.sums.entry(pair(account, currency)).or_default();
        let lacking = number - *sum;
        if lacking.abs() <= tolerance || lacking.abs() >= TOO_WIDE || is_at_cost() {
            return;
        }
        *sum += lacking;
        self.pads[pad as usize].inserted.push((currency, lacking));
    }

    /// Puts the rows that are inserted into their places, from the last one on.
    pub fn insert(&self, rows: &mut Vec<Row>, wide: &mut Wide) {
        let inserted: usize = self.pads.iter().map(|pad| 2 * pad.inserted.len()).sum();
        let mut from = rows.len();
        let Some(&any) = rows.first().filter(|_| inserted > 0) else {
            return self.insert_alone(rows, wide);
        };
        let mut to = from + inserted;
        rows.resize(to, any);
        for pad in self.pads.iter().rev() {
            to -= from - pad.at;
            rows.copy_within(pad.at..from, to);
            from = pad.at;
            to -= 2 * pad.inserted.len();
            for (place, row) in (to..).zip(pad.rows(wide)) {
                rows[place] = row;
            }
        }
    }

    /// The same where nothing else is booked.
    fn insert_alone(&self, rows: &mut Vec<Row>, wide: &mut Wide) {
        for pad in &self.pads {
            rows.extend(pad.rows(wide));
        }
    }
}

impl Pad {
    /// What is inserted goes to the account and comes from the source.
    fn rows(&self, wide: &mut Wide) -> impl Iterator<Item = Row> {
        let both =
            |(currency, count): &(u32, i128)| [(self.account, *currency, *count), (self.source, *currency, -count)];
        self.inserted.iter().flat_map(both).map(|(account, currency, count)| {
            let amount = wide.kept(Number::shortest(count), currency);
            Row { count: amount.count, account, directive: self.directive, posting: NONE, lot: NONE, unit: amount.unit }
        })
    }
}

//! Questions that queries ask, each answered by hand: what `bench/machine` measures beside the proved machine.
//! None is put into its caller, so that what it takes can be told by its name.

use crate::cells::{Cells, entries, ranks};
use crate::names::NONE;
use crate::questions::{by_account, is_above_1000};
use crate::rows::{Listed, Row};
use crate::sums::Sums;

fn add(listed: &Listed, sums: &mut Sums, row: &Row) {
    sums.add(row.unit.currency(), row.lot, listed.at_8(row));
}

/// `SELECT count(*) WHERE number > 1000 AND currency = 'USD' AND year = 2010`.
#[inline(never)]
pub fn filter(listed: &Listed) -> Vec<u8> {
    let mut cells = Cells::of(listed, &["count(*)"]);
    let dollar = listed.ledger.currencies.known("USD").unwrap_or(NONE);
    let is_dollar = |row: &Row| row.unit.currency() == dollar;
    let passes = |row: &&Row| is_dollar(row) && is_above_1000(listed, row) && listed.day(row) / 10_000 == 2010;
    let count = listed.rows.iter().filter(passes).count();
    // Without a row there is no group, and so no line.
    if count > 0 {
        cells.text(&count.to_string());
    }
    cells.table(&[true])
}

/// `SELECT account, sum(position)`, whatever lots there are.
#[inline(never)]
pub fn lots(listed: &Listed) -> Vec<u8> {
    let mut cells = Cells::of(listed, &["account", "sum(position)"]);
    by_account(listed, &mut cells, |sums, row| add(listed, sums, row));
    cells.table(&[])
}

/// `SELECT date, balance WHERE account = 'Assets:Cash'`.
#[inline(never)]
pub fn balance(listed: &Listed) -> Vec<u8> {
    let cash = listed.ledger.accounts.known("Assets:Cash").unwrap_or(NONE);
    let mut held = Sums::default();
    let mut cells = Cells::of(listed, &["date", "balance"]);
    for row in listed.rows.iter().filter(|row| row.account == cash) {
        add(listed, &mut held, row);
        cells.day(listed.day(row));
        cells.sums(&held);
    }
    cells.table(&[])
}

/// What orders a row: the rank of its account, then its number, then its own place.
#[inline]
fn key(listed: &Listed, rank: u32, place: u32, row: &Row) -> u128 {
    /// Numbers are between minus and plus this count of `10^-8`, and take one bit more with it.
    const WIDEST: i128 = 1 << 67;
    let number = (listed.at_8(row) + WIDEST) as u128;
    u128::from(rank) << 100 | number << 32 | u128::from(place)
}

/// The rows that keys stand for.
fn rows_of<'l>(listed: &'l Listed, keys: &'l [u128]) -> impl ExactSizeIterator<Item = &'l Row> + Clone {
    keys.iter().map(|key| &listed.rows[*key as u32 as usize])
}

/// `SELECT date, account, number ORDER BY account, number`.
#[inline(never)]
pub fn ordered(listed: &Listed) -> Vec<u8> {
    let ranks = ranks(listed.ledger.accounts.texts());
    let rows = (0..).zip(&listed.rows);
    let mut keys: Vec<u128> = rows.map(|(place, row)| key(listed, ranks[row.account as usize], place, row)).collect();
    keys.sort_unstable();
    entries(listed, rows_of(listed, &keys))
}

/// The same with `LIMIT 10`: the first ones so far are kept in their order.
#[inline(never)]
pub fn first(listed: &Listed) -> Vec<u8> {
    const MOST: usize = 10;
    let ranks = ranks(listed.ledger.accounts.texts());
    let mut first: Vec<u128> = Vec::with_capacity(MOST + 1);
    let mut last_rank = u32::MAX;
    for (place, row) in (0..).zip(&listed.rows) {
        let rank = ranks[row.account as usize];
        if rank > last_rank {
            continue;
        }
        let key = key(listed, rank, place, row);
        first.insert(first.partition_point(|kept| *kept < key), key);
        if first.len() >= MOST {
            first.truncate(MOST);
            last_rank = (first[MOST - 1] >> 100) as u32;
        }
    }
    entries(listed, rows_of(listed, &first))
}

//! Three questions that queries ask, over the rows of a ledger that holds no lots.

use crate::cells::{Cells, entries};
use crate::names::NONE;
use crate::numbers::{POWERS, power};
use crate::rows::{Listed, Row};
use crate::sums::Sums;

/// The rows of each account that has any, in the order in which these first came, gathered in sums.
pub fn by_account<'l>(listed: &'l Listed, cells: &mut Cells<'l>, add: impl Fn(&mut Sums, &Row)) {
    let mut places = vec![NONE; listed.ledger.accounts.len()];
    let mut groups: Vec<(u32, Sums)> = Vec::new();
    for row in &listed.rows {
        let place = &mut places[row.account as usize];
        if *place == NONE {
            *place = groups.len() as u32;
            groups.push((row.account, Sums::default()));
        }
        add(&mut groups[*place as usize].1, row);
    }
    for (account, sums) in &groups {
        cells.text(listed.ledger.accounts.text(*account));
        cells.sums(sums);
    }
}

/// The same in a sum for each account and currency.
fn by_account_and_currency<'l>(listed: &'l Listed, cells: &mut Cells<'l>) {
    let (accounts, currencies) = (listed.ledger.accounts.len(), listed.ledger.currencies.len());
    let mut sums = vec![0; accounts * currencies];
    let mut is_met = vec![false; accounts];
    let mut met: Vec<u32> = Vec::new();
    for row in &listed.rows {
        let account = row.account as usize;
        if !is_met[account] {
            is_met[account] = true;
            met.push(row.account);
        }
        sums[account * currencies + row.unit.currency() as usize] += listed.at_8(row);
    }
    for account in met {
        cells.text(listed.ledger.accounts.text(account));
        let first = account as usize * currencies;
        let sums = (0..).zip(&sums[first..first + currencies]).filter(|(_, sum)| **sum != 0);
        cells.positions(sums.map(|(currency, sum)| (currency, NONE, *sum)));
    }
}

/// `SELECT account, sum(position)`.
#[inline(never)]
pub fn accounts(listed: &Listed) -> Vec<u8> {
    /// So many sums may stand beside each other, of accounts and currencies that never meet, too.
    const MOST_SUMS: usize = 1 << 20;
    let mut cells = Cells::of(listed, &["account", "sum(position)"]);
    if listed.ledger.accounts.len() * listed.ledger.currencies.len() <= MOST_SUMS {
        by_account_and_currency(listed, &mut cells);
    } else {
        by_account(listed, &mut cells, |sums, row| sums.add_units(row.unit.currency(), listed.at_8(row)));
    }
    cells.table(&[])
}

/// `SELECT date, account, position, balance WHERE account ~ 'bank'`.
pub fn journal(listed: &Listed) -> Vec<u8> {
    let accounts = listed.ledger.accounts.texts();
    let is_bank: Vec<bool> = accounts.iter().map(|account| account.to_ascii_lowercase().contains("bank")).collect();
    let mut balance = Sums::default();
    let mut cells = Cells::of(listed, &["date", "account", "position", "balance"]);
    for row in listed.rows.iter().filter(|row| is_bank[row.account as usize]) {
        let (count, currency) = (listed.at_8(row), row.unit.currency());
        balance.add_units(currency, count);
        cells.day(listed.day(row));
        cells.text(listed.account(row));
        cells.units(count, currency);
        cells.sums(&balance);
    }
    cells.table(&[])
}

/// Whether a row's number is more than 1000.
#[inline]
pub fn is_above_1000(listed: &Listed, row: &Row) -> bool {
    let places = row.unit.places();
    if row.unit.is_wide() {
        return listed.count(row) > 1000 * power(places);
    }
    row.count > 1000 * POWERS[usize::from(places)]
}

/// `SELECT date, account, number WHERE number > 1000 ORDER BY number DESC LIMIT 10`: the largest so far are kept in
/// their order.
pub fn largest(listed: &Listed) -> Vec<u8> {
    const MOST: usize = 10;
    let mut rows: Vec<(i128, &Row)> = Vec::with_capacity(MOST + 1);
    for row in listed.rows.iter().filter(|row| is_above_1000(listed, row)) {
        let count = listed.at_8(row);
        if rows.len() == MOST && rows[MOST - 1].0 >= count {
            continue;
        }
        rows.insert(rows.partition_point(|(kept, _)| *kept >= count), (count, row));
        rows.truncate(MOST);
    }
    entries(listed, rows.into_iter().map(|(_, row)| row))
}

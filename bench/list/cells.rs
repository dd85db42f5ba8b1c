//! Tables of what questions answer: the cells of rows, and the lines that they stand in.

use crate::digits::{Shown, day_text, padded, width_of};
use crate::escapes::cleaned;
use crate::names::NONE;
use crate::rows::{Listed, Row};
use crate::sums::Sums;

/// Where a cell ends, and its characters.
struct End {
    at: usize,
    width: usize,
}

/// The cells of a table, one row behind the other.
pub struct Cells<'l> {
    listed: &'l Listed,
    texts: Vec<u8>,
    ends: Vec<End>,
    widths: Vec<usize>,
    column: usize,
    /// By currency its place in the order of their texts.
    ranks: Vec<u32>,
    /// The positions of a cell.
    positions: Vec<(u32, u32, i128)>,
}

impl<'l> Cells<'l> {
    pub fn of(listed: &'l Listed, headers: &[&str]) -> Cells<'l> {
        let mut cells = Cells {
            listed,
            texts: Vec::new(),
            ends: Vec::new(),
            widths: vec![0; headers.len()],
            column: 0,
            ranks: ranks(listed.ledger.currencies.texts()),
            positions: Vec::new(),
        };
        headers.iter().for_each(|header| cells.text(header));
        cells
    }

    /// Ends a cell of so many characters.
    fn end(&mut self, width: usize) {
        self.ends.push(End { at: self.texts.len(), width });
        let widest = &mut self.widths[self.column];
        *widest = width.max(*widest);
        self.column += 1;
        if self.column == self.widths.len() {
            self.column = 0;
        }
    }

    /// Ends a cell whose text begins at a place.
    fn end_from(&mut self, start: usize) {
        self.end(width_of(&self.texts[start..]));
    }

    pub fn text(&mut self, text: &str) {
        self.texts.extend_from_slice(cleaned(text).as_bytes());
        self.end(width_of(text.as_bytes()));
    }

    pub fn day(&mut self, day: u32) {
        self.texts.extend_from_slice(&day_text(day));
        self.end(10);
    }

    /// Units of `10^-8`.
    pub fn units(&mut self, count: i128, currency: u32) {
        let start = self.texts.len();
        self.listed.push_position(&mut self.texts, count, currency, NONE);
        self.end_from(start);
    }

    pub fn sums(&mut self, sums: &Sums) {
        self.positions(sums.entries());
    }

    /// Counts of `10^-8`, each with its currency and its lot, in the order of these.
    pub fn positions(&mut self, positions: impl Iterator<Item = (u32, u32, i128)>) {
        let start = self.texts.len();
        self.positions.clear();
        self.positions.extend(positions);
        if self.positions.len() > 1 {
            self.arrange();
        }
        for (number, (currency, lot, count)) in self.positions.iter().enumerate() {
            if number > 0 {
                self.texts.extend_from_slice(b", ");
            }
            self.listed.push_position(&mut self.texts, *count, *currency, *lot);
        }
        self.end_from(start);
    }

    fn arrange(&mut self) {
        let rank = |lot: u32| self.listed.lots.rank(lot, &self.listed.ledger);
        self.positions.sort_unstable_by(|(a, a_lot, _), (b, b_lot, _)| {
            let currencies = self.ranks[*a as usize].cmp(&self.ranks[*b as usize]);
            currencies.then_with(|| rank(*a_lot).cmp(&rank(*b_lot)))
        });
    }

    /// The table; `right` tells which columns are set to the right, with their names.
    pub fn table(self, right: &[bool]) -> Vec<u8> {
        let columns = self.widths.len();
        let mut out = Vec::with_capacity(self.texts.len());
        let mut start = 0;
        for (number, ends) in self.ends.chunks(columns).enumerate() {
            for (column, End { at, width }) in ends.iter().enumerate() {
                let gap = self.widths[column] - width;
                let (before, behind) = if right.get(column) == Some(&true) { (gap, 0) } else { (0, gap) };
                push_spaces(&mut out, before);
                out.extend_from_slice(&self.texts[start..*at]);
                if column + 1 < columns {
                    push_spaces(&mut out, behind + 2);
                }
                start = *at;
            }
            end_line(&mut out);
            if number == 0 {
                push_rule(&mut out, &self.widths);
            }
        }
        out
    }
}

fn push_spaces(out: &mut Vec<u8>, count: usize) {
    out.resize(out.len() + count, b' ');
}

/// No space ends a line.
fn end_line(out: &mut Vec<u8>) {
    while out.last() == Some(&b' ') {
        out.pop();
    }
    out.push(b'\n');
}

fn push_rule(out: &mut Vec<u8>, widths: &[usize]) {
    let rules: Vec<String> = widths.iter().map(|width| "-".repeat(*width)).collect();
    out.extend_from_slice(rules.join("  ").as_bytes());
    out.push(b'\n');
}

/// For each name its place in the order of their texts.
pub fn ranks(texts: &[&str]) -> Vec<u32> {
    let mut order: Vec<u32> = (0..texts.len() as u32).collect();
    order.sort_unstable_by_key(|name| texts[*name as usize]);
    let mut ranks = vec![0; texts.len()];
    for (rank, name) in (0..).zip(order) {
        ranks[name as usize] = rank;
    }
    ranks
}

/// A row's number, with as few decimals as are exact.
fn number(listed: &Listed, row: &Row) -> Shown {
    Shown::new(listed.count(row), row.unit.places(), 0)
}

/// The table of the days, the accounts and the numbers of rows.
pub fn entries<'l>(listed: &Listed, rows: impl ExactSizeIterator<Item = &'l Row> + Clone) -> Vec<u8> {
    let mut is_shown = vec![false; listed.ledger.accounts.len()];
    let mut widths = ["date".len(), "account".len(), "number".len()];
    for row in rows.clone() {
        is_shown[row.account as usize] = true;
        widths[0] = "2014-01-01".len();
        widths[2] = widths[2].max(number(listed, row).width());
    }
    let accounts = listed.ledger.accounts.texts().iter().zip(&is_shown);
    let shown = accounts.clone().filter(|(_, is_shown)| **is_shown);
    widths[1] = shown.map(|(account, _)| width_of(account.as_bytes())).fold(widths[1], usize::max);
    let text = |account: &str| padded(&cleaned(account), widths[1] + 2);
    let texts = accounts.map(|(account, is_shown)| if *is_shown { text(account) } else { String::new() });
    let texts: Vec<String> = texts.collect();
    let line = widths.iter().sum::<usize>() + 5;
    let mut out = Vec::with_capacity(line * (rows.len() + 2));
    let [date, account, number_width] = widths;
    let front = padded("date", date + 2) + &padded("account", account + 2);
    out.extend_from_slice(front.as_bytes());
    push_spaces(&mut out, number_width - "number".len());
    out.extend_from_slice(b"number\n");
    push_rule(&mut out, &widths);
    for row in rows {
        out.extend_from_slice(&day_text(listed.day(row)));
        out.extend_from_slice(b"  ");
        out.extend_from_slice(texts[row.account as usize].as_bytes());
        let number = number(listed, row);
        push_spaces(&mut out, number_width - number.width());
        number.push(&mut out);
        out.push(b'\n');
    }
    out
}

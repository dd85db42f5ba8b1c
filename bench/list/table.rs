//! The table of a ledger's postings.

use crate::digits::{day_text, padded, width_of};
use crate::escapes::cleaned;
use crate::names::NONE;
use crate::rows::{Listed, Row};
use std::io::{self, Write};

const HEADERS: [&str; 4] = ["date", "flag", "account", "position"];

/// What is written at once has at least so many bytes.
const BLOCK: usize = 1 << 16;

/// How wide the columns are, and which accounts stand in them.
struct Widths {
    columns: [usize; 4],
    is_shown: Vec<bool>,
}

fn widths(listed: &Listed) -> Widths {
    let mut is_shown = vec![false; listed.ledger.accounts.len()];
    // By currency the rows without a lot whose count is the least and the greatest, of those that are shown with the
    // decimals that they have: no other of these is wider.
    let mut extremes: Vec<Option<[&Row; 2]>> = vec![None; listed.ledger.currencies.len()];
    let mut position = HEADERS[3].len();
    for row in &listed.rows {
        is_shown[row.account as usize] = true;
        if row.lot != NONE || !listed.has_shown_decimals(row) {
            position = position.max(listed.position_width(row));
            continue;
        }
        match &mut extremes[row.unit.currency() as usize] {
            Some([least, greatest]) => {
                if row.count < least.count {
                    *least = row;
                } else if row.count > greatest.count {
                    *greatest = row;
                }
            }
            first => *first = Some([row, row]),
        }
    }
    let position = extremes.iter().flatten().flatten().map(|row| listed.position_width(row)).fold(position, usize::max);
    let accounts = listed.ledger.accounts.texts().iter().zip(&is_shown);
    let shown = accounts.filter(|(_, is_shown)| **is_shown).map(|(account, _)| width_of(account.as_bytes()));
    let date = if listed.rows.is_empty() { HEADERS[0].len() } else { "2014-01-01".len() };
    let account = shown.fold(HEADERS[2].len(), usize::max);
    Widths { columns: [date, HEADERS[1].len(), account, position], is_shown }
}

/// The header or the rule.
fn line(cells: [&str; 4], widths: [usize; 4]) -> String {
    let cells = cells.into_iter().zip(widths).map(|(cell, width)| padded(cell, width));
    let cells: Vec<String> = cells.collect();
    format!("{}\n", cells.join("  ").trim_end())
}

/// What stands in a row between the flag and the position, for each account that is shown.
fn account_texts(listed: &Listed, widths: &Widths) -> Vec<String> {
    let (before, width) = (widths.columns[1] + 1, widths.columns[2] + 2);
    let text = |account: &str| " ".repeat(before) + &padded(&cleaned(account), width);
    let accounts = listed.ledger.accounts.texts().iter().zip(&widths.is_shown);
    accounts.map(|(account, is_shown)| if *is_shown { text(account) } else { String::new() }).collect()
}

/// The texts that are the same for many rows, and the front of the rows of the directive in turn.
struct Texts<'l> {
    listed: &'l Listed,
    accounts: Vec<String>,
    /// Each with the end of the line.
    currencies: Vec<String>,
    directive: u32,
    front: [u8; 13],
}

impl Texts<'_> {
    #[inline]
    fn push(&mut self, row: &Row, out: &mut Vec<u8>) {
        if row.directive != self.directive {
            self.directive = row.directive;
            let (day, flag) = self.listed.day_and_flag(row.directive);
            self.front[..10].copy_from_slice(&day_text(day));
            self.front[12] = flag;
        }
        out.extend_from_slice(&self.front);
        out.extend_from_slice(self.accounts[row.account as usize].as_bytes());
        self.listed.shown(row).push(out);
        out.extend_from_slice(self.currencies[row.unit.currency() as usize].as_bytes());
        if row.lot != NONE {
            out.pop();
            self.listed.push_lot(out, row.lot);
            out.push(b'\n');
        }
    }
}

/// Writes the table in blocks of lines.
pub fn write(listed: &Listed, to: &mut impl Write) -> io::Result<()> {
    let widths = widths(listed);
    let rules = widths.columns.map(|width| "-".repeat(width));
    let mut out = line(HEADERS, widths.columns).into_bytes();
    out.extend_from_slice(line(rules.each_ref().map(String::as_str), widths.columns).as_bytes());
    out.reserve(BLOCK + 2 * out.len());
    let mut texts = Texts {
        listed,
        accounts: if listed.rows.is_empty() { Vec::new() } else { account_texts(listed, &widths) },
        currencies: listed.ledger.currencies.texts().iter().map(|currency| format!(" {currency}\n")).collect(),
        directive: NONE,
        front: [b' '; 13],
    };
    for row in &listed.rows {
        texts.push(row, &mut out);
        if out.len() >= BLOCK {
            to.write_all(&out)?;
            out.clear();
        }
    }
    to.write_all(&out)
}

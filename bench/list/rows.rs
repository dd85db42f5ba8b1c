//! The rows of a ledger: its booked postings, and what its pads insert.

use crate::ledger::{Flag, Ledger, Unit, What};
use crate::lots::Lots;

#[derive(Clone, Copy)]
#[allow(dead_code)]
pub struct Row {
    pub count: i64,
    pub account: u32,
    pub directive: u32,
    /// Where its line, its flag, its price and its metadata are told, if it is written.
    pub posting: u32,
    /// The number of its lot, if it has one.
    pub lot: u32,
    pub unit: Unit,
}

/// What is listed. Rows stand by day.
pub struct Listed {
    pub ledger: Ledger,
    pub lots: Lots,
    pub rows: Vec<Row>,
    /// By currency the most decimals that are written in a booked transaction.
    pub decimals: Vec<u8>,
}

impl Listed {
    /// The count of `10^-8`.
    #[inline]
    pub fn at_8(&self, row: &Row) -> i128 {
        self.ledger.wide.at_8(row.count, row.unit)
    }

    pub fn count(&self, row: &Row) -> i128 {
        self.ledger.wide.count(row.count, row.unit)
    }

    /// The number that the digits of its day write.
    #[inline]
    pub fn day(&self, row: &Row) -> u32 {
        self.ledger.directives[row.directive as usize].day
    }

    /// The day and the flag of a directive's rows.
    pub fn day_and_flag(&self, directive: u32) -> (u32, u8) {
        let directive = &self.ledger.directives[directive as usize];
        let flag = match directive.what {
            What::Transaction(transaction) if transaction.flag == Flag::Complete => b'*',
            What::Transaction(_) => b'!',
            _ => b'P',
        };
        (directive.day, flag)
    }

    pub fn account(&self, row: &Row) -> &'static str {
        self.ledger.accounts.text(row.account)
    }
}

const _: () = assert!(size_of::<Row>() == 32);

//! What the texts of a ledger say, by columns: a row of plain numbers for each posting and each directive, and tables
//! beside for what few of them have.
//!
//! The table needs few of these parts. They are kept all the same, as `bq` keeps them.
#![allow(dead_code)]

use crate::inventory::Method;
use crate::names::Names;
use crate::numbers::{Number, power};

/// A currency and the form of a count in it: how many decimals it has, whether it is beyond 64 bits, and what of a
/// posting's amount isn't written. A ledger has less than 2^24 currencies, since its texts are too short for more.
#[derive(Clone, Copy, Debug, PartialEq, Eq)]
pub struct Unit(u32);

const PLACES: u32 = 0x0f;
const WIDE: u32 = 0x10;
const NUMBER_LACKS: u32 = 0x20;
const CURRENCY_LACKS: u32 = 0x40;

impl Unit {
    pub fn new(currency: u32, places: u8) -> Unit {
        Unit(currency << 8 | u32::from(places))
    }

    /// Of a posting without an amount.
    pub const MISSING: Unit = Unit(NUMBER_LACKS | CURRENCY_LACKS);

    /// Of a posting with a currency alone.
    pub fn without_number(currency: u32) -> Unit {
        Unit(currency << 8 | NUMBER_LACKS)
    }

    pub fn without_currency(self) -> Unit {
        Unit(self.0 | CURRENCY_LACKS)
    }

    pub fn currency(self) -> u32 {
        self.0 >> 8
    }

    pub fn places(self) -> u8 {
        (self.0 & PLACES) as u8
    }

    pub fn lacks_number(self) -> bool {
        self.0 & NUMBER_LACKS != 0
    }

    pub fn lacks_currency(self) -> bool {
        self.0 & CURRENCY_LACKS != 0
    }

    pub fn is_wide(self) -> bool {
        self.0 & WIDE != 0
    }
}

/// Counts beyond 64 bits, which lie apart.
#[derive(Default)]
pub struct Wide(pub Vec<i128>);

impl Wide {
    /// What is kept of a number in a row: its count, or where that lies.
    #[inline]
    pub fn kept(&mut self, number: Number, currency: u32) -> Amount {
        let unit = Unit::new(currency, number.places);
        match i64::try_from(number.count) {
            Ok(count) => Amount { count, unit },
            Err(_) => {
                self.0.push(number.count);
                Amount { count: self.0.len() as i64 - 1, unit: Unit(unit.0 | WIDE) }
            }
        }
    }

    #[inline]
    pub fn count(&self, count: i64, unit: Unit) -> i128 {
        if unit.is_wide() { self.0[count as usize] } else { i128::from(count) }
    }

    /// The count of `10^-8`.
    #[inline]
    pub fn at_8(&self, count: i64, unit: Unit) -> i128 {
        self.count(count, unit) * power(8 - unit.places())
    }

    pub fn of(&self, amount: Amount) -> i128 {
        self.at_8(amount.count, amount.unit)
    }
}

#[derive(Clone, Copy, Debug)]
pub struct Amount {
    pub count: i64,
    pub unit: Unit,
}

#[derive(Clone, Copy, Debug)]
pub struct Posting {
    pub count: i64,
    pub account: u32,
    pub line: u32,
    /// Where its flag, its cost and its price lie, if it has any.
    pub extra: u32,
    pub unit: Unit,
}

#[derive(Clone, Copy, Debug, PartialEq, Eq)]
pub enum Flag {
    Complete,
    Incomplete,
}

/// What a cost's braces say: a day of 0 and a label of none are not written.
#[derive(Clone, Copy, Debug)]
pub struct Braces {
    pub amount: Option<Amount>,
    pub day: u32,
    pub label: u32,
}

#[derive(Clone, Copy, Debug)]
pub struct Price {
    pub is_total: bool,
    pub amount: Amount,
}

#[derive(Clone, Copy, Debug, Default)]
pub struct Extra {
    pub flag: Option<Flag>,
    pub cost: Option<Braces>,
    pub price: Option<Price>,
}

/// What booking must know of the postings of a transaction.
#[derive(Clone, Copy, Debug, Default)]
pub struct Shape {
    /// Some lack a number.
    pub lacks: bool,
    /// Some have a cost or a price.
    pub is_priced: bool,
    /// Some are of a form that isn't booked.
    pub is_outside_profile: bool,
}

/// Texts are told by the place of their quote in the text of the file.
#[derive(Clone, Copy, Debug)]
pub struct Transaction {
    pub flag: Flag,
    pub shape: Shape,
    pub payee: u32,
    pub narration: u32,
    /// Its first posting.
    pub first: u32,
    pub postings: u32,
}

/// Names are told by their numbers.
#[derive(Clone, Copy, Debug)]
pub enum What {
    /// With the currencies from `first` on.
    Open {
        account: u32,
        first: u32,
        currencies: u32,
        method: Option<Method>,
    },
    Close {
        account: u32,
    },
    Commodity {
        currency: u32,
    },
    Transaction(Transaction),
    /// In the table of balances.
    Balance(u32),
    Pad {
        account: u32,
        source: u32,
    },
    Note {
        account: u32,
        text: u32,
    },
    Document {
        account: u32,
        name: u32,
    },
    /// In the table of prices.
    Price(u32),
    Event {
        name: u32,
        value: u32,
    },
    Query {
        name: u32,
        query: u32,
    },
    /// With the values from `first` on.
    Custom {
        name: u32,
        first: u32,
        values: u32,
    },
}

impl What {
    /// Which directives of one day are taken first.
    fn rank(&self) -> u64 {
        match self {
            What::Open { .. } => 0,
            What::Balance(_) => 1,
            What::Document { .. } => 3,
            What::Close { .. } => 4,
            _ => 2,
        }
    }
}

/// A day is the number that its digits write.
#[derive(Clone, Copy, Debug)]
pub struct Directive {
    pub day: u32,
    pub line: u32,
    pub file: u16,
    pub what: What,
}

#[derive(Clone, Copy, Debug)]
pub struct Balance {
    pub account: u32,
    pub amount: Amount,
    pub tolerance: Option<Amount>,
}

#[derive(Clone, Copy, Debug)]
pub enum Value {
    Nothing,
    Text(u32),
    Account(u32),
    Day(u32),
    Currency(u32),
    Tag(u32),
    Truth(bool),
    Number(Amount),
    Amount(Amount),
}

/// An entry of a directive's metadata, or of a posting's where there is one.
#[derive(Clone, Copy, Debug)]
pub struct Entry {
    pub directive: u32,
    pub posting: u32,
    pub key: u32,
    pub value: Value,
}

#[derive(Clone, Copy, Debug, PartialEq, Eq)]
pub enum Mark {
    Tag(u32),
    Link(u32),
}

#[derive(Clone, Copy, Debug)]
pub enum Pushed {
    Tag(u32),
    Entry(Entry),
}

/// What the transactions of a file from one directive up to another are given.
#[derive(Clone, Copy, Debug)]
pub struct Given {
    pub file: u16,
    pub line: u32,
    pub from: u32,
    pub to: u32,
    pub pushed: Pushed,
}

#[derive(Clone, Copy, Debug)]
pub struct Fault {
    pub file: u16,
    pub line: u32,
}

/// Where a block at fault began: so long were the tables.
pub struct Lengths([usize; 9]);

pub struct Ledger {
    pub texts: Vec<&'static str>,
    pub accounts: Names,
    pub currencies: Names,
    pub payees: Names,
    pub marks: Names,
    pub keys: Names,
    /// Of lots, as they stand for, without escapes.
    pub labels: Names,
    pub directives: Vec<Directive>,
    /// A key for each directive, see `key`.
    pub order: Vec<u64>,
    pub postings: Vec<Posting>,
    pub extras: Vec<Extra>,
    pub metadata: Vec<Entry>,
    /// Each with its directive.
    pub marked: Vec<(u32, Mark)>,
    pub open_currencies: Vec<u32>,
    pub balances: Vec<Balance>,
    /// Each with the currency that it is of.
    pub prices: Vec<(u32, Amount)>,
    pub values: Vec<Value>,
    /// The accounts of pads.
    pub padded: Vec<u32>,
    pub wide: Wide,
    pub given: Vec<Given>,
    pub titles: Vec<&'static str>,
    pub operating_currencies: Vec<&'static str>,
    /// The last that is known.
    pub method: Method,
    pub faults: Vec<Fault>,
}

impl Ledger {
    pub fn new() -> Ledger {
        Ledger {
            texts: Vec::new(),
            accounts: Names::new(),
            currencies: Names::new(),
            payees: Names::new(),
            marks: Names::new(),
            keys: Names::new(),
            labels: Names::new(),
            directives: Vec::new(),
            order: Vec::new(),
            postings: Vec::new(),
            extras: Vec::new(),
            metadata: Vec::new(),
            marked: Vec::new(),
            open_currencies: Vec::new(),
            balances: Vec::new(),
            prices: Vec::new(),
            values: Vec::new(),
            padded: Vec::new(),
            wide: Wide::default(),
            given: Vec::new(),
            titles: Vec::new(),
            operating_currencies: Vec::new(),
            method: Method::default(),
            faults: Vec::new(),
        }
    }

    /// The number of the directive that is read next.
    pub fn next(&self) -> u32 {
        self.directives.len() as u32
    }

    /// Adds a directive, whose key puts it behind those of earlier days and ranks, and of these behind those that
    /// were read before.
    #[inline]
    pub fn add(&mut self, directive: Directive) {
        let number = u64::from(self.next());
        self.order.push(u64::from(directive.day) << 35 | directive.what.rank() << 32 | number);
        self.directives.push(directive);
    }

    /// The directives of opens, in the order in which they are taken, once that is made.
    pub fn opens(&self) -> impl DoubleEndedIterator<Item = &Directive> {
        let is_open = |key: &&u64| **key >> 32 & 7 == 0;
        self.order.iter().filter(is_open).map(|key| &self.directives[*key as u32 as usize])
    }

    /// Puts the directives into the order in which they are taken.
    pub fn arrange(&mut self) {
        self.order.sort_unstable();
    }

    #[inline]
    pub fn lengths(&self) -> Lengths {
        Lengths([
            self.postings.len(),
            self.extras.len(),
            self.metadata.len(),
            self.marked.len(),
            self.open_currencies.len(),
            self.balances.len(),
            self.prices.len(),
            self.values.len(),
            self.padded.len(),
        ])
    }

    /// Takes back what a block at fault has put into the tables; counts beyond 64 bits may stay, as nothing tells
    /// where they lie.
    pub fn truncate(&mut self, lengths: &Lengths) {
        let [postings, extras, metadata, marked, open_currencies, balances, prices, values, padded] = lengths.0;
        self.postings.truncate(postings);
        self.extras.truncate(extras);
        self.metadata.truncate(metadata);
        self.marked.truncate(marked);
        self.open_currencies.truncate(open_currencies);
        self.balances.truncate(balances);
        self.prices.truncate(prices);
        self.values.truncate(values);
        self.padded.truncate(padded);
    }
}

const _: () = assert!(size_of::<Posting>() == 24 && size_of::<Directive>() == 32);

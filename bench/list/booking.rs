//! Books a ledger: its directives in their order, by the numbers of their accounts and currencies.

use crate::holdings::Holdings;
use crate::inventory::{Selector, Take};
use crate::ledger::{Amount, Balance, Braces, Extra, Ledger, Posting, Price, Transaction, What, Wide};
use crate::lots::{Lot, Lots};
use crate::names::NONE;
use crate::numbers::{Number, power};
use crate::pads::Pads;
use crate::residuals::Residuals;
use crate::rows::{Listed, Row};

/// A weight is less than this count of `10^-16`.
const TOO_HEAVY: i128 = 10i128.pow(28);

/// A posting that lacks its number or its amount: before which row of the transaction, and where it is written.
#[derive(Clone, Copy)]
struct Missing {
    at: usize,
    account: u32,
    posting: u32,
    currency: Option<u32>,
}

struct Booking<'l> {
    ledger: &'l Ledger,
    wide: Wide,
    rows: Vec<Row>,
    decimals: Vec<u8>,
    lots: Lots,
    holdings: Holdings,
    pads: Pads,
    // What is known of the transaction that is being booked, and of the posting.
    directive: u32,
    posting: u32,
    day: u32,
    residuals: Residuals,
    missing: Vec<Missing>,
    /// What its postings so far took, and of which inventories.
    takes: Vec<Take>,
    took: Vec<u32>,
    has_bought: bool,
    moved: Vec<Row>,
}

/// The row of a posting as it is written, whose number is told beside.
fn row_of(posting: &Posting, number: u32, directive: u32, lot: u32) -> Row {
    Row { count: posting.count, account: posting.account, directive, posting: number, lot, unit: posting.unit }
}

/// Books a ledger that is arranged.
pub fn listed(mut ledger: Ledger) -> Listed {
    let wide = std::mem::take(&mut ledger.wide);
    let mut booking = Booking::new(&ledger, wide);
    for key in &ledger.order {
        booking.take(*key as u32);
    }
    let Booking { wide, rows, decimals, lots, .. } = booking.padded();
    ledger.wide = wide;
    Listed { ledger, lots, rows, decimals }
}

impl<'l> Booking<'l> {
    fn new(ledger: &'l Ledger, wide: Wide) -> Self {
        Booking {
            ledger,
            wide,
            rows: Vec::with_capacity(ledger.postings.len()),
            decimals: vec![0; ledger.currencies.len()],
            lots: Lots::new(),
            holdings: Holdings::new(ledger),
            pads: Pads::new(ledger),
            directive: 0,
            posting: 0,
            day: 0,
            residuals: Residuals::new(ledger.currencies.len()),
            missing: Vec::new(),
            takes: Vec::new(),
            took: Vec::new(),
            has_bought: false,
            moved: Vec::new(),
        }
    }

    /// Takes a directive.
    #[inline]
    fn take(&mut self, number: u32) {
        let directive = &self.ledger.directives[number as usize];
        (self.directive, self.day) = (number, directive.day);
        match &directive.what {
            What::Transaction(transaction) => self.transaction(transaction),
            What::Pad { account, source } => self.pads.pad(number, *account, *source, self.rows.len()),
            What::Balance(number) => self.balance(&self.ledger.balances[*number as usize]),
            _ => {}
        }
    }

    fn balance(&mut self, balance: &Balance) {
        let currency = balance.amount.unit.currency();
        let places = balance.amount.unit.places();
        let tolerance = match balance.tolerance {
            Some(tolerance) => self.wide.of(tolerance),
            None if places == 0 => 0,
            None => power(8 - places),
        };
        let number = self.wide.of(balance.amount);
        let is_at_cost = || self.holdings.has_lots(balance.account, currency);
        self.pads.balance(balance.account, currency, number, tolerance, is_at_cost);
    }

    /// Puts in the rows of pads.
    fn padded(mut self) -> Self {
        self.pads.insert(&mut self.rows, &mut self.wide);
        self
    }

    /// Books a transaction, or leaves it out where it has a fault.
    #[inline]
    fn transaction(&mut self, transaction: &Transaction) {
        let shape = transaction.shape;
        if shape.is_outside_profile {
            return;
        }
        let first = transaction.first as usize;
        let postings = &self.ledger.postings[first..first + transaction.postings as usize];
        let start = self.rows.len();
        let is_booked = match (shape.is_priced, shape.lacks) {
            (false, false) => self.amounts(postings, transaction.first),
            (false, true) => self.amounts_with_missing(postings, transaction.first, start),
            (true, _) => self.priced(postings, transaction.first, start),
        };
        if is_booked.is_none() {
            self.put_back();
            return self.rows.truncate(start);
        }
        self.show(postings);
        if shape.is_priced {
            self.hold(start);
        }
        if !self.pads.is_empty() {
            self.pads.add(&self.rows[start..], &self.wide);
        }
    }

    fn push_posting(&mut self, posting: &Posting, lot: u32) {
        self.rows.push(row_of(posting, self.posting, self.directive, lot));
    }

    fn push(&mut self, account: u32, posting: u32, number: Number, currency: u32, lot: u32) {
        let Amount { count, unit } = self.wide.kept(number, currency);
        self.rows.push(Row { count, account, directive: self.directive, posting, lot, unit });
    }

    /// Shows the decimals of the numbers that are written.
    fn show(&mut self, postings: &[Posting]) {
        for posting in postings.iter().filter(|posting| !posting.unit.lacks_number()) {
            let most = &mut self.decimals[posting.unit.currency() as usize];
            *most = posting.unit.places().max(*most);
        }
    }

    /// Postings whose amounts are all written: nothing can be at fault that changes a row.
    fn amounts(&mut self, postings: &[Posting], first: u32) -> Option<()> {
        let directive = self.directive;
        let numbered = (first..).zip(postings);
        self.rows.extend(numbered.map(|(number, posting)| row_of(posting, number, directive, NONE)));
        Some(())
    }

    /// Postings of which some lack their amount.
    fn amounts_with_missing(&mut self, postings: &[Posting], first: u32, start: usize) -> Option<()> {
        self.begin(8);
        for (number, posting) in (first..).zip(postings) {
            self.posting = number;
            if posting.unit.lacks_number() {
                self.lacks(posting, start);
            } else {
                self.units(posting);
                self.push_posting(posting, NONE);
            }
        }
        self.complete(start)
    }

    fn begin(&mut self, scale: u8) {
        self.residuals.begin(scale);
        self.missing.clear();
    }

    fn lacks(&mut self, posting: &Posting, start: usize) {
        self.missing.push(Missing {
            at: self.rows.len() - start,
            account: posting.account,
            posting: self.posting,
            currency: (!posting.unit.lacks_currency()).then(|| posting.unit.currency()),
        });
    }

    /// Weighs units without a cost or a price.
    #[inline]
    fn units(&mut self, posting: &Posting) {
        let (currency, places) = (posting.unit.currency(), posting.unit.places());
        let weight = self.wide.count(posting.count, posting.unit) * power(self.residuals.scale - places);
        self.residuals.weigh(currency, weight);
        self.residuals.show(currency, places);
    }

    /// Postings of which some have a cost or a price.
    fn priced(&mut self, postings: &[Posting], first: u32, start: usize) -> Option<()> {
        self.begin(16);
        self.has_bought = false;
        for (number, posting) in (first..).zip(postings) {
            self.posting = number;
            if posting.unit.lacks_number() {
                self.lacks(posting, start);
                continue;
            }
            let ledger = self.ledger;
            match ledger.extras.get(posting.extra as usize) {
                Some(Extra { cost: Some(braces), .. }) => self.at_cost(posting, braces)?,
                Some(Extra { price: Some(price), .. }) => self.at_price(posting, price)?,
                _ => {
                    self.units(posting);
                    self.push_posting(posting, NONE);
                }
            }
        }
        if self.missing.is_empty() { Some(()) } else { self.complete(start) }
    }

    fn weigh(&mut self, currency: u32, weight: i128) -> Option<()> {
        if weight.abs() >= TOO_HEAVY {
            return None;
        }
        self.residuals.weigh(currency, weight);
        Some(())
    }

    fn at_price(&mut self, posting: &Posting, price: &Price) -> Option<()> {
        let units = self.wide.at_8(posting.count, posting.unit);
        let price_at_8 = self.wide.of(price.amount);
        let weight =
            if price.is_total { price_at_8 * units.signum() * power(8) } else { units.checked_mul(price_at_8)? };
        self.weigh(price.amount.unit.currency(), weight)?;
        self.residuals.show(posting.unit.currency(), posting.unit.places());
        self.push_posting(posting, NONE);
        Some(())
    }

    /// Sells where lots of the other sign are left, else buys.
    fn at_cost(&mut self, posting: &Posting, braces: &Braces) -> Option<()> {
        let (account, currency) = (posting.account, posting.unit.currency());
        let want = self.wide.at_8(posting.count, posting.unit);
        self.residuals.show(currency, posting.unit.places());
        let cost = braces.amount.map(|amount| (self.wide.of(amount), amount.unit.currency()));
        if let Some(number) = self.holdings.number(account, currency)
            && self.holdings.inventory(number).sells(want)
        {
            let selector = Selector { cost, day: braces.day, label: braces.label };
            return self.sell(number, posting, want, &selector);
        }
        let (cost, cost_currency) = cost.filter(|(cost, _)| *cost >= 0)?;
        let lot = Lot {
            cost,
            currency: cost_currency,
            day: if braces.day == 0 { self.day } else { braces.day },
            label: braces.label,
        };
        self.weigh(cost_currency, want.checked_mul(cost)?)?;
        let lot = self.lots.of(lot);
        self.has_bought = true;
        self.push_posting(posting, lot);
        Some(())
    }

    fn sell(&mut self, number: u32, posting: &Posting, want: i128, selector: &Selector) -> Option<()> {
        let before = self.takes.len();
        self.holdings.inventory_mut(number).take(want, selector, &self.lots, &mut self.takes)?;
        self.took.resize(self.takes.len(), number);
        (before..self.takes.len()).try_for_each(|place| self.push_take(posting, place))
    }

    fn push_take(&mut self, posting: &Posting, place: usize) -> Option<()> {
        let Take { lot, count, .. } = self.takes[place];
        let Lot { cost, currency, .. } = *self.lots.get(lot);
        self.weigh(currency, count.checked_mul(cost)?)?;
        self.push(posting.account, self.posting, Number::shortest(count), posting.unit.currency(), lot);
        Some(())
    }

    /// Puts back what the transaction took, the last first.
    fn put_back(&mut self) {
        for (take, number) in self.takes.drain(..).zip(self.took.drain(..)).rev() {
            self.holdings.inventory_mut(number).put_back(&take);
        }
    }

    /// Puts what lacks into its places.
    fn complete(&mut self, start: usize) -> Option<()> {
        if !self.is_told_apart() {
            return None;
        }
        if let [missing] = self.missing[..]
            && start + missing.at == self.rows.len()
        {
            return self.fill(&missing);
        }
        let missing = std::mem::take(&mut self.missing);
        let mut moved = std::mem::take(&mut self.moved);
        let first = missing.first().map_or(0, |missing| missing.at);
        moved.clear();
        moved.extend(self.rows.drain(start + first..));
        let mut rest = &moved[..];
        let mut done = first;
        let mut is_done = Some(());
        for missing in &missing {
            let (before, behind) = rest.split_at(missing.at - done);
            self.rows.extend_from_slice(before);
            (rest, done) = (behind, missing.at);
            is_done = is_done.and_then(|()| self.fill(missing));
        }
        self.rows.extend_from_slice(rest);
        (self.missing, self.moved) = (missing, moved);
        is_done
    }

    /// Whether one posting lacks its amount, or several their numbers, each of another currency.
    fn is_told_apart(&self) -> bool {
        if self.missing.len() == 1 {
            return true;
        }
        let mut currencies: Vec<_> = self.missing.iter().map(|missing| missing.currency).collect();
        currencies.sort_unstable();
        currencies.iter().all(Option::is_some) && currencies.windows(2).all(|pair| pair[0] != pair[1])
    }

    /// Pushes what a posting takes: all that lacks, or what lacks in its currency.
    fn fill(&mut self, missing: &Missing) -> Option<()> {
        if let Some(currency) = missing.currency {
            let residual = self.residuals.of(currency);
            let number = self.residuals.filled(residual)?;
            self.push(missing.account, missing.posting, number, currency, NONE);
            return Some(());
        }
        for place in 0..self.residuals.sums.len() {
            let residual = self.residuals.sums[place];
            if residual.sum != 0 {
                let number = self.residuals.filled(residual)?;
                self.push(missing.account, missing.posting, number, residual.currency, NONE);
            }
        }
        Some(())
    }

    /// Leaves what a booked transaction took out of its lots. Where it bought lots, too, all is put into the
    /// inventories in the order of its rows, of which this is the first.
    fn hold(&mut self, first: usize) {
        if self.has_bought {
            self.put_back();
            return self.add_lots(first);
        }
        for (take, number) in self.takes.drain(..).zip(self.took.drain(..)) {
            self.holdings.inventory_mut(number).forget(&take);
        }
    }

    fn add_lots(&mut self, first: usize) {
        for row in self.rows[first..].iter().filter(|row| row.lot != NONE) {
            let count = self.wide.at_8(row.count, row.unit);
            let day = self.lots.get(row.lot).day;
            self.holdings.add(row.account, row.unit.currency(), row.lot, day, count);
        }
    }
}

//! Postings with their costs and prices.

use crate::ledger::{Amount, Braces, Extra, Flag, Posting, Price, Shape, Unit};
use crate::names::NONE;
use crate::reader::{Read, Reader};
use crate::words::Digits;

/// The parts of a cost; each form of a part may be written once.
#[derive(Default)]
struct CostParts {
    amount: Option<Amount>,
    day: Option<u32>,
    label: Option<u32>,
    number: Option<()>,
    currency: Option<()>,
    merge: Option<()>,
    compound: Option<()>,
}

impl CostParts {
    fn are_outside_profile(&self) -> bool {
        [self.number, self.currency, self.merge, self.compound].iter().any(Option::is_some)
    }
}

fn put_once<T>(place: &mut Option<T>, part: T) -> Read<()> {
    place.replace(part).is_none().then_some(())
}

impl Reader<'_> {
    pub fn flag(&mut self) -> Option<Flag> {
        let flag = match self.byte() {
            b'*' => Flag::Complete,
            b'!' => Flag::Incomplete,
            _ => return None,
        };
        self.is_sign(self.byte());
        Some(flag)
    }

    /// Adds the posting of a line, and what booking must know of it.
    #[inline]
    pub fn posting(&mut self, shape: &mut Shape) -> Read<()> {
        let line = self.line;
        let flag = self.flag();
        let account = self.account()?;
        let Amount { count, unit } = self.units()?;
        let mut extra = NONE;
        if flag.is_some() || !self.is_at_end() {
            extra = self.extra(flag, unit, shape)?;
        }
        self.end()?;
        shape.lacks |= unit.lacks_number();
        shape.is_outside_profile |= unit.lacks_currency() && !unit.lacks_number();
        self.ledger.postings.push(Posting { count, account, line, extra, unit });
        Some(())
    }

    /// Most amounts: digits that 64 bits hold, perhaps behind a sign, and a currency.
    #[inline]
    fn plain_amount(&mut self) -> Option<Amount> {
        let is_negative = self.is_sign(b'-');
        let digits = self.digits().filter(Digits::are_few)?;
        let count = i64::try_from(digits.value).ok()?;
        let unit = Unit::new(self.currency()?, digits.places as u8);
        let count = if is_negative { -count } else { count };
        Some(Amount { count, unit })
    }

    #[inline]
    fn units(&mut self) -> Read<Amount> {
        let start = self.at;
        if let Some(amount) = self.plain_amount() {
            return Some(amount);
        }
        self.at = start;
        self.other_units()
    }

    #[inline(never)]
    fn other_units(&mut self) -> Read<Amount> {
        let number = self.number_if_any()?;
        let currency = self.currency();
        Some(match (number, currency) {
            (Some(number), Some(currency)) => self.ledger.wide.kept(number, currency),
            (Some(number), None) => self.kept_alone(number),
            (None, Some(currency)) => Amount { count: 0, unit: Unit::without_number(currency) },
            (None, None) => Amount { count: 0, unit: Unit::MISSING },
        })
    }

    /// What few postings have, in a table of its own.
    fn extra(&mut self, flag: Option<Flag>, unit: Unit, shape: &mut Shape) -> Read<u32> {
        let is_lot = self.byte() == b'{';
        let cost = if is_lot { self.cost(shape)? } else { None };
        let is_priced = self.byte() == b'@';
        let price = if is_priced { self.price(shape)? } else { None };
        shape.is_priced |= is_lot || is_priced;
        shape.is_outside_profile |= (is_lot || is_priced) && unit.lacks_number();
        self.ledger.extras.push(Extra { flag, cost, price });
        Some(self.ledger.extras.len() as u32 - 1)
    }

    fn cost(&mut self, shape: &mut Shape) -> Read<Option<Braces>> {
        let braces = self.times(b'{');
        let mut parts = CostParts::default();
        if self.byte() != b'}' {
            self.cost_part(&mut parts)?;
            while self.is_sign(b',') {
                self.cost_part(&mut parts)?;
            }
        }
        if self.times(b'}') != braces {
            return None;
        }
        if braces == 2 || parts.are_outside_profile() {
            shape.is_outside_profile = true;
            return Some(None);
        }
        Some(Some(Braces {
            amount: parts.amount,
            day: parts.day.unwrap_or_default(),
            label: parts.label.unwrap_or(NONE),
        }))
    }

    fn cost_part(&mut self, parts: &mut CostParts) -> Read<()> {
        if let Some(day) = self.day() {
            return put_once(&mut parts.day, day);
        }
        if let Some((_, written)) = self.text_if_any()? {
            return put_once(&mut parts.label, self.ledger.label(written));
        }
        if self.is_sign(b'*') {
            return put_once(&mut parts.merge, ());
        }
        let number = self.number_if_any()?;
        if self.is_hash() {
            self.amount_or_less()?;
            return put_once(&mut parts.compound, ());
        }
        match (number, self.currency()) {
            (Some(number), Some(currency)) => {
                let amount = self.ledger.wide.kept(number, currency);
                put_once(&mut parts.amount, amount)
            }
            (Some(_), None) => put_once(&mut parts.number, ()),
            (None, Some(_)) => put_once(&mut parts.currency, ()),
            (None, None) => None,
        }
    }

    fn price(&mut self, shape: &mut Shape) -> Read<Option<Price>> {
        let is_total = self.times(b'@') == 2;
        let price = self.amount_or_less()?.map(|amount| Price { is_total, amount });
        shape.is_outside_profile |= price.is_none();
        Some(price)
    }
}

//! Expressions, amounts and metadata.

use crate::ledger::{Amount, Entry, Unit, Value};
use crate::names::NONE;
use crate::numbers::Number;
use crate::reader::{Read, Reader};

/// So many signs and parentheses may stand in one another.
const DEEPEST: u32 = 200;

impl Reader<'_> {
    /// A number of digits, none where it is out of range.
    #[inline]
    fn literal(&mut self) -> Option<Option<Number>> {
        let digits = self.digits()?;
        if !digits.are_few() {
            return Some(Number::parse(self.written(&digits)));
        }
        Some(Some(Number { count: i128::from(digits.value), places: digits.places as u8 }))
    }

    /// The longest expression; none where a part of it is out of range.
    pub fn expression(&mut self) -> Read<Option<Number>> {
        self.sum(DEEPEST)
    }

    fn sum(&mut self, room: u32) -> Read<Option<Number>> {
        let mut sum = self.product(room)?;
        loop {
            let apply = if self.is_sign(b'+') {
                Number::plus
            } else if self.is_sign(b'-') {
                Number::minus
            } else {
                return Some(sum);
            };
            sum = sum.zip(self.product(room)?).and_then(|(a, b)| apply(a, b));
        }
    }

    fn product(&mut self, room: u32) -> Read<Option<Number>> {
        let mut product = self.factor(room)?;
        while self.is_sign(b'*') {
            product = product.zip(self.factor(room)?).and_then(|(a, b)| a.times(b));
        }
        Some(product)
    }

    fn factor(&mut self, room: u32) -> Read<Option<Number>> {
        if let Some(number) = self.literal() {
            return Some(number);
        }
        let room = room.checked_sub(1)?;
        if self.is_sign(b'+') {
            return self.factor(room);
        }
        if self.is_sign(b'-') {
            return Some(self.factor(room)?.map(Number::negated));
        }
        if !self.is_sign(b'(') {
            return None;
        }
        let inside = self.sum(room)?;
        self.is_sign(b')').then_some(inside)
    }

    /// A number with a sign or none; most expressions are no more.
    #[inline]
    fn plain_number(&mut self) -> Option<Option<Number>> {
        let is_negative = self.is_sign(b'-');
        let number = self.literal()?;
        if matches!(self.byte(), b'+' | b'-' | b'*') {
            return None;
        }
        Some(if is_negative { number.map(Number::negated) } else { number })
    }

    #[inline]
    pub fn number(&mut self) -> Read<Number> {
        let start = self.at;
        let number = match self.plain_number() {
            Some(number) => number,
            None => {
                self.at = start;
                self.expression()?
            }
        };
        self.is_in_range &= number.is_some();
        Some(number.unwrap_or_default())
    }

    /// Whether a number begins here.
    #[inline]
    fn is_at_number(&self) -> bool {
        matches!(self.byte(), b'0'..=b'9' | b'+' | b'-' | b'(')
    }

    #[inline]
    pub fn number_if_any(&mut self) -> Read<Option<Number>> {
        if self.is_at_number() { self.number().map(Some) } else { Some(None) }
    }

    pub fn amount(&mut self) -> Read<Amount> {
        let (number, currency) = (self.number()?, self.currency()?);
        Some(self.ledger.wide.kept(number, currency))
    }

    /// A number and a currency, where both are written; none where one of them lacks.
    pub fn amount_or_less(&mut self) -> Read<Option<Amount>> {
        let (number, currency) = (self.number_if_any()?, self.currency());
        Some(number.zip(currency).map(|(number, currency)| self.ledger.wide.kept(number, currency)))
    }

    // Metadata.

    pub fn value(&mut self) -> Read<Value> {
        if let Some((place, _)) = self.text_if_any()? {
            return Some(Value::Text(place));
        }
        if let Some(day) = self.day() {
            return Some(Value::Day(day));
        }
        let name = self.account().map(Value::Account);
        let name = name.or_else(|| self.truth().map(Value::Truth));
        let name = name.or_else(|| self.currency().map(Value::Currency));
        match name.or_else(|| self.tag().map(Value::Tag)) {
            Some(value) => Some(value),
            None => self.numeric_value(),
        }
    }

    fn numeric_value(&mut self) -> Read<Value> {
        let number = self.number()?;
        let currency = self.currency();
        let amount = self.ledger.wide.kept(number, currency.unwrap_or_default());
        Some(match currency {
            Some(_) => Value::Amount(amount),
            None => Value::Number(amount),
        })
    }

    /// The currencies, texts and other values up to the end of the line.
    pub fn values(&mut self) -> Read<()> {
        while !self.is_at_end() {
            let value = self.value()?;
            self.ledger.values.push(value);
        }
        Some(())
    }

    /// An entry of the directive that is being read, or of a posting, whose value may lack.
    pub fn entry(&mut self, posting: Option<u32>) -> Read<Entry> {
        let key = self.key()?;
        let value = if self.is_at_end() { Value::Nothing } else { self.value()? };
        self.end()?;
        Some(Entry { directive: self.ledger.next(), posting: posting.unwrap_or(NONE), key, value })
    }

    /// An amount without its currency, as what is kept of a number.
    pub fn kept_alone(&mut self, number: Number) -> Amount {
        let Amount { count, unit } = self.ledger.wide.kept(number, 0);
        Amount { count, unit: Unit::without_currency(unit) }
    }
}

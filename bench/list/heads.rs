//! Directives, and the lines without a day.

use crate::escapes::unescaped;
use crate::inventory::Method;
use crate::ledger::{Balance, Directive, Entry, Flag, Pushed, Shape, Transaction, What};
use crate::names::NONE;
use crate::reader::{Front, Read, Reader};
use crate::words::Word;

pub enum Undated {
    Title(&'static str),
    OperatingCurrency(&'static str),
    BookingMethod(&'static str),
    Include(&'static str),
    Push(Pushed),
    PopTag(u32),
    PopKey(u32),
    /// A plugin, or an option that the books don't have.
    Ignored,
}

impl Reader<'_> {
    /// Reads a directive up to what stands behind it.
    pub fn directive(&mut self) -> Read<(Directive, Front)> {
        let line = self.line;
        let day = self.day()?;
        let (what, front) = match self.flag() {
            Some(flag) => self.transaction(flag)?,
            None => match self.word()? {
                Word::Txn => self.transaction(Flag::Complete)?,
                word => self.other(word)?,
            },
        };
        let file = self.file;
        Some((Directive { day, line, file, what }, front))
    }

    fn transaction(&mut self, flag: Flag) -> Read<(What, Front)> {
        let (mut payee, mut narration) = (NONE, NONE);
        if let Some((place, first)) = self.text_if_any()? {
            narration = place;
            if let Some((place, _)) = self.text_if_any()? {
                payee = self.ledger.payees.of(first);
                narration = place;
            }
        }
        self.marks();
        self.end()?;
        let first = self.ledger.postings.len();
        let mut shape = Shape::default();
        let mut front = self.next();
        while front == Front::Line {
            self.transaction_line(first, &mut shape)?;
            front = self.next();
        }
        let transaction = Transaction {
            flag,
            shape,
            payee,
            narration,
            first: first as u32,
            postings: (self.ledger.postings.len() - first) as u32,
        };
        Some((What::Transaction(transaction), front))
    }

    /// A line under a transaction, whose postings begin with the first.
    #[inline]
    fn transaction_line(&mut self, first: usize, shape: &mut Shape) -> Read<()> {
        match self.byte() {
            b'a'..=b'z' => {
                let postings = self.ledger.postings.len();
                self.add_entry((postings > first).then(|| postings as u32 - 1))
            }
            b'#' | b'^' => {
                let marks = self.ledger.marked.len();
                self.marks();
                self.end()?;
                (self.ledger.marked.len() > marks).then_some(())
            }
            _ => self.posting(shape),
        }
    }

    fn add_entry(&mut self, posting: Option<u32>) -> Read<()> {
        let entry = self.entry(posting)?;
        self.ledger.metadata.push(entry);
        Some(())
    }

    /// What is dated but no transaction, with its entries.
    fn other(&mut self, word: Word) -> Read<(What, Front)> {
        let what = self.behind_word(word)?;
        self.end()?;
        let mut front = self.next();
        while front == Front::Line {
            self.add_entry(None)?;
            front = self.next();
        }
        Some((what, front))
    }

    fn behind_word(&mut self, word: Word) -> Read<What> {
        match word {
            Word::Open => self.open(),
            Word::Close => self.account().map(|account| What::Close { account }),
            Word::Commodity => self.currency().map(|currency| What::Commodity { currency }),
            Word::Balance => self.balance(),
            Word::Pad => self.pad(),
            Word::Note => Some(What::Note { account: self.account()?, text: self.text_place()? }),
            Word::Document => self.document(),
            Word::Price => self.price_directive(),
            Word::Event => Some(What::Event { name: self.text_place()?, value: self.text_place()? }),
            Word::Query => Some(What::Query { name: self.text_place()?, query: self.text_place()? }),
            Word::Custom => self.custom(),
            _ => None,
        }
    }

    fn open(&mut self) -> Read<What> {
        let account = self.account()?;
        let first = self.ledger.open_currencies.len();
        if let Some(currency) = self.currency() {
            self.ledger.open_currencies.push(currency);
            while self.is_sign(b',') {
                let currency = self.currency()?;
                self.ledger.open_currencies.push(currency);
            }
        }
        let method = self.text_if_any()?.and_then(|(_, name)| Method::named(name));
        Some(What::Open {
            account,
            first: first as u32,
            currencies: (self.ledger.open_currencies.len() - first) as u32,
            method,
        })
    }

    fn balance(&mut self) -> Read<What> {
        let (account, number) = (self.account()?, self.number()?);
        let mut tolerance = None;
        if self.is_sign(b'~') {
            tolerance = self.expression()?;
            self.is_in_range &= tolerance.is_some();
        }
        if tolerance.is_some_and(|tolerance| tolerance.count < 0) {
            return None;
        }
        let currency = self.currency()?;
        let wide = &mut self.ledger.wide;
        self.ledger.balances.push(Balance {
            account,
            amount: wide.kept(number, currency),
            tolerance: tolerance.map(|tolerance| wide.kept(tolerance, currency)),
        });
        Some(What::Balance(self.ledger.balances.len() as u32 - 1))
    }

    fn pad(&mut self) -> Read<What> {
        let (account, source) = (self.account()?, self.account()?);
        self.ledger.padded.push(account);
        Some(What::Pad { account, source })
    }

    fn document(&mut self) -> Read<What> {
        let (account, name) = (self.account()?, self.text_place()?);
        self.marks();
        Some(What::Document { account, name })
    }

    fn price_directive(&mut self) -> Read<What> {
        let (currency, amount) = (self.currency()?, self.amount()?);
        self.ledger.prices.push((currency, amount));
        Some(What::Price(self.ledger.prices.len() as u32 - 1))
    }

    fn custom(&mut self) -> Read<What> {
        let name = self.text_place()?;
        let first = self.ledger.values.len();
        self.values()?;
        Some(What::Custom { name, first: first as u32, values: (self.ledger.values.len() - first) as u32 })
    }

    /// Reads a line without a day up to what stands behind it.
    pub fn undated(&mut self) -> Read<(Undated, Front)> {
        let undated = match self.word()? {
            Word::Option => self.option()?,
            Word::Include => Undated::Include(self.text()?.1),
            Word::Plugin => {
                self.text()?;
                self.text_if_any()?;
                Undated::Ignored
            }
            Word::PushTag => Undated::Push(Pushed::Tag(self.tag()?)),
            Word::PopTag => Undated::PopTag(self.tag()?),
            Word::PushMeta => Undated::Push(Pushed::Entry(self.entry(None)?)),
            Word::PopMeta => Undated::PopKey(self.key()?),
            _ => return None,
        };
        self.end()?;
        let front = self.next();
        (front != Front::Line).then_some((undated, front))
    }

    fn option(&mut self) -> Read<Undated> {
        let ((_, name), (_, value)) = (self.text()?, self.text()?);
        Some(match name {
            "title" => Undated::Title(value),
            "operating_currency" => Undated::OperatingCurrency(value),
            "booking_method" => Undated::BookingMethod(value),
            _ => Undated::Ignored,
        })
    }
}

impl crate::ledger::Ledger {
    /// The number of a label that is written with escapes.
    pub fn label(&mut self, written: &'static str) -> u32 {
        if !written.contains('\\') {
            return self.labels.of(written);
        }
        let label = unescaped(written);
        match self.labels.known(&label) {
            Some(known) => known,
            None => self.labels.of(label.into_owned().leak()),
        }
    }
}

impl Pushed {
    /// Whether a pop of that tag takes it back.
    pub fn is_tag(&self, name: u32) -> bool {
        matches!(self, Pushed::Tag(tag) if *tag == name)
    }

    /// Whether a pop of that key takes it back.
    pub fn is_key(&self, name: u32) -> bool {
        matches!(self, Pushed::Entry(Entry { key, .. }) if *key == name)
    }
}

//! What the postings of a transaction come to in each currency, and what fills in what lacks.

use crate::numbers::{Number, exact, rounded};

#[derive(Clone, Copy)]
pub struct Residual {
    pub currency: u32,
    pub sum: i128,
}

/// What is known of a currency in one transaction.
#[derive(Clone, Copy, Default)]
struct Known {
    /// The transaction.
    turn: u32,
    /// The place of its sum behind 1, and 0 where there is none.
    place: u32,
    /// The least decimals that are written for units of it, where some are, and else 0.
    precision: u8,
}

/// The sums of the transaction in turn, in the order in which their currencies first came.
pub struct Residuals {
    /// Sums count `10^-scale`, which is `10^-8`, or `10^-16` where there are costs or prices.
    pub scale: u8,
    pub sums: Vec<Residual>,
    /// By currency.
    known: Vec<Known>,
    turn: u32,
}

impl Residuals {
    pub fn new(currencies: usize) -> Residuals {
        Residuals { scale: 8, sums: Vec::new(), known: vec![Known::default(); currencies], turn: 0 }
    }

    /// Begins another transaction.
    pub fn begin(&mut self, scale: u8) {
        self.scale = scale;
        self.sums.clear();
        self.turn += 1;
    }

    #[inline]
    fn known(&mut self, currency: u32) -> &mut Known {
        let turn = self.turn;
        let known = &mut self.known[currency as usize];
        if known.turn != turn {
            *known = Known { turn, ..Known::default() };
        }
        known
    }

    #[inline]
    pub fn weigh(&mut self, currency: u32, weight: i128) {
        let next = self.sums.len() as u32 + 1;
        let known = self.known(currency);
        if known.place == 0 {
            known.place = next;
            self.sums.push(Residual { currency, sum: weight });
        } else {
            let place = known.place as usize - 1;
            self.sums[place].sum += weight;
        }
    }

    /// Units are written with so many decimals.
    #[inline]
    pub fn show(&mut self, currency: u32, places: u8) {
        let known = self.known(currency);
        if places > 0 && (known.precision == 0 || places < known.precision) {
            known.precision = places;
        }
    }

    /// What the transaction comes to in a currency.
    pub fn of(&mut self, currency: u32) -> Residual {
        let place = self.known(currency).place as usize;
        match place {
            0 => Residual { currency, sum: 0 },
            _ => self.sums[place - 1],
        }
    }

    /// The number that lacks, rounded to the decimals that are written.
    pub fn filled(&mut self, residual: Residual) -> Option<Number> {
        match self.known(residual.currency).precision {
            0 => exact(-residual.sum, self.scale),
            places => rounded(-residual.sum, self.scale, places),
        }
    }
}

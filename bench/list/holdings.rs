//! What all accounts hold at cost.

use crate::inventory::{Inventory, Method};
use crate::ledger::{Ledger, What};
use crate::names::QuickMap;

pub struct Holdings {
    /// By account.
    methods: Vec<Method>,
    inventories: Vec<Inventory>,
    numbers: QuickMap<u64, u32>,
}

/// An account and a currency, in one word.
pub fn pair(account: u32, currency: u32) -> u64 {
    u64::from(account) << 32 | u64::from(currency)
}

/// The method of each account is that of its first open, or else that of the ledger.
fn methods(ledger: &Ledger) -> Vec<Method> {
    let mut methods = vec![ledger.method; ledger.accounts.len()];
    for open in ledger.opens().rev() {
        if let What::Open { account, method, .. } = open.what {
            methods[account as usize] = method.unwrap_or(ledger.method);
        }
    }
    methods
}

impl Holdings {
    pub fn new(ledger: &Ledger) -> Holdings {
        Holdings { methods: methods(ledger), inventories: Vec::new(), numbers: QuickMap::default() }
    }

    /// The number of the inventory of an account and a currency, if there is one.
    pub fn number(&self, account: u32, currency: u32) -> Option<u32> {
        self.numbers.get(&pair(account, currency)).copied()
    }

    pub fn inventory(&self, number: u32) -> &Inventory {
        &self.inventories[number as usize]
    }

    pub fn inventory_mut(&mut self, number: u32) -> &mut Inventory {
        &mut self.inventories[number as usize]
    }

    pub fn has_lots(&self, account: u32, currency: u32) -> bool {
        self.number(account, currency).is_some_and(|number| !self.inventory(number).is_empty())
    }

    pub fn add(&mut self, account: u32, currency: u32, lot: u32, day: u32, count: i128) {
        let number = *self.numbers.entry(pair(account, currency)).or_insert_with(|| {
            self.inventories.push(Inventory::new(self.methods[account as usize]));
            self.inventories.len() as u32 - 1
        });
        self.inventories[number as usize].add(lot, day, count);
    }
}

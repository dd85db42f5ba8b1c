//! Names told apart by numbers: each text once, in the order in which they first came.

use std::collections::HashMap;
use std::hash::{BuildHasherDefault, Hasher};

/// The number of no name.
pub const NONE: u32 = u32::MAX;

const FACTOR: u64 = 0x517c_c1b7_2722_0a95;

/// Takes one word more into a hash.
pub fn mixed(state: u64, word: u64) -> u64 {
    (state.rotate_left(5) ^ word).wrapping_mul(FACTOR)
}

/// The hash of a text from its words of eight bytes, the bytes behind them and its length.
fn ended(state: u64, last: u64, len: usize) -> u64 {
    let state = mixed(mixed(state, last), len as u64);
    state ^ state >> 32
}

fn hash_of(text: &[u8]) -> u64 {
    let (words, rest) = text.as_chunks::<8>();
    let state = words.iter().fold(0, |state, word| mixed(state, u64::from_le_bytes(*word)));
    let last = rest.iter().rev().fold(0, |last, b| last << 8 | u64::from(*b));
    ended(state, last, text.len())
}

/// Where the first byte of white space stands in a word, in bits from its lowest, or 64 where it has none.
fn white_space(word: u64) -> u32 {
    const ONES: u64 = 0x0101_0101_0101_0101;
    let ends = word.wrapping_sub(ONES * 0x21) & !word & (ONES * 0x80);
    ends.trailing_zeros() & !7
}

/// A quick hasher of keys that are numbers.
#[derive(Default)]
pub struct Quick(u64);

impl Hasher for Quick {
    fn finish(&self) -> u64 {
        self.0 ^ self.0 >> 32
    }

    fn write(&mut self, bytes: &[u8]) {
        self.0 = mixed(self.0, hash_of(bytes));
    }

    fn write_u32(&mut self, word: u32) {
        self.0 = mixed(self.0, u64::from(word));
    }

    fn write_u64(&mut self, word: u64) {
        self.0 = mixed(self.0, word);
    }
}

/// A map whose keys are numbers.
pub type QuickMap<K, V> = HashMap<K, V, BuildHasherDefault<Quick>>;

/// Finds numbered things by their hashes: each stands at the lower half of its hash or behind it, with the upper half.
pub struct Index {
    slots: Vec<(u32, u32)>,
    len: usize,
}

const FREE: (u32, u32) = (0, NONE);

impl Index {
    pub fn new() -> Index {
        Index { slots: vec![FREE; 64], len: 0 }
    }

    /// The number of the thing with this hash that is the one, or else the slot that is free for it.
    #[inline]
    pub fn look_up(&self, hash: u64, is_it: impl Fn(u32) -> bool) -> Result<u32, usize> {
        let mask = self.slots.len() - 1;
        let mut at = hash as usize & mask;
        loop {
            let (upper, number) = self.slots[at];
            if number == NONE {
                return Err(at);
            }
            if upper == (hash >> 32) as u32 && is_it(number) {
                return Ok(number);
            }
            at = (at + 1) & mask;
        }
    }

    /// Puts the next number into its slot; the hashes of all are asked where more slots are needed.
    pub fn add(&mut self, at: usize, hash: u64, hash_of: impl Fn(u32) -> u64) -> u32 {
        let number = self.len as u32;
        self.slots[at] = ((hash >> 32) as u32, number);
        self.len += 1;
        if 2 * self.len > self.slots.len() {
            self.grow(hash_of);
        }
        number
    }

    fn grow(&mut self, hash_of: impl Fn(u32) -> u64) {
        self.slots = vec![FREE; 2 * self.slots.len()];
        for number in 0..self.len as u32 {
            let hash = hash_of(number);
            if let Err(at) = self.look_up(hash, |_| false) {
                self.slots[at] = ((hash >> 32) as u32, number);
            }
        }
    }
}

/// A text of at most seven bytes as a word, the bits of it that count, and its name.
#[derive(Clone, Copy)]
struct Short {
    word: u64,
    bits: u64,
    len: usize,
    name: u32,
}

impl Short {
    /// Of no text.
    const NONE: Short = Short { word: 1, bits: 0, len: 0, name: NONE };

    fn of(text: &str, name: u32) -> Short {
        if text.len() > 7 {
            return Short::NONE;
        }
        Short {
            word: text.bytes().rev().fold(0, |word, b| word << 8 | u64::from(b)),
            bits: (1 << (8 * text.len())) - 1,
            len: text.len(),
            name,
        }
    }
}

pub struct Names {
    texts: Vec<&'static str>,
    index: Index,
    /// The one of them that was met last, where that is short.
    last: Short,
}

impl Names {
    pub fn new() -> Names {
        Names { texts: Vec::new(), index: Index::new(), last: Short::NONE }
    }

    pub fn len(&self) -> usize {
        self.texts.len()
    }

    pub fn texts(&self) -> &[&'static str] {
        &self.texts
    }

    /// The text of a name.
    pub fn text(&self, name: u32) -> &'static str {
        self.texts[name as usize]
    }

    #[inline]
    fn look_up(&self, text: &[u8], hash: u64) -> Result<u32, usize> {
        self.index.look_up(hash, |name| self.text(name).as_bytes() == text)
    }

    /// The name of that text where there is one.
    pub fn known(&self, text: &str) -> Option<u32> {
        self.look_up(text.as_bytes(), hash_of(text.as_bytes())).ok()
    }

    /// The name of a text, a new one where there is none.
    pub fn of(&mut self, text: &'static str) -> u32 {
        let hash = hash_of(text.as_bytes());
        match self.look_up(text.as_bytes(), hash) {
            Ok(name) => name,
            Err(at) => {
                self.texts.push(text);
                self.index.add(at, hash, |name| hash_of(self.texts[name as usize].as_bytes()))
            }
        }
    }

    /// The same, of a text that is often met again, see `repeated`.
    pub fn of_short(&mut self, text: &'static str) -> u32 {
        let name = self.of(text);
        self.last = Short::of(text, name);
        name
    }

    /// The name whose text stands in front of white space, and its length, where there is one.
    #[inline]
    pub fn before_white_space(&self, front: &[u8]) -> Option<(u32, usize)> {
        let (mut state, mut len) = (0, 0);
        loop {
            let word = u64::from_le_bytes(*front.get(len..)?.first_chunk()?);
            let end = white_space(word);
            if end < 64 {
                len += end as usize / 8;
                let hash = ended(state, word & ((1 << end) - 1), len);
                return self.look_up(&front[..len], hash).ok().map(|name| (name, len));
            }
            state = mixed(state, word);
            len += 8;
        }
    }

    /// The name that was met last, the length of its text and the byte behind it, where that text stands in front.
    #[inline]
    pub fn repeated(&self, front: &[u8]) -> Option<(u32, usize, u8)> {
        let word = u64::from_le_bytes(*front.first_chunk()?);
        let Short { word: last, bits, len, name } = self.last;
        (word & bits == last).then(|| (name, len, (word >> (8 * len)) as u8))
    }
}

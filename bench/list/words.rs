//! The words of a text: each method reads one where it stands at the front, and else reads nothing.

use crate::ledger::Mark;
use crate::reader::{Read, Reader};

#[derive(Clone, Copy, Debug, PartialEq, Eq)]
pub enum Word {
    Open,
    Close,
    Commodity,
    Txn,
    Balance,
    Pad,
    Note,
    Document,
    Price,
    Event,
    Query,
    Custom,
    Option,
    Include,
    Plugin,
    PushTag,
    PopTag,
    PushMeta,
    PopMeta,
}

/// A number of digits: their value, which is of no use where they are more than 64 bits hold, how many of them are
/// decimals, and where they are written.
pub struct Digits {
    pub value: u64,
    pub places: usize,
    start: usize,
    len: usize,
}

impl Digits {
    /// Whether the number is surely in range, by the length of how it is written.
    #[inline]
    pub fn are_few(&self) -> bool {
        self.places <= 8 && self.len - self.places <= 12
    }
}

/// A class of bytes: letters of both cases, if they are wanted, capitals, digits and some more.
const fn class(has_all_letters: bool, others: &[u8]) -> [bool; 256] {
    let mut class = [false; 256];
    let mut b = 0;
    while b < 256 {
        let byte = b as u8;
        class[b] = byte.is_ascii_uppercase() || byte.is_ascii_digit() || has_all_letters && byte.is_ascii_lowercase();
        b += 1;
    }
    let mut i = 0;
    while i < others.len() {
        class[others[i] as usize] = true;
        i += 1;
    }
    class
}

/// What an account's component goes on with; it is every byte of a character past ASCII, too.
static IN_COMPONENT: [bool; 256] = {
    let mut class = class(true, b"-");
    let mut b = 128;
    while b < 256 {
        class[b] = true;
        b += 1;
    }
    class
};
static IN_CURRENCY: [bool; 256] = class(false, b"'._-");
/// What a text's end, its escapes and its lines don't begin with.
static IN_TEXT: [bool; 256] = {
    let mut class = [true; 256];
    class[b'"' as usize] = false;
    class[b'\\' as usize] = false;
    class[b'\n' as usize] = false;
    class
};
static IN_MARK: [bool; 256] = class(true, b"-_/.");
static IN_KEY: [bool; 256] = class(true, b"-_");

const LONGEST_CURRENCY: usize = 24;

impl Reader<'_> {
    /// A sign of one byte, if it stands here.
    #[inline]
    pub fn is_sign(&mut self, sign: u8) -> bool {
        let is_here = self.byte() == sign;
        if is_here {
            self.at += 1;
            self.spaces();
        }
        is_here
    }

    /// How often a sign stands here that is another one when it stands twice: not at all, once or twice.
    pub fn times(&mut self, sign: u8) -> u8 {
        if self.byte() != sign {
            return 0;
        }
        let times = if self.byte_behind() == sign { 2 } else { 1 };
        self.at += usize::from(times);
        self.spaces();
        times
    }

    /// The sign of a compound cost, which begins no tag.
    pub fn is_hash(&mut self) -> bool {
        !IN_MARK[self.byte_behind() as usize] && self.is_sign(b'#')
    }

    /// A number from digits that stand at the front, or none where other than digits do.
    fn number_of(bytes: &[u8]) -> Option<u32> {
        bytes.iter().try_fold(0, |number, b| {
            let digit = b.wrapping_sub(b'0');
            (digit <= 9).then_some(10 * number + u32::from(digit))
        })
    }

    /// The year, the month and the day from a place on where they have the form of one.
    fn day_form(&self, start: usize) -> Option<(u32, u32, u32)> {
        let bytes = self.bytes()[start..].first_chunk::<10>()?;
        if !matches!(bytes[4], b'-' | b'/') || bytes[7] != bytes[4] {
            return None;
        }
        Some((Self::number_of(&bytes[..4])?, Self::number_of(&bytes[5..7])?, Self::number_of(&bytes[8..])?))
    }

    /// A day, as the number that its digits write.
    #[inline]
    pub fn day(&mut self) -> Option<u32> {
        let (year, month, day) = self.day_form(self.at)?;
        self.is_in_range &= year > 0 && (1..=12).contains(&month) && (1..=days_of(year, month)).contains(&day);
        self.at += 10;
        self.spaces();
        Some((year * 100 + month) * 100 + day)
    }

    /// A number of digits if one stands here.
    #[inline]
    pub fn digits(&mut self) -> Option<Digits> {
        let bytes = self.rest();
        let (value, end) = value_of(bytes, 0, 0, true);
        let mut found = Digits { value, places: 0, start: self.at, len: end };
        match bytes.get(end) {
            Some(b'.') if end > 0 => {
                (found.value, found.len) = value_of(bytes, end + 1, value, false);
                found.places = found.len - end - 1;
            }
            Some(b'-' | b'/') if end == 4 && self.day_form(self.at).is_some() => return None,
            _ if end == 0 => return None,
            _ => {}
        }
        self.at += found.len;
        self.spaces();
        Some(found)
    }

    /// How digits are written.
    pub fn written(&self, digits: &Digits) -> &'static str {
        &self.text[digits.start..digits.start + digits.len]
    }

    /// What stands between quotes, if a text stands here, and the place of the first quote.
    #[inline]
    pub fn text_if_any(&mut self) -> Read<Option<(u32, &'static str)>> {
        if self.byte() != b'"' {
            return Some(None);
        }
        let start = self.at;
        let end = self.text_end()?;
        self.at = end + 1;
        self.spaces();
        Some(Some((start as u32, &self.text[start + 1..end])))
    }

    /// Where the text that begins here ends, whose escapes must be known.
    fn text_end(&mut self) -> Read<usize> {
        let bytes = self.bytes();
        let mut end = self.at + 1;
        loop {
            end = self.run(end, &IN_TEXT);
            match bytes.get(end)? {
                b'"' => return Some(end),
                b'\n' => {
                    self.line += 1;
                    end += 1;
                }
                _ => match bytes.get(end + 1)? {
                    b'"' | b'\\' | b'n' | b't' => end += 2,
                    _ => return None,
                },
            }
        }
    }

    /// A text, and the place of its quote.
    pub fn text(&mut self) -> Read<(u32, &'static str)> {
        self.text_if_any()?
    }

    /// The place of a text.
    pub fn text_place(&mut self) -> Read<u32> {
        self.text().map(|(place, _)| place)
    }

    /// What stands from the front up to a place, as a word.
    #[inline]
    fn word_to(&mut self, end: usize) -> &'static str {
        let word = &self.text[self.at..end];
        self.at = end;
        self.spaces();
        word
    }

    #[inline]
    pub fn account(&mut self) -> Option<u32> {
        match self.ledger.accounts.before_white_space(self.rest()) {
            Some((account, len)) => {
                self.at += len;
                self.spaces();
                Some(account)
            }
            None => self.new_account(),
        }
    }

    /// An account that wasn't met before, or that no white space ends.
    #[inline(never)]
    fn new_account(&mut self) -> Option<u32> {
        let rest = self.rest();
        let root = match rest.first()? {
            b'A' if rest.starts_with(b"Assets:") => 6,
            b'L' if rest.starts_with(b"Liabilities:") => 11,
            b'E' if rest.starts_with(b"Expenses:") => 8,
            b'E' if rest.starts_with(b"Equity:") => 6,
            b'I' if rest.starts_with(b"Income:") => 6,
            _ => return None,
        };
        let bytes = self.bytes();
        let begins_component = |b: &u8| b.is_ascii_uppercase() || b.is_ascii_digit() || *b >= 128;
        let mut end = self.at + root;
        while bytes.get(end) == Some(&b':') && bytes.get(end + 1).is_some_and(begins_component) {
            end = self.run(end + 1, &IN_COMPONENT);
        }
        if end == self.at + root {
            return None;
        }
        let account = self.word_to(end);
        Some(self.ledger.accounts.of(account))
    }

    #[inline]
    pub fn currency(&mut self) -> Option<u32> {
        if !self.byte().is_ascii_uppercase() {
            return None;
        }
        if let Some((currency, len, behind)) = self.ledger.currencies.repeated(self.rest())
            && !IN_COMPONENT[behind as usize]
            && !IN_CURRENCY[behind as usize]
        {
            self.at += len;
            self.spaces();
            return Some(currency);
        }
        self.other_currency()
    }

    /// A currency that isn't that which was met last.
    #[inline(never)]
    fn other_currency(&mut self) -> Option<u32> {
        let bytes = self.bytes();
        let ends_currency = |b: u8| b.is_ascii_uppercase() || b.is_ascii_digit();
        let mut end = self.run(self.at, &IN_CURRENCY).min(self.at + LONGEST_CURRENCY);
        while !ends_currency(bytes[end - 1]) {
            end -= 1;
        }
        // A small letter behind it goes on with an account, or with nothing of the grammar.
        let goes_on = bytes.get(end).is_some_and(u8::is_ascii_lowercase);
        if goes_on || matches!(&bytes[self.at..end], b"TRUE" | b"FALSE") {
            return None;
        }
        let currency = self.word_to(end);
        Some(self.ledger.currencies.of_short(currency))
    }

    pub fn truth(&mut self) -> Option<bool> {
        if !self.byte().is_ascii_uppercase() {
            return None;
        }
        let end = self.run(self.at, &IN_CURRENCY);
        let truth = match self.text[self.at..end].trim_end_matches(['\'', '.', '_', '-']) {
            "TRUE" => true,
            "FALSE" => false,
            _ => return None,
        };
        self.at += if truth { 4 } else { 5 };
        self.spaces();
        Some(truth)
    }

    /// The name behind a sign, if there is one.
    fn mark(&mut self, sign: u8) -> Option<u32> {
        if self.byte() != sign {
            return None;
        }
        let end = self.run(self.at + 1, &IN_MARK);
        if end == self.at + 1 {
            return None;
        }
        let mark = &self.word_to(end)[1..];
        Some(self.ledger.marks.of(mark))
    }

    pub fn tag(&mut self) -> Option<u32> {
        self.mark(b'#')
    }

    /// Tags and links of the directive that is being read.
    #[inline]
    pub fn marks(&mut self) {
        while matches!(self.byte(), b'#' | b'^') {
            let tag = self.tag().map(Mark::Tag);
            let Some(mark) = tag.or_else(|| self.mark(b'^').map(Mark::Link)) else {
                return;
            };
            let directive = self.ledger.next();
            self.ledger.marked.push((directive, mark));
        }
    }

    /// Whether a small letter begins a key here, and where its colon stands.
    fn key_end(&self) -> Option<usize> {
        let end = self.run(self.at, &IN_KEY);
        (self.bytes().get(end) == Some(&b':')).then_some(end)
    }

    pub fn key(&mut self) -> Read<u32> {
        if !self.byte().is_ascii_lowercase() {
            return None;
        }
        let end = self.key_end()?;
        let key = self.word_to(end + 1);
        Some(self.ledger.keys.of(&key[..key.len() - 1]))
    }

    /// A word of the ledger language.
    pub fn word(&mut self) -> Read<Word> {
        let letters = self.rest().iter().take_while(|b| b.is_ascii_lowercase()).count();
        let end = self.at + letters;
        let word = match &self.text[self.at..end] {
            "open" => Word::Open,
            "close" => Word::Close,
            "commodity" => Word::Commodity,
            "txn" => Word::Txn,
            "balance" => Word::Balance,
            "pad" => Word::Pad,
            "note" => Word::Note,
            "document" => Word::Document,
            "price" => Word::Price,
            "event" => Word::Event,
            "query" => Word::Query,
            "custom" => Word::Custom,
            "option" => Word::Option,
            "include" => Word::Include,
            "plugin" => Word::Plugin,
            "pushtag" => Word::PushTag,
            "poptag" => Word::PopTag,
            "pushmeta" => Word::PushMeta,
            "popmeta" => Word::PopMeta,
            _ => return None,
        };
        if self.key_end().is_some() {
            return None;
        }
        self.word_to(end);
        Some(word)
    }
}

/// The value of digits from a place on behind those of a value, and where they end; there may be commas between them.
#[inline]
fn value_of(bytes: &[u8], start: usize, mut value: u64, may_have_commas: bool) -> (u64, usize) {
    let mut at = start;
    while let Some(b) = bytes.get(at) {
        let digit = b.wrapping_sub(b'0');
        if digit <= 9 {
            value = value.wrapping_mul(10).wrapping_add(u64::from(digit));
        } else if !may_have_commas || *b != b',' || at == start || !bytes.get(at + 1).is_some_and(u8::is_ascii_digit) {
            break;
        }
        at += 1;
    }
    (value, at)
}

fn days_of(year: u32, month: u32) -> u32 {
    match month {
        4 | 6 | 9 | 11 => 30,
        2 if year % 4 == 0 && (year % 100 != 0 || year % 400 == 0) => 29,
        2 => 28,
        _ => 31,
    }
}

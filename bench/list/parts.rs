//! Reads a text block by block: the directives go into the ledger, and a block at fault leaves nothing there.

use crate::heads::Undated;
use crate::inventory::Method;
use crate::ledger::{Fault, Given, Ledger, Pushed};
use crate::reader::{Front, Read, Reader};

/// A push that no pop has taken back yet, and the directive that is read next behind it.
struct OpenPush {
    line: u32,
    from: u32,
    pushed: Pushed,
}

/// A text, and how far it is read.
pub struct Part {
    text: &'static str,
    file: u16,
    at: usize,
    line: u32,
    front: Option<Front>,
    pushes: Vec<OpenPush>,
    /// What pops took back, which is given to what stands between.
    given: Vec<Given>,
}

impl Part {
    pub fn new(text: &'static str, file: u16) -> Part {
        Part { text, file, at: 0, line: 1, front: None, pushes: Vec::new(), given: Vec::new() }
    }

    /// Reads up to the next include line, which is told with its name, or to the end.
    pub fn read(&mut self, ledger: &mut Ledger) -> Option<(u32, &'static str)> {
        let mut reader = Reader::new(self.text, self.file, ledger);
        (reader.at, reader.line) = (self.at, self.line);
        let mut front = self.front.unwrap_or_else(|| reader.front());
        let mut include = None;
        while front != Front::End && include.is_none() {
            let (at, line) = (reader.at, reader.line);
            let lengths = reader.ledger.lengths();
            reader.is_in_range = true;
            let read = if front == Front::Block { self.block(&mut reader, &mut include) } else { None };
            if read.is_none() || !reader.is_in_range {
                reader.ledger.truncate(&lengths);
                self.fault(&mut reader, line);
            }
            front = read.unwrap_or_else(|| {
                (reader.at, reader.line) = (at, line);
                reader.skip_block()
            });
        }
        (self.at, self.line, self.front) = (reader.at, reader.line, Some(front));
        if front == Front::End && include.is_none() {
            self.end(ledger);
        }
        include
    }

    fn fault(&self, reader: &mut Reader<'_>, line: u32) {
        let file = self.file;
        reader.ledger.faults.push(Fault { file, line });
    }

    /// Reads a block up to what stands behind it; it says nothing where it isn't in range.
    #[inline]
    fn block(&mut self, reader: &mut Reader<'_>, include: &mut Option<(u32, &'static str)>) -> Read<Front> {
        let line = reader.line;
        if reader.byte().is_ascii_digit() {
            let (directive, front) = reader.directive()?;
            if reader.is_in_range {
                reader.ledger.add(directive);
            }
            return Some(front);
        }
        let (undated, front) = reader.undated()?;
        if reader.is_in_range {
            self.add_undated(reader, undated, line, include);
        }
        Some(front)
    }

    fn add_undated(
        &mut self,
        reader: &mut Reader<'_>,
        undated: Undated,
        line: u32,
        include: &mut Option<(u32, &'static str)>,
    ) {
        let from = reader.ledger.next();
        match undated {
            Undated::Title(title) => reader.ledger.titles.push(title),
            Undated::OperatingCurrency(currency) => reader.ledger.operating_currencies.push(currency),
            Undated::BookingMethod(name) => {
                reader.ledger.method = Method::named(name).unwrap_or(reader.ledger.method);
            }
            Undated::Include(name) => *include = Some((line, name)),
            Undated::Push(pushed) => self.pushes.push(OpenPush { line, from, pushed }),
            Undated::PopTag(tag) => self.pop(reader, line, |pushed| pushed.is_tag(tag)),
            Undated::PopKey(key) => self.pop(reader, line, |pushed| pushed.is_key(key)),
            Undated::Ignored => self.fault(reader, line),
        }
    }

    /// Takes back the latest push that the pop names.
    fn pop(&mut self, reader: &mut Reader<'_>, line: u32, is_named: impl Fn(&Pushed) -> bool) {
        match self.pushes.iter().rposition(|push| is_named(&push.pushed)) {
            Some(place) => {
                let OpenPush { line, from, pushed } = self.pushes.remove(place);
                self.given.push(Given { file: self.file, line, from, to: reader.ledger.next(), pushed });
            }
            None => self.fault(reader, line),
        }
    }

    /// What is given lies in the order of the pushes; those that are open give nothing.
    fn end(&mut self, ledger: &mut Ledger) {
        self.given.sort_by_key(|given| given.line);
        ledger.given.append(&mut self.given);
        let file = self.file;
        ledger.faults.extend(self.pushes.drain(..).map(|push| Fault { file, line: push.line }));
    }
}

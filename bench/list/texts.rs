//! The texts of a ledger: the top one, and those that its include lines name.

use crate::escapes::unescaped;
use crate::ledger::{Fault, Ledger};
use crate::parts::Part;
use std::fs::File;
use std::io::{self, Error, ErrorKind, Read};

const LARGEST_TEXT: usize = 16_777_216;
const LARGEST_LEDGER: usize = 67_108_864;
const MOST_NAMES: usize = 1_000;
const DEEPEST: usize = 16;

/// The texts that were asked for. They are kept to the program's end, as names lend from them.
struct Texts {
    ledger: Ledger,
    asked: Vec<String>,
    read: usize,
}

/// The first bytes of a file or of standard input; one more than a text may have show that it is
/// too large.
fn bytes_of(name: &str) -> io::Result<Vec<u8>> {
    let most = LARGEST_TEXT as u64 + 1;
    let mut bytes = Vec::new();
    if name == "-" {
        io::stdin().take(most).read_to_end(&mut bytes)?;
    } else {
        let file = File::open(name)?;
        bytes.reserve_exact(file.metadata()?.len().min(most) as usize + 1);
        file.take(most).read_to_end(&mut bytes)?;
    }
    Ok(bytes)
}

/// A name that begins with a slash stands as it is, any other in the folder of the including text.
fn joined(including: &str, name: &str) -> String {
    match including.rfind('/') {
        Some(slash) if !name.starts_with('/') => format!("{}{name}", &including[..=slash]),
        _ => name.to_owned(),
    }
}

/// What ends the load, whatever else stands in the texts.
fn too_large() -> Error {
    Error::from(ErrorKind::FileTooLarge)
}

/// What the ledger of that name says, in the order in which it is taken.
pub fn loaded(name: &str) -> io::Result<Ledger> {
    let mut texts = Texts { ledger: Ledger::new(), asked: Vec::new(), read: 0 };
    let text = texts.ask(name)?;
    texts.add(name, text, DEEPEST)?;
    texts.ledger.arrange();
    Ok(texts.ledger)
}

impl Texts {
    fn ask(&mut self, name: &str) -> io::Result<&'static str> {
        self.asked.push(name.to_owned());
        let bytes = bytes_of(name)?;
        self.read += bytes.len();
        if bytes.len() > LARGEST_TEXT || self.read > LARGEST_LEDGER {
            return Err(too_large());
        }
        let text = String::from_utf8(bytes).map_err(|_| Error::from(ErrorKind::InvalidData))?;
        Ok(text.leak())
    }

    /// Reads a text, and those of its include lines, each at its line.
    fn add(&mut self, name: &str, text: &'static str, room: usize) -> io::Result<()> {
        let file = self.ledger.texts.len() as u16;
        self.ledger.texts.push(text);
        let mut part = Part::new(text, file);
        while let Some((line, written)) = part.read(&mut self.ledger) {
            if !self.include(&joined(name, &unescaped(written)), room)? {
                self.ledger.faults.push(Fault { file, line });
            }
        }
        Ok(())
    }

    /// Whether there is a text of that name that wasn't read before.
    fn include(&mut self, name: &str, room: usize) -> io::Result<bool> {
        if self.asked.iter().any(|asked| asked == name) {
            return Ok(false);
        }
        if room == 0 || self.asked.len() >= MOST_NAMES {
            return Err(too_large());
        }
        match self.ask(name) {
            Ok(text) => self.add(name, text, room - 1).map(|()| true),
            Err(error) if error.kind() == ErrorKind::FileTooLarge => Err(error),
            Err(_) => Ok(false),
        }
    }
}

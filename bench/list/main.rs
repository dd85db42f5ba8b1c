//! Does in plain Rust what `bq list` does, to compare with.
//!
//! `list FILE|-` prints the table of the postings of a ledger, with the texts that it includes;
//! `list --load FILE|-` only reads and arranges it, books nothing and prints what it found. `list --accounts
//! FILE|-`, `--journal` and `--largest` print what three queries answer, see `questions`, and `--filter`, `--lots`,
//! `--balance`, `--ordered` and `--first` what five more do, see `machine`. Characters are taken to be one column
//! wide.

mod booking;
mod cells;
mod digits;
mod escapes;
mod expressions;
mod heads;
mod holdings;
mod inventory;
mod ledger;
mod lots;
mod machine;
mod names;
mod numbers;
mod pads;
mod parts;
mod postings;
mod questions;
mod reader;
mod residuals;
mod rows;
mod sums;
mod table;
mod texts;
mod words;

use booking::listed;
use rows::Listed;
use std::env;
use std::io::{self, Write};
use std::process::ExitCode;
use texts::loaded;

const MOST_POSTINGS: usize = 4_000_000;

fn load(name: &str) -> io::Result<()> {
    let ledger = loaded(name)?;
    println!(
        "{} directives, {} postings, {} faults",
        ledger.directives.len(),
        ledger.postings.len(),
        ledger.faults.len()
    );
    Ok(())
}

/// What is booked of a ledger.
fn booked(name: &str) -> io::Result<Listed> {
    let listed = listed(loaded(name)?);
    if listed.rows.len() > MOST_POSTINGS {
        return Err(io::Error::other("there are more than 4,000,000 postings"));
    }
    Ok(listed)
}

fn list(name: &str) -> io::Result<()> {
    table::write(&booked(name)?, &mut io::stdout().lock())
}

/// Prints what a question answers.
fn answer(name: &str, question: fn(&Listed) -> Vec<u8>) -> io::Result<()> {
    io::stdout().write_all(&question(&booked(name)?))
}

fn main() -> ExitCode {
    let words: Vec<String> = env::args().skip(1).collect();
    let words: Vec<&str> = words.iter().map(String::as_str).collect();
    let done = match words[..] {
        ["--load", name] => load(name),
        ["--accounts", name] => answer(name, questions::accounts),
        ["--journal", name] => answer(name, questions::journal),
        ["--largest", name] => answer(name, questions::largest),
        ["--filter", name] => answer(name, machine::filter),
        ["--lots", name] => answer(name, machine::lots),
        ["--balance", name] => answer(name, machine::balance),
        ["--ordered", name] => answer(name, machine::ordered),
        ["--first", name] => answer(name, machine::first),
        [name] => list(name),
        _ => Err(io::Error::other(
            "usage: list [--load|--accounts|--journal|--largest|--filter|--lots|--balance|--ordered|--first] FILE|-",
        )),
    };
    match done {
        Ok(()) => ExitCode::SUCCESS,
        Err(error) => {
            eprintln!("list: {error}");
            ExitCode::from(2)
        }
    }
}

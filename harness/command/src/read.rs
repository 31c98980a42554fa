//! plimdrong read: the text of a sheet's table.

use crate::write::{carry, one_to_one, Made};
use crate::{Entry, FOUND};
use clap::{ArgMatches, Command};
use plimdrong::Table;

pub const ENTRY: Entry = Entry { command, run };

fn command() -> Command {
    one_to_one("read", "A sheet", "the text")
        .about("Reads a sheet: the text of its table, from which `write` makes the same sheet again")
        .after_help(
            "Examples:\n  ./plimdrong read examples/first.sheet\n  ./plimdrong read examples/first.sheet | ./plimdrong write | cmp - examples/first.sheet\n\n\
             Status: 0 read; 1 the sheet is refused; 2 a file cannot be read or written.",
        )
}

fn run(matches: &ArgMatches) -> u8 {
    carry(matches, false, text)
}

fn text(file: &str, sheet: &[u8]) -> Made {
    // the refusal's line, then its sentences
    let table = Table::of(sheet).map_err(|refused| (FOUND, format!("{file}: {refused}: {}", refused.explain())))?;
    Ok(table.to_string().into_bytes())
}

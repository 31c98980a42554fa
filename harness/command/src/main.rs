//! plimdrong: the command for the laboratory's people. It carries bytes to the proved judge and writer and tells what they
//! said; it decides nothing. Each subcommand is a module with an `ENTRY`, listed once, below.

mod audit;
mod batch;
mod check;
mod counts;
mod draw;
mod fetch;
mod json;
mod judge;
mod layout;
mod list;
mod names;
mod read;
mod record;
mod report;
mod said;
mod scratch;
mod sentence;
mod why;
mod write;

use clap::{ArgMatches, Command};
use std::io::Write;
use std::process::ExitCode;

/// A subcommand: what clap is told of it, and what it does. The number is the exit status.
pub struct Entry {
    pub command: fn() -> Command,
    pub run: fn(&ArgMatches) -> u8,
}

/// A request of 02 that lands adds its module here.
const ENTRIES: [Entry; 7] =
    [judge::ENTRY, check::ENTRY, why::ENTRY, write::ENTRY, read::ENTRY, draw::ENTRY, audit::ENTRY];

/// Every sheet got its line, the text its sheet, every record is consistent, the list is accepted.
pub const DONE: u8 = 0;
/// A text or a sheet was refused; a record is not consistent; a list is not accepted; an order does not exist.
pub const FOUND: u8 = 1;
/// Something could not be read or written, or the arguments are wrong.
pub const FAILED: u8 = 2;

/// What is wrong and what to do, in one line on standard error.
pub fn complain(line: impl std::fmt::Display) {
    // where standard error takes nothing the status says it
    let _ = writeln!(std::io::stderr(), "plimdrong: {line}");
}

fn command() -> Command {
    Command::new("plimdrong")
        .about("Recorded executions (sheets) judged against the ECMAScript memory model, by a judge that is proved.")
        .version(clap::crate_version!())
        .subcommand_required(true)
        .arg_required_else_help(true)
        .after_help(
            "Examples:\n  ./plimdrong judge examples/first.sheet\n  ./plimdrong check examples/first.sheet 0 1\n  ./plimdrong why examples/litmus/07-store-buffering.sheet\n  ./plimdrong audit examples/litmus --ending .sheet --html target/report.html\n\n\
             What a sheet is: docs/SHEET.md. What the answers mean: README.md. Each subcommand has its own --help.",
        )
        .subcommands(ENTRIES.iter().map(|entry| (entry.command)()))
}

fn main() -> ExitCode {
    let matches = command().get_matches();
    let (name, own) = matches.subcommand().expect("clap asks for one");
    let entry = ENTRIES.iter().find(|entry| (entry.command)().get_name() == name).expect("clap knows these alone");
    ExitCode::from((entry.run)(own))
}

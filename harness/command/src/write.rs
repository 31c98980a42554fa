//! plimdrong write: a table's text becomes its sheet.

use crate::{complain, Entry, DONE, FAILED, FOUND};
use clap::{value_parser, Arg, ArgMatches, Command};
use plimdrong::Table;
use std::ffi::{OsStr, OsString};
use std::fs::File;
use std::io::{self, IsTerminal, Read, Write};

pub const ENTRY: Entry = Entry { command, run };

/// What a subcommand of one input and one output gives: bytes, or its status and why.
pub type Made = Result<Vec<u8>, (u8, String)>;

/// The arguments of such a subcommand.
pub fn one_to_one(name: &'static str, input: &'static str, output: &'static str) -> Command {
    Command::new(name)
        .arg(
            Arg::new("file")
                .value_name("FILE")
                .value_parser(value_parser!(OsString))
                .default_value("-")
                .hide_default_value(true)
                .help(format!("{input}; - or nothing is standard input")),
        )
        .arg(
            Arg::new("output")
                .short('o')
                .long("output")
                .value_name("OUT")
                .value_parser(value_parser!(OsString))
                .default_value("-")
                .hide_default_value(true)
                .help(format!("Where {output} goes; - or nothing is standard output")),
        )
}

/// Input by `make` to output. `binary`: not to a terminal.
pub fn carry(matches: &ArgMatches, binary: bool, make: impl Fn(&str, &[u8]) -> Made) -> u8 {
    let of = |name| matches.get_one::<OsString>(name).expect("it has a default");
    let (file, output) = (of("file"), of("output"));
    match all(file, OVER).and_then(|bytes| make(&called(file), &bytes)).and_then(|made| put(output, binary, &made)) {
        Ok(()) => DONE,
        // what is wrong with a text begins with its file and line, so that an editor finds it
        Err((FOUND, why)) => {
            let _ = writeln!(io::stderr(), "{why}");
            FOUND
        }
        Err((status, why)) => {
            complain(why);
            status
        }
    }
}

pub fn called(file: &OsStr) -> String {
    if file == "-" {
        "standard input".to_string()
    } else {
        crate::names::shown(file.as_encoded_bytes())
    }
}

/// More than a sheet, the text of a table or a list of events has.
const MOST: usize = 1 << 20;
const OVER: &str = "this is no sheet, and no table that has one";

/// A file whole, - for standard input. `over` says what a longer one than there can be is not.
pub fn all(file: &OsStr, over: &str) -> Made {
    let mut bytes = Vec::new();
    let mut front = |from: &mut dyn Read| from.take(MOST as u64 + 1).read_to_end(&mut bytes);
    let read = match file == "-" {
        true => front(&mut io::stdin().lock()),
        false => File::open(file).and_then(|mut file| front(&mut file)),
    };
    match read {
        Err(e) => Err((FAILED, format!("{}: {}", called(file), failure(&e)))),
        // a text that is cut would be another text
        Ok(n) if n > MOST => Err((FOUND, format!("{}: over {MOST} bytes: {over}", called(file)))),
        Ok(_) => Ok(bytes),
    }
}

/// An error of the system, and what to do.
pub fn failure(e: &io::Error) -> String {
    match e.kind() {
        io::ErrorKind::NotFound => "no such file or folder: check the name".to_string(),
        io::ErrorKind::PermissionDenied => "you may not: change its mode, or do it as its owner".to_string(),
        io::ErrorKind::IsADirectory => "a folder: give a file's name".to_string(),
        io::ErrorKind::AlreadyExists => "there is a file of that name: name another place".to_string(),
        io::ErrorKind::NotADirectory => "its path leads through a file: check the name".to_string(),
        io::ErrorKind::StorageFull => "its disk is full: make room, or name another place".to_string(),
        _ => format!("{e}"),
    }
}

/// Bytes to a file, - for standard output.
pub fn put(output: &OsStr, binary: bool, made: &[u8]) -> Result<(), (u8, String)> {
    if output != "-" {
        return std::fs::write(output, made)
            .map_err(|e| (FAILED, format!("{}: {}", crate::names::shown(output.as_encoded_bytes()), failure(&e))));
    }
    if binary && io::stdout().is_terminal() {
        return Err((FAILED, "a sheet is no text for a terminal: name a file with -o OUT.sheet".to_string()));
    }
    let mut out = io::stdout().lock();
    out.write_all(made).and_then(|()| out.flush()).map_err(|e| (FAILED, format!("standard output: {}", failure(&e))))
}

fn command() -> Command {
    one_to_one("write", "A table as text (docs/SHEET.md, \"The text of a table\")", "the sheet")
        .about("Writes the sheet of a table's text; what the judge would refuse is refused, with its line")
        .after_help(
            "Examples:\n  ./plimdrong write examples/first.txt -o target/first.sheet\n  \
             printf 'head 1 1 1\\nA1 write sc at 0: 07\\nA1 read sc at 0: 07\\nrow 1 0 0\\n' | ./plimdrong write | ./plimdrong judge\n\n\
             Status: 0 written; 1 the text is no table, or the table no sheet; 2 a file cannot be read or written.",
        )
}

fn run(matches: &ArgMatches) -> u8 {
    carry(matches, true, sheet)
}

/// The sheet of a text.
fn sheet(file: &str, bytes: &[u8]) -> Made {
    // a sheet has zero bytes, a text has none
    let text = std::str::from_utf8(bytes).ok().filter(|text| !text.contains('\0')).ok_or_else(|| {
        (FOUND, format!("{file}: this is no text: `plimdrong read {file}` is the way from a sheet to its text"))
    })?;
    let (table, lines) =
        Table::parse_with_lines(text).map_err(|e| (FOUND, format!("{file}:{}: {}: {}", e.line, e.wrong, e.remedy)))?;
    table.sheet().map_err(|refused| match lines.of(&refused) {
        Some(line) => (FOUND, format!("{file}:{line}: {refused}")),
        None => (FOUND, format!("{file}: {refused}")),
    })
}

#[cfg(test)]
mod tests {
    use super::sheet;

    #[test]
    fn sheets_and_error_lines() {
        let first = std::fs::read("../../examples/first.sheet").unwrap();
        let text = b"head 1 1 1\n0 init at 0: 00\n1 A1 read unordered at 0: 00\nrow 1 0 0\n";
        assert_eq!(sheet("t", text).unwrap(), first);
        for (bytes, line) in [
            (&b"head 1 1 1\n\nA1 wirte sc at 0: 01\n"[..], "t:3: 'wirte' is no kind: write read,"),
            (b"row 0 0 0\nhead 1 1 1\nA1 read sc at 0: 01\n", "t:1: row 0 (row 0 0 0): A row's content is wrong."),
            (b"# a head alone\nhead 1 1 1\n", "t: the table: No event reads,"),
            (&[1, 0, 3, 255], "t: this is no text: `plimdrong read t` "),
            (&first, "t: this is no text: `plimdrong read t` "),
        ] {
            let (status, why) = sheet("t", bytes).unwrap_err();
            assert!(status == 1 && why.starts_with(line), "{why}");
        }
    }
}

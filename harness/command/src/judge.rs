//! plimdrong judge: the lines of ./verdict, in one process.

use crate::{batch, complain, fetch, json, names, sentence, Entry, DONE, FAILED};
use clap::{value_parser, Arg, ArgAction, ArgMatches, Command};
use plimdrong::{Answer, Judge};
use std::ffi::OsString;
use std::io::{self, IsTerminal, Write};
use std::os::unix::ffi::OsStrExt;

pub const ENTRY: Entry = Entry { command, run };

/// How the answers are told, and where they come from: what `judge` and `check` have in common.
pub fn arguments(batch: &'static str) -> [Arg; 3] {
    let flag = |name: &'static str| Arg::new(name).long(name).action(ArgAction::SetTrue);
    [
        flag("explain").help("Sentences below each line: what it means, what to do, which events it names"),
        flag("json")
            .conflicts_with("explain")
            .help("A line of JSON each, in place of the line: the answer, its parts, its sentences"),
        flag("batch").help(batch),
    ]
}

fn command() -> Command {
    let [explain, json, batch] = arguments(
        "Many sheets on standard input, each behind its length in two bytes, the most significant first; a line each, in order",
    );
    Command::new("judge")
        .about("Judges sheets: a line each, as ./verdict prints it")
        .arg(
            Arg::new("file")
                .value_name("FILE")
                .num_args(0..)
                .value_parser(value_parser!(OsString))
                .help("A sheet; - is standard input, and so is no FILE at all. With several the name stands before the line"),
        )
        .arg(explain)
        .arg(json)
        .arg(batch.conflicts_with("file"))
        .after_help(
            "Examples:\n  ./plimdrong judge examples/first.sheet\n  ./plimdrong judge --explain examples/litmus/12-torn.sheet\n  \
             ./plimdrong judge --json - <examples/first.sheet\n  \
             printf '\\000\\003abc\\000\\000' | ./plimdrong judge --batch\n\n\
             Status: 0 every sheet got its line, whatever it says; 2 one did not, and standard error says what to do.",
        )
}

/// How an answer is told.
#[derive(Clone, Copy, PartialEq, Eq)]
pub enum Form {
    Line,
    Explain,
    Json,
}

impl Form {
    pub fn of(matches: &ArgMatches) -> Form {
        match (matches.get_flag("explain"), matches.get_flag("json")) {
            (true, _) => Form::Explain,
            (_, true) => Form::Json,
            _ => Form::Line,
        }
    }

    /// What is printed of an answer: `called` is the JSON member that names the sheet, `before` what stands before the line.
    fn told(self, called: &str, before: &[u8], sheet: &[u8], answer: &Answer) -> Vec<u8> {
        let mut told = Vec::new();
        match self {
            Form::Json => told.extend(json::line(called, sheet, answer).bytes()),
            Form::Line | Form::Explain => {
                told.extend(before);
                told.extend(answer.to_string().bytes());
            }
        }
        told.push(b'\n');
        if self == Form::Explain {
            told.extend(sentence::sentences(sheet, answer).bytes());
        }
        told
    }
}

fn run(matches: &ArgMatches) -> u8 {
    let form = Form::of(matches);
    if matches.get_flag("batch") {
        let mut judge = Judge::new();
        return batch::run(["sheet"], |n, [sheet], out| match judge.judge(sheet) {
            answer if form == Form::Line => writeln!(out, "{answer}"),
            answer => out.write_all(&form.told(&format!("\"index\":{n}"), b"", sheet, &answer)),
        });
    }
    let dash = OsString::from("-");
    let mut files: Vec<&OsString> = matches.get_many("file").map(Iterator::collect).unwrap_or_default();
    if files.is_empty() {
        files.push(&dash);
    }
    let several = files.len() > 1;
    let (mut judge, mut sheet, mut status) = (Judge::new(), Vec::new(), DONE);
    let mut out = io::stdout().lock();
    for file in files {
        let shown = if *file == dash { "standard input".to_string() } else { names::shown(file.as_bytes()) };
        if let Err(why) = fetched(file, &mut sheet, "plimdrong judge FILE") {
            complain(format!("{shown}: {why}"));
            status = FAILED;
            continue;
        }
        let answer = judge.judge(&sheet);
        let before = if several { [file.as_bytes(), b": "].concat() } else { vec![] };
        let called = format!("\"name\":{}", json::string(file.as_bytes()));
        let told = form.told(&called, &before, &sheet, &answer);
        if out.write_all(&told).and_then(|()| out.flush()).is_err() {
            complain(format!("{shown}: its line could not be written: see that standard output is open and has room"));
            status = FAILED;
        }
    }
    status
}

/// A sheet by its name, - for standard input. `call` is how the command is called.
pub fn fetched(file: &OsString, sheet: &mut Vec<u8>, call: &str) -> Result<(), String> {
    if file != "-" {
        return fetch::named(file.as_ref(), sheet).map_err(|why| fetch::remedy(why).to_string());
    }
    if io::stdin().is_terminal() {
        complain(format!("reading a sheet from the terminal; to give a file: {call}"));
    }
    fetch::front(&mut io::stdin().lock(), sheet).map_err(|_| format!("reading it failed: give a sheet, as {call}"))
}

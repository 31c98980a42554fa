//! plimdrong why: why a sheet's events have no order (rule 26): the bars that leave none, and the circle that they make.

use crate::judge::fetched;
use crate::write::{called, put};
use crate::{batch, complain, draw, json, sentence, Entry, DONE, FAILED, FOUND};
use clap::{value_parser, Arg, ArgAction, ArgMatches, Command};
use plimdrong::{judge, why, Table, Why};
use std::ffi::{OsStr, OsString};
use std::io::{self, Write};
use std::os::unix::ffi::OsStrExt;

pub const ENTRY: Entry = Entry { command, run };

fn command() -> Command {
    let flag = |name: &'static str| Arg::new(name).long(name).action(ArgAction::SetTrue);
    Command::new("why")
        .about("Says why a sheet's events have no order (broken 26): the bars that leave none, each as a sentence, and the circle that they make")
        .arg(
            Arg::new("sheet")
                .value_name("SHEET")
                .num_args(0..)
                .value_parser(value_parser!(OsString))
                .help("A sheet; - is standard input, and so is no SHEET at all. With several the name stands before the line"),
        )
        .arg(flag("line").help("The line alone, without sentences and circle"))
        .arg(
            flag("json")
                .conflicts_with("line")
                .help("A line of JSON each: the line, the bars and why each bars, the circle, the sentences"),
        )
        .arg(
            Arg::new("draw")
                .long("draw")
                .value_name("OUT")
                .value_parser(value_parser!(OsString))
                .help("Draws the one sheet, its bars and their circle in red: an SVG; - is standard output, in place of what is said"),
        )
        .arg(
            flag("batch")
                .conflicts_with_all(["sheet", "draw"])
                .help("Many sheets on standard input, each behind its length in two bytes, the most significant first; a line each, in order, or with --json one of JSON"),
        )
        .after_help(
            "Examples:\n  ./plimdrong why examples/litmus/07-store-buffering.sheet\n  \
             ./plimdrong why --line examples/litmus/14-two-read-modify-writes.sheet\n  \
             ./plimdrong why examples/litmus/22-two-readers-disagree.sheet --draw target/disagree.svg\n  \
             printf '\\000\\003abc\\000\\000' | ./plimdrong why --batch\n\n\
             The line: `kept 2 bars: 2 0 3, 4 0 1`, each bar by the reader, its writer, and the write that may not stand between them. \
             No order meets these bars, and without any one of them some order meets the others. A sheet that is not broken by 26 gets what judge says of it, without an order.\n\n\
             Status: 0 every sheet is consistent; 1 one is broken or refused: its line says which; 2 something could not be read or written, and standard error says what to do.",
        )
}

/// How an answer is told.
#[derive(Clone, Copy, PartialEq, Eq)]
enum Form {
    Line,
    Explain,
    Json,
}

fn status(why: &Why) -> u8 {
    match why {
        Why::Consistent { .. } => DONE,
        Why::Refused { .. } | Why::Broken { .. } | Why::Kept { .. } => FOUND,
    }
}

impl Form {
    /// What is printed of an answer: `called` is the JSON member that names the sheet, `before` what stands before the line.
    fn told(self, called: &str, before: &[u8], sheet: &[u8], why: &Why) -> Vec<u8> {
        let sentences = || match why {
            Why::Kept { .. } => why.explain(sheet) + "\n",
            _ => sentence::sentences(sheet, &judge(sheet)),
        };
        let line = [before, why.to_string().as_bytes(), b"\n"].concat();
        match self {
            Form::Line => line,
            Form::Explain => [line, sentences().into_bytes()].concat(),
            Form::Json => (json::of_why(called, sheet, why) + "\n").into_bytes(),
        }
    }
}

fn run(matches: &ArgMatches) -> u8 {
    let form = match (matches.get_flag("line"), matches.get_flag("json")) {
        (true, _) => Form::Line,
        (_, true) => Form::Json,
        _ => Form::Explain,
    };
    if matches.get_flag("batch") {
        return many(form);
    }
    let dash = OsString::from("-");
    let mut files: Vec<&OsString> = matches.get_many("sheet").map(Iterator::collect).unwrap_or_default();
    if files.is_empty() {
        files.push(&dash);
    }
    match (matches.get_one::<OsString>("draw"), &files[..]) {
        (Some(out), [file]) => drawn(form, file, out),
        (Some(_), _) => {
            complain("--draw draws one sheet: name one, as: plimdrong why SHEET --draw OUT");
            FAILED
        }
        (None, files) => each(form, files),
    }
}

const CALL: &str = "plimdrong why SHEET";
const UNWRITTEN: &str = "it could not be written: see that standard output is open and has room";

/// The worst status of all: a sheet that cannot be read does not hide the others.
fn each(form: Form, files: &[&OsString]) -> u8 {
    let (mut sheet, mut worst) = (Vec::new(), DONE);
    let mut out = io::stdout().lock();
    for file in files {
        if let Err(wrong) = fetched(file, &mut sheet, CALL) {
            complain(format!("{}: {wrong}", called(file)));
            worst = FAILED;
            continue;
        }
        let why = why(&sheet);
        let before = if files.len() > 1 { [file.as_bytes(), b": "].concat() } else { vec![] };
        let told = form.told(&named(file), &before, &sheet, &why);
        worst = worst.max(status(&why));
        if out.write_all(&told).and_then(|()| out.flush()).is_err() {
            complain(format!("{}: {UNWRITTEN}", called(file)));
            worst = FAILED;
        }
    }
    worst
}

/// The JSON member that names a sheet.
fn named(file: &OsStr) -> String {
    format!("\"name\":{}", json::string(file.as_bytes()))
}

fn drawn(form: Form, file: &OsString, out: &OsString) -> u8 {
    let name = called(file);
    let one_file = |name: &OsStr| std::fs::canonicalize(name).ok();
    if one_file(out).is_some_and(|place| Some(place) == one_file(file)) {
        complain(format!("{}: it is read here, and would be lost: name another place", called(out)));
        return FAILED;
    }
    let mut sheet = Vec::new();
    if let Err(wrong) = fetched(file, &mut sheet, CALL) {
        complain(format!("{name}: {wrong}"));
        return FAILED;
    }
    let why = why(&sheet);
    if out != "-" {
        let told = form.told(&named(file), b"", &sheet, &why);
        let mut out = io::stdout().lock();
        if out.write_all(&told).and_then(|()| out.flush()).is_err() {
            complain(format!("{name}: {UNWRITTEN}"));
            return FAILED;
        }
    }
    let Ok(table) = Table::of(&sheet) else {
        complain(format!("{name}: {why}: the sheet is refused, and there is nothing to draw"));
        return FOUND;
    };
    let svg = draw::picture(&sheet, &table, &judge(&sheet), &name, "sheet");
    match put(out, false, svg.as_bytes()) {
        Ok(()) => status(&why),
        Err((failed, wrong)) => {
            complain(wrong);
            failed
        }
    }
}

fn many(form: Form) -> u8 {
    let form = if form == Form::Json { Form::Json } else { Form::Line };
    let mut worst = DONE;
    let ended = batch::run(["sheet"], |n, [sheet], out| {
        let why = why(sheet);
        worst = worst.max(status(&why));
        out.write_all(&form.told(&format!("\"index\":{n}"), b"", sheet, &why))
    });
    worst.max(ended)
}

#[cfg(test)]
mod tests {
    use super::*;
    use crate::draw::tests::check_told;
    use crate::said::Said;
    use plimdrong::{Answer, Rule};

    const ROOT: &str = concat!(env!("CARGO_MANIFEST_DIR"), "/../..");

    fn litmus(name: &str) -> Vec<u8> {
        std::fs::read(format!("{ROOT}/examples/litmus/{name}.sheet")).unwrap()
    }

    fn told(form: Form, sheet: &[u8]) -> String {
        String::from_utf8(form.told("\"name\":\"x\"", b"", sheet, &why(sheet))).unwrap()
    }

    #[test]
    fn told_in_sentences() {
        let sheet = litmus("07-store-buffering");
        assert_eq!(told(Form::Line, &sheet), "kept 2 bars: 2 0 3, 4 0 1\n");
        let lines: Vec<String> = told(Form::Explain, &sheet).lines().map(str::to_string).collect();
        assert_eq!(lines.len(), 11);
        assert!(lines[3]
            .starts_with("  2 0 3: event 2 (agent 1 reads byte 1, sc) read from event 0 (init of bytes 0 and 1); "));
        assert!(lines[5].starts_with("  (c): the reader is sc, "));
        assert!(lines[10].ends_with(": and so event 1 would stand before itself."));
        assert_eq!(status(&why(&sheet)), FOUND);
    }

    /// What is not broken by 26 is told as `judge` tells it.
    #[test]
    fn the_judges_own() {
        for (name, line) in [
            ("01-example", "consistent orderly"),
            ("08-store-buffering-unordered", "consistent unsettled 1 4"),
            ("12-torn", "broken 25 3 1 2 -"),
            ("02-row-removed", "refused 11 at 15"),
        ] {
            let sheet = litmus(name);
            let sentences = sentence::sentences(&sheet, &judge(&sheet));
            assert_eq!(told(Form::Explain, &sheet), format!("{line}\n{sentences}"));
            assert_eq!(status(&why(&sheet)), if judge(&sheet).is_consistent() { DONE } else { FOUND });
        }
    }

    /// Random sheets that are broken by 26: what every picture must be like holds.
    #[test]
    fn random_pictures() {
        let mut drawn = 0;
        for index in 0..6000 {
            let case = second::random::case(26, index, second::sheet::MAX_OTHERS);
            let answer = judge(&case.sheet);
            if answer == (Answer::Broken { rule: Rule::NoOrder }) {
                let table = Table::of(&case.sheet).unwrap();
                let said = Said::of_sheet(&case.sheet, &answer, table.events.len());
                check_told(&table, &said, &case.name);
                assert!(said.faults.len() >= 2 && said.roles.len() >= 3 && !said.barred.is_empty());
                drawn += 1;
            }
        }
        assert!(drawn > 100, "{drawn}");
    }

    /// Made anew with `./plimdrong draw examples/litmus/07-store-buffering.sheet -o docs/pictures/litmus-07.svg` and its like.
    #[test]
    fn the_documents_pictures() {
        for (sheet, drawn) in [
            ("07-store-buffering", "litmus-07"),
            ("14-two-read-modify-writes", "litmus-14"),
            ("22-two-readers-disagree", "litmus-22"),
        ] {
            let name = format!("examples/litmus/{sheet}.sheet");
            let sheet = litmus(sheet);
            let svg = draw::picture(&sheet, &Table::of(&sheet).unwrap(), &judge(&sheet), &name, "sheet");
            let file = format!("{ROOT}/docs/pictures/{drawn}.svg");
            assert_eq!(std::fs::read_to_string(&file).unwrap(), svg, "{file}");
        }
    }
}

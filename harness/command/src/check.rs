//! plimdrong check: whether a list of event numbers, as an engine's own log has one, is an order of a sheet's events that meets
//! the rules.

use crate::judge::{arguments, fetched, Form};
use crate::list::List;
use crate::said::Said;
use crate::write::{called, put};
use crate::{batch, complain, draw, json, sentence, Entry, DONE, FAILED, FOUND};
use clap::{value_parser, Arg, ArgMatches, Command};
use plimdrong::{check, happens_before_it, Checked, ListFault, Table};
use std::ffi::{OsStr, OsString};
use std::io::{self, Write};
use std::os::unix::ffi::OsStrExt;

pub const ENTRY: Entry = Entry { command, run };

fn command() -> Command {
    let [explain, json, batch] = arguments(
        "Many on standard input: a sheet behind its length in two bytes, the most significant first, then a list likewise, a byte a number; a line each, in order",
    );
    Command::new("check")
        .about("Checks a list of event numbers, as an engine's own log has one: whether it is an order of the sheet's events that meets the rules")
        .arg(
            Arg::new("sheet")
                .value_name("SHEET")
                .required_unless_present("batch")
                .value_parser(value_parser!(OsString))
                .help("A sheet; - is standard input"),
        )
        .arg(
            Arg::new("list")
                .value_name("LIST")
                .required_unless_present("batch")
                .num_args(1..)
                .allow_negative_numbers(true)
                .value_parser(value_parser!(OsString))
                .help("Event numbers, as 0 1 2 or 0,1,2, or a file that has them; - is standard input. What is digits, commas and spaces alone is numbers, so a file named 3 is ./3. In a file # begins a comment"),
        )
        .arg(explain)
        .arg(json)
        .arg(
            Arg::new("draw")
                .long("draw")
                .value_name("OUT")
                .value_parser(value_parser!(OsString))
                .help("Draws the sheet in the list's order, what is wrong with the list in red: an SVG; - is standard output, in place of the line"),
        )
        .arg(batch.conflicts_with_all(["sheet", "list", "draw"]))
        .after_help(
            "Examples:\n  ./plimdrong check examples/first.sheet 0 1\n  \
             ./plimdrong check --explain examples/litmus/21-synchronised-row.sheet examples/lists/overtaken.list\n  \
             ./plimdrong check examples/litmus/21-synchronised-row.sheet 0,3,1,2 --draw target/early.svg\n  \
             ./plimdrong judge examples/first.sheet | sed 's/.* then //' | ./plimdrong check examples/first.sheet -\n\n\
             Status: 0 accepted; 1 not accepted, or the sheet is broken by 21 to 25 or refused: the line says which; 2 something could not be read or written, and standard error says what to do.",
        )
}

/// A sheet, a list, and what the checker says of them.
pub struct Outcome<'a> {
    pub sheet: &'a [u8],
    pub list: &'a List,
    pub checked: Checked,
}

impl<'a> Outcome<'a> {
    pub fn of(sheet: &'a [u8], list: &'a List) -> Outcome<'a> {
        Outcome { sheet, list, checked: check(sheet, &list.bytes) }
    }

    pub fn fault(&self) -> Option<ListFault> {
        match self.checked {
            Checked::NotAccepted { fault } => Some(fault),
            _ => None,
        }
    }

    /// The sentences, numbers in them as they were typed.
    pub fn sentence(&self) -> String {
        let told = self.checked.explain_list(self.sheet, &self.list.bytes);
        match (self.fault(), self.checked.of_the_sheet()) {
            (Some(ListFault::BadNumber { index }), _) => {
                let told_of = |number: &str| format!("The list has {number} at index {index},");
                told.replacen(&told_of("255"), &told_of(&self.list.typed(index as usize)), 1)
            }
            (_, Some(answer)) => told + sentence::besides(self.sheet, &answer),
            _ => told,
        }
    }

    /// The same without what to do.
    pub fn what_is_wrong(&self) -> Option<String> {
        let told = self.sentence();
        self.fault().map(|fault| told.strip_suffix(fault.remedy()).unwrap_or(&told).trim_end().to_string())
    }

    /// The events that it names, each with its part in it.
    pub fn named(&self) -> Vec<(&'static str, u8)> {
        let list = &self.list.bytes;
        match (self.fault(), self.checked.of_the_sheet()) {
            (_, Some(answer)) => sentence::named(&answer),
            (Some(ListFault::BadNumber { index }), _) => {
                let number = list.get(index as usize).filter(|number| list[..index as usize].contains(number));
                number.map_or(vec![], |&number| vec![("repeated", number)])
            }
            (Some(ListFault::TooEarly { index }), _) => {
                let early = list.get(index as usize).map(|&event| ("too early", event));
                early.into_iter().chain(self.passed_over().map(|event| ("happens before", event))).collect()
            }
            (Some(ListFault::Barred { reader, writer, between, .. }), _) => {
                vec![("reader", reader), ("writer", writer), ("between", between)]
            }
            _ => vec![],
        }
    }

    /// Of an event that stands too early, the first behind it that happens before it.
    pub fn passed_over(&self) -> Option<u8> {
        happens_before_it(self.sheet, &self.list.bytes).map(|index| self.list.bytes[index])
    }

    fn status(&self) -> u8 {
        if self.checked.is_accepted() {
            DONE
        } else {
            FOUND
        }
    }

    fn told(&self, form: Form, called: &str) -> String {
        match form {
            Form::Line => format!("{}\n", self.checked),
            Form::Explain => format!("{}\n{}", self.checked, sentence::of_list(self)),
            Form::Json => format!("{}\n", json::of_list(called, self)),
        }
    }
}

fn run(matches: &ArgMatches) -> u8 {
    let form = Form::of(matches);
    if matches.get_flag("batch") {
        return many(form);
    }
    let file = matches.get_one::<OsString>("sheet").expect("clap asks for it");
    let words: Vec<&OsString> = matches.get_many("list").map(Iterator::collect).unwrap_or_default();
    if file == "-" && words.iter().any(|word| *word == "-") {
        complain("the sheet and the list cannot both be standard input: name a file for one of them");
        return FAILED;
    }
    let out = matches.get_one::<OsString>("draw");
    if let Some(out) = out.filter(|out| words.iter().chain([&file]).any(|read| one_file(out, read))) {
        complain(format!("{}: it is read here, and would be lost: name another place", called(out)));
        return FAILED;
    }
    let mut sheet = Vec::new();
    if let Err(why) = fetched(file, &mut sheet, "plimdrong check SHEET LIST") {
        complain(format!("{}: {why}", called(file)));
        return FAILED;
    }
    let list = match List::given(&words) {
        Ok(list) => list,
        Err(status) => return status,
    };
    let outcome = Outcome::of(&sheet, &list);
    if out.is_none_or(|out| out != "-") {
        let told = outcome.told(form, &format!("\"name\":{}", json::string(file.as_bytes())));
        let mut out = io::stdout().lock();
        if out.write_all(told.as_bytes()).and_then(|()| out.flush()).is_err() {
            complain("the line could not be written: see that standard output is open and has room");
            return FAILED;
        }
    }
    match out.map_or(Ok(()), |out| draw_to(out, &outcome, file)) {
        Ok(()) => outcome.status(),
        Err((status, why)) => {
            complain(why);
            status
        }
    }
}

/// Whether two names lead to one file.
fn one_file(name: &OsStr, other: &OsStr) -> bool {
    matches!((std::fs::canonicalize(name), std::fs::canonicalize(other)), (Ok(one), Ok(two)) if one == two)
}

fn draw_to(out: &OsStr, outcome: &Outcome, file: &OsStr) -> Result<(), (u8, String)> {
    let name = called(file);
    let table = Table::of(outcome.sheet).map_err(|_| {
        (FOUND, format!("{name}: {}: the sheet is refused, and there is nothing to draw", outcome.checked))
    })?;
    put(out, false, draw::told(&table, &Said::of_list(outcome, table.events.len()), &name, "sheet").as_bytes())
}

/// Status 0 where every list is accepted.
fn many(form: Form) -> u8 {
    let mut status = DONE;
    let ended = batch::run(["sheet", "list"], |n, [sheet, list], out| {
        let list = List::of_bytes(list);
        let outcome = Outcome::of(sheet, &list);
        status = status.max(outcome.status());
        match form {
            Form::Line => writeln!(out, "{}", outcome.checked),
            _ => out.write_all(outcome.told(form, &format!("\"index\":{n}")).as_bytes()),
        }
    });
    status.max(ended)
}

#[cfg(test)]
mod tests {
    use super::*;
    use crate::draw::tests::check_told;
    use plimdrong::judge;
    use std::collections::BTreeMap;

    const TEXT: &str = "head 1 3 1\n0 init at 0: 00\n1 A1 write sc at 0: 01\n2 A2 write sc at 0: 02\n3 A3 read sc at 0: 01\nrow 3 0 1\n";

    fn of_text(text: &str) -> Vec<u8> {
        Table::parse(text).unwrap().sheet().unwrap()
    }

    fn given(words: &str) -> List {
        List::given(&words.split('/').map(OsString::from).collect::<Vec<_>>().iter().collect::<Vec<_>>()).unwrap()
    }

    #[test]
    fn told_in_sentences() {
        let sheet = of_text(TEXT);
        for (words, want) in [
            ("0,1/3 2", "accepted\nThe list names every event once"),
            ("0", "not accepted 1 length 1\nThe list has 1 number, the sheet has 4 events. "),
            ("0/1/1000/3", "not accepted 2 at 2\nThe list has 1000 at index 2, and the sheet has 4 events, 0 to 3. "),
            ("0/255/300/3", "not accepted 2 at 1\nThe list has 255 at index 1, and the sheet has"),
            ("0/1/1/300", "not accepted 2 at 2\nThe list has 1 at index 2, and at index 1 already. "),
            (
                "0/3/2/1",
                "not accepted 3 at 1\nEvent 3 stands at index 1, before event 1 at index 3, which happens before it. ",
            ),
            ("0/1/2/3", "not accepted 4 3 1 2 0\nEvent 2, an sc write, stands between event 1 and event 3, "),
        ] {
            let list = given(words);
            let outcome = Outcome::of(&sheet, &list);
            assert!(outcome.told(Form::Explain, "").starts_with(want), "{}", outcome.told(Form::Explain, ""));
            assert_eq!(outcome.status(), if want.starts_with("accepted") { DONE } else { FOUND });
        }
        let list = given("0/3/2/1");
        let told = Outcome::of(&sheet, &list).told(Form::Explain, "");
        assert!(
            told.ends_with("\n  3 (too early): A3 read sc at 0: 01\n  1 (happens before): A1 write sc at 0: 01\n"),
            "{told}"
        );
        assert_eq!(
            Outcome::of(&sheet, &list).what_is_wrong().unwrap(),
            "Event 3 stands at index 1, before event 1 at index 3, which happens before it."
        );
    }

    /// What the sheet's own answer is, is told as `judge` tells it.
    #[test]
    fn the_sheet_first() {
        let torn = of_text("head 1 3 2\nA1 write unordered at 0: 01 01\nA2 write unordered at 0: 02 02\nA3 read unordered at 0: 01 02\nrow 2 0 0\nrow 2 1 1\n");
        for sheet in [&torn[..], &[], &[1, 0, 3]] {
            let answer = judge(sheet);
            for list in [List::default(), given("0/1/2"), given("9")] {
                let outcome = Outcome::of(sheet, &list);
                assert_eq!(outcome.checked.of_the_sheet(), Some(answer.clone()));
                assert_eq!(
                    outcome.told(Form::Explain, ""),
                    format!("{answer}\n{}", sentence::sentences(sheet, &answer))
                );
                assert_eq!(
                    outcome.told(Form::Json, "\"name\":\"x\""),
                    json::line("\"name\":\"x\"", sheet, &answer) + "\n"
                );
                assert_eq!(outcome.status(), FOUND);
            }
        }
    }

    /// Random lists of all kinds: each fault is drawn, and what every picture must be like holds.
    #[test]
    fn random_pictures() {
        let mut drawn = BTreeMap::new();
        for index in 0..4000 {
            let case = second::random::list_case(16, index, second::sheet::MAX_OTHERS);
            let Ok(table) = Table::of(&case.sheet) else { continue };
            let n = table.events.len();
            let list = List::of_bytes(&case.list);
            let outcome = Outcome::of(&case.sheet, &list);
            let said = Said::of_list(&outcome, n);
            check_told(&table, &said, &case.name);
            assert_eq!(!said.faults.is_empty(), outcome.fault().is_some());
            assert_eq!(!said.before.is_empty(), matches!(outcome.fault(), Some(ListFault::TooEarly { .. })));
            let listed: Vec<usize> = case.list.iter().map(|&e| e.into()).collect();
            let is_order = listed.len() == n && (0..n).all(|e| listed.contains(&e));
            assert_eq!(said.order, if is_order { listed } else { (0..n).collect() });
            let number = outcome.fault().map_or(0, |fault| fault.number());
            *drawn.entry((outcome.checked.of_the_sheet().is_some(), number)).or_insert(0) += 1;
        }
        let all = [(true, 0), (false, 0), (false, 1), (false, 2), (false, 3), (false, 4)];
        assert!(all.iter().all(|kind| drawn.get(kind) > Some(&100)), "{drawn:?}");
    }

    /// Made anew with `./plimdrong check examples/litmus/21-synchronised-row.sheet 0 1 2 3 --draw docs/pictures/list-barred.svg` and
    /// its like.
    #[test]
    fn the_documents_pictures() {
        let root = concat!(env!("CARGO_MANIFEST_DIR"), "/../..");
        let name = "examples/litmus/21-synchronised-row.sheet";
        let sheet = std::fs::read(format!("{root}/{name}")).unwrap();
        let table = Table::of(&sheet).unwrap();
        for (words, file) in [("0/1/2/3", "list-barred"), ("0/3/1/2", "list-too-early")] {
            let list = given(words);
            let said = Said::of_list(&Outcome::of(&sheet, &list), table.events.len());
            let file = format!("{root}/docs/pictures/{file}.svg");
            assert_eq!(std::fs::read_to_string(&file).unwrap(), draw::told(&table, &said, name, "sheet"), "{file}");
        }
    }
}

//! The linked checker against the second program: random sheets with a list each.

use plimdrong::{check_with, judge, Answer, Checked, ListFault, Table};
use second::judge::Relations;
use second::random::{list_case, mostly_few, shown_list, ListCase, SHOWN_LISTS};
use second::text::to_text;
use std::collections::BTreeMap;
use std::fmt;

/// How often each answer came, for sheets of edition 1, of edition 2 and with no such head.
#[derive(Default)]
pub struct Tally {
    answers: BTreeMap<String, [u64; 3]>,
    /// What the lists showed of 02 §5.
    shown: BTreeMap<&'static str, u64>,
    /// Orders of the judge, all accepted; and accepted lists of orderly sheets, run on a plain memory.
    own: u64,
    run: u64,
}

/// All answers there are, as the tally names them.
fn all_answers() -> Vec<String> {
    let refused = (1..=11).chain([14]).map(|n| format!("refused {n}"));
    let broken = (21..=25).map(|n| format!("broken {n}"));
    let not_accepted = (1..=4).map(|n| format!("not accepted {n}"));
    refused.chain(broken).chain(["accepted".to_string()]).chain(not_accepted).collect()
}

impl Tally {
    fn count(&mut self, c: &ListCase, answer: &second::Checked) {
        let name = match answer {
            second::Checked::Sheet(second::Answer::Refused { number, .. }) => format!("refused {number}"),
            second::Checked::Sheet(second::Answer::Broken { number, .. }) => format!("broken {number}"),
            second::Checked::Sheet(second::Answer::Consistent { .. }) => unreachable!("no answer of a check"),
            second::Checked::Accepted => "accepted".to_string(),
            second::Checked::NotAccepted(fault) => format!("not accepted {}", fault.number()),
        };
        let edition = match c.sheet[..] {
            [1, 0, 3, edition @ 1..=2, ..] => edition as usize - 1,
            _ => 2,
        };
        self.answers.entry(name).or_default()[edition] += 1;
        for what in shown_list(&c.sheet, &c.list, answer) {
            *self.shown.entry(what).or_default() += 1;
        }
    }

    /// The answers that never came at an edition, those that are none, and what was never shown of 02 §5.
    pub fn missing(&self) -> Vec<String> {
        let all = all_answers();
        let times = |name: &String| self.answers.get(name).copied().unwrap_or_default();
        let of =
            |e: usize| all.iter().filter(move |n| times(n)[e - 1] == 0).map(move |n| format!("{n} at edition {e}"));
        let unknown = self.answers.keys().filter(|n| !all.contains(n)).map(|n| format!("{n} should not have come"));
        let unshown = SHOWN_LISTS.iter().filter(|what| !self.shown.contains_key(**what)).map(|what| what.to_string());
        of(1).chain(of(2)).chain(unknown).chain(unshown).collect()
    }
}

impl fmt::Display for Tally {
    fn fmt(&self, f: &mut fmt::Formatter) -> fmt::Result {
        writeln!(f, "{:<21}{:>10}{:>10}{:>10}", "", "edition 1", "edition 2", "neither")?;
        for name in all_answers() {
            let [one, two, neither] = self.answers.get(&name).copied().unwrap_or_default();
            writeln!(f, "{name:<21}{one:>10}{two:>10}{neither:>10}")?;
        }
        for what in SHOWN_LISTS {
            writeln!(f, "{what:<43}{:>8}", self.shown.get(what).unwrap_or(&0))?;
        }
        writeln!(f, "{:<43}{:>8}", "orders of the judge, accepted", self.own)?;
        writeln!(f, "{:<43}{:>8}", "accepted lists of orderly sheets, run", self.run)
    }
}

/// The sheets and lists number 0 to `count` of a seed; the first difference as text. `max`: at most so many events that are
/// not inits, or, for 0, mostly few and at times the most.
pub fn random_lists(seed: u64, count: u64, max: usize) -> Result<Tally, String> {
    let mut tally = Tally::default();
    for index in 0..count {
        let most = if max > 0 { max } else { mostly_few(index) };
        let c = list_case(seed, index, most);
        let expected = second::check(&c.sheet, &c.list);
        one(&c, &expected, &mut tally).map_err(|what| {
            let (text, line) = (to_text(&c.sheet), expected.line());
            let list = if c.list.len() > 40 { format!("{} bytes", c.list.len()) } else { format!("{:?}", c.list) };
            format!("{}: {what}\n{text}list {list}\nsecond program: {line}", c.name)
        })?;
        tally.count(&c, &expected);
    }
    Ok(tally)
}

fn one(c: &ListCase, expected: &second::Checked, tally: &mut Tally) -> Result<(), String> {
    let (sheet, list) = (&c.sheet[..], &c.list[..]);
    let word = check_with(sheet, list);
    if word != expected.word() {
        return Err(format!("the word is {word:#x}, not {:#x}", expected.word()));
    }
    // the word read as an answer gives the same line, and sentences
    let checked = Checked::from_word(word).ok_or(format!("{word:#x} is no answer"))?;
    if checked.to_string() != expected.line() {
        return Err(format!("the line is '{checked}'"));
    }
    in_words(&checked, sheet, list)?;

    // "Every order the judge reports must be accepted here."
    let judged = judge(sheet);
    let orderly = matches!(judged, Answer::Consistent { pair: None, .. });
    if let Answer::Consistent { order, .. } = &judged {
        tally.own += 1;
        if check_with(sheet, order) != 6 << 40 {
            return Err(format!("the judge's order {order:?} is not accepted"));
        }
    }
    match (&checked, &judged) {
        // what is refused or broken by 21 to 25 is answered as the judge does, and what is accepted is consistent
        (Checked::Refused { .. } | Checked::Broken { .. }, _) if checked.of_the_sheet().as_ref() != Some(&judged) => {
            return Err(format!("the judge says {judged}"))
        }
        (Checked::Accepted, _) if !judged.is_consistent() => return Err(format!("the judge says {judged}")),
        _ => {}
    }
    // "Demand 3 covers accepted lists too": run one event after another, each read of an orderly sheet sees its bytes
    if checked.is_accepted() && orderly {
        tally.run += 1;
        run(sheet, list)?;
    }
    Ok(())
}

/// The sentences say what the second program finds.
fn in_words(checked: &Checked, sheet: &[u8], list: &[u8]) -> Result<(), String> {
    let said = checked.explain_list(sheet, list);
    let begins = match checked {
        Checked::NotAccepted { fault: ListFault::WrongLength { .. } } => format!("The list has {} number", list.len()),
        Checked::NotAccepted { fault: ListFault::BadNumber { index } } => {
            format!("The list has {} at index {index}, and ", list[*index as usize])
        }
        Checked::NotAccepted { fault: ListFault::TooEarly { index } } => {
            let x = second::read(sheet).map_err(|_| "refused")?;
            let m = Relations::of(&x);
            let (i, e) = (*index as usize, list[*index as usize]);
            let other = (i + 1..list.len()).find(|&k| m.before[list[k] as usize][e as usize]);
            let k = other.ok_or("nothing happens before it")?;
            format!("Event {e} stands at index {i}, before event {} at index {k}, which happens before it.", list[k])
        }
        _ => checked.explain(),
    };
    if !said.starts_with(&begins) {
        return Err(format!("'{said}' does not begin with '{begins}'"));
    }
    Ok(())
}

/// The events of a list one after another on a plain memory.
fn run(sheet: &[u8], list: &[u8]) -> Result<(), String> {
    let table = Table::of(sheet).map_err(|refused| refused.to_string())?;
    let mut memory = [None; 64];
    for &e in list {
        let event = &table.events[e as usize];
        let (start, width) = (event.start as usize, event.width as usize);
        let (seen, written) = match event.kind {
            plimdrong::kind::READ | plimdrong::kind::RMW => event.data.split_at(width),
            _ => event.data.split_at(0),
        };
        for (i, byte) in seen.iter().enumerate() {
            if memory[start + i] != Some(*byte) {
                return Err(format!("event {e} saw {byte} at {}, and there is {:?}", start + i, memory[start + i]));
            }
        }
        written.iter().enumerate().for_each(|(i, byte)| memory[start + i] = Some(*byte));
    }
    Ok(())
}

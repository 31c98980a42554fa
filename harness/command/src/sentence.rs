//! Answers in sentences, with the events that they name; kinds of answer in words.

use crate::check::Outcome;
use crate::record::Class;
use plimdrong::{refusal, Answer, Rule, Table};
use std::fmt;

/// The sentences of an answer, and a line for each event that it names.
pub fn sentences(sheet: &[u8], answer: &Answer) -> String {
    let more = match answer {
        Answer::Broken { rule: Rule::NoOrder } => " `plimdrong why` tells which bars leave none.",
        _ => besides(sheet, answer),
    };
    with_events(sheet, answer.explain() + more, named(answer))
}

/// The same of what was said of a list.
pub fn of_list(outcome: &Outcome) -> String {
    with_events(outcome.sheet, outcome.sentence(), outcome.named())
}

fn with_events(sheet: &[u8], mut text: String, named: Vec<(&str, u8)>) -> String {
    text.push('\n');
    let table = Table::of(sheet).ok();
    for (role, event) in named {
        if let Some(e) = table.as_ref().and_then(|t| t.events.get(usize::from(event))) {
            text += &format!("  {event} ({role}): {e}\n");
        }
    }
    text
}

/// What the sheet's edition has to do with its answer: 25 rests on what edition 1 takes for tear-free.
pub fn besides(sheet: &[u8], answer: &Answer) -> &'static str {
    match answer {
        Answer::Broken { rule: Rule::Torn { .. } } if sheet.get(3) == Some(&1) => {
            " The sheet is of edition 1, which is for integer typed arrays only: if one of the three went through a float \
             array or a DataView, it may tear, and edition 2 can say so."
        }
        _ => "",
    }
}

/// The events that an answer names, each with its part in it.
pub fn named(answer: &Answer) -> Vec<(&'static str, u8)> {
    match *answer {
        Answer::Refused { .. } => vec![],
        Answer::Broken { rule } => match rule {
            Rule::ByteDiffers { reader, writer, .. } | Rule::ReadsLater { reader, writer, .. } => {
                vec![("reader", reader), ("writer", writer)]
            }
            Rule::BeforeItself { event } => vec![("event", event)],
            Rule::Overwritten { reader, writer, between, .. } => {
                vec![("reader", reader), ("writer", writer), ("between", between)]
            }
            Rule::Torn { reader, writer, other } => vec![("reader", reader), ("writer", writer), ("other", other)],
            Rule::NoOrder => vec![],
        },
        Answer::Consistent { pair, .. } => {
            pair.map_or(vec![], |(first, second)| vec![("unsettled", first), ("unsettled", second)])
        }
    }
}

/// As a line of such an answer begins.
impl fmt::Display for Class {
    fn fmt(&self, f: &mut fmt::Formatter) -> fmt::Result {
        match self {
            Class::Orderly => f.write_str("consistent orderly"),
            Class::Unsettled => f.write_str("consistent unsettled"),
            Class::Broken(rule) => write!(f, "broken {rule}"),
            Class::Refused(number) => write!(f, "refused {number}"),
            Class::Unreadable => f.write_str("unreadable"),
        }
    }
}

/// What such an answer says, for every record that gets it.
pub fn meaning(class: Class) -> &'static str {
    match class {
        Class::Orderly => "The memory model allows the execution, and no two events are an unsettled pair.",
        Class::Unsettled => "The memory model allows the execution, but two events are an unsettled pair.",
        Class::Broken(21) => "A byte seen is not the byte that was written.",
        Class::Broken(22) => "An event happens before itself.",
        Class::Broken(23) => "A read happens before the write that it read.",
        Class::Broken(24) => "A read saw a byte that was overwritten before.",
        Class::Broken(25) => "A tear-free read has bytes of two writes.",
        Class::Broken(26) => "No total order of the events meets the rules.",
        Class::Broken(_) => "A rule is broken.",
        Class::Refused(number) => refusal(number).map_or("The sheet is refused.", |refusal| refusal.meaning),
        Class::Unreadable => "The record could not be read, so nothing is said of it.",
    }
}

#[cfg(test)]
mod tests {
    use super::{besides, meaning, sentences, Class};
    use plimdrong::{judge, Table};

    fn torn(edition: u8) -> Vec<u8> {
        let text = format!(
            "head {edition} 3 2\nA1 write unordered at 0: 01 01\nA2 write unordered at 0: 02 02\n\
             A3 read unordered at 0: 01 02\nrow 2 0 0\nrow 2 1 1"
        );
        Table::parse(&text).unwrap().sheet().unwrap()
    }

    /// Of 25 at edition 1, what edition 1 is for.
    #[test]
    fn explained_by_the_edition() {
        let besides = |sheet: &[u8]| besides(sheet, &judge(sheet));
        assert!(besides(&torn(1)).starts_with(" The sheet is of edition 1, which is for integer typed arrays only: "));
        assert_eq!(judge(&torn(2)).to_string(), "broken 25 2 0 1 -");
        for sheet in [&torn(2)[..], &[], &[1, 0, 3, 1, 1, 1]] {
            assert_eq!(besides(sheet), "");
        }
    }

    #[test]
    fn named_events_are_told() {
        let told = sentences(&torn(2), &judge(&torn(2)));
        assert!(told.ends_with(
            "(rule 25).\n  2 (reader): A3 read unordered at 0: 01 02\n  0 (writer): A1 write unordered at 0: 01 01\n  \
             1 (other): A2 write unordered at 0: 02 02\n"
        ));
    }

    #[test]
    fn every_class_has_words() {
        let known = (21..=26).map(Class::Broken).chain((1..=14).map(Class::Refused));
        for class in known.chain([Class::Orderly, Class::Unsettled, Class::Unreadable]) {
            assert!(!["A rule is broken.", "The sheet is refused."].contains(&meaning(class)), "{class}");
        }
        assert_eq!(Class::Broken(25).to_string(), "broken 25");
        assert_eq!(meaning(Class::Refused(11)), "A byte that was read has no row.");
    }
}

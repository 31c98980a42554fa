//! What a picture tells of a sheet besides its events: a verdict, or what was said of a list of its events.

use crate::check::Outcome;
use crate::list::List;
use crate::sentence;
use plimdrong::{why, Answer, Bar, BarInWords, By, Circle, Circles, KeptInWords, ListFault, Rule, Step};

pub struct Said {
    /// The line, the picture's heading.
    pub line: String,
    /// The same in sentences, for the description.
    pub sentences: String,
    /// Events from top to bottom, and which order that is.
    pub order: Vec<usize>,
    pub downwards: &'static str,
    /// The events that are named, each with the word in its box.
    pub roles: Vec<(u8, &'static str)>,
    /// Writer and reader of the rows that are named.
    pub rows: Vec<(u8, u8)>,
    /// Writer and reader of the rows that a kept bar is of.
    pub barred: Vec<(u8, u8)>,
    /// An event and one that it happens before, to be shown by a line,
    pub before: Vec<(u8, u8)>,
    /// and one that it stands before in every order, by a bar.
    pub forced: Vec<(u8, u8)>,
    /// The list in pieces, which of them are at fault.
    pub list: Vec<(String, bool)>,
    /// What is wrong, in lines: with the list, or why there is no order.
    pub faults: Vec<String>,
}

pub const AS_IN_THE_SHEET: &str = "Events from top to bottom as the sheet has them.";

impl Said {
    /// A verdict on a sheet of so many events; of one without an order the bars that leave none.
    pub fn of_sheet(sheet: &[u8], answer: &Answer, events: usize) -> Said {
        let reported = match answer {
            Answer::Consistent { order, .. } => placed(order, events),
            _ => None,
        };
        let downwards = match answer.is_consistent() {
            true => "Events from top to bottom in the reported order.",
            false => AS_IN_THE_SHEET,
        };
        let mut said = Said {
            line: answer.to_string(),
            sentences: answer.explain(),
            order: reported.unwrap_or_else(|| (0..events).collect()),
            downwards,
            roles: roles(answer),
            rows: rows(answer),
            barred: vec![],
            before: vec![],
            forced: vec![],
            list: vec![],
            faults: vec![],
        };
        if *answer == (Answer::Broken { rule: Rule::NoOrder }) {
            why(sheet).in_words(sheet).iter().for_each(|told| said.of_bars(told));
        }
        said
    }

    /// Why there is no order.
    fn of_bars(&mut self, KeptInWords { bars, circles, circle_lines }: &KeptInWords) {
        let fault = |told: &BarInWords| {
            let Bar { reader, writer, between } = told.bar;
            let between = format!("event {between} may not stand between events {writer} and {reader}");
            format!("bar {}: {between}, {}", told.bar, told.by())
        };
        self.faults.extend(bars.iter().take(BARS_SHOWN).map(fault));
        if bars.len() > BARS_SHOWN {
            self.faults.push(format!("and {} bars more, which plimdrong why tells", bars.len() - BARS_SHOWN));
        }
        self.roles = parts(bars.iter().map(|told| told.bar));
        self.barred = bars.iter().map(|told| (told.bar.writer, told.bar.reader)).collect();
        match circles {
            Circles::One(circle) => self.of_circle(circle),
            Circles::Either { events: (e, d), .. } => {
                let either = format!("no single circle: whichever of events {e} and {d} stands first, there is one");
                self.faults.push(either);
            }
            Circles::Choices => self.faults.push("no single circle: each choice that is left fails".to_string()),
        }
        bars.iter().for_each(|told| self.sentences += &format!(" Bar {}: {}", told.bar, told.sentence));
        self.sentences += &format!(" In an order with these bars: {}", circle_lines.join("; "));
    }

    fn of_circle(&mut self, circle: &Circle) {
        for Step { before, after, by } in &circle.steps {
            match by {
                By::Bar(_) => self.forced.push((*before, *after)),
                By::HappensBefore | By::Supposed => self.before.push((*before, *after)),
            }
        }
    }
}

/// Bars that a picture has room for.
const BARS_SHOWN: usize = 8;

/// The events of bars, each with all its parts in them.
fn parts(bars: impl Iterator<Item = Bar>) -> Vec<(u8, &'static str)> {
    let mut parts = [0; 256];
    for Bar { reader, writer, between } in bars {
        [reader, writer, between].iter().enumerate().for_each(|(i, &e)| parts[usize::from(e)] |= 1 << i);
    }
    let word = |part: u8| match part {
        1 => Some("reader"),
        2 => Some("writer"),
        3 => Some("reader, writer"),
        4 => Some("between"),
        5 => Some("reader, between"),
        6 => Some("writer, between"),
        7 => Some("reader, writer, between"),
        _ => None,
    };
    (0..=255).filter_map(|e| word(parts[usize::from(e)]).map(|word| (e, word))).collect()
}

/// Numbers of a list that a picture has room for: as many as the most events, and some.
const SHOWN: usize = 24;

impl Said {
    /// What the checker said of a list and of a sheet of so many events. A list that is no order is shown beside the events as
    /// the sheet has them.
    pub fn of_list(outcome: &Outcome, events: usize) -> Said {
        let mut said = match outcome.checked.of_the_sheet() {
            Some(answer) => Said::of_sheet(outcome.sheet, &answer, events),
            None => Said {
                line: outcome.checked.to_string(),
                sentences: String::new(),
                order: (0..events).collect(),
                downwards: AS_IN_THE_SHEET,
                roles: outcome.named().into_iter().map(|(role, event)| (event, role)).collect(),
                rows: vec![],
                barred: vec![],
                before: vec![],
                forced: vec![],
                list: vec![],
                faults: outcome.what_is_wrong().into_iter().collect(),
            },
        };
        if let Some(order) = placed(&outcome.list.bytes, events) {
            (said.order, said.downwards) = (order, "Events from top to bottom in the order of the list.");
        }
        said.sentences = outcome.sentence();
        let bytes = &outcome.list.bytes;
        let mut wrong: Vec<usize> = vec![];
        match outcome.fault() {
            Some(ListFault::BadNumber { index }) => wrong.push(index as usize),
            Some(ListFault::TooEarly { index }) => {
                wrong.push(index as usize);
                said.before = outcome.passed_over().zip(bytes.get(index as usize).copied()).into_iter().collect();
            }
            Some(ListFault::Barred { reader, writer, between, .. }) => {
                let named = [reader, writer, between];
                wrong.extend((0..bytes.len()).filter(|&i| named.contains(&bytes[i])));
                said.rows = vec![(writer, reader)];
            }
            Some(ListFault::WrongLength { .. }) | None => {}
        }
        said.list = pieces(outcome.list, &wrong);
        said
    }
}

/// A list's numbers as they are shown, the wrong ones marked; of a long one the front.
fn pieces(list: &List, wrong: &[usize]) -> Vec<(String, bool)> {
    let length = list.bytes.len();
    let piece = |i: usize| {
        let typed = list.typed(i);
        let shown = typed.get(..8).filter(|_| typed.len() > 9).map(|front| format!("{front}\u{2026}"));
        (shown.unwrap_or(typed), wrong.contains(&i))
    };
    let front = (0..length.min(SHOWN)).map(piece);
    let rest = match length {
        0 => Some("no numbers".to_string()),
        _ => (length > SHOWN).then(|| format!("\u{2026} ({length} numbers)")),
    };
    front.chain(rest.map(|rest| (rest, false))).collect()
}

/// A list as an order of so many events; nothing where it is none.
pub fn placed(list: &[u8], events: usize) -> Option<Vec<usize>> {
    let order: Vec<usize> = list.iter().map(|&e| e.into()).collect();
    let named = |e: usize| order.iter().filter(|&&d| d == e).count() == 1;
    (order.len() == events && (0..events).all(named)).then_some(order)
}

/// The events that an answer names, with the words that stand in their boxes.
fn roles(answer: &Answer) -> Vec<(u8, &'static str)> {
    let word = |role| match role {
        "event" => "named",
        "other" => "writer",
        role => role,
    };
    sentence::named(answer).into_iter().map(|(role, event)| (event, word(role))).collect()
}

/// The writers and the reader of the rows that an answer names.
fn rows(answer: &Answer) -> Vec<(u8, u8)> {
    match *answer {
        Answer::Broken { rule: Rule::Torn { reader, writer, other } } => vec![(writer, reader), (other, reader)],
        Answer::Broken { rule } => match rule.names() {
            [Some(reader), Some(writer), ..] => vec![(writer, reader)],
            _ => vec![],
        },
        _ => vec![],
    }
}

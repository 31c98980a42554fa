//! Answers in sentences.

use crate::{Answer, Checked, ListFault, Rule};
use std::fmt;

/// What a refusal's number means, and what to do about it.
#[derive(Clone, Copy, Debug, PartialEq, Eq)]
pub struct Refusal {
    pub meaning: &'static str,
    pub remedy: &'static str,
}

/// The meaning of a refusal's number; nothing for a number that no entry gives. The judge gives 1 to 14; 15 comes from
/// [`write_with`](crate::write_with) and [`table_with`](crate::table_with), 16 from [`why_with`](crate::why_with).
pub fn refusal(number: u8) -> Option<Refusal> {
    let (meaning, remedy) = match number {
        1 => ("The sheet is over 4,096 bytes.", "Record a shorter execution, or cut what follows the last field."),
        2 => (
            "A field is cut short: its tag and length, or the value that the length promises, run past the sheet's end.",
            "Check the field's two length bytes (most significant first) and that the whole sheet was written.",
        ),
        3 => (
            "A tag is not allowed here: unknown, lower than the one before, a second head, or no head in front.",
            "Begin with one head (tag 1), then all events (2), all rows (3), all pairs (4).",
        ),
        4 => (
            "A field's length does not fit it.",
            "A head and a row have 3 bytes, a pair 2; an event 5 (at edition 2, with its tear byte, 6) and its data: the \
             width for a read or a write, twice the width for a read-modify-write, none for a marker.",
        ),
        5 => (
            "The head's content is wrong.",
            "The edition is 1 or 2, agents are 1 to 8, the memory has 1 to 64 bytes.",
        ),
        6 => (
            "An event's content is wrong.",
            "Check agent, kind, mode, start and width: inits (agent 0, write, mode 0) come first and are disjoint; \
             others have an agent up to the head's count, width 1, 2, 4 or 8, in mode 2 a start divisible by the width; \
             a read-modify-write has mode 2; a marker has mode 2, start 0, width 0; all end within the memory. At edition 2 \
             the tear byte is 1 for reads, writes and read-modify-writes in mode 2, 0 or 1 for those in mode 1 of width 1, 2 \
             or 4 whose start is divisible by the width, 0 for all else.",
        ),
        7 => (
            "A row's content is wrong.",
            "The reader reads and covers the address, the writer is another event that writes and covers it, and rows \
             rise strictly by reader and address.",
        ),
        8 => (
            "A pair's content is wrong.",
            "Both are markers, of different agents, and pairs rise strictly.",
        ),
        9 => (
            "Too many events or pairs: a fifth init, a 19th other event or a 33rd pair.",
            "Record a shorter execution; several inits side by side can be one.",
        ),
        10 => ("No event reads, so there is nothing to judge.", "Check that the reads were recorded."),
        11 => (
            "A byte that was read has no row.",
            "Give each byte of each read and read-modify-write exactly one row; the place is the event's tag.",
        ),
        12 => (
            "The scratch is too short.",
            "Lend the larger of 1 and 2^n / 8 bytes for n events that are not inits; 32,768 are enough for every sheet.",
        ),
        13 => (
            "The order buffer is shorter than the number of events.",
            "Lend a byte for each event; 22 are enough for every sheet.",
        ),
        14 => (
            "An agent that the head promises has no event.",
            "Check that the log of every agent was recorded and written, or let the head count only the agents that ran; \
             a marker is an event.",
        ),
        15 => (
            "A buffer that was lent to be filled is too short.",
            "Lend 4,096 bytes for a sheet; for a table 3 (head), 176 (events), 544 (data), 432 (rows) and 64 (pairs) are \
             enough.",
        ),
        16 => (
            "The buffer for the bars cannot hold the kept list.",
            "Lend three bytes for each bar; PLIMDRONG_MAX_BARS of the header, MAX_BARS in Rust, are enough for every sheet.",
        ),
        _ => return None,
    };
    Some(Refusal { meaning, remedy })
}

/// The same for a table, where the words of a sheet do not fit it: there are no fields yet, and no places.
pub(crate) fn unwritable(number: u8) -> Option<Refusal> {
    let (meaning, remedy) = match number {
        1 => ("Its sheet would be over 4,096 bytes.", "Record a shorter execution; look for data that is too long."),
        4 => (
            "Its data has the wrong length.",
            "A read and a write have as many data bytes as their width says, a read-modify-write twice as many (seen, then \
             written), a marker none.",
        ),
        11 => (
            "A byte that was read has no row.",
            "Give each byte of each read and read-modify-write exactly one row.",
        ),
        5..=10 | 14 => return refusal(number),
        _ => return None,
    };
    Some(Refusal { meaning, remedy })
}

impl Answer {
    /// The answer in sentences, for people.
    pub fn explain(&self) -> String {
        match self {
            Answer::Refused { number, place } => {
                let Refusal { meaning, remedy } = refusal(*number).expect("a number that the judge gives");
                match number {
                    1 | 12 | 13 => format!("{meaning} {remedy}"),
                    10 | 14 => format!("{meaning} {remedy} The sheet has {place} bytes."),
                    _ => format!("{meaning} {remedy} See byte {place} of the sheet."),
                }
            }
            Answer::Broken { rule } => format!("The memory model forbids this execution: {rule}."),
            Answer::Consistent { order, pair } => {
                let order: Vec<String> = order.iter().map(|e| e.to_string()).collect();
                let order = order.join(", ");
                match pair {
                    None => format!(
                        "The memory model allows this execution, and it is orderly: no two events are an unsettled \
                         pair. The first order that meets the rules is {order}."
                    ),
                    Some((e, d)) => format!(
                        "The memory model allows this execution, but events {e} and {d} are an unsettled pair: they \
                         overlap, one or both write, neither happens before the other, and they are not both \
                         sequentially consistent with equal ranges. The first order that meets the rules is {order}."
                    ),
                }
            }
        }
    }
}

impl Checked {
    /// The answer in sentences, for people. [`Checked::explain_list`] names more, by the sheet and the list.
    pub fn explain(&self) -> String {
        if let Some(answer) = self.of_the_sheet() {
            return answer.explain();
        }
        match self {
            Checked::NotAccepted { fault } => format!("{fault} {}", fault.remedy()),
            _ => {
                "The list names every event once and its order meets the rules: the memory model allows this execution."
                    .to_string()
            }
        }
    }
}

impl ListFault {
    /// What to do about it.
    pub fn remedy(&self) -> &'static str {
        match self {
            ListFault::WrongLength { .. } => "Name every event of the sheet once, inits and markers too.",
            ListFault::BadNumber { .. } => {
                "Name every event of the sheet once; events are numbered from 0 as they stand in the sheet, inits first."
            }
            ListFault::TooEarly { .. } => {
                "Check that the list is of this execution, and that each agent's events, inits, rows that synchronise and \
                 pairs stand in it in their order. Another list may be accepted: judge the sheet to see whether one is."
            }
            ListFault::Barred { .. } => {
                "Check that the list is of this execution, and that the row names the right write. Another list may be \
                 accepted: judge the sheet to see whether one is."
            }
        }
    }
}

/// The fault in a sentence.
impl fmt::Display for ListFault {
    fn fmt(&self, f: &mut fmt::Formatter) -> fmt::Result {
        match self {
            ListFault::WrongLength { length } => {
                write!(f, "The list's length, {length}, is not the number of the sheet's events.")
            }
            ListFault::BadNumber { index } => {
                write!(f, "The number at index {index} of the list is no event of the sheet, or stands before it already.")
            }
            ListFault::TooEarly { index } => {
                write!(f, "The event at index {index} of the list stands before one that happens before it.")
            }
            ListFault::Barred { reader, writer, between, address } => write!(
                f,
                "Event {between}, an sc write, stands between event {writer} and event {reader}, which read byte {address} \
                 from event {writer}."
            ),
        }
    }
}

/// The rule in words, with its events.
impl fmt::Display for Rule {
    fn fmt(&self, f: &mut fmt::Formatter) -> fmt::Result {
        match self {
            Rule::ByteDiffers { reader, writer, address } => write!(
                f,
                "event {reader} saw at byte {address} another value than event {writer}, its writer there, wrote (rule 21)"
            ),
            Rule::BeforeItself { event } => write!(f, "event {event} happens before itself (rule 22)"),
            Rule::ReadsLater { reader, writer, address } => write!(
                f,
                "event {reader} read byte {address} from event {writer}, but happens before it (rule 23)"
            ),
            Rule::Overwritten { reader, writer, between, address } => write!(
                f,
                "event {reader} read byte {address} from event {writer}, but event {between} writes that byte too, \
                 happens after event {writer} and before event {reader} (rule 24)"
            ),
            Rule::Torn { reader, writer, other } => write!(
                f,
                "event {reader} has bytes from both event {writer} and event {other}, though all three are tear-free \
                 with the same range (rule 25)"
            ),
            Rule::NoOrder => write!(f, "no total order of its events meets the rules (rule 26)"),
        }
    }
}

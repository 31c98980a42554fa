//! The answer and its 64-bit word.

use crate::MAX_EVENTS;
use std::fmt;

/// What the judge says of a sheet. Its `Display` is the report line.
#[derive(Clone, Debug, PartialEq, Eq)]
pub enum Answer {
    /// The sheet is not well-formed, or a buffer is too short. [`refusal`](crate::refusal) tells what the number means.
    Refused {
        /// 1 to 14.
        number: u8,
        /// The sheet's byte, counted from 0, that the refusal points to.
        place: u32,
    },
    /// The execution breaks a rule of the memory model.
    Broken {
        /// The first rule that is broken, with the events that break it.
        rule: Rule,
    },
    /// The execution is one that the memory model allows.
    Consistent {
        /// Of all orders that meet the rules the first, compared event number by event number.
        order: Order,
        /// The lowest unsettled pair; orderly if there is none.
        pair: Option<(u8, u8)>,
    },
}

/// A broken rule and the events (by number) and address that it names.
#[derive(Clone, Copy, Debug, PartialEq, Eq)]
pub enum Rule {
    /// 21: the byte seen differs from the byte its writer wrote.
    ByteDiffers { reader: u8, writer: u8, address: u8 },
    /// 22: an event happens before itself.
    BeforeItself { event: u8 },
    /// 23: in a row, the reader happens before the writer.
    ReadsLater { reader: u8, writer: u8, address: u8 },
    /// 24: in a row, another write of that byte happens between writer and reader.
    Overwritten { reader: u8, writer: u8, between: u8, address: u8 },
    /// 25: a tear-free read has bytes from two tear-free writes of the same range.
    Torn { reader: u8, writer: u8, other: u8 },
    /// 26: no total order meets the rules.
    NoOrder,
}

impl Rule {
    /// The rule's number, 21 to 26.
    pub fn number(&self) -> u8 {
        match self {
            Rule::ByteDiffers { .. } => 21,
            Rule::BeforeItself { .. } => 22,
            Rule::ReadsLater { .. } => 23,
            Rule::Overwritten { .. } => 24,
            Rule::Torn { .. } => 25,
            Rule::NoOrder => 26,
        }
    }

    /// The four names of the report line: reader (or event), writer, the event between, address.
    pub fn names(&self) -> [Option<u8>; 4] {
        match *self {
            Rule::ByteDiffers { reader, writer, address } => [Some(reader), Some(writer), None, Some(address)],
            Rule::BeforeItself { event } => [Some(event), None, None, None],
            Rule::ReadsLater { reader, writer, address } => [Some(reader), Some(writer), None, Some(address)],
            Rule::Overwritten { reader, writer, between, address } => {
                [Some(reader), Some(writer), Some(between), Some(address)]
            }
            Rule::Torn { reader, writer, other } => [Some(reader), Some(writer), Some(other), None],
            Rule::NoOrder => [None; 4],
        }
    }

    pub(crate) fn from_names(number: u8, names: [u8; 4]) -> Option<Rule> {
        let names = names.map(|n| (n != 255).then_some(n));
        match (number, names) {
            (21, [Some(reader), Some(writer), None, Some(address)]) => {
                Some(Rule::ByteDiffers { reader, writer, address })
            }
            (22, [Some(event), None, None, None]) => Some(Rule::BeforeItself { event }),
            (23, [Some(reader), Some(writer), None, Some(address)]) => {
                Some(Rule::ReadsLater { reader, writer, address })
            }
            (24, [Some(reader), Some(writer), Some(between), Some(address)]) => {
                Some(Rule::Overwritten { reader, writer, between, address })
            }
            (25, [Some(reader), Some(writer), Some(other), None]) => Some(Rule::Torn { reader, writer, other }),
            (26, [None, None, None, None]) => Some(Rule::NoOrder),
            _ => None,
        }
    }
}

/// A total order of a sheet's events, by their numbers.
#[derive(Clone, Copy, PartialEq, Eq)]
pub struct Order {
    events: [u8; MAX_EVENTS],
    length: u8,
}

impl Order {
    /// The order at the front of a buffer that held 255 in every byte: it ends at the first 255.
    fn ended_by_255(buffer: &[u8]) -> Option<Order> {
        let length = buffer.iter().position(|&e| e == 255).unwrap_or(buffer.len());
        let mut events = [255; MAX_EVENTS];
        events.get_mut(..length)?.copy_from_slice(&buffer[..length]);
        Some(Order { events, length: length as u8 })
    }
}

impl std::ops::Deref for Order {
    type Target = [u8];
    fn deref(&self) -> &[u8] {
        &self.events[..self.length as usize]
    }
}

impl fmt::Debug for Order {
    fn fmt(&self, f: &mut fmt::Formatter) -> fmt::Result {
        fmt::Debug::fmt(&**self, f)
    }
}

impl Answer {
    /// The answer of a word and the order buffer after it, every byte of which was 255 before the call.
    ///
    /// The word is taken apart as the header's macros do it: kind and number are a byte each, and bits 48 and up are not
    /// looked at. Nothing for an unknown kind, that is one other than 1, 2 and 3, and for a number or names that its kind
    /// does not have.
    ///
    /// ```
    /// use plimdrong::Answer;
    ///
    /// let word = (1 << 40) + (11 << 32) + 15;
    /// let refused = Some(Answer::Refused { number: 11, place: 15 });
    /// assert_eq!(Answer::from_word(word, &[]), refused);
    /// assert_eq!(Answer::from_word(word + (1 << 48), &[]), refused);
    /// assert_eq!(Answer::from_word(4 << 40, &[]), None);
    /// ```
    pub fn from_word(word: u64, order: &[u8]) -> Option<Answer> {
        let kind = (word >> 40) as u8;
        let number = (word >> 32) as u8;
        let low = word as u32;
        let names = low.to_be_bytes();
        match (kind, number) {
            (1, 1..=14) => Some(Answer::Refused { number, place: low }),
            (2, _) => Rule::from_names(number, names).map(|rule| Answer::Broken { rule }),
            (3, 0) if names == [255; 4] => Some(Answer::Consistent { order: Order::ended_by_255(order)?, pair: None }),
            (3, 1) if names[2..] == [255; 2] && !names[..2].contains(&255) => {
                Some(Answer::Consistent { order: Order::ended_by_255(order)?, pair: Some((names[0], names[1])) })
            }
            _ => None,
        }
    }

    /// Whether the memory model allows the execution.
    pub fn is_consistent(&self) -> bool {
        matches!(self, Answer::Consistent { .. })
    }
}

/// The length of the longest report line.
const LINE: usize = "consistent unsettled 254 254 then".len() + 4 * MAX_EVENTS;

/// A report line as it is put together. The longest, `consistent unsettled 254 254 then` and a number of three digits for each
/// event, comes of no sheet, but a caller's buffer may say it.
struct Line {
    bytes: [u8; LINE],
    length: usize,
}

impl Line {
    fn put(&mut self, text: &str) {
        self.bytes[self.length..self.length + text.len()].copy_from_slice(text.as_bytes());
        self.length += text.len();
    }

    /// A space and a number.
    fn number(&mut self, mut n: u32) {
        let mut digits = [b'0'; 11];
        let mut at = digits.len();
        loop {
            at -= 1;
            digits[at] += (n % 10) as u8;
            n /= 10;
            if n == 0 {
                break;
            }
        }
        digits[at - 1] = b' ';
        let written = &digits[at - 1..];
        self.bytes[self.length..self.length + written.len()].copy_from_slice(written);
        self.length += written.len();
    }

    fn of(answer: &Answer) -> Line {
        let mut line = Line { bytes: [0; LINE], length: 0 };
        match answer {
            Answer::Refused { number, place } => {
                line.put("refused");
                line.number(u32::from(*number));
                line.put(" at");
                line.number(*place);
            }
            Answer::Broken { rule } => {
                line.put("broken");
                line.number(u32::from(rule.number()));
                for name in rule.names() {
                    match name {
                        Some(name) => line.number(u32::from(name)),
                        None => line.put(" -"),
                    }
                }
            }
            Answer::Consistent { order, pair } => {
                match pair {
                    None => line.put("consistent orderly"),
                    Some((e, d)) => {
                        line.put("consistent unsettled");
                        line.number(u32::from(*e));
                        line.number(u32::from(*d));
                    }
                }
                line.put(" then");
                order.iter().for_each(|&event| line.number(u32::from(event)));
            }
        }
        line
    }
}

/// The report line, without its newline.
impl fmt::Display for Answer {
    fn fmt(&self, f: &mut fmt::Formatter) -> fmt::Result {
        // put together first: a sheet is judged in less time than a formatter takes for its numbers
        let line = Line::of(self);
        f.write_str(std::str::from_utf8(&line.bytes[..line.length]).unwrap_or_default())
    }
}

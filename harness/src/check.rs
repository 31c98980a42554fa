//! The checker: a list of event numbers against a sheet, and its 64-bit word.

use crate::{Answer, Rule, Table};
use std::fmt;

/// What the checker says of a sheet and a list. Its `Display` is one line: `accepted`, `not accepted 1 length 3`, `not
/// accepted 2 at 4`, `not accepted 3 at 0`, `not accepted 4 R W V A`; `refused ..` and `broken ..` as [`Answer`] prints them.
#[derive(Clone, Copy, Debug, PartialEq, Eq)]
pub enum Checked {
    /// The sheet is not well-formed. [`refusal`](crate::refusal) tells what the number means.
    Refused {
        /// 1 to 11, or 14. There is no scratch and no order buffer, so 12 and 13 never come.
        number: u8,
        /// The sheet's byte, counted from 0, that the refusal points to.
        place: u32,
    },
    /// The execution breaks one of the rules 21 to 25, so no list is looked at.
    Broken {
        /// The first rule that is broken, with the events that break it. It is never 26.
        rule: Rule,
    },
    /// The list names every event once, and its order meets the rules.
    Accepted,
    /// It does not.
    NotAccepted {
        /// The first fault.
        fault: ListFault,
    },
}

/// Why a list is not accepted. Each is tested over the whole list, or all rows, before the next; an index counts from 0.
#[derive(Clone, Copy, Debug, PartialEq, Eq)]
pub enum ListFault {
    /// 1: the list has not as many numbers as the sheet has events.
    WrongLength {
        /// The list's length; of one over 2^32 - 1 bytes, 2^32 - 1.
        length: u32,
    },
    /// 2: the first number that is out of range or repeated.
    BadNumber {
        /// Its index in the list; of a repeated one, where it stands for the second time.
        index: u32,
    },
    /// 3: the first event that stands before one that happens before it.
    TooEarly {
        /// The index in the list of the event that stands too early. [`happens_before_it`] gives the other one.
        index: u32,
    },
    /// 4: of the first row that has one, the lowest sc write that stands after the writer and before the reader, where
    /// the rules of the memory model bar it.
    Barred {
        /// The row's reader,
        reader: u8,
        /// and its writer.
        writer: u8,
        /// The write that stands between them in the list.
        between: u8,
        /// The row's byte.
        address: u8,
    },
}

impl ListFault {
    /// The fault's number, 1 to 4.
    pub fn number(&self) -> u8 {
        match self {
            ListFault::WrongLength { .. } => 1,
            ListFault::BadNumber { .. } => 2,
            ListFault::TooEarly { .. } => 3,
            ListFault::Barred { .. } => 4,
        }
    }
}

impl Checked {
    /// What a word of [`check_with`] says.
    ///
    /// The word is taken apart as [`Answer::from_word`] does it: bits 48 and up are not looked at. Nothing for a kind, a
    /// number or names that the checker does not give: 12, 13 and 26 are none of its answers.
    ///
    /// ```
    /// use plimdrong::{Checked, ListFault};
    ///
    /// let early = Checked::NotAccepted { fault: ListFault::TooEarly { index: 2 } };
    /// assert_eq!(Checked::from_word((7 << 40) + (3 << 32) + 2), Some(early));
    /// assert_eq!(Checked::from_word(6 << 40), Some(Checked::Accepted));
    /// assert_eq!(Checked::from_word((6 << 40) + 1), None);
    /// assert_eq!(Checked::from_word((1 << 40) + (12 << 32)), None);
    /// ```
    pub fn from_word(word: u64) -> Option<Checked> {
        let (kind, number, low) = ((word >> 40) as u8, (word >> 32) as u8, word as u32);
        let fault = match (kind, number) {
            (1, 1..=11 | 14) => return Some(Checked::Refused { number, place: low }),
            (2, 21..=25) => return Rule::from_names(number, low.to_be_bytes()).map(|rule| Checked::Broken { rule }),
            (6, 0) if low == 0 => return Some(Checked::Accepted),
            (7, 1) => ListFault::WrongLength { length: low },
            (7, 2) => ListFault::BadNumber { index: low },
            (7, 3) => ListFault::TooEarly { index: low },
            (7, 4) if !low.to_be_bytes().contains(&255) => {
                let [reader, writer, between, address] = low.to_be_bytes();
                ListFault::Barred { reader, writer, between, address }
            }
            _ => return None,
        };
        Some(Checked::NotAccepted { fault })
    }

    /// Whether the list is accepted. The memory model then allows the execution.
    pub fn is_accepted(&self) -> bool {
        matches!(self, Checked::Accepted)
    }

    /// The judge's answer for the sheet, where the list was not looked at: refused, or broken by 21 to 25.
    pub fn of_the_sheet(&self) -> Option<Answer> {
        match *self {
            Checked::Refused { number, place } => Some(Answer::Refused { number, place }),
            Checked::Broken { rule } => Some(Answer::Broken { rule }),
            Checked::Accepted | Checked::NotAccepted { .. } => None,
        }
    }
}

/// The line, without its newline.
impl fmt::Display for Checked {
    fn fmt(&self, f: &mut fmt::Formatter) -> fmt::Result {
        if let Some(answer) = self.of_the_sheet() {
            return answer.fmt(f);
        }
        let Checked::NotAccepted { fault } = self else { return write!(f, "accepted") };
        write!(f, "not accepted {} ", fault.number())?;
        match fault {
            ListFault::WrongLength { length } => write!(f, "length {length}"),
            ListFault::BadNumber { index } | ListFault::TooEarly { index } => write!(f, "at {index}"),
            ListFault::Barred { reader, writer, between, address } => {
                write!(f, "{reader} {writer} {between} {address}")
            }
        }
    }
}

extern "C" {
    // crates/plimdrong: a byte slice passes as a pointer and then a length
    fn plimdrong_check(sheet: *const u8, sheet_len: usize, list: *const u8, list_len: usize) -> u64;
}

/// The exported checker: the answer as a 64-bit word. The list has a byte for each event number.
///
/// Kind 1, refused, and kind 2, broken by 21 to 25: as the judge answers for the sheet. Kind 6: accepted. Kind 7: not
/// accepted, the number says why ([`ListFault`]). [`Checked::from_word`] reads the word.
pub fn check_with(sheet: &[u8], list: &[u8]) -> u64 {
    // SAFETY: the function reads only the two slices, which the borrows give it for the call, and writes nothing. Its
    // contract asks for nothing more.
    unsafe { plimdrong_check(sheet.as_ptr(), sheet.len(), list.as_ptr(), list.len()) }
}

/// Whether a list of event numbers, an engine's own log for one, is an order of the sheet's events that meets the rules.
///
/// ```
/// use plimdrong::{check, judge, Answer, Checked, ListFault, Table};
///
/// // two agents write byte 0 and a third reads what the first wrote, all sc
/// let sheet = Table::parse(
///     "head 2 3 1
///      init at 0: 00
///      A1 write sc at 0: 01
///      A2 write sc at 0: 02
///      A3 read sc at 0: 01
///      row 3 0 1",
/// );
/// let sheet = sheet.unwrap().sheet().unwrap();
/// assert_eq!(check(&sheet, &[0, 2, 1, 3]), Checked::Accepted);
/// assert_eq!(check(&sheet, &[0, 1, 2]).to_string(), "not accepted 1 length 3");
/// assert_eq!(check(&sheet, &[0, 1, 1, 4]).to_string(), "not accepted 2 at 2");
/// assert_eq!(check(&sheet, &[0, 3, 2, 1]).to_string(), "not accepted 3 at 1");
/// let fault = ListFault::Barred { reader: 3, writer: 1, between: 2, address: 0 };
/// assert_eq!(check(&sheet, &[0, 1, 2, 3]), Checked::NotAccepted { fault });
///
/// // the judge's own order is accepted
/// let Answer::Consistent { order, .. } = judge(&sheet) else { panic!() };
/// assert!(check(&sheet, &order).is_accepted());
/// ```
pub fn check(sheet: &[u8], list: &[u8]) -> Checked {
    let word = check_with(sheet, list);
    Checked::from_word(word)
        .unwrap_or_else(|| panic!("{word:#x} is no answer: the linked judge is of another version than this crate"))
}

/// For an event that stands too early ([`ListFault::TooEarly`]): the index in the list of the first event behind it that
/// happens before it. Nothing where the checker does not say so of this sheet and list.
///
/// ```
/// # use plimdrong::{happens_before_it, Table};
/// # let text = "head 1 1 1\ninit at 0: 00\nA1 write sc at 0: 01\nA1 read sc at 0: 01\nrow 2 0 1";
/// # let sheet = Table::parse(text).unwrap().sheet().unwrap();
/// // an init, then a write and a read of one agent: the read happens after both
/// assert_eq!(happens_before_it(&sheet, &[2, 1, 0]), Some(1));
/// assert_eq!(happens_before_it(&sheet, &[0, 2, 1]), Some(2));
/// assert_eq!(happens_before_it(&sheet, &[0, 1, 2]), None);
/// ```
pub fn happens_before_it(sheet: &[u8], list: &[u8]) -> Option<usize> {
    let early = too_early(sheet, list)?;
    (early + 1..list.len()).find(|&i| !placed_without(sheet, list, list[i]).contains(&list[early]))
}

fn too_early(sheet: &[u8], list: &[u8]) -> Option<usize> {
    match check(sheet, list) {
        Checked::NotAccepted { fault: ListFault::TooEarly { index } } => Some(index as usize),
        _ => None,
    }
}

/// All events of the list that can be placed while `held` is not: each when all that happen before it are placed. Those that
/// are left out are `held` and what it happens before. The checker itself is asked, so there is no second happens-before.
pub(crate) fn placed_without(sheet: &[u8], list: &[u8], held: u8) -> Vec<u8> {
    let mut placed: Vec<u8> = vec![];
    loop {
        let before = placed.len();
        for &next in list {
            if next == held || placed.contains(&next) {
                continue;
            }
            let behind = list.iter().filter(|e| **e != next && !placed.contains(e));
            let tried: Vec<u8> = placed.iter().chain([&next]).chain(behind).copied().collect();
            if too_early(sheet, &tried).is_none_or(|early| early > placed.len()) {
                placed.push(next);
            }
        }
        if placed.len() == before {
            return placed;
        }
    }
}

impl Checked {
    /// The answer in sentences that name the events: for the sheet and the list that were checked.
    ///
    /// ```
    /// # use plimdrong::{check, Table};
    /// # let text = "head 1 1 1\ninit at 0: 00\nA1 write sc at 0: 01\nA1 read sc at 0: 01\nrow 2 0 1";
    /// # let sheet = Table::parse(text).unwrap().sheet().unwrap();
    /// let says = |list: &[u8]| check(&sheet, list).explain_list(&sheet, list);
    /// assert!(says(&[0, 1]).starts_with("The list has 2 numbers, the sheet has 3 events."));
    /// assert!(says(&[0, 1, 9]).starts_with("The list has 9 at index 2, and the sheet has 3 events, 0 to 2."));
    /// assert!(says(&[0, 1, 0]).starts_with("The list has 0 at index 2, and at index 0 already."));
    /// assert!(says(&[0, 2, 1])
    ///     .starts_with("Event 2 stands at index 1, before event 1 at index 2, which happens before it."));
    /// ```
    pub fn explain_list(&self, sheet: &[u8], list: &[u8]) -> String {
        self.in_words(sheet, list).unwrap_or_else(|| self.explain())
    }

    /// Nothing where there is no more to say than [`Checked::explain`] does, or the sheet or the list is another one.
    fn in_words(&self, sheet: &[u8], list: &[u8]) -> Option<String> {
        let Checked::NotAccepted { fault } = self else { return None };
        let events = Table::of(sheet).ok()?.events.len();
        let what = match *fault {
            ListFault::WrongLength { .. } => {
                format!("The list has {}, the sheet has {}.", count(list.len(), "number"), count(events, "event"))
            }
            ListFault::BadNumber { index } => {
                let index = index as usize;
                let number = *list.get(index)?;
                let before = list[..index].iter().position(|e| *e == number);
                match before {
                    _ if number as usize >= events => format!(
                        "The list has {number} at index {index}, and the sheet has {}, 0 to {}.",
                        count(events, "event"),
                        events - 1
                    ),
                    before => format!("The list has {number} at index {index}, and at index {} already.", before?),
                }
            }
            ListFault::TooEarly { index } => {
                let early = *list.get(index as usize)?;
                let other = happens_before_it(sheet, list)?;
                format!(
                    "Event {early} stands at index {index}, before event {} at index {other}, which happens before it.",
                    list[other]
                )
            }
            ListFault::Barred { .. } => return None,
        };
        Some(format!("{what} {}", fault.remedy()))
    }
}

fn count(n: usize, what: &str) -> String {
    format!("{n} {what}{}", if n == 1 { "" } else { "s" })
}

//! 02 §5, "Orders from the engine's own log": a list of event numbers against a sheet.

use crate::answer::Answer;
use crate::judge::Relations;
use crate::sheet::{read, Execution, Row};

/// What the check answers.
#[derive(Clone, Debug, PartialEq, Eq)]
pub enum Checked {
    /// "A sheet that is refused or broken by 21 to 25 is answered so first, as 01 does".
    Sheet(Answer),
    /// "accept exactly when the list names every event once and the order meets the rules of 01"
    Accepted,
    /// "Otherwise give the first fault".
    NotAccepted(Fault),
}

#[derive(Clone, Copy, Debug, PartialEq, Eq)]
pub enum Fault {
    /// The list's length.
    WrongLength(usize),
    /// The index in the list.
    BadNumber(usize),
    /// The index in the list.
    TooEarly(usize),
    /// The row, and V.
    Barred(Row, usize),
}

/// A list's places of the events: the index in the list of each.
pub fn places(list: &[u8]) -> Vec<usize> {
    (0..list.len()).map(|e| list.iter().position(|&there| there as usize == e).expect("every event is named")).collect()
}

/// "given a sheet and a lent list of event numbers"
pub fn check(sheet: &[u8], list: &[u8]) -> Checked {
    let x = match read(sheet) {
        Ok(x) => x,
        Err((number, place)) => return Checked::Sheet(Answer::Refused { number, place }),
    };
    let m = Relations::of(&x);
    if let Some(broken) = m.first_broken_rule() {
        return Checked::Sheet(broken);
    }
    match first_fault(&x, &m, list) {
        None => Checked::Accepted,
        Some(fault) => Checked::NotAccepted(fault),
    }
}

/// The first fault of a list, for an execution that is not broken by 21 to 25.
pub fn first_fault(x: &Execution, m: &Relations, list: &[u8]) -> Option<Fault> {
    let n = x.events.len();
    // "wrong length"
    if list.len() != n {
        return Some(Fault::WrongLength(list.len()));
    }
    // "then the first place with a number out of range or repeated"; a repeated one at its second occurrence
    for i in 0..n {
        if list[i] as usize >= n || list[..i].contains(&list[i]) {
            return Some(Fault::BadNumber(i));
        }
    }
    // "then the first place where an event comes before one that happens before it"; the place of the one too early
    for i in 0..n {
        for j in i + 1..n {
            if m.before[list[j] as usize][list[i] as usize] {
                return Some(Fault::TooEarly(i));
            }
        }
    }
    // "then the first row and lowest V that break (a), (b) or (c)": V "placed after W and before R"
    let place = places(list);
    for row in &x.rows {
        for v in 0..n {
            if place[row.writer] < place[v] && place[v] < place[row.reader] && m.bar(row, v) {
                return Some(Fault::Barred(*row, v));
            }
        }
    }
    None
}

impl Fault {
    pub fn number(&self) -> u8 {
        match self {
            Fault::WrongLength(_) => 1,
            Fault::BadNumber(_) => 2,
            Fault::TooEarly(_) => 3,
            Fault::Barred(..) => 4,
        }
    }
}

impl Checked {
    /// The word: kind 1 and 2 as the judge's; kind 6 accepted, the rest 0; kind 7 not accepted, the number, and the list's
    /// length (at most 2^32 - 1 is said), the index in the list, or R, W, V, A as four bytes, the first most significant.
    pub fn word(&self) -> u64 {
        let fault = match self {
            Checked::Sheet(answer) => return answer.word(),
            Checked::Accepted => return 6 * (1 << 40),
            Checked::NotAccepted(fault) => fault,
        };
        let low = match *fault {
            Fault::WrongLength(length) => (length as u64).min((1 << 32) - 1),
            Fault::BadNumber(index) | Fault::TooEarly(index) => index as u64,
            Fault::Barred(row, v) => {
                let [r, w, v, a] = [row.reader, row.writer, v, row.address].map(|name| name as u64);
                r * (1 << 24) + w * (1 << 16) + v * (1 << 8) + a
            }
        };
        7 * (1 << 40) + fault.number() as u64 * (1 << 32) + low
    }

    /// The line: the judge's for a sheet that is refused or broken; else `accepted`, `not accepted 1 length L`, `not
    /// accepted 2 at I`, `not accepted 3 at I`, `not accepted 4 R W V A`.
    pub fn line(&self) -> String {
        match self {
            Checked::Sheet(answer) => answer.line(),
            Checked::Accepted => "accepted".to_string(),
            Checked::NotAccepted(Fault::WrongLength(length)) => format!("not accepted 1 length {length}"),
            Checked::NotAccepted(Fault::BadNumber(index)) => format!("not accepted 2 at {index}"),
            Checked::NotAccepted(Fault::TooEarly(index)) => format!("not accepted 3 at {index}"),
            Checked::NotAccepted(Fault::Barred(row, v)) => {
                format!("not accepted 4 {} {} {v} {}", row.reader, row.writer, row.address)
            }
        }
    }
}

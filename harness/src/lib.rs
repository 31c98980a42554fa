//! Recorded executions ("sheets") judged against the ECMAScript memory model, by a judge that is proved.
//!
//! A sheet describes one recorded execution: its events, the write behind each byte read, and extra synchronisation.
//! The judge answers one of three things: the sheet is refused, the execution breaks a rule, or it is consistent; then an
//! order of its events is given, and the lowest unsettled pair if it is not orderly.
//!
//! ```
//! use plimdrong::{judge, Answer};
//!
//! // one agent; event 0 sets the one byte of memory to 0, event 1 of agent 1 reads it and sees 0
//! let sheet = [
//!     1, 0, 3, 1, 1, 1, // head: edition 1, 1 agent, 1 byte of memory
//!     2, 0, 6, 0, 2, 0, 0, 1, 0, // event 0: agent 0, write, init, start 0, width 1, data 0
//!     2, 0, 6, 1, 1, 1, 0, 1, 0, // event 1: agent 1, read, unordered, start 0, width 1, saw 0
//!     3, 0, 3, 1, 0, 0, // row: event 1 read byte 0 from event 0
//! ];
//! let answer = judge(&sheet);
//! assert_eq!(answer.to_string(), "consistent orderly then 0 1");
//! assert!(matches!(answer, Answer::Consistent { pair: None, .. }));
//!
//! // without its row the sheet is refused: no row is guessed
//! let answer = judge(&sheet[..24]);
//! assert_eq!(answer, Answer::Refused { number: 11, place: 15 });
//! assert!(answer.explain().starts_with("A byte that was read has no row."));
//! ```
//!
//! [`judge`] brings its own buffers; [`Judge`] keeps them for many sheets; [`judge_with`] is the exported function
//! itself, over buffers of any length. The judge never allocates, and every byte string gets an answer.
//!
//! Sheets are written from a [`Table`], which a program fills in or a person types:
//!
//! ```
//! use plimdrong::{judge, Table};
//!
//! let table = Table::parse(
//!     "head 1 1 1
//!      init at 0: 00
//!      A1 read unordered at 0: 00
//!      row 1 0 0",
//! );
//! let sheet = table.unwrap().sheet().unwrap();
//! assert_eq!(judge(&sheet).to_string(), "consistent orderly then 0 1");
//! ```
//!
//! A sheet is of edition 1 or 2 ([`Head::edition`]). Edition 2 says of each event whether it may tear, as an access through a
//! Float32Array or a DataView may ([`Event::may_tear`]), and can always be recorded with; edition 1 is for integer typed
//! arrays only.
//!
//! An order from an engine's own log is checked against its sheet by [`check`]: it is accepted where it names every event
//! once and meets the rules, else the first fault is told.
//!
//! ```
//! use plimdrong::{check, Table};
//!
//! let table = Table::parse("head 1 1 1\ninit at 0: 00\nA1 read unordered at 0: 00\nrow 1 0 0");
//! let sheet = table.unwrap().sheet().unwrap();
//! assert!(check(&sheet, &[0, 1]).is_accepted());
//! // the init happens before the read
//! assert_eq!(check(&sheet, &[1, 0]).to_string(), "not accepted 3 at 0");
//! ```
//!
//! Where no order exists (rule 26), [`why`] gives the bars that leave none, each as a sentence, and the circle that they make
//! with happens-before.
//!
//! ```
//! use plimdrong::{judge, why, Table};
//!
//! // two agents add 1 to a byte, and both saw 0
//! let table = Table::parse(
//!     "head 2 2 1
//!      init at 0: 00
//!      A1 rmw sc at 0: 00 -> 01
//!      A2 rmw sc at 0: 00 -> 01
//!      row 1 0 0
//!      row 2 0 0",
//! );
//! let sheet = table.unwrap().sheet().unwrap();
//! assert_eq!(judge(&sheet).to_string(), "broken 26 - - - -");
//! let why = why(&sheet);
//! assert_eq!(why.to_string(), "kept 2 bars: 1 0 2, 2 0 1");
//! assert!(why.explain(&sheet).ends_with("and so event 1 would stand before itself."));
//! ```
//!
//! What is proved is the functions behind [`judge_with`], [`write_with`], [`table_with`], [`check_with`] and [`why_with`].
//! Trusted are the compiler's back end, this crate's five `unsafe` calls, its laying out of a table and its reading of the
//! 64-bit answers.

mod answer;
mod bar;
mod before;
mod check;
mod circle;
mod table;
mod text;
mod why;
mod words;

pub use answer::{Answer, Order, Rule};
pub use bar::{Bar, BarReason};
pub use before::HappensBefore;
pub use check::{check, check_with, happens_before_it, Checked, ListFault};
pub use circle::{By, Circle, Circles, Step, CIRCLE_LINES};
pub use table::{kind, mode, table_with, write_with};
pub use table::{Buffers, Entry, Event, Head, Pair, Row, Slices, Table, Unwritable};
pub use text::{Lines, ParseError};
pub use why::{why, why_with, BarInWords, KeptInWords, Why};
pub use words::{refusal, Refusal};

/// The longest sheet in bytes. A longer one is refused, number 1.
pub const MAX_SHEET: usize = 4096;
/// Scratch enough for every sheet: a bit for each set of 18 events.
pub const MAX_SCRATCH: usize = 32768;
/// The most events: 4 inits and 18 others.
pub const MAX_EVENTS: usize = 22;
/// Bytes enough for every list of bars that [`why_with`] keeps, three a bar: no more than there are triples of events.
pub const MAX_BARS: usize = 3 * MAX_EVENTS * MAX_EVENTS * MAX_EVENTS;
/// The most inits.
pub const MAX_INITS: usize = 4;
/// The most events that are not inits.
pub const MAX_OTHERS: usize = 18;
/// The most pairs.
pub const MAX_PAIRS: usize = 32;
/// The most bytes of memory.
pub const MAX_MEMORY: usize = 64;
/// The widest event that is no init.
pub const MAX_WIDTH: usize = 8;

/// Buffers enough for the table of every sheet: its head,
pub const MAX_TABLE_HEAD: usize = 3;
/// its events,
pub const MAX_TABLE_EVENTS: usize = 8 * MAX_EVENTS;
/// their data: inits with the whole memory each, and read-modify-writes of the greatest width,
pub const MAX_TABLE_DATA: usize = MAX_INITS * MAX_MEMORY + MAX_OTHERS * 2 * MAX_WIDTH;
/// its rows: all events that are not inits read,
pub const MAX_TABLE_ROWS: usize = 3 * MAX_OTHERS * MAX_WIDTH;
/// its pairs.
pub const MAX_TABLE_PAIRS: usize = 2 * MAX_PAIRS;

extern "C" {
    // crates/plimdrong: a byte slice passes as a pointer and then a length
    fn plimdrong_judge(
        sheet: *const u8,
        sheet_len: usize,
        scratch: *mut u8,
        scratch_len: usize,
        order: *mut u8,
        order_len: usize,
    ) -> u64;
}

/// The exported judge: the answer as a 64-bit word, over buffers of any length.
///
/// Refused: both buffers are unchanged. Broken: the needed part of the scratch is zero, the rest and the order buffer
/// unchanged. Consistent: the same for the scratch, and the order buffer's first bytes, one for each event, hold the
/// order. With n events that are not inits the scratch needs the larger of 1 and 2^n / 8 bytes.
/// [`Answer::from_word`] reads the word.
pub fn judge_with(sheet: &[u8], scratch: &mut [u8], order: &mut [u8]) -> u64 {
    // SAFETY: the function reads only `sheet` and writes only within `scratch` and `order`, which the three borrows give
    // it for the call, the two lent ones disjoint from all else by Rust's own rules. Its contract asks for nothing more.
    unsafe {
        plimdrong_judge(
            sheet.as_ptr(),
            sheet.len(),
            scratch.as_mut_ptr(),
            scratch.len(),
            order.as_mut_ptr(),
            order.len(),
        )
    }
}

/// A judge that keeps its buffers, for many sheets.
///
/// ```
/// let mut judge = plimdrong::Judge::new();
/// assert_eq!(judge.judge(&[]).to_string(), "refused 3 at 0");
/// assert_eq!(judge.judge(&[1, 0, 3, 1, 1, 1]).to_string(), "refused 10 at 6");
/// ```
pub struct Judge {
    scratch: Box<[u8]>,
}

impl Judge {
    /// A judge with buffers for every sheet, so that 12 and 13 never come.
    pub fn new() -> Self {
        Judge { scratch: vec![0; MAX_SCRATCH].into_boxed_slice() }
    }

    /// The answer for a sheet.
    pub fn judge(&mut self, sheet: &[u8]) -> Answer {
        // No event has the number 255, and bytes after the order stay as they were: so its end is seen.
        let mut order = [255; MAX_EVENTS];
        let word = judge_with(sheet, &mut self.scratch, &mut order);
        Answer::from_word(word, &order)
            .unwrap_or_else(|| panic!("{word:#x} is no answer: the linked judge is of another version than this crate"))
    }
}

impl Default for Judge {
    fn default() -> Self {
        Judge::new()
    }
}

/// The answer for a sheet, with buffers of its own. For many sheets see [`Judge`].
pub fn judge(sheet: &[u8]) -> Answer {
    Judge::new().judge(sheet)
}

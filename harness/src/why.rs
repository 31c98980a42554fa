//! Why no order exists: the bars that are kept, and their 64-bit word.

use crate::bar::by;
use crate::{
    judge, refusal, Answer, Bar, BarReason, Circles, HappensBefore, Refusal, Rule, Table, MAX_BARS, MAX_SCRATCH,
};
use std::fmt;

/// What is said of why a sheet's events have no order. Its `Display` is one line: `kept 2 bars: 2 0 3, 4 0 1`, each bar as
/// reader, writer and the write between; `refused ..` and `broken ..` as [`Answer`] prints them; `consistent orderly` and
/// `consistent unsettled E D`, without an order, which is not looked for here.
#[derive(Clone, Debug, PartialEq, Eq)]
pub enum Why {
    /// The sheet is not well-formed, or a buffer is too short. [`refusal`](crate::refusal) tells what the number means.
    Refused {
        /// 1 to 12, 14 or 16. There is no order buffer, so 13 never comes.
        number: u8,
        /// The sheet's byte, counted from 0, that the refusal points to.
        place: u32,
    },
    /// The execution breaks one of the rules 21 to 25, so no order was looked for.
    Broken {
        /// The first rule that is broken, with the events that break it. It is never 26.
        rule: Rule,
    },
    /// There is an order: the execution is one that the memory model allows.
    Consistent {
        /// The lowest unsettled pair; orderly if there is none.
        pair: Option<(u8, u8)>,
    },
    /// Rule 26 is broken: no order meets these bars, and without any one of them some order meets the others.
    Kept {
        /// Rising by reader, writer and the write between.
        bars: Vec<Bar>,
    },
}

impl Why {
    /// What a word of [`why_with`] says, with the bars' buffer after the call.
    ///
    /// The word is taken apart as [`Answer::from_word`] does it: bits 48 and up are not looked at. Nothing for a kind, a
    /// number or names that are none of its answers, as 13 and 26 (a kept list takes its place) are not, and for more bars
    /// than the buffer holds.
    ///
    /// ```
    /// use plimdrong::{Bar, Why};
    ///
    /// let bars = vec![Bar { reader: 2, writer: 0, between: 3 }, Bar { reader: 4, writer: 0, between: 1 }];
    /// let word = (8 << 40) + (26 << 32) + 2;
    /// assert_eq!(Why::from_word(word, &[2, 0, 3, 4, 0, 1, 9]), Some(Why::Kept { bars }));
    /// assert_eq!(Why::from_word(word, &[2, 0, 3, 4, 0]), None);
    /// let orderly = (3 << 40) + 0xffff_ffff;
    /// assert_eq!(Why::from_word(orderly, &[]), Some(Why::Consistent { pair: None }));
    /// assert_eq!(Why::from_word((1 << 40) + (13 << 32), &[]), None);
    /// ```
    pub fn from_word(word: u64, bars: &[u8]) -> Option<Why> {
        let (kind, number, low) = ((word >> 40) as u8, (word >> 32) as u8, word as u32);
        let names = low.to_be_bytes();
        match (kind, number) {
            (1, 1..=12 | 14 | 16) => Some(Why::Refused { number, place: low }),
            (2, 21..=25) => Rule::from_names(number, names).map(|rule| Why::Broken { rule }),
            (3, 0) if names == [255; 4] => Some(Why::Consistent { pair: None }),
            (3, 1) if names[2..] == [255; 2] && !names[..2].contains(&255) => {
                Some(Why::Consistent { pair: Some((names[0], names[1])) })
            }
            (8, 26) => {
                let kept = bars.get(..(low as usize).checked_mul(3)?)?;
                let bar = |b: &[u8]| Bar { reader: b[0], writer: b[1], between: b[2] };
                Some(Why::Kept { bars: kept.chunks_exact(3).map(bar).collect() })
            }
            _ => None,
        }
    }

    /// The bars that are kept, where rule 26 is broken.
    pub fn bars(&self) -> Option<&[Bar]> {
        match self {
            Why::Kept { bars } => Some(bars),
            _ => None,
        }
    }

    /// The judge's answer for the sheet, where it is refused or broken: by 21 to 25, or, with a kept list, by 26. Nothing for
    /// a consistent sheet, whose order only the judge gives, and for 16, which the judge never says.
    pub fn of_the_sheet(&self) -> Option<Answer> {
        match *self {
            Why::Refused { number: 16, .. } | Why::Consistent { .. } => None,
            Why::Refused { number, place } => Some(Answer::Refused { number, place }),
            Why::Broken { rule } => Some(Answer::Broken { rule }),
            Why::Kept { .. } => Some(Answer::Broken { rule: Rule::NoOrder }),
        }
    }
}

/// The line, without its newline.
impl fmt::Display for Why {
    fn fmt(&self, f: &mut fmt::Formatter) -> fmt::Result {
        match self {
            Why::Refused { number, place } => write!(f, "refused {number} at {place}"),
            Why::Broken { rule } => Answer::Broken { rule: *rule }.fmt(f),
            Why::Consistent { pair: None } => write!(f, "consistent orderly"),
            Why::Consistent { pair: Some((e, d)) } => write!(f, "consistent unsettled {e} {d}"),
            Why::Kept { bars } => {
                write!(f, "kept {} bar{}", bars.len(), if bars.len() == 1 { "" } else { "s" })?;
                bars.iter().enumerate().try_for_each(|(i, bar)| write!(f, "{} {bar}", if i == 0 { ":" } else { "," }))
            }
        }
    }
}

extern "C" {
    // crates/plimdrong: a byte slice passes as a pointer and then a length
    fn plimdrong_why(
        sheet: *const u8,
        sheet_len: usize,
        scratch: *mut u8,
        scratch_len: usize,
        bars: *mut u8,
        bars_len: usize,
    ) -> u64;
}

/// The exported function: the answer as a 64-bit word, over buffers of any length.
///
/// Kinds 1, 2 (21 to 25) and 3: what the judge answers for the sheet, but there is no order buffer and no 13, and 16 at 0
/// comes where `bars` cannot hold the kept list. Kind 8, number 26: as many bars as the 32 bits say stand in `bars`, three
/// bytes each (reader, writer, the write between); its bytes after them are unchanged. With every other answer `bars` is
/// unchanged. The needed part of the scratch is zero after a judged sheet and after 16, else unchanged, and its rest too.
/// [`Why::from_word`] reads the word.
pub fn why_with(sheet: &[u8], scratch: &mut [u8], bars: &mut [u8]) -> u64 {
    // SAFETY: the function reads only `sheet` and writes only within `scratch` and `bars`, which the three borrows give it
    // for the call, the two lent ones disjoint from all else by Rust's own rules. Its contract asks for nothing more.
    unsafe {
        plimdrong_why(sheet.as_ptr(), sheet.len(), scratch.as_mut_ptr(), scratch.len(), bars.as_mut_ptr(), bars.len())
    }
}

/// Why a sheet's events have no order, with buffers of its own.
///
/// ```
/// use plimdrong::{why, Bar, Table, Why};
///
/// // each agent writes one byte and then reads the other's, and both read 0, all sc
/// let sheet = Table::parse(
///     "head 2 2 2
///      init at 0: 00 00
///      A1 write sc at 0: 01
///      A1 read sc at 1: 00
///      A2 write sc at 1: 01
///      A2 read sc at 0: 00
///      row 2 1 0
///      row 4 0 0",
/// );
/// let sheet = sheet.unwrap().sheet().unwrap();
/// let bars = vec![Bar { reader: 2, writer: 0, between: 3 }, Bar { reader: 4, writer: 0, between: 1 }];
/// assert_eq!(why(&sheet), Why::Kept { bars });
/// assert_eq!(why(&sheet).to_string(), "kept 2 bars: 2 0 3, 4 0 1");
/// ```
pub fn why(sheet: &[u8]) -> Why {
    let (mut scratch, mut bars) = (vec![0; MAX_SCRATCH], vec![0; MAX_BARS]);
    let word = why_with(sheet, &mut scratch, &mut bars);
    Why::from_word(word, &bars)
        .unwrap_or_else(|| panic!("{word:#x} is no answer: the linked judge is of another version than this crate"))
}

/// A kept list in words, by the sheet that it is of.
#[derive(Clone, Debug, PartialEq, Eq)]
pub struct KeptInWords {
    /// Each bar.
    pub bars: Vec<BarInWords>,
    /// Why they leave no order: mostly a circle of events each of which would have to stand before the next.
    pub circles: Circles,
    /// The same in lines, at most [`CIRCLE_LINES`](crate::CIRCLE_LINES).
    pub circle_lines: Vec<String>,
}

/// A kept bar, why it is one, and what it says.
#[derive(Clone, Debug, PartialEq, Eq)]
pub struct BarInWords {
    pub bar: Bar,
    /// All of (a), (b) and (c) that bar it.
    pub reasons: Vec<BarReason>,
    /// What [`Bar::sentence`] says.
    pub sentence: String,
}

impl Why {
    /// The kept list in words, by the sheet that was asked about. Nothing where nothing was kept, or for another sheet, of
    /// which these bars do not hold.
    ///
    /// ```
    /// use plimdrong::{why, By, Circle, Circles, Step, Table};
    ///
    /// // two agents add 1 to a byte, and both see 0
    /// let text = "head 2 2 1\ninit at 0: 00\nA1 rmw sc at 0: 00 -> 01\nA2 rmw sc at 0: 00 -> 01\nrow 1 0 0\nrow 2 0 0";
    /// let sheet = Table::parse(text).unwrap().sheet().unwrap();
    /// let told = why(&sheet).in_words(&sheet).unwrap();
    /// let by = |i: usize| By::Bar(told.bars[i].bar);
    /// let steps = vec![Step { before: 1, after: 2, by: by(0) }, Step { before: 2, after: 1, by: by(1) }];
    /// assert_eq!(told.circles, Circles::One(Circle { round: vec![1, 2], steps }));
    /// assert_eq!(
    ///     told.circle_lines,
    ///     [
    ///         "event 1 stands before event 2: it read from event 0, which happens before event 2 (bar 1 0 2)",
    ///         "event 2 stands before event 1: it read from event 0, which happens before event 1 (bar 2 0 1): and so event 1 \
    ///          would stand before itself.",
    ///     ]
    /// );
    /// ```
    pub fn in_words(&self, sheet: &[u8]) -> Option<KeptInWords> {
        let kept = self.bars()?;
        let (table, before) = (Table::of(sheet).ok()?, HappensBefore::of(sheet)?);
        let circles = Circles::of(&before, kept)?;
        let in_words = |bar: &Bar| {
            let (reasons, sentence) = (bar.reasons(&table, &before), bar.sentence(&table, &before));
            (!reasons.is_empty()).then_some(BarInWords { bar: *bar, reasons, sentence })
        };
        let bars: Option<Vec<BarInWords>> = kept.iter().map(in_words).collect();
        Some(KeptInWords { bars: bars?, circle_lines: circles.lines(&before), circles })
    }

    /// The answer in sentences, for the sheet that was asked about: of a kept list each bar, the cases of the rules that bar,
    /// and the circle, a line each; of all else what the judge's answer means.
    ///
    /// ```
    /// use plimdrong::{why, Table};
    ///
    /// let text = "head 2 2 1\ninit at 0: 00\nA1 rmw sc at 0: 00 -> 01\nA2 rmw sc at 0: 00 -> 01\nrow 1 0 0\nrow 2 0 0";
    /// let sheet = Table::parse(text).unwrap().sheet().unwrap();
    /// let told = why(&sheet).explain(&sheet);
    /// let lines: Vec<&str> = told.lines().collect();
    /// assert_eq!(lines[1], "These 2 bars leave none, and without any one of them some order meets the others:");
    /// assert!(lines[2].starts_with("  1 0 2: event 1 (agent 1 read-modify-writes byte 0, sc) read from event 0"));
    /// ```
    pub fn explain(&self, sheet: &[u8]) -> String {
        match (self, self.of_the_sheet()) {
            (Why::Consistent { .. }, _) => judge(sheet).explain(),
            (_, Some(answer)) => answer.explain() + &self.in_words(sheet).map_or(String::new(), |told| told.explain()),
            // 16, which the judge never says
            (_, None) => refusal(16).map_or(String::new(), |Refusal { meaning, remedy }| format!("{meaning} {remedy}")),
        }
    }
}

impl KeptInWords {
    /// The cases of the rules that bar here, once each. [`BarReason::words`] says what each is.
    pub fn reasons(&self) -> Vec<BarReason> {
        let mut reasons: Vec<BarReason> = self.bars.iter().flat_map(|told| told.reasons.clone()).collect();
        reasons.sort();
        reasons.dedup();
        reasons
    }

    /// Lines behind the sentence that no order exists.
    fn explain(&self) -> String {
        let count = self.bars.len();
        let mut text =
            format!("\nThese {count} bars leave none, and without any one of them some order meets the others:");
        let mut line = |line: String| text += &format!("\n{line}");
        self.bars.iter().for_each(|told| line(format!("  {}: {}", told.bar, told.sentence)));
        self.reasons().iter().for_each(|reason| line(format!("  {reason}: {}.", reason.words())));
        line("In an order with these bars:".to_string());
        self.circle_lines.iter().for_each(|told| line(format!("  {told}")));
        text
    }
}

impl BarInWords {
    /// `by (a) and (c)`.
    pub fn by(&self) -> String {
        by(&self.reasons)
    }
}

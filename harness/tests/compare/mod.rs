//! The linked judge against the second program: answer, order, both buffers and the bytes around them.

use plimdrong::{judge_with, Answer};
use second::random::{case, mostly_few, shown, shown_most, Case, SHOWN, SHOWN_MOST};
use second::text::to_text;
use std::collections::BTreeMap;
use std::fmt;

/// How often each answer came, for sheets of edition 1, of edition 2 and with no such head.
#[derive(Default)]
pub struct Tally {
    refused: [[u64; 3]; 15],
    broken: [[u64; 3]; 6],
    orderly: [u64; 3],
    unsettled: [u64; 3],
    /// What the sheets showed of 02 §4 and §6.
    shown: BTreeMap<&'static str, u64>,
}

impl Tally {
    fn count(&mut self, c: &Case, answer: &second::Answer) {
        let times = match answer {
            second::Answer::Refused { number, .. } => &mut self.refused[*number as usize],
            second::Answer::Broken { number, .. } => &mut self.broken[*number as usize - 21],
            second::Answer::Consistent { pair: None, .. } => &mut self.orderly,
            second::Answer::Consistent { pair: Some(_), .. } => &mut self.unsettled,
        };
        match &c.sheet[..] {
            [1, 0, 3, edition @ 1..=2, ..] => times[*edition as usize - 1] += 1,
            _ => times[2] += 1,
        }
        for what in shown(&c.sheet, answer).into_iter().chain(shown_most(c, answer)) {
            *self.shown.entry(what).or_default() += 1;
        }
    }

    fn all(&self) -> Vec<(String, [u64; 3])> {
        let refused = (1..=14).map(|n| (format!("refused {n}"), self.refused[n]));
        let broken = (0..6).map(|n| (format!("broken {}", n + 21), self.broken[n]));
        let consistent = [("consistent orderly", self.orderly), ("consistent unsettled", self.unsettled)];
        refused.chain(broken).chain(consistent.map(|(name, times)| (name.to_string(), times))).collect()
    }

    /// The answers that never came at an edition, and what was never shown of 02 §4 and §6.
    pub fn missing(&self) -> Vec<String> {
        let all = self.all();
        let of = |e: usize| {
            all.iter().filter(move |(_, times)| times[e - 1] == 0).map(move |(n, _)| format!("{n} at edition {e}"))
        };
        let unshown =
            SHOWN.iter().chain(SHOWN_MOST).filter(|what| !self.shown.contains_key(**what)).map(|what| what.to_string());
        of(1).chain(of(2)).chain(unshown).collect()
    }
}

impl fmt::Display for Tally {
    fn fmt(&self, f: &mut fmt::Formatter) -> fmt::Result {
        writeln!(f, "{:<21}{:>10}{:>10}{:>10}", "", "edition 1", "edition 2", "neither")?;
        for (name, [one, two, neither]) in self.all() {
            writeln!(f, "{name:<21}{one:>10}{two:>10}{neither:>10}")?;
        }
        SHOWN
            .iter()
            .chain(SHOWN_MOST)
            .try_for_each(|what| writeln!(f, "{what:<41}{:>10}", self.shown.get(what).unwrap_or(&0)))
    }
}

/// Bytes before and after a lent buffer, which the judge must leave alone.
const AROUND: usize = 32;

/// The sheets number 0 to `count` of a seed; the first difference as text. `max`: at most so many events that are not
/// inits, or, for 0, mostly few and at times the most.
pub fn random_sheets(seed: u64, count: u64, max: usize) -> Result<Tally, String> {
    let mut tally = Tally::default();
    let (mut found, mut told) = (Buffers::default(), Buffers::default());
    for index in 0..count {
        let most = if max > 0 { max } else { mostly_few(index) };
        let c = case(seed, index, most);
        tally.count(&c, &one(&c, index as u8, &mut found, &mut told)?);
    }
    Ok(tally)
}

#[derive(Default)]
struct Buffers {
    scratch: Vec<u8>,
    order: Vec<u8>,
}

impl Buffers {
    /// What they hold on entry does not matter: here something different for each sheet.
    fn fill(&mut self, c: &Case, salt: u8) {
        for (buffer, length) in [(&mut self.scratch, c.scratch), (&mut self.order, c.order)] {
            buffer.clear();
            buffer.resize(length + 2 * AROUND, salt | 1);
        }
    }
    fn lent(&mut self) -> (&mut [u8], &mut [u8]) {
        let (s, o) = (self.scratch.len() - AROUND, self.order.len() - AROUND);
        (&mut self.scratch[AROUND..s], &mut self.order[AROUND..o])
    }
}

fn one(c: &Case, salt: u8, found: &mut Buffers, told: &mut Buffers) -> Result<second::Answer, String> {
    found.fill(c, salt);
    told.fill(c, salt);
    let (scratch, order) = told.lent();
    let expected = second::judge_into(&c.sheet, scratch, order);
    let (scratch, order) = found.lent();
    let word = judge_with(&c.sheet, scratch, order);
    let wrong = |what: &str| {
        let text = to_text(&c.sheet);
        let lengths = format!("scratch {}, order buffer {}", c.scratch, c.order);
        Err(format!("{}: {what}\n{text}{lengths}\nsecond program: {}", c.name, expected.line()))
    };
    if word != expected.word() {
        return wrong(&format!("the word is {word:#x}, not {:#x}", expected.word()));
    }
    if found.order != told.order {
        return wrong("the order buffer differs");
    }
    if found.scratch != told.scratch {
        return wrong("the scratch differs");
    }
    // the word read as an answer gives the same line
    if let second::Answer::Consistent { order, .. } = &expected {
        let mut ended = [255; plimdrong::MAX_EVENTS];
        ended[..order.len()].copy_from_slice(order);
        let line = Answer::from_word(word, &ended).map(|a| a.to_string());
        if line.as_ref() != Some(&expected.line()) {
            return wrong(&format!("the line is {line:?}"));
        }
    } else if Answer::from_word(word, &[]).map(|a| a.to_string()) != Some(expected.line()) {
        return wrong("the line differs");
    }
    Ok(expected)
}

//! The linked `plimdrong_why` against the second program: word, scratch, the buffer for the bars and the bytes around both.

use plimdrong::{judge_with, why_with};
use second::random::{mostly_few, shown_why, why_case, WhyCase, SHOWN_WHYS};
use second::text::{hex, to_text};
use second::Why;
use std::collections::BTreeMap;
use std::fmt;

/// The longest kept list of random sheets. None is of one bar: that would be broken by 24.
pub const MOST_KEPT: usize = 26;

/// How often each answer came, for sheets of edition 1, of edition 2 and with no such head.
#[derive(Default)]
pub struct Tally {
    answers: BTreeMap<String, [u64; 3]>,
    /// What the sheets showed of 02 §8.
    shown: BTreeMap<&'static str, u64>,
}

/// All answers there are, as the tally names them.
fn all_answers() -> Vec<String> {
    let refused = (1..=12).chain([14, 16]).map(|n| format!("refused {n}"));
    let broken = (21..=25).map(|n| format!("broken {n}"));
    let consistent = ["consistent orderly", "consistent unsettled"].map(String::from);
    let kept = (2..=MOST_KEPT).map(|n| format!("kept {n}"));
    refused.chain(broken).chain(consistent).chain(kept).collect()
}

impl Tally {
    fn count(&mut self, c: &WhyCase, answer: &Why) {
        let name = match answer {
            Why::Sheet(second::Answer::Refused { number, .. }) => format!("refused {number}"),
            Why::Sheet(second::Answer::Broken { number, .. }) => format!("broken {number}"),
            Why::Sheet(second::Answer::Consistent { pair: None, .. }) => "consistent orderly".to_string(),
            Why::Sheet(second::Answer::Consistent { pair: Some(_), .. }) => "consistent unsettled".to_string(),
            Why::Kept(kept) => format!("kept {}", kept.len()),
        };
        let edition = match c.sheet[..] {
            [1, 0, 3, edition @ 1..=2, ..] => edition as usize - 1,
            _ => 2,
        };
        self.answers.entry(name).or_default()[edition] += 1;
        for what in shown_why(c, answer) {
            *self.shown.entry(what).or_default() += 1;
        }
    }

    /// The answers that never came at an edition, those that are none, and what was never shown of 02 §8.
    pub fn missing(&self) -> Vec<String> {
        let all = all_answers();
        let times = |name: &String| self.answers.get(name).copied().unwrap_or_default();
        let of =
            |e: usize| all.iter().filter(move |n| times(n)[e - 1] == 0).map(move |n| format!("{n} at edition {e}"));
        // a longer list than any before may come
        let more = |n: &String| n.strip_prefix("kept ").is_some_and(|n| n.parse::<usize>().unwrap() > MOST_KEPT);
        let unknown = self.answers.keys().filter(|n| !all.contains(n) && !more(n));
        let unknown = unknown.map(|n| format!("{n} should not have come"));
        let unshown = SHOWN_WHYS.iter().filter(|what| !self.shown.contains_key(**what)).map(|what| what.to_string());
        of(1).chain(of(2)).chain(unknown).chain(unshown).collect()
    }
}

impl fmt::Display for Tally {
    fn fmt(&self, f: &mut fmt::Formatter) -> fmt::Result {
        writeln!(f, "{:<21}{:>10}{:>10}{:>10}", "", "edition 1", "edition 2", "neither")?;
        let all = all_answers();
        for name in all.iter().chain(self.answers.keys().filter(|n| !all.contains(n))) {
            let [one, two, neither] = self.answers.get(name).copied().unwrap_or_default();
            writeln!(f, "{name:<21}{one:>10}{two:>10}{neither:>10}")?;
        }
        SHOWN_WHYS.iter().try_for_each(|what| writeln!(f, "{what:<49}{:>10}", self.shown.get(what).unwrap_or(&0)))
    }
}

/// Bytes before and after a lent buffer, which must be left alone.
const AROUND: usize = 32;

/// The sheets number 0 to `count` of a seed; the first difference as text. `max`: at most so many events that are not
/// inits, or, for 0, mostly few and at times the most.
pub fn random_whys(seed: u64, count: u64, max: usize) -> Result<Tally, String> {
    let mut tally = Tally::default();
    let (mut found, mut told) = (Buffers::default(), Buffers::default());
    for index in 0..count {
        let most = if max > 0 { max } else { mostly_few(index) };
        let c = why_case(seed, index, most);
        tally.count(&c, &one(&c, index as u8, &mut found, &mut told)?);
    }
    Ok(tally)
}

#[derive(Default)]
struct Buffers {
    scratch: Vec<u8>,
    bars: Vec<u8>,
}

impl Buffers {
    /// What they hold on entry does not matter: here something different for each sheet, and for each byte.
    fn fill(&mut self, c: &WhyCase, salt: u8) {
        for (buffer, length) in [(&mut self.scratch, c.scratch), (&mut self.bars, c.bars)] {
            buffer.clear();
            buffer.extend((0..length + 2 * AROUND).map(|i| (i as u8).wrapping_mul(37) ^ salt | 1));
        }
    }
    fn lent(&mut self) -> (&mut [u8], &mut [u8]) {
        let (s, b) = (self.scratch.len() - AROUND, self.bars.len() - AROUND);
        (&mut self.scratch[AROUND..s], &mut self.bars[AROUND..b])
    }
}

fn one(c: &WhyCase, salt: u8, found: &mut Buffers, told: &mut Buffers) -> Result<Why, String> {
    found.fill(c, salt);
    told.fill(c, salt);
    let (scratch, bars) = told.lent();
    let expected = second::why_into(&c.sheet, scratch, bars);
    let (scratch, bars) = found.lent();
    let word = why_with(&c.sheet, scratch, bars);
    let wrong = |what: &str| {
        let (text, bytes) = (to_text(&c.sheet), hex(&c.sheet));
        let lengths = format!("{bytes}\nscratch {}, buffer for the bars {}", c.scratch, c.bars);
        Err(format!("{}: {what}\n{text}{lengths}\nsecond program: {}", c.name, expected.line()))
    };
    if word != expected.word() {
        return wrong(&format!("the word is {word:#x}, not {:#x}", expected.word()));
    }
    if found.bars != told.bars {
        return wrong(&format!("the buffer for the bars differs: {}", hex(found.lent().1)));
    }
    if found.scratch != told.scratch {
        return wrong("the scratch differs");
    }
    // the judge says 26 exactly where a list is kept, or would be if it had room; else the word is its own. It has an order
    // buffer that is enough, and the same scratch.
    let judged = judge_with(&c.sheet, found.lent().0, &mut [0; plimdrong::MAX_EVENTS]);
    let broken_26 = judged >> 32 == 2 << 8 | 26;
    let answered_26 = matches!(expected, Why::Kept(_) | Why::Sheet(second::Answer::Refused { number: 16, .. }));
    if broken_26 != answered_26 || !broken_26 && judged != word {
        return wrong(&format!("the judge's word is {judged:#x}"));
    }
    Ok(expected)
}

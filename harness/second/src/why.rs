//! 02 §8, "Why no order exists": the bars that are kept of a sheet broken by 26.

use crate::answer::{needed_scratch, Answer};
use crate::judge::{next_order, verdict, Relations};
use crate::sheet::read;
use std::collections::HashSet;

/// Up to so many events, inits included, all orders are tried in turn; above, prefixes are extended.
pub const ALL_ORDERS_UP_TO: usize = 7;

/// "A bar is a triple (R, W, V)".
pub type Bar = (usize, usize, usize);

/// What this entry answers.
#[derive(Clone, Debug, PartialEq, Eq)]
pub enum Why {
    /// "Sheets not broken by 26 get the judge's own answer"; and 12, and 16.
    Sheet(Answer),
    /// The kept list.
    Kept(Vec<Bar>),
}

/// The answer for a sheet, with a scratch and a buffer for the bars of these lengths.
pub fn why(sheet: &[u8], scratch_len: usize, bars_len: usize) -> Why {
    let refused = |number, place| Why::Sheet(Answer::Refused { number, place });
    let x = match read(sheet) {
        Ok(x) => x,
        Err((number, place)) => return refused(number, place),
    };
    // "Scratch is tested first, by 01's rule"
    if scratch_len < needed_scratch(&x) {
        return refused(12, 0);
    }
    let judged = verdict(&x);
    if !matches!(judged, Answer::Broken { number: 26, .. }) {
        return Why::Sheet(judged);
    }
    let m = Relations::of(&x);
    let kept = kept(&m, &all_bars(&m));
    // "A buffer that can't hold the kept list is refused 16, place 0", "three bytes a bar"
    if bars_len < 3 * kept.len() {
        return refused(16, 0);
    }
    Why::Kept(kept)
}

/// The answer, and what it leaves in the buffers: the scratch's "needed part ends zero after a judged call and after 16";
/// "Only the kept list is written, into a lent buffer, three bytes a bar"; "bytes after it are unchanged".
pub fn why_into(sheet: &[u8], scratch: &mut [u8], bars: &mut [u8]) -> Why {
    let answer = why(sheet, scratch.len(), bars.len());
    let changes_nothing = matches!(answer, Why::Sheet(Answer::Refused { number, .. }) if number != 16);
    if !changes_nothing {
        let x = read(sheet).expect("a sheet that was judged is whole");
        scratch[..needed_scratch(&x)].fill(0);
    }
    if let Why::Kept(kept) = &answer {
        for (i, &(r, w, v)) in kept.iter().enumerate() {
            bars[3 * i] = r as u8;
            bars[3 * i + 1] = w as u8;
            bars[3 * i + 2] = v as u8;
        }
    }
    answer
}

/// "List all bars once each, rising by (R, W, V)": "a triple (R, W, V) of three different events from which 01's (a), (b)
/// or (c) forbids W, V, R in that order". Several rows of R and W make one bar. One that happens-before makes harmless
/// anyway is a bar too.
pub fn all_bars(m: &Relations) -> Vec<Bar> {
    let n = m.x.events.len();
    let mut bars = vec![];
    for r in 0..n {
        for w in 0..n {
            for v in 0..n {
                let different = r != w && w != v && v != r;
                let of_r_and_w = |row: &&crate::sheet::Row| row.reader == r && row.writer == w;
                if different && m.x.rows.iter().filter(of_r_and_w).any(|row| m.bar(row, v)) {
                    bars.push((r, w, v));
                }
            }
        }
    }
    bars
}

/// "Then go through them from the first: drop a bar if the remaining bars together with happens-before still leave no order,
/// else keep it." Those that remain are the ones kept so far and the ones not yet tried.
pub fn kept(m: &Relations, bars: &[Bar]) -> Vec<Bar> {
    Orders::of(m).kept(bars)
}

/// Whether some total order of all events contains happens-before and has no W, V, R of one of these bars in that order.
pub fn leaves_an_order(m: &Relations, bars: &[Bar]) -> bool {
    Orders::of(m).left_by(bars)
}

/// The orders that contain happens-before: of few events all of them, of more what happens before each event.
pub enum Orders {
    /// The place of each event, in each order.
    All(Vec<Vec<usize>>),
    Prefixes(Vec<Set>),
}

/// A set of events, a bit for each.
pub type Set = u32;

fn has(set: Set, event: usize) -> bool {
    set & 1 << event != 0
}

impl Orders {
    pub fn of(m: &Relations) -> Self {
        match m.x.events.len() {
            0..=ALL_ORDERS_UP_TO => Orders::all(m),
            _ => Orders::prefixes(m),
        }
    }

    /// Every order of the events in turn, those that contain happens-before.
    pub fn all(m: &Relations) -> Self {
        let n = m.x.events.len();
        let mut order: Vec<usize> = (0..n).collect();
        let mut all = vec![];
        loop {
            let contains = (0..n).all(|i| (i + 1..n).all(|j| !m.before[order[j]][order[i]]));
            if contains {
                all.push((0..n).map(|e| order.iter().position(|&there| there == e).unwrap()).collect());
            }
            if !next_order(&mut order) {
                return Orders::All(all);
            }
        }
    }

    pub fn prefixes(m: &Relations) -> Self {
        let n = m.x.events.len();
        let before = |d: usize| (0..n).filter(|&e| m.before[e][d]).fold(0, |set, e| set | 1 << e);
        Orders::Prefixes((0..n).map(before).collect())
    }

    /// Whether one of them has no W, V, R of one of these bars in that order.
    pub fn left_by(&self, bars: &[Bar]) -> bool {
        match self {
            Orders::All(all) => all.iter().any(|place| {
                let forbidden = |&(r, w, v): &Bar| place[w] < place[v] && place[v] < place[r];
                !bars.iter().any(forbidden)
            }),
            Orders::Prefixes(..) => self.met(bars).0,
        }
    }

    /// [`kept`], of these orders.
    pub fn kept(&self, bars: &[Bar]) -> Vec<Bar> {
        let mut kept: Vec<Bar> = vec![];
        for (i, &bar) in bars.iter().enumerate() {
            let mut remaining = kept.clone();
            remaining.extend(&bars[i + 1..]);
            if self.left_by(&remaining) {
                kept.push(bar);
            }
        }
        kept
    }

    /// [`Orders::left_by`] by prefixes, and how many sets were met from which no order was found.
    pub fn met(&self, bars: &[Bar]) -> (bool, usize) {
        let mut nowhere = HashSet::new();
        let left = completes(self.before(), &by_v(self.before().len(), bars), 0, &mut nowhere);
        (left, nowhere.len())
    }

    /// How many sets of events can be placed one by one from this one on, itself and, where there is an order, the whole one
    /// among them.
    pub fn placeable(&self, first: Set, bars: &[Bar]) -> usize {
        let (before, by_v) = (self.before(), by_v(self.before().len(), bars));
        let (mut all, mut to_do) = (HashSet::from([first]), vec![first]);
        while let Some(held) = to_do.pop() {
            for next in (0..before.len()).filter(|&next| may_follow(before, &by_v, held, next)) {
                if all.insert(held | 1 << next) {
                    to_do.push(held | 1 << next);
                }
            }
        }
        all.len()
    }

    fn before(&self) -> &[Set] {
        match self {
            Orders::All(_) => panic!("no prefixes were asked for"),
            Orders::Prefixes(before) => before,
        }
    }
}

/// For each event, the R and W of the bars whose V it is.
fn by_v(n: usize, bars: &[Bar]) -> Vec<Vec<(usize, usize)>> {
    let mut by_v = vec![vec![]; n];
    for &(r, w, v) in bars {
        by_v[v].push((r, w));
    }
    by_v
}

/// An event may come next when all that happen before it are held, and it is not the V of a bar whose W is held and whose R
/// is still to come.
fn may_follow(before: &[Set], by_v: &[Vec<(usize, usize)>], held: Set, next: usize) -> bool {
    let barred = || by_v[next].iter().any(|&(r, w)| has(held, w) && !has(held, r));
    !has(held, next) && before[next] & !held == 0 && !barred()
}

/// Whether some order of the events begins with those held, in some order, and goes on to its end. A set from which no order
/// was found is not tried again: what may follow depends only on which events are held.
fn completes(before: &[Set], by_v: &[Vec<(usize, usize)>], held: Set, nowhere: &mut HashSet<Set>) -> bool {
    let n = before.len();
    if (0..n).all(|e| has(held, e)) {
        return true;
    }
    if nowhere.contains(&held) {
        return false;
    }
    for next in 0..n {
        if may_follow(before, by_v, held, next) && completes(before, by_v, held | 1 << next, nowhere) {
            return true;
        }
    }
    nowhere.insert(held);
    false
}

impl Why {
    /// The word: kinds 1, 2 and 3 as the judge's; kind 8 kept, number 26, how many bars are written.
    pub fn word(&self) -> u64 {
        match self {
            Why::Sheet(answer) => answer.word(),
            Why::Kept(kept) => 8 * (1 << 40) + 26 * (1 << 32) + kept.len() as u64,
        }
    }

    /// The line: `kept N: R W V, R W V, ..`; else the judge's.
    pub fn line(&self) -> String {
        match self {
            Why::Sheet(answer) => answer.line(),
            Why::Kept(kept) => {
                let bars: Vec<String> = kept.iter().map(|(r, w, v)| format!("{r} {w} {v}")).collect();
                format!("kept {}: {}", kept.len(), bars.join(", "))
            }
        }
    }
}

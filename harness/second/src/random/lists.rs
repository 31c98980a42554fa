//! Random sheets with a list of event numbers each (02 §5): orders that meet the rules, orders that happens-before allows and
//! a bar does not, and lists with every other fault, alone and two at once.

use super::*;
use crate::check::{first_fault, places, Checked, Fault};
use crate::judge::Relations;
use crate::sheet::{Execution, Row};
use std::collections::HashSet;

/// A sheet and a list to check.
#[derive(Clone, Debug)]
pub struct ListCase {
    /// Where they come from.
    pub name: String,
    pub sheet: Vec<u8>,
    pub list: Vec<u8>,
}

/// The sheet and list number `index` of a seed, with at most `max` events that are not inits (a few damages need more).
pub fn list_case(seed: u64, index: u64, max: usize) -> ListCase {
    let mut rng = Rng::new(seed.wrapping_mul(0xb492_b66f_be98_f273) ^ index.wrapping_mul(0xd6e8_feb8_6659_fd93));
    let rng = &mut rng;
    let max = max.clamp(1, MAX_OTHERS);
    let (of, sheet) = match rng.below(100) {
        0..=15 => {
            let c = case(rng.draw(), 0, max);
            (c.name, c.sheet)
        }
        16..=57 => mostly_unbroken(rng, max, whole),
        _ => mostly_unbroken(rng, max, sc_heavy),
    };
    let (what, list) = match read(&sheet) {
        Err(_) => ("any", noise(rng, &sheet)),
        Ok(x) => list_of(rng, &x),
    };
    ListCase { name: format!("{seed}-{index}-{of}-{what}"), sheet, list }
}

type Made = fn(&mut Rng, usize) -> (String, Vec<Field>);

/// A whole sheet, mostly one that rules 21 to 25 do not break: else its list is not looked at.
fn mostly_unbroken(rng: &mut Rng, max: usize, made: Made) -> (String, Vec<u8>) {
    let mut tries = 0;
    loop {
        let (name, fields) = made(rng, max);
        let sheet = bytes(&fields);
        tries += 1;
        let broken = |x: Execution| Relations::of(&x).first_broken_rule().is_some();
        if tries == 5 || !read(&sheet).is_ok_and(broken) {
            return (name, sheet);
        }
    }
}

/// Few or many bytes, for a sheet of which there are no events to name.
fn noise(rng: &mut Rng, sheet: &[u8]) -> Vec<u8> {
    let few = rng.below(24);
    let length = rng.pick(&[0, 1, few, sheet.len() % 40]);
    (0..length).map(|i| if rng.percent(80) { i as u8 } else { rng.byte() }).collect()
}

/// A list for a whole sheet.
fn list_of(rng: &mut Rng, x: &Execution) -> (&'static str, Vec<u8>) {
    let m = Relations::of(x);
    let n = x.events.len();
    let mut list = base(rng, &m);
    let what = match rng.below(100) {
        0..=8 => {
            list = m.first_by_prefixes().unwrap_or(list);
            "own"
        }
        9..=18 => {
            list = another(rng, &m).unwrap_or(list);
            "another"
        }
        19..=28 => {
            list = loose(rng, &m, &[]);
            "loose"
        }
        29..=43 => {
            list = through_a_bar(rng, &m);
            "through-a-bar"
        }
        44..=51 => {
            swap_neighbours(rng, &mut list);
            "neighbours"
        }
        52..=57 => {
            move_one(rng, &mut list);
            "moved"
        }
        58..=61 => {
            rng.shuffle(&mut list);
            "shuffled"
        }
        62..=65 => {
            let init = rng.below(x.inits().max(1)) as u8;
            list.retain(|&e| e != init);
            let at = if rng.percent(50) { list.len() } else { rng.range(0, list.len()) };
            list.insert(at, init);
            "init-behind"
        }
        66..=69 => {
            list.truncate(rng.below(n));
            "cut"
        }
        70..=72 => {
            for _ in 0..rng.pick(&[1, 1, 2, 5]) {
                let at = rng.range(0, list.len());
                list.insert(at, rng.range(0, n + 1) as u8);
            }
            "longer"
        }
        73 => {
            list.clear();
            "empty"
        }
        74 => {
            let length = rng.pick(&[255, 256, 256 + n, 257, 65_536, 65_536 + n]);
            list = (0..length).map(|i| (i % n) as u8).collect();
            "long"
        }
        75..=80 => {
            repeat(rng, &mut list);
            "repeated"
        }
        81..=86 => {
            out_of_range(rng, &mut list);
            "out-of-range"
        }
        87..=97 => two_faults(rng, &m, &mut list),
        _ => {
            list = (0..n).map(|_| if rng.percent(95) { rng.below(n) as u8 } else { rng.byte() }).collect();
            "noise"
        }
    };
    (what, list)
}

/// What other lists are made of: mostly an order that meets the rules.
fn base(rng: &mut Rng, m: &Relations) -> Vec<u8> {
    let order = match rng.below(10) {
        0..=3 => m.first_by_prefixes(),
        4..=6 => another(rng, m),
        _ => None,
    };
    order.unwrap_or_else(|| loose(rng, m, &[]))
}

/// An order that meets the rules, found by a search that takes the events as they fall; nothing where there is none.
fn another(rng: &mut Rng, m: &Relations) -> Option<Vec<u8>> {
    fn extend(rng: &mut Rng, m: &Relations, prefix: &mut Vec<u8>, nowhere: &mut HashSet<Vec<bool>>) -> bool {
        let n = m.x.events.len();
        let held: Vec<bool> = (0..n).map(|e| prefix.contains(&(e as u8))).collect();
        if prefix.len() == n {
            return true;
        }
        let mut next: Vec<usize> = (0..n).filter(|&e| !held[e] && m.may_follow(&held, e)).collect();
        rng.shuffle(&mut next);
        if nowhere.contains(&held) {
            return false;
        }
        for e in next {
            prefix.push(e as u8);
            if extend(rng, m, prefix, nowhere) {
                return true;
            }
            prefix.pop();
        }
        nowhere.insert(held);
        false
    }
    let mut order = vec![];
    extend(rng, m, &mut order, &mut HashSet::new()).then_some(order)
}

/// An order as it falls that contains happens-before and these further pairs, whatever the bars say. Where the two go in a
/// circle the rest stands as it falls.
fn loose(rng: &mut Rng, m: &Relations, further: &[(usize, usize)]) -> Vec<u8> {
    let n = m.x.events.len();
    let (mut order, mut left): (Vec<u8>, Vec<usize>) = (vec![], (0..n).collect());
    while !left.is_empty() {
        let first = |&e: &usize| left.iter().all(|&d| !m.before[d][e] && !further.contains(&(d, e)));
        let ready: Vec<usize> = left.iter().copied().filter(first).collect();
        let next = if ready.is_empty() { rng.pick(&left) } else { rng.pick(&ready) };
        order.push(next as u8);
        left.retain(|&e| e != next);
    }
    order
}

/// An order that contains happens-before, with the V of a bar between its W and its R where happens-before allows that.
fn through_a_bar(rng: &mut Rng, m: &Relations) -> Vec<u8> {
    let n = m.x.events.len();
    let mut by: [Vec<(usize, usize, usize)>; 3] = Default::default();
    for row in &m.x.rows {
        for v in 0..n {
            let possible = !m.before[v][row.writer] && !m.before[row.reader][v];
            // by the first of (a), (b) and (c), so that each has its share
            if let Some(reason) = m.reasons(row, v).iter().position(|&holds| holds && possible) {
                by[reason].push((row.writer, v, row.reader));
            }
        }
    }
    by.iter_mut().for_each(|bars| bars.dedup());
    let there: Vec<&Vec<_>> = by.iter().filter(|bars| !bars.is_empty()).collect();
    if there.is_empty() {
        return loose(rng, m, &[]);
    }
    let bars = rng.pick(&there);
    let mut further = vec![];
    for _ in 0..rng.pick(&[1, 1, 1, 2]) {
        let (w, v, r) = rng.pick(bars);
        further.extend([(w, v), (v, r)]);
    }
    loose(rng, m, &further)
}

fn swap_neighbours(rng: &mut Rng, list: &mut [u8]) {
    if list.len() > 1 {
        let i = rng.below(list.len() - 1);
        list.swap(i, i + 1);
    }
}

fn move_one(rng: &mut Rng, list: &mut Vec<u8>) {
    let e = list.remove(rng.below(list.len()));
    let at = rng.range(0, list.len());
    list.insert(at, e);
}

/// A number in place of another: of a later one, an earlier one, the first or the last.
fn repeat(rng: &mut Rng, list: &mut [u8]) {
    let last = list.len() - 1;
    let (any, from) = (rng.range(0, last), rng.range(0, last));
    let to = rng.pick(&[any, 0, last, last]);
    list[to] = if from == to { list[last - to] } else { list[from] };
}

fn out_of_range(rng: &mut Rng, list: &mut [u8]) {
    let n = list.len();
    let (any, number) = (rng.below(n), rng.range(n, 255));
    let to = rng.pick(&[any, 0, n - 1]);
    list[to] = rng.pick(&[n, n, n + 1, 255, 32, 128, number]) as u8;
}

/// Faults of two tests, the later test's mostly in front; or of one test at two places.
fn two_faults(rng: &mut Rng, m: &Relations, list: &mut Vec<u8>) -> &'static str {
    let n = list.len();
    // an event of the front half too early: one that happens before it moved behind it
    let early = |rng: &mut Rng, list: &mut Vec<u8>| {
        let front = rng.below(n.div_ceil(2));
        let e = list[front] as usize;
        let before: Vec<usize> = (0..front).filter(|&i| m.before[list[i] as usize][e]).collect();
        if !before.is_empty() {
            list.swap(rng.pick(&before), front);
        }
    };
    match rng.below(8) {
        0 | 1 => {
            early(rng, list);
            list[n - 1] = list[rng.below(n)];
            "early-and-repeated"
        }
        2 => {
            out_of_range(rng, list);
            list.truncate(rng.range(1, n) - 1);
            "out-of-range-and-cut"
        }
        3 => {
            repeat(rng, list);
            list.push(rng.range(0, n + 1) as u8);
            "repeated-and-longer"
        }
        4 => {
            repeat(rng, list);
            out_of_range(rng, list);
            "repeated-and-out-of-range"
        }
        5 => {
            *list = through_a_bar(rng, m);
            let i = rng.below(n);
            let k = n - 1 - rng.below(n.div_ceil(2));
            list.swap(i, k);
            "barred-and-early"
        }
        6 => {
            early(rng, list);
            let i = rng.below(n);
            list.swap(i, n - 1);
            "early-twice"
        }
        _ => {
            *list = through_a_bar(rng, m);
            out_of_range(rng, list);
            "barred-and-out-of-range"
        }
    }
}

/// All that [`shown_list`] can say. A run of random lists must have seen each.
pub const SHOWN_LISTS: &[&str] = &[
    "accepted, the judge's own order",
    "accepted, another order, orderly",
    "accepted, another order, unsettled",
    "accepted, an init behind another event",
    "1, an empty list",
    "1, too short",
    "1, too long",
    "1, 256 and more",
    "1, 65,536",
    "1, with a number out of range or repeated",
    "2, the number of events",
    "2, one more",
    "2, 255",
    "2, repeated",
    "2, at two places",
    "2, with an event too early in front of it",
    "3, by an init",
    "3, by agent order",
    "3, by a row",
    "3, by a pair",
    "3, at two places",
    "3, and barred",
    "3, of a sheet broken by 26",
    "4, by (a) alone",
    "4, by (b) alone",
    "4, by (c) alone",
    "4, by (c) alone, W is no init",
    "4, W is an init",
    "4, R is a read-modify-write",
    "4, V is a read-modify-write",
    "4, R and W have several rows",
    "4, several V in that row",
    "4, in several rows of other events",
    "4, of a consistent sheet",
    "4, of a sheet broken by 26",
    "the most events, accepted",
    "the most events, 1",
    "the most events, 2",
    "the most events, 3",
    "the most events, 4",
];

/// What a list's answer shows of 02 §5, and of 02 §6: "the most events" are four inits and 18 others.
pub fn shown_list(sheet: &[u8], list: &[u8], answer: &Checked) -> Vec<&'static str> {
    let Ok(x) = read(sheet) else { return vec![] };
    let m = Relations::of(&x);
    let n = x.events.len();
    let mut all = vec![];
    let mut show = |what: &'static str, if_so: bool| {
        if if_so {
            all.push(what);
        }
    };
    let early = |list: &[u8], i: usize| list[i + 1..].iter().any(|&d| m.before[d as usize][list[i] as usize]);
    match *answer {
        Checked::Sheet(_) => {}
        Checked::Accepted => {
            let own = m.first_by_prefixes().as_deref() == Some(list);
            let orderly = m.lowest_unsettled().is_none();
            show("accepted, the judge's own order", own);
            show("accepted, another order, orderly", !own && orderly);
            show("accepted, another order, unsettled", !own && !orderly);
            let place = places(list);
            show("accepted, an init behind another event", (0..x.inits()).any(|e| place[e] >= x.inits()));
        }
        Checked::NotAccepted(Fault::WrongLength(length)) => {
            show("1, an empty list", length == 0);
            show("1, too short", length < n);
            show("1, too long", length > n);
            show("1, 256 and more", length >= 256);
            show("1, 65,536", length == 65_536);
            let bad = |i: usize| list[i] as usize >= n || list[..i].contains(&list[i]);
            show("1, with a number out of range or repeated", length < n && (0..length).any(bad));
        }
        Checked::NotAccepted(Fault::BadNumber(i)) => {
            let number = list[i] as usize;
            show("2, the number of events", number == n);
            show("2, one more", number == n + 1);
            show("2, 255", number == 255);
            show("2, repeated", number < n);
            let bad = |k: usize| list[k] as usize >= n || list[..k].contains(&list[k]);
            show("2, at two places", (i + 1..n).any(bad));
            show("2, with an event too early in front of it", (0..i).any(|k| early(&list[..i], k)));
        }
        Checked::NotAccepted(Fault::TooEarly(i)) => {
            let e = list[i] as usize;
            let behind: Vec<usize> = list[i + 1..].iter().map(|&d| d as usize).collect();
            let init = |d: usize| x.events[d].is_init() && x.events[d].overlaps(&x.events[e]);
            let agent = |d: usize| d < e && x.events[d].agent == x.events[e].agent && !x.events[d].is_init();
            let row = |d: usize| x.rows.iter().any(|r| (r.writer, r.reader) == (d, e)) && m.sync[d][e];
            let pair = |d: usize| x.pairs.contains(&(d, e));
            let by = [
                behind.iter().any(|&d| init(d)),
                behind.iter().any(|&d| agent(d)),
                behind.iter().any(|&d| row(d)),
                behind.iter().any(|&d| pair(d)),
            ];
            show("3, by an init", by == [true, false, false, false]);
            show("3, by agent order", by == [false, true, false, false]);
            show("3, by a row", by == [false, false, true, false]);
            show("3, by a pair", by == [false, false, false, true]);
            // never by a chain alone: what stands in the chain's middle would be too early itself, or stand behind too
            debug_assert_ne!(by, [false; 4]);
            show("3, at two places", (i + 1..n).any(|k| early(list, k)));
            show("3, and barred", !broken_bars(&m, list).is_empty());
            show("3, of a sheet broken by 26", m.first_by_prefixes().is_none());
        }
        Checked::NotAccepted(Fault::Barred(row, v)) => {
            let reasons = m.reasons(&row, v);
            show("4, by (a) alone", reasons == [true, false, false]);
            show("4, by (b) alone", reasons == [false, true, false]);
            show("4, by (c) alone", reasons == [false, false, true]);
            let init = x.events[row.writer].is_init();
            show("4, by (c) alone, W is no init", reasons == [false, false, true] && !init);
            show("4, W is an init", init);
            show("4, R is a read-modify-write", x.events[row.reader].writing(row.address).is_some());
            show("4, V is a read-modify-write", x.events[v].reads());
            let bars = broken_bars(&m, list);
            let same = |r: &Row| (r.reader, r.writer) == (row.reader, row.writer);
            show("4, R and W have several rows", bars.iter().any(|(r, _)| same(r) && r.address != row.address));
            show("4, several V in that row", bars.iter().any(|(r, u)| *r == row && *u != v));
            show("4, in several rows of other events", bars.iter().any(|(r, _)| !same(r)));
            let consistent = m.first_by_prefixes().is_some();
            show("4, of a consistent sheet", consistent);
            show("4, of a sheet broken by 26", !consistent);
            debug_assert_eq!(first_fault(&x, &m, list), Some(Fault::Barred(row, v)));
        }
    }
    if x.inits() == MAX_INITS && x.others() == MAX_OTHERS {
        match answer {
            Checked::Sheet(_) => {}
            Checked::Accepted => all.push("the most events, accepted"),
            Checked::NotAccepted(fault) => all.push(match fault.number() {
                1 => "the most events, 1",
                2 => "the most events, 2",
                3 => "the most events, 3",
                _ => "the most events, 4",
            }),
        }
    }
    all
}

/// Every row and V that a list of all events breaks.
fn broken_bars(m: &Relations, list: &[u8]) -> Vec<(Row, usize)> {
    let place = places(list);
    let between = |r: &Row, v: usize| place[r.writer] < place[v] && place[v] < place[r.reader];
    let all = m.x.rows.iter().flat_map(|r| (0..list.len()).map(move |v| (*r, v)));
    all.filter(|(r, v)| between(r, *v) && m.bar(r, *v)).collect()
}

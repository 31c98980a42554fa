//! Relations, rules 21 to 26, the first order and the lowest unsettled pair, each by its definition in document 01. 02 §11:
//! "Overlap, equal ranges, sc, tearing and every rule are taken access by access within a region; happens-before and the
//! total order stay common to all." So each test below is of accesses, of whatever events; a byte's number has its region.

use crate::answer::{needed_scratch, Answer};
use crate::sheet::{read, Access, Execution, Row};
use std::collections::HashSet;

/// Up to so many events, inits included, all orders are tried in turn; above, prefixes are extended.
pub const ALL_ORDERS_UP_TO: usize = 7;

/// The answer for a sheet, with a scratch and an order buffer of these lengths.
pub fn judge(sheet: &[u8], scratch_len: usize, order_len: usize) -> Answer {
    let x = match read(sheet) {
        Ok(x) => x,
        Err((number, place)) => return Answer::Refused { number, place },
    };
    // "scratch too short"
    if scratch_len < needed_scratch(&x) {
        return Answer::Refused { number: 12, place: 0 };
    }
    // "order buffer shorter than the number of events"
    if order_len < x.events.len() {
        return Answer::Refused { number: 13, place: 0 };
    }
    verdict(&x)
}

/// The answer for what a whole sheet says.
pub fn verdict(x: &Execution) -> Answer {
    let m = Relations::of(x);
    if let Some(broken) = m.first_broken_rule() {
        return broken;
    }
    let order = if x.events.len() <= ALL_ORDERS_UP_TO { m.first_of_all_orders() } else { m.first_by_prefixes() };
    match order {
        None => Answer::Broken { number: 26, names: [None; 4] },
        Some(order) => Answer::Consistent { order, pair: m.lowest_unsettled() },
    }
}

/// The relations of 01 over an execution's events.
pub struct Relations<'a> {
    pub x: &'a Execution,
    /// `sync[w][r]`: W synchronises with R.
    pub sync: Vec<Vec<bool>>,
    /// `before[e][d]`: E happens before D.
    pub before: Vec<Vec<bool>>,
}

impl<'a> Relations<'a> {
    pub fn of(x: &'a Execution) -> Self {
        let n = x.events.len();
        let e = &x.events;
        // "W synchronises with R: each pair, first to second; and each row where both events are sc with equal ranges
        // (same start and width)."
        let mut sync = vec![vec![false; n]; n];
        for &(first, second) in &x.pairs {
            sync[first][second] = true;
        }
        for r in &x.rows {
            if synchronises(ends(x, r)) {
                sync[r.writer][r.reader] = true;
            }
        }
        // "Happens-before: the transitive closure of agent order, synchronises-with, and init to every other event
        // whose range overlaps it."
        let mut before = sync.clone();
        for a in 0..n {
            for b in 0..n {
                // "Agent order: earlier to later event of the same agent. Inits have none."
                if a < b && e[a].agent == e[b].agent && !e[a].is_init() && !e[b].is_init() {
                    before[a][b] = true;
                }
                if a != b && e[a].is_init() && e[a].overlaps(&e[b]) {
                    before[a][b] = true;
                }
            }
        }
        loop {
            let mut grew = false;
            for a in 0..n {
                for b in 0..n {
                    for c in 0..n {
                        if before[a][b] && before[b][c] && !before[a][c] {
                            before[a][c] = true;
                            grew = true;
                        }
                    }
                }
            }
            if !grew {
                break;
            }
        }
        Relations { x, sync, before }
    }

    /// Rules 21 to 25: "Each is tested over the whole sheet before the next. Rows are taken in order; then the lowest
    /// V. For 22 the lowest event, for 25 the lowest (R, W, V)."
    pub fn first_broken_rule(&self) -> Option<Answer> {
        let e = &self.x.events;
        let n = e.len();
        let name = |event: usize| Some(event as u8);
        let broken = |number, names| Some(Answer::Broken { number, names });

        // 21: "the byte seen differs from the byte its writer wrote"
        for r in &self.x.rows {
            let (reader, writer) = ends(self.x, r);
            if reader.seen_at(r.address) != writer.written_at(r.address) {
                return broken(21, [name(r.reader), name(r.writer), None, name(r.address)]);
            }
        }
        // 22: "an event happens before itself"
        for a in 0..n {
            if self.before[a][a] {
                return broken(22, [name(a), None, None, None]);
            }
        }
        // 23: "in a row, R happens before W"
        for r in &self.x.rows {
            if self.before[r.reader][r.writer] {
                return broken(23, [name(r.reader), name(r.writer), None, name(r.address)]);
            }
        }
        // 24: "in a row, a writing V covers A, W happens before V and V before R"
        for r in &self.x.rows {
            for v in 0..n {
                if v != r.reader
                    && v != r.writer
                    && e[v].writing(r.address).is_some()
                    && self.before[r.writer][v]
                    && self.before[v][r.reader]
                {
                    return broken(24, [name(r.reader), name(r.writer), name(v), name(r.address)]);
                }
            }
        }
        // 25: "R, W, V tear-free with equal ranges, W < V, and R has rows from both"; both rows of one access of R
        let has_row = |r: usize, a: &Access, w: usize| {
            let from = |row: &&Row| row.reader == r && row.writer == w && a.covers(row.address);
            let whole = e[w].accesses.iter().any(|b| b.writes() && b.tear_free && b.equal_range(a));
            whole && self.x.rows.iter().any(|row| from(&row))
        };
        for r in 0..n {
            for w in 0..n {
                for v in w + 1..n {
                    let torn = |a: &Access| a.reads() && a.tear_free && has_row(r, a, w) && has_row(r, a, v);
                    if e[r].accesses.iter().any(torn) {
                        return broken(25, [name(r), name(w), name(v), None]);
                    }
                }
            }
        }
        None
    }

    /// For a row (R, W) and an event V: whether 01 forbids V "placed after W and before R".
    pub fn bar(&self, row: &Row, v: usize) -> bool {
        self.reasons(row, v).contains(&true)
    }

    /// (a), (b) and (c) for a row (R, W) and an event V.
    pub fn reasons(&self, row: &Row, v: usize) -> [bool; 3] {
        let (r, w) = (row.reader, row.writer);
        let (reader, writer) = ends(self.x, row);
        // "a writing sc event V"; V is another event than R and W, or it could not stand between them
        if v == r || v == w {
            return [false; 3];
        }
        let equal_to = |a: &Access| self.x.events[v].accesses.iter().any(|b| b.writes() && b.sc() && b.equal_range(a));
        // "(a) W synchronises with R, and V, R have equal ranges"; 02 §11: "by that row's own two accesses"
        let a = synchronises((reader, writer)) && equal_to(reader);
        // "(b) W and V happen before R, W is sc, and W, V have equal ranges"
        let b = self.before[w][r] && self.before[v][r] && writer.sc() && equal_to(writer);
        // "(c) W happens before R and before V, R is sc, and V, R have equal ranges"
        let c = self.before[w][r] && self.before[w][v] && reader.sc() && equal_to(reader);
        [a, b, c]
    }

    /// "A total order of all events meets the rules when it contains happens-before and there is no row (R, W) and
    /// writing sc event V placed after W and before R with any of" (a), (b), (c).
    pub fn meets(&self, order: &[usize]) -> bool {
        let n = self.x.events.len();
        let mut place = vec![0; n];
        for (i, &event) in order.iter().enumerate() {
            place[event] = i;
        }
        for a in 0..n {
            for b in 0..n {
                if self.before[a][b] && place[a] >= place[b] {
                    return false;
                }
            }
        }
        for row in &self.x.rows {
            let (r, w) = (row.reader, row.writer);
            for v in 0..n {
                if place[w] < place[v] && place[v] < place[r] && self.bar(row, v) {
                    return false;
                }
            }
        }
        true
    }

    /// "Of all such orders the first, compared event number by event number": every order in turn, from 0 1 2 ..
    pub fn first_of_all_orders(&self) -> Option<Vec<u8>> {
        let mut order: Vec<usize> = (0..self.x.events.len()).collect();
        loop {
            if self.meets(&order) {
                return Some(order.iter().map(|&e| e as u8).collect());
            }
            if !next_order(&mut order) {
                return None;
            }
        }
    }

    /// The same for more events: prefixes are extended by the lowest event first, a prefix is given up when the
    /// definition already fails on it, and a set of events that led nowhere is not tried again. That a set is enough
    /// to remember: which events may follow a prefix depends only on which events it holds.
    pub fn first_by_prefixes(&self) -> Option<Vec<u8>> {
        let mut prefix = vec![];
        let mut nowhere = HashSet::new();
        self.extend(&mut prefix, &mut nowhere).then(|| prefix.iter().map(|&e| e as u8).collect())
    }

    fn extend(&self, prefix: &mut Vec<usize>, nowhere: &mut HashSet<Vec<bool>>) -> bool {
        let n = self.x.events.len();
        if prefix.len() == n {
            return true;
        }
        let held: Vec<bool> = (0..n).map(|e| prefix.contains(&e)).collect();
        if nowhere.contains(&held) {
            return false;
        }
        for next in 0..n {
            if !held[next] && self.may_follow(&held, next) {
                prefix.push(next);
                if self.extend(prefix, nowhere) {
                    return true;
                }
                prefix.pop();
            }
        }
        nowhere.insert(held);
        false
    }

    /// Whether `next` may be placed after the events held: all that happen before it are placed, and it is not the V of
    /// a row whose W is placed and whose R is still to come, hence after it.
    pub fn may_follow(&self, held: &[bool], next: usize) -> bool {
        let all_before = (0..held.len()).all(|e| !self.before[e][next] || held[e]);
        let barred = self.x.rows.iter().any(|r| held[r.writer] && !held[r.reader] && self.bar(r, next));
        all_before && !barred
    }

    /// "Unsettled pair (e, d), e < d: ranges overlap, one or both write, neither happens before the other, and they are
    /// not both sc with equal ranges. Orderly: no such pair. Otherwise the lowest pair is named."
    pub fn lowest_unsettled(&self) -> Option<(u8, u8)> {
        let e = &self.x.events;
        let clash = |p: &Access, q: &Access| {
            p.overlaps(q) && (p.writes() || q.writes()) && !(p.sc() && q.sc() && p.equal_range(q))
        };
        for a in 0..e.len() {
            for b in a + 1..e.len() {
                let clashes = e[a].accesses.iter().any(|p| e[b].accesses.iter().any(|q| clash(p, q)));
                if clashes && !self.before[a][b] && !self.before[b][a] {
                    return Some((a as u8, b as u8));
                }
            }
        }
        None
    }
}

/// The row's own two accesses: the one that reads its byte, and the one that writes it.
pub fn ends<'a>(x: &'a Execution, r: &Row) -> (&'a Access, &'a Access) {
    let reader = x.events[r.reader].reading(r.address);
    let writer = x.events[r.writer].writing(r.address);
    (reader.expect("the reader of a row reads its byte"), writer.expect("the writer of a row writes its byte"))
}

/// "each row where both events are sc with equal ranges (same start and width)"
fn synchronises((reader, writer): (&Access, &Access)) -> bool {
    reader.sc() && writer.sc() && reader.equal_range(writer)
}

/// The next order of the same numbers, compared number by number; false after the last.
pub fn next_order(order: &mut [usize]) -> bool {
    let Some(i) = (1..order.len()).rev().find(|&i| order[i - 1] < order[i]) else {
        return false;
    };
    let j = (i..order.len()).rev().find(|&j| order[j] > order[i - 1]).unwrap();
    order.swap(i - 1, j);
    order[i..].reverse();
    true
}

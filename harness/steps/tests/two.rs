//! Random executions with one or two accesses an event: happens-before, the first broken rule with its names, all bars
//! and the unsettled pair, by the proved steps and by the second program.

use second::judge::{ends, Relations};
use second::random::Rng;
use second::sheet::{Access, Event, Execution};
use second::Answer;
use std::collections::BTreeMap;
use steps::doors::{Tables, ROWS, SLOTS};
use steps::random::execution;

/// The tables' length is the code's.
#[test]
fn rows_as_in_the_code() {
    let code = include_str!("../../../crates/tables/src/lib.rt");
    assert!(code.contains(&format!("pub const ROWS: usize = {ROWS};")));
    assert!(code.contains("pub const ROW_CELLS: usize = 5 * ROWS;"));
}

/// What came up, so that nothing is left untried.
struct Tally(BTreeMap<&'static str, usize>);

const ALL: [&str; 18] = [
    "two accesses",
    "32 events",
    "broken 21",
    "broken 22",
    "broken 23",
    "broken 24",
    "broken 25",
    "broken 21 by a second access",
    "broken 24 by a second access",
    "broken 25 by a second access",
    "kept",
    "bar (a)",
    "bar (b)",
    "bar (c)",
    "bar by a second access",
    "orderly",
    "unsettled",
    "unsettled by a second access",
];

impl Tally {
    fn note(&mut self, what: &'static str, when: bool) {
        assert!(ALL.contains(&what));
        *self.0.entry(what).or_default() += usize::from(when);
    }
}

/// The event without its second access.
fn first_alone(e: &Event) -> Event {
    Event { accesses: e.accesses[..1].to_vec(), ..e.clone() }
}

/// The mask of the events that pass.
fn mask(n: usize, f: impl Fn(usize) -> bool) -> u32 {
    (0..n).filter(|&e| f(e)).fold(0, |m, e| m | 1 << e)
}

fn compare(x: &Execution, tables: &mut Tables, tally: &mut Tally) {
    let n = x.events.len();
    tables.fill(x);
    let said = tables.steps(x);
    let m = Relations::of(x);
    for e in 0..SLOTS {
        assert_eq!(said.succ[e], mask(n, |d| e < n && m.before[e][d]), "after {e}: {x:?}");
        assert_eq!(said.pred[e], mask(n, |d| e < n && m.before[d][e]), "before {e}: {x:?}");
    }
    let broken = m.first_broken_rule();
    assert_eq!(said.rule, broken.as_ref().map_or(0, Answer::word), "{broken:?}: {x:?}");
    let mut bars = vec![0; SLOTS * SLOTS];
    for row in &x.rows {
        for v in 0..n {
            if m.bar(row, v) {
                bars[v * SLOTS + row.writer] |= 1 << row.reader;
            }
        }
    }
    assert_eq!(said.bars, bars, "{x:?}");
    let pair = m.lowest_unsettled();
    assert_eq!(said.settled, Answer::Consistent { order: vec![], pair }.word(), "{pair:?}: {x:?}");
    count(x, &m, broken, pair, tally);
}

fn count(x: &Execution, m: &Relations, broken: Option<Answer>, pair: Option<(u8, u8)>, tally: &mut Tally) {
    let e = &x.events;
    tally.note("two accesses", e.iter().any(|e| e.accesses.len() == 2));
    tally.note("32 events", e.len() == SLOTS);
    tally.note("kept", broken.is_none());
    if let Some(Answer::Broken { number, names }) = broken {
        let [r, w, v, byte] = names.map(|n| n.map_or(0, usize::from));
        match number {
            21 => {
                tally.note("broken 21", true);
                tally.note("broken 21 by a second access", first_alone(&e[r]).reading(byte).is_none());
            }
            22 => tally.note("broken 22", true),
            23 => tally.note("broken 23", true),
            24 => {
                tally.note("broken 24", true);
                tally.note("broken 24 by a second access", first_alone(&e[v]).writing(byte).is_none());
            }
            _ => {
                tally.note("broken 25", true);
                let from = |a: &Access, w| x.rows.iter().any(|q| (q.reader, q.writer) == (r, w) && a.covers(q.address));
                let first = &e[r].accesses[0];
                tally.note("broken 25 by a second access", !(from(first, w) && from(first, v)));
            }
        }
    }
    for row in &x.rows {
        for v in 0..e.len() {
            let reasons = m.reasons(row, v);
            tally.note("bar (a)", reasons[0]);
            tally.note("bar (b)", reasons[1]);
            tally.note("bar (c)", reasons[2]);
            let second = || first_alone(&e[v]).writing(row.address).is_none();
            tally.note("bar by a second access", reasons.contains(&true) && second());
        }
    }
    tally.note("orderly", pair.is_none());
    tally.note("unsettled", pair.is_some());
    if let Some((a, b)) = pair {
        let (a, b) = (&e[a as usize], &e[b as usize]);
        tally.note("unsettled by a second access", !first_alone(a).overlaps(&first_alone(b)));
    }
    // the ends of each row are what the tables were filled with
    assert!(x.rows.iter().all(|r| ends(x, r).0.covers(r.address) && ends(x, r).1.covers(r.address)));
}

#[test]
fn random_executions() {
    let count = if cfg!(debug_assertions) { 5_000 } else { 100_000 };
    let mut rng = Rng::new(1);
    let mut tables = Tables::new(|| rng.byte());
    let mut tally = Tally(BTreeMap::new());
    for index in 0..count {
        compare(&execution(1, index), &mut tables, &mut tally);
    }
    println!("{count} random executions, one or two accesses an event, as the second program says");
    let times = |what: &str| tally.0.get(what).copied().unwrap_or(0);
    for what in ALL {
        println!("{:>8} {what}", times(what));
    }
    let few: Vec<&str> =
        ALL.into_iter().filter(|what| times(what) < if cfg!(debug_assertions) { 1 } else { 100 }).collect();
    assert!(few.is_empty(), "came up too seldom: {}", few.join(", "));
}

//! The proved steps, and the tables they work on (crates/tables/specs/Tables.antt, crates/before/specs/Before.antt).

use second::sheet::{Access, Execution, Kind, Mode};

/// Events that a table has a place for; two slots for accesses to each.
pub const SLOTS: usize = 32;
/// Agents, then by slot kind, mode, start, width, tear.
const COLUMNS: usize = SLOTS + 5 * 2 * SLOTS;
/// Rows that a table has a place for (`tables::ROWS`): columns reader, byte, writer, seen, wrote.
pub const ROWS: usize = 288;
const ROW_CELLS: usize = 5 * ROWS;
/// Pairs that a table has a place for: columns first, second.
const PAIRS: usize = 32;
/// At v * 32 + w the mask of R.
const BARS: usize = SLOTS * SLOTS;

// A slice is a pointer and then a length, an array a pointer.
extern "C" {
    fn steps_rule(
        t: *const u8,
        events: usize,
        q: *const u8,
        rows: usize,
        p: *const u8,
        pairs: usize,
        succ: *mut u32,
        pred: *mut u32,
    ) -> u64;
    fn steps_bars(
        t: *const u8,
        events: usize,
        succ: *const u32,
        pred: *const u32,
        q: *const u8,
        rows: usize,
        bars: *mut u32,
        bars_len: usize,
    ) -> u64;
}

/// The tables of one execution after another. What stands beyond its counts is left from those before, or random: only a
/// slot without an access has width 0.
pub struct Tables {
    accesses: [u8; COLUMNS],
    rows: [u8; ROW_CELLS],
    pairs: [u8; 2 * PAIRS],
}

/// What the steps say of an execution.
pub struct Said {
    pub succ: [u32; SLOTS],
    pub pred: [u32; SLOTS],
    /// The word of the broken rule; 0 where all are kept.
    pub rule: u64,
    pub bars: Vec<u32>,
    /// The word of a consistent answer.
    pub settled: u64,
}

impl Tables {
    pub fn new(mut byte: impl FnMut() -> u8) -> Self {
        let mut t = Tables { accesses: [0; COLUMNS], rows: [0; ROW_CELLS], pairs: [0; 2 * PAIRS] };
        t.accesses.fill_with(&mut byte);
        t.rows.fill_with(&mut byte);
        t.pairs.fill_with(&mut byte);
        t
    }

    pub fn fill(&mut self, x: &Execution) {
        assert!(x.events.len() <= SLOTS && x.rows.len() <= ROWS && x.pairs.len() <= PAIRS);
        for e in 0..SLOTS {
            let event = x.events.get(e);
            if let Some(event) = event {
                assert!(event.accesses.len() <= 2);
                self.accesses[e] = event.agent;
            }
            for i in 0..2 {
                self.put(2 * e + i, event.and_then(|event| event.accesses.get(i)));
            }
        }
        for (j, r) in x.rows.iter().enumerate() {
            let (reader, writer) = second::judge::ends(x, r);
            let row = [
                r.reader as u8,
                r.address as u8,
                r.writer as u8,
                reader.seen_at(r.address),
                writer.written_at(r.address),
            ];
            for (column, b) in row.iter().enumerate() {
                self.rows[column * ROWS + j] = *b;
            }
        }
        for (j, &(first, second)) in x.pairs.iter().enumerate() {
            self.pairs[j] = first as u8;
            self.pairs[PAIRS + j] = second as u8;
        }
    }

    fn put(&mut self, k: usize, access: Option<&Access>) {
        let column = |c: usize| SLOTS + c * 2 * SLOTS + k;
        let Some(a) = access else {
            self.accesses[column(3)] = 0;
            return;
        };
        let kind = match a.kind {
            Kind::Read => 1,
            Kind::Write => 2,
            Kind::ReadModifyWrite => 3,
            Kind::Marker => 4,
        };
        let mode = match a.mode {
            Mode::Init => 0,
            Mode::Unordered => 1,
            Mode::Sc => 2,
        };
        for (c, b) in [kind, mode, a.start as u8, a.width as u8, a.tear_free as u8].iter().enumerate() {
            self.accesses[column(c)] = *b;
        }
    }

    /// The steps, two and two, with empty masks to begin with.
    pub fn steps(&self, x: &Execution) -> Said {
        let (events, rows, pairs) = (x.events.len(), x.rows.len(), x.pairs.len());
        let (t, q, p) = (self.accesses.as_ptr(), self.rows.as_ptr(), self.pairs.as_ptr());
        let (mut succ, mut pred) = ([0; SLOTS], [0; SLOTS]);
        let mut bars = vec![0; BARS];
        // Every pointer is to an array of the length that the function's type has; nothing is kept.
        let (rule, settled) = unsafe {
            let rule = steps_rule(t, events, q, rows, p, pairs, succ.as_mut_ptr(), pred.as_mut_ptr());
            let settled = steps_bars(t, events, succ.as_ptr(), pred.as_ptr(), q, rows, bars.as_mut_ptr(), BARS);
            (rule, settled)
        };
        Said { succ, pred, rule, bars, settled }
    }
}

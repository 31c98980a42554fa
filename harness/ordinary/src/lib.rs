//! An ordinary Rust judge to measure the proved one against: the best that we could write by the same method, for editions
//! 1 and 2. What it answers is compared with the second program. `check` is a check of a list (02 §5) over the same tables.
//!
//! What makes it quick: a field that passes is read by a few tests without jumps between them; rows of the same reader and
//! writer are one run; the sets of bytes and of events are masks; happens-before grows an edge at a time and leaves the
//! inits out, of which everything asked is known; whatever is rare (a refusal, a broken rule) is only noticed, and looked
//! for again apart.

#![no_std]

mod check;
mod read;

pub use check::check;
use core::mem::MaybeUninit;
use read::{Read, Run};

/// The head's limits and the sheet's, as document 01 gives them.
const MAX_SHEET: usize = 4096;
const MAX_INITS: usize = 4;
const MAX_OTHERS: usize = 18;
const MAX_PAIRS: usize = 32;
/// A run has at least one row, and a reader at most eight.
const MAX_RUNS: usize = 8 * MAX_OTHERS;
/// Slots of a table over events: as many as a mask has bits; and of one that is gone over from end to end.
const SLOTS: usize = 32;
const ROWS: usize = 24;

const READ: u8 = 1;
const WRITE: u8 = 2;
const RMW: u8 = 3;
const MARKER: u8 = 4;
const INIT: u8 = 0;
const UNORDERED: u8 = 1;
const SC: u8 = 2;

/// The word of document 01.
pub fn judge(sheet: &[u8], scratch: &mut [u8], order: &mut [u8]) -> u64 {
    let mut read = Read::new();
    if let Err((number, place)) = read.sheet(sheet) {
        return refused(number, place);
    }
    let n = read.events - read.inits;
    let needed = ((1usize << n) / 8).max(1);
    if scratch.len() < needed {
        return refused(12, 0);
    }
    if order.len() < read.events {
        return refused(13, 0);
    }
    let marks = &mut scratch[..needed];
    marks.fill(0);
    if read.differs {
        let (reader, address, writer) = read.differing(sheet);
        return broken(21, [reader, writer, 255, address]);
    }
    let mut t = Tables::new();
    t.fill(sheet, &read);
    if t.breaks(&read) {
        let (number, names) = t.broken(sheet, &read);
        return broken(number, names);
    }
    let mut bars = Bars::new();
    bars.fill(&t, &read);
    if !bars.first_order(&t, &read, marks, order) {
        return (2 << 40) + (26 << 32) + u32::MAX as u64;
    }
    match t.unsettled(&read) {
        None => (3 << 40) + u32::MAX as u64,
        Some((e, d)) => (3 << 40) + (1 << 32) + u32::from_be_bytes([e, d, 255, 255]) as u64,
    }
}

fn refused(number: u8, place: usize) -> u64 {
    (1 << 40) + ((number as u64) << 32) + place as u64
}

fn broken(number: u8, names: [u8; 4]) -> u64 {
    (2 << 40) + ((number as u64) << 32) + u32::from_be_bytes(names) as u64
}

fn bit(mask: u32, e: usize) -> bool {
    mask >> (e & 31) & 1 != 0
}

/// A transitive relation over events, by rows and by columns.
#[derive(Clone, Copy)]
struct Relation {
    succ: [u32; SLOTS],
    pred: [u32; SLOTS],
    /// Some event comes before itself.
    cycle: bool,
}

impl Relation {
    /// More of it: all up to one of the first come before all from one of the second on. Of these two sets one is a single
    /// event, and where no cycle comes of it that is the closure.
    #[inline(always)]
    fn add(&mut self, up_to: u32, from: u32) {
        self.cycle |= up_to & from != 0;
        for (e, row) in self.succ[..ROWS].iter_mut().enumerate() {
            *row |= if up_to & 1 << e != 0 { from } else { 0 };
        }
        for (e, row) in self.pred[..ROWS].iter_mut().enumerate() {
            *row |= if from & 1 << e != 0 { up_to } else { 0 };
        }
    }

    /// The event and all before it; and all behind it.
    #[inline(always)]
    fn up_to(&self, e: usize) -> u32 {
        self.pred[e & 31] | 1 << e
    }
    #[inline(always)]
    fn from(&self, e: usize) -> u32 {
        self.succ[e & 31] | 1 << e
    }
}

/// Happens-before, and what else is asked by event; every set of events is a mask.
///
/// Inits happen before every event that overlaps them and those behind, and nothing before them. Where an init is asked for
/// as a writer W, each event in question shares a byte with it: so its row of successors is full, and no set of
/// predecessors holds one.
struct Tables {
    before: Relation,
    /// By range of an sc access, the events that write there as sc ones; none at 0. Slots of other ranges hold nothing.
    writers: [MaybeUninit<u32>; 128],
}

impl Tables {
    fn new() -> Tables {
        Tables {
            before: Relation { succ: [0; SLOTS], pred: [0; SLOTS], cycle: false },
            writers: [const { MaybeUninit::uninit() }; 128],
        }
    }

    #[inline(always)]
    fn fill(&mut self, sheet: &[u8], r: &Read) {
        let t = self;
        t.writers[0].write(0);
        for e in r.inits..r.events {
            t.writers[r.event(e).sc as usize & 127].write(0);
        }
        for e in r.inits..r.events {
            let event = r.event(e);
            let agent = r.of_agent[event.agent as usize & 15];
            t.before.succ[e & 31] = agent & u32::MAX << e << 1;
            t.before.pred[e & 31] = agent & ((1 << e) - 1);
            // SAFETY: written above.
            let slot = unsafe { t.writers[event.sc as usize & 127].assume_init_mut() };
            *slot |= u32::from(event.writes != 0 && event.sc != 0) << e;
        }
        for run in r.runs() {
            let (reader, writer) = (run.reader as usize, run.writer as usize);
            if synchronised(r, run) && !bit(t.before.succ[writer & 31], reader) {
                t.before.add(t.before.up_to(writer), t.before.from(reader));
            }
        }
        for (first, second) in r.pairs(sheet) {
            t.before.add(t.before.up_to(first), t.before.from(second));
        }
        for e in 0..r.inits {
            t.before.succ[e & 31] = u32::MAX;
        }
    }

    /// The sc events that write the whole range of this sc one; none for other events.
    #[inline(always)]
    fn equal(&self, r: &Read, e: usize) -> u32 {
        // SAFETY: `fill` has written the slot of each event's range, and 0.
        unsafe { self.writers[r.event(e).sc as usize & 127].assume_init() }
    }

    /// Whether a rule from 22 to 25 is broken.
    #[inline(always)]
    fn breaks(&self, r: &Read) -> bool {
        let mut hit = self.before.cycle as u32;
        let mut last = u8::MAX;
        let mut wholes = 0u32; // the tear-free writers with the reader's range
        for run in r.runs() {
            let (e, w) = (run.reader as usize & 31, run.writer as usize & 31);
            hit |= self.before.succ[e] >> w & 1;
            hit |= run.over & self.before.succ[w] & self.before.pred[e];
            let (read, write) = (r.event(e), r.event(w));
            let whole = read.whole == write.whole && read.whole != 0;
            wholes = if run.reader == last { wholes } else { 0 } | u32::from(whole) << w;
            last = run.reader;
            hit |= wholes & wholes.wrapping_sub(1);
        }
        hit != 0
    }

    /// The first rule from 22 to 25 that is broken, and its names.
    #[cold]
    fn broken(&self, sheet: &[u8], r: &Read) -> (u8, [u8; 4]) {
        for e in r.inits..r.events {
            if bit(self.before.succ[e], e) {
                return (22, [e as u8, 255, 255, 255]);
            }
        }
        for (reader, address, writer) in r.rows(sheet) {
            if bit(self.before.succ[reader as usize & 31], writer as usize) {
                return (23, [reader, writer, 255, address]);
            }
        }
        for (reader, address, writer) in r.rows(sheet) {
            let over = r.writers[address as usize & 63];
            let between = over & self.before.succ[writer as usize & 31] & self.before.pred[reader as usize & 31];
            if between != 0 {
                return (24, [reader, writer, between.trailing_zeros() as u8, address]);
            }
        }
        let mut wholes = [0u32; SLOTS];
        for run in r.runs() {
            let (read, write) = (r.event(run.reader as usize), r.event(run.writer as usize));
            let whole = read.whole == write.whole && read.whole != 0;
            wholes[run.reader as usize & 31] |= u32::from(whole) << run.writer;
        }
        let e = wholes.iter().position(|w| w & w.wrapping_sub(1) != 0).unwrap_or(0);
        let (w, v) = (wholes[e].trailing_zeros(), (wholes[e] & wholes[e].wrapping_sub(1)).trailing_zeros());
        (25, [e as u8, w as u8, v as u8, 255])
    }

    /// For a row's R and W: the V for which (a), (b) or (c) forbids W, V, R in that order.
    #[inline(always)]
    fn barred(&self, r: &Read, run: &Run) -> u32 {
        let (e, w) = (run.reader as usize & 31, run.writer as usize & 31);
        let (as_reader, as_writer) = (self.equal(r, e), self.equal(r, w));
        let (succ, pred) = (self.before.succ[w], self.before.pred[e]);
        let a = if synchronised(r, run) { as_reader } else { 0 };
        let b_or_c = if bit(succ, e) { as_writer & pred | as_reader & succ } else { 0 };
        (a | b_or_c) & !(1 << e | 1 << w)
    }

    /// The lowest unsettled pair.
    #[inline(always)]
    fn unsettled(&self, r: &Read) -> Option<(u8, u8)> {
        let (mut reads, mut writes) = (0u32, 0u32);
        for e in r.inits..r.events {
            reads |= u32::from(r.event(e).reads != 0) << e;
            writes |= u32::from(r.event(e).writes != 0) << e;
        }
        for e in r.inits..r.events {
            let event = r.event(e);
            let mine = event.reads | event.writes;
            let partners = writes | if event.writes != 0 { reads } else { 0 };
            let mut left = partners & !(self.before.succ[e & 31] | self.before.pred[e & 31]) & u32::MAX << e << 1;
            while left != 0 {
                let d = left.trailing_zeros() as usize;
                let other = r.event(d);
                if mine & (other.reads | other.writes) != 0 && (event.sc != other.sc || event.sc == 0) {
                    return Some((e as u8, d as u8));
                }
                left &= left - 1;
            }
        }
        None
    }
}

/// In a run, W synchronises with R.
#[inline(always)]
fn synchronised(r: &Read, run: &Run) -> bool {
    let (read, write) = (r.event(run.reader as usize), r.event(run.writer as usize));
    read.sc == write.sc && read.sc != 0
}

/// Bars (R, W, V) of a run, all V.
#[derive(Clone, Copy)]
struct Bar {
    reader: u8,
    writer: u8,
    between: u32,
}

/// What waits for what: an event for all that happen before it, and V for the R of a bar whose W happens before V; by the one
/// that waits, and by the other. And the other bars, as far as they bar anything.
struct Bars {
    needs: [u32; SLOTS],
    follow: [u32; SLOTS],
    count: usize,
    bars: [MaybeUninit<Bar>; MAX_RUNS],
}

impl Bars {
    fn new() -> Bars {
        Bars { needs: [0; SLOTS], follow: [0; SLOTS], count: 0, bars: [const { MaybeUninit::uninit() }; MAX_RUNS] }
    }

    #[inline(always)]
    fn fill(&mut self, t: &Tables, r: &Read) {
        self.needs = t.before.pred;
        self.follow = t.before.succ;
        for run in r.runs() {
            let (e, w) = (run.reader as usize & 31, run.writer as usize & 31);
            // a V that happens before W, or that R happens before, is never in question
            let between = t.barred(r, run) & !(t.before.pred[w] | t.before.succ[e]);
            if between == 0 {
                continue;
            }
            let after = between & t.before.succ[w];
            self.follow[e] |= after;
            for (v, row) in self.needs[..ROWS].iter_mut().enumerate() {
                *row |= if after & 1 << v != 0 { 1 << e } else { 0 };
            }
            self.push(Bar { reader: run.reader, writer: run.writer, between: between & !after });
        }
    }

    /// A bar more, if it bars anything.
    #[inline(always)]
    fn push(&mut self, bar: Bar) {
        // SAFETY: there are not more than runs.
        unsafe { self.bars.get_unchecked_mut(self.count) }.write(bar);
        self.count += usize::from(bar.between != 0);
    }

    #[inline(always)]
    fn bars(&self) -> &[Bar] {
        // SAFETY: so many are written.
        unsafe { core::slice::from_raw_parts(self.bars.as_ptr().cast(), self.count) }
    }

    /// All that the bars force: where W comes before V, R does; where V comes before R, it comes before W; and so on. False
    /// where that has a cycle, so that no order exists. Every order that meets the rules has all of it.
    #[inline(never)]
    fn force(&mut self, t: &Tables, r: &Read) -> bool {
        self.count = 0;
        for run in r.runs() {
            let (e, w) = (run.reader as usize & 31, run.writer as usize & 31);
            let between = t.barred(r, run) & !(t.before.pred[w] | t.before.succ[e]);
            self.push(Bar { reader: run.reader, writer: run.writer, between });
        }
        let mut forced = t.before;
        loop {
            let all = core::mem::take(&mut self.count);
            let mut more = false;
            for i in 0..all {
                // SAFETY: so many are written, and none behind this one is written anew.
                let bar = unsafe { self.bars[i].assume_init() };
                let (e, w) = (bar.reader as usize & 31, bar.writer as usize & 31);
                let after = bar.between & forced.succ[w] & !forced.succ[e];
                if after != 0 {
                    forced.add(forced.up_to(e), members(after).fold(0, |from, v| from | forced.from(v)));
                    more = true;
                }
                let before = bar.between & forced.pred[e] & !forced.pred[w];
                if before != 0 {
                    forced.add(members(before).fold(0, |up_to, v| up_to | forced.up_to(v)), forced.from(w));
                    more = true;
                }
                if forced.cycle {
                    return false;
                }
                self.push(Bar { between: bar.between & !(forced.pred[w] | forced.succ[e]), ..bar });
            }
            if !more {
                self.follow = forced.succ;
                return true;
            }
        }
    }

    /// The V that are barred where these events are placed: W is and R is not.
    #[inline(always)]
    fn barred(&self, placed: u32) -> u32 {
        let mut barred = 0;
        for bar in self.bars() {
            let bars = placed >> bar.writer & !(placed >> bar.reader) & 1;
            barred |= bar.between & bars.wrapping_neg();
        }
        barred
    }

    /// The first order: by the lowest event that may be placed, again and again. Where that comes to a dead end, what the bars
    /// force is found out (with few events it takes longer than to go all ways), and then all ways are gone.
    #[inline(always)]
    fn first_order(&mut self, t: &Tables, r: &Read, marks: &mut [u8], order: &mut [u8]) -> bool {
        let mut path = [0u8; SLOTS];
        let found = self.lowest(r, &mut path)
            || (r.events - r.inits <= FEW || self.force(t, r)) && self.search(r, marks, &mut path);
        if found {
            order[..r.events].copy_from_slice(&path[..r.events]);
        }
        found
    }

    /// The events that may be placed next: all that they need are, and no bar forbids it.
    #[inline(always)]
    fn ready(&self, placed: u32) -> u32 {
        let mut waiting = placed | self.barred(placed);
        for (e, follow) in self.follow[..ROWS].iter().enumerate() {
            waiting |= if placed & 1 << e == 0 { *follow } else { 0 };
        }
        !waiting
    }

    /// Always the lowest event that may be placed, inits first, until all are or none may.
    #[inline(always)]
    fn lowest(&self, r: &Read, path: &mut [u8; SLOTS]) -> bool {
        let mut placed = (1u32 << r.inits) - 1;
        let all = (1u32 << r.events) - 1;
        for (e, slot) in path[..r.inits].iter_mut().enumerate() {
            *slot = e as u8;
        }
        for slot in &mut path[r.inits..r.events] {
            // one by one: mostly the first may be placed
            let mut left = !placed & all & !self.barred(placed);
            loop {
                if left == 0 {
                    return false;
                }
                let v = left.trailing_zeros() as usize;
                if self.needs[v] & !placed == 0 {
                    *slot = v as u8;
                    placed |= 1 << v;
                    break;
                }
                left &= left - 1;
            }
        }
        true
    }

    /// Depth first, always the lowest event that may be placed and does not lead to a set known to be a dead end; inits stand
    /// first, in the path too. The marks are zero before and after: a set is marked when it is left.
    fn search(&self, r: &Read, marks: &mut [u8], path: &mut [u8; SLOTS]) -> bool {
        let (inits, n) = (r.inits, r.events);
        let all = (1u32 << n) - 1;
        let mut depth = inits;
        let mut placed = (1u32 << inits) - 1;
        let mut dead = 0usize;
        let mut journal = [const { MaybeUninit::<u32>::uninit() }; JOURNAL];
        let mut left = [0u32; SLOTS]; // by depth, what is to be tried
        left[depth] = self.ready(placed) & all;
        let found = loop {
            if placed == all {
                break true;
            }
            let ready = left[depth & 31];
            if ready != 0 {
                let next = ready & ready.wrapping_neg();
                left[depth & 31] = ready ^ next;
                let set = ((placed | next) >> inits) as usize;
                if marks[set >> 3] >> (set & 7) & 1 == 0 {
                    placed |= next;
                    path[depth & 31] = next.trailing_zeros() as u8;
                    depth += 1;
                    left[depth & 31] = self.ready(placed) & all;
                }
                continue;
            }
            if depth == inits {
                break false;
            }
            let set = (placed >> inits) as usize;
            marks[set >> 3] |= 1 << (set & 7);
            if dead < JOURNAL {
                journal[dead].write(set as u32 >> 3);
            }
            dead += 1;
            depth -= 1;
            placed ^= 1 << path[depth & 31];
        };
        if dead <= JOURNAL {
            for place in &journal[..dead] {
                // SAFETY: so many are written.
                marks[unsafe { place.assume_init() } as usize] = 0;
            }
        } else {
            marks.fill(0);
        }
        found
    }
}

/// The events of a set, rising.
fn members(mut set: u32) -> impl Iterator<Item = usize> {
    core::iter::from_fn(move || {
        let e = set.trailing_zeros() as usize;
        set &= set.wrapping_sub(1);
        (e < SLOTS).then_some(e)
    })
}

/// So many marks are taken back one by one; where there are more, all are cleared.
const JOURNAL: usize = 256;
/// With so many events that are not inits all ways are soon gone.
const FEW: usize = 5;

//! Random executions with one or two accesses an event (02 §11), whole as the reader would have them: distinct regions, a
//! row for each byte read, rows and pairs that rise. Ranges, writers and values repeat, so that rules are broken by them.

use second::random::Rng;
use second::sheet::{Access, Event, Execution, Kind, Mode, Row, MAX_PAIRS};

/// The bytes of a region's numbers.
const REGION: usize = 64;

/// The execution number `index` of a seed, always the same.
pub fn execution(seed: u64, index: u64) -> Execution {
    let mut rng = Rng::new(seed.wrapping_mul(0x2545_f491_4f6c_dd1d) ^ index.wrapping_mul(0xd6e8_feb8_6659_fd93));
    let mut g = Draft::new(&mut rng);
    g.inits();
    g.others();
    g.readable();
    g.written();
    g.rows();
    g.pairs();
    g.x
}

struct Draft<'a> {
    rng: &'a mut Rng,
    regions: usize,
    x: Execution,
}

impl<'a> Draft<'a> {
    fn new(rng: &'a mut Rng) -> Self {
        let regions = rng.range(1, 4);
        let size = rng.pick(&[1, 2, 2, 4, 8, 16, 64]);
        let agents = rng.pick(&[1, 2, 2, 3, 3, 4, 8]);
        let x = Execution { edition: 3, agents, size, events: vec![], rows: vec![], pairs: vec![] };
        Draft { rng, regions, x }
    }

    /// One region, or two distinct ones in either order.
    fn some_regions(&mut self) -> Vec<usize> {
        let mut all: Vec<usize> = (0..self.regions).collect();
        self.rng.shuffle(&mut all);
        all.truncate(if self.rng.percent(55) { 2 } else { 1 });
        all
    }

    /// "their ranges are disjoint"
    fn inits(&mut self) {
        for _ in 0..self.rng.range(0, 3) {
            let mut accesses = vec![];
            for region in self.some_regions() {
                let start = if self.rng.percent(70) { 0 } else { self.rng.below(self.x.size) };
                let width =
                    if self.rng.percent(70) { self.x.size - start } else { self.rng.range(1, self.x.size - start) };
                let a = access(Kind::Write, Mode::Init, region * REGION + start, width);
                if !self.x.events.iter().any(|e| e.accesses.iter().any(|b| b.overlaps(&a))) {
                    accesses.push(a);
                }
            }
            if !accesses.is_empty() {
                self.x.events.push(Event { agent: 0, accesses, place: 0 });
            }
        }
    }

    fn others(&mut self) {
        let most = match self.rng.below(100) {
            0..=89 => 6,
            90..=97 => 18,
            _ => crate::doors::SLOTS - self.x.events.len(),
        };
        let count = if most > 18 { most } else { self.rng.range(1, most) };
        // an execution is mostly of one mode, so that some are orderly
        let sc = self.rng.pick(&[10, 50, 90, 100]);
        for _ in 0..count {
            let agent = self.rng.range(1, self.x.agents as usize) as u8;
            let accesses = if self.rng.percent(8) {
                vec![access(Kind::Marker, Mode::Sc, 0, 0)]
            } else {
                self.some_regions().into_iter().map(|region| self.other(region, sc)).collect()
            };
            self.x.events.push(Event { agent, accesses, place: 0 });
        }
    }

    fn other(&mut self, region: usize, sc: usize) -> Access {
        let mode = if self.rng.percent(sc) { Mode::Sc } else { Mode::Unordered };
        let kind = match self.rng.below(10) {
            0..=4 => Kind::Read,
            9 if mode == Mode::Sc => Kind::ReadModifyWrite,
            _ => Kind::Write,
        };
        let widths: Vec<usize> = [1, 2, 4, 8].into_iter().filter(|&w| w <= self.x.size).collect();
        let width = self.rng.pick(&widths);
        let mut start = self.rng.below(self.x.size - width + 1);
        if mode == Mode::Sc || self.rng.percent(70) {
            start -= start % width;
        }
        let mut a = access(kind, mode, region * REGION + start, width);
        // often a range of the region that another event has
        let same: Vec<(usize, usize)> = (self.x.events.iter().filter(|e| !e.is_init()).flat_map(|e| &e.accesses))
            .filter(|b| b.width > 0 && b.start / REGION == region && (mode != Mode::Sc || b.start % b.width == 0))
            .map(|b| (b.start, b.width))
            .collect();
        if !same.is_empty() && self.rng.percent(60) {
            (a.start, a.width) = self.rng.pick(&same);
        }
        // 02 §4: "It must be 1 for sc reads, writes and read-modify-writes, free for unordered ones of width 1, 2 or 4
        // whose start is divisible by the width, 0 for all else"
        let free = a.width < 8 && a.start % a.width == 0 && self.rng.percent(80);
        a.tear_free = mode == Mode::Sc || free;
        a
    }

    /// A read of a byte that no other event writes becomes a write.
    fn readable(&mut self) {
        for e in 0..self.x.events.len() {
            for i in 0..self.x.events[e].accesses.len() {
                let a = &self.x.events[e].accesses[i];
                if a.reads() && (a.start..a.start + a.width).any(|byte| self.writers(e, byte).is_empty()) {
                    self.x.events[e].accesses[i].kind = Kind::Write;
                }
            }
        }
    }

    /// The events but e that write this byte.
    fn writers(&self, e: usize, byte: usize) -> Vec<usize> {
        (0..self.x.events.len()).filter(|&w| w != e && self.x.events[w].writing(byte).is_some()).collect()
    }

    fn written(&mut self) {
        for a in self.x.events.iter_mut().flat_map(|e| &mut e.accesses).filter(|a| a.writes()) {
            let value = self.rng.below(4) as u8;
            a.written = (0..a.width).map(|_| value).collect();
        }
    }

    fn rows(&mut self) {
        // how often a byte comes from the nearest writer before its reader, and how often not from the last byte's writer
        let near = self.rng.pick(&[30, 80, 95, 100]);
        let change = self.rng.pick(&[0, 5, 50]);
        for e in 0..self.x.events.len() {
            for i in 0..self.x.events[e].accesses.len() {
                let a = self.x.events[e].accesses[i].clone();
                if !a.reads() {
                    continue;
                }
                let mut last = None;
                let mut seen = vec![];
                for byte in a.start..a.start + a.width {
                    let mut writers = self.writers(e, byte);
                    if self.rng.percent(change) {
                        // another with the range of this access, if there is one
                        let events = &self.x.events;
                        let whole = |w: usize| events[w].accesses.iter().any(|b| b.equal_range(&a));
                        let others: Vec<usize> =
                            writers.iter().copied().filter(|&w| Some(w) != last && whole(w)).collect();
                        writers = if others.is_empty() { writers } else { others };
                        last = None;
                    }
                    let before = writers.iter().copied().filter(|&w| w < e).max();
                    let writer = match last.filter(|w| writers.contains(w)) {
                        Some(w) => w,
                        _ if self.rng.percent(near) => before.unwrap_or(writers[0]),
                        _ => self.rng.pick(&writers),
                    };
                    last = Some(writer);
                    let access = self.x.events[writer].writing(byte).expect("it writes the byte");
                    seen.push(access.written_at(byte));
                    self.x.rows.push(Row { reader: e, address: byte, writer });
                }
                self.x.events[e].accesses[i].seen = seen;
            }
        }
        // "rows rise by (reader, region, address)"
        self.x.rows.sort_by_key(|r| (r.reader, r.address));
        if !self.x.rows.is_empty() && self.rng.percent(4) {
            let r = self.x.rows[self.rng.below(self.x.rows.len())];
            let reader = self.x.events[r.reader].accesses.iter_mut().find(|a| a.reads() && a.covers(r.address));
            let reader = reader.expect("the reader of a row reads its byte");
            reader.seen[r.address - reader.start] ^= 1 << self.rng.below(8);
        }
    }

    fn pairs(&mut self) {
        let e = &self.x.events;
        let markers: Vec<usize> = (0..e.len()).filter(|&m| e[m].is_marker()).collect();
        for &a in &markers {
            for &b in &markers {
                let forward = if a < b { 50 } else { 6 };
                if e[a].agent != e[b].agent && self.x.pairs.len() < MAX_PAIRS && self.rng.percent(forward) {
                    self.x.pairs.push((a, b));
                }
            }
        }
    }
}

fn access(kind: Kind, mode: Mode, start: usize, width: usize) -> Access {
    Access { kind, mode, start, width, seen: vec![], written: vec![], tear_free: false }
}

//! What the search is given by a whole sheet that keeps rules 21 to 25: happens-before and bars, from the second program's
//! reading of it; and what it does with that.
use second::sheet::Execution;

pub struct Problem {
    pub inits: usize,
    pub events: usize,
    /// By event, those that happen before it.
    pub before: [u32; 32],
    /// By event V and W, the R with a bar (R, W, V).
    bars: Vec<[u32; 32]>,
    /// By V, the W of its bars.
    writers: [u32; 32],
}

impl Problem {
    /// 01's relations, with masks: the second program's own are too slow to climb with. A test compares them.
    pub fn of(x: &Execution) -> Problem {
        let n = x.events.len();
        let inits = x.inits();
        let access = |e: usize| &x.events[e].accesses[0];
        let equal = |a: usize, b: usize| access(a).equal_range(access(b));
        let sync = |w: usize, r: usize| access(w).sc() && access(r).sc() && equal(w, r);
        let mut succ = [0u32; 32];
        for (a, row) in succ[..n].iter_mut().enumerate() {
            for b in 0..n {
                let by_agent = a >= inits && a < b && x.events[a].agent == x.events[b].agent;
                let by_init = a < inits && a != b && x.events[a].overlaps(&x.events[b]);
                *row |= u32::from(by_agent || by_init) << b;
            }
        }
        x.pairs.iter().for_each(|&(a, b)| succ[a] |= 1 << b);
        x.rows.iter().filter(|r| sync(r.writer, r.reader)).for_each(|r| succ[r.writer] |= 1 << r.reader);
        for k in 0..n {
            for e in 0..n {
                succ[e] |= if succ[e] >> k & 1 == 1 { succ[k] } else { 0 };
            }
        }
        let happens = |a: usize, b: usize| succ[a] >> b & 1 == 1;
        let mut p = Problem { inits, events: n, before: [0; 32], bars: vec![[0; 32]; n], writers: [0; 32] };
        for (a, row) in succ[..n].iter().enumerate() {
            (0..n).filter(|b| row >> b & 1 == 1).for_each(|b| p.before[b] |= 1 << a);
        }
        for row in &x.rows {
            let (r, w) = (row.reader, row.writer);
            for v in (inits..n).filter(|&v| v != r && v != w && access(v).writes() && access(v).sc()) {
                let a = sync(w, r) && equal(v, r);
                let b = happens(w, r) && happens(v, r) && access(w).sc() && equal(w, v);
                let c = happens(w, r) && happens(w, v) && access(r).sc() && equal(v, r);
                if a || b || c {
                    p.bars[v][w] |= 1 << r;
                    p.writers[v] |= 1 << w;
                }
            }
        }
        p
    }

    /// How many bars there are.
    pub fn bars(&self) -> usize {
        self.bars.iter().flatten().map(|rs| rs.count_ones() as usize).sum()
    }

    /// Whether V may be placed next.
    fn ready(&self, placed: u32, v: usize) -> bool {
        let mut ws = self.writers[v] & placed;
        let mut free = self.before[v] & !placed == 0;
        while free && ws != 0 {
            free = self.bars[v][ws.trailing_zeros() as usize] & !placed == 0;
            ws &= ws - 1;
        }
        free
    }

    /// How many sets can be reached by placing events one at a time, that of the inits counted; and whether the full one can.
    pub fn reachable(&self) -> (usize, bool) {
        self.sets(false)
    }

    /// How many sets the search of `crates/orders` enters, that of the inits counted, until it has an order or has none: the
    /// lowest event first, no set twice. And whether it has one.
    pub fn entered(&self) -> (usize, bool) {
        self.sets(true)
    }

    fn sets(&self, stop: bool) -> (usize, bool) {
        let all = (1u32 << self.events) - 1;
        let start = (1u32 << self.inits) - 1;
        let mut seen = vec![0u64; (1usize << (self.events - self.inits)).div_ceil(64)];
        let (mut count, mut full) = (1, start == all);
        // a set, and the lowest event that is not tried there
        let mut path = vec![(start, self.inits)];
        while let Some((placed, from)) = path.last_mut() {
            if stop && full {
                break;
            }
            let (placed, first) = (*placed, *from);
            let next = (first..self.events).find(|&v| placed >> v & 1 == 0 && self.ready(placed, v));
            let Some(v) = next else {
                path.pop();
                continue;
            };
            *from = v + 1;
            let set = placed | 1 << v;
            let index = (set >> self.inits) as usize;
            if seen[index / 64] >> (index % 64) & 1 == 0 {
                seen[index / 64] |= 1 << (index % 64);
                count += 1;
                full |= set == all;
                path.push((set, self.inits));
            }
        }
        (count, full)
    }
}

//! The search for the worst cases: plans of sheets, changed a little at a time; a change stays where it is worse, or, at
//! first, hardly better (annealing). All data are zero, so that 21 is never broken.
use super::problem::Problem;
use second::random::Rng;
use second::sheet::{read, Execution};

pub const OTHERS: usize = 18;
pub const AGENTS: usize = 8;

#[derive(Clone, Copy, PartialEq)]
pub struct Event {
    pub agent: u8,
    pub kind: u8,
    pub mode: u8,
    pub start: u8,
    pub width: u8,
    /// By byte, who it was read from.
    pub from: [u8; 8],
}

#[derive(Clone)]
pub struct Plan {
    pub memory: u8,
    /// Start and width.
    pub inits: Vec<(u8, u8)>,
    pub events: Vec<Event>,
    pub pairs: Vec<(u8, u8)>,
}

const READ: u8 = 1;
const WRITE: u8 = 2;
const RMW: u8 = 3;
const MARKER: u8 = 4;
const SC: u8 = 2;

impl Plan {
    fn covers(&self, e: usize, address: u8) -> bool {
        let (start, width) = match self.inits.get(e) {
            Some(&init) => init,
            None => {
                let event = &self.events[e - self.inits.len()];
                (event.start, if event.kind == WRITE || event.kind == RMW { event.width } else { 0 })
            }
        };
        start <= address && address < start + width
    }

    /// The plan as a sheet of edition 1. Rows whose writer does not write there any more get the first that does.
    pub fn sheet(&self) -> Vec<u8> {
        let k = self.inits.len();
        let mut out = vec![1, 0, 3, 1, AGENTS as u8, self.memory];
        let mut put = |tag: u8, value: &[u8]| {
            out.extend([tag, (value.len() >> 8) as u8, value.len() as u8]);
            out.extend(value);
        };
        for &(start, width) in &self.inits {
            let mut value = vec![0, WRITE, 0, start, width];
            value.resize(5 + width as usize, 0);
            put(2, &value);
        }
        for e in &self.events {
            let mut value = vec![e.agent, e.kind, e.mode, e.start, e.width];
            value.resize(5 + e.width as usize * if e.kind == RMW { 2 } else { 1 }, 0);
            put(2, &value);
        }
        for (i, e) in self.events.iter().enumerate().filter(|(_, e)| e.kind & 1 == 1) {
            for byte in 0..e.width {
                let address = e.start + byte;
                let fits = |&w: &usize| w != k + i && self.covers(w, address);
                let told = e.from[byte as usize] as usize;
                let all = 0..k + self.events.len();
                let w = if told < all.end && fits(&told) { Some(told) } else { all.clone().find(fits) };
                put(3, &[(k + i) as u8, address, w.unwrap_or(255) as u8]);
            }
        }
        let mut pairs = self.pairs.clone();
        pairs.sort();
        pairs.dedup();
        pairs.iter().for_each(|&(a, b)| put(4, &[a, b]));
        out
    }

    fn event(rng: &mut Rng, agent: u8, memory: u8) -> Event {
        let kind = [READ, WRITE, WRITE, RMW, RMW, READ, MARKER][rng.below(14).min(6)];
        let mode = if kind >= RMW || rng.percent(75) { SC } else { 1 };
        let mut e = Event { agent, kind, mode, start: 0, width: 0, from: [0; 8] };
        if kind != MARKER {
            e.width = [1, 1, 1, 2, 2, 4, 8][rng.below(7)].min(memory);
            e.start = rng.below((memory / e.width) as usize) as u8 * e.width;
            e.from = std::array::from_fn(|_| rng.below(4 + OTHERS) as u8);
        }
        e
    }

    pub fn random(rng: &mut Rng) -> Plan {
        let memory = [1, 2, 2, 4, 8][rng.below(5)];
        let agent = |i: usize| if i < AGENTS { 1 + i as u8 } else { 0 };
        let events = (0..OTHERS).map(|i| {
            let agent = if i < AGENTS { agent(i) } else { 1 + rng.below(AGENTS) as u8 };
            Plan::event(rng, agent, memory)
        });
        let mut plan = Plan { memory, inits: vec![], events: events.collect(), pairs: vec![] };
        plan.cut(rng);
        rng.shuffle(&mut plan.events);
        plan
    }

    /// The memory in one to four inits.
    fn cut(&mut self, rng: &mut Rng) {
        let count = rng.range(1, 4.min(self.memory as usize));
        let mut cuts: Vec<u8> = (1..self.memory).collect();
        rng.shuffle(&mut cuts);
        cuts.truncate(count - 1);
        cuts.extend([0, self.memory]);
        cuts.sort();
        self.inits = cuts.windows(2).map(|c| (c[0], c[1] - c[0])).collect();
    }

    /// A little change.
    fn change(&mut self, rng: &mut Rng) {
        let i = rng.below(OTHERS);
        let k = self.inits.len();
        match rng.below(16) {
            0 => self.events[i].agent = 1 + rng.below(AGENTS) as u8,
            1 => {
                let j = rng.below(OTHERS);
                self.events.swap(i, j);
            }
            2 => {
                let j = rng.below(OTHERS);
                let (a, b) = (self.events[i].agent, self.events[j].agent);
                (self.events[i].agent, self.events[j].agent) = (b, a);
            }
            3 | 4 => self.events[i] = Plan::event(rng, self.events[i].agent, self.memory),
            5 => {
                // as another event
                let j = rng.below(OTHERS);
                self.events[i] = Event { agent: self.events[i].agent, ..self.events[j] };
            }
            6 => {
                let event = self.events.remove(i);
                let j = rng.below(OTHERS);
                self.events.insert(j, event);
            }
            7 => {
                let e = &mut self.events[i];
                if e.kind < RMW {
                    e.mode = 3 - e.mode;
                }
            }
            8 => {
                let e = &mut self.events[i];
                if e.mode == SC && e.kind < MARKER {
                    e.kind = 1 + rng.below(3) as u8;
                }
            }
            9 if rng.percent(20) => {
                let markers: Vec<u8> =
                    (0..OTHERS).filter(|&e| self.events[e].kind == MARKER).map(|e| (k + e) as u8).collect();
                if rng.percent(50) || markers.len() < 2 {
                    self.pairs.pop();
                } else {
                    self.pairs.push((rng.pick(&markers), rng.pick(&markers)));
                }
            }
            10 if rng.percent(10) => self.cut(rng),
            11 => {
                let w = rng.below(k + OTHERS) as u8;
                self.events[i].from = [w; 8];
            }
            _ => self.events[i].from[rng.below(8)] = rng.below(k + OTHERS) as u8,
        }
    }
}

/// A sheet that breaks none of 21 to 25, read.
pub fn whole(sheet: &[u8]) -> Option<Execution> {
    let (mut scratch, mut order) = ([0; plimdrong::MAX_SCRATCH], [0; plimdrong::MAX_EVENTS]);
    let word = ordinary::judge(sheet, &mut scratch, &mut order);
    let fits = word >> 40 == 3 || word >> 32 == super::NONE;
    fits.then(|| read(sheet).expect("the judge read it"))
}

/// How bad a sheet is.
pub type Score = fn(&[u8], &Execution, &Problem) -> f64;

/// From this plan on, so many changes.
pub fn climb(rng: &mut Rng, mut plan: Plan, steps: usize, score: Score) -> (f64, Plan) {
    let valued = |plan: &Plan| {
        let sheet = plan.sheet();
        whole(&sheet).map_or(-1.0, |x| score(&sheet, &x, &Problem::of(&x)))
    };
    let mut now = valued(&plan);
    let mut best = (now, plan.clone());
    for step in 0..steps {
        let mut next = plan.clone();
        (0..1 + rng.below(3)).for_each(|_| next.change(rng));
        let value = valued(&next);
        let warmth = 0.06 * (1.0 - step as f64 / steps as f64);
        let stays =
            value >= now || value >= 0.0 && rng.below(1000) as f64 / 1000.0 < ((value / now - 1.0) / warmth).exp();
        if stays && value >= 0.0 {
            (plan, now) = (next, value);
            if now > best.0 {
                best = (now, plan.clone());
            }
        }
    }
    best
}

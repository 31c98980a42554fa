//! A search for sheets broken by 26 that are bad in some way: a plan is changed a little at a time, and a change stays where
//! the sheet is not better for it, or, at first, hardly better. All data are zero, so that 21 is never broken.

use super::*;
use crate::judge::Relations;
use crate::sheet::Execution;
use crate::why::{all_bars, Bar, Orders};

const AGENTS: usize = 8;

#[derive(Clone, Copy, PartialEq)]
struct Drafted {
    agent: u8,
    kind: u8,
    mode: u8,
    start: u8,
    width: u8,
    /// By byte, who it is read from; where that does not write it, the lowest that does.
    from: [u8; 8],
}

#[derive(Clone)]
pub struct Draft {
    memory: u8,
    /// Start and width.
    inits: Vec<(u8, u8)>,
    events: Vec<Drafted>,
    pairs: Vec<(u8, u8)>,
}

impl Draft {
    /// So many events that are not inits, as they fall.
    pub fn random(rng: &mut Rng, others: usize) -> Draft {
        let memory = rng.pick(&[1, 2, 2, 4, 8]);
        let mut draft = Draft { memory, inits: vec![(0, memory)], events: vec![], pairs: vec![] };
        for i in 0..others {
            let any = rng.below(AGENTS);
            let agent = 1 + if i < AGENTS { i } else { any } as u8;
            draft.events.push(drafted(rng, agent, memory));
        }
        rng.shuffle(&mut draft.events);
        draft
    }

    /// The draft of a sheet, with zeros for data.
    pub fn of(sheet: &[u8]) -> Option<Draft> {
        let x = read(sheet).ok()?;
        let mut draft = Draft { memory: x.size as u8, inits: vec![], events: vec![], pairs: vec![] };
        let mut at = 6;
        for e in 0..x.events.len() {
            let value = &sheet[at + 3..];
            let (agent, kind, mode, start, width) = (value[0], value[1], value[2], value[3], value[4]);
            at += 3 + sheet[at + 1] as usize * 256 + sheet[at + 2] as usize;
            let mut from = [0; 8];
            for row in x.rows.iter().filter(|row| row.reader == e) {
                from[row.address - start as usize] = row.writer as u8;
            }
            match mode {
                0 => draft.inits.push((start, width)),
                _ => draft.events.push(Drafted { agent, kind, mode, start, width, from }),
            }
        }
        draft.pairs = x.pairs.iter().map(|&(a, b)| (a as u8, b as u8)).collect();
        Some(draft)
    }

    fn covers(&self, e: usize, address: u8) -> bool {
        let (start, width) = match e.checked_sub(self.inits.len()) {
            None => self.inits[e],
            Some(i) if writes(self.events[i].kind) => (self.events[i].start, self.events[i].width),
            Some(_) => (0, 0),
        };
        start <= address && address < start + width
    }

    /// As a sheet of edition 1.
    pub fn sheet(&self) -> Vec<u8> {
        let k = self.inits.len();
        let mut names: Vec<u8> = self.events.iter().map(|e| e.agent).collect();
        names.sort();
        names.dedup();
        let mut fields = vec![field(1, vec![1, names.len() as u8, self.memory])];
        for &(start, width) in &self.inits {
            let mut value = vec![0, WRITE, 0, start, width];
            value.resize(5 + width as usize, 0);
            fields.push(field(2, value));
        }
        for e in &self.events {
            let agent = 1 + names.iter().position(|&name| name == e.agent).unwrap() as u8;
            let mut value = vec![agent, e.kind, e.mode, e.start, e.width];
            value.resize(5 + e.width as usize * if e.kind == RMW { 2 } else { 1 }, 0);
            fields.push(field(2, value));
        }
        for (i, e) in self.events.iter().enumerate().filter(|(_, e)| reads(e.kind)) {
            for byte in 0..e.width {
                let fits = |&w: &usize| w != k + i && self.covers(w, e.start + byte);
                let told = e.from[byte as usize] as usize;
                let all = 0..k + self.events.len();
                let w = if all.contains(&told) && fits(&told) { Some(told) } else { all.clone().find(fits) };
                fields.push(field(3, vec![(k + i) as u8, e.start + byte, w.map_or(255, |w| w as u8)]));
            }
        }
        let mut pairs = self.pairs.clone();
        pairs.sort();
        pairs.dedup();
        fields.extend(pairs.iter().map(|&(a, b)| field(4, vec![a, b])));
        bytes(&fields)
    }

    /// The memory in one to four inits.
    fn cut(&mut self, rng: &mut Rng) {
        let count = rng.range(1, (self.memory as usize).min(MAX_INITS));
        let mut cuts: Vec<u8> = (1..self.memory).collect();
        rng.shuffle(&mut cuts);
        cuts.truncate(count - 1);
        cuts.extend([0, self.memory]);
        cuts.sort();
        self.inits = cuts.windows(2).map(|c| (c[0], c[1] - c[0])).collect();
    }

    /// A little change.
    fn change(&mut self, rng: &mut Rng) {
        let n = self.events.len();
        let (i, j) = (rng.below(n), rng.below(n));
        let k = self.inits.len();
        match rng.below(16) {
            0 => self.events[i].agent = 1 + rng.below(AGENTS) as u8,
            1 => self.events.swap(i, j),
            2 => (self.events[i].agent, self.events[j].agent) = (self.events[j].agent, self.events[i].agent),
            3 => self.events[i] = drafted(rng, self.events[i].agent, self.memory),
            4 | 5 => self.events[i] = Drafted { agent: self.events[i].agent, ..self.events[j] },
            6 => {
                let event = self.events.remove(i);
                self.events.insert(j, event);
            }
            7 if !matches!(self.events[i].kind, RMW | MARKER) => self.events[i].mode = 3 - self.events[i].mode,
            8 if self.events[i].mode == SC && self.events[i].kind != MARKER => {
                self.events[i].kind = rng.pick(&[READ, WRITE, RMW])
            }
            9 => {
                let markers: Vec<usize> = (0..n).filter(|&e| self.events[e].kind == MARKER).collect();
                if rng.percent(50) || markers.len() < 2 {
                    self.pairs.pop();
                } else {
                    self.pairs.push(((k + rng.pick(&markers)) as u8, (k + rng.pick(&markers)) as u8));
                }
            }
            10 if rng.percent(20) => self.cut(rng),
            11 if rng.percent(50) && n < MAX_OTHERS => {
                let agent = 1 + rng.below(AGENTS) as u8;
                let e = drafted(rng, agent, self.memory);
                self.events.insert(j, e);
            }
            12 => self.events[i].from[rng.below(8)] = rng.below(k + n) as u8,
            _ => self.events[i].from = [rng.below(k + n) as u8; 8],
        }
    }
}

fn drafted(rng: &mut Rng, agent: u8, memory: u8) -> Drafted {
    let kind = rng.pick(&[READ, READ, READ, READ, WRITE, WRITE, WRITE, WRITE, RMW, RMW, RMW, RMW, MARKER]);
    let mode = if kind >= RMW || rng.percent(80) { SC } else { U };
    let mut e = Drafted { agent, kind, mode, start: 0, width: 0, from: [0; 8] };
    if kind != MARKER {
        e.width = rng.pick(&[1, 1, 1, 2, 2, 4, 8]).min(memory);
        e.start = rng.below((memory / e.width) as usize) as u8 * e.width;
        e.from = [rng.below(MAX_EVENTS) as u8; 8];
    }
    e
}

/// How bad a sheet is that rule 26 breaks.
pub type Score = fn(&[u8], &Execution, &Relations) -> f64;

/// From this draft on, so many changes; the worst that was met, and how bad it is (below 0: none that rule 26 breaks).
pub fn climb(rng: &mut Rng, mut draft: Draft, steps: usize, score: Score) -> (f64, Draft) {
    let valued = |draft: &Draft| {
        let sheet = draft.sheet();
        let Ok(x) = read(&sheet) else { return -2.0 };
        let m = Relations::of(&x);
        if m.first_broken_rule().is_some() {
            return -2.0;
        }
        if Orders::prefixes(&m).left_by(&all_bars(&m)) {
            return -1.0;
        }
        score(&sheet, &x, &m)
    };
    let mut now = valued(&draft);
    let mut worst = (now, draft.clone());
    for step in 0..steps {
        let mut next = draft.clone();
        (0..rng.range(1, 3)).for_each(|_| next.change(rng));
        let value = valued(&next);
        let warmth = 0.06 * (1.0 - step as f64 / steps as f64);
        let mut hardly = || value >= 0.0 && (rng.below(1000) as f64) < 1000.0 * ((value / now - 1.0) / warmth).exp();
        if value >= now || hardly() {
            (draft, now) = (next, value);
            if now > worst.0 {
                worst = (now, draft.clone());
            }
        }
    }
    worst
}

/// How much the kept list of a sheet asks for.
#[derive(Clone, Copy, Debug, Default)]
pub struct Effort {
    pub bars: usize,
    /// Those that happens-before does not make harmless.
    pub harmful: usize,
    /// Sets that can be placed, from that of all inits on, where no bar is looked at.
    pub loose: usize,
    /// The same where all bars are: 02 §9's reachable sets.
    pub barred: usize,
    /// Bars that are kept, and sets met in all searches, one for each harmful bar; 0 where they were not looked for.
    pub kept: usize,
    pub met: usize,
}

impl Effort {
    /// All but what takes a search for each bar.
    pub fn of(m: &Relations) -> Effort {
        let (bars, orders) = (all_bars(m), Orders::prefixes(m));
        let harmful = bars.iter().filter(|&&bar| !harmless(m, bar)).count();
        let inits = (1 << m.x.inits()) - 1;
        let (loose, barred) = (orders.placeable(inits, &[]), orders.placeable(inits, &bars));
        Effort { bars: bars.len(), harmful, loose, barred, ..Effort::default() }
    }

    pub fn with_searches(m: &Relations) -> Effort {
        let harmful: Vec<Bar> = all_bars(m).into_iter().filter(|&bar| !harmless(m, bar)).collect();
        let orders = Orders::prefixes(m);
        let (mut kept, mut all) = (vec![], 0);
        for (i, &bar) in harmful.iter().enumerate() {
            let (left, met) = orders.met(&[&kept[..], &harmful[i + 1..]].concat());
            all += met;
            if left {
                kept.push(bar);
            }
        }
        Effort { kept: kept.len(), met: all, ..Effort::of(m) }
    }
}

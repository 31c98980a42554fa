//! Random small sheets by a seed, of both editions: whole ones around the litmus table, replayed and free, and ones damaged
//! in every way that document 01 and 02 §4 refuse.
//!
//! [`case`] gives the sheet of a seed and an index, [`table_case`] the table for the writer, [`list_case`] a sheet and a list
//! of event numbers, [`why_case`] a sheet aimed at rule 26, always the same.

use crate::sheet::{read, MAX_EVENTS, MAX_INITS, MAX_OTHERS, MAX_PAIRS, MAX_SCRATCH, MAX_SHEET};

pub mod climb;
mod damage;
mod lists;
mod shown;
mod tables;
mod whole;
mod whys;

pub use damage::{damaged, Way, WAYS};
pub use lists::{list_case, shown_list, ListCase, SHOWN_LISTS};
pub use shown::{shown, shown_back, shown_most, shown_written, SHOWN, SHOWN_BACK, SHOWN_MOST, SHOWN_WRITTEN};
pub use tables::{table_buffers, table_case, table_damaged, table_ways, TableCase};
pub use whole::{sc_heavy, sized, whole};
pub use whys::{decided, harmless, reasons_of, shown_why, why_case, WhyCase, SHOWN_WHYS};

/// splitmix64.
pub struct Rng(u64);

impl Rng {
    pub fn new(seed: u64) -> Self {
        Rng(seed)
    }
    pub fn draw(&mut self) -> u64 {
        self.0 = self.0.wrapping_add(0x9e37_79b9_7f4a_7c15);
        let mut z = self.0;
        z = (z ^ (z >> 30)).wrapping_mul(0xbf58_476d_1ce4_e5b9);
        z = (z ^ (z >> 27)).wrapping_mul(0x94d0_49bb_1331_11eb);
        z ^ (z >> 31)
    }
    /// A number below `n`, which is over 0.
    pub fn below(&mut self, n: usize) -> usize {
        (self.draw() % n as u64) as usize
    }
    /// A number from `low` to `high`, both included.
    pub fn range(&mut self, low: usize, high: usize) -> usize {
        low + self.below(high - low + 1)
    }
    pub fn percent(&mut self, p: usize) -> bool {
        self.below(100) < p
    }
    pub fn pick<T: Copy>(&mut self, from: &[T]) -> T {
        from[self.below(from.len())]
    }
    pub fn byte(&mut self) -> u8 {
        self.draw() as u8
    }
    pub fn shuffle<T>(&mut self, list: &mut [T]) {
        for i in (1..list.len()).rev() {
            list.swap(i, self.below(i + 1));
        }
    }
}

/// A sheet to judge, with the lengths of the buffers lent.
#[derive(Clone, Debug)]
pub struct Case {
    /// Where it comes from.
    pub name: String,
    pub sheet: Vec<u8>,
    pub scratch: usize,
    pub order: usize,
}

/// The sheet number `index` of a seed, with at most `max` events that are not inits (a few damages need more).
pub fn case(seed: u64, index: u64, max: usize) -> Case {
    let mut rng = Rng::new(seed.wrapping_mul(0x2545_f491_4f6c_dd1d) ^ index.wrapping_mul(0xd6e8_feb8_6659_fd93));
    let max = max.clamp(1, MAX_OTHERS);
    let (what, sheet) = match rng.below(100) {
        0..=64 => {
            let (what, d) = whole(&mut rng, max);
            (what, bytes(&d))
        }
        65..=91 => {
            let way = &WAYS[rng.below(WAYS.len())];
            match damaged(&mut rng, way, max) {
                Some((sheet, _)) => (format!("{}-{}", way.number, way.name), sheet),
                None => ("0-empty".to_string(), vec![]),
            }
        }
        _ => {
            let (what, d) = whole(&mut rng, max);
            let mut sheet = bytes(&d);
            let how = match rng.below(12) {
                0 => damage::other_edition(&mut rng, d, &mut sheet),
                _ => damage::scramble(&mut rng, &mut sheet),
            };
            (format!("{what}-{how}"), sheet)
        }
    };
    let (scratch, order) = lengths(&mut rng, &sheet);
    Case { name: format!("{seed}-{index}-{what}"), sheet, scratch, order }
}

/// At most so many events that are not inits, for the sheet number `index` of a run: mostly few, at times the most.
pub fn mostly_few(index: u64) -> usize {
    [5, 6, 6, 7, 6, 9, 6, 6, 5, MAX_OTHERS][index as usize % 10]
}

/// Mostly buffers for every sheet; else about what this sheet needs, under, exactly and over.
fn lengths(rng: &mut Rng, sheet: &[u8]) -> (usize, usize) {
    if rng.percent(80) {
        return (MAX_SCRATCH, MAX_EVENTS);
    }
    let Ok(x) = read(sheet) else {
        return (rng.below(64), rng.below(24));
    };
    let near = |rng: &mut Rng, n: usize| match rng.below(5) {
        0 => rng.below(n + 1),
        1 => n - 1,
        2 => n + rng.below(20),
        3 => 0,
        _ => n,
    };
    let needed = crate::answer::needed_scratch(&x);
    let scratch = if rng.percent(50) { near(rng, needed) } else { needed + rng.below(3) };
    let order = if rng.percent(50) { near(rng, x.events.len()) } else { x.events.len() + rng.below(3) };
    (scratch, order)
}

/// A field as it will stand in the sheet; `length` is what its two length bytes say.
#[derive(Clone, Debug)]
pub struct Field {
    pub tag: u8,
    pub length: usize,
    pub value: Vec<u8>,
}

fn field(tag: u8, value: Vec<u8>) -> Field {
    Field { tag, length: value.len(), value }
}

pub fn bytes(fields: &[Field]) -> Vec<u8> {
    let mut out = vec![];
    for f in fields {
        out.push(f.tag);
        out.extend((f.length as u16).to_be_bytes());
        out.extend(&f.value);
    }
    out
}

/// An event's value: agent, kind, mode, start, width; at edition 2 the tear byte; data.
fn event_value(edition: u8, front: [u8; 5], tear: u8, data: &[u8]) -> Vec<u8> {
    let mut value = front.to_vec();
    if edition == 2 {
        value.push(tear);
    }
    value.extend(data);
    value
}

/// How many bytes stand before an event's data.
fn before_data(edition: u8) -> usize {
    if edition == 2 {
        6
    } else {
        5
    }
}

/// What 01's rule gives for an event's tear byte.
fn tear_by_the_rule(kind: u8, mode: u8, start: u8, width: u8) -> u8 {
    let whole = matches!(width, 1 | 2 | 4) && start.is_multiple_of(width);
    u8::from(kind != MARKER && (mode == SC || mode == U && whole))
}

/// The place of a field's tag.
fn place(fields: &[Field], i: usize) -> usize {
    fields[..i].iter().map(|f| 3 + f.value.len()).sum()
}

/// Kinds and modes by their numbers; U is unordered.
const READ: u8 = 1;
const WRITE: u8 = 2;
const RMW: u8 = 3;
const MARKER: u8 = 4;
const U: u8 = 1;
const SC: u8 = 2;

fn reads(kind: u8) -> bool {
    kind == READ || kind == RMW
}
fn writes(kind: u8) -> bool {
    kind == WRITE || kind == RMW
}

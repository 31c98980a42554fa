//! Random tables of both editions for the writer (02 §2, §4): whole ones, ones with each fault that the reader finds in
//! events, rows and pairs, and ones whose slices do not fit each other. And buffers for the way back.

use super::*;
use crate::table::lists;

/// A table to write, as the five slices that lend it (head, events, data, rows, pairs), and the length of the buffer lent.
#[derive(Clone, Debug)]
pub struct TableCase {
    /// Where it comes from.
    pub name: String,
    pub lists: [Vec<u8>; 5],
    pub out: usize,
}

/// A table before it is laid out. An event is agent, kind, mode, start, width, tear; its data; the number of data bytes
/// that its description says.
#[derive(Clone, Debug)]
struct Draft {
    head: Vec<u8>,
    events: Vec<([u8; 6], Vec<u8>, usize)>,
    rows: Vec<Vec<u8>>,
    pairs: Vec<Vec<u8>>,
}

impl Draft {
    /// The table of a sheet's fields, if they are in order and have the lengths that a table gives them.
    fn of(fields: &[Field]) -> Option<Draft> {
        let mut d = Draft { head: vec![], events: vec![], rows: vec![], pairs: vec![] };
        let mut last = 0;
        for f in fields {
            if f.tag < last || f.length != f.value.len() || (f.tag == 1) != (last == 0) {
                return None;
            }
            last = f.tag;
            match (f.tag, f.value.len()) {
                (1, 3) => d.head = f.value.clone(),
                (2, length) if length >= d.front() => {
                    let [agent, kind, mode, start, width] = f.value[..5] else { return None };
                    let tear = match d.front() {
                        6 => f.value[5],
                        _ => tear_by_the_rule(kind, mode, start, width),
                    };
                    let data = f.value[d.front()..].to_vec();
                    let count = data.len();
                    d.events.push(([agent, kind, mode, start, width, tear], data, count));
                }
                (3, 3) => d.rows.push(f.value.clone()),
                (4, 2) => d.pairs.push(f.value.clone()),
                _ => return None,
            }
        }
        Some(d)
    }

    /// How many bytes stand before an event's data.
    fn front(&self) -> usize {
        before_data(self.head[0])
    }

    /// The bytes of the sheet that it stands for.
    fn length(&self) -> usize {
        let events: usize = self.events.iter().map(|e| 3 + self.front() + e.1.len()).sum();
        6 + events + 6 * self.rows.len() + 5 * self.pairs.len()
    }

    fn lists(&self) -> [Vec<u8>; 5] {
        let (mut events, mut data) = (vec![], vec![]);
        for (six, bytes, count) in &self.events {
            events.extend(six);
            events.extend((*count as u16).to_be_bytes());
            data.extend(bytes);
        }
        [self.head.clone(), events, data, self.rows.concat(), self.pairs.concat()]
    }

    /// Data added to an event, so that the sheet would have `length` bytes.
    fn grow(&mut self, rng: &mut Rng, length: usize) {
        let more = length - self.length();
        let i = rng.below(self.events.len());
        let (_, data, count) = &mut self.events[i];
        data.resize(data.len() + more, 7);
        *count += more;
    }
}

/// The fields of bytes that are a run of fields, whatever they say.
fn split(sheet: &[u8]) -> Option<Vec<Field>> {
    let mut fields = vec![];
    let mut rest = sheet;
    while let [tag, high, low, behind @ ..] = rest {
        let length = *high as usize * 256 + *low as usize;
        if behind.len() < length {
            return None;
        }
        fields.push(field(*tag, behind[..length].to_vec()));
        rest = &behind[length..];
    }
    rest.is_empty().then_some(fields)
}

/// The ways of [`WAYS`] that a table can be at fault in.
pub fn table_ways() -> impl Iterator<Item = &'static Way> {
    let of_layout = ["head", "event-under-five", "event-under-six", "row", "pair"];
    WAYS.iter().filter(move |w| !(matches!(w.number, 1..=3) || w.number == 4 && of_layout.contains(&w.name)))
}

/// A table at fault in this way, with a buffer that is long enough, and the index of its refusal.
pub fn table_damaged(rng: &mut Rng, way: &Way, max: usize) -> Option<(TableCase, usize)> {
    let (sheet, place) = damaged(rng, way, max)?;
    let fields = split(&sheet)?;
    let draft = Draft::of(&fields)?;
    let index = match way.number {
        5 | 10 | 14 => 0,
        _ => {
            let i = (0..fields.len()).find(|&i| self::place(&fields, i) == place)?;
            fields[..i].iter().filter(|f| f.tag == fields[i].tag).count()
        }
    };
    let out = draft.length();
    Some((TableCase { name: way.name.to_string(), lists: draft.lists(), out }, index))
}

/// The table number `index` of a seed, with at most `max` events that are not inits (a few faults need more).
pub fn table_case(seed: u64, index: u64, max: usize) -> TableCase {
    let mut rng = Rng::new(seed.wrapping_mul(0x9fb2_1c65_1e98_df25) ^ index.wrapping_mul(0xd6e8_feb8_6659_fd93));
    let rng = &mut rng;
    let max = max.clamp(1, MAX_OTHERS);
    let mut d = loop {
        if let Some(d) = Draft::of(&whole(rng, max).1) {
            break d;
        }
    };
    let mut changed: Option<[Vec<u8>; 5]> = None;
    let what = match rng.below(100) {
        0..=34 => "whole".to_string(),
        35..=54 => {
            let ways: Vec<&Way> = table_ways().collect();
            let way = rng.pick(&ways);
            match table_damaged(rng, way, max) {
                Some((c, _)) => {
                    changed = Some(c.lists);
                    // a second fault: the first one at fault decides
                    if rng.percent(20) {
                        scramble_lists(rng, changed.as_mut().unwrap());
                    }
                    format!("{}-{}", way.number, way.name)
                }
                None => "whole".to_string(),
            }
        }
        55..=63 => tear(rng, &mut d).to_string(),
        64..=67 => {
            // the same table with another edition
            d.head[0] = rng.pick(&[0, 1, 1, 2, 2, 3, 255]);
            "edition".to_string()
        }
        68..=73 => counts(rng, &mut d).to_string(),
        74..=78 => sizes(rng, &mut d).to_string(),
        79..=91 => {
            let mut lists = d.lists();
            let what = slices(rng, &mut lists);
            changed = Some(lists);
            what.to_string()
        }
        _ => {
            let mut lists = d.lists();
            let what = scramble_lists(rng, &mut lists);
            changed = Some(lists);
            what.to_string()
        }
    };
    let lists = changed.unwrap_or_else(|| d.lists());
    let out = out_length(rng, &lists);
    TableCase { name: format!("{seed}-{index}-{what}"), lists, out }
}

/// The length of the sheet that slices stand for, as the bytes that are there make it.
fn length_of(lists: &[Vec<u8>; 5]) -> usize {
    let [_, events, data, rows, pairs] = lists;
    let said: usize = events.chunks_exact(8).map(|e| e[6] as usize * 256 + e[7] as usize).sum();
    let edition = lists[0].first().copied().unwrap_or(0);
    6 + (3 + before_data(edition)) * (events.len() / 8)
        + said.min(data.len())
        + 6 * (rows.len() / 3)
        + 5 * (pairs.len() / 2)
}

/// Exactly the sheet's length, a byte less, more, none, the longest sheet's.
fn out_length(rng: &mut Rng, lists: &[Vec<u8>; 5]) -> usize {
    let length = length_of(lists).min(MAX_SHEET + 1);
    match rng.below(20) {
        0..=6 => length,
        7..=9 => length - 1,
        10..=12 => length + rng.range(1, 40),
        13..=17 => MAX_SHEET,
        18 => rng.below(length),
        _ => 0,
    }
}

/// A tear byte that 01's rule does not give, alone or beside another fault. At edition 2 it may be right.
fn tear(rng: &mut Rng, d: &mut Draft) -> &'static str {
    let i = rng.below(d.events.len());
    let was = d.events[i].0[5];
    d.events[i].0[5] = if rng.percent(70) { 1 - was } else { rng.range(2, 255) as u8 };
    match rng.below(6) {
        0 => {
            // the same event, or another one, has data of the wrong length
            let k = if rng.percent(50) { i } else { rng.below(d.events.len()) };
            d.events[k].1.push(9);
            d.events[k].2 += 1;
            "tear-and-length"
        }
        1 => {
            let k = rng.below(d.events.len());
            d.events[k].0[rng.below(5)] = rng.below(6) as u8;
            "tear-and-content"
        }
        2 => {
            d.head[rng.below(3)] = rng.pick(&[0, 2, 9, 65]);
            "tear-and-head"
        }
        3 => {
            d.rows.pop();
            "tear-and-row-missing"
        }
        _ => "tear",
    }
}

/// Numbers of data bytes that are wrong: the data of the events behind them is then taken from elsewhere.
fn counts(rng: &mut Rng, d: &mut Draft) -> &'static str {
    let i = rng.below(d.events.len());
    let count = &mut d.events[i].2;
    match rng.below(6) {
        5 => {
            // the data ends behind this event's, whose number is too large: it has what it needs, and those behind nothing
            *count += rng.range(1, 9);
            d.events[i + 1..].iter_mut().for_each(|e| e.1.clear());
            "data-ends"
        }
        0 => {
            *count += rng.range(1, 4);
            "count-more"
        }
        1 => {
            *count = count.saturating_sub(rng.range(1, 3));
            "count-less"
        }
        2 => {
            *count = rng.pick(&[256, 65535, 32768, 4096]);
            "count-much"
        }
        3 => {
            // right by chance: two events share what both have
            let k = rng.below(d.events.len());
            let (a, b) = (d.events[i].2, d.events[k].2);
            (d.events[i].2, d.events[k].2) = (b, a);
            "counts-swapped"
        }
        _ => {
            let (six, data, count) = &mut d.events[i];
            data.push(0);
            *count += 1;
            if rng.percent(50) {
                six[4] += 1;
            }
            "data-more"
        }
    }
}

/// Sheets about as long as one may be: by data, by rows, by pairs, by events. A number that is no edition has edition 1's
/// layout.
fn sizes(rng: &mut Rng, d: &mut Draft) -> &'static str {
    if rng.percent(30) {
        d.head[0] = rng.pick(&[0, 3, 255]);
    }
    let most = MAX_SHEET + rng.pick(&[0, 0, 1, 1, 2, 300]);
    match rng.below(6) {
        0 | 1 => {
            d.grow(rng, most);
            "long-data"
        }
        2 => {
            while d.length() < most {
                d.rows.push(vec![rng.below(MAX_EVENTS) as u8, rng.below(8) as u8, rng.below(MAX_EVENTS) as u8]);
            }
            "many-rows"
        }
        3 => {
            while d.length() < most {
                d.pairs.push(vec![rng.below(MAX_EVENTS) as u8, rng.below(MAX_EVENTS) as u8]);
            }
            "many-pairs"
        }
        4 => {
            while d.length() < most {
                let again = rng.below(d.events.len());
                d.events.push(d.events[again].clone());
            }
            "many-events"
        }
        _ => {
            // a value that two bytes of length cannot say
            let i = rng.below(d.events.len());
            d.events[i].1.resize(65_536 + rng.below(300), 7);
            d.events[i].2 = rng.pick(&[65_535, 65_531, 65_530, 65_529]);
            "value-over-65535"
        }
    }
}

/// Slices cut, with a rest, or longer than what is said.
fn slices(rng: &mut Rng, lists: &mut [Vec<u8>; 5]) -> &'static str {
    match rng.below(6) {
        0 => {
            let length = rng.below(6);
            lists[0].resize_with(length, || rng.below(3) as u8);
            "head-of-0-to-5"
        }
        1 => {
            let length = rng.below(lists[2].len() + 1);
            lists[2].truncate(length);
            "data-cut"
        }
        2 => {
            let more = rng.range(1, 9);
            lists[2].extend((0..more).map(|i| i as u8));
            "data-behind"
        }
        3 => {
            for (i, entry) in [(1, 8), (3, 3), (4, 2)] {
                let rest = rng.below(entry);
                lists[i].extend((0..rest).map(|_| rng.below(3) as u8).collect::<Vec<u8>>());
            }
            "rests"
        }
        4 => {
            let i = rng.pick(&[1, 3, 4]);
            let length = rng.below(lists[i].len() + 1);
            lists[i].truncate(length);
            "list-cut"
        }
        _ => {
            lists[rng.below(5)].clear();
            "list-empty"
        }
    }
}

/// Bytes changed without regard to entries, or noise.
fn scramble_lists(rng: &mut Rng, lists: &mut [Vec<u8>; 5]) -> &'static str {
    if rng.percent(15) {
        for list in lists.iter_mut() {
            let length = rng.below(30);
            *list = (0..length).map(|_| if rng.percent(70) { rng.below(5) as u8 } else { rng.byte() }).collect();
        }
        return "noise";
    }
    for _ in 0..rng.range(1, 3) {
        let list = &mut lists[rng.below(5)];
        if !list.is_empty() {
            let i = rng.below(list.len());
            list[i] = if rng.percent(70) { rng.below(6) as u8 } else { rng.byte() };
        }
    }
    "bytes"
}

/// Lengths of the five buffers for a sheet's table: mostly enough; else one or more are too short.
pub fn table_buffers(rng: &mut Rng, sheet: &[u8]) -> [usize; 5] {
    let Ok(lists) = lists(sheet) else {
        return [0; 5].map(|_: usize| rng.below(600));
    };
    let needed = lists.map(|l| l.len());
    match rng.below(10) {
        0..=2 => needed,
        3 => needed.map(|n| if rng.percent(25) { n.saturating_sub(1) } else { n + rng.below(4) }),
        4 => needed.map(|n| if rng.percent(20) { 0 } else { n }),
        5 => {
            let mut lengths = needed.map(|n| n + rng.below(9));
            let short = rng.below(5);
            lengths[short] = needed[short].saturating_sub(rng.range(1, 3));
            lengths
        }
        6 => [3, 8 * MAX_EVENTS, 64 * MAX_INITS + 16 * MAX_OTHERS, 3 * 8 * MAX_OTHERS, 2 * MAX_PAIRS],
        _ => needed.map(|n| n + rng.below(20)),
    }
}

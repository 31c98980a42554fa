//! The writer and the way back against the second program: answers, whole buffers and the bytes around them, and what the
//! crate makes of the same table.

use plimdrong::{table_with, write_with, Buffers, Entry, Event, Head, Pair, Row, Slices, Table};
use second::random::{
    case, mostly_few, shown_back, shown_written, table_buffers, table_case, Rng, SHOWN_BACK, SHOWN_WRITTEN,
};
use second::table::{Lent, Tabled, Written};
use second::text::to_text;
use std::collections::BTreeMap;
use std::fmt;

/// Bytes before and after a lent buffer, which must be left alone.
const AROUND: usize = 16;

/// A buffer of `length` random bytes, with more around it.
fn buffer(rng: &mut Rng, length: usize) -> Vec<u8> {
    (0..length + 2 * AROUND).map(|_| rng.byte()).collect()
}

fn inner(b: &mut [u8]) -> &mut [u8] {
    let end = b.len() - AROUND;
    &mut b[AROUND..end]
}

pub fn slices(l: &[Vec<u8>; 5]) -> Slices<'_> {
    Slices { head: &l[0], events: &l[1], data: &l[2], rows: &l[3], pairs: &l[4] }
}

fn lent(l: &[Vec<u8>; 5]) -> Lent<'_> {
    Lent { head: &l[0], events: &l[1], data: &l[2], rows: &l[3], pairs: &l[4] }
}

/// The table that slices lend, if each event's data is there as it says.
pub fn table_of(l: &[Vec<u8>; 5]) -> Option<Table> {
    let said = |i: usize| l[0].get(i).copied().unwrap_or(0);
    let mut rest = &l[2][..];
    let mut events = vec![];
    for e in l[1].chunks_exact(8) {
        let (own, behind) = rest.split_at_checked(e[6] as usize * 256 + e[7] as usize)?;
        rest = behind;
        let [agent, kind, mode, start, width, tear] = e[..6] else { return None };
        events.push(Event { agent, kind, mode, start, width, tear, data: own.to_vec() });
    }
    Some(Table {
        head: Head { edition: said(0), agents: said(1), memory: said(2) },
        events,
        rows: l[3].chunks_exact(3).map(|r| Row { reader: r[0], address: r[1], writer: r[2] }).collect(),
        pairs: l[4].chunks_exact(2).map(|p| Pair { first: p[0], second: p[1] }).collect(),
    })
}

/// How often each answer came: refusals by number, 15 by the buffer too; 0 is what is not refused. And what was shown of
/// 02 §4.
pub struct Hits {
    what: &'static str,
    must: Vec<(u8, usize)>,
    times: BTreeMap<(u8, usize), u64>,
    must_show: &'static [&'static str],
    shown: BTreeMap<&'static str, u64>,
}

impl Hits {
    fn new(what: &'static str, must: Vec<(u8, usize)>, must_show: &'static [&'static str]) -> Hits {
        Hits { what, must, times: BTreeMap::new(), must_show, shown: BTreeMap::new() }
    }

    fn show(&mut self, all: Vec<&'static str>) {
        all.into_iter().for_each(|what| *self.shown.entry(what).or_default() += 1);
    }

    fn count(&mut self, number: u8, place: usize) {
        let place = if number == 15 { place } else { 0 };
        *self.times.entry((number, place)).or_default() += 1;
    }

    fn name(&self, (number, place): (u8, usize)) -> String {
        match number {
            0 => self.what.to_string(),
            15 => format!("refused 15 at {place}"),
            _ => format!("refused {number}"),
        }
    }

    /// The answers that never came, and what was never shown.
    pub fn missing(&self) -> Vec<String> {
        let answers = self.must.iter().filter(|m| !self.times.contains_key(m)).map(|m| self.name(*m));
        let unshown = self.must_show.iter().filter(|what| !self.shown.contains_key(**what));
        answers.chain(unshown.map(|what| what.to_string())).collect()
    }
}

impl fmt::Display for Hits {
    fn fmt(&self, f: &mut fmt::Formatter) -> fmt::Result {
        self.times.iter().try_for_each(|(answer, times)| writeln!(f, "{:<21}{times:>10}", self.name(*answer)))?;
        self.shown.iter().try_for_each(|(what, times)| writeln!(f, "{what:<51}{times:>10}"))
    }
}

/// Answer and whole buffer, as the second program says; and what the crate makes of the same table.
pub fn random_tables(seed: u64, count: u64) -> Hits {
    let must = [0, 1, 4, 5, 6, 7, 8, 9, 10, 11, 14, 15].map(|n| (n, 0)).to_vec();
    let mut hits = Hits::new("written", must, SHOWN_WRITTEN);
    let mut rng = Rng::new(seed);
    for index in 0..count {
        let c = table_case(seed, index, mostly_few(index));
        let mut told = buffer(&mut rng, c.out);
        let mut found = told.clone();
        let expected = second::table::write(lent(&c.lists), inner(&mut told));
        let word = write_with(slices(&c.lists), inner(&mut found));
        assert_eq!(word, expected.word(), "{}: {expected:?} {:?}, lent {}", c.name, c.lists, c.out);
        assert_eq!(found, told, "{}: {expected:?} {:?}, lent {}", c.name, c.lists, c.out);
        match expected {
            Written::Written { .. } => hits.count(0, 0),
            Written::Refused { number, index } => hits.count(number, index),
        }
        hits.show(shown_written(&c.lists, c.out, &expected));
        if let Some(table) = table_of(&c.lists) {
            through_the_crate(&c.name, &table, &expected, &found);
        }
    }
    hits
}

fn through_the_crate(name: &str, table: &Table, expected: &Written, found: &[u8]) {
    match (table.sheet(), expected) {
        (Ok(sheet), Written::Written { length }) => {
            assert_eq!(sheet, found[AROUND..AROUND + length], "{name}");
            assert_eq!(Table::of(&sheet).as_ref(), Ok(table), "{name}");
        }
        // its own buffer is never too short
        (Ok(sheet), Written::Refused { number: 15, .. }) => {
            assert_eq!(Table::of(&sheet).as_ref(), Ok(table), "{name}")
        }
        (Err(wrong), Written::Refused { number, index }) => {
            assert_eq!((wrong.number, wrong.index), (*number, *index), "{name}");
            let begins = match wrong.entry {
                Entry::Table => "the table: ".to_string(),
                Entry::Head => format!("the head ({}", table.head),
                Entry::Event => format!("event {index} ("),
                Entry::Row => format!("row {index} ({}", table.rows[*index]),
                Entry::Pair => format!("pair {index} ({}", table.pairs[*index]),
            };
            assert!(wrong.to_string().starts_with(&begins), "{name}: {wrong}");
            assert!(wrong.to_string().contains(wrong.refusal().remedy), "{name}: {wrong}");
        }
        (sheet, _) => panic!("{name}: {sheet:?}, not {expected:?}"),
    }
}

/// Words and buffers of the way back, as the second program says.
pub fn tables_of_random_sheets(seed: u64, count: u64) -> Hits {
    let refused = (1..=11).chain([14]).map(|n| (n, 0));
    let must = refused.chain((0..5).map(|i| (15, i))).chain([(0, 0)]).collect();
    let mut hits = Hits::new("table", must, SHOWN_BACK);
    let mut rng = Rng::new(seed);
    for index in 0..count {
        let c = case(seed, index, mostly_few(index));
        let lengths = table_buffers(&mut rng, &c.sheet);
        let mut told = lengths.map(|n| buffer(&mut rng, n));
        let mut found = told.clone();
        let expected = second::table::table(&c.sheet, told.each_mut().map(|b| inner(b)));
        let [head, events, data, rows, pairs] = found.each_mut().map(|b| inner(b));
        let word = table_with(&c.sheet, Buffers { head, events, data, rows, pairs });
        assert_eq!(word, expected.word(), "{}: {expected:?}, lent {lengths:?}\n{}", c.name, to_text(&c.sheet));
        assert_eq!(found, told, "{}: {expected:?}, lent {lengths:?}\n{}", c.name, to_text(&c.sheet));
        match expected {
            Tabled::Tabled { .. } => hits.count(0, 0),
            Tabled::Refused { number, place } => hits.count(number, place),
        }
        hits.show(shown_back(&c.sheet, &expected));
    }
    hits
}

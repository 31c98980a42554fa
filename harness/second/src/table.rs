//! 02 §2, "Writing sheets", and the way back: a table lent as five byte slices becomes a sheet, a sheet its table.
//!
//! The writer "refuses exactly what the reader would refuse in 1 and 4 to 11 and 14, with the same number and in the same
//! order". So the sheet is put together first, whatever the table says, and this program's own reader is asked; then its
//! place is turned into an index. 02 §4: "The writer takes the edition as an input": it is the head's first byte. What a
//! sheet of edition 1 cannot say, the tear byte, is tested beside it.

use crate::sheet::{read, Kind, Mode};

/// The table as it is lent. A head of three bytes: edition, agents, memory size, 0 for what is not there. Eight bytes for
/// each event: agent, kind, mode, start, width, tear, and the number of its data bytes, most significant first. The data
/// of all events, one after another. Three bytes for each row, two for each pair. A rest shorter than an entry is none.
#[derive(Clone, Copy, Debug)]
pub struct Lent<'a> {
    pub head: &'a [u8],
    pub events: &'a [u8],
    pub data: &'a [u8],
    pub rows: &'a [u8],
    pub pairs: &'a [u8],
}

/// What the writer answers.
#[derive(Clone, Copy, Debug, PartialEq, Eq)]
pub enum Written {
    Refused { number: u8, index: usize },
    Written { length: usize },
}

impl Written {
    /// Kind 1, the number and the index; or kind 5, 0 and the sheet's length.
    pub fn word(&self) -> u64 {
        match *self {
            Written::Refused { number, index } => (1 << 40) + number as u64 * (1 << 32) + index as u64,
            Written::Written { length } => (5 << 40) + length as u64,
        }
    }
}

/// An event as the table describes it.
struct Description {
    agent: u8,
    kind: u8,
    mode: u8,
    start: u8,
    width: u8,
    tear: u8,
    data: Vec<u8>,
}

/// "An event whose bytes are not all there has those that are."
fn descriptions(events: &[u8], data: &[u8]) -> Vec<Description> {
    let mut rest = data;
    let mut all = vec![];
    for e in events.chunks_exact(8) {
        let said = e[6] as usize * 256 + e[7] as usize;
        let (own, behind) = rest.split_at(said.min(rest.len()));
        rest = behind;
        all.push(Description {
            agent: e[0],
            kind: e[1],
            mode: e[2],
            start: e[3],
            width: e[4],
            tear: e[5],
            data: own.to_vec(),
        });
    }
    all
}

/// 01: "Tear-free: every sc event; an unordered event of width 1, 2 or 4 whose start is divisible by its width. Inits are
/// not." 02 §4 says "sc reads, writes and read-modify-writes" and "0 for all else", so a marker is not either.
fn tear_by_the_rule(d: &Description) -> u8 {
    let marker = d.kind == 4;
    let whole = [1, 2, 4].contains(&d.width) && d.start.is_multiple_of(d.width);
    u8::from(!marker && (d.mode == 2 || d.mode == 1 && whole))
}

fn put(sheet: &mut Vec<u8>, tag: u8, value: &[u8]) {
    sheet.push(tag);
    // a value of 65,536 bytes or more makes the sheet too long, whatever its length bytes say
    sheet.extend(((value.len() % 65536) as u16).to_be_bytes());
    sheet.extend(value);
}

/// "from a lent table of event descriptions, rows and pairs it fills a lent buffer with a sheet. .. A refused call leaves
/// the buffer unchanged; bytes after the sheet are unchanged."
pub fn write(lent: Lent, out: &mut [u8]) -> Written {
    let events = descriptions(lent.events, lent.data);
    let rows: Vec<&[u8]> = lent.rows.chunks_exact(3).collect();
    let pairs: Vec<&[u8]> = lent.pairs.chunks_exact(2).collect();

    // the sheet, and where each of its fields begins
    let mut sheet = vec![];
    let mut tags = vec![];
    let said = |i: usize| lent.head.get(i).copied().unwrap_or(0);
    let edition = said(0);
    tags.push(sheet.len());
    put(&mut sheet, 1, &[edition, said(1), said(2)]);
    for d in &events {
        let mut value = vec![d.agent, d.kind, d.mode, d.start, d.width];
        // 02 §4: "Edition 2 adds a sixth byte to each event before the data"; a number that is no edition has edition 1's
        // layout
        if edition == 2 {
            value.push(d.tear);
        }
        value.extend(&d.data);
        tags.push(sheet.len());
        put(&mut sheet, 2, &value);
    }
    for r in &rows {
        tags.push(sheet.len());
        put(&mut sheet, 3, r);
    }
    for p in &pairs {
        tags.push(sheet.len());
        put(&mut sheet, 4, p);
    }

    // "the index in the table at fault (0 for 1, 5, 10 and 14)"; else the index in the field's own list
    let index = |field: usize| match field {
        0 => 0,
        f if f <= events.len() => f - 1,
        f if f <= events.len() + rows.len() => f - 1 - events.len(),
        f => f - 1 - events.len() - rows.len(),
    };
    // the field that a place stands in
    let field_at = |place: usize| tags.iter().rposition(|&tag| tag <= place).expect("the head stands at 0");
    // 02 §4: "at edition 1 it refuses, 6, a tear byte other than 01's rule gives". It is content of its event. At edition 2
    // the byte stands in the sheet and the reader tests it; a number that is no edition is refused before any event.
    let other = |d: &Description| edition == 1 && d.tear != tear_by_the_rule(d);
    let torn = events.iter().position(other).map(|event| 1 + event);
    let refused = match read(&sheet) {
        Err((1, _)) => Some((1, 0)),
        // a field in front of the one with the wrong tear byte is at fault first; in that field itself content comes before
        // its exact length and the count, and what else is wrong with its content has the same number
        Err((number @ 4..=9, place)) if torn.is_none_or(|torn| field_at(place) < torn) => {
            Some((number, index(field_at(place))))
        }
        _ if torn.is_some() => torn.map(|field| (6, index(field))),
        // after all fields
        Err((11, place)) => Some((11, index(field_at(place)))),
        Err((number, _)) => Some((number, 0)),
        Ok(_) => None,
    };
    if let Some((number, index)) = refused {
        return Written::Refused { number, index };
    }
    // "then 15, place 0, if the buffer is shorter than the sheet"
    if out.len() < sheet.len() {
        return Written::Refused { number: 15, index: 0 };
    }
    out[..sheet.len()].copy_from_slice(&sheet);
    Written::Written { length: sheet.len() }
}

/// What the way back answers: the reader's refusal, 15 with the number of the first buffer that is too short (0 head, 1
/// events, 2 data, 3 rows, 4 pairs), or how many there are.
#[derive(Clone, Copy, Debug, PartialEq, Eq)]
pub enum Tabled {
    Refused { number: u8, place: usize },
    Tabled { events: usize, data: usize, rows: usize, pairs: usize },
}

impl Tabled {
    /// Kind 1, the number and the place; or kind 14, the number of events, and pairs (8 bits), rows (12), data bytes (12).
    pub fn word(&self) -> u64 {
        match *self {
            Tabled::Refused { number, place } => (1 << 40) + number as u64 * (1 << 32) + place as u64,
            Tabled::Tabled { events, data, rows, pairs } => {
                (14 << 40)
                    + events as u64 * (1 << 32)
                    + pairs as u64 * (1 << 24)
                    + rows as u64 * (1 << 12)
                    + data as u64
            }
        }
    }
}

/// The five lists of a sheet's table, in the order head, events, data, rows, pairs.
pub fn lists(sheet: &[u8]) -> Result<[Vec<u8>; 5], (u8, usize)> {
    let x = read(sheet)?;
    let head = vec![x.edition, x.agents, x.size as u8];
    let (mut events, mut data) = (vec![], vec![]);
    for e in &x.events {
        let a = &e.accesses[0];
        let kind = match a.kind {
            Kind::Read => 1,
            Kind::Write => 2,
            Kind::ReadModifyWrite => 3,
            Kind::Marker => 4,
        };
        let mode = match a.mode {
            Mode::Init => 0,
            Mode::Unordered => 1,
            Mode::Sc => 2,
        };
        let tear = u8::from(a.tear_free);
        let count = (a.seen.len() + a.written.len()) as u16;
        events.extend([e.agent, kind, mode, a.start as u8, a.width as u8, tear]);
        events.extend(count.to_be_bytes());
        data.extend(a.seen.iter().chain(&a.written));
    }
    let rows = x.rows.iter().flat_map(|r| [r.reader as u8, r.address as u8, r.writer as u8]).collect();
    let pairs = x.pairs.iter().flat_map(|p| [p.0 as u8, p.1 as u8]).collect();
    Ok([head, events, data, rows, pairs])
}

/// The table of a sheet into five buffers, in the order of [`lists`]. A refused call leaves all of them unchanged; else
/// each holds its list from its front on, and what stands behind is unchanged.
pub fn table(sheet: &[u8], mut buffers: [&mut [u8]; 5]) -> Tabled {
    let lists = match lists(sheet) {
        Err((number, place)) => return Tabled::Refused { number, place },
        Ok(lists) => lists,
    };
    for (i, list) in lists.iter().enumerate() {
        if buffers[i].len() < list.len() {
            return Tabled::Refused { number: 15, place: i };
        }
    }
    for (buffer, list) in buffers.iter_mut().zip(&lists) {
        buffer[..list.len()].copy_from_slice(list);
    }
    let [_, events, data, rows, pairs] = lists.map(|l| l.len());
    Tabled::Tabled { events: events / 8, data, rows: rows / 3, pairs: pairs / 2 }
}

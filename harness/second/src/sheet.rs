//! The sheet of editions 1 and 2 (02 §4): fields, events, rows, pairs; refusals 1 to 11 in the order of document 01, and 14
//! (02 §1).

/// "At most 4,096 bytes."
pub const MAX_SHEET: usize = 4096;
/// "At most 4" inits.
pub const MAX_INITS: usize = 4;
/// "at most 16 together, markers included." 02 §6: "Raise the count of events that are not inits from 16 to 18".
pub const MAX_OTHERS: usize = 18;
/// Pairs: "at most 32."
pub const MAX_PAIRS: usize = 32;
/// The most events there can be, hence the longest order.
pub const MAX_EVENTS: usize = MAX_INITS + MAX_OTHERS;
/// The scratch that the most events need.
pub const MAX_SCRATCH: usize = (1 << MAX_OTHERS) / 8;

/// A refusal's number and place.
pub type Refusal = (u8, usize);

#[derive(Clone, Copy, Debug, PartialEq, Eq)]
pub enum Kind {
    Read,
    Write,
    ReadModifyWrite,
    Marker,
}

#[derive(Clone, Copy, Debug, PartialEq, Eq)]
pub enum Mode {
    Init,
    Unordered,
    Sc,
}

/// What an event does to one range of bytes. Sheets of editions 1 and 2 have one access an event, in region 0; 02 §11 gives
/// an event "one or two accesses in distinct regions". Bytes are numbered through all regions, region * 64 + address, so
/// that bytes, ranges and rows of different regions never meet.
#[derive(Clone, Debug, PartialEq, Eq)]
pub struct Access {
    pub kind: Kind,
    pub mode: Mode,
    pub start: usize,
    pub width: usize,
    /// What was seen, a byte for each byte of the range; empty where nothing is read.
    pub seen: Vec<u8>,
    /// What was written, likewise.
    pub written: Vec<u8>,
    /// 02 §4: "Both editions give the same event record, with its tear byte". False for inits and markers.
    pub tear_free: bool,
}

impl Access {
    pub fn sc(&self) -> bool {
        self.mode == Mode::Sc
    }
    pub fn reads(&self) -> bool {
        matches!(self.kind, Kind::Read | Kind::ReadModifyWrite)
    }
    pub fn writes(&self) -> bool {
        matches!(self.kind, Kind::Write | Kind::ReadModifyWrite)
    }
    pub fn covers(&self, address: usize) -> bool {
        self.start <= address && address < self.start + self.width
    }
    /// "Two ranges overlap when they share at least one byte; equal ranges overlap too, and a marker overlaps nothing."
    pub fn overlaps(&self, other: &Access) -> bool {
        (self.start..self.start + self.width).any(|a| other.covers(a))
    }
    /// "equal ranges (same start and width)"
    pub fn equal_range(&self, other: &Access) -> bool {
        self.start == other.start && self.width == other.width
    }
    pub fn seen_at(&self, address: usize) -> u8 {
        self.seen[address - self.start]
    }
    pub fn written_at(&self, address: usize) -> u8 {
        self.written[address - self.start]
    }
}

#[derive(Clone, Debug, PartialEq, Eq)]
pub struct Event {
    pub agent: u8,
    pub accesses: Vec<Access>,
    /// The place of the field's tag.
    pub place: usize,
}

impl Event {
    /// 02 §11: "An event's accesses are all init or none is."
    pub fn is_init(&self) -> bool {
        self.accesses.iter().all(|a| a.mode == Mode::Init)
    }
    pub fn is_marker(&self) -> bool {
        self.accesses.iter().any(|a| a.kind == Kind::Marker)
    }
    pub fn reads(&self) -> bool {
        self.accesses.iter().any(|a| a.reads())
    }
    pub fn overlaps(&self, other: &Event) -> bool {
        self.accesses.iter().any(|a| other.accesses.iter().any(|b| a.overlaps(b)))
    }
    /// The access that reads this byte, if any.
    pub fn reading(&self, address: usize) -> Option<&Access> {
        self.accesses.iter().find(|a| a.reads() && a.covers(address))
    }
    /// The access that writes this byte, if any.
    pub fn writing(&self, address: usize) -> Option<&Access> {
        self.accesses.iter().find(|a| a.writes() && a.covers(address))
    }
}

#[derive(Clone, Copy, Debug, PartialEq, Eq)]
pub struct Row {
    pub reader: usize,
    pub address: usize,
    pub writer: usize,
}

#[derive(Clone, Debug, PartialEq, Eq)]
pub struct Execution {
    pub edition: u8,
    pub agents: u8,
    pub size: usize,
    pub events: Vec<Event>,
    pub rows: Vec<Row>,
    pub pairs: Vec<(usize, usize)>,
}

impl Execution {
    pub fn inits(&self) -> usize {
        self.events.iter().filter(|e| e.is_init()).count()
    }
    /// The events that are not inits: 01's n.
    pub fn others(&self) -> usize {
        self.events.len() - self.inits()
    }
}

/// The place printed with refusals 4 to 8 is the field's tag. (02 §10 will move it; it is made here and nowhere else.)
fn place_of(_number: u8, tag_place: usize) -> usize {
    tag_place
}

/// Refusals 1 to 11 and 14, or what the sheet says.
pub fn read(sheet: &[u8]) -> Result<Execution, Refusal> {
    // "sheet over 4,096 bytes; tested before all"
    if sheet.len() > MAX_SHEET {
        return Err((1, 0));
    }
    // "the empty sheet": 3 at 0
    if sheet.is_empty() {
        return Err((3, 0));
    }
    let mut x = Execution { edition: 0, agents: 0, size: 0, events: vec![], rows: vec![], pairs: vec![] };
    let mut last_tag = 0;
    let mut at = 0;
    // "Fields are taken front to back; the first at fault decides."
    while at < sheet.len() {
        let rest = &sheet[at..];
        // "fewer than three bytes left (2)"
        if rest.len() < 3 {
            return Err((2, at));
        }
        // "tag not allowed here (3)": "Tags never fall; tag 1 comes first and once."
        let tag = rest[0];
        let allowed = match tag {
            1 => last_tag == 0,
            2..=4 => last_tag != 0 && tag >= last_tag,
            _ => false,
        };
        if !allowed {
            return Err((3, at));
        }
        last_tag = tag;
        // "value past the end (2)"
        let length = rest[1] as usize * 256 + rest[2] as usize;
        if length > rest.len() - 3 {
            return Err((2, at));
        }
        let value = &rest[3..3 + length];
        // "length (4), content (5 to 8)"
        let field = match tag {
            1 => head(&mut x, value),
            2 => event(&mut x, value, at),
            3 => row(&mut x, value),
            _ => pair(&mut x, value),
        };
        if let Err(number) = field {
            return Err((number, place_of(number, at)));
        }
        at += 3 + length;
    }
    // "no event reads": 10 at the sheet's length
    if !x.events.iter().any(|e| e.reads()) {
        return Err((10, sheet.len()));
    }
    // 02 §1: "a head that promises an agent with no event is refused, number 14, place the sheet length, tested after 10
    // and before 11. .. A marker counts as an event."
    if !(1..=x.agents).all(|agent| x.events.iter().any(|e| e.agent == agent)) {
        return Err((14, sheet.len()));
    }
    // "a read byte without a row": 11 at the tag of the lowest such event
    for (number, e) in x.events.iter().enumerate() {
        for access in e.accesses.iter().filter(|a| a.reads()) {
            for a in access.start..access.start + access.width {
                if !x.rows.iter().any(|r| r.reader == number && r.address == a) {
                    return Err((11, e.place));
                }
            }
        }
    }
    Ok(x)
}

/// "edition (1), agents (1 to 8), memory size in bytes (1 to 64)"; with 02 §4 there is an "Edition 2", and "Edition 1 stays".
fn head(x: &mut Execution, value: &[u8]) -> Result<(), u8> {
    if value.len() != 3 {
        return Err(4);
    }
    if !(1..=2).contains(&value[0]) || !(1..=8).contains(&value[1]) || !(1..=64).contains(&value[2]) {
        return Err(5);
    }
    x.edition = value[0];
    x.agents = value[1];
    x.size = value[2] as usize;
    Ok(())
}

/// "For an event: value under five bytes (4), content (6), exact length (4), count (9)."
fn event(x: &mut Execution, value: &[u8], place: usize) -> Result<(), u8> {
    // 02 §4: "Edition 2 adds a sixth byte to each event before the data"; "The "under five bytes" test is six for edition 2."
    let before_data = if x.edition == 2 { 6 } else { 5 };
    if value.len() < before_data {
        return Err(4);
    }
    let agent = value[0];
    let start = value[3] as usize;
    let width = value[4] as usize;
    let data = &value[before_data..];
    // "decided by number, and every number not listed is refused"
    let kind = match value[1] {
        1 => Kind::Read,
        2 => Kind::Write,
        3 => Kind::ReadModifyWrite,
        4 => Kind::Marker,
        _ => return Err(6),
    };
    let mode = match value[2] {
        0 => Mode::Init,
        1 => Mode::Unordered,
        2 => Mode::Sc,
        _ => return Err(6),
    };
    let mut a = Access { kind, mode, start, width, seen: vec![], written: vec![], tear_free: false };
    if !content(x, agent, &a) {
        return Err(6);
    }
    // the tear byte is content, so before the exact length
    a.tear_free = match x.edition {
        2 => tear_by_the_byte(&a, value[5])?,
        _ => tear_by_the_rule(&a),
    };
    // "Data is width bytes for a read (what was seen) and a write; twice the width for kind 3 (seen, then written);
    // none for a marker."
    let exact = match kind {
        Kind::Read | Kind::Write => width,
        Kind::ReadModifyWrite => 2 * width,
        Kind::Marker => 0,
    };
    if data.len() != exact {
        return Err(4);
    }
    // "fifth init, 17th other event"; 02 §6: "refusal 9 comes at the 19th"
    let (inits, others) = (x.inits(), x.others());
    if (mode == Mode::Init && inits == MAX_INITS) || (mode != Mode::Init && others == MAX_OTHERS) {
        return Err(9);
    }
    match kind {
        Kind::Read => a.seen = data.to_vec(),
        Kind::Write => a.written = data.to_vec(),
        Kind::ReadModifyWrite => {
            a.seen = data[..width].to_vec();
            a.written = data[width..].to_vec();
        }
        Kind::Marker => {}
    }
    x.events.push(Event { agent, accesses: vec![a], place });
    Ok(())
}

/// What 01 asks of an event's content, given the head and the events before it.
fn content(x: &Execution, agent: u8, a: &Access) -> bool {
    // "Start plus width is at most the memory size."
    if a.start + a.width > x.size {
        return false;
    }
    if a.mode == Mode::Init {
        // "Init: agent 0, kind 2, mode 0, width 1 to 64. Inits stand before all other events and their ranges are
        // disjoint."
        return agent == 0
            && a.kind == Kind::Write
            && (1..=64).contains(&a.width)
            && x.events.iter().all(|d| d.is_init() && !d.accesses.iter().any(|b| b.overlaps(a)));
    }
    // "Others: agent 1 to the head's count"
    if !(1..=x.agents).contains(&agent) {
        return false;
    }
    match a.kind {
        // "Reads and writes have mode 1 or 2; kind 3 has mode 2"
        Kind::Read | Kind::Write => ranged(a),
        Kind::ReadModifyWrite => a.sc() && ranged(a),
        // "Marker: mode 2, start 0, width 0."
        Kind::Marker => a.sc() && a.start == 0 && a.width == 0,
    }
}

/// "these three have widths 1, 2, 4, 8, and in mode 2 a start divisible by the width."
fn ranged(a: &Access) -> bool {
    matches!(a.width, 1 | 2 | 4 | 8) && (!a.sc() || a.start.is_multiple_of(a.width))
}

/// "Tear-free: every sc event; an unordered event of width 1, 2 or 4 whose start is divisible by its width. Inits are
/// not." 02 §4: "Edition 1 stays". A marker's byte is 0 in the record, at edition 1 too.
fn tear_by_the_rule(a: &Access) -> bool {
    match a.mode {
        Mode::Init => false,
        Mode::Sc => a.kind != Kind::Marker,
        Mode::Unordered => matches!(a.width, 1 | 2 | 4) && a.start.is_multiple_of(a.width),
    }
}

/// 02 §4: "a sixth byte to each event before the data: 0 may tear, 1 tear-free. It must be 1 for sc reads, writes and
/// read-modify-writes, free for unordered ones of width 1, 2 or 4 whose start is divisible by the width, 0 for all else;
/// otherwise refusal 6."
fn tear_by_the_byte(a: &Access, byte: u8) -> Result<bool, u8> {
    let allowed: &[u8] = match (a.kind, a.mode) {
        (Kind::Read | Kind::Write | Kind::ReadModifyWrite, Mode::Sc) => &[1],
        (Kind::Read | Kind::Write | Kind::ReadModifyWrite, Mode::Unordered) => match a.width {
            1 => &[0, 1],
            2 | 4 if a.start.is_multiple_of(a.width) => &[0, 1],
            _ => &[0],
        },
        _ => &[0],
    };
    if allowed.contains(&byte) {
        Ok(byte == 1)
    } else {
        Err(6)
    }
}

/// "Row: the reader reads and covers the address; the writer writes and covers it; they differ; rows rise strictly by
/// (reader, address)."
fn row(x: &mut Execution, value: &[u8]) -> Result<(), u8> {
    if value.len() != 3 {
        return Err(4);
    }
    let r = Row { reader: value[0] as usize, address: value[1] as usize, writer: value[2] as usize };
    let (Some(reader), Some(writer)) = (x.events.get(r.reader), x.events.get(r.writer)) else {
        return Err(7);
    };
    let fit = reader.reading(r.address).is_some() && writer.writing(r.address).is_some();
    if !fit || r.reader == r.writer {
        return Err(7);
    }
    if let Some(last) = x.rows.last() {
        if (r.reader, r.address) <= (last.reader, last.address) {
            return Err(7);
        }
    }
    x.rows.push(r);
    Ok(())
}

/// "Pair: two markers of different agents; pairs rise strictly; at most 32." The count comes after content.
fn pair(x: &mut Execution, value: &[u8]) -> Result<(), u8> {
    if value.len() != 2 {
        return Err(4);
    }
    let p = (value[0] as usize, value[1] as usize);
    let (Some(first), Some(second)) = (x.events.get(p.0), x.events.get(p.1)) else {
        return Err(8);
    };
    if !first.is_marker() || !second.is_marker() || first.agent == second.agent {
        return Err(8);
    }
    if x.pairs.last().is_some_and(|last| p <= *last) {
        return Err(8);
    }
    if x.pairs.len() == MAX_PAIRS {
        return Err(9);
    }
    x.pairs.push(p);
    Ok(())
}

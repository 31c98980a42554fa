//! The writer: a table of events, rows and pairs becomes a sheet, and a sheet its table.

use crate::words::unwritable;
use crate::{Answer, Refusal, MAX_SHEET};
use crate::{MAX_TABLE_DATA, MAX_TABLE_EVENTS, MAX_TABLE_HEAD, MAX_TABLE_PAIRS, MAX_TABLE_ROWS};
use std::fmt;

/// Numbers of an event's kind.
///
/// ```
/// use plimdrong::{kind, Event};
/// assert_eq!(Event::marker(1).kind, kind::MARKER);
/// ```
pub mod kind {
    pub const READ: u8 = 1;
    pub const WRITE: u8 = 2;
    /// Read-modify-write.
    pub const RMW: u8 = 3;
    pub const MARKER: u8 = 4;
}

/// Numbers of an event's mode.
///
/// ```
/// use plimdrong::{mode, Event};
/// assert_eq!(Event::init(0, &[0]).mode, mode::INIT);
/// ```
pub mod mode {
    pub const INIT: u8 = 0;
    pub const UNORDERED: u8 = 1;
    /// Sequentially consistent.
    pub const SC: u8 = 2;
}

/// What a sheet says, as lists. Whatever a suite has by mistake can stand here: [`Table::sheet`] refuses it.
///
/// ```
/// use plimdrong::{mode, Event, Head, Row, Table};
///
/// let table = Table {
///     head: Head { edition: 1, agents: 2, memory: 1 },
///     events: vec![
///         Event::init(0, &[0]),
///         Event::write(1, mode::SC, 0, &[7]),
///         Event::read(2, mode::SC, 0, &[7]),
///     ],
///     rows: vec![Row { reader: 2, address: 0, writer: 1 }],
///     pairs: vec![],
/// };
/// let sheet = table.sheet().unwrap();
/// assert_eq!(plimdrong::judge(&sheet).to_string(), "consistent orderly then 0 1 2");
/// assert_eq!(Table::of(&sheet), Ok(table));
/// ```
#[derive(Clone, Debug, Default, PartialEq, Eq)]
pub struct Table {
    pub head: Head,
    pub events: Vec<Event>,
    pub rows: Vec<Row>,
    pub pairs: Vec<Pair>,
}

/// The head. The default is edition 1 with no agent and no memory, which the writer refuses.
///
/// ```
/// use plimdrong::Head;
/// assert_eq!(Head { agents: 2, memory: 8, ..Head::default() }.to_string(), "head 1 2 8");
/// ```
#[derive(Clone, Copy, Debug, PartialEq, Eq)]
pub struct Head {
    /// 1 or 2. Edition 2 says of each event whether it may tear, and can always be recorded with. Edition 1 does not: it is
    /// for executions all of whose unordered accesses went through integer typed arrays, and takes them for what
    /// [`Event::tear_by_the_rule`] gives. A table of edition 1 becomes one of edition 2 when this is made 2.
    pub edition: u8,
    /// How many; each has an event.
    pub agents: u8,
    /// How many bytes.
    pub memory: u8,
}

impl Default for Head {
    fn default() -> Self {
        Head { edition: 1, agents: 0, memory: 0 }
    }
}

/// An event. [`Event::init`], [`Event::read`], [`Event::write`], [`Event::rmw`] and [`Event::marker`] fill in kind, width
/// and tear byte; [`Event::may_tear`] is for an access through a Float32Array, a DataView and their like.
#[derive(Clone, Debug, PartialEq, Eq)]
pub struct Event {
    /// 0 for an init.
    pub agent: u8,
    /// A number of [`kind`].
    pub kind: u8,
    /// A number of [`mode`].
    pub mode: u8,
    /// The address of the first byte.
    pub start: u8,
    /// How many bytes.
    pub width: u8,
    /// 1 where the event is tear-free, 0 where it may tear. At edition 2 it stands in the sheet: 1 for sc reads, writes and
    /// read-modify-writes, 0 or 1 for unordered ones of width 1, 2 or 4 whose start is divisible by the width, 0 for all
    /// else. A sheet of edition 1 does not hold it; it must be what [`Event::tear_by_the_rule`] gives.
    pub tear: u8,
    /// What was seen, then what was written.
    pub data: Vec<u8>,
}

/// A byte that was read, and who wrote it.
///
/// ```
/// use plimdrong::Row;
/// assert_eq!(Row { reader: 3, address: 0, writer: 1 }.to_string(), "row 3 0 1");
/// ```
#[derive(Clone, Copy, Debug, PartialEq, Eq)]
pub struct Row {
    pub reader: u8,
    pub address: u8,
    pub writer: u8,
}

/// Two markers, of which the first synchronises with the second.
///
/// ```
/// use plimdrong::Pair;
/// assert_eq!(Pair { first: 2, second: 5 }.to_string(), "pair 2 5");
/// ```
#[derive(Clone, Copy, Debug, PartialEq, Eq)]
pub struct Pair {
    pub first: u8,
    pub second: u8,
}

impl Event {
    /// The first bytes of the memory from `start` on.
    ///
    /// ```
    /// let e = plimdrong::Event::init(4, &[0, 0, 0]);
    /// assert_eq!(e.to_string(), "init at 4: 00 00 00");
    /// assert_eq!((e.agent, e.kind, e.mode, e.width, e.tear), (0, 2, 0, 3, 0));
    /// ```
    pub fn init(start: u8, written: &[u8]) -> Event {
        Event::access(0, kind::WRITE, mode::INIT, start, written.len(), written.to_vec())
    }

    /// A read that saw these bytes. The width is their number (255 where there are more, which the writer refuses); the
    /// tear byte is by the rule, so an unordered one is taken for an access through an integer typed array: see
    /// [`Event::may_tear`]. The same holds for the other events.
    ///
    /// ```
    /// use plimdrong::{mode, Event};
    /// let e = Event::read(1, mode::UNORDERED, 2, &[7, 8]);
    /// assert_eq!(e.to_string(), "A1 read unordered at 2: 07 08");
    /// assert_eq!((e.width, e.tear), (2, 1));
    /// // two bytes at an odd start may tear
    /// assert_eq!(Event::read(1, mode::UNORDERED, 3, &[7, 8]).tear, 0);
    /// ```
    pub fn read(agent: u8, mode: u8, start: u8, seen: &[u8]) -> Event {
        Event::access(agent, kind::READ, mode, start, seen.len(), seen.to_vec())
    }

    /// A write of these bytes.
    ///
    /// ```
    /// use plimdrong::{mode, Event};
    /// assert_eq!(Event::write(2, mode::SC, 0, &[255]).to_string(), "A2 write sc at 0: ff");
    /// ```
    pub fn write(agent: u8, mode: u8, start: u8, written: &[u8]) -> Event {
        Event::access(agent, kind::WRITE, mode, start, written.len(), written.to_vec())
    }

    /// A read-modify-write, which is sc: it saw some bytes and wrote as many. The width is the number of those seen.
    ///
    /// ```
    /// use plimdrong::Event;
    /// assert_eq!(Event::rmw(2, 4, &[0], &[1]).to_string(), "A2 rmw sc at 4: 00 -> 01");
    /// ```
    pub fn rmw(agent: u8, start: u8, seen: &[u8], written: &[u8]) -> Event {
        Event::access(agent, kind::RMW, mode::SC, start, seen.len(), [seen, written].concat())
    }

    /// A marker: it touches no byte and is there to be named by a pair.
    ///
    /// ```
    /// use plimdrong::Event;
    /// assert_eq!(Event::marker(3).to_string(), "A3 marker");
    /// assert_eq!(Event::marker(3).tear, 0);
    /// ```
    pub fn marker(agent: u8) -> Event {
        Event::access(agent, kind::MARKER, mode::SC, 0, 0, vec![])
    }

    fn access(agent: u8, kind: u8, mode: u8, start: u8, width: usize, data: Vec<u8>) -> Event {
        let width = width.min(255) as u8;
        let tear = Event::tear_by_the_rule(kind, mode, start, width);
        Event { agent, kind, mode, start, width, tear, data }
    }

    /// The same access, which may tear: its tear byte is 0. For edition 2.
    ///
    /// ECMA-262 has an unordered access tear-free where it goes through an Int8Array, Uint8Array, Int16Array, Uint16Array,
    /// Int32Array or Uint32Array. All other unordered ones may tear: through a Uint8ClampedArray, a Float32Array, a
    /// Float64Array, a BigInt64Array, and every one through a DataView. An sc event is tear-free, and the writer refuses one
    /// that is said to tear (6).
    ///
    /// ```
    /// use plimdrong::{judge, mode, Event, Head, Row, Table};
    ///
    /// // two agents set an element of a Float32Array to 1 and to -1.9999999, a third one reads it and sees half of each
    /// let read = Event::read(3, mode::UNORDERED, 0, &[0, 0, 0xff, 0xbf]).may_tear();
    /// assert_eq!(read.to_string(), "A3 read unordered may-tear at 0: 00 00 ff bf");
    /// let row = |address, writer| Row { reader: 2, address, writer };
    /// let mut table = Table {
    ///     head: Head { edition: 2, agents: 3, memory: 4 },
    ///     events: vec![
    ///         Event::write(1, mode::UNORDERED, 0, &[0, 0, 0x80, 0x3f]).may_tear(),
    ///         Event::write(2, mode::UNORDERED, 0, &[0xff, 0xff, 0xff, 0xbf]).may_tear(),
    ///         read,
    ///     ],
    ///     rows: vec![row(0, 0), row(1, 0), row(2, 1), row(3, 1)],
    ///     pairs: vec![],
    /// };
    /// assert_eq!(judge(&table.sheet().unwrap()).to_string(), "consistent unsettled 0 1 then 0 1 2");
    ///
    /// // through an Int32Array they are tear-free
    /// table.events.iter_mut().for_each(|e| e.tear = 1);
    /// assert_eq!(judge(&table.sheet().unwrap()).to_string(), "broken 25 2 0 1 -");
    /// ```
    pub fn may_tear(self) -> Event {
        Event { tear: 0, ..self }
    }

    /// The tear byte of an event of edition 1: 1 for an sc read, write or read-modify-write and for an unordered one of
    /// width 1, 2 or 4 whose start is divisible by its width, 0 for all else. It is right for integer typed arrays only:
    /// nothing here tells through which view an access went. Edition 2 takes it too, beside [`Event::may_tear`].
    ///
    /// ```
    /// use plimdrong::{kind, mode, Event};
    /// assert_eq!(Event::tear_by_the_rule(kind::READ, mode::UNORDERED, 4, 4), 1);
    /// assert_eq!(Event::tear_by_the_rule(kind::READ, mode::UNORDERED, 0, 8), 0);
    /// assert_eq!(Event::tear_by_the_rule(kind::WRITE, mode::INIT, 0, 1), 0);
    /// ```
    pub fn tear_by_the_rule(kind: u8, mode: u8, start: u8, width: u8) -> u8 {
        let whole = matches!(width, 1 | 2 | 4) && start.is_multiple_of(width);
        u8::from(kind != self::kind::MARKER && (mode == self::mode::SC || mode == self::mode::UNORDERED && whole))
    }
}

/// A table as five byte slices, the form in which the exported writer takes it.
///
/// `head`: edition, agents, memory size, a byte each; what a shorter slice lacks counts as 0. `events`: eight bytes each:
/// agent, kind, mode, start, width, tear, and the number of data bytes, the most significant byte first. `data`: the data
/// of all events, one event after another. `rows`: reader, address, writer. `pairs`: marker, marker. A rest shorter than
/// an entry is none.
#[derive(Clone, Copy, Debug)]
pub struct Slices<'a> {
    pub head: &'a [u8],
    pub events: &'a [u8],
    pub data: &'a [u8],
    pub rows: &'a [u8],
    pub pairs: &'a [u8],
}

/// Five buffers for a table, laid out as [`Slices`] are. [`MAX_TABLE_HEAD`] and its like are enough for every sheet.
#[derive(Debug)]
pub struct Buffers<'a> {
    pub head: &'a mut [u8],
    pub events: &'a mut [u8],
    pub data: &'a mut [u8],
    pub rows: &'a mut [u8],
    pub pairs: &'a mut [u8],
}

extern "C" {
    // crates/plimdrong: a byte slice passes as a pointer and then a length
    fn plimdrong_write(
        head: *const u8,
        head_len: usize,
        events: *const u8,
        events_len: usize,
        data: *const u8,
        data_len: usize,
        rows: *const u8,
        rows_len: usize,
        pairs: *const u8,
        pairs_len: usize,
        out: *mut u8,
        out_len: usize,
    ) -> u64;
    fn plimdrong_table(
        sheet: *const u8,
        sheet_len: usize,
        head: *mut u8,
        head_len: usize,
        events: *mut u8,
        events_len: usize,
        data: *mut u8,
        data_len: usize,
        rows: *mut u8,
        rows_len: usize,
        pairs: *mut u8,
        pairs_len: usize,
    ) -> u64;
}

/// The exported writer: the sheet of a table into a buffer of any length, the answer as a 64-bit word.
///
/// Kind 5: written, the low 32 bits are the sheet's length; what stands behind it is unchanged. Kind 1: refused, by the
/// number that the reader would give (1, 4 to 11, 14), the low 32 bits are the index of the entry at fault in its own list
/// (0 for 1, 5, 10 and 14); or 15 at 0, where the buffer is shorter than the sheet. The buffer is then unchanged. The head's
/// edition decides how the sheet is laid out: at edition 2 an event's tear byte stands before its data, at edition 1 it does
/// not stand there.
///
/// ```
/// use plimdrong::{write_with, Slices};
///
/// let (head, rows) = ([1, 1, 1], [1, 0, 0]);
/// let events = [0, 2, 0, 0, 1, 0, 0, 1, /**/ 1, 1, 1, 0, 1, 1, 0, 1];
/// let table = Slices { head: &head, events: &events, data: &[0, 0], rows: &rows, pairs: &[] };
/// let mut out = [9; 31];
/// assert_eq!(write_with(table, &mut out), (5 << 40) + 30);
/// assert_eq!((out[..6].to_vec(), out[30]), (vec![1, 0, 3, 1, 1, 1], 9));
/// assert_eq!(write_with(table, &mut out[..29]), (1 << 40) + (15 << 32));
/// assert_eq!(write_with(Slices { rows: &[], ..table }, &mut out), (1 << 40) + (11 << 32) + 1);
///
/// // edition 2: a byte more in each event
/// let mut out = [9; 33];
/// assert_eq!(write_with(Slices { head: &[2, 1, 1], ..table }, &mut out), (5 << 40) + 32);
/// assert_eq!(out[16..26], [2, 0, 7, 1, 1, 1, 0, 1, 1, 0]);
/// ```
pub fn write_with(table: Slices, out: &mut [u8]) -> u64 {
    // SAFETY: the function reads only the five slices and writes only within `out`, which the borrows give it for the call,
    // the lent one disjoint from all else by Rust's own rules. Its contract asks for nothing more.
    unsafe {
        plimdrong_write(
            table.head.as_ptr(),
            table.head.len(),
            table.events.as_ptr(),
            table.events.len(),
            table.data.as_ptr(),
            table.data.len(),
            table.rows.as_ptr(),
            table.rows.len(),
            table.pairs.as_ptr(),
            table.pairs.len(),
            out.as_mut_ptr(),
            out.len(),
        )
    }
}

/// The other way: the table of a sheet into five buffers of any length, the answer as a 64-bit word.
///
/// Kind 14: the number is how many events there are, the low 32 bits are pairs * 2^24 + rows * 2^12 + data bytes; each
/// buffer holds its list from its front on, and what stands behind is unchanged. Kind 1: refused, as the judge refuses the
/// sheet (1 to 11, 14, with the place in the sheet); or 15, the place being the number of the first buffer that is too
/// short: 0 head, 1 events, 2 data, 3 rows, 4 pairs. All buffers are then unchanged. The tear bytes are those of the sheet
/// at edition 2, those of the rule at edition 1.
///
/// ```
/// use plimdrong::{table_with, Buffers};
///
/// let sheet = [1, 0, 3, 1, 1, 1, 2, 0, 6, 1, 1, 1, 0, 1, 7, 2, 0, 6, 1, 2, 1, 0, 1, 7, 3, 0, 3, 0, 0, 1];
/// let (mut head, mut events, mut data, mut rows) = ([0; 3], [0; 16], [0; 2], [9; 4]);
/// let lent =
///     Buffers { head: &mut head, events: &mut events, data: &mut data, rows: &mut rows, pairs: &mut [] };
/// assert_eq!(table_with(&sheet, lent), (14 << 40) + (2 << 32) + (1 << 12) + 2);
/// assert_eq!(events, [1, 1, 1, 0, 1, 1, 0, 1, 1, 2, 1, 0, 1, 1, 0, 1]);
/// assert_eq!(rows, [0, 0, 1, 9]);
/// ```
pub fn table_with(sheet: &[u8], lent: Buffers) -> u64 {
    // SAFETY: the function reads only `sheet` and writes only within the five buffers, which the borrows give it for the
    // call, disjoint from each other and from the sheet by Rust's own rules. Its contract asks for nothing more.
    unsafe {
        plimdrong_table(
            sheet.as_ptr(),
            sheet.len(),
            lent.head.as_mut_ptr(),
            lent.head.len(),
            lent.events.as_mut_ptr(),
            lent.events.len(),
            lent.data.as_mut_ptr(),
            lent.data.len(),
            lent.rows.as_mut_ptr(),
            lent.rows.len(),
            lent.pairs.as_mut_ptr(),
            lent.pairs.len(),
        )
    }
}

fn parts(word: u64) -> (u8, u8, u32) {
    ((word >> 40) as u8, (word >> 32) as u8, word as u32)
}

fn another_version(word: u64) -> ! {
    panic!("{word:#x} is no answer: the linked judge is of another version than this crate")
}

impl Table {
    /// The table's sheet, or which entry is at fault, as the judge's reader would refuse the sheet.
    ///
    /// ```
    /// use plimdrong::{mode, Entry, Event, Head, Table};
    ///
    /// let table = Table {
    ///     head: Head { edition: 1, agents: 1, memory: 1 },
    ///     events: vec![Event::init(0, &[0]), Event::read(1, mode::SC, 0, &[0])],
    ///     ..Table::default()
    /// };
    /// let wrong = table.sheet().unwrap_err();
    /// assert_eq!((wrong.number, wrong.entry, wrong.index), (11, Entry::Event, 1));
    /// assert_eq!(
    ///     wrong.to_string(),
    ///     "event 1 (A1 read sc at 0: 00): A byte that was read has no row. Byte 0 has none. Give each byte of each read \
    ///      and read-modify-write exactly one row."
    /// );
    /// ```
    ///
    /// A sheet is at most 4,096 bytes long, and an event's data counts with all its bytes: 65,536 of them and more are 1,
    /// like any other table that is too long.
    pub fn sheet(&self) -> Result<Vec<u8>, Unwritable> {
        let (mut events, mut data) = (vec![], vec![]);
        for e in &self.events {
            // two bytes say at most 65,535: no wrapping, and far more than a sheet can hold
            let count = e.data.len().min(65_535) as u16;
            events.extend([e.agent, e.kind, e.mode, e.start, e.width, e.tear]);
            events.extend(count.to_be_bytes());
            data.extend(&e.data);
        }
        let head = [self.head.edition, self.head.agents, self.head.memory];
        let rows: Vec<u8> = self.rows.iter().flat_map(|r| [r.reader, r.address, r.writer]).collect();
        let pairs: Vec<u8> = self.pairs.iter().flat_map(|p| [p.first, p.second]).collect();
        let mut out = vec![0; MAX_SHEET];
        let lent = Slices { head: &head, events: &events, data: &data, rows: &rows, pairs: &pairs };
        let word = write_with(lent, &mut out);
        match parts(word) {
            (5, 0, length) => {
                out.truncate(length as usize);
                Ok(out)
            }
            (1, number @ (1 | 4..=11 | 14), index) => Err(Unwritable::of(self, number, index as usize)),
            _ => another_version(word),
        }
    }

    /// The table of a sheet, or the judge's own refusal of it: [`Answer::Refused`].
    ///
    /// ```
    /// use plimdrong::{judge, Table};
    ///
    /// let sheet = [1, 0, 3, 1, 1, 1, 2, 0, 6, 1, 1, 1, 0, 1, 7, 2, 0, 6, 1, 2, 1, 0, 1, 7, 3, 0, 3, 0, 0, 1];
    /// let table = Table::of(&sheet).unwrap();
    /// assert_eq!(table.events[0].to_string(), "A1 read unordered at 0: 07");
    /// assert_eq!(table.sheet().unwrap(), sheet);
    /// assert_eq!(Table::of(&sheet[..9]), Err(judge(&sheet[..9])));
    /// ```
    pub fn of(sheet: &[u8]) -> Result<Table, Answer> {
        let (mut head, mut events, mut data) = ([0; MAX_TABLE_HEAD], [0; MAX_TABLE_EVENTS], [0; MAX_TABLE_DATA]);
        let (mut rows, mut pairs) = ([0; MAX_TABLE_ROWS], [0; MAX_TABLE_PAIRS]);
        let lent =
            Buffers { head: &mut head, events: &mut events, data: &mut data, rows: &mut rows, pairs: &mut pairs };
        let word = table_with(sheet, lent);
        let (kind, number, low) = parts(word);
        if kind != 14 {
            return Err(match Answer::from_word(word, &[]) {
                Some(refused @ Answer::Refused { .. }) => refused,
                _ => another_version(word),
            });
        }
        let (pairs_there, rows_there) = ((low >> 24) as usize, (low >> 12 & 4095) as usize);
        let mut rest = &data[..(low & 4095) as usize];
        let described = events.chunks_exact(8).take(number as usize).map(|e| {
            let (own, behind) = rest.split_at(e[6] as usize * 256 + e[7] as usize);
            rest = behind;
            Event { agent: e[0], kind: e[1], mode: e[2], start: e[3], width: e[4], tear: e[5], data: own.to_vec() }
        });
        Ok(Table {
            head: Head { edition: head[0], agents: head[1], memory: head[2] },
            events: described.collect(),
            rows: rows
                .chunks_exact(3)
                .take(rows_there)
                .map(|r| Row { reader: r[0], address: r[1], writer: r[2] })
                .collect(),
            pairs: pairs.chunks_exact(2).take(pairs_there).map(|p| Pair { first: p[0], second: p[1] }).collect(),
        })
    }
}

/// What a refusal of a table is about.
#[derive(Clone, Copy, Debug, PartialEq, Eq)]
pub enum Entry {
    /// The table as a whole: 1, 10 and 14.
    Table,
    /// 5.
    Head,
    /// 4, 6, 9 and 11.
    Event,
    /// 7.
    Row,
    /// 8 and 9.
    Pair,
}

/// Why a table is no sheet. Its `Display` names the entry, says what is wrong with it and what to do.
///
/// ```
/// use plimdrong::{Entry, Table};
///
/// let wrong = Table::parse("head 1 9 1").unwrap().sheet().unwrap_err();
/// assert_eq!((wrong.number, wrong.entry, wrong.index), (5, Entry::Head, 0));
/// assert_eq!(wrong.refusal().meaning, "The head's content is wrong.");
/// assert_eq!(
///     wrong.to_string(),
///     "the head (head 1 9 1): The head's content is wrong. The edition is 1 or 2, agents are 1 to 8, the memory has 1 to \
///      64 bytes."
/// );
/// ```
#[derive(Clone, Debug, PartialEq, Eq)]
pub struct Unwritable {
    /// The reader's number: 1, 4 to 11 or 14.
    pub number: u8,
    /// The index in the list of events, rows or pairs; 0 for the head and the table as a whole.
    pub index: usize,
    /// The list.
    pub entry: Entry,
    /// The entry as text, cut where it is long; empty for the table as a whole.
    pub text: String,
    /// What of it is at fault, where that takes few words; else empty.
    pub detail: String,
}

impl Unwritable {
    fn of(table: &Table, number: u8, index: usize) -> Unwritable {
        let entry = match number {
            5 => Entry::Head,
            7 => Entry::Row,
            8 => Entry::Pair,
            // a fifth init is event 4, a 19th other event at most event 22, a 33rd pair always pair 32
            9 if index >= crate::MAX_PAIRS => Entry::Pair,
            4 | 6 | 9 | 11 => Entry::Event,
            _ => Entry::Table,
        };
        let text = match entry {
            Entry::Table => String::new(),
            Entry::Head => table.head.to_string(),
            Entry::Event => table.events[index].to_string(),
            Entry::Row => table.rows[index].to_string(),
            Entry::Pair => table.pairs[index].to_string(),
        };
        let text = if text.len() > 80 { format!("{} ..", &text[..77]) } else { text };
        Unwritable { number, index, entry, text, detail: detail(table, number, index).unwrap_or_default() }
    }

    /// What the number means for a table, and what to do about it.
    pub fn refusal(&self) -> Refusal {
        unwritable(self.number).expect("a number that the writer gives")
    }
}

fn detail(table: &Table, number: u8, index: usize) -> Option<String> {
    match number {
        4 => {
            let e = &table.events[index];
            let asked = match e.kind {
                kind::RMW => 2 * e.width as usize,
                kind::MARKER => 0,
                _ => e.width as usize,
            };
            Some(format!("It has {}, and {asked} are asked for.", bytes(e.data.len())))
        }
        6 => tear_fault(table.head.edition, &table.events[index]),
        11 => {
            let e = &table.events[index];
            let has_row = |a: usize| table.rows.iter().any(|r| (r.reader as usize, r.address as usize) == (index, a));
            let mut range = e.start as usize..e.start as usize + e.width as usize;
            range.find(|&a| !has_row(a)).map(|a| format!("Byte {a} has none."))
        }
        14 => {
            let has_event = |a: u8| table.events.iter().any(|e| e.agent == a);
            (1..=table.head.agents).find(|&a| !has_event(a)).map(|a| format!("Agent {a} has none."))
        }
        _ => None,
    }
}

/// What is wrong with the tear byte of an event, if anything is, and why. Of a kind or a mode that there is not nothing is
/// said: they are at fault themselves.
fn tear_fault(edition: u8, e: &Event) -> Option<String> {
    let rule = Event::tear_by_the_rule(e.kind, e.mode, e.start, e.width);
    let (fits, must) = match (edition, e.kind, e.mode) {
        (2, kind::MARKER, _) => (e.tear == 0, "at edition 2 a marker's is 0"),
        (2, _, mode::INIT) => (e.tear == 0, "at edition 2 an init's is 0"),
        (2, kind::READ | kind::WRITE | kind::RMW, mode::SC) => {
            (e.tear == 1, "at edition 2 that of an sc read, write or read-modify-write is 1: it is tear-free")
        }
        (2, kind::READ | kind::WRITE, mode::UNORDERED) if rule == 1 => {
            (e.tear <= 1, "at edition 2 that of such an unordered access is 0, may tear, or 1, tear-free")
        }
        (2, kind::READ | kind::WRITE, mode::UNORDERED) => (
            e.tear == 0,
            "at edition 2 that of an unordered access is 0 unless its width is 1, 2 or 4 and divides its start",
        ),
        (2, _, _) => (true, ""),
        _ if (e.tear, rule, e.mode) == (0, 1, mode::UNORDERED) => {
            (false, "edition 1's rule gives 1: an unordered access that may tear needs edition 2")
        }
        _ if rule == 1 => (e.tear == 1, "edition 1's rule gives 1"),
        _ => (e.tear == 0, "edition 1's rule gives 0"),
    };
    (!fits).then(|| format!("Its tear byte is {}, and {must}.", e.tear))
}

fn bytes(n: usize) -> String {
    if n == 1 {
        "1 data byte".to_string()
    } else {
        format!("{n} data bytes")
    }
}

impl fmt::Display for Unwritable {
    fn fmt(&self, f: &mut fmt::Formatter) -> fmt::Result {
        let (index, text) = (self.index, &self.text);
        match self.entry {
            Entry::Table => write!(f, "the table: ")?,
            Entry::Head => write!(f, "the head ({text}): ")?,
            Entry::Event => write!(f, "event {index} ({text}): ")?,
            Entry::Row => write!(f, "row {index} ({text}): ")?,
            Entry::Pair => write!(f, "pair {index} ({text}): ")?,
        }
        let Refusal { meaning, remedy } = self.refusal();
        write!(f, "{meaning} ")?;
        if !self.detail.is_empty() {
            write!(f, "{} ", self.detail)?;
        }
        write!(f, "{remedy}")
    }
}

impl std::error::Error for Unwritable {}

//! Bars: what they are, why they hold, and each as a sentence.

use crate::{kind, mode, Event, HappensBefore, Table};
use std::fmt;

/// A bar: in no order that meets the rules does `between` stand after `writer` and before `reader`.
#[derive(Clone, Copy, Debug, PartialEq, Eq, PartialOrd, Ord, Hash)]
pub struct Bar {
    /// R, which read a byte from the writer;
    pub reader: u8,
    /// W, that writer;
    pub writer: u8,
    /// V, the sc write that is barred between them.
    pub between: u8,
}

/// Its three numbers: reader, writer, the write between.
impl fmt::Display for Bar {
    fn fmt(&self, f: &mut fmt::Formatter) -> fmt::Result {
        write!(f, "{} {} {}", self.reader, self.writer, self.between)
    }
}

/// Why a bar holds: the memory model's three cases. In each the write between covers the byte that was read.
#[derive(Clone, Copy, Debug, PartialEq, Eq, PartialOrd, Ord, Hash)]
pub enum BarReason {
    /// (a): the writer synchronises with the reader, and the write between has the reader's range.
    A,
    /// (b): the writer and the write between happen before the reader, the writer is sc, and both have one range.
    B,
    /// (c): the writer happens before the reader and before the write between, the reader is sc, and the write between has the
    /// reader's range.
    C,
}

impl BarReason {
    /// The case in words.
    pub fn words(&self) -> &'static str {
        match self {
            BarReason::A => "reader and writer are sc, and all three have the same range",
            BarReason::B => {
                "the writer is sc, the write between has the writer's range, and both happen before the reader"
            }
            BarReason::C => {
                "the reader is sc, the write between has the reader's range, and the writer happens before both"
            }
        }
    }
}

/// As the rules name it: `(a)`.
impl fmt::Display for BarReason {
    fn fmt(&self, f: &mut fmt::Formatter) -> fmt::Result {
        f.write_str(match self {
            BarReason::A => "(a)",
            BarReason::B => "(b)",
            BarReason::C => "(c)",
        })
    }
}

fn same_range(one: &Event, other: &Event) -> bool {
    (one.start, one.width) == (other.start, other.width)
}

fn covers(event: &Event, address: u8) -> bool {
    event.start <= address && u16::from(address) < u16::from(event.start) + u16::from(event.width)
}

impl Bar {
    fn of(&self, table: &Table) -> Option<[Event; 3]> {
        let event = |e: u8| table.events.get(usize::from(e)).cloned();
        Some([event(self.reader)?, event(self.writer)?, event(self.between)?])
    }

    /// The bytes that the reader has from the writer.
    fn bytes(&self, table: &Table) -> Vec<u8> {
        let rows = table.rows.iter().filter(|row| (row.reader, row.writer) == (self.reader, self.writer));
        rows.map(|row| row.address).collect()
    }

    /// All of (a), (b) and (c) that bar it; none where it is no bar of this sheet.
    pub fn reasons(&self, table: &Table, before: &HappensBefore) -> Vec<BarReason> {
        let Bar { reader, writer, between } = *self;
        let Some([r, w, v]) = self.of(table) else { return vec![] };
        let sc = |event: &Event| event.mode == mode::SC;
        let writes = matches!(v.kind, kind::WRITE | kind::RMW);
        let read = self.bytes(table).iter().any(|&address| covers(&v, address));
        if between == reader || between == writer || !writes || !sc(&v) || !read {
            return vec![];
        }
        let after_writer = before.is(writer, reader);
        let holds = |reason: &BarReason| match reason {
            BarReason::A => sc(&r) && sc(&w) && same_range(&w, &r) && same_range(&v, &r),
            BarReason::B => after_writer && before.is(between, reader) && sc(&w) && same_range(&w, &v),
            BarReason::C => after_writer && before.is(writer, between) && sc(&r) && same_range(&v, &r),
        };
        [BarReason::A, BarReason::B, BarReason::C].into_iter().filter(holds).collect()
    }

    /// The bar as a sentence, by the sheet's table. It begins with a small letter, to stand behind the bar's three numbers.
    ///
    /// ```
    /// use plimdrong::{Bar, HappensBefore, Table};
    ///
    /// let table = Table::parse(
    ///     "head 2 2 1
    ///      init at 0: 00
    ///      A1 write sc at 0: 01
    ///      A2 read sc at 0: 00
    ///      row 2 0 0",
    /// );
    /// let table = table.unwrap();
    /// let before = HappensBefore::of(&table.sheet().unwrap()).unwrap();
    /// assert_eq!(
    ///     Bar { reader: 2, writer: 0, between: 1 }.sentence(&table, &before),
    ///     "event 2 (agent 2 reads byte 0, sc) read from event 0 (init of byte 0); event 1 (agent 1 writes byte 0, sc) may \
    ///      not stand between them, by (c)."
    /// );
    /// ```
    pub fn sentence(&self, table: &Table, before: &HappensBefore) -> String {
        let Bar { reader, writer, between } = *self;
        let bytes = self.bytes(table);
        let whole = table.events.get(usize::from(reader)).is_none_or(|r| usize::from(r.width) == bytes.len());
        let read = if whole { "read".to_string() } else { format!("read {}", bytes_in_words(&bytes)) };
        format!(
            "{} {read} from {}; {} may not stand between them, {}.",
            event_in_words(table, reader),
            event_in_words(table, writer),
            event_in_words(table, between),
            by(&self.reasons(table, before))
        )
    }
}

/// `by (a) and (c)`.
pub(crate) fn by(reasons: &[BarReason]) -> String {
    match reasons {
        [] => "by no rule".to_string(),
        [one] => format!("by {one}"),
        [front @ .., last] => {
            let front: Vec<String> = front.iter().map(|reason| reason.to_string()).collect();
            format!("by {} and {last}", front.join(", "))
        }
    }
}

fn event_in_words(table: &Table, e: u8) -> String {
    match table.events.get(usize::from(e)) {
        Some(event) => format!("event {e} ({})", does(event)),
        None => format!("event {e}"),
    }
}

fn does(event: &Event) -> String {
    let Event { agent, kind, mode, start, width, .. } = *event;
    let bytes = bytes_in_words(&(start..start.saturating_add(width)).collect::<Vec<_>>());
    let does = match kind {
        _ if mode == mode::INIT => return format!("init of {bytes}"),
        kind::MARKER => return format!("agent {agent}, a marker"),
        kind::READ => "reads",
        kind::WRITE => "writes",
        _ => "read-modify-writes",
    };
    format!("agent {agent} {does} {bytes}, {}", if mode == mode::SC { "sc" } else { "unordered" })
}

/// `byte 0`, `bytes 0 and 1`, `bytes 0 to 3`, `bytes 0, 2 and 3`.
fn bytes_in_words(bytes: &[u8]) -> String {
    match bytes {
        [] => "no byte".to_string(),
        [one] => format!("byte {one}"),
        [first, second] => format!("bytes {first} and {second}"),
        [first, .., last] if usize::from(last - first) + 1 == bytes.len() => format!("bytes {first} to {last}"),
        [front @ .., last] => {
            let front: Vec<String> = front.iter().map(|byte| byte.to_string()).collect();
            format!("bytes {} and {last}", front.join(", "))
        }
    }
}

#[cfg(test)]
mod tests {
    use super::*;

    #[test]
    fn bytes_and_events() {
        for (bytes, words) in [
            (&[][..], "no byte"),
            (&[3], "byte 3"),
            (&[0, 1], "bytes 0 and 1"),
            (&[4, 6], "bytes 4 and 6"),
            (&[2, 3, 4], "bytes 2 to 4"),
            (&[0, 2, 3], "bytes 0, 2 and 3"),
        ] {
            assert_eq!(bytes_in_words(bytes), words);
        }
        for (event, words) in [
            (Event::init(0, &[0; 64]), "init of bytes 0 to 63"),
            (Event::rmw(2, 4, &[0; 4], &[1; 4]), "agent 2 read-modify-writes bytes 4 to 7, sc"),
            (Event::read(1, mode::UNORDERED, 1, &[0; 2]), "agent 1 reads bytes 1 and 2, unordered"),
            (Event::marker(3), "agent 3, a marker"),
        ] {
            assert_eq!(does(&event), words);
        }
    }

    /// A read of four bytes from two writes: (a) does not hold of it, (b) and (c) only where the ranges are equal.
    #[test]
    fn a_part_of_a_read() {
        let table = Table::parse(
            "head 2 3 4\ninit at 0: 00 00 00 00\nA1 write sc at 0: 01 01 01 01\nA2 write sc at 0: 02 02\n\
             A3 read sc at 0: 02 02 00 00\nrow 3 0 2\nrow 3 1 2\nrow 3 2 0\nrow 3 3 0\n",
        )
        .unwrap();
        let before = HappensBefore::of(&table.sheet().unwrap()).unwrap();
        let bar = Bar { reader: 3, writer: 0, between: 1 };
        assert_eq!(
            bar.sentence(&table, &before),
            "event 3 (agent 3 reads bytes 0 to 3, sc) read bytes 2 and 3 from event 0 (init of bytes 0 to 3); event 1 (agent \
             1 writes bytes 0 to 3, sc) may not stand between them, by (c)."
        );
        assert_eq!(Bar { between: 2, ..bar }.reasons(&table, &before), []);
        assert_eq!(Bar { between: 9, ..bar }.reasons(&table, &before), []);
        assert_eq!(by(&[BarReason::A, BarReason::B, BarReason::C]), "by (a), (b) and (c)");
    }
}

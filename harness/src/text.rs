//! A table as text, an entry a line, which a person writes in an editor.

use crate::table::{kind, mode, Entry, Event, Head, Pair, Row, Table, Unwritable};
use std::fmt;
use std::str::FromStr;

/// Why a text is no table. Its `Display` is one line.
#[derive(Clone, Debug, PartialEq, Eq)]
pub struct ParseError {
    /// The line at fault, counted from 1; 1 where the text has no head.
    pub line: usize,
    /// What is wrong with it.
    pub wrong: String,
    /// What to do.
    pub remedy: String,
}

impl fmt::Display for ParseError {
    fn fmt(&self, f: &mut fmt::Formatter) -> fmt::Result {
        write!(f, "line {}: {}: {}", self.line, self.wrong, self.remedy)
    }
}

impl std::error::Error for ParseError {}

/// The lines that a table's entries stand in, counted from 1.
#[derive(Clone, Debug, PartialEq, Eq)]
pub struct Lines {
    pub head: usize,
    pub events: Vec<usize>,
    pub rows: Vec<usize>,
    pub pairs: Vec<usize>,
}

impl Lines {
    /// The line of the entry that a refusal is about; nothing for the table as a whole.
    pub fn of(&self, refused: &Unwritable) -> Option<usize> {
        match refused.entry {
            Entry::Table => None,
            Entry::Head => Some(self.head),
            Entry::Event => self.events.get(refused.index).copied(),
            Entry::Row => self.rows.get(refused.index).copied(),
            Entry::Pair => self.pairs.get(refused.index).copied(),
        }
    }
}

impl Table {
    /// The table of a text.
    ///
    /// ```text
    /// head 2 2 2                                 edition, agents, memory size
    /// 0 init at 0: 00 00                         number (it may be left out), start, bytes written
    /// 1 A1 write unordered at 0: 01              agent, kind, mode, start, bytes written
    /// 2 A1 read sc at 1: 00                      bytes seen
    /// 3 A1 read unordered may-tear at 0: 01 00   an unordered access that may tear
    /// 4 A2 rmw sc at 0: 00 -> 01                 seen, then written
    /// 5 A2 marker
    /// 6 event 2 9 1 0 4 1: 00 11                 agent, kind, mode, start, width, tear byte; data
    /// row 2 1 0                                  reader, address, writer
    /// pair 5 6                                   marker, marker
    /// ```
    ///
    /// `#` begins a comment; an empty line is none. The width of an event is the number of its bytes. Its tear byte is by
    /// the rule ([`Event::tear_by_the_rule`]), and 0 where `may-tear` stands behind `unordered`, whatever the head's edition
    /// is. The line `event` says both, for what the others cannot say. Numbers are decimal, 0 to 255; data bytes are two
    /// hexadecimal digits each. Events, rows and pairs are listed as they stand; lines of different lists may be mixed, so
    /// that a row can stand behind its read. Every table has a text (`Display`), and parsing it gives the table.
    ///
    /// ```
    /// use plimdrong::Table;
    ///
    /// let table = Table::parse("head 1 1 1\nA1 write sc at 0: 01 # one byte\nA1 read sc at 0: 01\nrow 1 0 0").unwrap();
    /// assert_eq!(table.to_string(), "head 1 1 1\n0 A1 write sc at 0: 01\n1 A1 read sc at 0: 01\nrow 1 0 0\n");
    /// assert_eq!(Table::parse(&table.to_string()), Ok(table));
    ///
    /// let wrong = Table::parse("head 1 1 1\nA1 wirte sc at 0: 01").unwrap_err();
    /// assert_eq!(wrong.line, 2);
    /// assert_eq!(wrong.to_string(), "line 2: 'wirte' is no kind: write read, write, rmw or marker");
    ///
    /// let table = Table::parse("head 2 1 2\nA1 write unordered may-tear at 0: 01 02").unwrap();
    /// assert_eq!(table.events[0].tear, 0);
    /// ```
    pub fn parse(text: &str) -> Result<Table, ParseError> {
        Table::parse_with_lines(text).map(|(table, _)| table)
    }

    /// The table of a text, and the line of each entry: a refusal of [`Table::sheet`] can then be told with its line.
    ///
    /// ```
    /// use plimdrong::Table;
    ///
    /// let (table, lines) = Table::parse_with_lines("head 1 1 1\n\nA1 read sc at 0: 01\nrow 0 0 1").unwrap();
    /// let refused = table.sheet().unwrap_err();
    /// assert_eq!((refused.number, refused.index, lines.of(&refused)), (7, 0, Some(4)));
    /// ```
    pub fn parse_with_lines(text: &str) -> Result<(Table, Lines), ParseError> {
        let mut table = Table::default();
        let mut lines = Lines { head: 0, events: vec![], rows: vec![], pairs: vec![] };
        // an editor's mark of the encoding is no word
        let text = text.strip_prefix('\u{feff}').unwrap_or(text);
        for (i, whole) in text.lines().enumerate() {
            let line = i + 1;
            let entry = whole.split('#').next().unwrap_or_default().trim();
            if !entry.is_empty() {
                take(entry, line, &mut table, &mut lines).map_err(|Fault { wrong, remedy }| ParseError {
                    line,
                    wrong,
                    remedy,
                })?;
            }
        }
        if lines.head == 0 {
            return Err(ParseError { line: 1, wrong: "there is no head".into(), remedy: format!("add {HEAD}") });
        }
        Ok((table, lines))
    }
}

/// [`Table::parse`].
///
/// ```
/// let table: plimdrong::Table = "head 1 1 1".parse().unwrap();
/// assert_eq!(table.to_string(), "head 1 1 1\n");
/// ```
impl FromStr for Table {
    type Err = ParseError;
    fn from_str(text: &str) -> Result<Table, ParseError> {
        Table::parse(text)
    }
}

struct Fault {
    wrong: String,
    remedy: String,
}

fn fault<T>(wrong: impl Into<String>, remedy: impl Into<String>) -> Result<T, Fault> {
    Err(Fault { wrong: wrong.into(), remedy: remedy.into() })
}

const HEAD: &str = "a line `head EDITION AGENTS MEMORY`, as `head 1 2 8`";
const ROW: &str = "write `row READER ADDRESS WRITER`, as `row 3 0 1`";
const PAIR: &str = "write `pair MARKER MARKER`, as `pair 2 5`";
const EVENT: &str = "write `event AGENT KIND MODE START WIDTH TEAR: DATA`, as `event 1 2 1 0 2 1: 00 11`";
const DATA: &str = "write each data byte as two hexadecimal digits, with spaces between, as `01 ff`";

/// A word in quotation marks, as much of it as fits a line, without control characters.
fn quoted(word: &str) -> String {
    let front: String = word.chars().take(24).flat_map(char::escape_debug).collect();
    let more = if word.chars().nth(24).is_some() { ".." } else { "" };
    format!("'{front}{more}'")
}

/// One line that is not empty.
fn take(entry: &str, line: usize, table: &mut Table, lines: &mut Lines) -> Result<(), Fault> {
    let (first, rest) = entry.split_once(char::is_whitespace).unwrap_or((entry, ""));
    match first {
        "head" if lines.head > 0 => {
            return fault(format!("a second head, after that of line {}", lines.head), "keep one")
        }
        "head" => {
            let [edition, agents, memory] = numbers(rest, "a head", &format!("write {HEAD}"))?;
            table.head = Head { edition, agents, memory };
            lines.head = line;
        }
        "row" => {
            let [reader, address, writer] = numbers(rest, "a row", ROW)?;
            table.rows.push(Row { reader, address, writer });
            lines.rows.push(line);
        }
        "pair" => {
            let [first, second] = numbers(rest, "a pair", PAIR)?;
            table.pairs.push(Pair { first, second });
            lines.pairs.push(line);
        }
        _ => {
            let next = table.events.len();
            let event = if first.bytes().all(|b| b.is_ascii_digit()) {
                // leading zeros are no matter, and neither is a number that no event can have
                if first.trim_start_matches('0') != next.to_string().trim_start_matches('0') {
                    let remedy = "number events from 0 as they stand, or leave their numbers out";
                    return fault(format!("this is event {next}, not {}", quoted(first).trim_matches('\'')), remedy);
                }
                rest.trim()
            } else {
                entry
            };
            table.events.push(parsed_event(event)?);
            lines.events.push(line);
        }
    }
    Ok(())
}

fn number(word: &str) -> Result<u8, Fault> {
    const BYTE: &str = "write a number from 0 to 255 in decimal digits";
    if word.is_empty() || !word.bytes().all(|b| b.is_ascii_digit()) {
        return fault(format!("{} is no number", quoted(word)), BYTE);
    }
    word.parse().or_else(|_| fault(format!("{} is over 255", quoted(word).trim_matches('\'')), BYTE))
}

/// Exactly N numbers.
fn numbers<const N: usize>(words: &str, what: &str, remedy: &str) -> Result<[u8; N], Fault> {
    let all: Vec<&str> = words.split_whitespace().collect();
    let read: Vec<u8> = all.iter().map(|word| number(word)).collect::<Result<_, _>>()?;
    <[u8; N]>::try_from(read).or_else(|read| fault(format!("{what} has {N} numbers, here are {}", read.len()), remedy))
}

fn hex(words: &str) -> Result<Vec<u8>, Fault> {
    let byte = |word: &str| match word.len() == 2 && word.bytes().all(|b| b.is_ascii_hexdigit()) {
        true => Ok(u8::from_str_radix(word, 16).expect("two hexadecimal digits")),
        false => fault(format!("{} is no data byte", quoted(word)), DATA),
    };
    words.split_whitespace().map(byte).collect()
}

const KINDS: [(&str, u8); 4] =
    [("read", kind::READ), ("write", kind::WRITE), ("rmw", kind::RMW), ("marker", kind::MARKER)];
const MODES: [(&str, u8); 3] = [("init", mode::INIT), ("unordered", mode::UNORDERED), ("sc", mode::SC)];

fn named(names: &[(&str, u8)], word: &str) -> Option<u8> {
    names.iter().find(|(name, _)| *name == word).map(|&(_, number)| number)
}

const MAY_TEAR: &str = "may-tear";

/// Whether the words of an event say that it may tear: its fourth, behind `unordered`.
fn may_tear(words: &[&str]) -> Result<bool, Fault> {
    match words.iter().position(|word| *word == MAY_TEAR) {
        None => Ok(false),
        Some(3) if words[2] == "unordered" => Ok(true),
        Some(_) if words[0] == "init" => fault("may-tear in an init", "leave it out: the tear byte of an init is 0"),
        Some(_) if words.get(1) == Some(&"marker") => {
            fault("may-tear in a marker", "leave it out: a marker touches no byte, and its tear byte is 0")
        }
        Some(_) if words.get(2) == Some(&"sc") => {
            fault("may-tear in an sc event", "leave it out: sc reads, writes and read-modify-writes are tear-free")
        }
        Some(_) => fault(
            "may-tear stands in the wrong place",
            "write it behind unordered, as `A1 read unordered may-tear at 0: 01 02`",
        ),
    }
}

/// An event without its number.
fn parsed_event(entry: &str) -> Result<Event, Fault> {
    let (what, data) = match entry.split_once(':') {
        Some((what, data)) => (what, Some(data)),
        None => (entry, None),
    };
    let words: Vec<&str> = what.split_whitespace().collect();
    let Some((&first, rest)) = words.split_first() else {
        return fault("an event without a word", "write it behind its number, as `0 init at 0: 00`");
    };
    if first == "event" {
        let [agent, kind, mode, start, width, tear] = numbers(&rest.join(" "), "an event", EVENT)?;
        return Ok(Event { agent, kind, mode, start, width, tear, data: hex(data.unwrap_or(""))? });
    }
    let may_tear = may_tear(&words)?;
    if first == "init" {
        let start = start(rest, "init at 0: 00 00")?;
        let written = some_data(data, kind::WRITE)?;
        return Ok(Event::init(start, &written));
    }
    let agent = match first.strip_prefix('A') {
        Some(digits) if !digits.is_empty() && digits.bytes().all(|b| b.is_ascii_digit()) => number(digits)?,
        _ => {
            let remedy = "begin with head, row, pair, init, event, or an agent as A1; # begins a comment";
            return fault(format!("{} begins no line", quoted(first)), remedy);
        }
    };
    let example = format!("A{agent} write sc at 0: 01");
    let Some((&kind, rest)) = rest.split_first() else {
        return fault(format!("nothing follows {first}"), format!("write an event, as `{example}`"));
    };
    let Some(kind) = named(&KINDS, kind) else {
        return fault(format!("{} is no kind", quoted(kind)), "write read, write, rmw or marker");
    };
    if kind == kind::MARKER {
        if !rest.is_empty() || data.is_some() {
            return fault("a marker has no mode, no start and no data", format!("write `A{agent} marker`"));
        }
        return Ok(Event::marker(agent));
    }
    let Some((&mode, rest)) = rest.split_first() else {
        return fault("there is no mode", format!("write unordered or sc behind the kind, as `{example}`"));
    };
    let Some(mode) = named(&MODES, mode) else {
        return fault(format!("{} is no mode", quoted(mode)), "write unordered or sc");
    };
    let rest = if may_tear { &rest[1..] } else { rest };
    let start = start(rest, &example)?;
    let bytes = some_data(data, kind)?;
    let width = if kind == kind::RMW { bytes.len() / 2 } else { bytes.len() } as u8;
    let tear = Event::tear_by_the_rule(kind, mode, start, width);
    let event = Event { agent, kind, mode, start, width, tear, data: bytes };
    Ok(if may_tear { event.may_tear() } else { event })
}

/// `at START`, and nothing else.
fn start(words: &[&str], example: &str) -> Result<u8, Fault> {
    match words {
        ["at", start] => number(start),
        [] => fault("there is no start", format!("write at and the first address, as `{example}`")),
        ["at"] => fault("no start follows at", format!("write the first address, as `{example}`")),
        ["at", _, more, ..] => {
            fault(format!("{} follows the start", quoted(more)), format!("write a colon there, as `{example}`"))
        }
        [other, ..] => {
            fault(format!("{} stands where at is expected", quoted(other)), format!("write it as `{example}`"))
        }
    }
}

/// The data of an event whose width is the number of its bytes.
fn some_data(data: Option<&str>, kind: u8) -> Result<Vec<u8>, Fault> {
    let Some(data) = data else {
        return fault("there is no data", "write a colon behind the start and then the bytes, as `at 0: 01 ff`");
    };
    let (bytes, width) = match (data.split_once("->"), kind) {
        (Some((seen, written)), kind::RMW) => {
            let (seen, written) = (hex(seen)?, hex(written)?);
            if seen.len() != written.len() {
                let wrong = format!("{} seen, {} written", count(seen.len()), count(written.len()));
                return fault(wrong, "write as many bytes behind -> as before it");
            }
            ([&seen[..], &written].concat(), seen.len())
        }
        (None, kind::RMW) => return fault("no ->", "write the bytes seen, ->, and the bytes written, as `00 -> 01`"),
        (Some(_), _) => return fault("-> in an event that is no rmw", "write one run of bytes"),
        (None, _) => hex(data).map(|bytes| (bytes.clone(), bytes.len()))?,
    };
    match width {
        0 => fault("there is no data", "write the bytes behind the colon; the line `event ..` can say a width of 0"),
        1..=255 => Ok(bytes),
        _ => fault(format!("{} are over 255", count(width)), "write fewer; the line `event ..` can say more"),
    }
}

fn count(n: usize) -> String {
    if n == 1 {
        "1 byte".to_string()
    } else {
        format!("{n} bytes")
    }
}

struct Hex<'a>(&'a [u8]);

impl fmt::Display for Hex<'_> {
    fn fmt(&self, f: &mut fmt::Formatter) -> fmt::Result {
        self.0.iter().try_for_each(|b| write!(f, " {b:02x}"))
    }
}

/// The line of the head.
impl fmt::Display for Head {
    fn fmt(&self, f: &mut fmt::Formatter) -> fmt::Result {
        write!(f, "head {} {} {}", self.edition, self.agents, self.memory)
    }
}

/// The line of the event without its number: a short one where it says all of the event, else the line `event`.
impl fmt::Display for Event {
    fn fmt(&self, f: &mut fmt::Formatter) -> fmt::Result {
        let Event { agent, kind, mode, start, width, tear, data } = self;
        let w = *width as usize;
        let name = |names: &[(&'static str, u8)], number: u8| names.iter().find(|n| n.1 == number).map(|n| n.0);
        let by_the_rule = *tear == Event::tear_by_the_rule(*kind, *mode, *start, *width);
        // an unordered access that may tear although the rule gives 1
        let may_tear = !by_the_rule && *mode == mode::UNORDERED && *tear == 0;
        let word = if may_tear { " may-tear" } else { "" };
        match (name(&KINDS, *kind), name(&MODES, *mode)) {
            (Some("marker"), Some("sc")) if by_the_rule && *start == 0 && w == 0 && data.is_empty() => {
                write!(f, "A{agent} marker")
            }
            (Some("write"), Some("init")) if by_the_rule && *agent == 0 && w > 0 && data.len() == w => {
                write!(f, "init at {start}:{}", Hex(data))
            }
            (Some("rmw"), Some(mode)) if (by_the_rule || may_tear) && w > 0 && data.len() == 2 * w => {
                write!(f, "A{agent} rmw {mode}{word} at {start}:{} ->{}", Hex(&data[..w]), Hex(&data[w..]))
            }
            (Some(kind @ ("read" | "write")), Some(mode)) if (by_the_rule || may_tear) && w > 0 && data.len() == w => {
                write!(f, "A{agent} {kind} {mode}{word} at {start}:{}", Hex(data))
            }
            _ => write!(f, "event {agent} {kind} {mode} {start} {width} {tear}:{}", Hex(data)),
        }
    }
}

/// The line of the row.
impl fmt::Display for Row {
    fn fmt(&self, f: &mut fmt::Formatter) -> fmt::Result {
        write!(f, "row {} {} {}", self.reader, self.address, self.writer)
    }
}

/// The line of the pair.
impl fmt::Display for Pair {
    fn fmt(&self, f: &mut fmt::Formatter) -> fmt::Result {
        write!(f, "pair {} {}", self.first, self.second)
    }
}

/// The text, a line an entry: head, events with their numbers, rows, pairs. [`Table::parse`] gives the table back.
impl fmt::Display for Table {
    fn fmt(&self, f: &mut fmt::Formatter) -> fmt::Result {
        writeln!(f, "{}", self.head)?;
        self.events.iter().enumerate().try_for_each(|(i, event)| writeln!(f, "{i} {event}"))?;
        self.rows.iter().try_for_each(|row| writeln!(f, "{row}"))?;
        self.pairs.iter().try_for_each(|pair| writeln!(f, "{pair}"))
    }
}

#[cfg(test)]
mod tests {
    use super::*;

    /// Every fault, with its line, in words.
    #[test]
    fn every_error_line() {
        for (text, line) in [
            ("", "line 1: there is no head: add a line `head EDITION AGENTS MEMORY`, as `head 1 2 8`"),
            ("\n# nothing\n", "line 1: there is no head: add a line `head EDITION AGENTS MEMORY`, as `head 1 2 8`"),
            ("A1 marker\n", "line 1: there is no head: add a line `head EDITION AGENTS MEMORY`, as `head 1 2 8`"),
            ("head 1 1 1\n\nhead 1 1 1", "line 3: a second head, after that of line 1: keep one"),
            ("head 1 1", "line 1: a head has 3 numbers, here are 2: write a line `head EDITION AGENTS MEMORY`, as `head 1 2 8`"),
            ("head 1 1 1 1", "line 1: a head has 3 numbers, here are 4: write a line `head EDITION AGENTS MEMORY`, as `head 1 2 8`"),
            ("head 1 256 1", "line 1: 256 is over 255: write a number from 0 to 255 in decimal digits"),
            ("head 1 +1 1", "line 1: '+1' is no number: write a number from 0 to 255 in decimal digits"),
            ("head one 1 1", "line 1: 'one' is no number: write a number from 0 to 255 in decimal digits"),
            ("\nrow 1 2", "line 2: a row has 3 numbers, here are 2: write `row READER ADDRESS WRITER`, as `row 3 0 1`"),
            ("row", "line 1: a row has 3 numbers, here are 0: write `row READER ADDRESS WRITER`, as `row 3 0 1`"),
            ("row 1 2 3 4", "line 1: a row has 3 numbers, here are 4: write `row READER ADDRESS WRITER`, as `row 3 0 1`"),
            ("row 1 2 -3", "line 1: '-3' is no number: write a number from 0 to 255 in decimal digits"),
            ("pair 1", "line 1: a pair has 2 numbers, here are 1: write `pair MARKER MARKER`, as `pair 2 5`"),
            ("pair 1 99999999999999999999", "line 1: 99999999999999999999 is over 255: write a number from 0 to 255 in decimal digits"),
            ("hed 1 1 1", "line 1: 'hed' begins no line: begin with head, row, pair, init, event, or an agent as A1; # begins a comment"),
            ("B1 marker", "line 1: 'B1' begins no line: begin with head, row, pair, init, event, or an agent as A1; # begins a comment"),
            ("0 row 1 2 3", "line 1: 'row' begins no line: begin with head, row, pair, init, event, or an agent as A1; # begins a comment"),
            ("A marker", "line 1: 'A' begins no line: begin with head, row, pair, init, event, or an agent as A1; # begins a comment"),
            ("A300 marker", "line 1: 300 is over 255: write a number from 0 to 255 in decimal digits"),
            ("1 A1 marker", "line 1: this is event 0, not 1: number events from 0 as they stand, or leave their numbers out"),
            ("A1 marker\nrow 1 2 3\n0 A1 marker", "line 3: this is event 1, not 0: number events from 0 as they stand, or leave their numbers out"),
            ("99999999999999999999 A1 marker", "line 1: this is event 0, not 99999999999999999999: number events from 0 as they stand, or leave their numbers out"),
            ("0", "line 1: an event without a word: write it behind its number, as `0 init at 0: 00`"),
            ("A1", "line 1: nothing follows A1: write an event, as `A1 write sc at 0: 01`"),
            ("A1 wirte sc at 0: 01", "line 1: 'wirte' is no kind: write read, write, rmw or marker"),
            ("A1 marker sc", "line 1: a marker has no mode, no start and no data: write `A1 marker`"),
            ("A1 marker: 00", "line 1: a marker has no mode, no start and no data: write `A1 marker`"),
            ("A2 read", "line 1: there is no mode: write unordered or sc behind the kind, as `A2 write sc at 0: 01`"),
            ("A1 read seqcst at 0: 00", "line 1: 'seqcst' is no mode: write unordered or sc"),
            ("A1 read sc may-tear at 0: 00", "line 1: may-tear in an sc event: leave it out: sc reads, writes and read-modify-writes are tear-free"),
            ("A1 rmw sc may-tear at 0: 00 -> 01", "line 1: may-tear in an sc event: leave it out: sc reads, writes and read-modify-writes are tear-free"),
            ("A1 read sc at 0 may-tear: 00", "line 1: may-tear in an sc event: leave it out: sc reads, writes and read-modify-writes are tear-free"),
            ("init may-tear at 0: 00", "line 1: may-tear in an init: leave it out: the tear byte of an init is 0"),
            ("A1 marker may-tear", "line 1: may-tear in a marker: leave it out: a marker touches no byte, and its tear byte is 0"),
            ("A1 read may-tear at 0: 00", "line 1: may-tear stands in the wrong place: write it behind unordered, as `A1 read unordered may-tear at 0: 01 02`"),
            ("A1 may-tear read unordered at 0: 00", "line 1: may-tear stands in the wrong place: write it behind unordered, as `A1 read unordered may-tear at 0: 01 02`"),
            ("A1 read unordered at 0 may-tear: 00", "line 1: may-tear stands in the wrong place: write it behind unordered, as `A1 read unordered may-tear at 0: 01 02`"),
            ("A1 write init may-tear at 0: 00", "line 1: may-tear stands in the wrong place: write it behind unordered, as `A1 read unordered may-tear at 0: 01 02`"),
            ("may-tear", "line 1: may-tear stands in the wrong place: write it behind unordered, as `A1 read unordered may-tear at 0: 01 02`"),
            ("A1 read unordered may-tear may-tear at 0: 00", "line 1: 'may-tear' stands where at is expected: write it as `A1 write sc at 0: 01`"),
            ("A1 read unordered may-tear: 00", "line 1: there is no start: write at and the first address, as `A1 write sc at 0: 01`"),
            ("A1 read unordered maytear at 0: 00", "line 1: 'maytear' stands where at is expected: write it as `A1 write sc at 0: 01`"),
            ("B1 read unordered may-tear at 0: 00", "line 1: 'B1' begins no line: begin with head, row, pair, init, event, or an agent as A1; # begins a comment"),
            ("A1 read sc", "line 1: there is no start: write at and the first address, as `A1 write sc at 0: 01`"),
            ("A1 read sc at: 00", "line 1: no start follows at: write the first address, as `A1 write sc at 0: 01`"),
            ("A1 read sc at 0 00", "line 1: '00' follows the start: write a colon there, as `A1 write sc at 0: 01`"),
            ("A1 read sc 0: 00", "line 1: '0' stands where at is expected: write it as `A1 write sc at 0: 01`"),
            ("init 0: 00", "line 1: '0' stands where at is expected: write it as `init at 0: 00 00`"),
            ("init at x: 00", "line 1: 'x' is no number: write a number from 0 to 255 in decimal digits"),
            ("init at 0", "line 1: there is no data: write a colon behind the start and then the bytes, as `at 0: 01 ff`"),
            ("init at 0:", "line 1: there is no data: write the bytes behind the colon; the line `event ..` can say a width of 0"),
            ("init at 0: 0", "line 1: '0' is no data byte: write each data byte as two hexadecimal digits, with spaces between, as `01 ff`"),
            ("init at 0: 0102", "line 1: '0102' is no data byte: write each data byte as two hexadecimal digits, with spaces between, as `01 ff`"),
            ("init at 0: +1", "line 1: '+1' is no data byte: write each data byte as two hexadecimal digits, with spaces between, as `01 ff`"),
            ("init at 0: 0g", "line 1: '0g' is no data byte: write each data byte as two hexadecimal digits, with spaces between, as `01 ff`"),
            ("A1 write sc at 0: 00 -> 01", "line 1: -> in an event that is no rmw: write one run of bytes"),
            ("A1 rmw sc at 0: 00 01", "line 1: no ->: write the bytes seen, ->, and the bytes written, as `00 -> 01`"),
            ("A1 rmw sc at 0: 00 -> 01 02", "line 1: 1 byte seen, 2 bytes written: write as many bytes behind -> as before it"),
            ("A1 rmw sc at 0: ->", "line 1: there is no data: write the bytes behind the colon; the line `event ..` can say a width of 0"),
            ("event 1 2 1 0 2: 00", "line 1: an event has 6 numbers, here are 5: write `event AGENT KIND MODE START WIDTH TEAR: DATA`, as `event 1 2 1 0 2 1: 00 11`"),
            ("event 1 2 1 0 2 256: 00", "line 1: 256 is over 255: write a number from 0 to 255 in decimal digits"),
            ("event 1 2 1 0 2 1: 00 -> 11", "line 1: '->' is no data byte: write each data byte as two hexadecimal digits, with spaces between, as `01 ff`"),
        ] {
            match Table::parse(text) {
                Err(wrong) => assert_eq!(wrong.to_string(), line, "{text}"),
                Ok(table) => panic!("{text}: {table:?}"),
            }
        }
        let noise = Table::parse("\u{1}\0\u{3}").unwrap_err().wrong;
        assert_eq!(noise, "'\\u{1}\\0\\u{3}' begins no line");
        let word = Table::parse(&"x".repeat(1000)).unwrap_err().wrong;
        assert_eq!(word, format!("'{}..' begins no line", "x".repeat(24)));
        let long = format!("init at 0:{}", " 00".repeat(256));
        let wrong = Table::parse(&long).unwrap_err().to_string();
        assert_eq!(wrong, "line 1: 256 bytes are over 255: write fewer; the line `event ..` can say more");
    }

    #[test]
    fn lines_in_any_order_and_any_spaces() {
        let text =
            "\u{feff}row 1 0 0\t# its reader stands below\r\n  0\tinit  at 0 : 0A\r\n\r\npair 2 3\nhead\t1 2 1\n\
                    A1 read sc at 0: 0a\n002 A1 marker\nA2 marker\n";
        let (table, lines) = Table::parse_with_lines(text).unwrap();
        let same =
            "head 1 2 1\n0 init at 0: 0a\n1 A1 read sc at 0: 0a\n2 A1 marker\n3 A2 marker\nrow 1 0 0\npair 2 3\n";
        assert_eq!(table.to_string(), same);
        assert_eq!(same.parse::<Table>(), Ok(table));
        assert_eq!(lines, Lines { head: 5, events: vec![2, 6, 7, 8], rows: vec![1], pairs: vec![4] });
    }

    /// What the short lines cannot say has the line `event`.
    #[test]
    fn events_that_need_the_long_line() {
        let read = Event::read(1, mode::UNORDERED, 0, &[1, 2]);
        for (event, line) in [
            (read.clone(), "A1 read unordered at 0: 01 02"),
            (Event { kind: 9, ..read.clone() }, "event 1 9 1 0 2 1: 01 02"),
            (Event { mode: 3, ..read.clone() }, "event 1 1 3 0 2 1: 01 02"),
            (read.clone().may_tear(), "A1 read unordered may-tear at 0: 01 02"),
            (Event { tear: 2, ..read.clone() }, "event 1 1 1 0 2 2: 01 02"),
            (Event { tear: 255, ..read.clone() }, "event 1 1 1 0 2 255: 01 02"),
            // the rule gives 0: the word says nothing more, and 1 has no short line
            (Event::read(1, mode::UNORDERED, 1, &[1, 2]).may_tear(), "A1 read unordered at 1: 01 02"),
            (Event { tear: 1, ..Event::read(1, mode::UNORDERED, 1, &[1, 2]) }, "event 1 1 1 1 2 1: 01 02"),
            (
                Event::write(1, mode::UNORDERED, 0, &[7; 8]).may_tear(),
                "A1 write unordered at 0: 07 07 07 07 07 07 07 07",
            ),
            (Event::write(2, mode::SC, 0, &[1]).may_tear(), "event 2 2 2 0 1 0: 01"),
            (Event::rmw(2, 0, &[1], &[2]).may_tear(), "event 2 3 2 0 1 0: 01 02"),
            (Event { width: 1, ..read.clone().may_tear() }, "event 1 1 1 0 1 0: 01 02"),
            (Event { mode: 1, ..Event::rmw(1, 0, &[1], &[2]).may_tear() }, "A1 rmw unordered may-tear at 0: 01 -> 02"),
            (Event { width: 1, ..read.clone() }, "event 1 1 1 0 1 1: 01 02"),
            (Event { width: 0, tear: 0, data: vec![], ..read.clone() }, "event 1 1 1 0 0 0:"),
            (Event { agent: 0, ..read.clone() }, "A0 read unordered at 0: 01 02"),
            (Event { mode: 0, tear: 0, ..read.clone() }, "A1 read init at 0: 01 02"),
            (Event::init(255, &[1]), "init at 255: 01"),
            (Event { agent: 7, ..Event::init(0, &[1]) }, "A7 write init at 0: 01"),
            (Event { tear: 1, ..Event::init(0, &[1]) }, "event 0 2 0 0 1 1: 01"),
            (Event::rmw(1, 0, &[1], &[2, 3]), "event 1 3 2 0 1 1: 01 02 03"),
            (Event { mode: 1, ..Event::rmw(1, 0, &[1], &[2]) }, "A1 rmw unordered at 0: 01 -> 02"),
            (Event { start: 1, ..Event::marker(2) }, "event 2 4 2 1 0 0:"),
            (Event { tear: 1, ..Event::marker(2) }, "event 2 4 2 0 0 1:"),
            (Event { mode: 1, ..Event::marker(2) }, "event 2 4 1 0 0 0:"),
            (Event { data: vec![5], ..Event::marker(2) }, "event 2 4 2 0 0 0: 05"),
            (Event { kind: 2, mode: 0, agent: 0, start: 0, width: 0, tear: 0, data: vec![] }, "event 0 2 0 0 0 0:"),
        ] {
            assert_eq!(event.to_string(), line);
            let table = Table { events: vec![event], ..Table::default() };
            assert_eq!(Table::parse(&table.to_string()), Ok(table));
        }
        // as long as data may get, and longer
        let long = Event { data: vec![7; 70_000], ..read };
        let table = Table { events: vec![long], ..Table::default() };
        assert_eq!(Table::parse(&table.to_string()), Ok(table));
    }
}

//! A sheet as text for people, and back. A line a field:
//!
//! ```text
//! head 1 2 2                     edition, agents, memory size
//! 0 init at 0: 00 00
//! 1 A1 write unordered at 0: 01
//! 2 A1 write sc at 1: 01
//! 3 A2 read sc at 1: 01
//! 4 A2 rmw sc at 0: 00 -> 01     seen, then written
//! 5 A2 marker
//! row 3 1 2                      reader, address, writer
//! pair 5 6
//! bytes 05 00 00                 anything else, as it stands in the sheet
//! ```
//!
//! An event's number may be left out. `#` begins a comment. Every sheet has such a text, damaged ones too, and
//! [`from_text`] gives back the very bytes.
//!
//! The events behind a line `head 2 ..` have edition 2's layout, all others edition 1's. At edition 2 an event's tear
//! byte is what 01's rule gives, or 0 where the word `may-tear` stands behind the mode:
//!
//! ```text
//! head 2 1 2
//! 0 A1 write unordered may-tear at 0: 01 02
//! ```
//!
//! Edition 1 has no such byte and the word is an error there. An event with another tear byte is a line `bytes`.

/// The bytes as two hexadecimal digits each, single spaces between; `-` for none.
pub fn hex(bytes: &[u8]) -> String {
    if bytes.is_empty() {
        return "-".to_string();
    }
    let digits: Vec<String> = bytes.iter().map(|b| format!("{b:02x}")).collect();
    digits.join(" ")
}

/// The bytes that such a line stands for.
pub fn from_hex(line: &str) -> Result<Vec<u8>, String> {
    let line = line.trim();
    if line == "-" {
        return Ok(vec![]);
    }
    let byte = |d: &str| match d.len() {
        2 => u8::from_str_radix(d, 16).map_err(|_| format!("'{d}' is no byte")),
        _ => Err(format!("'{d}' is not two digits")),
    };
    line.split_whitespace().map(byte).collect()
}

/// The text of any bytes taken as a sheet.
pub fn to_text(sheet: &[u8]) -> String {
    let mut out = String::new();
    let mut at = 0;
    let mut events = 0;
    let mut edition = 1;
    while at < sheet.len() {
        let rest = &sheet[at..];
        let end = match rest {
            [_, high, low, ..] => 3 + *high as usize * 256 + *low as usize,
            _ => usize::MAX,
        };
        // a field cut short: the rest as bytes
        if end > rest.len() {
            out += &format!("bytes {}\n", hex(rest));
            break;
        }
        let value = &rest[3..end];
        let line = match rest[0] {
            1 if value.len() == 3 => {
                edition = value[0];
                Some(format!("head {} {} {}", value[0], value[1], value[2]))
            }
            2 => event_line(edition, value).map(|line| format!("{events} {line}")),
            3 if value.len() == 3 => Some(format!("row {} {} {}", value[0], value[1], value[2])),
            4 if value.len() == 2 => Some(format!("pair {} {}", value[0], value[1])),
            _ => None,
        };
        events += usize::from(rest[0] == 2);
        out += &line.unwrap_or_else(|| format!("bytes {}", hex(&rest[..end])));
        out.push('\n');
        at += end;
    }
    out
}

const KINDS: [&str; 5] = ["", "read", "write", "rmw", "marker"];
const MODES: [&str; 3] = ["init", "unordered", "sc"];

const MAY_TEAR: &str = "may-tear";

/// The tear byte by 01's rule: "every sc event; an unordered event of width 1, 2 or 4 whose start is divisible by its
/// width. Inits are not"; 0 for a marker.
fn tear_by_rule(kind: u8, mode: u8, start: u8, width: u8) -> u8 {
    let whole = matches!(width, 1 | 2 | 4) && start.is_multiple_of(width);
    u8::from(kind != 4 && (mode == 2 || (mode == 1 && whole)))
}

/// An event whose text says all of it, else nothing.
fn event_line(edition: u8, value: &[u8]) -> Option<String> {
    let [agent, kind, mode, start, width, rest @ ..] = value else {
        return None;
    };
    let by_rule = tear_by_rule(*kind, *mode, *start, *width);
    let (tear, data) = match (edition, rest) {
        (2, [tear, data @ ..]) => (*tear, data),
        (2, []) => return None,
        _ => (by_rule, rest),
    };
    let width = *width as usize;
    let how = match (*mode as usize, tear == by_rule) {
        (m @ 0..=2, true) => MODES[m].to_string(),
        (m @ 0..=2, false) if tear == 0 => format!("{} {MAY_TEAR}", MODES[m]),
        _ => return None,
    };
    match (agent, kind, mode) {
        (0, 2, 0) if width > 0 && data.len() == width => Some(format!("init at {start}: {}", hex(data))),
        (_, 1 | 2, _) if width > 0 && data.len() == width => {
            Some(format!("A{agent} {} {how} at {start}: {}", KINDS[*kind as usize], hex(data)))
        }
        (_, 3, _) if width > 0 && data.len() == 2 * width => {
            let (seen, written) = (hex(&data[..width]), hex(&data[width..]));
            Some(format!("A{agent} rmw {how} at {start}: {seen} -> {written}"))
        }
        (_, 4, 2) if *start == 0 && data.is_empty() && width == 0 => Some(format!("A{agent} marker")),
        _ => None,
    }
}

/// The bytes of a text.
pub fn from_text(text: &str) -> Result<Vec<u8>, String> {
    let mut read = Lines { sheet: vec![], events: 0, edition: 1 };
    for (i, whole) in text.lines().enumerate() {
        let line = whole.split('#').next().unwrap().trim();
        if line.is_empty() {
            continue;
        }
        read.line(line).map_err(|why| format!("line {}: {why}: {whole}", i + 1))?;
    }
    Ok(read.sheet)
}

/// What the lines so far have given.
struct Lines {
    sheet: Vec<u8>,
    events: usize,
    /// The last head's; 1 before any.
    edition: u8,
}

fn number(word: &str) -> Result<u8, String> {
    word.parse().map_err(|_| format!("'{word}' is no number of a byte"))
}

fn numbers(words: &str) -> Result<Vec<u8>, String> {
    words.split_whitespace().map(number).collect()
}

impl Lines {
    fn put(&mut self, tag: u8, value: &[u8]) {
        self.sheet.push(tag);
        self.sheet.extend((value.len() as u16).to_be_bytes());
        self.sheet.extend(value);
    }

    fn line(&mut self, line: &str) -> Result<(), String> {
        let (word, rest) = line.split_once(' ').unwrap_or((line, ""));
        match word {
            "head" => {
                let value = numbers(rest)?;
                if let [edition, _, _] = value[..] {
                    self.edition = edition;
                }
                self.put(1, &value);
            }
            "row" => self.put(3, &numbers(rest)?),
            "pair" => self.put(4, &numbers(rest)?),
            "bytes" => {
                let bytes = from_hex(rest)?;
                self.events += usize::from(bytes.first() == Some(&2));
                self.sheet.extend(bytes);
            }
            _ => {
                // an event, with or without its number
                let line = match word.parse::<usize>() {
                    Ok(number) if number != self.events => return Err(format!("this is event {}", self.events)),
                    Ok(_) => rest,
                    Err(_) => line,
                };
                self.put(2, &event(self.edition, line)?);
                self.events += 1;
            }
        }
        Ok(())
    }
}

fn event(edition: u8, line: &str) -> Result<Vec<u8>, String> {
    let (what, data) = line.split_once(':').unwrap_or((line, ""));
    let words: Vec<&str> = what.split_whitespace().collect();
    let agent = |word: &str| number(word.strip_prefix('A').ok_or("an agent is A and a number")?);
    let at = |names: &[&str], word: &str| names.iter().position(|n| *n == word).map(|i| i as u8);
    let access = |a, kind, mode, start| {
        let kind = at(&KINDS, kind).ok_or("no such kind")?;
        Ok::<_, String>((agent(a)?, kind, at(&MODES, mode).ok_or("no such mode")?, number(start)?))
    };
    let ((agent, kind, mode, start), may_tear) = match words[..] {
        ["init", "at", start] => ((0, 2, 0, number(start)?), false),
        [a, "marker"] => ((agent(a)?, 4, 2, 0), false),
        [a, kind, mode, "at", start] => (access(a, kind, mode, start)?, false),
        [a, kind, mode, MAY_TEAR, "at", start] => (access(a, kind, mode, start)?, true),
        _ => return Err("no such line".to_string()),
    };
    if may_tear && edition != 2 {
        return Err(format!("{MAY_TEAR} needs a head of edition 2"));
    }
    let mut bytes = vec![];
    let mut width = 0;
    if kind != 4 {
        for part in data.split("->") {
            let part = from_hex(part)?;
            width = part.len();
            bytes.extend(part);
        }
        if bytes.len() != width * if kind == 3 { 2 } else { 1 } {
            return Err("data of the wrong length".to_string());
        }
    }
    let width = width as u8;
    let mut value = vec![agent, kind, mode, start, width];
    if edition == 2 {
        value.push(if may_tear { 0 } else { tear_by_rule(kind, mode, start, width) });
    }
    value.extend(bytes);
    Ok(value)
}

/// An entry of the litmus source.
#[derive(Clone, Debug)]
pub struct Entry {
    pub name: String,
    /// What document 01 says, a line each.
    pub words: String,
    pub line: String,
    /// What comes with other buffers: bytes of scratch, bytes of the order buffer, the line.
    pub lent: Vec<(usize, usize, String)>,
    pub sheet: Vec<u8>,
}

/// `ROOM PLACES LINE` of a line `lent`.
fn lent(words: &str) -> Option<(usize, usize, String)> {
    let (room, rest) = words.split_once(' ')?;
    let (places, line) = rest.split_once(' ')?;
    Some((room.parse().ok()?, places.parse().ok()?, line.to_string()))
}

/// The entries of a litmus source: `entry NAME`, lines `| words`, `line LINE`, lines `lent ROOM PLACES LINE`, the
/// sheet's text.
pub fn litmus(source: &str) -> Result<Vec<Entry>, String> {
    let mut parts: Vec<(String, String)> = vec![];
    for line in source.lines() {
        match (line.strip_prefix("entry "), parts.last_mut()) {
            (Some(name), _) => parts.push((name.to_string(), String::new())),
            (None, Some((_, body))) => *body += &format!("{line}\n"),
            (None, None) => {}
        }
    }
    let mut entries: Vec<Entry> = vec![];
    for (name, body) in parts {
        let mut e = Entry { name, words: String::new(), line: String::new(), lent: vec![], sheet: vec![] };
        let mut fields = String::new();
        for line in body.lines() {
            if let Some(words) = line.strip_prefix("| ") {
                e.words += &format!("{words}\n");
            } else if let Some(expected) = line.strip_prefix("line ") {
                e.line = expected.to_string();
            } else if let Some(words) = line.strip_prefix("lent ") {
                let read = lent(words).ok_or(format!("entry {}: not ROOM PLACES LINE: {line}", e.name))?;
                e.lent.push(read);
            } else {
                fields += &format!("{line}\n");
            }
        }
        e.sheet = from_text(&fields).map_err(|why| format!("entry {}: {why}", e.name))?;
        if e.line.is_empty() || entries.iter().any(|other| other.name == e.name) {
            return Err(format!("entry {}: no line, or a second of this name", e.name));
        }
        entries.push(e);
    }
    Ok(entries)
}

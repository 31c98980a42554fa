//! CSV by RFC 4180, in bytes: a name has no encoding.

use crate::record::Record;
use std::io::{self, BufRead, Read, Write};

/// The first line of an audit's CSV.
pub const HEADER: &[u8] = b"name,bytes,digest,line\n";

/// A field: in quotation marks where it has a comma, a quotation mark or a line's end in it.
pub fn put(field: &[u8], to: &mut Vec<u8>) {
    if !field.iter().any(|b| matches!(b, b',' | b'"' | b'\n' | b'\r')) {
        return to.extend_from_slice(field);
    }
    to.push(b'"');
    for &b in field {
        if b == b'"' {
            to.push(b'"');
        }
        to.push(b);
    }
    to.push(b'"');
}

/// A record's line: name, bytes, digest, line.
pub fn line(record: &Record, row: &mut Vec<u8>) {
    const DIGITS: &[u8; 16] = b"0123456789abcdef";
    // writing to a vector does not fail, and what is said has nothing to quote
    put(&record.name, row);
    row.push(b',');
    if let Some((length, digest)) = &record.bytes {
        let _ = write!(row, "{length},");
        row.extend(digest.iter().flat_map(|b| [DIGITS[usize::from(b >> 4)], DIGITS[usize::from(b & 15)]]));
    } else {
        row.push(b',');
    }
    let _ = writeln!(row, ",{}", record.said);
}

/// A line is shorter: one that does not end has a quotation mark that nothing closes.
pub const LONGEST: usize = 1 << 20;

/// The lines of a CSV.
pub struct Lines<R> {
    from: R,
    /// The line that was read last, counted from 1 by line ends.
    pub line: u64,
    ends: u64,
}

impl<R: BufRead> Lines<R> {
    pub fn new(from: R) -> Lines<R> {
        Lines { from, line: 0, ends: 0 }
    }

    /// The fields of the next line that is not empty; nothing at the end.
    pub fn next(&mut self) -> io::Result<Option<Vec<Vec<u8>>>> {
        loop {
            self.line = self.ends + 1;
            let (mut whole, mut open) = (Vec::new(), false);
            // a line's end within quotation marks belongs to the field: their number is odd until it closes
            loop {
                let before = whole.len();
                let left = (LONGEST - before) as u64;
                if self.from.by_ref().take(left).read_until(b'\n', &mut whole)? == 0 {
                    break;
                }
                if whole.len() == LONGEST {
                    return Err(io::Error::from(io::ErrorKind::FileTooLarge));
                }
                self.ends += 1;
                if self.line == 1 && before == 0 && whole.starts_with(b"\xef\xbb\xbf") {
                    whole.drain(..3);
                }
                open ^= whole[before..].iter().filter(|&&b| b == b'"').count() % 2 == 1;
                if !open {
                    break;
                }
            }
            if whole.is_empty() {
                return Ok(None);
            }
            while whole.last().is_some_and(|b| matches!(b, b'\n' | b'\r')) {
                whole.pop();
            }
            if !whole.is_empty() {
                return fields(&whole).map(Some).ok_or_else(|| io::Error::from(io::ErrorKind::InvalidData));
            }
        }
    }
}

/// The fields of a line; nothing where a quotation mark stands in the wrong place.
fn fields(line: &[u8]) -> Option<Vec<Vec<u8>>> {
    let mut all = vec![];
    let mut rest = line;
    loop {
        let mut field = vec![];
        if rest.first() == Some(&b'"') {
            rest = &rest[1..];
            loop {
                let at = rest.iter().position(|&b| b == b'"')?;
                field.extend_from_slice(&rest[..at]);
                rest = &rest[at + 1..];
                if rest.first() != Some(&b'"') {
                    break;
                }
                field.push(b'"');
                rest = &rest[1..];
            }
        } else {
            let at = rest.iter().position(|&b| b == b',').unwrap_or(rest.len());
            if rest[..at].contains(&b'"') {
                return None;
            }
            field.extend_from_slice(&rest[..at]);
            rest = &rest[at..];
        }
        all.push(field);
        match rest.first() {
            None => return Some(all),
            Some(b',') => rest = &rest[1..],
            Some(_) => return None,
        }
    }
}

#[cfg(test)]
mod tests {
    use super::{put, Lines};

    fn read(text: &[u8]) -> Vec<Vec<Vec<u8>>> {
        let mut lines = Lines::new(text);
        std::iter::from_fn(|| lines.next().unwrap()).collect()
    }

    #[test]
    fn what_is_put_is_read() {
        let names: [&[u8]; 8] = [b"a", b"", b"a,b", b"\"", b"a\nb", b"x\r\ny\"\"z,", b"\xff\x80", b" a "];
        let mut text = vec![];
        for name in names {
            put(b"first", &mut text);
            text.push(b',');
            put(name, &mut text);
            text.extend(b"\r\n");
        }
        let want: Vec<Vec<Vec<u8>>> = names.iter().map(|n| vec![b"first".to_vec(), n.to_vec()]).collect();
        assert_eq!(read(&text), want);
    }

    #[test]
    fn marks_ends_and_faults() {
        assert_eq!(read(b"\xef\xbb\xbfname,x\n\n\nb,c"), [[b"name", b"x" as &[u8]], [b"b", b"c"]]);
        let mut lines = Lines::new(&b"a,\"x\ny\"\nb,c\"d\n"[..]);
        assert!(lines.next().unwrap().is_some());
        assert!(lines.next().is_err());
        assert_eq!(lines.line, 3);
        assert!(Lines::new(&b"a,\"x"[..]).next().is_err());
    }
}

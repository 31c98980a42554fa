//! What another judge said of each record, beside what this one says. Both lists may be longer than the memory: they are
//! sorted by name and gone through side by side.

use super::csv::{put, Lines, LONGEST};
use super::sort::{Sorted, Sorter};
use crate::counts::{Compared, Old};
use crate::names::shown;
use crate::record::{Class, Record};
use std::fs::File;
use std::io::{self, BufReader, Read, Write};
use std::iter::Peekable;
use std::os::unix::ffi::OsStrExt;
use std::path::Path;

/// The first line of the CSV of records on which the two differ.
pub const HEADER: &[u8] = b"name,old,line\n";

pub struct Compare {
    file: String,
    /// name, 0, the number of its line (8 bytes), 0 pass or 1 fail
    old: Sorter,
    /// name, 0, class (2 bytes), line
    own: Sorter,
}

/// Removes what an earlier audit with a comparison has left: beside a new report it would tell of another one.
pub fn forget(differs: &Path) -> io::Result<()> {
    let mut front = vec![];
    let read = File::open(differs).and_then(|file| file.take(HEADER.len() as u64).read_to_end(&mut front));
    match read {
        Ok(_) if front == HEADER => std::fs::remove_file(differs),
        _ => Ok(()),
    }
}

/// Words of another judge, or the lines of this one.
fn verdict(field: &[u8]) -> Option<Old> {
    let text = std::str::from_utf8(field).ok()?.trim().to_ascii_lowercase();
    match text.split([' ', ':']).next()? {
        "pass" | "passed" | "consistent" => Some(Old::Pass),
        "fail" | "failed" | "broken" | "refused" | "unreadable" => Some(Old::Fail),
        _ => None,
    }
}

/// Where name and verdict stand in a line, by the names of its columns.
fn columns(head: &[Vec<u8>]) -> Option<(usize, usize)> {
    let at = |names: &[&str]| {
        head.iter().position(|c| names.iter().any(|n| c.trim_ascii().eq_ignore_ascii_case(n.as_bytes())))
    };
    Some((at(&["name"])?, at(&["verdict", "answer", "result", "old", "line"])?))
}

impl Compare {
    /// The other judge's answers: a CSV with the columns `name` and `verdict`, which is pass or fail. An audit's own CSV does too.
    pub fn read(path: &Path) -> Result<Compare, String> {
        let file = &shown(path.as_os_str().as_bytes());
        let wrong = |e: io::Error| format!("{file}: {}", crate::write::failure(&e));
        let mut lines = Lines::new(BufReader::with_capacity(1 << 16, File::open(path).map_err(wrong)?));
        let mut old = Sorter::new();
        let mut at = None;
        loop {
            let line = match lines.next() {
                Ok(Some(line)) => line,
                Ok(None) => break,
                Err(e) if e.kind() == io::ErrorKind::FileTooLarge => {
                    return Err(format!(
                        "{file}:{}: a line over {LONGEST} bytes: close its quotation mark",
                        lines.line
                    ));
                }
                Err(e) if e.kind() == io::ErrorKind::InvalidData => {
                    return Err(format!("{file}:{}: a quotation mark in the wrong place: quote a whole field, and double the marks in it", lines.line));
                }
                Err(e) => return Err(wrong(e)),
            };
            let Some((name, said)) = at else {
                at = Some(columns(&line).ok_or_else(|| {
                    format!(
                        "{file}:{}: no columns `name` and `verdict`: let its first line be name,verdict",
                        lines.line
                    )
                })?);
                continue;
            };
            let (Some(name), Some(said)) = (line.get(name), line.get(said)) else {
                return Err(format!("{file}:{}: too few columns: give a name and a verdict in each line", lines.line));
            };
            let Some(said) = verdict(said) else {
                return Err(format!("{file}:{}: '{}' is no verdict: write pass or fail", lines.line, shown(said)));
            };
            old.push(&[&key(name), &lines.line.to_be_bytes(), &[said as u8]]).map_err(|e| e.to_string())?;
        }
        if at.is_none() {
            return Err(format!("{file}: it is empty: let its first line be name,verdict"));
        }
        Ok(Compare { file: file.to_string(), old, own: Sorter::new() })
    }

    pub fn add(&mut self, record: &Record) -> io::Result<()> {
        let line = record.said.to_string();
        self.own.push(&[&key(&record.name), &code(record.said.class()), line.as_bytes()])
    }

    /// Both lists side by side; records on which they differ go to `differs`.
    pub fn finish(self, differs: &mut dyn Write) -> io::Result<Compared> {
        differs.write_all(HEADER)?;
        let mut told = Compared { file: self.file, ..Compared::default() };
        let mut old = Names { left: self.old.sorted()?.peekable() };
        let mut next = old.next()?;
        for own in self.own.sorted()? {
            let own = own?;
            let (name, rest) = split(&own);
            while let Some(passed) = next.take_if(|n| n.name.as_slice() < name) {
                passed.count(&mut told);
                next = old.next()?;
            }
            let class = decoded(rest);
            let Some(there) = next.as_mut().filter(|n| n.name == name) else {
                told.unsaid += 1;
                continue;
            };
            there.used = true;
            *told.both.entry((there.said, class)).or_default() += 1;
            if (there.said == Old::Pass) != matches!(class, Class::Orderly | Class::Unsettled) {
                let mut row = vec![];
                put(&name_of(name), &mut row);
                row.extend(if there.said == Old::Pass { b",pass," } else { b",fail," });
                put(&rest[2..], &mut row);
                row.push(b'\n');
                differs.write_all(&row)?;
            }
        }
        while let Some(passed) = next {
            passed.count(&mut told);
            next = old.next()?;
        }
        Ok(told)
    }
}

/// A name that ends by itself and sorts as the name does: two zero bytes behind it, and 0 1 for each zero byte in it (a tar
/// stream and a CSV can have such names).
fn key(name: &[u8]) -> Vec<u8> {
    let mut key = Vec::with_capacity(name.len() + 2);
    for &b in name {
        key.push(b);
        if b == 0 {
            key.push(1);
        }
    }
    key.extend([0, 0]);
    key
}

/// The key of a name, and what stands behind it.
fn split(string: &[u8]) -> (&[u8], &[u8]) {
    let at = string.windows(2).position(|two| two == [0, 0]).map_or(string.len(), |at| at + 2);
    string.split_at(at)
}

/// The name of a key.
fn name_of(key: &[u8]) -> Vec<u8> {
    let mut name = Vec::with_capacity(key.len());
    let mut left = key[..key.len().saturating_sub(2)].iter();
    while let Some(&b) = left.next() {
        name.push(b);
        if b == 0 {
            left.next();
        }
    }
    name
}

fn code(class: Class) -> [u8; 2] {
    match class {
        Class::Orderly => [0, 0],
        Class::Unsettled => [1, 0],
        Class::Broken(n) => [2, n],
        Class::Refused(n) => [3, n],
        Class::Unreadable => [4, 0],
    }
}

fn decoded(code: &[u8]) -> Class {
    match code[..2] {
        [0, _] => Class::Orderly,
        [1, _] => Class::Unsettled,
        [2, n] => Class::Broken(n),
        [3, n] => Class::Refused(n),
        _ => Class::Unreadable,
    }
}

/// A name of the other judge's list.
struct Named {
    name: Vec<u8>,
    /// What was said of it first.
    said: Old,
    twice: bool,
    /// Whether a record has it.
    used: bool,
}

impl Named {
    fn count(&self, told: &mut Compared) {
        told.elsewhere += u64::from(!self.used);
        told.twice += u64::from(self.twice);
    }
}

/// The other judge's names in order, each once.
struct Names {
    left: Peekable<Sorted>,
}

impl Names {
    fn next(&mut self) -> io::Result<Option<Named>> {
        let Some(first) = self.left.next().transpose()? else {
            return Ok(None);
        };
        let (name, rest) = split(&first);
        let said = if rest.last() == Some(&(Old::Pass as u8)) { Old::Pass } else { Old::Fail };
        let mut named = Named { name: name.to_vec(), said, twice: false, used: false };
        while self.left.next_if(|again| again.as_ref().is_ok_and(|a| split(a).0 == named.name)).is_some() {
            named.twice = true;
        }
        Ok(Some(named))
    }
}

#[cfg(test)]
mod tests {
    use super::{Compare, Old};
    use crate::record::{Class, Record, Said, Unreadable};

    fn told(csv: &[u8], names: &[(&str, &[u8])]) -> Result<(super::Compared, String), String> {
        let file = std::env::temp_dir().join(format!("plimdrong-old-{}-{}.csv", std::process::id(), csv.len()));
        std::fs::write(&file, csv).unwrap();
        let read = Compare::read(&file);
        std::fs::remove_file(&file).unwrap();
        let mut compare = read.map_err(|why| why.rsplit_once(".csv").unwrap().1.to_string())?;
        for (name, sheet) in names {
            let lost = *sheet == b"lost";
            let said = if lost { Said::Unreadable(Unreadable::Missing) } else { Said::Answer(plimdrong::judge(sheet)) };
            compare.add(&Record { name: name.as_bytes().to_vec(), bytes: None, said, sheet: vec![] }).unwrap();
        }
        let mut differs = vec![];
        let compared = compare.finish(&mut differs).unwrap();
        Ok((compared, String::from_utf8(differs).unwrap()))
    }

    #[test]
    fn side_by_side() {
        let good = std::fs::read("../../examples/first.sheet").unwrap();
        let csv = b"name,verdict\nb,pass\nz,pass\n\"a,1\",FAIL\nb,fail\nc,pass\nzz,fail\n";
        let (told, differs) =
            told(csv, &[("c", b"lost"), ("a,1", &good), ("b", b""), ("y", b""), ("b", &good)]).unwrap();
        let both = [
            ((Old::Pass, Class::Orderly), 1),
            ((Old::Pass, Class::Refused(3)), 1),
            ((Old::Pass, Class::Unreadable), 1),
            ((Old::Fail, Class::Orderly), 1),
        ];
        assert_eq!(told.both, both.into_iter().collect());
        assert_eq!((told.unsaid, told.elsewhere, told.twice), (1, 2, 1));
        assert_eq!(
            differs,
            "name,old,line\n\"a,1\",fail,consistent orderly then 0 1\nb,pass,refused 3 at 0\nc,pass,unreadable: no such file\n"
        );
    }

    #[test]
    fn faults_of_the_list() {
        for (csv, why) in [
            (&b""[..], ": it is empty: let its first line be name,verdict"),
            (b"a,pass\n", ":1: no columns `name` and `verdict`: let its first line be name,verdict"),
            (b"name,verdict\na\n", ":2: too few columns: give a name and a verdict in each line"),
            (b"name,verdict\n\na,maybe\n", ":3: 'maybe' is no verdict: write pass or fail"),
            (
                b"name,verdict\n\"a\"b,pass\n",
                ":2: a quotation mark in the wrong place: quote a whole field, and double the marks in it",
            ),
        ] {
            assert_eq!(told(csv, &[]).err().unwrap(), why);
        }
        // another audit's CSV does, and so do other columns in any order
        assert!(told(b"name,bytes,digest,line\na,1,00,consistent orderly then 0 1\n", &[]).is_ok());
        assert!(told(b"\xef\xbb\xbfno,Result , Name\r\n1,Passed,a\r\n", &[]).is_ok());
    }
}

//! Where records come from: folders, lists of names, tar streams. Each gives its records one after another, in an order that
//! is the same every time; what cannot be read is given too.

use super::sort::{Sorted, Sorter};
use crate::fetch::{rest, MOST};
use crate::record::Unreadable;
use std::ffi::OsStr;
use std::fs::{File, ReadDir};
use std::io::{self, BufRead, BufReader, Read};
use std::os::unix::ffi::OsStrExt;
use std::os::unix::fs::MetadataExt;
use std::path::Path;

/// A record to be judged.
pub enum Item {
    /// A file, by its name.
    File(Vec<u8>),
    /// Bytes of a stream: at most `MOST` of them, with length and digest of all where there are more.
    Bytes { name: Vec<u8>, sheet: Vec<u8>, whole: Option<(u64, [u8; 32])> },
    /// What could not be read.
    Lost(Vec<u8>, Unreadable),
}

/// Takes an item; nothing where no more is wanted.
pub type Give<'a> = &'a mut dyn FnMut(Item) -> Option<()>;

/// Why a source ended early: no more was wanted, or it cannot be read at all.
pub enum Stop {
    Unwanted,
    Broken(String),
}

impl From<io::Error> for Stop {
    fn from(e: io::Error) -> Stop {
        // a temporary file's own words
        Stop::Broken(e.to_string())
    }
}

/// How an argument begins.
enum Begin {
    Folder,
    /// Standard input, a pipe, a device.
    Stream,
    /// The first bytes of a regular file, which is not a packed one.
    File(Vec<u8>),
}

fn begin(argument: &[u8]) -> Result<Begin, String> {
    let shown = crate::names::shown(argument);
    let wrong = |e: io::Error| format!("{shown}: {}", crate::write::failure(&e));
    if argument == b"-" {
        return Ok(Begin::Stream);
    }
    let about = std::fs::metadata(path(argument)).map_err(wrong)?;
    if about.is_dir() {
        return Ok(Begin::Folder);
    }
    if !about.is_file() {
        return Ok(Begin::Stream);
    }
    let mut bytes = vec![];
    File::open(path(argument)).and_then(|file| file.take(512).read_to_end(&mut bytes)).map_err(wrong)?;
    let unpack = match bytes[..] {
        [0x1f, 0x8b, ..] => "zcat",
        [b'B', b'Z', b'h', b'1'..=b'9', ..] => "bzcat",
        [0xfd, b'7', b'z', b'X', b'Z', 0, ..] => "xzcat",
        [0x28, 0xb5, 0x2f, 0xfd, ..] => "zstdcat",
        [b'P', b'K', 3, 4, ..] => return Err(format!("{shown}: a zip file: unpack it, and audit the folder")),
        _ => return Ok(Begin::File(bytes)),
    };
    Err(format!("{shown}: a packed file: audit what it holds, as: {unpack} {shown} | plimdrong audit --tar -"))
}

pub enum Source {
    Folder(Vec<u8>),
    /// A file of names, or standard input.
    List(Vec<u8>),
    /// A tar file, or standard input.
    Tar(Vec<u8>),
}

fn path(name: &[u8]) -> &Path {
    Path::new(OsStr::from_bytes(name))
}

impl Source {
    /// What an argument is: a folder, a tar file, else a list.
    pub fn of(argument: &[u8]) -> Result<Source, String> {
        let shown = crate::names::shown(argument);
        match begin(argument)? {
            Begin::Folder => Ok(Source::Folder(argument.to_vec())),
            Begin::Stream => Ok(Source::List(argument.to_vec())),
            Begin::File(bytes) if is_tar(&bytes) => Ok(Source::Tar(argument.to_vec())),
            Begin::File(bytes) if bytes.starts_with(&[1, 0, 3]) => {
                Err(format!("{shown}: a sheet, and no list of names: plimdrong judge {shown}, or audit its folder"))
            }
            Begin::File(_) => Ok(Source::List(argument.to_vec())),
        }
    }

    /// What was named as a tar stream.
    pub fn tar(argument: &[u8]) -> Result<Source, String> {
        match begin(argument)? {
            Begin::Folder => {
                let shown = crate::names::shown(argument);
                Err(format!("{shown}: a folder, and no tar stream: leave --tar out: plimdrong audit {shown}"))
            }
            _ => Ok(Source::Tar(argument.to_vec())),
        }
    }

    /// The file that it is read from, where it is one.
    pub fn file(&self) -> Option<&Path> {
        match self {
            Source::List(name) | Source::Tar(name) if name != b"-" => Some(path(name)),
            _ => None,
        }
    }

    pub fn name(&self) -> &[u8] {
        match self {
            Source::Folder(name) | Source::List(name) | Source::Tar(name) => name,
        }
    }

    /// All its records, in order.
    pub fn each(&self, give: Give) -> Result<(), Stop> {
        match self {
            Source::Folder(folder) => walk(folder, give),
            Source::List(file) => list(opened(file)?, give).map_err(|e| named(file, e)),
            Source::Tar(file) => tar(file, opened(file)?, give),
        }
    }
}

fn opened(file: &[u8]) -> Result<Box<dyn Read>, Stop> {
    if file == b"-" {
        return Ok(Box::new(io::stdin()));
    }
    let opened = File::open(path(file));
    opened.map(|f| Box::new(f) as Box<dyn Read>).map_err(|e| named(file, Some(e)))
}

/// No error: no more was wanted.
fn named(file: &[u8], e: Option<io::Error>) -> Stop {
    match e {
        Some(e) => Stop::Broken(format!("{}: {}", crate::names::shown(file), crate::write::failure(&e))),
        None => Stop::Unwanted,
    }
}

// ---- folders

/// A folder that is being walked: what stands before its names, what is left of them, and which folder it is.
struct Level {
    prefix: Vec<u8>,
    left: Sorted,
    own: (u64, u64),
}

/// What stands before the names of a folder's records: nothing for `.`, else the folder and a slash.
pub fn prefix(folder: &[u8]) -> Vec<u8> {
    let end = folder.iter().rposition(|&b| b != b'/').map_or(0, |at| at + 1);
    match &folder[..end] {
        b"." => vec![],
        name => [name, b"/"].concat(),
    }
}

/// Every entry below a folder that is no folder, links followed, in the order of the names' bytes.
fn walk(folder: &[u8], give: Give) -> Result<(), Stop> {
    let mut stack: Vec<Level> = vec![];
    let mut enter = Some(prefix(folder));
    loop {
        if let Some(prefix) = enter.take() {
            // a folder that is not walked stands there with its slash; `.` has no other name
            let named = |prefix: &[u8]| if prefix.is_empty() { b"./".to_vec() } else { prefix.to_vec() };
            let lost = match level(&prefix, &stack) {
                Ok((level, lost)) => {
                    stack.push(level);
                    lost
                }
                Err(Entering::Lost(why)) => Some(why),
                Err(Entering::Stop(stop)) => return Err(stop),
            };
            if let Some(why) = lost {
                give(Item::Lost(named(&prefix), why)).ok_or(Stop::Unwanted)?;
            }
        }
        let Some(top) = stack.last_mut() else {
            return Ok(());
        };
        match top.left.next().transpose()? {
            None => drop(stack.pop()),
            Some(key) => {
                let name = [&top.prefix[..], &key].concat();
                if key.ends_with(b"/") {
                    enter = Some(name);
                } else {
                    give(Item::File(name)).ok_or(Stop::Unwanted)?;
                }
            }
        }
    }
}

enum Entering {
    Lost(Unreadable),
    Stop(Stop),
}

impl From<io::Error> for Entering {
    fn from(e: io::Error) -> Entering {
        Entering::Lost(match Unreadable::from(e) {
            Unreadable::Forbidden => Unreadable::ForbiddenFolder,
            why => why,
        })
    }
}

/// The folder of a prefix, with its names in order, those of folders with a slash at their end: so the whole names are in
/// order too. And why its names could not all be read, if so.
fn level(prefix: &[u8], above: &[Level]) -> Result<(Level, Option<Unreadable>), Entering> {
    let folder = path(if prefix.is_empty() { b"." } else { prefix });
    let about = std::fs::metadata(folder)?;
    let own = (about.dev(), about.ino());
    if above.iter().any(|level| level.own == own) {
        return Err(Entering::Lost(Unreadable::LoopOfFolders));
    }
    let mut names = Sorter::new();
    let lost = entries(std::fs::read_dir(folder)?, &mut names).map_err(|e| Entering::Stop(e.into()))?;
    let left = names.sorted().map_err(|e| Entering::Stop(e.into()))?;
    Ok((Level { prefix: prefix.to_vec(), left, own }, lost))
}

fn entries(folder: ReadDir, names: &mut Sorter) -> io::Result<Option<Unreadable>> {
    for entry in folder {
        let entry = match entry {
            Ok(entry) => entry,
            Err(e) => return Ok(Some(e.into())),
        };
        let is_folder = match entry.file_type() {
            // a link that leads nowhere is a record that cannot be read
            Ok(kind) if kind.is_symlink() => std::fs::metadata(entry.path()).is_ok_and(|about| about.is_dir()),
            Ok(kind) => kind.is_dir(),
            Err(_) => false,
        };
        names.push(&[entry.file_name().as_bytes(), if is_folder { b"/" } else { b"" }])?;
    }
    Ok(None)
}

/// How many records a folder seems to have: for a progress bar only.
pub fn estimate(folder: &[u8]) -> u64 {
    let mut count = 0;
    let mut left = vec![path(folder).to_path_buf()];
    while let Some(folder) = left.pop() {
        for entry in std::fs::read_dir(folder).into_iter().flatten().flatten() {
            match entry.file_type() {
                Ok(kind) if kind.is_dir() => left.push(entry.path()),
                _ => count += 1,
            }
        }
    }
    count
}

// ---- lists

/// Names, each ended by a line's end; by a zero byte where there is one, as `find -print0` writes them, for names with line ends.
fn list(mut from: Box<dyn Read>, give: Give) -> Result<(), Option<io::Error>> {
    // a path is shorter than this: the first zero byte, if there is any, stands in it
    let mut begin = vec![];
    from.by_ref().take(8192).read_to_end(&mut begin).map_err(Some)?;
    if is_tar(&begin) || begin.starts_with(&[0x1f, 0x8b]) {
        return Err(Some(io::Error::other(
            "a tar stream or a packed one, and no list of names: audit --tar, after unpacking",
        )));
    }
    let end = if begin.contains(&0) { 0 } else { b'\n' };
    // a list from elsewhere has CR LF in every line; a name may end with CR
    let lines_end_with_cr = begin.split_inclusive(|&b| b == b'\n').all(|l| l.ends_with(b"\r\n") || !l.ends_with(b"\n"));
    let mut from = BufReader::with_capacity(1 << 16, io::Cursor::new(begin).chain(from));
    let mut name = vec![];
    loop {
        name.clear();
        if from.by_ref().take(LONGEST as u64).read_until(end, &mut name).map_err(Some)? == 0 {
            return Ok(());
        }
        if name.len() == LONGEST && name.last() != Some(&end) {
            name.truncate(80);
            give(Item::Lost(name.clone(), Unreadable::NameTooLong)).ok_or(None)?;
            skip(&mut from, end).map_err(Some)?;
            continue;
        }
        if name.last() == Some(&end) {
            name.pop();
        }
        if end == b'\n' && lines_end_with_cr && name.last() == Some(&b'\r') {
            name.pop();
        }
        if !name.is_empty() {
            give(Item::File(name.clone())).ok_or(None)?;
        }
    }
}

/// Longer than any path, with its end.
const LONGEST: usize = 1 << 16;

/// What is left of a name.
fn skip(from: &mut impl BufRead, end: u8) -> io::Result<()> {
    loop {
        let there = from.fill_buf()?;
        let at = there.iter().position(|&b| b == end);
        let (n, done) = (at.map_or(there.len(), |at| at + 1), at.is_some() || there.is_empty());
        from.consume(n);
        if done {
            return Ok(());
        }
    }
}

// ---- tar streams

/// A reader that counts what was read.
struct Counted<'a, R> {
    from: R,
    count: &'a std::cell::Cell<u64>,
}

impl<R: Read> Read for Counted<'_, R> {
    fn read(&mut self, to: &mut [u8]) -> io::Result<usize> {
        let n = self.from.read(to)?;
        self.count.set(self.count.get() + n as u64);
        Ok(n)
    }
}

fn tar(file: &[u8], from: Box<dyn Read>, give: Give) -> Result<(), Stop> {
    let count = std::cell::Cell::new(0);
    let mut archive = ::tar::Archive::new(Counted { from: BufReader::with_capacity(1 << 16, from), count: &count });
    // where the last member ends
    let mut end = 0;
    let mut lost = |why| give(Item::Lost(file.to_vec(), why)).ok_or(Stop::Unwanted);
    let entries = match archive.entries() {
        Ok(entries) => entries,
        Err(_) => return lost(Unreadable::Damaged),
    };
    for entry in entries {
        let Ok(mut entry) = entry else {
            return give(Item::Lost(file.to_vec(), Unreadable::Damaged)).ok_or(Stop::Unwanted);
        };
        // a sparse member has fewer bytes here than it stands for
        let stored = match entry.header().entry_type() {
            ::tar::EntryType::GNUSparse => entry.header().entry_size().unwrap_or(0),
            _ => entry.size(),
        };
        end = entry.raw_file_position() + stored.next_multiple_of(512);
        if let Some(item) = member(&mut entry) {
            let cut = matches!(item, Item::Lost(_, Unreadable::CutShort | Unreadable::Damaged));
            give(item).ok_or(Stop::Unwanted)?;
            if cut {
                return Ok(());
            }
        }
    }
    // a tar stream ends with zero blocks; without them it was cut between two members, and some may be missing
    if count.get() < end + 512 {
        return give(Item::Lost(file.to_vec(), Unreadable::NoEnd)).ok_or(Stop::Unwanted);
    }
    // and then nothing: records of another archive behind it would be lost. Reading on, the writer of a pipe is not cut off
    match only_zeros(&mut archive.into_inner()) {
        Ok(true) => Ok(()),
        Ok(false) => give(Item::Lost(file.to_vec(), Unreadable::Behind)).ok_or(Stop::Unwanted),
        Err(e) => give(Item::Lost(file.to_vec(), e.into())).ok_or(Stop::Unwanted),
    }
}

fn only_zeros(from: &mut impl Read) -> io::Result<bool> {
    let mut buffer = [0; 1 << 16];
    loop {
        match from.read(&mut buffer) {
            Ok(0) => return Ok(true),
            Ok(n) if buffer[..n].iter().any(|&b| b != 0) => return Ok(false),
            Ok(_) => {}
            Err(e) if e.kind() == io::ErrorKind::Interrupted => {}
            Err(e) => return Err(e),
        }
    }
}

/// Whether a file begins with the header of a tar member of whatever form: the sum of its bytes stands in it.
fn is_tar(begin: &[u8]) -> bool {
    let Some(header) = begin.get(..512) else {
        return false;
    };
    let said = std::str::from_utf8(&header[148..156]).unwrap_or("");
    let said = u32::from_str_radix(said.trim_matches([' ', '\0']), 8);
    let sum = header[..148].iter().chain(&header[156..]).map(|&b| u32::from(b)).sum::<u32>() + 8 * 32;
    said == Ok(sum)
}

/// What the extended header of a member says beside its header: the length goes by it (POSIX), and the crate takes it only
/// where the header says 0; a sparse member in pax form has other bytes here than the file had.
fn extended(entry: &mut ::tar::Entry<impl Read>) -> Result<(), Unreadable> {
    let length = entry.size();
    let Ok(Some(records)) = entry.pax_extensions() else {
        return Ok(());
    };
    for record in records {
        let record = record.map_err(|_| Unreadable::OwnHeader)?;
        match record.key_bytes() {
            // where the next member begins is then not known either
            b"size" if record.value().ok().and_then(|v| v.parse().ok()) != Some(length) => {
                return Err(Unreadable::Damaged);
            }
            key if key.starts_with(b"GNU.sparse.") => return Err(Unreadable::Sparse),
            _ => {}
        }
    }
    Ok(())
}

/// The record of a member; nothing for a folder and for what describes other members.
fn member(entry: &mut ::tar::Entry<impl Read>) -> Option<Item> {
    use ::tar::EntryType;
    let name = entry.path_bytes();
    let name = name.strip_prefix(b"./").unwrap_or(&name).to_vec();
    if let Err(why) = extended(entry) {
        return Some(Item::Lost(name, why));
    }
    match entry.header().entry_type() {
        // as the oldest tars have folders
        EntryType::Regular if name.ends_with(b"/") => return None,
        EntryType::Regular | EntryType::Continuous | EntryType::GNUSparse => {}
        EntryType::Directory | EntryType::XGlobalHeader | EntryType::XHeader => return None,
        EntryType::Link | EntryType::Symlink => return Some(Item::Lost(name, Unreadable::LinkInArchive)),
        _ => return Some(Item::Lost(name, Unreadable::NoRegularFile)),
    }
    let promised = entry.size();
    let mut sheet = vec![0; promised.min(MOST as u64) as usize];
    let got = entry.read_exact(&mut sheet).and_then(|()| {
        Ok(if sheet.len() < MOST { (promised, None) } else { rest(entry, &sheet).map(|w| (w.0, Some(w)))? })
    });
    Some(match got {
        Ok((length, whole)) if length == promised => Item::Bytes { name, sheet, whole },
        Ok(_) => Item::Lost(name, Unreadable::CutShort),
        Err(e) if e.kind() == io::ErrorKind::UnexpectedEof => Item::Lost(name, Unreadable::CutShort),
        Err(e) => Item::Lost(name, e.into()),
    })
}

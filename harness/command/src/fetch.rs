//! A record's bytes from disk: as many as the judge looks at, and all that were read accounted for.

use crate::record::Unreadable;
use plimdrong::MAX_SHEET;
use sha2::{Digest, Sha256};
use std::fs::{File, OpenOptions};
use std::io::{self, Read};
use std::os::unix::fs::OpenOptionsExt;
use std::path::Path;

/// What is kept of a sheet: one byte more than the longest has, so that a longer one is seen.
pub const MOST: usize = MAX_SHEET + 1;

// A pipe without a writer is opened all the same, and then seen not to be a regular file.
const O_NONBLOCK: i32 = 0o4000;

impl From<io::Error> for Unreadable {
    fn from(e: io::Error) -> Unreadable {
        // by number: ENOENT, EPERM, EACCES, EISDIR, ELOOP are the same on all of Linux' machines that we run on
        match e.raw_os_error() {
            Some(2) => Unreadable::Missing,
            Some(1 | 13) => Unreadable::Forbidden,
            Some(21) => Unreadable::Folder,
            Some(40) => Unreadable::Links,
            Some(number) => Unreadable::Failed(number),
            None => Unreadable::Failed(0),
        }
    }
}

/// At most `MOST` bytes of a stream: a read that was interrupted goes on.
pub fn front(from: &mut impl Read, sheet: &mut Vec<u8>) -> io::Result<()> {
    sheet.clear();
    from.take(MOST as u64).read_to_end(sheet).map(|_| ())
}

/// The rest of a stream behind what `front` took: digest and length of all.
pub fn rest(from: &mut impl Read, sheet: &[u8]) -> io::Result<(u64, [u8; 32])> {
    let mut digest = Sha256::new();
    digest.update(sheet);
    let mut length = sheet.len() as u64;
    let mut buffer = [0; 65536];
    loop {
        match from.read(&mut buffer) {
            Ok(0) => return Ok((length, digest.finalize().into())),
            Ok(n) => {
                digest.update(&buffer[..n]);
                length += n as u64;
            }
            Err(e) if e.kind() == io::ErrorKind::Interrupted => {}
            Err(e) => return Err(e),
        }
    }
}

/// A regular file of an archive, whole: its front into `room`, of `MOST` bytes; how many stand there, length and digest of all.
pub fn record(path: &Path, room: &mut [u8]) -> Result<(usize, (u64, [u8; 32])), Unreadable> {
    let mut file = OpenOptions::new().read(true).custom_flags(O_NONBLOCK).open(path).map_err(|e| {
        // a socket cannot be opened at all (ENXIO)
        match e.raw_os_error() {
            Some(6) => Unreadable::NoRegularFile,
            _ => e.into(),
        }
    })?;
    let said = regular(&file)?;
    let mut got = 0;
    while got < room.len() {
        match file.read(&mut room[got..]) {
            Ok(0) => break,
            Ok(n) => got += n,
            Err(e) if e.kind() == io::ErrorKind::Interrupted => continue,
            Err(e) => return Err(e.into()),
        }
        // where as many came as the file has there is no need to ask for more
        if got as u64 == said {
            break;
        }
    }
    let whole = match got {
        MOST => rest(&mut file, room)?,
        _ => (got as u64, Sha256::digest(&room[..got]).into()),
    };
    if whole.0 == said {
        Ok((got, whole))
    } else {
        Err(Unreadable::LengthChanged)
    }
}

/// The length of a regular file.
fn regular(file: &File) -> Result<u64, Unreadable> {
    let about = file.metadata()?;
    if about.is_dir() {
        Err(Unreadable::Folder)
    } else if !about.is_file() {
        Err(Unreadable::NoRegularFile)
    } else {
        Ok(about.len())
    }
}

/// A sheet by its name on the command line: a file, or a pipe. Of a regular file the length is compared.
pub fn named(path: &Path, sheet: &mut Vec<u8>) -> Result<(), Unreadable> {
    let mut file = File::open(path)?;
    let about = file.metadata()?;
    if about.is_dir() {
        return Err(Unreadable::Folder);
    }
    front(&mut file, sheet)?;
    if about.is_file() && sheet.len() as u64 != about.len().min(MOST as u64) {
        return Err(Unreadable::LengthChanged);
    }
    Ok(())
}

/// What to do about a sheet that a command could not read, as `./verdict` says it.
pub fn remedy(why: Unreadable) -> &'static str {
    match why {
        Unreadable::Missing => "no such file: check the name, or try examples/first.sheet",
        Unreadable::Folder => "a folder: give a sheet's own name, or audit the folder: plimdrong audit FOLDER",
        Unreadable::Forbidden => "you may not read it: change its mode, or judge it as its owner",
        Unreadable::LengthChanged => "its length changed while it was read: judge it again when nothing writes to it",
        _ => "reading it failed: see that its disk is sound, and judge it again",
    }
}

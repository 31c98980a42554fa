//! Temporary files that have no name.

use std::fs::{remove_file, File, OpenOptions};
use std::io;
use std::os::unix::fs::OpenOptionsExt;
use std::path::Path;
use std::sync::atomic::{AtomicU64, Ordering};

static MADE: AtomicU64 = AtomicU64::new(0);

/// A new empty file in the folder for temporary files. Its name is gone at once; the file goes when it is closed.
pub fn file() -> io::Result<File> {
    let folder = std::env::temp_dir();
    let made = loop {
        let made = in_folder(&folder);
        if !made.as_ref().is_err_and(|e| e.kind() == io::ErrorKind::AlreadyExists) {
            break made;
        }
    };
    made.map_err(|e| {
        let folder = folder.display();
        io::Error::new(
            e.kind(),
            format!("no temporary file can be made in {folder} ({e}): set TMPDIR to a folder that can be written"),
        )
    })
}

/// What to say where one could not be written.
pub fn full(e: io::Error) -> io::Error {
    let folder = std::env::temp_dir();
    let folder = folder.display();
    io::Error::new(
        e.kind(),
        format!("a temporary file in {folder} could not be written ({e}): make room, or set TMPDIR to another folder"),
    )
}

fn in_folder(folder: &Path) -> io::Result<File> {
    let number = MADE.fetch_add(1, Ordering::Relaxed);
    let name = folder.join(format!("plimdrong-{}-{number}", std::process::id()));
    let file = OpenOptions::new().read(true).write(true).create_new(true).mode(0o600).open(&name)?;
    remove_file(&name)?;
    Ok(file)
}

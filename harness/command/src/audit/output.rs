//! A file that an audit writes: under another name until it is whole, so that half a report never looks like one.

use std::fs::File;
use std::io::{self, BufWriter, Write};
use std::os::fd::AsFd;
use std::os::unix::fs::MetadataExt;
use std::path::{Path, PathBuf};

pub struct Output {
    to: BufWriter<Box<dyn Write + Send>>,
    /// The name until it is whole, and its own.
    names: Option<(PathBuf, PathBuf)>,
    shown: String,
}

/// A file as it was named; `-` for a link that leads to standard output, as /dev/stdout does: a new file in its place would
/// be one in /dev, and what goes to the same file twice would overwrite itself.
pub fn named(path: &Path) -> PathBuf {
    let which = |about: std::fs::Metadata| (about.dev(), about.ino());
    let own = io::stdout().as_fd().try_clone_to_owned().and_then(|fd| File::from(fd).metadata()).map(which);
    let there = std::fs::metadata(path).map(which);
    match (own, there) {
        (Ok(own), Ok(there)) if own == there && path.is_symlink() => "-".into(),
        _ => path.to_path_buf(),
    }
}

/// The name of a file until it is whole.
pub fn part(path: &Path) -> PathBuf {
    let mut part = path.as_os_str().to_owned();
    // with this process' number: two audits that write to one place do not write to one file
    part.push(format!(".{}.part", std::process::id()));
    part.into()
}

/// An output that failed: which, and why.
pub type Failure = String;

impl Output {
    pub fn create(path: &Path) -> Result<Output, Failure> {
        let shown = crate::names::shown(path.as_os_str().as_encoded_bytes());
        let wrong = |e: io::Error| format!("{shown}: {}", crate::write::failure(&e));
        let (to, names): (Box<dyn Write + Send>, _) = if path == Path::new("-") {
            (Box::new(io::stdout()), None)
        } else if std::fs::metadata(path).is_ok_and(|about| !about.is_file()) {
            // a device or a pipe is written as it is; a folder says so
            (Box::new(File::options().write(true).open(path).map_err(wrong)?), None)
        } else {
            // a link stays: what it leads to is written anew
            let own = path.canonicalize().unwrap_or_else(|_| path.to_path_buf());
            let part = part(&own);
            (Box::new(File::create_new(&part).map_err(wrong)?), Some((part, own)))
        };
        Ok(Output { to: BufWriter::with_capacity(1 << 16, to), names, shown })
    }

    /// The failure in words.
    fn wrong(&self, e: &io::Error) -> Failure {
        format!("{}: {}", self.shown, crate::write::failure(e))
    }

    pub fn put(&mut self, bytes: &[u8]) -> Result<(), Failure> {
        let written = self.to.write_all(bytes);
        written.map_err(|e| self.wrong(&e))
    }

    pub fn by(&mut self, write: impl FnOnce(&mut dyn Write) -> io::Result<()>) -> Result<(), Failure> {
        let written = write(&mut self.to);
        written.map_err(|e| self.wrong(&e))
    }

    /// All of it is written.
    pub fn flush(&mut self) -> Result<(), Failure> {
        self.by(|to| to.flush())
    }

    /// All of it is there: it gets its name.
    fn finish(mut self) -> Result<(), Failure> {
        if let Some((part, own)) = &self.names {
            std::fs::rename(part, own).map_err(|e| self.wrong(&e))?;
        }
        self.names = None;
        Ok(())
    }

    /// Several get their names, when the last of them is written.
    pub fn finish_all(mut all: Vec<Output>) -> Result<(), Failure> {
        all.iter_mut().try_for_each(Output::flush)?;
        all.into_iter().try_for_each(Output::finish)
    }
}

impl Drop for Output {
    fn drop(&mut self) {
        // what is not whole goes: on a full disk it would be in the way
        if let Some((part, _)) = &self.names {
            let _ = std::fs::remove_file(part);
        }
    }
}

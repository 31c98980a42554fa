//! A record of an archive, what was said of it, and its line of the CSV.

use plimdrong::Answer;
use std::fmt;

/// A record and what was said of it.
pub struct Record {
    /// The name: bytes as the file system, the list or the archive has them.
    pub name: Vec<u8>,
    /// Length and SHA-256 of all its bytes; none where it could not be read.
    pub bytes: Option<(u64, [u8; 32])>,
    pub said: Said,
    /// The bytes, where they are needed again: of a broken record, for its picture. Else empty.
    pub sheet: Vec<u8>,
}

/// The judge's answer, or why there is none.
pub enum Said {
    Answer(Answer),
    Unreadable(Unreadable),
}

/// Why a record could not be read. `Display` is what stands behind `unreadable: `.
#[derive(Clone, Copy, Debug, PartialEq, Eq)]
pub enum Unreadable {
    Missing,
    Forbidden,
    ForbiddenFolder,
    Folder,
    NoRegularFile,
    Links,
    LoopOfFolders,
    LengthChanged,
    /// In a tar stream:
    CutShort,
    Damaged,
    NoEnd,
    LinkInArchive,
    Behind,
    OwnHeader,
    Sparse,
    NameTooLong,
    Failed(i32),
}

impl fmt::Display for Unreadable {
    fn fmt(&self, f: &mut fmt::Formatter) -> fmt::Result {
        f.write_str(match self {
            Unreadable::Missing => "no such file",
            Unreadable::Forbidden => "you may not read it",
            Unreadable::ForbiddenFolder => "you may not read this folder",
            Unreadable::Folder => "a folder",
            Unreadable::NoRegularFile => "no regular file",
            Unreadable::Links => "too many links",
            Unreadable::LoopOfFolders => "a link to a folder above it",
            Unreadable::LengthChanged => "its length changed while it was read",
            Unreadable::CutShort => "the archive ends inside it",
            Unreadable::Damaged => "the archive is damaged from here on",
            Unreadable::NoEnd => "the archive ends without its end mark",
            Unreadable::LinkInArchive => "a link: its bytes stand elsewhere",
            Unreadable::Behind => "more stands behind its end mark",
            Unreadable::OwnHeader => "its extended header cannot be read",
            Unreadable::Sparse => "a sparse file in pax form: its holes are left out",
            Unreadable::NameTooLong => "no name: it is longer than a path can be",
            Unreadable::Failed(number) => return write!(f, "reading it failed (error {number})"),
        })
    }
}

/// The kinds of answer that are counted.
#[derive(Clone, Copy, Debug, PartialEq, Eq, PartialOrd, Ord)]
pub enum Class {
    Orderly,
    Unsettled,
    Broken(u8),
    Refused(u8),
    Unreadable,
}

impl Said {
    pub fn class(&self) -> Class {
        match self {
            Said::Answer(Answer::Refused { number, .. }) => Class::Refused(*number),
            Said::Answer(Answer::Broken { rule }) => Class::Broken(rule.number()),
            Said::Answer(Answer::Consistent { pair: None, .. }) => Class::Orderly,
            Said::Answer(Answer::Consistent { pair: Some(_), .. }) => Class::Unsettled,
            Said::Unreadable(_) => Class::Unreadable,
        }
    }
}

/// The report line, or `unreadable: ` and why.
impl fmt::Display for Said {
    fn fmt(&self, f: &mut fmt::Formatter) -> fmt::Result {
        match self {
            Said::Answer(answer) => answer.fmt(f),
            Said::Unreadable(why) => write!(f, "unreadable: {why}"),
        }
    }
}

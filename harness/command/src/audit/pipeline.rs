//! From a source to the files: names are listed by one thread, judged by all cores, told in order by another. What is under
//! way is bounded by the channels between them.

use super::compare::Compare;
use super::csv;
use super::output::{Failure, Output};
use super::page::NAMED;
use super::source::{Item, Source, Stop};
use crate::counts::Counts;
use crate::fetch;
use crate::record::{Class, Record, Said, Unreadable};
use crate::report::Report;
use indicatif::ProgressBar;
use plimdrong::{Answer, Judge};
use rayon::prelude::*;
use sha2::{Digest, Sha256};
use std::cell::RefCell;
use std::ffi::OsStr;
use std::os::unix::ffi::OsStrExt;
use std::path::Path;
use std::sync::mpsc::{sync_channel, Receiver, SyncSender};

/// Records that are judged together, in parts, and how many such lots wait between two steps.
const LOT: usize = 2048;
const PART: usize = 64;
const WAITING: usize = 4;

/// Where the records go.
pub struct Sinks {
    csv: Option<Output>,
    sourceless: Option<Output>,
    report: Option<Report>,
    compare: Option<Compare>,
}

/// What an audit has found.
pub struct Told {
    pub counts: Counts,
    pub compare: Option<Compare>,
    pub report: Option<Report>,
    /// The first records with a read byte without a source, the first that could not be read.
    pub sourceless: Vec<Vec<u8>>,
    pub lost: Vec<(Vec<u8>, String)>,
    /// How many files were left out by their names' ending.
    pub left_out: u64,
    /// Files that are written and not finished.
    pub outputs: Vec<Output>,
}

impl Sinks {
    pub fn new(
        csv: Option<Output>,
        sourceless: Option<Output>,
        report: Option<Report>,
        compare: Option<Compare>,
    ) -> Result<Sinks, Failure> {
        let mut sinks = Sinks { csv, sourceless, report, compare };
        for output in [&mut sinks.csv, &mut sinks.sourceless].into_iter().flatten() {
            output.put(csv::HEADER)?;
        }
        Ok(sinks)
    }

    /// Whether every record is looked at again, and not only those that the page names.
    fn wants_all(&self) -> bool {
        self.report.is_some() || self.compare.is_some()
    }

    fn told(mut self, lots: Receiver<Vec<Judged>>, bar: &ProgressBar) -> Result<Told, Failure> {
        let (mut counts, mut sourceless, mut lost) = (Counts::default(), vec![], vec![]);
        for part in lots.into_iter().flatten() {
            bar.inc(part.counts.all());
            counts.add_all(&part.counts);
            if let Some(csv) = &mut self.csv {
                csv.put(&part.rows)?;
            }
            for record in &part.records {
                match &record.said {
                    Said::Answer(Answer::Refused { number: 11, .. }) => {
                        if let Some(csv) = &mut self.sourceless {
                            let mut row = vec![];
                            csv::line(record, &mut row);
                            csv.put(&row)?;
                        }
                        if sourceless.len() < NAMED {
                            sourceless.push(record.name.clone());
                        }
                    }
                    Said::Unreadable(why) if lost.len() < NAMED => lost.push((record.name.clone(), why.to_string())),
                    _ => {}
                }
                if let Some(report) = &mut self.report {
                    report.add(record).map_err(super::temporary)?;
                }
                if let Some(compare) = &mut self.compare {
                    compare.add(record).map_err(super::temporary)?;
                }
            }
        }
        let outputs = [self.csv, self.sourceless].into_iter().flatten().collect();
        Ok(Told { counts, compare: self.compare, report: self.report, sourceless, lost, left_out: 0, outputs })
    }
}

/// All records of the sources, in order, to the sinks; where an ending is given, those alone whose names end so.
pub fn judged(sources: &[Source], ending: &[u8], sinks: Sinks, bar: &ProgressBar) -> Result<Told, Failure> {
    let (items_to, items) = sync_channel::<Vec<Item>>(WAITING);
    let (parts_to, parts) = sync_channel::<Vec<Judged>>(WAITING);
    let wants = Wants { rows: sinks.csv.is_some(), all: sinks.wants_all(), pictures: sinks.report.is_some() };
    std::thread::scope(|scope| {
        let lister = scope.spawn(move || listed(sources, ending, items_to));
        let teller = scope.spawn(move || sinks.told(parts, bar));
        for lot in items {
            let parts = lot.into_par_iter().chunks(PART).map(|part| Judged::of(part, &wants)).collect();
            // where nobody takes them any more the teller has failed, and says why
            if parts_to.send(parts).is_err() {
                break;
            }
        }
        drop(parts_to);
        let told = teller.join().expect("the teller does not panic");
        let listed = lister.join().expect("the lister does not panic");
        told.and_then(|told| listed.map(|left_out| Told { left_out, ..told }))
    })
}

/// The items of all sources, in lots; how many were left out.
fn listed(sources: &[Source], ending: &[u8], to: SyncSender<Vec<Item>>) -> Result<u64, Failure> {
    let (mut lot, mut left_out) = (Vec::with_capacity(LOT), 0);
    for source in sources {
        let mut give = |item: Item| {
            // what could not be read is told whatever its name is: a folder holds who knows what. Members of a tar stream that
            // are no files are left out as they are in a folder
            use Unreadable::{LinkInArchive, NoRegularFile};
            let named = match &item {
                Item::File(name) | Item::Bytes { name, .. } | Item::Lost(name, LinkInArchive | NoRegularFile) => {
                    Some(name)
                }
                Item::Lost(..) => None,
            };
            if named.is_some_and(|name| !name.ends_with(ending)) {
                left_out += 1;
                return Some(());
            }
            lot.push(item);
            if lot.len() == LOT {
                return to.send(std::mem::replace(&mut lot, Vec::with_capacity(LOT))).ok();
            }
            Some(())
        };
        match source.each(&mut give) {
            Ok(()) => {}
            Err(Stop::Unwanted) => return Ok(left_out),
            Err(Stop::Broken(why)) => return Err(why),
        }
    }
    // where nobody takes it the teller has failed
    let _ = to.send(lot);
    Ok(left_out)
}

thread_local! {
    /// Each thread's own judge and room for a sheet.
    static OWN: RefCell<(Judge, Box<[u8]>)> = RefCell::new((Judge::new(), vec![0; fetch::MOST].into()));
}

/// What the teller is to get.
struct Wants {
    rows: bool,
    all: bool,
    pictures: bool,
}

/// A part of a lot, judged.
struct Judged {
    counts: Counts,
    /// Its lines of the CSV, if wanted.
    rows: Vec<u8>,
    /// Those that are looked at again: all, or those that the page names.
    records: Vec<Record>,
}

impl Judged {
    fn of(items: Vec<Item>, wants: &Wants) -> Judged {
        let mut part = Judged { counts: Counts::default(), rows: vec![], records: vec![] };
        for item in items {
            let record = judged_item(item, wants.pictures);
            let class = record.said.class();
            part.counts.add(class);
            if wants.rows {
                csv::line(&record, &mut part.rows);
            }
            if wants.all || matches!(class, Class::Refused(11) | Class::Unreadable) {
                part.records.push(record);
            }
        }
        part
    }
}

fn judged_item(item: Item, pictures: bool) -> Record {
    OWN.with(|own| {
        let (judge, room) = &mut *own.borrow_mut();
        match item {
            Item::File(name) => match fetch::record(Path::new(OsStr::from_bytes(&name)), room) {
                Ok((front, whole)) => record(name, whole, judge, &room[..front], pictures),
                Err(why) => lost(name, why),
            },
            Item::Bytes { name, sheet, whole } => {
                let whole = whole.unwrap_or_else(|| (sheet.len() as u64, Sha256::digest(&sheet).into()));
                record(name, whole, judge, &sheet, pictures)
            }
            Item::Lost(name, why) => lost(name, why),
        }
    })
}

fn lost(name: Vec<u8>, why: Unreadable) -> Record {
    Record { name, bytes: None, said: Said::Unreadable(why), sheet: vec![] }
}

fn record(name: Vec<u8>, whole: (u64, [u8; 32]), judge: &mut Judge, sheet: &[u8], pictures: bool) -> Record {
    let answer = judge.judge(sheet);
    let keep = pictures && matches!(answer, Answer::Broken { .. });
    let sheet = if keep { sheet.to_vec() } else { vec![] };
    Record { name, bytes: Some(whole), said: Said::Answer(answer), sheet }
}

//! A check of a list of event numbers (02 §5), over the judge's tables: to measure the proved one against.

use super::*;

fn not_accepted(number: u64, low: u64) -> u64 {
    (7 << 40) + (number << 32) + low
}

/// The word of 02 §5.
pub fn check(sheet: &[u8], list: &[u8]) -> u64 {
    let mut read = Read::new();
    if let Err((number, place)) = read.sheet(sheet) {
        return refused(number, place);
    }
    if read.differs {
        let (reader, address, writer) = read.differing(sheet);
        return broken(21, [reader, writer, 255, address]);
    }
    let mut t = Tables::new();
    t.fill(sheet, &read);
    if t.breaks(&read) {
        let (number, names) = t.broken(sheet, &read);
        return broken(number, names);
    }
    let n = read.events;
    if list.len() != n {
        return not_accepted(1, list.len().min(u32::MAX as usize) as u64);
    }
    // by event, those that stand in front of it; the numbers are tested before anything else
    let mut front = [0u32; SLOTS];
    let mut placed = 0u32;
    for (i, &e) in list.iter().enumerate() {
        let e = e as usize;
        if e >= n || bit(placed, e) {
            return not_accepted(2, i as u64);
        }
        front[e & 31] = placed;
        placed |= 1 << e;
    }
    // the inits that an event overlaps happen before it; one that does so by way of another event is behind that one's
    for (i, &e) in list.iter().enumerate() {
        let e = e as usize & 31;
        let event = read.event(e);
        let mut before = t.before.pred[e];
        for init in 0..read.inits {
            before |= u32::from(init != e && read.event(init).writes & (event.reads | event.writes) != 0) << init;
        }
        if before & !front[e] != 0 {
            return not_accepted(3, i as u64);
        }
    }
    for run in read.runs() {
        let between = t.barred(&read, run) & front[run.reader as usize & 31] & !front[run.writer as usize & 31];
        if between != 0 {
            let of_run = |&(reader, _, writer): &(u8, u8, u8)| (reader, writer) == (run.reader, run.writer);
            let (_, address, _) = read.rows(sheet).find(of_run).expect("a run has a row");
            let names = [run.reader, run.writer, between.trailing_zeros() as u8, address];
            return not_accepted(4, u32::from_be_bytes(names) as u64);
        }
    }
    6 << 40
}

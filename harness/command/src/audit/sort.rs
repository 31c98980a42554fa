//! Byte strings sorted in memory that does not grow with their number: what does not fit goes to a temporary file, in sorted
//! runs, which are merged on the way out.

use crate::scratch;
use std::cmp::Reverse;
use std::collections::{BinaryHeap, VecDeque};
use std::fs::File;
use std::io::{self, Write};
use std::os::unix::fs::FileExt;

/// Bytes in memory, at most, before a run is written.
const RUN: usize = 8 << 20;
/// Bytes read at a time of each run.
const PIECE: usize = 1 << 14;

pub struct Sorter {
    most: usize,
    arena: Vec<u8>,
    /// Where each string stands in the arena.
    strings: Vec<(u32, u32)>,
    spilled: Option<File>,
    /// Where each run stands in the file.
    runs: Vec<(u64, u64)>,
}

impl Sorter {
    pub fn new() -> Sorter {
        Sorter::with_room(RUN)
    }

    fn with_room(most: usize) -> Sorter {
        Sorter { most, arena: vec![], strings: vec![], spilled: None, runs: vec![] }
    }

    pub fn push(&mut self, parts: &[&[u8]]) -> io::Result<()> {
        let length: usize = parts.iter().map(|p| p.len()).sum();
        if !self.strings.is_empty() && self.arena.len() + length + 8 * self.strings.len() > self.most {
            self.spill()?;
        }
        let begin = self.arena.len() as u32;
        parts.iter().for_each(|p| self.arena.extend_from_slice(p));
        self.strings.push((begin, self.arena.len() as u32));
        Ok(())
    }

    fn sort(&mut self) {
        let arena = &self.arena;
        self.strings
            .sort_unstable_by(|&(a, b), &(c, d)| arena[a as usize..b as usize].cmp(&arena[c as usize..d as usize]));
    }

    fn spill(&mut self) -> io::Result<()> {
        self.sort();
        if self.spilled.is_none() {
            self.spilled = Some(scratch::file()?);
        }
        let begin = self.runs.last().map_or(0, |run| run.1);
        let mut end = begin;
        let mut out = io::BufWriter::with_capacity(1 << 16, self.spilled.as_ref().expect("it was made"));
        for &(a, b) in &self.strings {
            let string = &self.arena[a as usize..b as usize];
            out.write_all(&(b - a).to_le_bytes()).and_then(|()| out.write_all(string)).map_err(scratch::full)?;
            end += 4 + u64::from(b - a);
        }
        out.flush().map_err(scratch::full)?;
        drop(out);
        self.runs.push((begin, end));
        self.arena.clear();
        self.strings.clear();
        Ok(())
    }

    pub fn sorted(mut self) -> io::Result<Sorted> {
        self.sort();
        let mut heap = BinaryHeap::new();
        let mut runs = Vec::new();
        for (begin, end) in std::mem::take(&mut self.runs) {
            runs.push(Run { next: begin, end, ahead: VecDeque::new() });
        }
        let file = self.spilled.take();
        for (i, run) in runs.iter_mut().enumerate() {
            if let Some(first) = run.take(file.as_ref().expect("runs stand in it"))? {
                heap.push(Reverse((first, i)));
            }
        }
        let last = runs.len();
        let mut sorted = Sorted { file, runs, heap, arena: self.arena, strings: self.strings.into_iter() };
        if let Some(first) = sorted.own() {
            sorted.heap.push(Reverse((first, last)));
        }
        Ok(sorted)
    }
}

/// A run of the file, and what was read ahead of it.
struct Run {
    next: u64,
    end: u64,
    ahead: VecDeque<u8>,
}

impl Run {
    fn take(&mut self, file: &File) -> io::Result<Option<Vec<u8>>> {
        if self.ahead.is_empty() && self.next == self.end {
            return Ok(None);
        }
        let mut length = [0; 4];
        self.bytes(file, &mut length)?;
        let mut string = vec![0; u32::from_le_bytes(length) as usize];
        self.bytes(file, &mut string)?;
        Ok(Some(string))
    }

    fn bytes(&mut self, file: &File, to: &mut [u8]) -> io::Result<()> {
        while self.ahead.len() < to.len() {
            let mut piece = vec![0; PIECE.min((self.end - self.next) as usize)];
            file.read_exact_at(&mut piece, self.next)?;
            self.next += piece.len() as u64;
            self.ahead.extend(&piece);
        }
        let taken = self.ahead.drain(..to.len()).collect::<Vec<u8>>();
        to.copy_from_slice(&taken);
        Ok(())
    }
}

pub struct Sorted {
    file: Option<File>,
    runs: Vec<Run>,
    /// The next string of each run; that of the arena has the number behind the last run's.
    heap: BinaryHeap<Reverse<(Vec<u8>, usize)>>,
    arena: Vec<u8>,
    strings: std::vec::IntoIter<(u32, u32)>,
}

impl Sorted {
    fn own(&mut self) -> Option<Vec<u8>> {
        self.strings.next().map(|(a, b)| self.arena[a as usize..b as usize].to_vec())
    }
}

impl Iterator for Sorted {
    type Item = io::Result<Vec<u8>>;

    fn next(&mut self) -> Option<io::Result<Vec<u8>>> {
        let Reverse((string, from)) = self.heap.pop()?;
        let follows = match (self.runs.get_mut(from), &self.file) {
            (Some(run), Some(file)) => run.take(file),
            _ => Ok(self.own()),
        };
        match follows {
            Ok(Some(next)) => self.heap.push(Reverse((next, from))),
            Ok(None) => {}
            Err(e) => return Some(Err(e)),
        }
        Some(Ok(string))
    }
}

#[cfg(test)]
mod tests {
    use super::Sorter;

    /// With room for all, for some and for hardly one string the same comes out: all of them, sorted.
    #[test]
    fn sorted_in_any_room() {
        let mut state = 7u64;
        let mut next = || {
            state = state.wrapping_mul(6364136223846793005).wrapping_add(1442695040888963407);
            (state >> 33) as usize
        };
        let mut strings: Vec<Vec<u8>> = (0..5000).map(|_| vec![next() as u8 % 3; next() % 40]).collect();
        strings.extend((0..5000).map(|_| (0..next() % 9).map(|_| next() as u8).collect()));
        strings.push(vec![9; 100_000]);
        for room in [1, 100, 5000, 1 << 30] {
            let mut sorter = Sorter::with_room(room);
            strings.iter().for_each(|s| sorter.push(&[&s[..s.len() / 2], &s[s.len() / 2..]]).unwrap());
            let got: Vec<Vec<u8>> = sorter.sorted().unwrap().map(|s| s.unwrap()).collect();
            let mut want = strings.clone();
            want.sort();
            assert!(got == want, "room {room}");
        }
        assert!(Sorter::new().sorted().unwrap().next().is_none());
    }
}

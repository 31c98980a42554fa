//! The reader: fields front to back, one loop for each tag. A field that passes is taken in by a few tests without jumps
//! between them; one that does not goes to `fault`, which finds out why.

use super::*;

/// A row's field begins so: tag 3, length 3.
const ROW: u32 = u32::from_le_bytes([3, 0, 3, 0]);
/// A pair's field begins so: tag 4, length 2.
const PAIR: u32 = u32::from_le_bytes([4, 0, 2, 0]);

/// What kind, mode and width together say of an event that is no init.
#[derive(Clone, Copy)]
struct Shape {
    /// How many bytes of data it has; more than any length for what is no event.
    data: u32,
    /// The bytes from its start on that it reads, that it writes.
    reads: u8,
    writes: u8,
    /// How many bytes it reads; how many stand before those that it writes.
    read: u8,
    skip: u8,
    /// The bits of its start that must be zero; that must be so that it may be tear-free.
    aligned: u8,
    whole: u8,
    /// The width is 2 to this power.
    power: u8,
    /// All ones for an sc access; for one that is or may be tear-free.
    sc: u8,
    tear_free: u8,
    /// All ones for each of eight bytes that it writes.
    over: [u32; 8],
}

/// By kind times 4 plus mode, then by width.
static SHAPES: [[Shape; 16]; 32] = {
    let none = Shape {
        data: 1 << 16,
        reads: 0,
        writes: 0,
        read: 0,
        skip: 0,
        aligned: 0,
        whole: 0,
        power: 0,
        sc: 0,
        tear_free: 0,
        over: [0; 8],
    };
    let mut shapes = [[none; 16]; 32];
    let accesses = [(READ, UNORDERED), (READ, SC), (WRITE, UNORDERED), (WRITE, SC), (RMW, SC)];
    let mut i = 0;
    while i < accesses.len() {
        let (kind, mode) = accesses[i];
        let mut power = 0;
        while power < 4 {
            let width = 1u8 << power;
            let bytes = ((1u16 << width) - 1) as u8;
            let mut over = [0; 8];
            let mut byte = 0;
            while kind != READ && byte < width {
                over[byte as usize] = u32::MAX;
                byte += 1;
            }
            shapes[(kind * 4 + mode) as usize][width as usize] = Shape {
                data: (if kind == RMW { 2 * width } else { width }) as u32,
                reads: if kind != WRITE { bytes } else { 0 },
                writes: if kind != READ { bytes } else { 0 },
                read: if kind != WRITE { width } else { 0 },
                skip: if kind == RMW { width } else { 0 },
                aligned: if mode == SC { width - 1 } else { 0 },
                whole: width - 1,
                power,
                sc: if mode == SC { 255 } else { 0 },
                tear_free: if mode == SC || width < 8 { 255 } else { 0 },
                over,
            };
            power += 1;
        }
        i += 1;
    }
    shapes[(MARKER * 4 + SC) as usize][0] = Shape { data: 0, aligned: 255, ..none };
    shapes
};

/// An event as the rows' tests and the tables want it.
#[derive(Clone, Copy)]
pub struct Event {
    /// The bytes that it reads; that it writes.
    pub reads: u64,
    pub writes: u64,
    /// Where in the sheet the byte seen (written) at address 0 would stand: below 0 for some.
    pub seen: i32,
    pub written: i32,
    /// The range of an sc access as a number from 8 to 127, 0 for all other events; the same of a tear-free one.
    pub sc: u8,
    pub whole: u8,
    pub agent: u8,
}

/// Rows of the same reader and writer that follow one another.
#[derive(Clone, Copy)]
pub struct Run {
    pub reader: u8,
    pub writer: u8,
    /// The events, inits aside, that write one of its addresses.
    pub over: u32,
}

/// What is read of a whole sheet. Slots from `events` and from `runs` on hold nothing.
pub struct Read {
    /// The offset of the data in an event's value: 5, or 6 where a tear byte stands before it.
    front: usize,
    agents: u8,
    size: u8,
    pub inits: usize,
    pub events: usize,
    pub runs: usize,
    /// Where the first row, the first pair and the end of the sheet stand.
    pub rows_at: usize,
    pub pairs_at: usize,
    /// Some row's two bytes differ.
    pub differs: bool,
    /// By agent, its events.
    pub of_agent: [u32; 16],
    event: [MaybeUninit<Event>; SLOTS],
    run: [MaybeUninit<Run>; MAX_RUNS],
    /// By byte of memory, the events that write it, inits aside; eight more, so that eight may always be taken.
    pub writers: [u32; 64 + 8],
}

impl Read {
    pub fn new() -> Read {
        Read {
            front: 5,
            agents: 0,
            size: 0,
            inits: 0,
            events: 0,
            runs: 0,
            rows_at: 0,
            pairs_at: 0,
            differs: false,
            of_agent: [0; 16],
            event: [const { MaybeUninit::uninit() }; SLOTS],
            run: [const { MaybeUninit::uninit() }; MAX_RUNS],
            writers: [0; 72],
        }
    }

    #[inline(always)]
    pub fn event(&self, e: usize) -> &Event {
        debug_assert!(e < self.events);
        // SAFETY: callers name events of this sheet, and `sheet` fills every slot below `events`, at most 22.
        unsafe { self.event.get_unchecked(e).assume_init_ref() }
    }

    #[inline(always)]
    pub fn runs(&self) -> &[Run] {
        // SAFETY: `sheet` fills every slot below `runs`, at most one a row.
        unsafe { core::slice::from_raw_parts(self.run.as_ptr().cast(), self.runs) }
    }

    /// Reads the sheet, or gives number and place of its refusal.
    #[inline(always)]
    pub fn sheet(&mut self, sheet: &[u8]) -> Result<(), (u8, usize)> {
        if sheet.len() > MAX_SHEET {
            return Err((1, 0));
        }
        let &[1, 0, 3, edition, agents, size, ..] = sheet else {
            return Err(self.fault(sheet, 0, 0, 0, 0));
        };
        if !(1..=2).contains(&edition) || !(1..=8).contains(&agents) || !(1..=64).contains(&size) {
            return Err((5, 0));
        }
        (self.front, self.agents, self.size) = (4 + edition as usize, agents, size);
        if edition == 1 {
            self.fields::<5>(sheet)
        } else {
            self.fields::<6>(sheet)
        }
    }

    /// The fields behind the head; an event's data stand at `FRONT` in its value.
    #[inline(always)]
    fn fields<const FRONT: usize>(&mut self, sheet: &[u8]) -> Result<(), (u8, usize)> {
        let (agents, size) = (self.agents, self.size);
        let mut at = 6;
        let mut covered = 0u64;
        // SAFETY, here and below: loads from the sheet stand behind a comparison with its length.
        while at + 8 <= sheet.len() {
            let [tag, high, low, agent, kind, mode, start, width] = unsafe { load::<8>(sheet, at) };
            if tag != 2 || mode != INIT {
                break;
            }
            let (start, width) = (start as usize, width as usize);
            let length = (high as usize) << 8 | low as usize;
            let end = at + 3 + length;
            let fits = agent == 0 && kind == WRITE && width > 0 && start + width <= size as usize;
            if !fits || length != FRONT + width || end > sheet.len() || self.inits == MAX_INITS {
                return Err(self.fault(sheet, at, 2, covered, 0));
            }
            let bytes = range(start, width);
            if covered & bytes != 0 || FRONT == 6 && sheet[at + 8] != 0 {
                return Err(self.fault(sheet, at, 2, covered, 0));
            }
            covered |= bytes;
            let written = (at + 3 + FRONT) as i32 - start as i32;
            self.event[self.events & 31].write(Event {
                reads: 0,
                writes: bytes,
                seen: 0,
                written,
                sc: 0,
                whole: 0,
                agent: 0,
            });
            self.inits += 1;
            self.events = self.inits;
            at = end;
        }
        let mut present = 1u16; // the agents that have events, and agent 0
        let mut read = 0; // the bytes that are read
        let most = self.inits + MAX_OTHERS;
        let mut n = self.events;
        while at + 8 <= sheet.len() {
            let field = u64::from_le_bytes(unsafe { load(sheet, at) });
            let [tag, high, low, agent, kind, mode, start, width] = field.to_le_bytes();
            if tag != 2 {
                break;
            }
            let length = (high as usize) << 8 | low as usize;
            let end = at + 3 + length;
            let shape = &SHAPES[(kind << 2 | mode) as usize & 31][width as usize & 15];
            let bad = (field & 0xf000_fcf8_0000_0000 != 0)
                | (length != FRONT + shape.data as usize)
                | (start & shape.aligned != 0)
                | (agent.wrapping_sub(1) >= agents)
                | (start as usize + width as usize > size as usize)
                | (end > sheet.len())
                | (n == most);
            if bad {
                self.events = n;
                return Err(self.fault(sheet, at, 2, covered, 0));
            }
            let mut tear_free = if start & shape.whole == 0 { shape.tear_free } else { 0 };
            if FRONT == 6 {
                // SAFETY: the value has six bytes at least
                let [tear] = unsafe { load(sheet, at + 8) };
                if tear < shape.sc & 1 || tear > tear_free & 1 {
                    self.events = n;
                    return Err(self.fault(sheet, at, 2, covered, 0));
                }
                tear_free &= tear.wrapping_neg();
            }
            let me = 1u32 << n;
            let id = (64 + start) >> shape.power;
            let data = (at + 3 + FRONT) as i32 - start as i32;
            self.event[n & 31].write(Event {
                reads: (shape.reads as u64) << (start & 63),
                writes: (shape.writes as u64) << (start & 63),
                seen: data,
                written: data + shape.skip as i32,
                sc: id & shape.sc,
                whole: id & tear_free,
                agent,
            });
            let writers = self.writers[start as usize & 63..][..8].iter_mut();
            for (slot, one) in writers.zip(&shape.over) {
                *slot |= me & one;
            }
            read += shape.read as usize;
            present |= 1 << agent;
            self.of_agent[agent as usize & 15] |= me;
            n += 1;
            at = end;
        }
        self.events = n;
        self.rows_at = at;
        let mut last = 0; // the last row's reader and address, plus 1
        let mut runs = 0usize;
        let mut before = usize::MAX; // the reader and writer of the run
        let mut over = 0;
        let mut differs = 0;
        while at + 6 <= sheet.len() {
            let field = u32::from_le_bytes(unsafe { load(sheet, at) });
            let [address, writer] = unsafe { load(sheet, at + 4) };
            if field & 0xff_ffff != ROW {
                break;
            }
            let (r, w) = ((field >> 24) as usize, writer as usize);
            let key = r << 8 | address as usize;
            if (r >= n) | (w >= n) | (r == w) | (address >= 64) | (key < last) {
                return Err(self.fault(sheet, at, 3, covered, last));
            }
            let (reading, writing) = (self.event(r), self.event(w));
            if (reading.reads & writing.writes) >> address & 1 == 0 {
                return Err(self.fault(sheet, at, 3, covered, last));
            }
            last = key + 1;
            let (seen, written) = (reading.seen + address as i32, writing.written + address as i32);
            // SAFETY: both events have this address, and their data stand in the sheet.
            differs |= unsafe { sheet.get_unchecked(seen as usize) ^ sheet.get_unchecked(written as usize) };
            let both = r << 8 | w;
            let new = both != before;
            before = both;
            runs += new as usize;
            over = if new { 0 } else { over } | self.writers[address as usize];
            // SAFETY: readers have at most 18 times 8 addresses, which rise.
            unsafe { self.run.get_unchecked_mut(runs - 1) }.write(Run { reader: r as u8, writer, over });
            at += 6;
        }
        self.runs = runs;
        self.differs = differs != 0;
        self.pairs_at = at;
        if at != sheet.len() {
            let mut last = 0;
            let mut pairs = 0;
            let markers = |e: usize| {
                let event = self.event(e);
                (event.reads | event.writes == 0, event.agent)
            };
            while at + 5 <= sheet.len() {
                let field = u32::from_le_bytes(unsafe { load(sheet, at) });
                let second = sheet[at + 4] as usize;
                let first = (field >> 24) as usize;
                let key = first << 8 | second;
                if field & 0xff_ffff != PAIR || first >= n || second >= n || key < last || pairs == MAX_PAIRS {
                    break;
                }
                let ((one, its), (other, others)) = (markers(first), markers(second));
                if !one || !other || its == others {
                    break;
                }
                last = key + 1;
                pairs += 1;
                at += 5;
            }
            if at != sheet.len() {
                // the last field that passed may be of any tag
                let tag = if at > self.pairs_at {
                    4
                } else if at > self.rows_at {
                    3
                } else {
                    2
                };
                return Err(self.fault(sheet, at, tag, covered, if tag == 4 { last } else { 0 }));
            }
        }
        if read == 0 {
            return Err((10, sheet.len()));
        }
        if present != (2 << agents) - 1 {
            return Err((14, sheet.len()));
        }
        // rows rise strictly and lie in their reader's range, so as many as there are bytes read are one for each
        if (self.pairs_at - self.rows_at) / 6 != read {
            return Err((11, self.lacking(sheet)));
        }
        Ok(())
    }

    /// The rows, one after the other: reader, address, writer.
    pub fn rows<'a>(&self, sheet: &'a [u8]) -> impl Iterator<Item = (u8, u8, u8)> + 'a {
        sheet[self.rows_at..self.pairs_at].chunks_exact(6).map(|field| (field[3], field[4], field[5]))
    }

    /// The first row whose two bytes differ.
    #[cold]
    pub fn differing(&self, sheet: &[u8]) -> (u8, u8, u8) {
        let differ = |&(reader, address, writer): &(u8, u8, u8)| {
            let (read, write) = (self.event(reader as usize), self.event(writer as usize));
            let at = |of: i32| (of + address as i32) as usize;
            sheet[at(read.seen)] != sheet[at(write.written)]
        };
        self.rows(sheet).find(differ).expect("some row does")
    }

    /// The pairs, first to second.
    pub fn pairs<'a>(&self, sheet: &'a [u8]) -> impl Iterator<Item = (usize, usize)> + 'a {
        sheet[self.pairs_at..].chunks_exact(5).map(|field| (field[3] as usize, field[4] as usize))
    }

    /// The place of the lowest event with a read byte that has no row.
    #[cold]
    fn lacking(&self, sheet: &[u8]) -> usize {
        let mut rows = [0u32; SLOTS];
        self.rows(sheet).for_each(|(reader, ..)| rows[reader as usize & 31] += 1);
        let lacks = |e: &usize| self.event(*e).reads.count_ones() != rows[*e];
        let e = (self.inits..self.events).find(lacks).expect("fewer rows than bytes are read");
        (self.event(e).seen + self.event(e).reads.trailing_zeros() as i32) as usize - 3 - self.front
    }

    /// Number and place of the field here, which is at fault: tests in 01's order. What stood before it: the last tag, the
    /// bytes that inits cover, and of a row or pair the last one's first two items plus 1.
    #[cold]
    fn fault(&self, sheet: &[u8], at: usize, last_tag: u8, covered: u64, last: usize) -> (u8, usize) {
        (self.fault_number(&sheet[at..], last_tag, covered, last), at)
    }

    fn fault_number(&self, rest: &[u8], last_tag: u8, covered: u64, last: usize) -> u8 {
        let &[tag, high, low, ..] = rest else {
            return if rest.is_empty() { 3 } else { 2 };
        };
        let allowed = match tag {
            1 => last_tag == 0,
            2..=4 => last_tag != 0 && tag >= last_tag,
            _ => false,
        };
        if !allowed {
            return 3;
        }
        let length = (high as usize) << 8 | low as usize;
        if length > rest.len() - 3 {
            return 2;
        }
        let value = &rest[3..3 + length];
        match tag {
            1 if length == 3 => 5,
            2 => self.event_fault(value, covered),
            3 if length == 3 => 7,
            4 if length == 2 => self.pair_fault(value, last),
            _ => 4,
        }
    }

    fn event_fault(&self, value: &[u8], covered: u64) -> u8 {
        let &[agent, kind, mode, start, width, ..] = value else {
            return 4;
        };
        if value.len() < self.front {
            return 4;
        }
        let (start, width) = (start as usize, width as usize);
        if start + width > self.size as usize {
            return 6;
        }
        let aligned = match width {
            1 => true,
            2 | 4 | 8 => mode != SC || start % width == 0,
            _ => false,
        };
        let init = match (kind, mode) {
            (WRITE, INIT) => {
                if agent != 0 || width == 0 || self.events != self.inits || covered & range(start, width) != 0 {
                    return 6;
                }
                true
            }
            (READ | WRITE, UNORDERED | SC) | (RMW, SC) if aligned => false,
            (MARKER, SC) if start == 0 && width == 0 => false,
            _ => return 6,
        };
        if !init && !(1..=self.agents).contains(&agent) {
            return 6;
        }
        if self.front == 6 {
            let must = mode == SC && kind != MARKER;
            let may = must || mode == UNORDERED && width < 8 && start % width == 0;
            if !(must as u8..=may as u8).contains(&value[5]) {
                return 6;
            }
        }
        if value.len() != self.front + if kind == RMW { 2 * width } else { width } {
            return 4;
        }
        9
    }

    fn pair_fault(&self, value: &[u8], last: usize) -> u8 {
        let (a, b) = (value[0] as usize, value[1] as usize);
        if a >= self.events || b >= self.events || a << 8 | b < last {
            return 8;
        }
        let (one, other) = (self.event(a), self.event(b));
        let markers = one.reads | one.writes | other.reads | other.writes == 0;
        if !markers || one.agent == other.agent {
            return 8;
        }
        9
    }
}

/// The bytes of a range as a mask; the width is not 0.
fn range(start: usize, width: usize) -> u64 {
    (u64::MAX >> ((64 - width) & 63)) << (start & 63)
}

/// So many bytes of the sheet from here on.
///
/// # Safety
/// They stand in it.
#[inline(always)]
unsafe fn load<const N: usize>(sheet: &[u8], at: usize) -> [u8; N] {
    debug_assert!(at + N <= sheet.len());
    sheet.as_ptr().add(at).cast::<[u8; N]>().read_unaligned()
}

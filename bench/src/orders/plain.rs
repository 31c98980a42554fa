// The ordinary Rust search by the same method: masks, marks on entering, the lowest event first, writers that have bars gathered once.
pub enum Reach {
    All(usize),
    Over,
}

fn gather(events: usize, bars: &[u32; 1024]) -> [u32; 32] {
    let mut writers = [0u32; 32];
    for v in 0..events {
        for w in 0..events {
            if bars[v * 32 + w] != 0 {
                writers[v] |= 1 << w;
            }
        }
    }
    writers
}

fn may(before: &[u32; 32], bars: &[u32; 1024], writers: u32, s: u32, v: usize) -> bool {
    if s >> v & 1 == 1 || before[v] & !s != 0 {
        return false;
    }
    let mut left = writers & s;
    while left != 0 {
        let w = left.trailing_zeros() as usize;
        if bars[v * 32 + w] & !s != 0 {
            return false;
        }
        left &= left - 1;
    }
    true
}

struct Problem<'a> {
    inits: usize,
    events: usize,
    before: &'a [u32; 32],
    bars: &'a [u32; 1024],
    writers: [u32; 32],
}

impl Problem<'_> {
    fn next(&self, table: &[u8], s: u32, from: usize) -> Option<usize> {
        (from..self.events).find(|&e| {
            may(self.before, self.bars, self.writers[e], s, e) && {
                let x = ((s | 1 << e) >> self.inits) as usize;
                table[x >> 3] >> (x & 7) & 1 == 0
            }
        })
    }

    fn enter(&self, table: &mut [u8], s: u32, e: usize) -> u32 {
        let t = s | 1 << e;
        let x = (t >> self.inits) as usize;
        table[x >> 3] |= 1 << (x & 7);
        t
    }
}

fn needed(n: usize) -> usize {
    if n < 3 {
        1
    } else {
        1 << (n - 3)
    }
}

fn full(n: usize) -> u32 {
    if n < 32 {
        (1 << n) - 1
    } else {
        !0
    }
}

fn search(p: &Problem, scratch: &mut [u8], path: &mut [u8; 32]) -> bool {
    let all = full(p.events);
    let mut s = full(p.inits);
    let mut depth = 0;
    let mut from = p.inits;
    while s != all {
        match p.next(scratch, s, from) {
            Some(e) => {
                s = p.enter(scratch, s, e);
                path[depth] = e as u8;
                depth += 1;
                from = p.inits;
            }
            None => {
                if depth == 0 {
                    return false;
                }
                depth -= 1;
                let x = path[depth] as usize;
                s &= !(1 << x);
                from = x + 1;
            }
        }
    }
    true
}

fn fits(inits: usize, events: usize, room: usize) -> bool {
    inits <= events && events <= 32 && needed(events - inits) <= room
}

#[inline(never)]
pub fn first(
    inits: usize,
    events: usize,
    before: &[u32; 32],
    bars: &[u32; 1024],
    scratch: &mut [u8],
    order: &mut [u8],
) -> bool {
    if !fits(inits, events, scratch.len()) || order.len() < events {
        return false;
    }
    let p = Problem { inits, events, before, bars, writers: gather(events, bars) };
    let mut path = [0u8; 32];
    let need = needed(events - inits);
    scratch[..need].fill(0);
    let found = search(&p, scratch, &mut path);
    scratch[..need].fill(0);
    if found {
        for i in 0..inits {
            order[i] = i as u8;
        }
        order[inits..events].copy_from_slice(&path[..events - inits]);
    }
    found
}

#[inline(never)]
pub fn count_sets(
    inits: usize,
    events: usize,
    before: &[u32; 32],
    bars: &[u32; 1024],
    scratch: &mut [u8],
    limit: usize,
) -> Reach {
    if !fits(inits, events, scratch.len()) {
        return Reach::All(0);
    }
    let p = Problem { inits, events, before, bars, writers: gather(events, bars) };
    let mut path = [0u8; 32];
    let need = needed(events - inits);
    scratch[..need].fill(0);
    let answer = tally(&p, scratch, &mut path, limit);
    scratch[..need].fill(0);
    answer
}

fn tally(p: &Problem, scratch: &mut [u8], path: &mut [u8; 32], limit: usize) -> Reach {
    if limit == 0 {
        return Reach::Over;
    }
    let mut s = full(p.inits);
    let mut depth = 0;
    let mut from = p.inits;
    let mut n = 1;
    loop {
        match p.next(scratch, s, from) {
            Some(e) => {
                if limit <= n {
                    return Reach::Over;
                }
                s = p.enter(scratch, s, e);
                path[depth] = e as u8;
                depth += 1;
                from = p.inits;
                n += 1;
            }
            None => {
                if depth == 0 {
                    return Reach::All(n);
                }
                depth -= 1;
                let x = path[depth] as usize;
                s &= !(1 << x);
                from = x + 1;
            }
        }
    }
}

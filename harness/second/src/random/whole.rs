//! Whole sheets: around the litmus table, replayed on a plain memory, and free.

use super::*;

/// Where a read byte comes from: an init, an event of the plan, or whatever writes it.
#[derive(Clone, Copy, PartialEq)]
pub(super) enum From {
    Init,
    Event(usize),
    Any,
}

#[derive(Clone)]
pub(super) struct Plan {
    pub(super) agent: u8,
    pub(super) kind: u8,
    pub(super) mode: u8,
    pub(super) start: usize,
    pub(super) width: usize,
    /// By byte of the range; the last holds for all further ones.
    pub(super) from: Vec<From>,
}

/// A whole sheet as fields.
pub fn whole(rng: &mut Rng, max: usize) -> (String, Vec<Field>) {
    loop {
        let made = match rng.below(100) {
            0..=44 => template(rng, max, TEMPLATES),
            45..=74 => {
                let n = others(rng, 1, max);
                Some(replayed(rng, n))
            }
            _ => {
                let n = others(rng, 1, max);
                Some(("free".to_string(), free(rng, n)))
            }
        };
        if let Some((name, plans)) = made {
            if let Some(fields) = finish(rng, plans) {
                let fields = if rng.percent(50) { edition_2(rng, fields) } else { fields };
                return (name, fields);
            }
        }
    }
}

/// How many events that are not inits: from `low` to `max`, and often the most that there can be, where they may.
pub(super) fn others(rng: &mut Rng, low: usize, max: usize) -> usize {
    if max == MAX_OTHERS && rng.percent(20) {
        return max;
    }
    rng.range(low, max)
}

/// The fields as a sheet of edition 2 has them; which of the events that may be either may tear is left to chance.
pub(super) fn edition_2(rng: &mut Rng, mut fields: Vec<Field>) -> Vec<Field> {
    let may_tear = rng.pick(&[0, 30, 50, 100]);
    fields[0].value[0] = 2;
    for f in fields.iter_mut().filter(|f| f.tag == 2) {
        let [_, kind, mode, start, width] = f.value[..5] else { unreachable!("a whole event") };
        let rule = tear_by_the_rule(kind, mode, start, width);
        let tear = if mode == U && rng.percent(may_tear) { 0 } else { rule };
        f.value.insert(5, tear);
        f.length += 1;
    }
    fields
}

/// A whole sheet of edition 1 with exactly `n` events that are not inits, mostly one that some order explains.
pub fn sized(rng: &mut Rng, n: usize) -> Vec<u8> {
    loop {
        let plans = replayed(rng, n).1;
        if let Some(fields) = finish(rng, plans) {
            return bytes(&fields);
        }
    }
}

/// Events, pairs of event numbers, memory size, number of agents.
#[derive(Clone)]
pub(super) struct Plans {
    pub(super) events: Vec<Plan>,
    pub(super) pairs: Vec<(usize, usize)>,
    pub(super) size: usize,
    pub(super) agents: u8,
}

/// Name, least width, events as (agent, kind, mode, location, the events its bytes are read from), pairs.
type Shape = (&'static str, usize, &'static [(u8, u8, u8, usize, &'static [usize])], &'static [(usize, usize)]);

/// The init, where an event that a byte is read from is named.
const I: usize = 9;
const X: usize = 0;
const Y: usize = 1;

#[rustfmt::skip]
const TEMPLATES: &[Shape] = &[
    ("l4", 1, &[(1, WRITE, U, X, &[]), (1, WRITE, SC, Y, &[]), (2, READ, SC, Y, &[1]), (2, READ, U, X, &[I])], &[]),
    ("l5", 1, &[(1, WRITE, U, X, &[]), (1, WRITE, SC, Y, &[]), (2, READ, SC, Y, &[1]), (2, READ, U, X, &[0])], &[]),
    ("l7", 1, &[(1, WRITE, SC, X, &[]), (1, READ, SC, Y, &[I]), (2, WRITE, SC, Y, &[]), (2, READ, SC, X, &[I])], &[]),
    ("l9", 1, &[(1, WRITE, SC, X, &[]), (1, READ, SC, Y, &[2]), (2, WRITE, SC, Y, &[]), (2, READ, SC, X, &[I])], &[]),
    ("l10", 1, &[(1, READ, SC, X, &[3]), (1, WRITE, SC, Y, &[]), (2, READ, SC, Y, &[1]), (2, WRITE, SC, X, &[])], &[]),
    ("l11", 1, &[(1, READ, U, X, &[1]), (1, WRITE, U, X, &[])], &[]),
    ("l12", 2, &[(1, WRITE, U, X, &[]), (2, WRITE, U, X, &[]), (3, READ, U, X, &[0, 1])], &[]),
    // at edition 2 the tear bytes decide whether 25 comes, and which two writers it names
    ("l12three", 4, &[(1, WRITE, U, X, &[]), (2, WRITE, U, X, &[]), (3, WRITE, U, X, &[]), (4, READ, U, X, &[0, 1, 2])], &[]),
    ("l12sc", 2, &[(1, WRITE, SC, X, &[]), (2, RMW, SC, X, &[I]), (3, READ, U, X, &[0, 1])], &[]),
    ("l14", 1, &[(1, RMW, SC, X, &[I]), (2, RMW, SC, X, &[I])], &[]),
    ("l14chain", 1, &[(1, RMW, SC, X, &[I]), (2, RMW, SC, X, &[0]), (3, RMW, SC, X, &[1])], &[]),
    ("l15", 1, &[(1, WRITE, SC, X, &[]), (1, MARKER, SC, X, &[]), (2, WRITE, SC, X, &[]), (2, MARKER, SC, X, &[]),
        (3, MARKER, SC, X, &[]), (3, READ, U, X, &[0])], &[(1, 4), (3, 4)]),
    // two reads that need (b) in opposite ways: no order
    ("l15twice", 1, &[(1, WRITE, SC, X, &[]), (1, MARKER, SC, X, &[]), (2, WRITE, SC, X, &[]), (2, MARKER, SC, X, &[]),
        (3, MARKER, SC, X, &[]), (3, READ, U, X, &[0]), (3, READ, U, X, &[2])], &[(1, 4), (3, 4)]),
    ("a", 1, &[(1, WRITE, SC, X, &[]), (2, WRITE, SC, X, &[]), (3, READ, SC, X, &[0])], &[]),
    ("coherence", 1, &[(1, WRITE, SC, X, &[]), (2, WRITE, SC, X, &[]), (3, READ, SC, X, &[0]), (3, READ, SC, X, &[1]),
        (4, READ, SC, X, &[1]), (4, READ, SC, X, &[0])], &[]),
    ("iriw", 1, &[(1, WRITE, SC, X, &[]), (2, WRITE, SC, Y, &[]), (3, READ, SC, X, &[0]), (3, READ, SC, Y, &[I]),
        (4, READ, SC, Y, &[1]), (4, READ, SC, X, &[I])], &[]),
    ("f13", 1, &[(1, WRITE, U, X, &[]), (1, MARKER, SC, X, &[]), (2, WRITE, SC, X, &[]), (3, MARKER, SC, X, &[]),
        (3, READ, SC, X, &[0])], &[(1, 3)]),
];

/// Entries for [`sc_heavy`]: bars by (a), (b) and (c), each with several V, and by (c) with a W that is no init.
#[rustfmt::skip]
const BARS: &[Shape] = &[
    ("a3", 1, &[(1, WRITE, SC, X, &[]), (2, WRITE, SC, X, &[]), (3, WRITE, SC, X, &[]), (4, READ, SC, X, &[0])], &[]),
    ("b", 1, &[(1, WRITE, SC, X, &[]), (2, WRITE, SC, X, &[]), (3, READ, SC, X, &[0]), (3, READ, SC, X, &[1]),
        (3, READ, U, X, &[0])], &[]),
    ("b3", 1, &[(1, WRITE, SC, X, &[]), (1, MARKER, SC, X, &[]), (2, WRITE, SC, X, &[]), (2, MARKER, SC, X, &[]),
        (3, WRITE, SC, X, &[]), (3, MARKER, SC, X, &[]), (4, MARKER, SC, X, &[]), (4, READ, U, X, &[0])],
        &[(1, 6), (3, 6), (5, 6)]),
    ("c-init", 1, &[(1, WRITE, SC, X, &[]), (2, WRITE, SC, X, &[]), (3, READ, SC, X, &[I])], &[]),
    ("c-write", 1, &[(1, WRITE, U, X, &[]), (1, MARKER, SC, X, &[]), (1, WRITE, SC, X, &[]), (2, MARKER, SC, X, &[]),
        (2, READ, SC, X, &[0])], &[(1, 3)]),
    ("c-write2", 1, &[(1, WRITE, U, X, &[]), (1, MARKER, SC, X, &[]), (2, MARKER, SC, X, &[]), (2, RMW, SC, X, &[0]),
        (3, MARKER, SC, X, &[]), (3, READ, SC, X, &[0])], &[(1, 2), (1, 4)]),
];

/// A litmus entry with its agents and locations changed about, its events merged in some order, here and there another
/// mode, width, writer or event.
fn template(rng: &mut Rng, max: usize, shapes: &[Shape]) -> Option<(String, Plans)> {
    let (name, shortest, shape, pairs) = shapes[rng.below(shapes.len())];
    if shape.len() > max {
        return None;
    }
    let width = if rng.percent(60) { shortest } else { rng.pick(&[1, 2, 4, 8]).max(shortest) };
    let turned = rng.percent(30);
    let gap = if rng.percent(20) { width } else { 0 };
    let offset = if rng.percent(8) { 1 } else { 0 };
    let size = (2 * width + gap + offset + if rng.percent(20) { rng.below(4) } else { 0 }).min(64);
    let start = |loc: usize| (if turned { 1 - loc } else { loc }) * (width + gap) + offset;

    // agents: other numbers than the template's
    let most = shape.iter().map(|e| e.0).max().unwrap() as usize;
    let agents = if rng.percent(60) { most } else { rng.range(most, 8) };
    let mut names: Vec<u8> = (1..=agents as u8).collect();
    rng.shuffle(&mut names);
    if rng.percent(40) {
        names.sort();
    }

    // events: merged at random, each agent's in its order
    let mut left: Vec<usize> = (0..shape.len()).collect();
    let mut merged = vec![];
    let keep = rng.percent(40);
    while !left.is_empty() {
        let i = if keep { 0 } else { rng.below(left.len()) };
        let agent = shape[left[i]].0;
        let i = left.iter().position(|&e| shape[e].0 == agent).unwrap();
        merged.push(left.remove(i));
    }
    let at = |e: usize| merged.iter().position(|&m| m == e).unwrap();
    let mut events: Vec<Plan> = merged
        .iter()
        .map(|&e| {
            let (agent, kind, mode, loc, from) = shape[e];
            let from = from.iter().map(|&f| if f == I { From::Init } else { From::Event(at(f)) }).collect();
            let marker = kind == MARKER;
            Plan {
                agent: names[agent as usize - 1],
                kind,
                mode,
                start: if marker { 0 } else { start(loc) },
                width: if marker { 0 } else { width },
                from,
            }
        })
        .collect();
    let mut pairs: Vec<(usize, usize)> = pairs.iter().map(|&(a, b)| (at(a), at(b))).collect();
    if !pairs.is_empty() && rng.percent(10) {
        let i = rng.below(pairs.len());
        pairs.remove(i);
    }

    // small changes
    let much = rng.pick(&[0, 0, 0, 5, 15]);
    for e in &mut events {
        if e.kind == MARKER {
            continue;
        }
        if rng.percent(much) {
            e.mode = if e.kind == RMW { SC } else { rng.pick(&[U, SC]) };
        }
        if rng.percent(much / 2) {
            e.width = rng.pick(&[1, 2, 4, 8]);
            e.start = rng.below(size);
        }
        if rng.percent(much / 2) {
            e.kind = rng.pick(&[READ, WRITE, RMW]);
            e.from = vec![From::Any];
            e.mode = if e.kind == RMW { SC } else { e.mode };
        }
        if e.mode == SC {
            e.start -= e.start % e.width;
        }
        if e.start + e.width > size {
            return None;
        }
    }
    let mut plans = Plans { events, pairs, size, agents: agents as u8 };
    // further events
    if rng.percent(30) {
        let room = max - plans.events.len();
        for _ in 0..rng.below(4).min(room) {
            let e = any_event(rng, size, plans.agents, 50);
            let i = rng.range(0, plans.events.len());
            insert(&mut plans, i, e);
        }
    }
    // agents with nothing but a marker, as far as there is room
    if rng.percent(30) {
        for agent in 1..=plans.agents {
            if plans.events.len() < max && plans.events.iter().all(|e| e.agent != agent) {
                let i = rng.range(0, plans.events.len());
                insert(&mut plans, i, Plan { agent, kind: MARKER, mode: SC, start: 0, width: 0, from: vec![] });
            }
        }
    }
    // markers up to the most events, so that there is as much to search as there can be
    if max == MAX_OTHERS && rng.percent(20) {
        while plans.events.len() < max {
            let agent = rng.range(1, plans.agents as usize) as u8;
            let i = rng.range(0, plans.events.len());
            insert(&mut plans, i, Plan { agent, kind: MARKER, mode: SC, start: 0, width: 0, from: vec![] });
        }
    }
    Some((name.to_string(), plans))
}

/// A further event at number `i`; what names later events moves with them.
pub(super) fn insert(plans: &mut Plans, i: usize, e: Plan) {
    let moved = |n: usize| if n >= i { n + 1 } else { n };
    for p in &mut plans.events {
        for f in &mut p.from {
            if let From::Event(n) = f {
                *f = From::Event(moved(*n));
            }
        }
    }
    for p in &mut plans.pairs {
        *p = (moved(p.0), moved(p.1));
    }
    plans.events.insert(i, e);
}

/// An event of any kind that fits the memory; sc in `sc` of a hundred.
pub(super) fn any_event(rng: &mut Rng, size: usize, agents: u8, sc: usize) -> Plan {
    let agent = rng.range(1, agents as usize) as u8;
    let kind = rng.pick(&[READ, READ, READ, READ, READ, WRITE, WRITE, WRITE, WRITE, RMW, RMW, MARKER]);
    if kind == MARKER {
        return Plan { agent, kind, mode: SC, start: 0, width: 0, from: vec![] };
    }
    let mode = if kind == RMW || rng.percent(sc) { SC } else { U };
    let widths: Vec<usize> = [1, 1, 1, 2, 2, 4, 8].into_iter().filter(|&w| w <= size).collect();
    let width = rng.pick(&widths);
    let mut start = rng.below(size - width + 1);
    // mostly at few places, so that events meet
    if rng.percent(60) {
        start = start.min(rng.below(2) * width).min(size - width);
    }
    if mode == SC || rng.percent(60) {
        start -= start % width;
    }
    Plan { agent, kind, mode, start, width, from: vec![From::Any] }
}

/// A whole sheet with many bars: around [`BARS`], or with few bytes of memory and mostly sc events, replayed or as they fall.
pub fn sc_heavy(rng: &mut Rng, max: usize) -> (String, Vec<Field>) {
    loop {
        let made = if rng.percent(30) {
            template(rng, max, BARS)
        } else {
            let n = others(rng, max.min(3), max);
            let size = rng.pick(&[1, 1, 2, 2, 4]);
            let agents = rng.range(2, 5) as u8;
            let sc = rng.pick(&[60, 80, 90, 100]);
            let plans = drawn(rng, n, size, agents, sc);
            Some(if rng.percent(85) { replay(rng, plans) } else { ("free".to_string(), plans) })
        };
        if let Some((name, plans)) = made {
            if let Some(fields) = finish(rng, plans) {
                let fields = if rng.percent(50) { edition_2(rng, fields) } else { fields };
                return (format!("sc-{name}"), fields);
            }
        }
    }
}

/// `n` events and rows as they fall, pairs between the markers.
fn free(rng: &mut Rng, n: usize) -> Plans {
    let size = rng.pick(&[1, 1, 2, 2, 2, 3, 4, 4, 8, 8, 16, 64]);
    let agents = if rng.percent(80) { rng.range(1, 4) } else { rng.range(1, 8) } as u8;
    let sc = rng.pick(&[0, 30, 60, 100, 100]);
    drawn(rng, n, size, agents, sc)
}

pub(super) fn drawn(rng: &mut Rng, n: usize, size: usize, agents: u8, sc: usize) -> Plans {
    let events: Vec<Plan> = (0..n).map(|_| any_event(rng, size, agents, sc)).collect();
    let order: Vec<usize> = (0..n).collect();
    let pairs = some_pairs(rng, &events, &order);
    Plans { events, pairs, size, agents }
}

/// Pairs between markers of different agents, mostly as they stand in `order`.
fn some_pairs(rng: &mut Rng, events: &[Plan], order: &[usize]) -> Vec<(usize, usize)> {
    let mut pairs = vec![];
    let often = rng.pick(&[20, 60, 100]);
    let backwards = rng.pick(&[0, 0, 0, 8]);
    for (i, &a) in order.iter().enumerate() {
        for &b in &order[i + 1..] {
            let fit = events[a].kind == MARKER && events[b].kind == MARKER && events[a].agent != events[b].agent;
            if fit && rng.percent(often) && pairs.len() < MAX_PAIRS {
                pairs.push(if rng.percent(backwards) { (b, a) } else { (a, b) });
            }
        }
    }
    pairs
}

/// Events run one after another on a plain memory, in an order that keeps each agent's: every read sees the last write.
/// So an order exists, unless a row is then changed.
fn replayed(rng: &mut Rng, n: usize) -> (String, Plans) {
    let plans = free(rng, n);
    replay(rng, plans)
}

pub(super) fn replay(rng: &mut Rng, mut plans: Plans) -> (String, Plans) {
    let n = plans.events.len();
    // an order that keeps each agent's
    let mut left: Vec<usize> = (0..n).collect();
    let mut order = vec![];
    while !left.is_empty() {
        let i = if rng.percent(40) { 0 } else { rng.below(left.len()) };
        let agent = plans.events[left[i]].agent;
        let i = left.iter().position(|&e| plans.events[e].agent == agent).unwrap();
        order.push(left.remove(i));
    }
    let mut last = vec![From::Init; plans.size];
    for &e in &order {
        let p = &mut plans.events[e];
        let range = p.start..p.start + p.width;
        if reads(p.kind) {
            p.from = range.clone().map(|a| last[a]).collect();
        }
        if writes(p.kind) {
            range.for_each(|a| last[a] = From::Event(e));
        }
    }
    plans.pairs = some_pairs(rng, &plans.events, &order);
    let mut name = "replayed";
    if rng.percent(40) {
        name = "replayed-but";
        let e = rng.below(n);
        plans.events[e].from = vec![From::Any];
    }
    (name.to_string(), plans)
}

/// The agents that have events, numbered from 1 on as they rise, so that the head promises no other; how many they are.
fn renumbered(events: &mut [Plan]) -> u8 {
    let mut used: Vec<u8> = events.iter().map(|e| e.agent).collect();
    used.sort();
    used.dedup();
    for e in events {
        e.agent = 1 + used.iter().position(|&a| a == e.agent).unwrap() as u8;
    }
    used.len() as u8
}

/// Inits, data, rows and pairs for the planned events; nothing where a read byte has no writer or nothing reads.
pub(super) fn finish(rng: &mut Rng, plans: Plans) -> Option<Vec<Field>> {
    let Plans { mut events, pairs, size, .. } = plans;
    let agents = renumbered(&mut events);
    if !events.iter().any(|e| reads(e.kind)) {
        return None;
    }
    // inits: mostly one over the memory, else several, with gaps at times, or none; beside the most events often the most
    let most = events.len() == MAX_OTHERS && size >= MAX_INITS && rng.percent(60);
    let mut inits: Vec<(usize, usize)> = vec![];
    match if most { 9 } else { rng.below(10) } {
        0..=5 => inits.push((0, size)),
        6 => {}
        _ => {
            let mut at = 0;
            let gaps = !most && rng.percent(30);
            while at < size && inits.len() < MAX_INITS {
                let last = inits.len() + 1 == MAX_INITS && !gaps;
                let left = if most { MAX_INITS - 1 - inits.len() } else { 0 };
                let width = if last { size - at } else { rng.range(1, size - at - left) };
                if !(gaps && rng.percent(30)) {
                    inits.push((at, width));
                }
                at += width;
            }
            if rng.percent(30) {
                rng.shuffle(&mut inits);
            }
        }
    }
    let first = inits.len();

    // all events with what they write
    struct Written {
        start: usize,
        data: Vec<u8>,
    }
    let mut written: Vec<Written> = vec![];
    for &(start, width) in &inits {
        let same = rng.percent(80);
        written.push(Written { start, data: (0..width).map(|_| if same { 0 } else { rng.byte() }).collect() });
    }
    for (i, e) in events.iter().enumerate() {
        let mut data = vec![];
        if writes(e.kind) {
            let value = if rng.percent(85) { i as u8 + 1 } else { rng.below(2) as u8 };
            let same = rng.percent(80);
            data = (0..e.width).map(|_| if same { value } else { rng.below(4) as u8 }).collect();
        }
        written.push(Written { start: e.start, data });
    }
    let covers = |w: &Written, a: usize| w.start <= a && a < w.start + w.data.len();

    // rows, and what they let be seen
    let mut rows = vec![];
    let mut seen: Vec<Vec<u8>> = vec![];
    let whole_reads = rng.percent(70);
    for (i, e) in events.iter().enumerate() {
        seen.push(vec![]);
        if !reads(e.kind) {
            continue;
        }
        let mut before: Option<usize> = None;
        for a in e.start..e.start + e.width {
            let writers: Vec<usize> =
                (0..written.len()).filter(|&w| w != first + i && covers(&written[w], a)).collect();
            if writers.is_empty() {
                return None;
            }
            let wanted = match *e.from.get(a - e.start).or(e.from.last()).unwrap_or(&From::Any) {
                From::Event(f) => Some(first + f).filter(|w| writers.contains(w)),
                From::Init => writers.iter().copied().find(|&w| w < first),
                From::Any => None,
            };
            let before_too = before.filter(|w| whole_reads && writers.contains(w) && e.from == [From::Any]);
            let w = wanted.or(before_too).unwrap_or_else(|| rng.pick(&writers));
            before = Some(w);
            rows.push((first + i, a, w));
            seen[i].push(written[w].data[a - written[w].start]);
        }
    }
    // a byte that its writer did not write
    if rng.percent(4) {
        let (r, a, _) = rng.pick(&rows);
        let e = r - first;
        let byte = &mut seen[e][a - events[e].start];
        *byte = byte.wrapping_add(1 + rng.below(255) as u8);
    }

    let mut fields = vec![field(1, vec![1, agents, size as u8])];
    for w in &written[..first] {
        let mut value = vec![0, WRITE, 0, w.start as u8, w.data.len() as u8];
        value.extend(&w.data);
        fields.push(field(2, value));
    }
    for (i, e) in events.iter().enumerate() {
        let mut value = vec![e.agent, e.kind, e.mode, e.start as u8, e.width as u8];
        value.extend(&seen[i]);
        value.extend(&written[first + i].data);
        fields.push(field(2, value));
    }
    for (r, a, w) in rows {
        fields.push(field(3, vec![r as u8, a as u8, w as u8]));
    }
    let mut pairs: Vec<[u8; 2]> = pairs.iter().map(|&(a, b)| [(first + a) as u8, (first + b) as u8]).collect();
    pairs.sort();
    pairs.dedup();
    for p in pairs {
        fields.push(field(4, p.to_vec()));
    }
    Some(fields)
}

//! Random sheets aimed at rule 26 (02 §8), with buffers for the bars: small reasons that no order exists, by (a), by (b) and
//! by (c), in rings, with read-modify-writes, alone, several at once, and among events that have nothing to do with them.

use super::whole::{any_event, drawn, edition_2, finish, insert, replay, From, Plan, Plans};
use super::*;
use crate::answer::{needed_scratch, Answer};
use crate::judge::{verdict, Relations};
use crate::why::{all_bars, kept, Bar, Orders, Why};

/// A sheet with the lengths of the buffers lent.
#[derive(Clone, Debug)]
pub struct WhyCase {
    /// Where it comes from.
    pub name: String,
    pub sheet: Vec<u8>,
    pub scratch: usize,
    pub bars: usize,
}

/// The sheet number `index` of a seed, with at most `max` events that are not inits (a few damages need more).
pub fn why_case(seed: u64, index: u64, max: usize) -> WhyCase {
    let mut rng = Rng::new(seed.wrapping_mul(0x9fb2_1c65_1e98_df25) ^ index.wrapping_mul(0xd6e8_feb8_6659_fd93));
    let rng = &mut rng;
    let max = max.clamp(1, MAX_OTHERS);
    let (what, sheet) = match rng.below(100) {
        0..=19 => {
            let c = case(rng.draw(), 0, max);
            (c.name, c.sheet)
        }
        20..=29 => {
            let (name, fields) = sc_heavy(rng, max);
            (name, bytes(&fields))
        }
        _ => aimed(rng, max),
    };
    let (scratch, bars) = lengths(rng, &sheet);
    WhyCase { name: format!("{seed}-{index}-{what}"), sheet, scratch, bars }
}

/// The scratch: mostly about what is needed, at times what is enough for every sheet. The buffer for the bars: mostly enough;
/// else about what is needed, and for sheets that are not broken by 26 anything.
fn lengths(rng: &mut Rng, sheet: &[u8]) -> (usize, usize) {
    let Ok(x) = read(sheet) else {
        return (rng.below(64), rng.below(64));
    };
    let needed = needed_scratch(&x);
    let any = rng.below(needed + 1);
    let scratch = match rng.below(20) {
        0 => rng.pick(&[needed - 1, needed - 1, 0, any]),
        1 => MAX_SCRATCH,
        _ => needed + rng.pick(&[0, 0, 1, 7, 30]),
    };
    let any = rng.below(50);
    let bars = match rng.below(10) {
        0..=3 => rng.pick(&[66, 200, 1000]),
        4 => rng.pick(&[0, 1, 2, 3, 5, 6, 7, any]),
        _ => {
            let m = Relations::of(&x);
            let bytes = match without_order(&m) {
                true => 3 * Orders::prefixes(&m).kept(&all_bars(&m)).len(),
                false => rng.below(9),
            };
            match rng.below(10) {
                0..=2 => bytes,
                3..=5 => bytes.saturating_sub(1),
                6 => bytes.saturating_sub(rng.range(2, 4)),
                7 => bytes + 1,
                8 => bytes + rng.range(2, 4),
                _ => rng.below(bytes + 1),
            }
        }
    };
    (scratch, bars)
}

/// Whether rule 26 breaks it.
fn without_order(m: &Relations) -> bool {
    m.first_broken_rule().is_none() && !Orders::prefixes(m).left_by(&all_bars(m))
}

type Reason = fn(&mut Rng, usize) -> Option<Plans>;

/// Reasons that no order exists: a name, how often, and how one is made with at most so many events that are not inits.
const REASONS: &[(&str, usize, Reason)] = &[
    ("ring", 5, ring),
    ("rmws", 4, rmws),
    ("disagree", 4, disagree),
    ("fork", 3, fork),
    ("joined", 4, joined),
    ("readers", 4, readers),
    ("crossed", 3, crossed),
    ("open", 5, open),
    ("chained", 5, chained),
    ("undecided", 2, undecided),
    ("spoiled", 8, spoiled),
    ("two", 3, two),
    ("beside", 8, beside),
];

fn reason(rng: &mut Rng) -> (&'static str, Reason) {
    let all: usize = REASONS.iter().map(|r| r.1).sum();
    let mut at = rng.below(all);
    for &(name, often, make) in REASONS {
        if at < often {
            return (name, make);
        }
        at -= often;
    }
    unreachable!("below the sum of all")
}

/// A whole sheet that rule 26 breaks, as a rule: a reason for it, mostly among further events.
fn aimed(rng: &mut Rng, max: usize) -> (String, Vec<u8>) {
    let mut last = None;
    for _ in 0..12 {
        let (name, make) = reason(rng);
        let Some(plans) = make(rng, max) else { continue };
        let keep = rng.percent(if name == "chained" || name == "beside" { 70 } else { 25 });
        let mut plans = shuffled(rng, plans, keep);
        let alone = rng.percent(35);
        if !alone {
            pad(rng, &mut plans, max);
        }
        let Some(fields) = finish(rng, plans) else { continue };
        let fields = if rng.percent(50) { edition_2(rng, fields) } else { fields };
        let made = (format!("{name}{}", if alone { "" } else { "-padded" }), bytes(&fields));
        let broken = read(&made.1).is_ok_and(|x| without_order(&Relations::of(&x)));
        last = Some(made);
        if broken {
            break;
        }
    }
    last.unwrap_or_else(|| {
        let (name, fields) = sc_heavy(rng, max);
        (name, bytes(&fields))
    })
}

fn event(agent: usize, kind: u8, mode: u8, (start, width): (usize, usize), from: From) -> Plan {
    Plan { agent: agent as u8, kind, mode, start, width, from: vec![from] }
}

fn marker(agent: usize) -> Plan {
    event(agent, MARKER, SC, (0, 0), From::Any)
}

/// Several locations of one width, side by side; with the memory's size.
fn locations(rng: &mut Rng, count: usize) -> (Vec<(usize, usize)>, usize) {
    let width = rng.pick(&[1, 1, 1, 2, 4, 8]).min(64 / count).next_power_of_two();
    let width = if width * count > 64 { 1 } else { width };
    let size = (width * count + rng.pick(&[0, 0, 0, 1, 8])).min(64);
    ((0..count).map(|i| (i * width, width)).collect(), size)
}

/// The agents have other numbers, as they fall; the events stand merged in some way, each agent's in its order, or stay.
fn shuffled(rng: &mut Rng, plans: Plans, keep: bool) -> Plans {
    let mut names: Vec<u8> = (1..=8).collect();
    if rng.percent(60) {
        rng.shuffle(&mut names);
    }
    let mut left: Vec<usize> = (0..plans.events.len()).collect();
    let mut merged = vec![];
    while !left.is_empty() {
        let i = if keep { 0 } else { rng.below(left.len()) };
        let agent = plans.events[left[i]].agent;
        let i = left.iter().position(|&e| plans.events[e].agent == agent).unwrap();
        merged.push(left.remove(i));
    }
    let at = |e: usize| merged.iter().position(|&m| m == e).unwrap();
    let moved = |e: &usize| {
        let mut p = plans.events[*e].clone();
        p.agent = names[p.agent as usize - 1];
        for f in &mut p.from {
            if let From::Event(n) = f {
                *f = From::Event(at(*n));
            }
        }
        p
    };
    let events = merged.iter().map(moved).collect();
    let pairs = plans.pairs.iter().map(|&(a, b)| (at(a), at(b))).collect();
    Plans { events, pairs, size: plans.size, agents: 8 }
}

/// Further events: markers, reads and writes anywhere, sc writes of a location that is there, whole agents of their own.
fn pad(rng: &mut Rng, plans: &mut Plans, max: usize) {
    let room = max.saturating_sub(plans.events.len());
    let count = if max == MAX_OTHERS && rng.percent(40) { room } else { rng.below(room + 1) };
    let how = rng.below(5);
    for _ in 0..count {
        let i = rng.range(0, plans.events.len());
        let like = rng.pick(&(0..plans.events.len()).collect::<Vec<_>>());
        let Plan { start, width, agent, .. } = plans.events[like].clone();
        let other = rng.range(1, 8);
        let agent = if rng.percent(60) { agent as usize } else { other };
        let e = match if how == 4 { rng.below(4) } else { how } {
            0 => marker(agent),
            1 if width > 0 => event(agent, WRITE, SC, (start, width), From::Any),
            2 if width > 0 => event(agent, READ, SC, (start, width), From::Any),
            _ => any_event(rng, plans.size, 8, 60),
        };
        insert(plans, i, e);
    }
}

/// Store buffering: each agent writes its own location and reads what the next one's held before. By (c): an init, or an
/// unordered write that all agents have seen done. Here and there a read-modify-write, or another agent reads.
fn ring(rng: &mut Rng, max: usize) -> Option<Plans> {
    let written_first = rng.percent(20);
    let (first, each) = if written_first { (1, 4) } else { (0, 2) };
    let most = (max.saturating_sub(first) / each).min(8 - first);
    if most < 2 {
        return None;
    }
    let k = if rng.percent(50) { most } else { rng.range(2, most) };
    let (at, size) = locations(rng, k);
    let mut plans = Plans { events: vec![], pairs: vec![], size, agents: 8 };
    // agent k + 1 writes what is read, and each other agent begins with a marker behind its own
    if written_first {
        (0..k).for_each(|i| plans.events.push(event(k + 1, WRITE, U, at[i], From::Any)));
        plans.events.push(marker(k + 1));
    }
    let rmw = rng.pick(&[0, 0, 30, 100]);
    for i in 0..k {
        let old = |i: usize| if written_first { From::Event(i) } else { From::Init };
        if written_first {
            plans.pairs.push((k, plans.events.len()));
            plans.events.push(marker(i + 1));
        }
        let writing = if rng.percent(rmw) { RMW } else { WRITE };
        plans.events.push(event(i + 1, writing, SC, at[i], old(i)));
        plans.events.push(event(i + 1, READ, SC, at[(i + 1) % k], old((i + 1) % k)));
    }
    // one agent hands over to another by a pair of markers
    if k < 7 && !written_first && plans.events.len() + 2 <= max && rng.percent(30) {
        let i = 2 * rng.below(k);
        plans.events[i + 1].agent = 8;
        let agent = plans.events[i].agent as usize;
        insert(&mut plans, i + 1, marker(agent));
        insert(&mut plans, i + 2, marker(8));
        plans.pairs.push((i + 1, i + 2));
    }
    Some(plans)
}

/// Read-modify-writes of one location that all saw the same: an init, an sc write, or an unordered one before a marker.
fn rmws(rng: &mut Rng, max: usize) -> Option<Plans> {
    let (at, size) = locations(rng, 1);
    let mut plans = Plans { events: vec![], pairs: vec![], size, agents: 8 };
    let source = rng.below(4);
    let (first, each) = [(0, 1), (0, 1), (1, 1), (2, 2)][source];
    let most = (max.saturating_sub(first) / each).min(7);
    if most < 2 {
        return None;
    }
    let few = rng.pick(&[2, 3, 4, 7]);
    let k = rng.range(2, most.min(few));
    let mut from = From::Init;
    if source >= 2 {
        plans.events.push(event(8, WRITE, if source == 2 { SC } else { U }, at[0], From::Any));
        from = From::Event(0);
    }
    if source == 3 {
        plans.events.push(marker(8));
    }
    for i in 0..k {
        if source == 3 {
            plans.pairs.push((1, plans.events.len()));
            plans.events.push(marker(i + 1));
        }
        plans.events.push(event(i + 1, RMW, SC, at[0], from));
    }
    Some(plans)
}

/// A chain of read-modify-writes, each of what the one before wrote, with a fork in it; by one or several agents.
fn fork(rng: &mut Rng, max: usize) -> Option<Plans> {
    if max < 3 {
        return None;
    }
    let (at, size) = locations(rng, 1);
    let mut plans = Plans { events: vec![], pairs: vec![], size, agents: 8 };
    let k = rng.range(3, max.min(9));
    let forked = rng.range(1, k - 1);
    for i in 0..k {
        let from = match i {
            0 => From::Init,
            // what another one has read already
            _ if i == forked => *plans.events[rng.below(i)].from.last().unwrap(),
            _ => From::Event(rng.pick(&[i - 1, i - 1, i - 1, forked.min(i - 1)])),
        };
        plans.events.push(event(rng.range(1, 8), RMW, SC, at[0], from));
    }
    Some(plans)
}

/// Sc writes of one location by several agents, and sc reads of it that saw them in different orders. By (a), and (b).
fn disagree(rng: &mut Rng, max: usize) -> Option<Plans> {
    if max < 6 {
        return None;
    }
    let count = rng.range(1, 2);
    let (at, size) = locations(rng, count);
    let at = rng.pick(&at);
    let mut plans = Plans { events: vec![], pairs: vec![], size, agents: 8 };
    let writers = rng.range(2, (max / 3).min(4));
    for i in 0..writers {
        // two writes of one agent, at times
        let agent = if rng.percent(10) { 1 } else { i + 1 };
        plans.events.push(event(agent, WRITE, SC, at, From::Any));
    }
    for reader in 0..rng.range(2, 8 - writers) {
        let mut seen: Vec<usize> = (0..writers).collect();
        rng.shuffle(&mut seen);
        seen.truncate(rng.range(2, writers));
        for w in seen {
            if plans.events.len() < max {
                plans.events.push(event(writers + 1 + reader, READ, SC, at, From::Event(w)));
            }
        }
    }
    Some(plans)
}

/// Sc writes by several agents, each with a marker behind it; one agent's markers join them, and its unordered reads saw
/// them in turn. By (b) alone. At times several agents read.
fn joined(rng: &mut Rng, max: usize) -> Option<Plans> {
    if max < 7 {
        return None;
    }
    let (at, size) = locations(rng, 1);
    let mut plans = Plans { events: vec![], pairs: vec![], size, agents: 8 };
    let writers = rng.range(2, ((max - 1) / 3).min(4));
    for i in 0..writers {
        plans.events.push(event(i + 1, WRITE, SC, at[0], From::Any));
        plans.events.push(marker(i + 1));
    }
    let agents = if rng.percent(70) { 1 } else { rng.range(1, 8 - writers) };
    for reader in 0..agents {
        let joined = rng.range(2, writers);
        for i in 0..joined {
            plans.pairs.push((2 * i + 1, plans.events.len()));
        }
        plans.events.push(marker(writers + 1 + reader));
        let mode = if rng.percent(80) { U } else { SC };
        for _ in 0..rng.range(1, 4) {
            let from = From::Event(2 * rng.below(joined));
            plans.events.push(event(writers + 1 + reader, READ, mode, at[0], from));
        }
    }
    (plans.events.len() <= max).then_some(plans)
}

/// Independent readers: each saw the write of one location and then not yet that of the next.
fn readers(rng: &mut Rng, max: usize) -> Option<Plans> {
    let most = (max / 3).min(4);
    if most < 2 {
        return None;
    }
    let k = if rng.percent(50) { most } else { rng.range(2, most) };
    let (at, size) = locations(rng, k);
    let mut plans = Plans { events: vec![], pairs: vec![], size, agents: 8 };
    for i in 0..k {
        plans.events.push(event(i + 1, WRITE, SC, at[i], From::Any));
    }
    for i in 0..k {
        let next = (i + 1) % k;
        plans.events.push(event(k + 1 + i, READ, SC, at[i], From::Event(i)));
        let kind = if rng.percent(10) { RMW } else { READ };
        plans.events.push(event(k + 1 + i, kind, SC, at[next], From::Init));
    }
    Some(plans)
}

/// Each agent writes its own location and then the next one's; reads behind all of them saw of every location the first
/// write, that by its own agent. By (b) alone: the other one must come before it. One read of all bytes, or one of each.
fn crossed(rng: &mut Rng, max: usize) -> Option<Plans> {
    let most = (max.saturating_sub(2) / 3).min(5);
    if most < 2 {
        return None;
    }
    let k = rng.range(2, most);
    let width = rng.pick(&[1, 1, 2]);
    let mut plans = Plans { events: vec![], pairs: vec![], size: (k * width).next_power_of_two(), agents: 8 };
    let reader = 3 * k;
    for i in 0..k {
        plans.events.push(event(i + 1, WRITE, SC, (i * width, width), From::Any));
        plans.events.push(event(i + 1, WRITE, SC, ((i + 1) % k * width, width), From::Any));
        plans.events.push(marker(i + 1));
        plans.pairs.push((3 * i + 2, reader));
    }
    plans.events.push(marker(k + 1));
    let first = |i: usize| if i < k { From::Event(3 * i) } else { From::Init };
    if plans.size <= 8 && rng.percent(60) {
        let from = (0..plans.size).map(|byte| first(byte / width)).collect();
        plans.events.push(Plan { from, ..event(k + 1, READ, U, (0, plans.size), From::Any) });
    } else {
        (0..k).for_each(|i| plans.events.push(event(k + 1, READ, U, (i * width, width), first(i))));
    }
    (plans.events.len() <= max).then_some(plans)
}

/// Bars bring the events of these agents into a row, each agent's before the next one's. By (c): a read behind those of the
/// one agent saw the init of a location that the next agent writes before its own. Or, where there is room, by (b): both
/// write it, and an unordered read behind both writes saw the next agent's.
fn in_a_row(rng: &mut Rng, plans: &mut Plans, agents: &[usize], width: usize, room: &mut usize) {
    for two in agents.windows(2) {
        let at = (plans.size, width);
        plans.size += width;
        let front = plans.events.iter().position(|e| e.agent as usize == two[1]).unwrap_or(plans.events.len());
        let kind = if rng.percent(15) { RMW } else { WRITE };
        insert(plans, front, event(two[1], kind, SC, at, From::Init));
        let back = plans.events.iter().rposition(|e| e.agent as usize == two[0]).map_or(0, |i| i + 1);
        if *room < 3 || rng.percent(75) {
            insert(plans, back, event(two[0], READ, SC, at, From::Init));
            continue;
        }
        *room -= 3;
        insert(plans, back, event(two[0], WRITE, SC, at, From::Any));
        insert(plans, back + 1, marker(two[0]));
        let written = plans.events.iter().position(|e| (e.agent as usize, e.start, e.width) == (two[1], at.0, at.1));
        let behind = plans.events.len();
        plans.pairs.push((back + 1, behind));
        plans.events.push(marker(two[1]));
        plans.events.push(event(two[1], READ, U, at, From::Event(written.expect("it was put in above"))));
    }
}

/// A bar that may be met in two ways, V before W or R before V, by (a) alone; and for each way a row of bars that does not let
/// it be: W before V, and V before R.
fn open(rng: &mut Rng, max: usize) -> Option<Plans> {
    if max < 7 {
        return None;
    }
    let width = rng.pick(&[1, 1, 2, 4]);
    let mut plans = Plans { events: vec![], pairs: vec![], size: width, agents: 8 };
    plans.events.push(event(1, WRITE, SC, (0, width), From::Any));
    plans.events.push(event(2, if rng.percent(20) { RMW } else { WRITE }, SC, (0, width), From::Init));
    plans.events.push(event(3, READ, SC, (0, width), From::Event(0)));
    // agents between the two of a row
    let most = ((max - 7) / 2).min(5);
    let between = if rng.percent(40) { most } else { rng.below(most + 1) };
    let first = rng.below(between + 1);
    let row = |from: usize, count: usize, to: usize, next: usize| {
        [vec![from], (next..next + count).collect(), vec![to]].concat()
    };
    let mut room = max - 7 - 2 * between;
    in_a_row(rng, &mut plans, &row(1, first, 2, 4), width, &mut room);
    in_a_row(rng, &mut plans, &row(2, between - first, 3, 4 + first), width, &mut room);
    (plans.size <= 64).then_some(plans)
}

/// A chain of read-modify-writes from an init on, each of what the one before wrote, and a read of the last: a write is
/// before all of them or behind all of them, by a bar for each. Two more read-modify-writes, each of a write that happens
/// before that read, are behind it, then: and whichever comes first stands between the other and its write. So two bars for
/// each link are kept, if the numbers fall as they do here, so that those with the two writes go first; fewer where one of
/// the two happens behind some of the chain, and where the read is none, but writes too.
fn chained(rng: &mut Rng, max: usize) -> Option<Plans> {
    if max < 8 {
        return None;
    }
    let (at, size) = locations(rng, 1);
    let mut plans = Plans { events: vec![], pairs: vec![(2, 3)], size, agents: 8 };
    let k = if rng.percent(40) { max - 7 } else { rng.range(1, max - 7) };
    let behind = if rng.percent(70) { rng.below(k + 1) } else { 0 };
    let kind = if rng.percent(80) { READ } else { RMW };
    plans.events.push(event(1, WRITE, SC, at[0], From::Any));
    plans.events.push(event(2, WRITE, SC, at[0], From::Any));
    plans.events.push(marker(2));
    plans.events.push(marker(1));
    plans.events.push(event(1, kind, SC, at[0], From::Event(4 + k)));
    for i in 0..k {
        let from = if i == 0 { From::Init } else { From::Event(4 + i) };
        plans.events.push(event(if i < behind { 3 } else { 4 }, RMW, SC, at[0], from));
    }
    plans.events.push(event(3, RMW, SC, at[0], From::Event(0)));
    plans.events.push(event(5, RMW, SC, at[0], From::Event(1)));
    Some(plans)
}

/// Two writes of each of two locations, and a read of each write; all writes of the one happen before all reads of the other.
/// No bar is decided by happens-before, nor by what other bars decide: of each location one write and its read come before the
/// other two, and only once one way is chosen, or the other, is there no way left for the other location.
fn undecided(rng: &mut Rng, max: usize) -> Option<Plans> {
    if max < 16 {
        return None;
    }
    let (at, size) = locations(rng, 2);
    let writing = |i: usize| event(i + 1, WRITE, SC, at[i / 2], From::Any);
    let reading = |i: usize| event(i + 5, READ, SC, at[i / 2], From::Event(i));
    let events = [
        (0..4).map(writing).collect(),
        (1..=8).map(marker).collect::<Vec<Plan>>(),
        (0..4).map(reading).collect::<Vec<Plan>>(),
    ];
    let mut pairs = vec![];
    for w in 0..4 {
        for r in (0..4).filter(|r| r / 2 != w / 2) {
            pairs.push((4 + w, 8 + r));
        }
    }
    Some(Plans { events: events.concat(), pairs, size, agents: 8 })
}

/// Mostly sc events run one after another on a plain memory, and then one row after another changed until no order is left.
fn spoiled(rng: &mut Rng, max: usize) -> Option<Plans> {
    if max < 3 {
        return None;
    }
    let n = if max == MAX_OTHERS { rng.range(6, max) } else { rng.range(max.min(4), max) };
    let size = rng.pick(&[1, 1, 2, 2, 3, 4]);
    let (agents, sc) = (rng.range(2, 8) as u8, rng.pick(&[80, 100, 100]));
    let mut base = drawn(rng, n, size, agents, sc);
    // one width, so that ranges are equal
    let width = rng.pick(&[1, 1, size.next_power_of_two().min(size)]);
    for e in base.events.iter_mut().filter(|e| e.kind != MARKER) {
        e.start = e.start.min(size - width) / width * width;
        e.width = width;
    }
    let mut plans = replay(rng, base).1;
    let reading: Vec<usize> = (0..n).filter(|&e| reads(plans.events[e].kind)).collect();
    if reading.is_empty() {
        return None;
    }
    for _ in 0..10 {
        let mut changed = plans.clone();
        changed.events[rng.pick(&reading)].from = vec![From::Any];
        match finish(rng, changed.clone()).map(|fields| settled(&bytes(&fields), &mut changed)) {
            Some(Some(Answer::Broken { number: 26, .. })) => return Some(changed),
            Some(Some(Answer::Consistent { .. })) => plans = changed,
            _ => {}
        }
    }
    Some(plans)
}

/// The verdict of a sheet that was made of these plans, which then have its rows, so that they make it again.
fn settled(sheet: &[u8], plans: &mut Plans) -> Option<Answer> {
    let x = read(sheet).ok()?;
    for row in &x.rows {
        let e = &mut plans.events[row.reader - x.inits()];
        let i = row.address - e.start;
        e.from.resize(e.width, From::Any);
        e.from[i] = match row.writer.checked_sub(x.inits()) {
            Some(w) => From::Event(w),
            None => From::Init,
        };
    }
    Some(verdict(&x))
}

/// Reasons of which two may stand side by side.
const SMALL: [Reason; 8] = [ring, rmws, disagree, readers, fork, joined, crossed, open];

/// Two reasons, each with memory of its own, by the same agents: only one is kept, or part of each.
fn two(rng: &mut Rng, max: usize) -> Option<Plans> {
    let one = rng.pick(&SMALL)(rng, max / 2)?;
    let other = rng.pick(&SMALL)(rng, max - one.events.len())?;
    let (one, other) = (shuffled(rng, one, false), shuffled(rng, other, false));
    side_by_side(one, other)
}

/// A reason, and behind it, so that its bars would be kept in place of the first one's, what is none but for one or two
/// events: another mode, another width, no pair, another row.
fn beside(rng: &mut Rng, max: usize) -> Option<Plans> {
    let first = if max < MAX_OTHERS && rng.percent(40) { max / 2 } else { max / 3 };
    let first = if rng.percent(60) { 2 } else { first.max(2) };
    let one = rng.pick(&[rmws, rmws, ring])(rng, first)?;
    let room = max.checked_sub(one.events.len())?;
    let near = match rng.below(10) {
        0..=3 if room >= 9 => almost_open(rng, room),
        4..=5 if room >= 8 => almost_crossed(rng, room),
        _ => almost(rng, room),
    }?;
    let (one, near) = (shuffled(rng, one, true), shuffled(rng, near, false));
    side_by_side(one, near)
}

fn almost(rng: &mut Rng, max: usize) -> Option<Plans> {
    let mut near = rng.pick(&SMALL)(rng, max)?;
    for _ in 0..rng.pick(&[1, 1, 1, 2, 3]) {
        let plain = |e: &Plan| e.kind == READ || e.kind == WRITE;
        let i = rng.below(near.events.len());
        let modes: Vec<usize> = (0..near.events.len()).filter(|&e| plain(&near.events[e])).collect();
        match rng.below(10) {
            0 if !near.pairs.is_empty() => drop(near.pairs.remove(rng.below(near.pairs.len()))),
            0..=1 => near.events[i].from = vec![From::Any],
            2..=5 if !modes.is_empty() => near.events[rng.pick(&modes)].mode = U,
            _ if near.events[i].kind == MARKER => {}
            _ => {
                let e = &mut near.events[i];
                let wider = 2 * e.width <= 8 && e.start % (2 * e.width) == 0 && e.start + 2 * e.width <= near.size;
                e.width = if wider && rng.percent(60) { 2 * e.width } else { (e.width / 2).max(1) };
            }
        }
    }
    Some(near)
}

/// As [`crossed`], but for a W, which is unordered, or a V, which is shorter: they make no bar.
fn almost_crossed(rng: &mut Rng, max: usize) -> Option<Plans> {
    let mut near = crossed(rng, max)?;
    let i = 3 * rng.below(near.pairs.len());
    match near.events[i + 1].width {
        2 if rng.percent(60) => near.events[i + 1].width = 1,
        _ => near.events[i].mode = U,
    }
    Some(near)
}

/// As [`open`], but for W or R, which is unordered, or V, which is shorter: W happens before R by a pair of markers too, and
/// there is no bar of the three.
fn almost_open(rng: &mut Rng, max: usize) -> Option<Plans> {
    let mut near = open(rng, max - 2)?;
    let read_from = |e: &Plan| match e.from[0] {
        From::Event(w) if e.start == 0 => Some(w),
        _ => None,
    };
    let (r, w) = near.events.iter().enumerate().find_map(|(r, e)| read_from(e).map(|w| (r, w)))?;
    let v = near.events.iter().position(|e| e.agent == 2 && e.start == 0 && writes(e.kind))?;
    match near.events[v].width {
        2.. if rng.percent(60) => near.events[v].width /= 2,
        _ => rng.pick(&[[w, w], [r, r], [w, r]]).iter().for_each(|&e| near.events[e].mode = U),
    }
    let [writer, reader] = [w, r].map(|e| near.events[e].agent as usize);
    // one right before R, one right behind W; the numbers behind each move
    insert(&mut near, r, marker(reader));
    let w = if w >= r { w + 1 } else { w };
    let r = if w < r { r + 1 } else { r };
    insert(&mut near, w + 1, marker(writer));
    near.pairs.push((w + 1, r));
    Some(near)
}

fn side_by_side(mut plans: Plans, other: Plans) -> Option<Plans> {
    let (first, size) = (plans.events.len(), plans.size.next_multiple_of(8));
    if size + other.size > 64 {
        return None;
    }
    for mut e in other.events {
        e.start += if e.kind == MARKER { 0 } else { size };
        for f in &mut e.from {
            if let From::Event(n) = f {
                *f = From::Event(*n + first);
            }
        }
        plans.events.push(e);
    }
    plans.pairs.extend(other.pairs.iter().map(|&(a, b)| (a + first, b + first)));
    plans.size = size + other.size;
    Some(plans)
}

/// All that [`shown_why`] can say. A run of random sheets must have seen each.
pub const SHOWN_WHYS: &[&str] = &[
    "kept, a buffer exactly enough",
    "kept, a buffer of one byte more",
    "kept, a buffer of two bytes more",
    "kept, a buffer of 200 bytes and more",
    "kept, a scratch exactly enough",
    "kept, a scratch of one byte more",
    "16 by one byte",
    "16 by two bytes",
    "16 by three bytes",
    "16, an empty buffer",
    "16, a scratch exactly enough",
    "12 by one byte",
    "12, an empty scratch",
    "12, and the buffer too short",
    "12, of a sheet broken by 21 to 25",
    "12, of a consistent sheet",
    "consistent, an empty buffer",
    "consistent, with bars",
    "broken by 21 to 25, an empty buffer",
    "all bars kept",
    "the first bar kept",
    "the first bar dropped",
    "the last bar kept",
    "the last bar dropped",
    "a bar dropped between two kept",
    "10 bars and more dropped",
    "20 bars and more",
    "a harmless bar dropped",
    "a harmful bar dropped",
    "other bars kept from the last on",
    "more bars kept from the last on",
    "fewer bars kept from the last on",
    "kept by (a) alone",
    "kept by (b) alone",
    "kept by (c) alone",
    "kept by (c) alone, W is no init",
    "kept by (a) and (b)",
    "kept by (a) and (c)",
    "every kept bar by (b) alone",
    "every kept bar by (c) alone",
    "no kept bar by (c)",
    "no order by (a) alone",
    "no order by (b) alone",
    "no order by (c) alone",
    "no order, one only by (a), (b) and (c) together",
    "no order, and no bar decided by the others",
    "kept, R and V in no order",
    "kept, W and V in no order",
    "kept, neither R and V nor W and V in any order",
    "kept, R is a read-modify-write",
    "kept, W is a read-modify-write",
    "kept, V is a read-modify-write",
    "kept, R and W have several rows",
    "kept, of one R several W",
    "kept, of one R and W several V",
    "kept, event 20 or 21",
    "the most events, kept",
    "the most events, kept in a buffer exactly enough",
    "the most events, 16 by one byte",
    "the most events, 12 by one byte",
    "the most events, orderly",
    "the most events, unsettled",
    "the most events, broken by 21 to 25",
];

/// (a), (b) and (c) for a bar, of any row of R and W.
pub fn reasons_of(m: &Relations, (r, w, v): Bar) -> [bool; 3] {
    let mut all = [false; 3];
    for row in m.x.rows.iter().filter(|row| (row.reader, row.writer) == (r, w)) {
        for (holds, here) in all.iter_mut().zip(m.reasons(row, v)) {
            *holds |= here;
        }
    }
    all
}

/// Whether happens-before alone keeps W, V, R from standing in that order.
pub fn harmless(m: &Relations, (r, w, v): Bar) -> bool {
    m.before[v][w] || m.before[r][v] || m.before[r][w]
}

/// Whether there is a circle of happens-before and of what bars decide: with W before V by these, R comes before V, and with V
/// before R, V comes before W. Where there is none and yet no order, ways have to be tried.
pub fn decided(m: &Relations, bars: &[Bar]) -> bool {
    let n = m.x.events.len();
    let mut first = m.before.clone();
    loop {
        let known = first.clone();
        for &(r, w, v) in bars {
            first[r][v] |= first[w][v];
            first[v][w] |= first[v][r];
        }
        for b in 0..n {
            for a in 0..n {
                for c in 0..n {
                    first[a][c] |= first[a][b] && first[b][c];
                }
            }
        }
        if first == known {
            return (0..n).any(|e| first[e][e]);
        }
    }
}

/// What a sheet's answer shows of 02 §8, and of 02 §6: "the most events" are four inits and 18 others.
pub fn shown_why(c: &WhyCase, answer: &Why) -> Vec<&'static str> {
    let Ok(x) = read(&c.sheet) else { return vec![] };
    let m = Relations::of(&x);
    let needed = needed_scratch(&x);
    let most = x.inits() == MAX_INITS && x.others() == MAX_OTHERS;
    let mut all = vec![];
    let mut show = |what: &'static str, if_so: bool| {
        if if_so {
            all.push(what);
        }
    };
    match answer {
        Why::Sheet(Answer::Refused { number: 12, .. }) => {
            show("12 by one byte", c.scratch + 1 == needed);
            show("12, an empty scratch", c.scratch == 0);
            show("the most events, 12 by one byte", most && c.scratch + 1 == needed);
            match verdict(&x) {
                Answer::Broken { number: 26, .. } => {
                    show("12, and the buffer too short", c.bars < 3 * kept(&m, &all_bars(&m)).len());
                }
                Answer::Broken { .. } => show("12, of a sheet broken by 21 to 25", true),
                _ => show("12, of a consistent sheet", true),
            }
        }
        Why::Sheet(Answer::Refused { .. }) => {
            let short = 3 * kept(&m, &all_bars(&m)).len() - c.bars;
            show("16 by one byte", short == 1);
            show("16 by two bytes", short == 2);
            show("16 by three bytes", short == 3);
            show("16, an empty buffer", c.bars == 0);
            show("16, a scratch exactly enough", c.scratch == needed);
            show("the most events, 16 by one byte", most && short == 1);
        }
        Why::Sheet(Answer::Broken { .. }) => {
            show("broken by 21 to 25, an empty buffer", c.bars == 0);
            show("the most events, broken by 21 to 25", most);
        }
        Why::Sheet(Answer::Consistent { pair, .. }) => {
            show("consistent, an empty buffer", c.bars == 0);
            show("consistent, with bars", !all_bars(&m).is_empty());
            show("the most events, orderly", most && pair.is_none());
            show("the most events, unsettled", most && pair.is_some());
        }
        Why::Kept(list) => {
            let more = c.bars - 3 * list.len();
            show("kept, a buffer exactly enough", more == 0);
            show("kept, a buffer of one byte more", more == 1);
            show("kept, a buffer of two bytes more", more == 2);
            show("kept, a buffer of 200 bytes and more", c.bars >= 200);
            show("kept, a scratch exactly enough", c.scratch == needed);
            show("kept, a scratch of one byte more", c.scratch == needed + 1);
            show("the most events, kept", most);
            show("the most events, kept in a buffer exactly enough", most && more == 0);
            let (bars, orders) = (all_bars(&m), Orders::of(&m));
            which(&m, &orders, &bars, list, &mut show);
            of_what(&m, &orders, &bars, list, &mut show);
        }
    }
    all
}

type Show<'a> = &'a mut dyn FnMut(&'static str, bool);

/// Which bars are kept of all.
fn which(m: &Relations, orders: &Orders, bars: &[Bar], list: &[Bar], show: Show) {
    let is_kept = |bar: &Bar| list.contains(bar);
    let (first, last) = (bars[0], bars[bars.len() - 1]);
    show("all bars kept", bars == list);
    show("the first bar kept", is_kept(&first));
    show("the first bar dropped", !is_kept(&first));
    show("the last bar kept", is_kept(&last));
    show("the last bar dropped", !is_kept(&last));
    let between = |bar: &Bar| list[0] < *bar && *bar < list[list.len() - 1];
    show("a bar dropped between two kept", bars.iter().any(|bar| !is_kept(bar) && between(bar)));
    show("10 bars and more dropped", bars.len() >= list.len() + 10);
    show("20 bars and more", bars.len() >= 20);
    show("a harmless bar dropped", bars.iter().any(|&bar| !is_kept(&bar) && harmless(m, bar)));
    show("a harmful bar dropped", bars.iter().any(|&bar| !is_kept(&bar) && !harmless(m, bar)));
    let falling: Vec<Bar> = bars.iter().rev().copied().collect();
    let mut others = orders.kept(&falling);
    others.reverse();
    show("other bars kept from the last on", others != list);
    show("more bars kept from the last on", others.len() > list.len());
    show("fewer bars kept from the last on", others.len() < list.len());
}

/// What the kept bars come from.
fn of_what(m: &Relations, orders: &Orders, bars: &[Bar], list: &[Bar], show: Show) {
    let x = m.x;
    let reasons: Vec<[bool; 3]> = list.iter().map(|&bar| reasons_of(m, bar)).collect();
    let (a, b, c) = ([true, false, false], [false, true, false], [false, false, true]);
    show("kept by (a) alone", reasons.contains(&a));
    show("kept by (b) alone", reasons.contains(&b));
    show("kept by (c) alone", reasons.contains(&c));
    let no_init = |i: usize| reasons[i] == c && !x.events[list[i].1].is_init();
    show("kept by (c) alone, W is no init", (0..list.len()).any(no_init));
    show("kept by (a) and (b)", reasons.contains(&[true, true, false]));
    show("kept by (a) and (c)", reasons.contains(&[true, false, true]));
    show("every kept bar by (b) alone", reasons.iter().all(|r| *r == b));
    show("every kept bar by (c) alone", reasons.iter().all(|r| *r == c));
    show("no kept bar by (c)", reasons.iter().all(|r| !r[2]));
    // of all bars those by one of these reasons, with or without another
    let left_by = |of: [bool; 3]| {
        let part: Vec<Bar> =
            bars.iter().copied().filter(|&bar| reasons_of(m, bar).iter().zip(of).any(|(r, o)| *r && o)).collect();
        orders.left_by(&part)
    };
    show("no order by (a) alone", !left_by(a));
    show("no order by (b) alone", !left_by(b));
    show("no order by (c) alone", !left_by(c));
    let all_three = left_by([false, true, true]) && left_by([true, false, true]) && left_by([true, true, false]);
    show("no order, one only by (a), (b) and (c) together", all_three);

    show("no order, and no bar decided by the others", !decided(m, bars));
    let apart = |e: usize, d: usize| !m.before[e][d] && !m.before[d][e];
    show("kept, R and V in no order", list.iter().any(|&(r, _, v)| apart(r, v)));
    show("kept, W and V in no order", list.iter().any(|&(_, w, v)| apart(w, v)));
    let neither = list.iter().any(|&(r, w, v)| apart(r, v) && apart(w, v));
    show("kept, neither R and V nor W and V in any order", neither);
    let both = |e: usize| x.events[e].accesses.iter().any(|access| access.reads() && access.writes());
    show("kept, R is a read-modify-write", list.iter().any(|bar| both(bar.0)));
    show("kept, W is a read-modify-write", list.iter().any(|bar| both(bar.1)));
    show("kept, V is a read-modify-write", list.iter().any(|bar| both(bar.2)));
    let rows = |&(r, w, _): &Bar| x.rows.iter().filter(|row| (row.reader, row.writer) == (r, w)).count();
    show("kept, R and W have several rows", list.iter().any(|bar| rows(bar) > 1));
    let two = |same: fn(&Bar, &Bar) -> bool| list.windows(2).any(|pair| same(&pair[0], &pair[1]));
    show("kept, of one R several W", two(|p, q| p.0 == q.0 && p.1 != q.1));
    show("kept, of one R and W several V", two(|p, q| p.0 == q.0 && p.1 == q.1));
    show("kept, event 20 or 21", list.iter().any(|&(r, w, v)| r.max(w).max(v) >= 20));
}

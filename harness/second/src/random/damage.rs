//! Sheets damaged in every way that document 01 and 02 §4 refuse.

use super::*;

/// The tear byte in the value of an edition 2 event.
const TEAR: usize = 5;

type Make = fn(&mut Rng, Vec<Field>) -> Option<(Vec<u8>, usize)>;

/// A way to earn a refusal. `make` gives the bytes and the place, or nothing if these fields do not lend themselves.
pub struct Way {
    pub number: u8,
    pub name: &'static str,
    pub make: Make,
}

const fn way(number: u8, name: &'static str, make: Make) -> Way {
    Way { number, name, make }
}

/// A sheet damaged this way, and the place of its refusal.
pub fn damaged(rng: &mut Rng, way: &Way, max: usize) -> Option<(Vec<u8>, usize)> {
    (0..2000).find_map(|i| {
        // some ways need more room than a few events give
        let fields = whole(rng, if i < 200 { max } else { MAX_OTHERS }).1;
        (way.make)(rng, fields)
    })
}

/// One of the fields that pass the test.
fn one(rng: &mut Rng, fields: &[Field], test: impl Fn(&Field) -> bool) -> Option<usize> {
    let fit: Vec<usize> = (0..fields.len()).filter(|&i| test(&fields[i])).collect();
    (!fit.is_empty()).then(|| rng.pick(&fit))
}

fn is_event(f: &Field) -> bool {
    f.tag == 2
}
fn is_init(f: &Field) -> bool {
    f.tag == 2 && f.value[2] == 0
}
fn is_other(f: &Field) -> bool {
    f.tag == 2 && f.value[2] != 0
}
fn is_marker(f: &Field) -> bool {
    f.tag == 2 && f.value[1] == MARKER
}
/// A read, write or read-modify-write.
fn is_access(f: &Field) -> bool {
    is_other(f) && !is_marker(f)
}
fn is_row(f: &Field) -> bool {
    f.tag == 3
}
fn events(fields: &[Field]) -> usize {
    fields.iter().filter(|f| is_event(f)).count()
}
/// The field of an event: the head stands before them.
fn event(fields: &[Field], number: u8) -> &Field {
    &fields[1 + number as usize]
}
fn size(fields: &[Field]) -> u8 {
    fields[0].value[2]
}
fn agents(fields: &[Field]) -> u8 {
    fields[0].value[1]
}
fn edition(fields: &[Field]) -> u8 {
    fields[0].value[0]
}
/// Where an event's data begins.
fn front(fields: &[Field]) -> usize {
    before_data(edition(fields))
}
/// One of the events that pass the test, in a sheet of edition 2.
fn one_of_2(rng: &mut Rng, fields: &[Field], test: impl Fn(&Field) -> bool) -> Option<usize> {
    if edition(fields) != 2 {
        return None;
    }
    one(rng, fields, |f| is_event(f) && test(f))
}
/// An unordered read or write whose tear byte must be 0.
fn must_tear(f: &Field) -> bool {
    is_access(f) && f.value[2] == U && tear_by_the_rule(f.value[1], U, f.value[3], f.value[4]) == 0
}
/// A tear byte that the field's event must not have.
fn wrong_tear(rng: &mut Rng, f: &Field) -> u8 {
    let high = rng.pick(&[2, 3, 128, 254, 255]);
    match (is_access(f), f.value[2]) {
        (true, SC) => rng.pick(&[0, 0, high]),
        (true, _) if !must_tear(f) => high,
        _ => rng.pick(&[1, 1, high]),
    }
}
/// A whole event for these fields' edition, one that is tear-free where it may be.
fn an_event(fields: &[Field], front: [u8; 5], data: &[u8]) -> Field {
    let [_, kind, mode, start, width] = front;
    field(2, event_value(edition(fields), front, tear_by_the_rule(kind, mode, start, width), data))
}

/// The fields with number `i` at fault.
fn at(fields: Vec<Field>, i: usize) -> Option<(Vec<u8>, usize)> {
    Some((bytes(&fields), place(&fields, i)))
}

/// A byte of a field's value set; the field is at fault.
fn set(mut fields: Vec<Field>, i: Option<usize>, item: usize, to: u8) -> Option<(Vec<u8>, usize)> {
    let i = i?;
    if fields[i].value[item] == to {
        return None;
    }
    fields[i].value[item] = to;
    at(fields, i)
}

/// A length from 0 to 12 other than this one.
fn odd_length(rng: &mut Rng, not: usize) -> usize {
    loop {
        let n = rng.below(13);
        if n != not {
            return n;
        }
    }
}

fn resized(rng: &mut Rng, fields: &mut [Field], i: usize, length: usize) {
    let f = &mut fields[i];
    f.value.resize_with(length, || rng.below(3) as u8);
    f.length = length;
}

/// The field at fault put in at number `i`.
fn put(mut fields: Vec<Field>, i: usize, f: Field) -> Option<(Vec<u8>, usize)> {
    fields.insert(i, f);
    at(fields, i)
}

/// Where a further event would stand: after the last.
fn after_events(fields: &[Field]) -> usize {
    1 + events(fields)
}

/// Fields with twelve markers of three agents, and as many pairs, of either edition.
fn many_pairs(rng: &mut Rng, pairs: usize) -> Vec<Field> {
    let mut fields = vec![field(1, vec![rng.range(1, 2) as u8, 3, 1])];
    fields.push(an_event(&fields, [0, WRITE, 0, 0, 1], &[0]));
    for i in 0..12u8 {
        fields.push(an_event(&fields, [1 + i % 3, MARKER, SC, 0, 0], &[]));
    }
    fields.push(an_event(&fields, [1, READ, U, 0, 1], &[0]));
    fields.push(field(3, vec![13, 0, 0]));
    let mut all: Vec<[u8; 2]> = vec![];
    for a in 0..12u8 {
        for b in a + 1..12 {
            if a % 3 != b % 3 {
                all.push([a + 1, b + 1]);
            }
        }
    }
    rng.shuffle(&mut all);
    all.truncate(pairs);
    all.sort();
    fields.extend(all.into_iter().map(|p| field(4, p.to_vec())));
    fields
}

/// Writes added until there are `n` events that are not inits.
fn with_others(rng: &mut Rng, mut fields: Vec<Field>, n: usize) -> Vec<Field> {
    while fields.iter().filter(|f| is_other(f)).count() < n {
        let i = after_events(&fields);
        let agent = rng.range(1, agents(&fields) as usize) as u8;
        let start = rng.below(size(&fields) as usize) as u8;
        fields.insert(i, an_event(&fields, [agent, WRITE, U, start, 1], &[7]));
    }
    fields
}

/// The fields without the events of an agent: its log is lost, and so are the rows and pairs that name one of them. Events
/// are numbered anew.
fn without_agent(fields: &[Field], agent: u8) -> Vec<Field> {
    let kept: Vec<u8> = (0..events(fields) as u8).filter(|&e| event(fields, e).value[0] != agent).collect();
    let anew = |e: u8| kept.iter().position(|&k| k == e).map(|i| i as u8);
    let mut left = vec![];
    for f in fields {
        let mut f = f.clone();
        // where a row and a pair name events
        let names: &[usize] = match f.tag {
            3 => &[0, 2],
            4 => &[0, 1],
            _ => &[],
        };
        if is_event(&f) && f.value[0] == agent || names.iter().any(|&i| anew(f.value[i]).is_none()) {
            continue;
        }
        names.iter().for_each(|&i| f.value[i] = anew(f.value[i]).unwrap());
        left.push(f);
    }
    left
}

/// A sheet at fault as a whole: the place is its length.
fn at_the_end(fields: Vec<Field>) -> Option<(Vec<u8>, usize)> {
    let sheet = bytes(&fields);
    let length = sheet.len();
    Some((sheet, length))
}

/// Every way to earn each of 1 to 11, and 14.
pub const WAYS: &[Way] = &[
    way(1, "over-long", |rng, fields| {
        let mut sheet = bytes(&fields);
        let length = MAX_SHEET + if rng.percent(50) { 1 } else { rng.range(1, 300) };
        let noise = rng.percent(20);
        sheet.resize_with(length, || if noise { rng.byte() } else { 0 });
        Some((sheet, 0))
    }),
    way(2, "header-cut", |rng, fields| {
        let i = rng.below(fields.len());
        let mut sheet = bytes(&fields[..i]);
        let p = sheet.len();
        // whatever the tag: the header's length is tested before it
        let tag = if rng.percent(50) { fields[i].tag } else { rng.byte() };
        sheet.push(tag);
        if rng.percent(50) {
            sheet.push(rng.below(2) as u8);
        }
        Some((sheet, p))
    }),
    way(2, "value-cut", |rng, fields| {
        let i = rng.below(fields.len());
        let p = place(&fields, i);
        let mut sheet = bytes(&fields);
        sheet.truncate(p + 3 + rng.below(fields[i].value.len()));
        Some((sheet, p))
    }),
    way(2, "length-past-end", |rng, mut fields| {
        let i = rng.below(fields.len());
        let rest = bytes(&fields[i..]).len() - 3;
        fields[i].length = if rng.percent(50) { rest + 1 } else { rng.range(rest + 1, 65535) };
        at(fields, i)
    }),
    way(3, "empty", |_, _| Some((vec![], 0))),
    way(3, "tag-zero", |rng, mut fields| {
        let i = rng.below(fields.len());
        fields[i].tag = 0;
        at(fields, i)
    }),
    way(3, "tag-unknown", |rng, mut fields| {
        let i = rng.below(fields.len());
        fields[i].tag = if rng.percent(50) { 5 } else { rng.range(5, 255) as u8 };
        // the tag is tested before the value's end
        if rng.percent(30) {
            fields[i].length = 65535;
        }
        at(fields, i)
    }),
    way(3, "event-after-row", |rng, fields| {
        let last = fields.len();
        let f = an_event(&fields, [1, WRITE, U, 0, 1], &[5]);
        let i = rng.range(2 + events(&fields), last);
        put(fields, i, f)
    }),
    way(3, "row-after-pair", |rng, fields| {
        let i = one(rng, &fields, |f| f.tag == 4)? + 1;
        let f = fields[one(rng, &fields, is_row)?].clone();
        put(fields, i, f)
    }),
    way(3, "second-head", |rng, fields| {
        let f = fields[0].clone();
        let i = rng.range(1, fields.len());
        put(fields, i, f)
    }),
    way(3, "no-head", |rng, mut fields| {
        let i = one(rng, &fields, |f| f.tag != 1)?;
        fields.drain(..i);
        at(fields, 0)
    }),
    way(4, "head", |rng, mut fields| {
        let length = odd_length(rng, 3);
        resized(rng, &mut fields, 0, length);
        at(fields, 0)
    }),
    way(4, "event-under-five", |rng, mut fields| {
        let i = one(rng, &fields, is_event)?;
        let length = rng.below(5);
        resized(rng, &mut fields, i, length);
        at(fields, i)
    }),
    way(4, "event-under-six", |rng, mut fields| {
        let i = one_of_2(rng, &fields, |_| true)?;
        fields[i].value.truncate(5);
        fields[i].length = 5;
        // before its content
        let item = rng.below(5);
        if rng.percent(30) {
            fields[i].value[item] = rng.byte();
        }
        at(fields, i)
    }),
    way(4, "event-data-short", |rng, mut fields| {
        let i = one(rng, &fields, |f| is_event(f) && !is_marker(f))?;
        let length = rng.range(front(&fields), fields[i].value.len() - 1);
        resized(rng, &mut fields, i, length);
        at(fields, i)
    }),
    way(4, "event-data-long", |rng, mut fields| {
        let i = one(rng, &fields, |f| is_event(f) && !is_marker(f))?;
        let length = fields[i].value.len() + rng.range(1, 9);
        resized(rng, &mut fields, i, length);
        at(fields, i)
    }),
    way(4, "write-with-data-of-rmw", |rng, mut fields| {
        let i = one(rng, &fields, |f| is_access(f) && f.value[1] != RMW)?;
        let length = front(&fields) + 2 * fields[i].value[4] as usize;
        resized(rng, &mut fields, i, length);
        at(fields, i)
    }),
    way(4, "marker-with-data", |rng, mut fields| {
        let i = one(rng, &fields, is_marker)?;
        let length = front(&fields) + rng.range(1, 4);
        resized(rng, &mut fields, i, length);
        at(fields, i)
    }),
    way(4, "row", |rng, mut fields| {
        let i = one(rng, &fields, is_row)?;
        let length = odd_length(rng, 3);
        resized(rng, &mut fields, i, length);
        at(fields, i)
    }),
    way(4, "pair", |rng, mut fields| {
        if one(rng, &fields, |f| f.tag == 4).is_none() {
            fields.push(field(4, vec![0, 0]));
        }
        let i = one(rng, &fields, |f| f.tag == 4)?;
        let length = odd_length(rng, 2);
        resized(rng, &mut fields, i, length);
        at(fields, i)
    }),
    way(4, "fifth-init-of-wrong-length", |rng, fields| {
        five_inits(rng, fields, |f| {
            f.value.push(0);
            f.length += 1;
        })
    }),
    way(4, "19th-event-of-wrong-length", |rng, fields| {
        let fields = with_others(rng, fields, MAX_OTHERS);
        let i = after_events(&fields);
        let f = an_event(&fields, [1, WRITE, U, 0, 1], &[7, 7]);
        put(fields, i, f)
    }),
    way(5, "edition", |rng, fields| {
        let to = rng.pick(&[0, 3, 3, 4, 255, 128]);
        set(fields, Some(0), 0, to)
    }),
    way(5, "agents", |rng, fields| {
        let to = rng.pick(&[0, 9, 10, 255]);
        set(fields, Some(0), 1, to)
    }),
    way(5, "size", |rng, fields| {
        let to = rng.pick(&[0, 65, 66, 128, 255]);
        set(fields, Some(0), 2, to)
    }),
    way(6, "kind", |rng, fields| {
        let i = one(rng, &fields, is_event);
        let to = rng.pick(&[0, 5, 6, 255]);
        set(fields, i, 1, to)
    }),
    way(6, "mode", |rng, fields| {
        let i = one(rng, &fields, is_event);
        let to = rng.pick(&[3, 4, 255]);
        set(fields, i, 2, to)
    }),
    way(6, "agent-over-count", |rng, fields| {
        let i = one(rng, &fields, is_other);
        let to = if rng.percent(50) { agents(&fields) + 1 } else { 255 };
        set(fields, i, 0, to)
    }),
    way(6, "agent-zero", |rng, fields| {
        let i = one(rng, &fields, is_other);
        set(fields, i, 0, 0)
    }),
    way(6, "mode-zero", |rng, fields| {
        let i = one(rng, &fields, is_other);
        set(fields, i, 2, 0)
    }),
    way(6, "init-agent", |rng, fields| {
        let i = one(rng, &fields, is_init);
        let to = rng.pick(&[1, 1, 255]);
        set(fields, i, 0, to)
    }),
    way(6, "init-kind", |rng, mut fields| {
        let i = one(rng, &fields, is_init)?;
        let to = rng.pick(&[READ, RMW, MARKER]);
        if to == RMW {
            let length = front(&fields) + 2 * fields[i].value[4] as usize;
            resized(rng, &mut fields, i, length);
        }
        set(fields, Some(i), 1, to)
    }),
    way(6, "init-mode", |rng, fields| {
        let i = one(rng, &fields, is_init);
        let to = rng.pick(&[1, 2]);
        set(fields, i, 2, to)
    }),
    way(6, "init-width-zero", |rng, mut fields| {
        let i = one(rng, &fields, is_init)?;
        let length = front(&fields);
        resized(rng, &mut fields, i, length);
        set(fields, Some(i), 4, 0)
    }),
    way(6, "init-past-memory", |rng, mut fields| {
        let i = one(rng, &fields, is_init)?;
        let width = size(&fields) - fields[i].value[3] + 1;
        let length = front(&fields) + width as usize;
        resized(rng, &mut fields, i, length);
        set(fields, Some(i), 4, width)
    }),
    way(6, "init-late", |rng, mut fields| {
        let i = one(rng, &fields, is_init)?;
        let f = fields.remove(i);
        let to = one(rng, &fields, is_other)? + 1;
        put(fields, to, f)
    }),
    way(6, "init-overlaps", |rng, fields| {
        let i = one(rng, &fields, is_init)?;
        let f = &fields[i].value;
        let start = rng.range(f[3] as usize, (f[3] + f[4]) as usize - 1) as u8;
        let width = rng.range(1, (size(&fields) - start) as usize);
        let overlapping = an_event(&fields, [0, WRITE, 0, start, width as u8], &vec![0; width]);
        let inits = fields.iter().filter(|f| is_init(f)).count();
        put(fields, 1 + inits, overlapping)
    }),
    way(6, "fifth-init-overlaps", |rng, fields| five_inits(rng, fields, |f| f.value[3] = 0)),
    way(6, "width", |rng, mut fields| {
        let i = one(rng, &fields, is_access)?;
        let to = rng.pick(&[0, 3, 5, 6, 7, 9, 16, 255]);
        if rng.percent(50) {
            let data = to as usize * if fields[i].value[1] == RMW { 2 } else { 1 };
            let length = front(&fields) + data;
            resized(rng, &mut fields, i, length);
        }
        set(fields, Some(i), 4, to)
    }),
    way(6, "rmw-unordered", |rng, fields| {
        let i = one(rng, &fields, |f| is_access(f) && f.value[1] == RMW);
        set(fields, i, 2, U)
    }),
    way(6, "sc-start", |rng, fields| {
        let s = size(&fields);
        let i = one(rng, &fields, |f| is_access(f) && f.value[2] == SC && f.value[4] > 1 && f.value[4] < s)?;
        let width = fields[i].value[4];
        let to = rng.range(0, (s - width) as usize) as u8;
        if to.is_multiple_of(width) {
            return None;
        }
        set(fields, Some(i), 3, to)
    }),
    way(6, "past-memory", |rng, fields| {
        let i = one(rng, &fields, is_access)?;
        let s = size(&fields);
        let to = if rng.percent(60) { s - fields[i].value[4] + 1 } else { rng.pick(&[s, 128, 248, 255]) };
        set(fields, Some(i), 3, to)
    }),
    way(6, "marker-mode", |rng, fields| {
        let i = one(rng, &fields, is_marker);
        let to = rng.pick(&[0, 1]);
        set(fields, i, 2, to)
    }),
    way(6, "marker-start", |rng, fields| {
        let i = one(rng, &fields, is_marker);
        let to = rng.range(1, size(&fields) as usize) as u8;
        set(fields, i, 3, to)
    }),
    way(6, "marker-width", |rng, mut fields| {
        let i = one(rng, &fields, is_marker)?;
        if rng.percent(50) {
            let length = front(&fields) + 1;
            resized(rng, &mut fields, i, length);
        }
        set(fields, Some(i), 4, 1)
    }),
    way(6, "content-before-length", |rng, mut fields| {
        let i = one(rng, &fields, is_event)?;
        let length = fields[i].value.len() + 1;
        resized(rng, &mut fields, i, length);
        set(fields, Some(i), 1, 5)
    }),
    way(6, "19th-event-of-bad-content", |rng, fields| {
        let fields = with_others(rng, fields, MAX_OTHERS);
        let i = after_events(&fields);
        let f = an_event(&fields, [0, WRITE, U, 0, 1], &[7]);
        put(fields, i, f)
    }),
    way(6, "tear-over-one", |rng, fields| {
        let i = one_of_2(rng, &fields, |_| true);
        let to = rng.pick(&[2, 3, 128, 254, 255]);
        set(fields, Some(i?), TEAR, to)
    }),
    way(6, "sc-may-tear", |rng, fields| {
        let i = one_of_2(rng, &fields, |f| is_access(f) && f.value[2] == SC);
        set(fields, Some(i?), TEAR, 0)
    }),
    way(6, "width-8-tear-free", |rng, fields| {
        let i = one_of_2(rng, &fields, |f| must_tear(f) && f.value[4] == 8);
        set(fields, Some(i?), TEAR, 1)
    }),
    way(6, "odd-start-tear-free", |rng, fields| {
        let i = one_of_2(rng, &fields, |f| must_tear(f) && f.value[4] < 8);
        set(fields, Some(i?), TEAR, 1)
    }),
    way(6, "marker-tear-free", |rng, fields| {
        let i = one_of_2(rng, &fields, is_marker);
        set(fields, Some(i?), TEAR, 1)
    }),
    way(6, "init-tear-free", |rng, fields| {
        let i = one_of_2(rng, &fields, is_init);
        set(fields, Some(i?), TEAR, 1)
    }),
    way(6, "tear-before-length", |rng, mut fields| {
        let i = one_of_2(rng, &fields, |_| true)?;
        fields[i].value[TEAR] = wrong_tear(rng, &fields[i]);
        let was = fields[i].value.len();
        let length = if was > 6 && rng.percent(50) { rng.range(6, was - 1) } else { was + rng.range(1, 9) };
        resized(rng, &mut fields, i, length);
        at(fields, i)
    }),
    way(6, "19th-event-of-wrong-tear", |rng, fields| {
        if edition(&fields) != 2 {
            return None;
        }
        let fields = with_others(rng, fields, MAX_OTHERS);
        let i = after_events(&fields);
        let front = if rng.percent(50) { [1, WRITE, U, 0, 1] } else { [1, MARKER, SC, 0, 0] };
        let mut f = an_event(&fields, front, &[7][..front[4] as usize]);
        f.value[TEAR] = wrong_tear(rng, &f);
        put(fields, i, f)
    }),
    way(6, "fifth-init-of-wrong-tear", |rng, fields| {
        if edition(&fields) != 2 {
            return None;
        }
        five_inits(rng, fields, |f| f.value[TEAR] = 1)
    }),
    way(7, "reader-out-of-range", |rng, fields| {
        let i = one(rng, &fields, is_row);
        let to = if rng.percent(70) { events(&fields) as u8 } else { 255 };
        set(fields, i, 0, to)
    }),
    way(7, "reader-does-not-read", |rng, fields| {
        let i = one(rng, &fields, is_row);
        let e = one(rng, &fields, |f| is_event(f) && !reads(f.value[1]))?;
        set(fields, i, 0, e as u8 - 1)
    }),
    way(7, "address-off-reader", |rng, fields| {
        let i = one(rng, &fields, is_row)?;
        let reader = &event(&fields, fields[i].value[0]).value;
        let (start, end) = (reader[3], reader[3] + reader[4]);
        let to = if rng.percent(50) { end } else { start.wrapping_sub(1) };
        set(fields, Some(i), 1, to)
    }),
    way(7, "writer-out-of-range", |rng, fields| {
        let i = one(rng, &fields, is_row);
        let to = if rng.percent(70) { events(&fields) as u8 } else { 255 };
        set(fields, i, 2, to)
    }),
    way(7, "writer-does-not-write", |rng, fields| {
        let i = one(rng, &fields, is_row)?;
        let a = fields[i].value[1];
        // mostly one that covers the address
        let cover = rng.percent(60);
        let e = one(rng, &fields, |f| {
            is_event(f) && !writes(f.value[1]) && (!cover || (f.value[3] <= a && a < f.value[3] + f.value[4]))
        })?;
        set(fields, Some(i), 2, e as u8 - 1)
    }),
    way(7, "address-off-writer", |rng, fields| {
        let i = one(rng, &fields, is_row)?;
        let a = fields[i].value[1];
        let e = one(rng, &fields, |f| {
            is_event(f) && writes(f.value[1]) && !(f.value[3] <= a && a < f.value[3] + f.value[4])
        })?;
        set(fields, Some(i), 2, e as u8 - 1)
    }),
    way(7, "writer-is-reader", |rng, fields| {
        let rmw: Vec<usize> = (0..fields.len())
            .filter(|&i| is_row(&fields[i]) && event(&fields, fields[i].value[0]).value[1] == RMW)
            .collect();
        if rmw.is_empty() {
            return None;
        }
        let i = rng.pick(&rmw);
        let to = fields[i].value[0];
        set(fields, Some(i), 2, to)
    }),
    way(7, "row-twice", |rng, fields| {
        let i = one(rng, &fields, is_row)?;
        let f = fields[i].clone();
        put(fields, i + 1, f)
    }),
    way(7, "rows-fall", |rng, mut fields| {
        let rows: Vec<usize> = (0..fields.len()).filter(|&i| is_row(&fields[i])).collect();
        if rows.len() < 2 {
            return None;
        }
        let i = rng.pick(&rows[1..]);
        fields.swap(i - 1, i);
        at(fields, i)
    }),
    way(7, "row-after-head", |rng, mut fields| {
        fields.truncate(1);
        let value = (0..3).map(|_| rng.below(2) as u8).collect();
        put(fields, 1, field(3, value))
    }),
    way(8, "out-of-range", |rng, mut fields| {
        fields.retain(|f| f.tag != 4);
        let m = one(rng, &fields, is_marker)? as u8 - 1;
        let out = if rng.percent(70) { events(&fields) as u8 } else { 255 };
        let value = if rng.percent(50) { vec![m, out] } else { vec![out, m] };
        let last = fields.len();
        put(fields, last, field(4, value))
    }),
    way(8, "no-marker", |rng, mut fields| {
        fields.retain(|f| f.tag != 4);
        let m = one(rng, &fields, is_marker)?;
        let other = fields[m].value[0];
        let e = one(rng, &fields, |f| is_access(f) && f.value[0] != other)? as u8 - 1;
        let m = m as u8 - 1;
        let value = if rng.percent(50) { vec![m, e] } else { vec![e, m] };
        let last = fields.len();
        put(fields, last, field(4, value))
    }),
    way(8, "same-agent", |rng, mut fields| {
        fields.retain(|f| f.tag != 4);
        let m = one(rng, &fields, is_marker)?;
        let agent = fields[m].value[0];
        let k = one(rng, &fields, |f| is_marker(f) && f.value[0] == agent)?;
        let last = fields.len();
        put(fields, last, field(4, vec![m as u8 - 1, k as u8 - 1]))
    }),
    way(8, "pair-twice", |rng, fields| {
        let i = one(rng, &fields, |f| f.tag == 4)?;
        let f = fields[i].clone();
        put(fields, i + 1, f)
    }),
    way(8, "pairs-fall", |rng, mut fields| {
        let i = one(rng, &fields, |f| f.tag == 4)?;
        if i + 1 == fields.len() {
            return None;
        }
        fields.swap(i, i + 1);
        at(fields, i + 1)
    }),
    way(8, "33rd-pair-of-bad-content", |rng, _| {
        let mut fields = many_pairs(rng, MAX_PAIRS);
        let last = fields.len();
        fields.push(field(4, vec![13, 13]));
        at(fields, last)
    }),
    way(8, "pair-after-head", |rng, mut fields| {
        fields.truncate(1);
        let value = (0..2).map(|_| rng.below(2) as u8).collect();
        put(fields, 1, field(4, value))
    }),
    way(9, "fifth-init", |rng, fields| five_inits(rng, fields, |_| {})),
    way(9, "19th-event", |rng, fields| {
        let fields = with_others(rng, fields, MAX_OTHERS);
        let i = after_events(&fields);
        let f = match rng.percent(50) {
            true => an_event(&fields, [1, WRITE, U, 0, 1], &[7]),
            false => an_event(&fields, [1, MARKER, SC, 0, 0], &[]),
        };
        put(fields, i, f)
    }),
    way(9, "33rd-pair", |rng, _| {
        let over = rng.range(1, 6);
        let fields = many_pairs(rng, MAX_PAIRS + over);
        let first = fields.iter().position(|f| f.tag == 4)?;
        at(fields, first + MAX_PAIRS)
    }),
    way(10, "no-reads", |rng, mut fields| {
        fields.retain(|f| f.tag <= 2);
        if rng.percent(20) {
            fields.retain(|f| f.tag == 1 || is_init(f) || is_marker(f));
        }
        let front = front(&fields);
        for f in &mut fields[1..] {
            if f.value[1] == RMW {
                f.value.truncate(front + f.value[4] as usize);
                f.length = f.value.len();
            }
            if reads(f.value[1]) {
                f.value[1] = WRITE;
            }
        }
        at_the_end(fields)
    }),
    way(10, "head-alone", |_, mut fields| {
        fields.truncate(1);
        at_the_end(fields)
    }),
    way(11, "row-missing", |rng, mut fields| {
        let i = one(rng, &fields, is_row)?;
        let reader = fields.remove(i).value[0];
        at(fields, 1 + reader as usize)
    }),
    way(11, "rows-of-a-read-missing", |rng, mut fields| {
        let i = one(rng, &fields, is_row)?;
        let reader = fields[i].value[0];
        fields.retain(|f| !is_row(f) || f.value[0] != reader);
        at(fields, 1 + reader as usize)
    }),
    way(11, "all-rows-missing", |_, mut fields| {
        let reader = fields.iter().find(|f| is_row(f))?.value[0];
        fields.retain(|f| !is_row(f));
        at(fields, 1 + reader as usize)
    }),
    way(14, "agent-promised", |rng, mut fields| {
        let agents = agents(&fields);
        if agents == 8 {
            return None;
        }
        fields[0].value[1] = rng.range(agents as usize + 1, 8) as u8;
        // 14 before 11
        if rng.percent(30) {
            let i = one(rng, &fields, is_row)?;
            fields.remove(i);
        }
        at_the_end(fields)
    }),
    way(14, "log-lost", |rng, fields| {
        let agent = rng.range(1, agents(&fields) as usize) as u8;
        let fields = without_agent(&fields, agent);
        if !fields.iter().any(|f| is_event(f) && reads(f.value[1])) {
            return None;
        }
        at_the_end(fields)
    }),
    way(14, "events-of-another", |rng, mut fields| {
        let agents = agents(&fields) as usize;
        if agents == 1 {
            return None;
        }
        let (from, to) = (rng.range(1, agents) as u8, rng.range(1, agents) as u8);
        if from == to {
            return None;
        }
        fields.retain(|f| f.tag != 4);
        for f in fields.iter_mut().filter(|f| is_event(f) && f.value[0] == from) {
            f.value[0] = to;
        }
        at_the_end(fields)
    }),
    way(10, "no-reads-and-an-agent-missing", |rng, mut fields| {
        fields.retain(|f| f.tag == 1 || is_event(f) && !reads(f.value[1]));
        fields[0].value[1] = rng.range(agents(&fields) as usize, 8) as u8;
        at_the_end(fields)
    }),
];

/// Five inits of a byte each in place of the sheet's own, the fifth changed; it is at fault.
fn five_inits(rng: &mut Rng, mut fields: Vec<Field>, change: fn(&mut Field)) -> Option<(Vec<u8>, usize)> {
    if size(&fields) < 5 {
        return None;
    }
    fields.retain(|f| !is_init(f));
    let gap = rng.below(size(&fields) as usize / 5);
    for i in 0..5u8 {
        let start = i * (1 + gap as u8);
        fields.insert(1 + i as usize, an_event(&fields, [0, WRITE, 0, start, 1], &[0]));
    }
    change(&mut fields[5]);
    at(fields, 5)
}

/// A sheet whose edition, or an event of it, is laid out as the other edition has it.
pub(super) fn other_edition(rng: &mut Rng, mut fields: Vec<Field>, sheet: &mut Vec<u8>) -> &'static str {
    let e = edition(&fields);
    let some = one(rng, &fields, is_event).filter(|_| rng.percent(60));
    let name = match some {
        None => {
            fields[0].value[0] = 3 - e;
            "other-edition"
        }
        Some(i) if e == 2 => {
            fields[i].value.remove(TEAR);
            fields[i].length -= 1;
            "tear-byte-lost"
        }
        Some(i) => {
            fields[i].value.insert(TEAR, rng.below(3) as u8);
            fields[i].length += 1;
            "tear-byte-more"
        }
    };
    *sheet = bytes(&fields);
    name
}

/// Bytes changed without regard to fields.
pub(super) fn scramble(rng: &mut Rng, sheet: &mut Vec<u8>) -> &'static str {
    let some = |rng: &mut Rng, sheet: &[u8]| rng.below(sheet.len());
    match rng.below(41) {
        // as long as a sheet may be
        40 => {
            sheet.resize(MAX_SHEET, 0);
            "filled"
        }
        0..=4 => {
            let i = some(rng, sheet);
            sheet.truncate(i);
            "cut"
        }
        5..=9 => {
            let i = some(rng, sheet);
            sheet.remove(i);
            "byte-lost"
        }
        10..=14 => {
            let i = some(rng, sheet);
            let b = rng.below(6) as u8;
            sheet.insert(i, b);
            "byte-more"
        }
        15..=19 => {
            let length = rng.below(40);
            *sheet = (0..length).map(|_| if rng.percent(70) { rng.below(5) as u8 } else { rng.byte() }).collect();
            "noise"
        }
        20..=24 => {
            let tail = rng.range(1, 6);
            for _ in 0..tail {
                let b = rng.below(5) as u8;
                sheet.push(b);
            }
            "tail"
        }
        25..=29 => {
            let i = some(rng, sheet);
            sheet[i] ^= 1 << rng.below(8);
            "bit"
        }
        _ => {
            for _ in 0..rng.range(1, 3) {
                let i = some(rng, sheet);
                sheet[i] = if rng.percent(70) { rng.below(6) as u8 } else { rng.byte() };
            }
            "bytes"
        }
    }
}

//! What a sheet shows of 02 §4, and a table for the writer, so that a run of random ones can count it: the tests of an event
//! with its tear byte, and rule 25 by the tear bytes. And what a sheet with as many events as there can be shows (02 §6).

use super::*;
use crate::judge::Relations;
use crate::table::{lists, write, Lent, Tabled, Written};
use crate::Answer;

/// All that [`shown`] can say. A run of random sheets must have seen each.
pub const SHOWN: &[&str] = &[
    "4 for a value of five bytes",
    "5 for edition 0",
    "5 for edition 3",
    "6 by the tear byte 0",
    "6 by the tear byte 1",
    "6 by a tear byte over 1",
    "6 by a tear byte, of an sc event",
    "6 by a tear byte, of width 8",
    "6 by a tear byte, start not divisible",
    "6 by a tear byte, of an init",
    "6 by a tear byte, of a marker",
    "6 by a tear byte, before 4",
    "6 by a tear byte, before 9",
    "25 at edition 2",
    "25 of others than by 01's rule",
    "no 25, the reader may tear",
    "no 25, a writer may tear",
    "consistent, by 01's rule 25",
];

/// The field at this place, if one begins there and is whole.
fn value_at(sheet: &[u8], place: usize) -> Option<&[u8]> {
    let [_, high, low, rest @ ..] = sheet.get(place..)? else { return None };
    rest.get(..*high as usize * 256 + *low as usize)
}

/// What the sheet's answer shows of 02 §4.
pub fn shown(sheet: &[u8], answer: &Answer) -> Vec<&'static str> {
    let edition = match sheet {
        [1, 0, 3, edition, ..] => *edition,
        _ => return vec![],
    };
    match *answer {
        Answer::Refused { number: 5, .. } if edition == 0 => vec!["5 for edition 0"],
        Answer::Refused { number: 5, .. } if edition == 3 => vec!["5 for edition 3"],
        _ if edition != 2 => vec![],
        Answer::Refused { number: 4, place } => match value_at(sheet, place) {
            Some([_, _, _, _, _]) if sheet[place] == 2 => vec!["4 for a value of five bytes"],
            _ => vec![],
        },
        Answer::Refused { number: 6, place } => by_tear_byte(sheet, place),
        Answer::Refused { .. } => vec![],
        _ => by_rule_25(sheet, answer),
    }
}

/// For an event that is refused 6: whether another tear byte alone would have it pass, and what would come then.
fn by_tear_byte(sheet: &[u8], place: usize) -> Vec<&'static str> {
    let Some(&[_, kind, mode, _, width, tear, ..]) = value_at(sheet, place) else { return vec![] };
    let with = |byte: u8| {
        let mut changed = sheet.to_vec();
        changed[place + 3 + 5] = byte;
        read(&changed).err()
    };
    let Some(then) = [0, 1].map(with).into_iter().find(|then| *then != Some((6, place))) else { return vec![] };
    let mut all = vec![match tear {
        0 => "6 by the tear byte 0",
        1 => "6 by the tear byte 1",
        _ => "6 by a tear byte over 1",
    }];
    all.push(match (kind, mode, width) {
        (MARKER, _, _) => "6 by a tear byte, of a marker",
        (_, 0, _) => "6 by a tear byte, of an init",
        (_, SC, _) => "6 by a tear byte, of an sc event",
        (_, _, 8) => "6 by a tear byte, of width 8",
        _ if tear == 1 => "6 by a tear byte, start not divisible",
        _ => all[0],
    });
    match then {
        Some((4, at)) if at == place => all.push("6 by a tear byte, before 4"),
        Some((9, at)) if at == place => all.push("6 by a tear byte, before 9"),
        _ => {}
    }
    all.dedup();
    all
}

/// Rule 25 by the tear bytes, and by 01's rule in their place.
fn by_rule_25(sheet: &[u8], answer: &Answer) -> Vec<&'static str> {
    let mut x = read(sheet).expect("a sheet that was judged is whole");
    let may_tear: Vec<bool> = x.events.iter().map(|e| !e.accesses[0].tear_free).collect();
    let here = match answer {
        Answer::Broken { number: 25, names } => Some(*names),
        Answer::Broken { number: 21..=24, .. } => return vec![],
        _ => None,
    };
    for a in x.events.iter_mut().flat_map(|e| &mut e.accesses) {
        let mode = [0, U, SC][a.mode as usize];
        a.tear_free =
            tear_by_the_rule(if a.width == 0 { MARKER } else { READ }, mode, a.start as u8, a.width as u8) == 1;
    }
    let by_rule = match Relations::of(&x).first_broken_rule() {
        Some(Answer::Broken { number: 25, names }) => Some(names),
        _ => None,
    };
    let mut all = vec![];
    if here.is_some() {
        all.push("25 at edition 2");
    }
    let Some(names) = by_rule else { return all };
    if here.is_some_and(|here| here != names) {
        all.push("25 of others than by 01's rule");
    }
    if here.is_none() {
        let tears = |i: usize| names[i].is_some_and(|e| may_tear[e as usize]);
        if tears(0) && !tears(1) && !tears(2) {
            all.push("no 25, the reader may tear");
        }
        if !tears(0) {
            all.push("no 25, a writer may tear");
        }
        if matches!(answer, Answer::Consistent { .. }) {
            all.push("consistent, by 01's rule 25");
        }
    }
    all
}

/// All that [`shown_most`] can say. "The most events" are four inits and 18 others.
pub const SHOWN_MOST: &[&str] = &[
    "the most events, orderly",
    "the most events, unsettled",
    "the most events, broken by 21 to 25",
    "the most events, broken 26",
    "the most events, 12 for one byte",
    "the most events, 13 for one byte",
    "9 behind the most events",
];

/// What the answer for a sheet with as many events as there can be shows of 02 §6.
pub fn shown_most(c: &Case, answer: &Answer) -> Vec<&'static str> {
    let most = |inits: usize, others: usize| inits == MAX_INITS && others == MAX_OTHERS;
    if let Answer::Refused { number: 9, place } = *answer {
        let (mut at, mut inits, mut others) = (0, 0, 0);
        while let (true, Some(value)) = (at < place, value_at(&c.sheet, at)) {
            match (c.sheet[at], value.get(2)) {
                (2, Some(0)) => inits += 1,
                (2, _) => others += 1,
                _ => {}
            }
            at += 3 + value.len();
        }
        return if c.sheet[place] == 2 && most(inits, others) { vec!["9 behind the most events"] } else { vec![] };
    }
    let Ok(x) = read(&c.sheet) else { return vec![] };
    if !most(x.inits(), x.others()) {
        return vec![];
    }
    match *answer {
        Answer::Consistent { pair: None, .. } => vec!["the most events, orderly"],
        Answer::Consistent { .. } => vec!["the most events, unsettled"],
        Answer::Broken { number: 26, .. } => vec!["the most events, broken 26"],
        Answer::Broken { .. } => vec!["the most events, broken by 21 to 25"],
        Answer::Refused { number: 12, .. } if c.scratch == MAX_SCRATCH - 1 => vec!["the most events, 12 for one byte"],
        Answer::Refused { number: 13, .. } if c.order == MAX_EVENTS - 1 => vec!["the most events, 13 for one byte"],
        Answer::Refused { .. } => vec![],
    }
}

/// All that [`shown_written`] can say.
pub const SHOWN_WRITTEN: &[&str] = &[
    "edition 2 written",
    "edition 2 written, may tear where 01's rule says 1",
    "1 by edition 2's sixth bytes",
    "1 for a number that is no edition",
    "5 for a number that is no edition, 1 at edition 2",
    "15 by edition 2's sixth bytes",
    "5 for edition 0",
    "5 for edition 3",
    "6 at edition 1 by the tear byte",
    "6 at edition 1 by the tear byte, before 4",
    "6 at edition 2 by the tear byte 0",
    "6 at edition 2 by the tear byte 1",
    "6 at edition 2 by a tear byte over 1",
    "6 at edition 2 by the tear byte, before 4",
    "the most events written",
    "9 behind the most events",
];

/// What the writer's answer for a table shows of 02 §4 and §6; `out` is the length of the buffer lent.
pub fn shown_written(table: &[Vec<u8>; 5], out: usize, answer: &Written) -> Vec<&'static str> {
    let again = |table: &[Vec<u8>; 5], out: usize| {
        let [head, events, data, rows, pairs] = table;
        write(Lent { head, events, data, rows, pairs }, &mut vec![0; out])
    };
    let edition = table[0].first().copied().unwrap_or(0);
    let mut as_edition_1 = table.clone();
    if edition == 2 {
        as_edition_1[0][0] = 1;
        for e in as_edition_1[1].chunks_exact_mut(8) {
            e[5] = tear_by_the_rule(e[1], e[2], e[3], e[4]);
        }
    }
    match *answer {
        Written::Written { .. } => {
            let mut all = vec![];
            if table[1].len() / 8 == MAX_EVENTS {
                all.push("the most events written");
            }
            if edition == 2 {
                all.push("edition 2 written");
            }
            if edition == 2 && as_edition_1[1] != table[1] {
                all.push("edition 2 written, may tear where 01's rule says 1");
            }
            all
        }
        Written::Refused { number: 9, index: MAX_EVENTS } => vec!["9 behind the most events"],
        Written::Refused { number: 1, .. } if !matches!(edition, 1 | 2) => vec!["1 for a number that is no edition"],
        Written::Refused { number: 5, .. } if !matches!(edition, 1 | 2) => {
            let mut all = match edition {
                0 => vec!["5 for edition 0"],
                3 => vec!["5 for edition 3"],
                _ => vec![],
            };
            let mut at_2 = table.clone();
            at_2[0].resize(3, 0);
            at_2[0][0] = 2;
            if again(&at_2, out) == (Written::Refused { number: 1, index: 0 }) {
                all.push("5 for a number that is no edition, 1 at edition 2");
            }
            all
        }
        Written::Refused { number: number @ (1 | 15), .. } if edition == 2 => {
            match (number, again(&as_edition_1, out)) {
                (_, Written::Refused { number: other, .. }) if other == number => vec![],
                (1, _) => vec!["1 by edition 2's sixth bytes"],
                _ => vec!["15 by edition 2's sixth bytes"],
            }
        }
        Written::Refused { number: 6, index } if matches!(edition, 1 | 2) => {
            let tear = table[1][8 * index + 5];
            let with = |byte: u8| {
                let mut changed = table.clone();
                changed[1][8 * index + 5] = byte;
                again(&changed, MAX_SHEET)
            };
            let Some(then) = [0, 1].map(with).into_iter().find(|then| then != answer) else { return vec![] };
            let before_4 = then == Written::Refused { number: 4, index };
            let mut all = vec![match (edition, tear) {
                (1, _) => "6 at edition 1 by the tear byte",
                (_, 0) => "6 at edition 2 by the tear byte 0",
                (_, 1) => "6 at edition 2 by the tear byte 1",
                _ => "6 at edition 2 by a tear byte over 1",
            }];
            if before_4 && edition == 1 {
                all.push("6 at edition 1 by the tear byte, before 4");
            } else if before_4 {
                all.push("6 at edition 2 by the tear byte, before 4");
            }
            all
        }
        _ => vec![],
    }
}

/// All that [`shown_back`] can say.
pub const SHOWN_BACK: &[&str] = &[
    "edition 2's table",
    "edition 2's table, may tear where 01's rule says 1",
    "the table of the most events",
    "15 for the table of the most events",
];

/// What the table of a sheet shows of 02 §4 and §6.
pub fn shown_back(sheet: &[u8], answer: &Tabled) -> Vec<&'static str> {
    let Ok([head, events, ..]) = lists(sheet) else { return vec![] };
    let most = events.len() / 8 == MAX_EVENTS;
    let mut all = vec![];
    match answer {
        Tabled::Tabled { .. } => {
            if head[0] == 2 {
                all.push("edition 2's table");
            }
            let by_rule = |e: &[u8]| e[5] == tear_by_the_rule(e[1], e[2], e[3], e[4]);
            if !events.chunks_exact(8).all(by_rule) {
                all.push("edition 2's table, may tear where 01's rule says 1");
            }
            if most {
                all.push("the table of the most events");
            }
        }
        Tabled::Refused { .. } if most => all.push("15 for the table of the most events"),
        Tabled::Refused { .. } => {}
    }
    all
}

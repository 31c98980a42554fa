//! Whole sheets: the linked judge and the ordinary one over the same sheets, in turn, buffers reused; and the two checks of a
//! list over the consistent ones, each with the judge's order, which is accepted. Words, orders and scratch are compared first.
use crate::{Check, Judge, Lists};
use plimdrong::{MAX_EVENTS, MAX_SCRATCH};
use second::random::{sized, Rng};
use second::text::{from_text, to_text};
use std::hint::black_box;
use std::time::Instant;

pub const SIZES: [usize; 5] = [4, 8, 12, 16, 18];
pub const KINDS: [&str; 4] = ["consistent", "broken 26", "broken 21 to 25", "refused"];
const SHEETS: usize = 200;
const ROUNDS: usize = 401;
/// A round takes about this long in seconds: less than a slice of the processor, so that the lowest was not interrupted.
const ROUND: f64 = 4e-4;

/// Rounds of `fresh`, and how many other sheets are judged before each.
const FRESH_ROUNDS: usize = 41;
const OTHERS: usize = 1000;

/// The judge and the ordinary one.
pub const JUDGES: [Judge; 2] = [plimdrong::judge_with, ordinary::judge];
const CHECKS: [Check; 2] = [plimdrong::check_with, ordinary::check];

/// Nanoseconds a sheet: the lowest and the median of the rounds.
#[derive(Clone, Copy)]
pub struct Times {
    pub lowest: f64,
    pub median: f64,
}

/// The kind of an answer.
fn kind(word: u64) -> &'static str {
    match (word >> 40 & 255, word >> 32 & 255) {
        (1, _) => "refused",
        (2, 26) => "broken 26",
        (2, _) => "broken 21 to 25",
        _ => "consistent",
    }
}

/// The word of a judge, and its buffers, which hold something before.
pub fn told(judge: Judge, sheet: &[u8]) -> (u64, Vec<u8>, Vec<u8>) {
    let (mut scratch, mut order) = (vec![0xa5; MAX_SCRATCH + 1], vec![0xa5; MAX_EVENTS + 1]);
    let word = judge(sheet, &mut scratch, &mut order);
    (word, scratch, order)
}

/// Sheets by kind of answer.
type ByKind = [Vec<Vec<u8>>; 4];

/// Random sheets of edition 1 with so many events that are not inits. Those that are refused are whole ones with one byte changed.
fn sheets(n: usize) -> ByKind {
    let (mut rng, mut changes) = (Rng::new(1000 + n as u64), Rng::new(2000 + n as u64));
    let (mut scratch, mut order) = (vec![0; MAX_SCRATCH], vec![0; MAX_EVENTS]);
    let mut all = [const { vec![] }; 4];
    for _ in 0..400_000 {
        let sheet = sized(&mut rng, n);
        let mut changed = sheet.clone();
        changed[changes.below(sheet.len())] = changes.byte();
        for sheet in [sheet, changed] {
            let told = kind(ordinary::judge(&sheet, &mut scratch, &mut order));
            let of_kind = &mut all[KINDS.iter().position(|kind| *kind == told).expect("a kind")];
            if of_kind.len() < SHEETS {
                of_kind.push(sheet);
            }
        }
        if all.iter().all(|of_kind| of_kind.len() == SHEETS) {
            break;
        }
    }
    all
}

/// The same at an edition: each tear byte as 01's rule gives it. Those that are refused stay as they are.
fn at_edition(edition: &str, mut all: ByKind) -> ByKind {
    let head = format!("head {edition}");
    for sheet in all[..3].iter_mut().flatten() {
        *sheet = from_text(&to_text(sheet).replacen("head 1", &head, 1)).expect("it is a sheet's text");
    }
    all
}

/// The times of two ways to do something with each problem: the ways in turn, many rounds.
pub fn in_turn<T>(problems: &[T], mut ways: [&mut dyn FnMut(&T) -> u64; 2]) -> [Times; 2] {
    let mut pass = |way: usize, times: usize| {
        let began = Instant::now();
        for _ in 0..times {
            for p in problems {
                black_box(ways[way](black_box(p)));
            }
        }
        began.elapsed().as_secs_f64()
    };
    let once = [0, 1].map(|way| (0..3).map(|_| pass(way, 1)).fold(f64::INFINITY, f64::min));
    let times = once.map(|once| ((ROUND / once) as usize).max(1));
    let mut taken = [vec![], vec![]];
    for _ in 0..ROUNDS {
        for (way, taken) in taken.iter_mut().enumerate() {
            taken.push(pass(way, times[way]) * 1e9 / (times[way] * problems.len()) as f64);
        }
    }
    taken.map(|mut taken| {
        taken.sort_by(f64::total_cmp);
        Times { lowest: taken[0], median: taken[taken.len() / 2] }
    })
}

/// The times of the two judges over these sheets.
pub fn judged(sheets: &[Vec<u8>]) -> [Times; 2] {
    let (mut scratch, mut order) = ([vec![0; MAX_SCRATCH], vec![0; MAX_SCRATCH]], [0; MAX_EVENTS]);
    let [one, other] = &mut scratch;
    let mut ours = |sheet: &Vec<u8>| JUDGES[0](sheet, one, &mut order);
    let mut order = [0; MAX_EVENTS];
    let mut ordinary = |sheet: &Vec<u8>| JUDGES[1](sheet, other, &mut order);
    in_turn(sheets, [&mut ours, &mut ordinary])
}

/// Random sheets of a size, whatever their answer, none of them among those that are timed.
pub fn others(n: usize) -> Vec<Vec<u8>> {
    let mut rng = Rng::new(3000 + n as u64);
    (0..OTHERS).map(|_| sized(&mut rng, n)).collect()
}

/// Nanoseconds a sheet of each judge where these sheets do not come again soon: each time after all the others. The lowest.
/// With few sheets again and again the processor knows where each one jumps (docs/BENCHMARKS.md).
pub fn fresh(sheets: &[Vec<u8>], others: &[Vec<u8>], rounds: usize) -> [f64; 2] {
    let (mut scratch, mut order) = (vec![0; MAX_SCRATCH], [0; MAX_EVENTS]);
    let mut lowest = [f64::INFINITY; 2];
    for _ in 0..rounds {
        for (judge, lowest) in JUDGES.into_iter().zip(&mut lowest) {
            let mut pass = |sheets: &[Vec<u8>]| {
                let began = Instant::now();
                for sheet in sheets {
                    black_box(judge(black_box(sheet), &mut scratch, &mut order));
                }
                began.elapsed().as_secs_f64()
            };
            pass(others);
            *lowest = lowest.min(pass(sheets) * 1e9 / sheets.len() as f64);
        }
    }
    lowest
}

/// The sheets are as many as they should be, and answered alike by both judges, with the kind's answer.
fn hold(n: usize, all: &ByKind) {
    for (sheets, wanted) in all.iter().zip(KINDS) {
        assert_eq!(sheets.len(), SHEETS, "sheets of {n} events, {wanted}");
        for sheet in sheets {
            let [ours, ordinary] = JUDGES.map(|judge| told(judge, sheet));
            assert!(ours == ordinary && kind(ours.0) == wanted, "{}", to_text(sheet));
        }
    }
}

/// A line of the table as it is handed from one build to another.
pub struct Line {
    pub events: usize,
    pub kind: &'static str,
    pub times: [Times; 2],
    pub fresh: [f64; 2],
}

/// The times of both judges at a size, for each kind.
fn lines(n: usize, all: &ByKind) -> [Line; 4] {
    hold(n, all);
    let others = others(n);
    let line = |i: usize| Line {
        events: n,
        kind: KINDS[i],
        times: judged(&all[i]),
        fresh: fresh(&all[i], &others, FRESH_ROUNDS),
    };
    std::array::from_fn(line)
}

/// The consistent sheets with the judge's order, which both checks accept.
fn lists([consistent, ..]: ByKind) -> Lists {
    let listed = consistent.into_iter().map(|sheet| {
        let plimdrong::Answer::Consistent { order, .. } = plimdrong::judge(&sheet) else {
            unreachable!("a consistent sheet")
        };
        assert_eq!(CHECKS.map(|check| check(&sheet, &order)), [6 << 40; 2]);
        (sheet, order.to_vec())
    });
    listed.collect()
}

/// A line of the table of checks of lists: each is accepted, so that every test is made.
fn list_line(n: usize, all: ByKind) -> String {
    let [mut ours, mut ordinary] = CHECKS.map(|check| move |(sheet, list): &(Vec<u8>, Vec<u8>)| check(sheet, list));
    format!("| {n} | {} |", columns(in_turn(&lists(all), [&mut ours, &mut ordinary])))
}

pub fn print_lists<'a>(lines: impl IntoIterator<Item = &'a String>) {
    println!("| Events | Plimdrong | Ordinary | Ratio | Medians | Ratio |");
    println!("|---|---|---|---|---|---|");
    lines.into_iter().for_each(|line| println!("{line}"));
}

/// The columns of two times: lowest, ratio, medians, ratio.
pub fn columns([ours, ordinary]: [Times; 2]) -> String {
    let (low, middle) = (ours.lowest / ordinary.lowest, ours.median / ordinary.median);
    format!(
        "{:.0} ns | {:.0} ns | {low:.2} | {:.0} and {:.0} ns | {middle:.2}",
        ours.lowest, ordinary.lowest, ours.median, ordinary.median
    )
}

/// The columns of two times of sheets that do not come again soon: both, ratio.
pub fn fresh_columns([ours, ordinary]: [f64; 2]) -> String {
    format!("{ours:.0} and {ordinary:.0} ns | {:.2}", ours / ordinary)
}

/// What the words behind `sheets` ask for.
pub fn run(words: &[&str]) {
    let edition = match words {
        [] | ["--edition", "1"] => "1",
        ["--edition", "2"] => "2",
        ["compare"] => return compare(),
        // for `all`, which asks each build
        ["raw"] => return raw(),
        _ => crate::usage(),
    };
    println!("{}\n", crate::machine());
    println!("| Events | Answer | Plimdrong | Ordinary | Ratio | Medians | Ratio | Fresh | Ratio |");
    println!("|---|---|---|---|---|---|---|---|---|");
    let mut listed = vec![];
    for n in SIZES {
        let all = at_edition(edition, sheets(n));
        for line in lines(n, &all) {
            println!("| {n} | {} | {} | {} |", line.kind, columns(line.times), fresh_columns(line.fresh));
        }
        listed.push(list_line(n, all));
    }
    println!("\nLists that are accepted:\n");
    print_lists(&listed);
}

/// For another program: a line's numbers, or a line of the lists.
fn raw() {
    for n in SIZES {
        let all = sheets(n);
        for Line { events, kind, times: [ours, ordinary], fresh } in lines(n, &all) {
            let numbers = [ours.lowest, ours.median, ordinary.lowest, ordinary.median, fresh[0], fresh[1]];
            let numbers = numbers.map(|t| t.to_string());
            println!("{events} {} {}", kind.replace(' ', "-"), numbers.join(" "));
        }
        println!("{}", list_line(n, all));
    }
}

fn compare() {
    let mut seen = 0;
    for n in SIZES {
        let all = sheets(n);
        for all in [at_edition("2", all.clone()), all] {
            hold(n, &all);
            seen += all.iter().map(Vec::len).sum::<usize>();
            assert_eq!(lists(all).len(), SHEETS);
        }
    }
    println!("sheets: the judge and the ordinary one answer {seen} sheets alike, buffers too");
}

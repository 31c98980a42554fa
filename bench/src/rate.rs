//! How many sheets a second a judge alone judges, from memory, on so many threads, each with all of them. What
//! `plimdrong audit` is measured against.
use crate::Judge;
use plimdrong::{MAX_EVENTS, MAX_SCRATCH};
use second::random::{case, sized, Rng};
use std::hint::black_box;
use std::time::Instant;

const ROUNDS: usize = 20;

/// Seconds for all sheets once, the lowest of the rounds.
fn lowest(judge: Judge, sheets: &[Vec<u8>]) -> f64 {
    let (mut scratch, mut order) = (vec![0; MAX_SCRATCH], vec![255; MAX_EVENTS]);
    let mut round = || {
        let began = Instant::now();
        for sheet in sheets {
            black_box(judge(black_box(sheet), &mut scratch, &mut order));
        }
        began.elapsed().as_secs_f64()
    };
    (0..ROUNDS).map(|_| round()).fold(f64::INFINITY, f64::min)
}

/// Sheets a second, of all threads together.
fn rate(judge: Judge, sheets: &[Vec<u8>], threads: usize) -> f64 {
    let seconds: Vec<f64> = std::thread::scope(|scope| {
        let running: Vec<_> = (0..threads).map(|_| scope.spawn(move || lowest(judge, sheets))).collect();
        running.into_iter().map(|thread| thread.join().expect("it does not panic")).collect()
    });
    seconds.iter().map(|s| sheets.len() as f64 / s).sum()
}

/// 123456789 as 123,456,789.
fn grouped(number: f64) -> String {
    let digits = format!("{number:.0}");
    let mut out = String::new();
    for (i, c) in digits.chars().enumerate() {
        if i > 0 && (digits.len() - i) % 3 == 0 {
            out.push(',');
        }
        out.push(c);
    }
    out
}

/// Random sheets on one core and on two, and what that makes of a night.
pub fn print_random() {
    let mut rng = Rng::new(16);
    let of_16: Vec<Vec<u8>> = (0..2000).map(|_| sized(&mut rng, 16)).collect();
    let mixed: Vec<Vec<u8>> = (0..20_000).map(|i| case(7, i, 18).sheet).collect();
    println!("| Sheets | Judge | One core | Two cores | Two by one |");
    println!("|---|---|---|---|---|");
    let mut night = 0.0;
    for (sheets, name) in [(&of_16, "16 events"), (&mixed, "up to 18 events, whole and damaged")] {
        for (judge, of) in crate::sheets::JUDGES.into_iter().zip(["plimdrong", "ordinary"]) {
            let (one, two) = (rate(judge, sheets, 1), rate(judge, sheets, 2));
            println!("| {name} | {of} | {} | {} | {:.2} |", grouped(one), grouped(two), two / one);
            if night == 0.0 {
                night = two * 8.0 * 3600.0;
            }
        }
    }
    println!("\nSo in eight hours on two cores the judge judges {} sheets of 16 events.", grouped(night));
}

/// The sheets of a batch: two-byte length, sheet.
fn batch(name: &str) -> Vec<Vec<u8>> {
    let Ok(batch) = std::fs::read(name) else {
        eprintln!("bench: rate: {name} cannot be read: give a file of sheets, each behind its length in two bytes");
        std::process::exit(2);
    };
    let (mut sheets, mut rest) = (vec![], &batch[..]);
    while let [high, low, behind @ ..] = rest {
        let (sheet, next) = behind.split_at((usize::from(*high) * 256 + usize::from(*low)).min(behind.len()));
        sheets.push(sheet.to_vec());
        rest = next;
    }
    sheets
}

/// What the words behind `rate` ask for.
pub fn run(words: &[&str]) {
    let (name, threads) = match words {
        [] => return print_random(),
        [name] => (name, Ok(1)),
        [name, threads] => (name, threads.parse()),
        _ => crate::usage(),
    };
    let threads = threads.unwrap_or_else(|_| crate::usage());
    let sheets = batch(name);
    let bytes: usize = sheets.iter().map(Vec::len).sum();
    let rate = rate(plimdrong::judge_with, &sheets, threads);
    println!("{} sheets of {bytes} bytes, {threads} threads: {rate:.0} a second", sheets.len());
}

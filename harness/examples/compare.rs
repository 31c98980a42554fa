//! compare --seed S --count N [--max-events K]: random sheets of both editions, the linked judge against the second program.
//! compare --tables --seed S --count N: random tables of both, the linked writer and the way back against it.
//! compare --lists --seed S --count N [--max-events K]: random sheets with a list each, the linked checker against it.
//! compare --whys --seed S --count N [--max-events K]: random sheets aimed at rule 26, the bars that are kept against it.

#[path = "../tests/compare/mod.rs"]
mod compare;

#[path = "../tests/compare_lists/mod.rs"]
mod compare_lists;

#[path = "../tests/compare_tables/mod.rs"]
#[allow(dead_code)]
mod compare_tables;

#[path = "../tests/compare_whys/mod.rs"]
mod compare_whys;

fn main() {
    let mut args: Vec<String> = std::env::args().skip(1).collect();
    let what = args.first().filter(|a| ["--tables", "--lists", "--whys"].contains(&a.as_str())).cloned();
    args.drain(..usize::from(what.is_some()));
    let (mut seed, mut count, mut max) = (1, 1_000_000, 0);
    for two in args.chunks(2) {
        match (two[0].as_str(), two.get(1).and_then(|n| n.parse::<u64>().ok())) {
            ("--seed", Some(n)) => seed = n,
            ("--count", Some(n)) => count = n,
            ("--max-events", Some(n)) => max = n as usize,
            _ => {
                eprintln!(
                    "usage: compare [--lists|--whys] --seed S --count N [--max-events K]\n       compare --tables --seed S --count N"
                );
                std::process::exit(2);
            }
        }
    }
    let began = std::time::Instant::now();
    if what.as_deref() == Some("--tables") {
        // the first difference stops it
        for compared in [compare_tables::random_tables, compare_tables::tables_of_random_sheets] {
            let (hits, took) = (compared(seed, count), began.elapsed().as_secs_f64());
            println!("seed {seed}: {count} agree, {took:.1} s since it began\n{hits}");
            tell_missing(hits.missing());
        }
        return;
    }
    let told = match what.as_deref() {
        Some("--lists") => {
            compare_lists::random_lists(seed, count, max).map(|t| ("sheets and lists", t.to_string(), t.missing()))
        }
        Some(_) => compare_whys::random_whys(seed, count, max).map(|t| ("sheets", t.to_string(), t.missing())),
        None => compare::random_sheets(seed, count, max).map(|t| ("sheets", t.to_string(), t.missing())),
    };
    match told {
        Ok((of, tally, missing)) => {
            println!("seed {seed}: {count} {of} agree, {:.1} s\n{tally}", began.elapsed().as_secs_f64());
            tell_missing(missing);
        }
        Err(wrong) => {
            println!("{wrong}");
            std::process::exit(1);
        }
    }
}

fn tell_missing(missing: Vec<String>) {
    if !missing.is_empty() {
        println!("never came: {}", missing.join(", "));
    }
}

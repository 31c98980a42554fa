//! The worst cases of bench/worst: a sheet each, its text beside it, which begins with what it reaches. `find` is the search
//! that found them.
mod find;
mod problem;
use crate::sheets;
use find::{climb, whole, Event, Plan, Score, AGENTS};
use problem::Problem;
use second::random::Rng;
use second::sheet::{read, Execution};
use second::text::{from_text, to_text};
use std::fs;
use std::sync::OnceLock;

const FOLDER: &str = concat!(env!("CARGO_MANIFEST_DIR"), "/worst");

/// Broken by 26, kind and number of a word.
const NONE: u64 = 2 << 8 | 26;

struct Case {
    name: &'static str,
    what: &'static str,
    /// Whether no order exists.
    none: bool,
    score: Score,
    /// What is known to be bad, by construction.
    start: fn() -> Plan,
    /// How long each climb is; nothing is looked for where the construction cannot be beaten.
    steps: usize,
}

const CASES: [Case; 6] = [
    Case {
        name: "sets",
        what: "the most reachable sets of 18 events and 8 agents",
        none: false,
        score: |_, _, p| p.reachable().0 as f64,
        start: balanced,
        steps: 0,
    },
    Case {
        name: "rows",
        what: "the most rows, and of these the most runs of one writer",
        none: false,
        score: |_, x, _| (x.rows.len() * 1000 + runs(x)) as f64,
        start: striped,
        steps: 0,
    },
    Case {
        name: "bars",
        what: "the most bars",
        none: true,
        score: |_, _, p| p.bars() as f64,
        start: barred,
        steps: 40_000,
    },
    Case {
        name: "none",
        what: "no order, and the most sets entered",
        none: true,
        score: |_, _, p| entered_in_vain(p) as f64,
        start: crossed,
        steps: 8_000,
    },
    Case {
        name: "time",
        what: "no order, and the longest time of the judge, fresh",
        none: true,
        score: |sheet, _, _| fresh_in_vain(sheet, 5),
        start: excluded,
        steps: 2_000,
    },
    Case {
        name: "again",
        what: "no order, and the most sets entered, once for each bar and once more",
        none: true,
        score: |_, _, p| (entered_in_vain(p) * (p.bars() + 1)) as f64,
        start: excluded,
        steps: 8_000,
    },
];

/// Sets entered where no order exists; else 0.
fn entered_in_vain(p: &Problem) -> usize {
    match p.entered() {
        (sets, false) => sets,
        _ => 0,
    }
}

/// Nanoseconds of the judge where no order exists, after other sheets, the lowest of so many; else 0.
fn fresh_in_vain(sheet: &[u8], rounds: usize) -> f64 {
    static OTHERS: OnceLock<Vec<Vec<u8>>> = OnceLock::new();
    let others = OTHERS.get_or_init(|| sheets::others(16));
    match sheets::told(plimdrong::judge_with, sheet).0 >> 32 {
        NONE => sheets::fresh(&[sheet.to_vec()], &others[..100], rounds)[0],
        _ => 0.0,
    }
}

fn runs(x: &Execution) -> usize {
    let ends = |i: usize| (x.rows[i].reader, x.rows[i].writer);
    1 + (1..x.rows.len()).filter(|&i| ends(i) != ends(i - 1)).count()
}

fn event(agent: u8, kind: u8, mode: u8, start: u8, width: u8, from: [u8; 8]) -> Event {
    Event { agent, kind, mode, start, width, from }
}

fn marker(agent: u8) -> Event {
    event(agent, 4, 2, 0, 0, [0; 8])
}

/// Events of no two agents are in any order, and the agents have as even a number as can be, so that the product of (events of
/// an agent + 1) is greatest. Agent order alone leaves no more sets, so there is nothing worse.
fn balanced() -> Plan {
    let events = (0..18).map(|i| event(1 + i % AGENTS as u8, 1, 1, 0, 1, [0; 8]));
    Plan { memory: 1, inits: vec![(0, 1)], events: events.collect(), pairs: vec![] }
}

/// Every event reads eight bytes: 144 rows. All but one may tear and read every other byte from that one, the rest from inits;
/// the one reads from all four inits. It comes last of all agents' first events, and is alone in its agent.
fn striped() -> Plan {
    let mut events: Vec<Event> = (0..17).map(|i| event(1 + i % 7, 1, 1, 0, 8, [0, 21, 1, 21, 2, 21, 3, 21])).collect();
    events.push(event(8, 3, 2, 0, 8, [0, 0, 1, 1, 2, 2, 3, 3]));
    Plan { memory: 8, inits: vec![(0, 2), (2, 2), (4, 2), (6, 2)], events, pairs: vec![] }
}

/// Read-modify-writes of one range of four bytes, two of each agent: the first reads from four inits, the second from the
/// first. And two reads before them. With v of 18 events writing that is 4 v (18 - v) + 32 (v - 1) + (v - 8)(v - 2) bars.
fn barred() -> Plan {
    let from_inits = [0, 1, 2, 3, 0, 0, 0, 0];
    let mut events = vec![event(1, 1, 2, 0, 4, from_inits), event(2, 1, 2, 0, 4, from_inits)];
    events.extend((0..8).map(|i| event(1 + i, 3, 2, 0, 4, from_inits)));
    events.extend((0..8).map(|i| event(1 + i, 3, 2, 0, 4, [6 + i; 8])));
    Plan { memory: 4, inits: vec![(0, 1), (1, 1), (2, 1), (3, 1)], events, pairs: vec![] }
}

/// Two agents write two bytes, each in the other's order, and each then sees the other's first write. A set is lost only where
/// it has all four writes; the other six agents have two events each.
fn crossed() -> Plan {
    let mut events = vec![
        event(1, 2, 2, 0, 1, [0; 8]),
        event(1, 2, 2, 1, 1, [0; 8]),
        event(1, 1, 2, 1, 1, [4; 8]),
        event(2, 2, 2, 1, 1, [0; 8]),
        event(2, 2, 2, 0, 1, [0; 8]),
        event(2, 1, 2, 0, 1, [1; 8]),
    ];
    events.extend((3..9).flat_map(|agent| [marker(agent), marker(agent)]));
    Plan { memory: 2, inits: vec![(0, 2)], events, pairs: vec![] }
}

/// Sixteen sc reads of four bytes from four inits, two of each agent, and two read-modify-writes that exclude each other, each
/// last of its agent: they wait for every read, by every init. 3^8 sets.
fn excluded() -> Plan {
    let from_inits = [0, 1, 2, 3, 0, 0, 0, 0];
    let mut events: Vec<Event> = (0..16).map(|i| event(1 + i % 8, 1, 2, 0, 4, from_inits)).collect();
    events.extend([1, 2].map(|agent| event(agent, 3, 2, 0, 4, from_inits)));
    Plan { memory: 4, inits: vec![(0, 1), (1, 1), (2, 1), (3, 1)], events, pairs: vec![] }
}

/// What a sheet reaches, as its text says it.
fn reaches(sheet: &[u8]) -> String {
    let x = read(sheet).expect("a whole sheet");
    let p = Problem::of(&x);
    let (sets, _) = p.reachable();
    let (entered, found) = p.entered();
    format!(
        "# events {}, rows {}, runs {}, bars {}; reachable sets {sets}; entered {entered}, {}\n",
        x.others(),
        x.rows.len(),
        runs(&x),
        p.bars(),
        if found { "an order" } else { "no order" }
    )
}

fn stored(case: &Case) -> (Vec<u8>, String) {
    let file = |ending: &str| fs::read(format!("{FOLDER}/{}.{ending}", case.name)).expect("it is stored");
    (file("sheet"), String::from_utf8(file("txt")).expect("a text"))
}

fn store(case: &Case, sheet: &[u8]) {
    let head = format!("# {}\n{}", case.what, reaches(sheet));
    fs::write(format!("{FOLDER}/{}.txt", case.name), head + &to_text(sheet)).expect("can be written");
    fs::write(format!("{FOLDER}/{}.sheet", case.name), sheet).expect("can be written");
}

/// How bad a sheet is; times anew, of many rounds, as the highest of many that were taken in passing is mostly chance.
fn value(case: &Case, sheet: &[u8]) -> f64 {
    match case.name {
        "time" => fresh_in_vain(sheet, 101),
        _ => whole(sheet).map_or(-1.0, |x| (case.score)(sheet, &x, &Problem::of(&x))),
    }
}

/// Climbs from each construction and from random plans, by this seed, for all cases or one; what is worse than the stored sheet
/// takes its place.
fn search(seed: u64, name: &str) {
    for case in CASES.iter().filter(|case| ["", case.name].contains(&name)) {
        let mut rng = Rng::new(seed);
        let first = (case.start)();
        let mut best = (value(case, &first.sheet()), first.clone());
        println!("{}: {} by construction", case.name, best.0);
        for round in 0..if case.steps > 0 { 12 } else { 0 } {
            let mut plan = first.clone();
            if round % 2 == 1 {
                // from anywhere
                plan = Plan::random(&mut rng);
                while value(case, &plan.sheet()) <= 0.0 {
                    plan = Plan::random(&mut rng);
                }
            }
            let (_, found) = climb(&mut rng, plan, case.steps, case.score);
            let reached = value(case, &found.sheet());
            println!("{}: {reached} by climb {round}", case.name);
            if reached > best.0 {
                best = (reached, found);
            }
        }
        let old = fs::read(format!("{FOLDER}/{}.sheet", case.name)).map_or(-1.0, |sheet| value(case, &sheet));
        println!("{}: {} at most, {} stored", case.name, best.0, old);
        if best.0 > old {
            store(case, &best.1.sheet());
        }
    }
}

/// Each stored sheet is its text, reaches what that says, and is answered alike by both judges and the second program; its bars and
/// happens-before are the second program's.
fn compare() {
    for case in &CASES {
        let (sheet, text) = stored(case);
        assert_eq!(from_text(&text).as_ref(), Ok(&sheet), "{}", case.name);
        assert_eq!(text.lines().nth(1), reaches(&sheet).lines().next(), "{}", case.name);
        let [ours, ordinary] = sheets::JUDGES.map(|judge| sheets::told(judge, &sheet));
        assert!(ours == ordinary, "{}", case.name);
        assert_eq!(ours.0 >> 32 == NONE, case.none, "{}", case.name);
        let x = read(&sheet).expect("a whole sheet");
        let (p, m) = (Problem::of(&x), second::judge::Relations::of(&x));
        let n = x.events.len();
        assert!((0..n).all(|a| (0..n).all(|b| m.before[a][b] == (p.before[b] >> a & 1 == 1))), "{}", case.name);
        let bar =
            |r: usize, w: usize, v: usize| x.rows.iter().any(|row| (row.reader, row.writer) == (r, w) && m.bar(row, v));
        let bars = (0..n).flat_map(|r| (0..n).map(move |w| (r, w)));
        assert_eq!(
            bars.map(|(r, w)| (0..n).filter(|&v| bar(r, w, v)).count()).sum::<usize>(),
            p.bars(),
            "{}",
            case.name
        );
    }
    println!("worst: {} stored sheets are what they say", CASES.len());
}

/// The table of the stored sheets.
pub fn print() {
    println!("| Sheet | Events | Rows | Bars | Reachable sets | Sets entered | Plimdrong | Ordinary | Ratio | Fresh | Ratio |");
    println!("|---|---|---|---|---|---|---|---|---|---|---|");
    let others = sheets::others(16);
    for case in &CASES {
        let (sheet, _) = stored(case);
        let x = read(&sheet).expect("a whole sheet");
        let p = Problem::of(&x);
        let all = [sheet];
        let [ours, ordinary] = sheets::judged(&all).map(|times| times.lowest);
        println!(
            "| `{}`: {} | {} | {} | {} | {} | {} | {ours:.0} ns | {ordinary:.0} ns | {:.2} | {} |",
            case.name,
            case.what,
            x.others(),
            x.rows.len(),
            p.bars(),
            p.reachable().0,
            p.entered().0,
            ours / ordinary,
            sheets::fresh_columns(sheets::fresh(&all, &others, 101)),
        );
    }
    println!(
        "\nProved: at most 2^18 = 262,144 sets are reachable (`CountAtMost`, crates/reach/specs/Promises.antt), and a walk enters none \
         twice, as with each step on one set less is not marked (`left-falls`, the measure of `walks::walk`, crates/orders/proofs)."
    );
}

/// What the words behind `worst` ask for.
pub fn run(words: &[&str]) {
    match words {
        [] => print(),
        ["compare"] => compare(),
        ["find"] => search(1, ""),
        ["find", seed] => search(seed.parse().unwrap_or_else(|_| crate::usage()), ""),
        ["find", seed, name] => search(seed.parse().unwrap_or_else(|_| crate::usage()), name),
        _ => crate::usage(),
    }
}

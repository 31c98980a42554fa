//! worst_why WHAT SEED CLIMBS STEPS [FILE]: a search for sheets broken by 26 that ask for much (02 §8). WHAT is `kept` (the
//! longest kept list), `product` (harmful bars times the sets that can be placed without bars) or `met` (the sets met in all
//! searches, which takes long). It begins with the sheets of FILE, lines NAME and bytes in hex, or else with random ones.
//! Prints what was reached and the bytes, the worst first.

use second::judge::Relations;
use second::random::climb::{climb, Draft, Effort, Score};
use second::random::{why_case, Rng};
use second::sheet::{read, MAX_OTHERS};
use second::text::{from_hex, hex};

fn main() {
    let args: Vec<String> = std::env::args().skip(1).collect();
    let (what, seed, climbs, steps, file) = match &args[..] {
        [what, seed, climbs, steps] => (what, seed, climbs, steps, None),
        [what, seed, climbs, steps, file] => (what, seed, climbs, steps, Some(file)),
        _ => panic!("worst_why kept|product|met SEED CLIMBS STEPS [FILE]"),
    };
    let score: Score = match what.as_str() {
        "kept" => |_, _, m| {
            let e = Effort::with_searches(m);
            e.kept as f64 + e.harmful as f64 / 1000.0
        },
        "product" => |_, _, m| {
            let e = Effort::of(m);
            (e.harmful * e.loose) as f64
        },
        _ => |_, _, m| Effort::with_searches(m).met as f64,
    };
    let given: Vec<Draft> = file.map_or(vec![], |file| {
        let text = std::fs::read_to_string(file).unwrap_or_else(|e| panic!("{file}: {e}"));
        let bytes = |line: &str| from_hex(line.split_once([' ', '\t'])?.1).ok();
        text.lines().filter_map(|line| Draft::of(&bytes(line)?)).collect()
    });
    let number = |word: &str| word.parse::<u64>().unwrap_or_else(|_| panic!("{word}: no number"));
    let mut rng = Rng::new(number(seed));
    let mut worst = vec![];
    for i in 0..number(climbs) {
        let start = match given.len() as u64 {
            0 if i % 3 == 0 => Some(Draft::random(&mut rng, MAX_OTHERS)),
            0 => Draft::of(&why_case(rng.draw(), i, MAX_OTHERS).sheet),
            n => Some(given[(i % n) as usize].clone()),
        };
        let Some(start) = start else { continue };
        let (value, draft) = climb(&mut rng, start, number(steps) as usize, score);
        if value >= 0.0 {
            worst.push((value, draft.sheet()));
        }
    }
    worst.sort_by(|p, q| q.0.total_cmp(&p.0));
    for (value, sheet) in worst.iter().take(10) {
        let x = read(sheet).expect("it was judged");
        println!("{what} {value:.3} {:?}\t{}", Effort::of(&Relations::of(&x)), hex(sheet));
    }
}

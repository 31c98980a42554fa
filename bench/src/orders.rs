// Times the proved search against the ordinary one, on the same problems, with buffers reused. Answers and buffers are compared first.
// `compare` only compares them; `problems FILE FILE` holds the proved search against stored answers (see stored.rs).
mod plain;
mod stored;
use crate::{lowest, Rng};

extern "C" {
    fn orders_first(
        inits: usize,
        events: usize,
        before: *const [u32; 32],
        bars: *const [u32; 1024],
        scratch: *mut u8,
        scratch_len: usize,
        order: *mut u8,
        order_len: usize,
    ) -> bool;
    fn orders_count_sets(
        inits: usize,
        events: usize,
        before: *const [u32; 32],
        bars: *const [u32; 1024],
        scratch: *mut u8,
        scratch_len: usize,
        limit: usize,
    ) -> usize;
}

fn first(p: &Task, scratch: &mut [u8], order: &mut [u8]) -> bool {
    unsafe {
        orders_first(
            INITS,
            p.events,
            &p.before,
            &p.bars,
            scratch.as_mut_ptr(),
            scratch.len(),
            order.as_mut_ptr(),
            order.len(),
        )
    }
}

fn count(p: &Task, scratch: &mut [u8]) -> usize {
    unsafe { orders_count_sets(INITS, p.events, &p.before, &p.bars, scratch.as_mut_ptr(), scratch.len(), usize::MAX) }
}

const INITS: usize = 2;

struct Task {
    events: usize,
    before: [u32; 32],
    bars: [u32; 1024],
}

// Events of some agents, each agent's in its order, behind the inits; some bars on top.
fn agents(n: usize, rng: &mut Rng, count: usize, bars: usize) -> Task {
    let mut t = Task { events: INITS + n, before: [0; 32], bars: [0; 1024] };
    let mut last: Vec<Option<usize>> = vec![None; count];
    for e in INITS..t.events {
        let a = rng.next(count);
        let mut m: u32 = (1 << INITS) - 1;
        if let Some(d) = last[a] {
            m |= t.before[d] | 1 << d;
        }
        t.before[e] = m;
        last[a] = Some(e);
    }
    let mut k = 0;
    while n >= 3 && k < bars {
        let (r, w, v) = (INITS + rng.next(n), rng.next(t.events), INITS + rng.next(n));
        if r != w && w != v && r != v {
            t.bars[v * 32 + w] |= 1 << r;
            k += 1;
        }
    }
    t
}

fn tasks(family: &str, n: usize) -> Vec<Task> {
    let mut rng = Rng(0x9e3779b97f4a7c15 ^ n as u64);
    let mut out = Vec::new();
    let mut scratch = vec![0u8; 1 << 16];
    let mut order = [0u8; 32];
    while out.len() < 32 {
        let t = match family {
            // an order is found with few steps back
            "found" => agents(n, &mut rng, 4, n / 2),
            // no order: agents with many bars, so that the search gives up after some thousands of sets
            "none" => agents(n, &mut rng, (n / 2).clamp(2, 8), 2 * n),
            // every set but the full one is reachable, and no order: the last event waits for itself
            "every" => {
                let mut t = Task { events: INITS + n, before: [0; 32], bars: [0; 1024] };
                t.before[t.events - 1] = 1 << (t.events - 1);
                t
            }
            // the number of sets, where all are reachable
            "count" => Task { events: INITS + n, before: [0; 32], bars: [0; 1024] },
            _ => unreachable!(),
        };
        let found = plain::first(INITS, t.events, &t.before, &t.bars, &mut scratch, &mut order);
        if family == "count" || found == (family == "found") {
            out.push(t);
            if (family == "every" || family == "count") && n >= 12 {
                break;
            }
        }
    }
    out
}

fn check(t: &Task) {
    let need = (1usize << (t.events - INITS)).div_ceil(8).max(1);
    let mut s1 = vec![0xaau8; need + 3];
    let mut s2 = s1.clone();
    let mut o1 = [0xbbu8; 40];
    let mut o2 = o1;
    let a = first(t, &mut s1, &mut o1);
    let b = plain::first(INITS, t.events, &t.before, &t.bars, &mut s2, &mut o2);
    assert!(a == b && s1 == s2 && o1 == o2);
    // one byte of scratch less, or of the order, is not enough: false, and nothing changed
    let (short, less) = (need - 1, t.events - 1);
    let (mut s3, mut o3) = (vec![7u8; need], [9u8; 40]);
    assert!(!first(t, &mut s3[..short], &mut o3) && !first(t, &mut s3, &mut o3[..less]));
    assert!(s3 == vec![7u8; need] && o3 == [9u8; 40]);
    let c = count(t, &mut s1);
    let d = match plain::count_sets(INITS, t.events, &t.before, &t.bars, &mut s2, usize::MAX) {
        plain::Reach::All(n) => n,
        plain::Reach::Over => usize::MAX,
    };
    assert!(c == d && s1 == s2);
}

// The two searches on every problem, buffers too; and on problems and buffers that do not fit.
fn compare() {
    let mut seen = 0;
    for family in ["found", "none", "every", "count"] {
        for n in 0..=18 {
            if n < 4 && family == "none" || n == 0 && family == "every" {
                continue;
            }
            for t in tasks(family, n) {
                check(&t);
                seen += 1;
            }
        }
    }
    println!("orders: the proved search and the ordinary one agree on {seen} problems");
}

// What the words behind `orders` ask for.
pub fn run(words: &[String]) {
    match words {
        [what] if what == "compare" => compare(),
        [what, problems, answers] if what == "problems" => {
            let file = |name| std::fs::read(name).expect("can be read");
            stored::hold(&file(problems), &file(answers))
        }
        _ => times(crate::rounds(words)),
    }
}

fn times(rounds: usize) {
    println!("| Problems | Events | Rattle | Rust | Ratio |");
    println!("|---|---|---|---|---|");
    for family in ["found", "none", "every", "count"] {
        for n in [4, 8, 12, 16, 18] {
            let ts = tasks(family, n);
            ts.iter().for_each(check);
            let (mut s1, mut s2) = (vec![0u8; 1 << 16], vec![0u8; 1 << 16]);
            let (mut o1, mut o2) = ([0u8; 32], [0u8; 32]);
            let counted = family == "count";
            let mut proved = |t: &Task| if counted { count(t, &mut s1) } else { first(t, &mut s1, &mut o1) as usize };
            let mut ordinary = |t: &Task| {
                if !counted {
                    return plain::first(INITS, t.events, &t.before, &t.bars, &mut s2, &mut o2) as usize;
                }
                match plain::count_sets(INITS, t.events, &t.before, &t.bars, &mut s2, usize::MAX) {
                    plain::Reach::All(n) => n,
                    plain::Reach::Over => 1,
                }
            };
            let [a, b] = lowest(rounds, 3e-3, &ts, [&mut proved, &mut ordinary]);
            println!("| {family} | {n} | {a:.0} ns | {b:.0} ns | {:.2} |", a / b);
        }
    }
}

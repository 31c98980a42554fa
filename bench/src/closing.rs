// The proved closure against closures in ordinary Rust: by triples, by rows. `compare` only compares what they leave.
mod plain;
use crate::{lowest, rounds, Rng};
use plain::Table;

extern "C" {
    fn closing_close(rows: *mut u32, len: usize, n: usize);
}

fn close(rows: &mut [u32], n: usize) {
    unsafe { closing_close(rows.as_mut_ptr(), rows.len(), n) }
}

// Direct steps of n events: the first is an init and leads to all others, which belong to so many agents; half of these are
// led to by an earlier one of another agent. Half of the problems number the events agent by agent, half as they come.
fn steps(n: usize, agents: usize, rng: &mut Rng) -> Table {
    let mut agent: Vec<usize> = (1..n).map(|_| rng.next(agents)).collect();
    let by_agent = rng.next(2) == 0;
    // the time of each event by its number: where they are numbered agent by agent, a time that rises within each agent
    let mut time: Vec<usize> = (1..n).collect();
    if by_agent {
        time.sort_by_key(|&t| (agent[t - 1], t));
        agent.sort();
    }
    let mut rows = [0u32; 32];
    rows[0] = ((1u64 << n) - 2) as u32;
    for e in 1..n {
        for d in e + 1..n {
            if agent[e - 1] == agent[d - 1] {
                rows[e] |= 1 << d;
            }
        }
        let earlier: Vec<usize> =
            (1..n).filter(|&d| time[d - 1] < time[e - 1] && agent[d - 1] != agent[e - 1]).collect();
        if rng.next(2) == 0 && !earlier.is_empty() {
            rows[earlier[rng.next(earlier.len())]] |= 1 << e;
        }
    }
    rows
}

fn bools(rows: &Table) -> [[bool; 32]; 32] {
    rows.map(|row| std::array::from_fn(|d| row >> d & 1 == 1))
}

// The closure by its definition: of the first rows, as many as there are, at most n and at most 32, every triple with its
// middle among them, until nothing is added.
fn reach(rows: &[u32], n: usize) -> Vec<u32> {
    let n = n.min(32).min(rows.len());
    let mut rows = rows.to_vec();
    loop {
        let before = rows.clone();
        for e in 0..n {
            for m in 0..n {
                for d in 0..32 {
                    if rows[e] >> m & 1 == 1 && rows[m] >> d & 1 == 1 {
                        rows[e] |= 1 << d;
                    }
                }
            }
        }
        if rows == before {
            return rows;
        }
    }
}

// Every closure of a table leaves what the definition gives.
fn check(rows: &Table, n: usize) {
    let want = reach(rows, n);
    for way in [|r: &mut Table, n| close(r, n), plain::triples, plain::rows, plain::best] {
        let mut got = *rows;
        way(&mut got, n);
        assert!(got[..] == want[..]);
    }
    let mut got = bools(rows);
    plain::triples_of_bools(&mut got, n);
    assert!(got == bools(&want.try_into().expect("32 rows")));
}

// All closures on the direct steps of events; then the proved one on tables of any length, for any n, with any members.
fn compare() {
    let mut rng = Rng(0x2545f4914f6cdd1d);
    let mut seen = 0;
    for n in 1..=32 {
        for agents in [1, 2, 3, 8] {
            for _ in 0..20 {
                check(&steps(n, agents, &mut rng), n);
                seen += 1;
            }
        }
    }
    // what the random tables must show: an event that leads to itself, members from n on, rows from n on that stay, fewer
    // rows than n, more than 32
    let mut shown = [0usize; 5];
    for _ in 0..20_000 {
        let (len, n, members) = (rng.next(41), rng.next(41), 1 + rng.next(6));
        let mut row = || (0..rng.next(members)).fold(0, |row, _| row | 1u32 << rng.next(32));
        let rows: Vec<u32> = (0..len).map(|_| row()).collect();
        let (want, mut got) = (reach(&rows, n), rows.clone());
        close(&mut got, n);
        assert!(got == want);
        let m = n.min(32).min(len);
        let beyond = |row: &u32| m < 32 && row >> m != 0;
        let facts = [
            (0..m).any(|e| want[e] >> e & 1 == 1),
            rows[..m].iter().any(beyond),
            rows[m..].iter().any(|row| *row != 0),
            len < n,
            32 < n.min(len),
        ];
        for (count, fact) in shown.iter_mut().zip(facts) {
            *count += fact as usize;
        }
        seen += 1;
    }
    assert!(shown.iter().all(|count| *count > 100), "what the tables showed: {shown:?}");
    println!(
        "closing: the proved closure is what the definition gives on {seen} tables; what random ones showed: {shown:?}"
    );
}

// What the words behind `closing` ask for.
pub fn run(words: &[String]) {
    match words {
        [what] if what == "compare" => compare(),
        _ => times(rounds(words)),
    }
}

fn times(rounds: usize) {
    println!("| Agents | Events | Triples | Triples of bools | Rows | Best rows | `close` | by triples | by rows | by best rows |");
    println!("|---|---|---|---|---|---|---|---|---|---|");
    for (agents, name) in [(2, "two, long"), (8, "eight, wide")] {
        for n in [4, 8, 12, 16, 18, 32] {
            let mut rng = Rng(0x9e3779b97f4a7c15 ^ (agents * 100 + n) as u64);
            let all: Vec<(Table, [[bool; 32]; 32])> = (0..200)
                .map(|_| {
                    let rows = steps(n, agents, &mut rng);
                    check(&rows, n);
                    (rows, bools(&rows))
                })
                .collect();
            // each on a copy of its own; a number of what it leaves is looked at
            let on = |way: fn(&mut Table, usize)| {
                move |p: &(Table, [[bool; 32]; 32])| {
                    let mut rows = p.0;
                    way(std::hint::black_box(&mut rows), n);
                    rows[n - 1] as usize
                }
            };
            let mut of_bools = |p: &(Table, [[bool; 32]; 32])| {
                let mut table = p.1;
                plain::triples_of_bools(std::hint::black_box(&mut table), n);
                table[n - 1][0] as usize
            };
            let [t, b, r, f, c] = lowest(
                rounds,
                1e-3,
                &all,
                [
                    &mut on(plain::triples),
                    &mut of_bools,
                    &mut on(plain::rows),
                    &mut on(plain::best),
                    &mut on(|rows, n| close(rows, n)),
                ],
            );
            println!(
                "| {name} | {n} | {t:.0} ns | {b:.0} ns | {r:.1} ns | {f:.1} ns | {c:.1} ns | {:.3} | {:.2} | {:.2} |",
                c / t,
                c / r,
                c / f
            );
        }
    }
}

// The stored problems of tests/orders, through the exports of orders_c. tests/orders/make.py says how a problem and its line are written, and finds
// the expected lines by enumeration.

extern "C" {
    fn orders_first(
        inits: usize,
        events: usize,
        before: *const [u32; 32],
        bars: *const [u32; 1024],
        scratch: *mut u8,
        scratch_len: usize,
        order: *mut u8,
        order_len: usize,
    ) -> bool;
    fn orders_possible(
        inits: usize,
        events: usize,
        before: *const [u32; 32],
        bars: *const [u32; 1024],
        scratch: *mut u8,
        scratch_len: usize,
    ) -> bool;
    fn orders_count_sets(
        inits: usize,
        events: usize,
        before: *const [u32; 32],
        bars: *const [u32; 1024],
        scratch: *mut u8,
        scratch_len: usize,
        limit: usize,
    ) -> usize;
}

// What every lent buffer holds at first, and its whole length: the first bytes are lent, and then the whole is looked at.
const FILL: u8 = 170;
const WHOLE: usize = 64;

struct Problem {
    inits: usize,
    events: usize,
    room: usize,
    length: usize,
    limit: usize,
    before: [u32; 32],
    bars: [u32; 1024],
}

// The problem at the beginning of the bytes, and what comes after it.
fn take(bytes: &[u8]) -> (Problem, &[u8]) {
    let n = |i: usize| bytes[i] as usize;
    let (pairs, rest) = bytes[7..].split_at(2 * n(5));
    let (triples, rest) = rest.split_at(3 * n(6));
    let mut p = Problem {
        inits: n(0),
        events: n(1),
        room: n(2).min(WHOLE),
        length: n(3).min(WHOLE),
        limit: n(4),
        before: [0; 32],
        bars: [0; 1024],
    };
    for pair in pairs.chunks(2) {
        p.before[pair[1] as usize] |= 1 << pair[0];
    }
    for bar in triples.chunks(3) {
        p.bars[bar[2] as usize * 32 + bar[1] as usize] |= 1 << bar[0];
    }
    (p, rest)
}

// The first `need` bytes are zero, and the others are as they were.
fn clean(buffer: &[u8], need: usize) -> bool {
    buffer[..need].iter().all(|&b| b == 0) && buffer[need..].iter().all(|&b| b == FILL)
}

fn line(p: &Problem) -> String {
    // the bytes that are cleared: none where a search does not take the numbers
    let fits = p.inits <= p.events && p.events <= 32;
    let need = if fits { ((1usize << (p.events - p.inits)) / 8).max(1) } else { 0 };
    let cleared = if need <= p.room { need } else { 0 };
    let mut words = String::new();

    let (mut scratch, mut order) = ([FILL; WHOLE], [FILL; WHOLE]);
    let found = unsafe {
        orders_first(p.inits, p.events, &p.before, &p.bars, scratch.as_mut_ptr(), p.room, order.as_mut_ptr(), p.length)
    };
    if found {
        order[..p.length].iter().for_each(|b| words += &format!("{b} "));
    } else {
        words += if clean(&order, 0) { "none " } else { "none order buffer changed " };
    }
    let mut kept = clean(&scratch, if p.length < p.events { 0 } else { cleared }) && clean(&order[p.length..], 0);

    let mut scratch = [FILL; WHOLE];
    let possible = unsafe { orders_possible(p.inits, p.events, &p.before, &p.bars, scratch.as_mut_ptr(), p.room) };
    words += if possible { "possible " } else { "impossible " };
    kept &= clean(&scratch, cleared);

    let mut scratch = [FILL; WHOLE];
    let count =
        unsafe { orders_count_sets(p.inits, p.events, &p.before, &p.bars, scratch.as_mut_ptr(), p.room, p.limit) };
    words += &if count == usize::MAX { "over ".to_string() } else { format!("sets {count} ") };
    kept &= clean(&scratch, cleared);

    words + if kept { "clean" } else { "scratch not clean" }
}

// Each problem's line is the stored one; else says the first that is not, and ends with 1.
pub fn hold(mut problems: &[u8], answers: &[u8]) {
    let mut expected = std::str::from_utf8(answers).expect("text").lines();
    let mut number = 0;
    while !problems.is_empty() {
        let (p, rest) = take(problems);
        problems = rest;
        number += 1;
        let (is, should) = (line(&p), expected.next().unwrap_or("nothing"));
        if is != should {
            println!("orders: problem {number}: answered \"{is}\", stored is \"{should}\"");
            std::process::exit(1);
        }
    }
    if number == 0 || expected.next().is_some() {
        println!("orders: {number} problems, and answers to more");
        std::process::exit(1);
    }
    println!("orders: the proved search answers the {number} stored problems as enumeration does");
}

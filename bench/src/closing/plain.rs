// Closures in ordinary Rust. A table has 32 rows, those from n on empty.

pub type Table = [u32; 32];

// Every triple of events: from e to k and from k to d, so from e to d.
#[inline(never)]
pub fn triples(rows: &mut Table, n: usize) {
    for k in 0..n {
        for e in 0..n {
            for d in 0..n {
                if rows[e] >> k & 1 == 1 && rows[k] >> d & 1 == 1 {
                    rows[e] |= 1 << d;
                }
            }
        }
    }
}

// The same triples in a table of bools, 32 to a row, so that the compiler can take sixteen at a time.
#[inline(never)]
pub fn triples_of_bools(table: &mut [[bool; 32]; 32], n: usize) {
    for k in 0..n {
        let through = table[k];
        for row in &mut table[..n] {
            let here = row[k];
            for (old, new) in row[..n].iter_mut().zip(&through[..n]) {
                *old |= here & new;
            }
        }
    }
}

// A whole row at once, event by event. Not `if .. { *x |= row }`: the compiler makes a jump of that, and on the rows of
// random sheets with 16 events it took four times as long.
#[inline(never)]
pub fn rows(rows: &mut Table, n: usize) {
    let rows = &mut rows[..n];
    for k in 0..n {
        let row = rows[k];
        for x in rows.iter_mut() {
            *x |= if *x >> k & 1 == 1 { row } else { 0 };
        }
    }
}

// The transitive closure of the first n rows of successors. A whole row at once, only events that lead somewhere and are led
// to, two of them in one pass, eight rows at a time, also behind the last. Of the forms that we tried the fastest or near it
// (docs/BENCHMARKS.md, "The closure").
#[inline(never)]
#[allow(clippy::needless_range_loop)] // by index, not by an iterator: the compiler makes shorter code of it
pub fn best(rows: &mut Table, n: usize) {
    let through = |x: u32, k: usize, row: u32| if x >> k & 1 == 1 { row } else { 0 };
    let (mut into, mut from) = (0u32, 0u32);
    for e in 0..n {
        into |= rows[e];
        from |= u32::from(rows[e] != 0) << e;
    }
    // the last `and` changes nothing, but with it the compiler makes code that takes a tenth less time
    let mut left = into & from & ((1u64 << n) - 1) as u32;
    while left != 0 {
        let k = left.trailing_zeros() as usize & 31;
        left &= left - 1;
        // where none is left, k twice
        let j = if left == 0 { k } else { left.trailing_zeros() as usize & 31 };
        left &= left.wrapping_sub(1);
        let first = rows[k];
        let other = rows[j] | through(rows[j], k, first);
        let row = first | through(first, j, other);
        for eight in rows.chunks_exact_mut(8).take(n.div_ceil(8)) {
            for x in eight {
                *x |= through(*x, k, row) | through(*x, j, other);
            }
        }
    }
}

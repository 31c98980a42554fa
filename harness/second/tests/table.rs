//! The second program's writer and the way back (02 §2), over tables written by hand and random ones.

use second::random::{bytes, case, table_buffers, table_case, table_damaged, table_ways, whole, Rng};
use second::read;
use second::sheet::MAX_OTHERS;
use second::table::{lists, table, write, Lent, Tabled, Written};
use second::text::from_hex;

/// 01's example, as lent.
const HEAD: [u8; 3] = [1, 1, 1];
const EVENTS: [u8; 16] = [0, 2, 0, 0, 1, 0, 0, 1, 1, 1, 1, 0, 1, 1, 0, 1];
const DATA: [u8; 2] = [0, 0];
const ROWS: [u8; 3] = [1, 0, 0];
const EXAMPLE: [u8; 30] = [1, 0, 3, 1, 1, 1, 2, 0, 6, 0, 2, 0, 0, 1, 0, 2, 0, 6, 1, 1, 1, 0, 1, 0, 3, 0, 3, 1, 0, 0];

fn lent<'a>(head: &'a [u8], events: &'a [u8], data: &'a [u8], rows: &'a [u8], pairs: &'a [u8]) -> Lent<'a> {
    Lent { head, events, data, rows, pairs }
}

fn of(lists: &[Vec<u8>; 5]) -> Lent<'_> {
    lent(&lists[0], &lists[1], &lists[2], &lists[3], &lists[4])
}

#[test]
fn the_example() {
    let mut out = [9; 33];
    let answer = write(lent(&HEAD, &EVENTS, &DATA, &ROWS, &[]), &mut out);
    assert_eq!(answer, Written::Written { length: 30 });
    assert_eq!(answer.word(), 0x500_0000_001e);
    assert_eq!(out[..30], EXAMPLE);
    assert_eq!(out[30..], [9, 9, 9]);

    let (mut head, mut events, mut data, mut rows, mut pairs) = ([9; 4], [9; 17], [9; 3], [9; 3], [9; 1]);
    let answer = table(&EXAMPLE, [&mut head, &mut events, &mut data, &mut rows, &mut pairs]);
    assert_eq!(answer, Tabled::Tabled { events: 2, data: 2, rows: 1, pairs: 0 });
    assert_eq!(answer.word(), 0xe02_0000_1002);
    assert_eq!((head, data, rows, pairs), ([1, 1, 1, 9], [0, 0, 9], ROWS, [9]));
    assert_eq!((&events[..16], events[16]), (&EVENTS[..], 9));
}

/// Every number, at its index.
#[test]
fn every_number() {
    let refused = |l: Lent, number: u8, index: usize| {
        let mut out = [9; 4096];
        assert_eq!(write(l, &mut out), Written::Refused { number, index });
        assert_eq!(out, [9; 4096]);
    };
    let marker = [1, 4, 2, 0, 0, 0, 0, 0];
    let read = [1, 1, 1, 0, 1, 1, 0, 1];
    // 1, before all else: by data, with every other entry at fault too
    refused(lent(&[], &[9, 9, 9, 9, 9, 9, 16, 0], &[0; 4096], &[9, 9, 9], &[9, 9]), 1, 0);
    refused(lent(&[], &[9, 9, 9, 9, 9, 9, 255, 255], &[0; 65535], &[], &[]), 1, 0);
    // 4: a count that is wrong, data that is not there, data that a marker has
    refused(lent(&HEAD, &EVENTS, &DATA[..1], &ROWS, &[]), 4, 1);
    refused(lent(&HEAD, &EVENTS, &[], &ROWS, &[]), 4, 0);
    let mut longer = EVENTS;
    longer[7] = 2;
    refused(lent(&HEAD, &longer, &[0, 0, 0], &ROWS, &[]), 4, 0);
    refused(lent(&HEAD, &[0, 2, 0, 0, 1, 0, 255, 255], &[0; 2], &[], &[]), 4, 0);
    refused(lent(&HEAD, &[1, 4, 2, 0, 0, 0, 0, 1], &[0], &[], &[]), 4, 0);
    // right by chance, and then nothing is left for the next
    refused(lent(&HEAD, &longer, &DATA[..1], &ROWS, &[]), 4, 1);
    // 5: each byte of the head; what a shorter slice lacks is 0; a longer one is not looked at
    for head in
        [&[0, 1, 1][..], &[3, 1, 1], &[255, 1, 1], &[1, 0, 1], &[1, 9, 1], &[1, 1, 0], &[1, 1, 65], &[], &[1], &[1, 1]]
    {
        refused(lent(head, &EVENTS, &DATA, &ROWS, &[]), 5, 0);
    }
    let answer = write(lent(&[1, 1, 1, 7, 7], &EVENTS, &DATA, &ROWS, &[]), &mut [0; 30]);
    assert_eq!(answer, Written::Written { length: 30 });
    // 6: content, and the tear byte: 0 for an init and a marker, 1 for this read
    for (i, to) in [(0, 1), (1, 9), (5, 1), (8, 2), (13, 0), (13, 2)] {
        let mut events = EVENTS;
        events[i] = to;
        refused(lent(&HEAD, &events, &DATA, &ROWS, &[]), 6, i / 8);
    }
    refused(lent(&HEAD, &[1, 4, 2, 0, 0, 1, 0, 0], &[], &[], &[]), 6, 0);
    // the tear byte is content: before the length in its own event, behind a fault in an event before it
    let mut torn = EVENTS;
    torn[13] = 0;
    refused(lent(&HEAD, &torn, &DATA[..1], &ROWS, &[]), 6, 1);
    refused(lent(&HEAD, &torn, &[], &ROWS, &[]), 4, 0);
    refused(lent(&HEAD, &torn, &DATA, &[9, 9, 9], &[]), 6, 1);
    // 7, 8
    refused(lent(&HEAD, &EVENTS, &DATA, &[1, 0, 0, 1, 0, 0], &[]), 7, 1);
    refused(lent(&HEAD, &EVENTS, &DATA, &ROWS, &[0, 1]), 8, 0);
    // 9: the fifth init, the 19th other event, the 33rd pair
    let inits: Vec<u8> = (0..5).flat_map(|start| [0, 2, 0, start, 1, 0, 0, 1]).collect();
    refused(lent(&[1, 1, 8], &inits, &[0; 5], &[], &[]), 9, 4);
    refused(lent(&HEAD, &[&EVENTS[..8], &marker.repeat(19)].concat(), &[0], &[], &[]), 9, 19);
    refused(lent(&HEAD, &[&EVENTS[..8], &marker.repeat(18)].concat(), &[0], &[], &[]), 10, 0);
    let two: Vec<u8> = (0..16).flat_map(|i| [1 + i % 2, 4, 2, 0, 0, 0, 0, 0]).collect();
    let all: Vec<u8> =
        (0..16).flat_map(|a| (0..16).filter(move |b| a % 2 != b % 2).flat_map(move |b| [a, b])).collect();
    refused(lent(&[1, 2, 1], &two, &[], &[], &all[..66]), 9, 32);
    refused(lent(&[1, 2, 1], &two, &[], &[], &all[..64]), 10, 0);
    // 10, 14, 11 in this order
    refused(lent(&[1, 2, 1], &marker, &[], &[], &[]), 10, 0);
    refused(lent(&[1, 2, 1], &EVENTS, &DATA, &[], &[]), 14, 0);
    refused(lent(&HEAD, &EVENTS, &DATA, &[], &[]), 11, 1);
    refused(lent(&HEAD, &[read, read].concat(), &DATA, &[], &[]), 11, 0);
    // 15, behind all others
    for length in 0..30 {
        let mut out = vec![9; length];
        let answer = write(lent(&HEAD, &EVENTS, &DATA, &ROWS, &[]), &mut out);
        assert_eq!(answer, Written::Refused { number: 15, index: 0 });
        assert_eq!(answer.word(), 0x10f_0000_0000);
        assert_eq!(out, vec![9; length]);
        assert_eq!(write(lent(&HEAD, &EVENTS, &DATA, &[], &[]), &mut out), Written::Refused { number: 11, index: 1 });
    }
}

/// The same table at edition 2: the tear byte stands in the sheet, and one that the event must not have is 6.
#[test]
fn edition_2() {
    let head = [2, 1, 1];
    let mut out = [9; 34];
    let answer = write(lent(&head, &EVENTS, &DATA, &ROWS, &[]), &mut out);
    assert_eq!(answer, Written::Written { length: 32 });
    let sheet =
        from_hex("01 00 03 02 01 01 02 00 07 00 02 00 00 01 00 00 02 00 07 01 01 01 00 01 01 00 03 00 03 01 00 00");
    assert_eq!(out[..32], sheet.unwrap());
    assert_eq!(out[32..], [9, 9]);
    assert_eq!(lists(&out[..32]).unwrap()[1], EVENTS);
    // the read may tear: written so, and it comes back so; at edition 1 it is 6
    let mut torn = EVENTS;
    torn[13] = 0;
    assert_eq!(write(lent(&head, &torn, &DATA, &ROWS, &[]), &mut out), Written::Written { length: 32 });
    assert_eq!((out[24], &lists(&out[..32]).unwrap()[1][..]), (0, &torn[..]));
    assert_eq!(write(lent(&HEAD, &torn, &DATA, &ROWS, &[]), &mut out), Written::Refused { number: 6, index: 1 });
    let refused = |events: &[u8], data: &[u8], number: u8, index: usize| {
        let mut out = [9; 4096];
        assert_eq!(write(lent(&[2, 1, 16], events, data, &[], &[]), &mut out), Written::Refused { number, index });
        assert_eq!(out, [9; 4096]);
    };
    // an event and its data; the tear bytes that it may have
    let unbroken: &[u8] = &[0, 1];
    for (front, data, allowed) in [
        ([0, 2, 0, 0, 2], 2, &[0][..]),
        ([1, 4, 2, 0, 0], 0, &[0]),
        ([1, 1, 2, 2, 2], 2, &[1]),
        ([1, 2, 2, 8, 8], 8, &[1]),
        ([1, 3, 2, 4, 4], 8, &[1]),
        ([1, 2, 1, 3, 1], 1, unbroken),
        ([1, 1, 1, 2, 2], 2, unbroken),
        ([1, 2, 1, 4, 4], 4, unbroken),
        ([1, 2, 1, 3, 2], 2, &[0]),
        ([1, 1, 1, 2, 4], 4, &[0]),
        ([1, 2, 1, 0, 8], 8, &[0]),
    ] {
        for tear in 0..=255 {
            let event = [&front[..], &[tear, 0, data as u8]].concat();
            let longer = [&front[..], &[tear, 0, data as u8 + 1]].concat();
            let reads = front[1] % 2 == 1;
            if allowed.contains(&tear) {
                refused(&event, &[0; 16][..data], if reads { 11 } else { 10 }, 0);
                refused(&longer, &[0; 16][..data + 1], 4, 0);
            } else {
                // before the exact length
                refused(&event, &[0; 16][..data], 6, 0);
                refused(&longer, &[0; 16][..data + 1], 6, 0);
            }
        }
    }
    // a number that is no edition: edition 1's layout for 1, then 5. The sheet has 4,097 bytes at edition 2 only.
    let count: u16 = 4096 - 6 - 8;
    let event = [&[1, 2, 1, 0, 1, 1][..], &count.to_be_bytes()].concat();
    let data = vec![0; count as usize];
    for (edition, number) in [(0, 5), (1, 4), (2, 1), (3, 5), (255, 5)] {
        let answer = write(lent(&[edition, 1, 1], &event, &data, &[], &[]), &mut []);
        assert_eq!(answer, Written::Refused { number, index: 0 }, "edition {edition}");
    }
}

/// A rest that is shorter than an entry is none, and data behind the last event's is not looked at.
#[test]
fn rests() {
    let events = [&EVENTS[..], &[1; 7]].concat();
    let mut out = [9; 30];
    let answer = write(lent(&HEAD, &events, &[0, 0, 5, 5], &[1, 0, 0, 1, 1], &[7]), &mut out);
    assert_eq!((answer, out), (Written::Written { length: 30 }, EXAMPLE));
}

/// A sheet of exactly 4,096 bytes is not too long.
#[test]
fn as_long_as_may_be() {
    let count = 4096 - 6 - 8;
    let event = [1, 2, 1, 0, 1, 1, (count >> 8) as u8, count as u8];
    let data = vec![0; count];
    assert_eq!(write(lent(&HEAD, &event, &data, &[], &[]), &mut []), Written::Refused { number: 4, index: 0 });
    let pair = [0, 1];
    assert_eq!(write(lent(&HEAD, &event, &data, &[], &pair), &mut []), Written::Refused { number: 1, index: 0 });
}

/// Each way of damage that a table can have earns its number, at its index.
#[test]
fn every_way_earns_its_number() {
    let mut rng = Rng::new(12);
    for way in table_ways() {
        let mut made = 0;
        for i in 0..400 {
            let Some((c, index)) = table_damaged(&mut rng, way, [4, 6, MAX_OTHERS][i % 3]) else { continue };
            let found = write(of(&c.lists), &mut vec![0; c.out]);
            assert_eq!(found, Written::Refused { number: way.number, index }, "{}\n{:?}", way.name, c.lists);
            made += 1;
        }
        assert!(made >= 20, "{}: made {made} times", way.name);
    }
    for number in (4..=11).chain([14]) {
        assert!(table_ways().any(|w| w.number == number), "no way to earn {number}");
    }
}

/// "Reading what was written gives the table back, and writing what was read from a well-formed sheet gives the same
/// bytes."
#[test]
fn there_and_back() {
    let mut rng = Rng::new(13);
    for _ in 0..5000 {
        let sheet = bytes(&whole(&mut rng, MAX_OTHERS).1);
        let l = lists(&sheet).unwrap();
        let mut out = vec![9; sheet.len() + 3];
        assert_eq!(write(of(&l), &mut out), Written::Written { length: sheet.len() });
        assert_eq!(out, [&sheet[..], &[9; 3]].concat());
    }
    let mut written = 0;
    for index in 0..20_000 {
        let c = table_case(14, index, 8);
        let mut out = vec![0; c.out];
        if let Written::Written { length } = write(of(&c.lists), &mut out) {
            assert!(read(&out[..length]).is_ok(), "{}", c.name);
            let l = lists(&out[..length]).unwrap();
            // what is lent behind the entries is gone, and so are data bytes that are said and not there; the rest is the same
            let six = |events: &[u8]| events.chunks_exact(8).map(|e| e[..6].to_vec()).collect::<Vec<_>>();
            assert_eq!(six(&l[1]), six(&c.lists[1]), "{}", c.name);
            for i in [0, 2, 3, 4] {
                assert!(c.lists[i].starts_with(&l[i]), "{}", c.name);
            }
            written += 1;
        }
    }
    assert!(written > 5000, "{written}");
}

/// The way back refuses as the reader does, then 15 at the first buffer that is too short; then nothing has changed.
#[test]
fn the_way_back() {
    let mut rng = Rng::new(15);
    let mut short = [0; 5];
    for index in 0..20_000 {
        let c = case(15, index, 8);
        let lengths = table_buffers(&mut rng, &c.sheet);
        let mut b = lengths.map(|n| vec![9; n]);
        let [b0, b1, b2, b3, b4] = &mut b;
        let answer = table(&c.sheet, [b0, b1, b2, b3, b4]);
        match lists(&c.sheet) {
            Err((number, place)) => assert_eq!(answer, Tabled::Refused { number, place }),
            Ok(l) => match (0..5).find(|&i| lengths[i] < l[i].len()) {
                Some(i) => {
                    assert_eq!(answer, Tabled::Refused { number: 15, place: i });
                    short[i] += 1;
                }
                None => {
                    assert!(matches!(answer, Tabled::Tabled { .. }));
                    for i in 0..5 {
                        assert_eq!(b[i][..l[i].len()], l[i]);
                        b[i][..l[i].len()].fill(9);
                    }
                }
            },
        }
        assert_eq!(b, lengths.map(|n| vec![9; n]), "{}", c.name);
    }
    assert!(short.iter().all(|&n| n > 20), "{short:?}");
    assert_eq!(
        table(&from_hex("01 00").unwrap(), [&mut [], &mut [], &mut [], &mut [], &mut []]).word(),
        0x102_0000_0000
    );
}

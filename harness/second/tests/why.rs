//! The second program's kept list (02 §8): by hand, against what 02 says of it, and one way to find an order against the other.

use second::judge::{verdict, Relations};
use second::random::{mostly_few, shown_why, why_case, SHOWN_WHYS};
use second::sheet::{read, MAX_OTHERS, MAX_SCRATCH};
use second::text::from_text;
use second::why::{all_bars, kept, leaves_an_order, why, why_into, Bar, Orders, Why, ALL_ORDERS_UP_TO};
use second::Answer;
use std::collections::{BTreeMap, BTreeSet};

fn litmus(name: &str) -> Vec<u8> {
    std::fs::read(format!("{}/../../examples/litmus/{name}.sheet", env!("CARGO_MANIFEST_DIR"))).unwrap()
}

/// All bars of a sheet, and its line.
fn told(sheet: &[u8]) -> (Vec<Bar>, String) {
    let x = read(sheet).unwrap();
    (all_bars(&Relations::of(&x)), why(sheet, MAX_SCRATCH, 1000).line())
}

#[test]
fn by_hand() {
    // Litmus 7. Event 0 is the init; A1: x = 1 (1), y reads 0 (2); A2: y = 1 (3), x reads 0 (4). The rows are (2, 0) and (4, 0).
    // Of (2, 0) the writing sc event with an equal range is 3, of (4, 0) it is 1; both come by (c): the init happens before all.
    // The bar (2, 0, 3) makes 2 come before 3, (4, 0, 1) makes 4 come before 1: with 1 before 2 and 3 before 4 a circle. With
    // either one alone there is an order, so both are kept.
    assert_eq!(told(&litmus("07-store-buffering")), (vec![(2, 0, 3), (4, 0, 1)], "kept 2: 2 0 3, 4 0 1".to_string()));

    // Litmus 14. Two read-modify-writes, 1 and 2, that both read the init: by (c) 1 before 2 and 2 before 1.
    assert_eq!(
        told(&litmus("14-two-read-modify-writes")),
        (vec![(1, 0, 2), (2, 0, 1)], "kept 2: 1 0 2, 2 0 1".to_string())
    );

    // Two writes of x, 1 and 2; A3 reads 1 (3) and then 2 (4), A4 reads 2 (5) and then 1 (6). The bars: (3, 1, 2), (4, 2, 1),
    // (5, 2, 1), (6, 1, 2), all by (a). Through 3, 1 happens before 4, so that (4, 2, 1) makes 1 come before 2; through 5, 2
    // happens before 6, so that (6, 1, 2) makes 2 come before 1. These two leave no order, so the first and the third are dropped
    // when their turn comes. Both are needed then: without (4, 2, 1) there is 0 2 5 1 3 6 4, without (6, 1, 2) 0 1 3 2 4 5 6.
    assert_eq!(
        told(&litmus("22-two-readers-disagree")),
        (vec![(3, 1, 2), (4, 2, 1), (5, 2, 1), (6, 1, 2)], "kept 2: 4 2 1, 6 1 2".to_string())
    );

    // Three read-modify-writes that all read the init: six bars, each "one before another". From the first on: (1, 0, 2) and
    // (1, 0, 3) go, for 2 and 3 alone are at odds by (2, 0, 3) and (3, 0, 2); (2, 0, 1) goes for the same reason. Then (2, 0, 3)
    // is needed: without it, and with (3, 0, 1) and (3, 0, 2), 0 3 1 2 is an order. (3, 0, 1) goes, (3, 0, 2) stays.
    let three =
        "head 1 3 1\ninit at 0: 00\nA1 rmw sc at 0: 00 -> 01\nA2 rmw sc at 0: 00 -> 02\nA3 rmw sc at 0: 00 -> 03\n\
                 row 1 0 0\nrow 2 0 0\nrow 3 0 0";
    let bars = vec![(1, 0, 2), (1, 0, 3), (2, 0, 1), (2, 0, 3), (3, 0, 1), (3, 0, 2)];
    assert_eq!(told(&from_text(three).unwrap()), (bars, "kept 2: 2 0 3, 3 0 2".to_string()));

    // (b) alone: A1 writes x (1), A2 writes x (3), both before markers that A3's marker (5) comes behind; A3 reads x unordered,
    // first what 1 wrote (6), then what 3 wrote (7). (6, 1, 3) makes 3 come before 1, (7, 3, 1) makes 1 come before 3.
    let b = "head 1 3 1\ninit at 0: 00\nA1 write sc at 0: 01\nA1 marker\nA2 write sc at 0: 02\nA2 marker\nA3 marker\n\
             A3 read unordered at 0: 01\nA3 read unordered at 0: 02\nrow 6 0 1\nrow 7 0 3\npair 2 5\npair 4 5";
    let sheet = from_text(b).unwrap();
    assert_eq!(told(&sheet), (vec![(6, 1, 3), (7, 3, 1)], "kept 2: 6 1 3, 7 3 1".to_string()));
    // two bytes: R and W have two rows each, and still there is one bar of them
    let wide = b.replace("head 1 3 1", "head 2 3 2").replace("init at 0: 00", "init at 0: 00 00");
    let wide = wide.replace(": 01\n", ": 01 01\n").replace(": 02\n", ": 02 02\n");
    let wide = wide.replace("row 6 0 1\nrow 7 0 3", "row 6 0 1\nrow 6 1 1\nrow 7 0 3\nrow 7 1 3");
    assert_eq!(told(&from_text(&wide).unwrap()), told(&sheet));

    // A harmless bar is listed and dropped: litmus 14 with a read of x (1) by A1 before its read-modify-write (2). (1, 0, 2) is
    // a bar, though 1 happens before 2 anyway; (1, 0, 3) is one that may be done without.
    let harmless =
        "head 1 2 1\ninit at 0: 00\nA1 read sc at 0: 00\nA1 rmw sc at 0: 00 -> 01\nA2 rmw sc at 0: 00 -> 02\n\
                    row 1 0 0\nrow 2 0 0\nrow 3 0 0";
    let bars = vec![(1, 0, 2), (1, 0, 3), (2, 0, 3), (3, 0, 2)];
    assert_eq!(told(&from_text(harmless).unwrap()), (bars, "kept 2: 2 0 3, 3 0 2".to_string()));
}

/// Words and buffers, by hand: litmus 7 has four events that are not inits, two bytes of scratch, and two kept bars.
#[test]
fn words_and_buffers() {
    let sheet = litmus("07-store-buffering");
    let run = |sheet: &[u8], scratch: usize, bars: usize| {
        let (mut s, mut b) = (vec![9; scratch], vec![7; bars]);
        let word = why_into(sheet, &mut s, &mut b).word();
        (word, s, b)
    };
    assert_eq!(run(&sheet, 2, 6), (0x81a_0000_0002, vec![0, 0], vec![2, 0, 3, 4, 0, 1]));
    assert_eq!(run(&sheet, 3, 8), (0x81a_0000_0002, vec![0, 0, 9], vec![2, 0, 3, 4, 0, 1, 7, 7]));
    // 16: the buffer as it was, the scratch cleared
    assert_eq!(run(&sheet, 3, 5), (0x110_0000_0000, vec![0, 0, 9], vec![7; 5]));
    assert_eq!(run(&sheet, 2, 0), (0x110_0000_0000, vec![0, 0], vec![]));
    // 12 comes before 16, and changes nothing
    assert_eq!(run(&sheet, 1, 0), (0x10c_0000_0000, vec![9], vec![]));
    assert_eq!(run(&sheet, 1, 9), (0x10c_0000_0000, vec![9], vec![7; 9]));
    // and before 21 to 25, after which the scratch is cleared; no 13 ever
    let broken = litmus("10-load-buffering");
    assert_eq!(run(&broken, 1, 0).0, 0x10c_0000_0000);
    assert_eq!(run(&broken, 2, 0), (0x216_01ff_ffff, vec![0, 0], vec![]));
    // consistent: the judge's own word, no order
    let fine = litmus("08-store-buffering-unordered");
    assert_eq!(run(&fine, 3, 3), (0x301_0104_ffff, vec![0, 0, 9], vec![7; 3]));
    assert_eq!(run(&litmus("01-example"), 1, 0), (0x300_ffff_ffff, vec![0], vec![]));
    assert_eq!(run(&litmus("02-row-removed"), 0, 0), (0x10b_0000_000f, vec![], vec![]));
    assert_eq!(run(&[], 1, 1), (0x103_0000_0000, vec![9], vec![7]));
}

/// "What is kept admits no order, and without any one of its bars some order exists." It is a part of all bars, rising, and of
/// two bars at least: happens-before alone leaves an order, and so does any one bar, where rule 24 holds. Sheets not broken by
/// 26 get the judge's own answer.
#[test]
fn what_is_kept() {
    let mut counts = BTreeMap::new();
    let mut others = 0;
    for index in 0..20_000 {
        let c = why_case(11, index, mostly_few(index));
        let Ok(x) = read(&c.sheet) else { continue };
        let m = Relations::of(&x);
        let judged = verdict(&x);
        if !matches!(judged, Answer::Broken { number: 26, .. }) {
            assert_eq!(why(&c.sheet, MAX_SCRATCH, 0), Why::Sheet(judged), "{}", c.name);
            others += 1;
            continue;
        }
        let bars = all_bars(&m);
        assert!(bars.windows(2).all(|two| two[0] < two[1]), "{}", c.name);
        assert!(bars.iter().all(|&(r, w, v)| r != w && w != v && v != r), "{}", c.name);
        let list = kept(&m, &bars);
        assert_eq!(why(&c.sheet, MAX_SCRATCH, 3 * bars.len()), Why::Kept(list.clone()), "{}", c.name);
        assert!(list.windows(2).all(|two| two[0] < two[1]), "{}", c.name);
        assert!(list.iter().all(|bar| bars.contains(bar)), "{}", c.name);
        assert!(!leaves_an_order(&m, &list), "{}", c.name);
        for i in 0..list.len() {
            let mut without = list.clone();
            without.remove(i);
            assert!(leaves_an_order(&m, &without), "{} without {:?}", c.name, list[i]);
        }
        assert!(leaves_an_order(&m, &[]), "{}", c.name);
        assert!(list.len() >= 2, "{}", c.name);
        *counts.entry(list.len()).or_insert(0) += 1;
    }
    println!("{others} sheets not broken by 26; kept bars, sheets: {counts:?}");
    assert!(others > 2_000 && counts.values().sum::<usize>() > 8_000, "{others} {counts:?}");
}

/// All orders in turn and prefixes say the same, for any part of the bars; and the judge says the same for all of them.
#[test]
fn both_ways() {
    let (mut with, mut without) = (0, 0);
    for index in 0..6_000 {
        let c = why_case(12, index, 6);
        let Ok(x) = read(&c.sheet) else { continue };
        let m = Relations::of(&x);
        if x.events.len() > ALL_ORDERS_UP_TO || m.first_broken_rule().is_some() {
            continue;
        }
        let bars = all_bars(&m);
        let (all, prefixes) = (Orders::all(&m), Orders::prefixes(&m));
        assert_eq!(all.left_by(&bars), m.first_by_prefixes().is_some(), "{}", c.name);
        for part in 0..20usize {
            // all, none, all but one, and parts as they fall
            let takes = |i: usize| match part {
                0 => true,
                1 => false,
                2..=9 => i != part - 2,
                _ => !(i * 7 + part * part + index as usize).is_multiple_of(3),
            };
            let some: Vec<Bar> = (0..bars.len()).filter(|&i| takes(i)).map(|i| bars[i]).collect();
            let left = all.left_by(&some);
            assert_eq!(left, prefixes.left_by(&some), "{} {some:?}", c.name);
            *(if left { &mut with } else { &mut without }) += 1;
        }
    }
    println!("{with} parts leave an order, {without} leave none");
    assert!(with > 20_000 && without > 20_000, "{with} {without}");
}

/// Random sheets show all that they should; what takes the most events, with as many.
#[test]
fn all_is_shown() {
    let mut seen = BTreeSet::new();
    for index in 0..12_000 {
        let c = why_case(13, index, MAX_OTHERS);
        seen.extend(shown_why(&c, &why(&c.sheet, c.scratch, c.bars)));
    }
    let missing: Vec<&&str> = SHOWN_WHYS.iter().filter(|what| !seen.contains(**what)).collect();
    assert!(missing.is_empty(), "never came: {missing:?}");
}

//! The second program's check (02 §5), held against the definition of an order that meets the rules, and by hand.

use second::judge::{next_order, Relations};
use second::random::{list_case, shown_list, SHOWN_LISTS};
use second::sheet::MAX_OTHERS;
use second::text::from_text;
use second::{check, read, Checked, Fault};
use std::collections::BTreeSet;

/// Of all orders of small random sheets those that meet the rules are accepted, and no others; the judge's is the first.
#[test]
fn all_orders() {
    let (mut sheets, mut accepted, mut not) = (0, 0, 0);
    for index in 0..4_000 {
        let c = list_case(8, index, 4);
        let Ok(x) = read(&c.sheet) else { continue };
        let m = Relations::of(&x);
        if x.events.len() > 5 || m.first_broken_rule().is_some() {
            continue;
        }
        sheets += 1;
        let mut order: Vec<usize> = (0..x.events.len()).collect();
        let mut first = None;
        loop {
            let list: Vec<u8> = order.iter().map(|&e| e as u8).collect();
            let meets = m.meets(&order);
            assert_eq!(check(&c.sheet, &list) == Checked::Accepted, meets, "{} {list:?}", c.name);
            if meets {
                accepted += 1;
                first.get_or_insert(list);
            } else {
                not += 1;
            }
            if !next_order(&mut order) {
                break;
            }
        }
        assert_eq!(first, m.first_by_prefixes(), "{}", c.name);
    }
    println!("{sheets} sheets, {accepted} orders accepted, {not} not");
    assert!(sheets > 1_500 && accepted > 10_000 && not > 10_000, "{sheets} {accepted} {not}");
}

/// Words and lines, by hand; the tests go one after another.
#[test]
fn words_and_lines() {
    // (a): two sc writes and an sc read of the first
    let a = "head 1 3 1\ninit at 0: 00\nA1 write sc at 0: 01\nA2 write sc at 0: 02\nA3 read sc at 0: 01\nrow 3 0 1";
    // (b): litmus 15
    let b = "head 1 3 1\ninit at 0: 00\nA1 write sc at 0: 01\nA1 marker\nA2 write sc at 0: 02\nA2 marker\nA3 marker\n\
             A3 read unordered at 0: 01\nrow 6 0 1\npair 2 5\npair 4 5";
    // (c): an sc read of the init beside an sc write
    let c = "head 1 2 1\ninit at 0: 00\nA1 write sc at 0: 01\nA2 read sc at 0: 00\nrow 2 0 0";
    for (text, list, line, word) in [
        (a, &[0, 2, 1, 3][..], "accepted", 0x600_0000_0000u64),
        (a, &[0, 1, 3, 2], "accepted", 0x600_0000_0000),
        (a, &[0, 1, 2, 3], "not accepted 4 3 1 2 0", 0x704_0301_0200),
        (a, &[0, 3, 1, 2], "not accepted 3 at 1", 0x703_0000_0001),
        (a, &[1, 2, 3, 0], "not accepted 3 at 0", 0x703_0000_0000),
        (a, &[3, 2, 1, 1], "not accepted 2 at 3", 0x702_0000_0003),
        (a, &[4, 4, 4, 4], "not accepted 2 at 0", 0x702_0000_0000),
        (a, &[4, 4, 4], "not accepted 1 length 3", 0x701_0000_0003),
        (a, &[], "not accepted 1 length 0", 0x701_0000_0000),
        (b, &[0, 3, 1, 2, 4, 5, 6], "accepted", 0x600_0000_0000),
        (b, &[0, 1, 3, 2, 4, 5, 6], "not accepted 4 6 1 3 0", 0x704_0601_0300),
        (c, &[0, 2, 1], "accepted", 0x600_0000_0000),
        (c, &[0, 1, 2], "not accepted 4 2 0 1 0", 0x704_0200_0100),
    ] {
        let checked = check(&from_text(text).unwrap(), list);
        assert_eq!((checked.line().as_str(), checked.word()), (line, word), "{list:?}");
    }
    assert_eq!(Checked::NotAccepted(Fault::WrongLength((1 << 32) + 2)).word(), 0x701_ffff_ffff);
    assert_eq!(check(&[], &[]).line(), "refused 3 at 0");
}

/// Random lists show all that they should, at every number of events; what takes the most events, with as many.
#[test]
fn all_is_shown() {
    for max in [5, 9, MAX_OTHERS] {
        let mut seen = BTreeSet::new();
        for index in 0..20_000 {
            let c = list_case(9, index, max);
            seen.extend(shown_list(&c.sheet, &c.list, &check(&c.sheet, &c.list)));
        }
        let may_come = |what: &str| max == MAX_OTHERS || !what.starts_with("the most events");
        let missing: Vec<&&str> = SHOWN_LISTS.iter().filter(|what| may_come(what) && !seen.contains(**what)).collect();
        assert!(missing.is_empty(), "never came with up to {max} events: {missing:?}");
    }
}

//! The second program and the random sheets, held against each other.

use second::judge::{next_order, Relations};
use second::random::{case, damaged, shown, whole, Rng, SHOWN, WAYS};
use second::sheet::{MAX_EVENTS, MAX_OTHERS, MAX_SCRATCH};
use second::text::{from_text, hex, to_text};
use second::{judge, judge_into, needed_scratch, read, Answer, Row};
use std::collections::BTreeMap;

const EXAMPLE: [u8; 30] = [1, 0, 3, 1, 1, 1, 2, 0, 6, 0, 2, 0, 0, 1, 0, 2, 0, 6, 1, 1, 1, 0, 1, 0, 3, 0, 3, 1, 0, 0];

#[test]
fn the_example() {
    let answer = judge(&EXAMPLE, 1, 2);
    assert_eq!(answer.line(), "consistent orderly then 0 1");
    assert_eq!(answer.word(), 0x300_ffff_ffff);
    assert_eq!(judge(&EXAMPLE, 0, 2).line(), "refused 12 at 0");
    assert_eq!(judge(&EXAMPLE, 0, 0).line(), "refused 12 at 0");
    assert_eq!(judge(&EXAMPLE, 1, 1).line(), "refused 13 at 0");
    assert_eq!(judge(&EXAMPLE, 1, 1).word(), 0x10d_0000_0000);
    assert_eq!(judge(&EXAMPLE[..24], 1, 2).word(), 0x10b_0000_000f);
    let mut wrong = EXAMPLE;
    wrong[23] = 7;
    assert_eq!(judge(&wrong, 1, 2).line(), "broken 21 1 0 - 0");
    assert_eq!(judge(&wrong, 1, 2).word(), 0x215_0100_ff00);
}

#[test]
fn both_buffers() {
    let mut wrong = EXAMPLE;
    wrong[23] = 7;
    for (sheet, scratch_after, order_after) in [
        (&EXAMPLE[..24], [9, 9, 9], [9, 9, 9]),
        (&wrong[..], [0, 9, 9], [9, 9, 9]),
        (&EXAMPLE[..], [0, 9, 9], [0, 1, 9]),
    ] {
        let (mut scratch, mut order) = ([9; 3], [9; 3]);
        judge_into(sheet, &mut scratch, &mut order);
        assert_eq!((scratch, order), (scratch_after, order_after));
    }
}

#[test]
fn scratch_needed() {
    let mut rng = Rng::new(3);
    let mut seen = [false; MAX_OTHERS + 1];
    for _ in 0..2000 {
        let x = read(&second::random::bytes(&whole(&mut rng, MAX_OTHERS).1)).unwrap();
        let by_hand = [1, 1, 1, 1, 2, 4, 8, 16, 32, 64, 128, 256, 512, 1024, 2048, 4096, 8192, 16384, 32768];
        assert_eq!(needed_scratch(&x), by_hand[x.others()]);
        seen[x.others()] = true;
    }
    assert!(seen[1..].iter().all(|&seen| seen), "{seen:?}");
}

#[test]
fn orders_in_turn() {
    let mut order = vec![0, 1, 2];
    let mut all = vec![order.clone()];
    while next_order(&mut order) {
        all.push(order.clone());
    }
    assert_eq!(all, [[0, 1, 2], [0, 2, 1], [1, 0, 2], [1, 2, 0], [2, 0, 1], [2, 1, 0]]);
}

/// Each way of damage earns its number, at the place that the damage was done.
#[test]
fn every_way_earns_its_number() {
    let mut rng = Rng::new(11);
    for way in WAYS {
        for i in 0..200 {
            let (sheet, place) =
                damaged(&mut rng, way, [4, 6, MAX_OTHERS][i % 3]).unwrap_or_else(|| panic!("{}: never made", way.name));
            let found = read(&sheet).err();
            assert_eq!(found, Some((way.number, place)), "{}\n{}", way.name, to_text(&sheet));
        }
    }
    for number in (1..=11).chain([14]) {
        assert!(WAYS.iter().any(|w| w.number == number), "no way to earn {number}");
    }
}

#[test]
fn whole_sheets_are_whole() {
    let mut rng = Rng::new(5);
    for _ in 0..20_000 {
        let (name, fields) = whole(&mut rng, 8);
        let sheet = second::random::bytes(&fields);
        assert!(read(&sheet).is_ok(), "{name} {:?}\n{}", read(&sheet), to_text(&sheet));
    }
}

/// The two methods of finding the first order agree, and what they find meets the rules.
#[test]
fn prefixes_against_all_orders() {
    let (mut none, mut some, mut other_than_first) = (0, 0, 0);
    for index in 0..30_000 {
        let c = case(2, index, 6);
        let Ok(x) = read(&c.sheet) else { continue };
        let m = Relations::of(&x);
        if x.events.len() > 7 || m.first_broken_rule().is_some() {
            continue;
        }
        let by_all = m.first_of_all_orders();
        assert_eq!(by_all, m.first_by_prefixes(), "{}\n{}", c.name, to_text(&c.sheet));
        match by_all {
            None => none += 1,
            Some(order) => {
                some += 1;
                other_than_first += usize::from(order.windows(2).any(|w| w[0] > w[1]));
            }
        }
    }
    assert!(none > 300 && some > 3000 && other_than_first > 300, "{none} {some} {other_than_first}");
}

/// An order that was reported meets the rules, and every one that is before it does not (for few events).
#[test]
fn reported_orders_meet_the_rules() {
    for index in 0..20_000 {
        let c = case(4, index, MAX_OTHERS);
        if let Answer::Consistent { order, .. } = judge(&c.sheet, MAX_SCRATCH, MAX_EVENTS) {
            let x = read(&c.sheet).unwrap();
            let order: Vec<usize> = order.iter().map(|&e| e as usize).collect();
            assert!(Relations::of(&x).meets(&order));
        }
    }
}

#[test]
fn text_and_back() {
    for index in 0..20_000 {
        let c = case(6, index, 8);
        let text = to_text(&c.sheet);
        assert_eq!(from_text(&text).as_deref(), Ok(&c.sheet[..]), "{}\n{text}", c.name);
    }
}

/// Edition 2 in the text: every tear byte, every kind of event, and heads in odd places.
#[test]
fn text_and_back_of_edition_2() {
    let there_and_back = |sheet: &[u8], expected: &str| {
        let text = to_text(sheet);
        assert_eq!(from_text(&text).as_deref(), Ok(sheet), "{text}");
        assert_eq!(text, expected);
    };
    let field = |tag: u8, value: &[u8]| [&[tag, 0, value.len() as u8], value].concat();
    // the event without its tear byte and data, its data, the lines for the tear bytes 0 and 1, `-` for bytes
    let cases: [(&[u8], &[u8], &str, &str); 10] = [
        (&[0, 2, 0, 0, 1], &[1], "init at 0: 01", "-"),
        (&[1, 4, 2, 0, 0], &[], "A1 marker", "-"),
        (&[1, 1, 1, 3, 1], &[1], "A1 read unordered may-tear at 3: 01", "A1 read unordered at 3: 01"),
        (&[2, 2, 1, 2, 2], &[1, 2], "A2 write unordered may-tear at 2: 01 02", "A2 write unordered at 2: 01 02"),
        (&[2, 2, 1, 1, 2], &[1, 2], "A2 write unordered at 1: 01 02", "-"),
        (&[2, 1, 1, 0, 3], &[1, 2, 3], "A2 read unordered at 0: 01 02 03", "-"),
        (&[2, 2, 1, 8, 8], &[7; 8], "A2 write unordered at 8: 07 07 07 07 07 07 07 07", "-"),
        (&[3, 3, 2, 0, 1], &[1, 2], "A3 rmw sc may-tear at 0: 01 -> 02", "A3 rmw sc at 0: 01 -> 02"),
        (&[3, 2, 2, 1, 2], &[1, 2], "A3 write sc may-tear at 1: 01 02", "A3 write sc at 1: 01 02"),
        (&[3, 2, 1, 0, 0], &[], "-", "-"),
    ];
    let head = field(1, &[2, 3, 9]);
    for (front, data, may_tear, tear_free) in &cases {
        for tear in 0..=255 {
            let event = field(2, &[front, &[tear][..], data].concat());
            let line = match tear {
                0 if *may_tear != "-" => format!("0 {may_tear}"),
                1 if *tear_free != "-" => format!("0 {tear_free}"),
                _ => format!("bytes {}", hex(&event)),
            };
            there_and_back(&[&head[..], &event].concat(), &format!("head 2 3 9\n{line}\n"));
        }
        // no tear byte at all
        let event = field(2, front);
        there_and_back(&[&head[..], &event].concat(), &format!("head 2 3 9\nbytes {}\n", hex(&event)));
    }
    // the last whole head decides, whatever stands before and behind it
    let (one, two) = (field(2, &[1, 1, 1, 0, 1, 5]), field(2, &[1, 1, 1, 0, 1, 0, 5]));
    let (first, second, third) = (field(1, &[1, 1, 1]), field(1, &[2, 1, 1]), field(1, &[3, 1, 1]));
    let short = field(1, &[2, 1]);
    for (fields, expected) in [
        (vec![&one], "0 A1 read unordered at 0: 05\n"),
        (vec![&two], "bytes 02 00 07 01 01 01 00 01 00 05\n"),
        (vec![&second, &two], "head 2 1 1\n0 A1 read unordered may-tear at 0: 05\n"),
        (vec![&second, &one], "head 2 1 1\nbytes 02 00 06 01 01 01 00 01 05\n"),
        (vec![&first, &one, &second, &two], "head 1 1 1\n0 A1 read unordered at 0: 05\nhead 2 1 1\n1 A1 read unordered may-tear at 0: 05\n"),
        (vec![&two, &second, &two, &third, &one], "bytes 02 00 07 01 01 01 00 01 00 05\nhead 2 1 1\n1 A1 read unordered may-tear at 0: 05\nhead 3 1 1\n2 A1 read unordered at 0: 05\n"),
        (vec![&short, &one], "bytes 01 00 02 02 01\n0 A1 read unordered at 0: 05\n"),
        (vec![&second, &short, &two], "head 2 1 1\nbytes 01 00 02 02 01\n0 A1 read unordered may-tear at 0: 05\n"),
        (vec![&second, &first, &two], "head 2 1 1\nhead 1 1 1\nbytes 02 00 07 01 01 01 00 01 00 05\n"),
    ] {
        there_and_back(&fields.into_iter().flatten().copied().collect::<Vec<u8>>(), expected);
    }
    // the word gives 0 wherever it stands; edition 1 has no such byte, nor has a number that is no edition
    let odd = from_text("head 2 1 9\nA1 read unordered may-tear at 1: 01 02").unwrap();
    assert_eq!(odd[6..], field(2, &[1, 1, 1, 1, 2, 0, 1, 2]));
    for head in ["", "head 1 1 1\n", "head 0 1 1\n", "head 3 1 1\n", "head 2 1\n", "head 2 1 1\nhead 1 1 1\n"] {
        let text = format!("{head}A1 read unordered may-tear at 0: 01");
        assert!(from_text(&text).unwrap_err().contains("may-tear needs a head of edition 2"), "{text}");
    }
    for line in ["A1 marker may-tear", "init may-tear at 0: 01", "A1 read may-tear unordered at 0: 01"] {
        assert!(from_text(&format!("head 2 1 1\n{line}")).is_err(), "{line}");
    }
}

/// Any bytes at all have a text that gives them back.
#[test]
fn text_and_back_of_any_fields() {
    let mut rng = Rng::new(16);
    let mut words = 0;
    for _ in 0..50_000 {
        let mut sheet = if rng.percent(50) { vec![1, 0, 3, 2, 2, 9] } else { vec![] };
        for _ in 0..rng.range(1, 5) {
            let tag = rng.range(0, 5) as u8;
            let mut value: Vec<u8> = (0..rng.below(12)).map(|_| rng.below(4) as u8).collect();
            if tag == 1 && rng.percent(70) {
                value = vec![rng.below(4) as u8, 2, 9];
            }
            if tag == 2 && rng.percent(70) {
                let width = rng.range(0, 4);
                value = vec![
                    rng.below(3) as u8,
                    rng.range(1, 4) as u8,
                    rng.below(3) as u8,
                    rng.below(3) as u8,
                    width as u8,
                ];
                value.extend((0..width + rng.below(3)).map(|_| rng.below(3) as u8));
            }
            sheet.extend([tag, 0, value.len() as u8]);
            sheet.extend(value);
        }
        sheet.truncate(sheet.len() - rng.below(2) * rng.below(3));
        let text = to_text(&sheet);
        words += text.matches("may-tear").count();
        assert_eq!(from_text(&text).as_deref(), Ok(&sheet[..]), "{text}");
    }
    assert!(words > 100, "{words}");
}

#[test]
fn same_seed_same_sheets() {
    for index in 0..100 {
        assert_eq!(case(9, index, 6).sheet, case(9, index, 6).sheet);
    }
    let differ = (0..100).filter(|&i| case(9, i, 6).sheet != case(10, i, 6).sheet).count();
    assert!(differ > 90);
}

/// Random sheets of each edition earn every number and every rule, with and without an unsettled pair; and each test of
/// 02 §4 comes up.
#[test]
fn every_answer_comes_up() {
    let mut hit: BTreeMap<String, usize> = BTreeMap::new();
    let mut of_2: BTreeMap<&str, usize> = BTreeMap::new();
    for index in 0..100_000 {
        let c = case(1, index, 6);
        let answer = judge(&c.sheet, c.scratch, c.order);
        let what = match &answer {
            Answer::Refused { number, .. } => format!("refused {number:2}"),
            Answer::Broken { number, .. } => format!("broken {number}"),
            Answer::Consistent { pair: None, .. } => "consistent orderly".to_string(),
            Answer::Consistent { pair: Some(_), .. } => "consistent unsettled".to_string(),
        };
        if let [1, 0, 3, edition @ 1..=2, ..] = c.sheet[..] {
            *hit.entry(format!("edition {edition}: {what}")).or_default() += 1;
        }
        for what in shown(&c.sheet, &answer) {
            *of_2.entry(what).or_default() += 1;
        }
    }
    for (what, times) in &hit {
        println!("{what}: {times}");
    }
    for (what, times) in &of_2 {
        println!("{what}: {times}");
    }
    assert_eq!(hit.len(), 2 * (14 + 6 + 2));
    assert!(hit.values().all(|&times| times >= 100), "{hit:?}");
    assert!(of_2.keys().all(|what| SHOWN.contains(what)), "{of_2:?}");
    assert!(SHOWN.iter().all(|what| of_2.get(what).is_some_and(|&times| times >= 20)), "{of_2:?}");
}

/// Litmus 12 at edition 2, with each choice of the three tear bytes: 25 comes only where all three are tear-free.
#[test]
fn litmus_12_by_the_tear_bytes() {
    for choice in 0..8u8 {
        let word = |event: u8| if choice >> event & 1 == 1 { "" } else { "may-tear " };
        let text = format!(
            "head 2 3 2\n0 init at 0: 00 00\n1 A1 write unordered {}at 0: 01 01\n2 A2 write unordered {}at 0: 02 02\n\
             3 A3 read unordered {}at 0: 01 02\nrow 3 0 1\nrow 3 1 2\n",
            word(0),
            word(1),
            word(2)
        );
        let sheet = from_text(&text).unwrap();
        let expected = if choice == 7 { "broken 25 3 1 2 -" } else { "consistent unsettled 1 2 then 0 1 2 3" };
        assert_eq!(judge(&sheet, MAX_SCRATCH, MAX_EVENTS).line(), expected, "{text}");
        let tear_free: Vec<bool> = read(&sheet).unwrap().events.iter().map(|e| e.accesses[0].tear_free).collect();
        assert_eq!(tear_free, [false, choice & 1 == 1, choice & 2 == 2, choice & 4 == 4]);
    }
}

/// "Both editions give the same event record, with its tear byte": a sheet of edition 1, and the same with the tear bytes
/// of 01's rule at edition 2, say the same and get the same answer.
#[test]
fn both_editions_give_the_same_record() {
    let mut rng = Rng::new(17);
    let mut compared = 0;
    while compared < 5000 {
        let one = second::random::bytes(&whole(&mut rng, 8).1);
        if one[3] != 1 {
            continue;
        }
        let text = to_text(&one);
        let two = from_text(&text.replacen("head 1", "head 2", 1)).unwrap();
        let (mut x, mut y) = (read(&one).unwrap(), read(&two).unwrap());
        assert_eq!((x.edition, y.edition), (1, 2));
        y.edition = 1;
        for e in x.events.iter_mut().chain(&mut y.events) {
            e.place = 0;
        }
        assert_eq!(x, y, "{text}");
        let [first, second] = [&one, &two].map(|sheet| judge(sheet, MAX_SCRATCH, MAX_EVENTS));
        assert_eq!(first, second, "{text}");
        compared += 1;
    }
}

/// The reader's table, written by hand.
#[test]
fn the_readers_table() {
    let table = include_str!("../../../tests/reader/sheets.tsv");
    let mut sheets = 0;
    for line in table.lines().filter(|l| !l.starts_with('#')) {
        let [name, hex, expected] = line.split('\t').collect::<Vec<_>>()[..] else { panic!("{line}") };
        let found = match read(&second::text::from_hex(hex).unwrap()) {
            Err((number, place)) => format!("refused {number} at {place}"),
            Ok(x) => {
                let numbers = [x.inits(), x.events.len(), x.rows.len(), x.pairs.len()];
                format!("read {} {} {}", x.agents, x.size, numbers.map(|n| n.to_string()).join(" "))
            }
        };
        assert_eq!(found, expected, "{name}");
        sheets += 1;
    }
    assert!(sheets >= 60);
}

/// Every litmus entry, its line written by hand from document 01; the files are as their source makes them.
#[test]
fn the_litmus_table() {
    let dir = concat!(env!("CARGO_MANIFEST_DIR"), "/../../examples/litmus");
    let entries = second::text::litmus(&std::fs::read_to_string(format!("{dir}/litmus.src")).unwrap()).unwrap();
    assert!(entries.len() >= 56);
    for e in &entries {
        assert_eq!(judge(&e.sheet, MAX_SCRATCH, MAX_EVENTS).line(), e.line, "{}", e.name);
        for (room, places, line) in &e.lent {
            assert_eq!(judge(&e.sheet, *room, *places).line(), *line, "{}, lent {room} {places}", e.name);
        }
        let file = |end: &str| std::fs::read(format!("{dir}/{}.{end}", e.name)).unwrap();
        assert_eq!(file("sheet"), e.sheet, "{}: run tests/make", e.name);
        assert_eq!(file("line"), format!("{}\n", e.line).into_bytes(), "{}: run tests/make", e.name);
    }
    let first = std::fs::read(format!("{dir}/../first.sheet")).unwrap();
    assert_eq!(first, EXAMPLE);
    // 16, as 02 §6 has it: with 32,767 bytes of scratch
    let eighteen = entries.iter().find(|e| e.name == "16a-eighteen-others").unwrap();
    assert_eq!(judge(&eighteen.sheet, 32767, 22).line(), "refused 12 at 0");
}

/// Random sheets where one of (a), (b), (c) alone changes the answer: without them that reason would be untried.
#[test]
fn each_reason_decides_somewhere() {
    let mut decides = [0; 3];
    for index in 0..20_000 {
        let c = case(8, index, 7);
        let Ok(x) = read(&c.sheet) else { continue };
        let m = Relations::of(&x);
        if x.events.len() > 7 || m.first_broken_rule().is_some() {
            continue;
        }
        let first = m.first_of_all_orders();
        for (left_out, count) in decides.iter_mut().enumerate() {
            let bar = |row: &Row, v| m.reasons(row, v).iter().enumerate().any(|(i, &reason)| reason && i != left_out);
            let mut order: Vec<usize> = (0..x.events.len()).collect();
            let found = loop {
                let place = |e| order.iter().position(|&o| o == e).unwrap();
                let n = order.len();
                let kept = (0..n).all(|a| (0..n).all(|b| !m.before[a][b] || place(a) < place(b)));
                let between = |row: &Row, v| place(row.writer) < place(v) && place(v) < place(row.reader);
                let barred = |row: &Row| (0..n).any(|v| between(row, v) && bar(row, v));
                if kept && !x.rows.iter().any(barred) {
                    break Some(order.iter().map(|&e| e as u8).collect::<Vec<u8>>());
                }
                if !next_order(&mut order) {
                    break None;
                }
            };
            *count += usize::from(found != first);
        }
    }
    println!("(a), (b), (c) decide {decides:?} times");
    assert!(decides.iter().all(|&d| d >= 50), "{decides:?}");
}

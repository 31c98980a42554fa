//! The lent buffers: what they hold after each kind of answer, every length from 0 up, and bytes of any kind.

use plimdrong::{judge_with, Answer, Judge, MAX_EVENTS, MAX_SCRATCH};
use second::random::{case, Rng};
use second::text::{from_text, to_text};

fn sheet(name: &str) -> Vec<u8> {
    std::fs::read(format!("{}/../examples/litmus/{name}.sheet", env!("CARGO_MANIFEST_DIR"))).unwrap()
}

/// The line, the scratch and the order buffer, both lent full of 9 with `scratch` and `order` bytes.
fn run(sheet: &[u8], scratch: usize, order: usize) -> (u64, Vec<u8>, Vec<u8>) {
    let (mut s, mut o) = (vec![9; scratch], vec![9; order]);
    let word = judge_with(sheet, &mut s, &mut o);
    (word, s, o)
}

fn number(word: u64) -> (u64, u64) {
    (word >> 40 & 255, word >> 32 & 255)
}

#[test]
fn after_a_refusal_both_are_unchanged() {
    for name in ["02-row-removed", "16b-nineteenth-event", "16c-head-alone", "16e-agents-9"] {
        let (word, s, o) = run(&sheet(name), MAX_SCRATCH, MAX_EVENTS);
        assert_eq!(number(word).0, 1);
        assert_eq!((s, o), (vec![9; MAX_SCRATCH], vec![9; MAX_EVENTS]), "{name}");
    }
    // 12 and 13
    let fifteen = sheet("15-markers"); // six events that are not inits: 8 bytes
    for (scratch, order, refusal) in [(7, 20, 12), (0, 0, 12), (8, 6, 13), (8, 0, 13)] {
        let (word, s, o) = run(&fifteen, scratch, order);
        assert_eq!(word, (1 << 40) + (refusal << 32));
        assert_eq!((s, o), (vec![9; scratch], vec![9; order]));
    }
}

#[test]
fn after_a_broken_rule_the_needed_scratch_is_zero() {
    for (name, rule, needed) in [
        ("03-another-byte", 21, 1),
        ("10-load-buffering", 22, 2),
        ("11-from-the-future", 23, 1),
        ("04-message-passing-stale", 24, 2),
        ("12-torn", 25, 1),
        ("07-store-buffering", 26, 2),
        ("22-two-readers-disagree", 26, 8),
    ] {
        let (word, s, o) = run(&sheet(name), 40, 20);
        assert_eq!(number(word), (2, rule), "{name}");
        assert_eq!(s[..needed], vec![0; needed], "{name}");
        assert_eq!(s[needed..], vec![9; 40 - needed], "{name}");
        assert_eq!(o, vec![9; 20], "{name}");
    }
}

#[test]
fn after_a_consistent_one_the_order_stands_in_front() {
    for (name, needed, order) in [
        ("01-example", 1, &[0, 1][..]),
        ("09-store-buffering-one-sees", 2, &[0, 3, 4, 1, 2]),
        ("15-markers", 8, &[0, 3, 1, 2, 4, 5, 6]),
        ("08-store-buffering-unordered", 2, &[0, 1, 2, 3, 4]),
    ] {
        let (word, s, o) = run(&sheet(name), 40, 20);
        assert_eq!(number(word).0, 3, "{name}");
        assert_eq!(s[..needed], vec![0; needed], "{name}");
        assert_eq!(s[needed..], vec![9; 40 - needed], "{name}");
        assert_eq!(&o[..order.len()], order, "{name}");
        assert_eq!(o[order.len()..], vec![9; 20 - order.len()], "{name}");
    }
}

/// Litmus 16: 32,768 bytes of scratch for 18 events, and no byte less; and so for every number of events below: a sheet of
/// so many markers and one read.
#[test]
fn scratch_by_the_number_of_events() {
    let eighteen = sheet("16a-eighteen-others");
    assert_eq!(number(run(&eighteen, 32768, 19).0).0, 3);
    assert_eq!(number(run(&eighteen, 32767, 19).0), (1, 12));
    assert_eq!(number(run(&eighteen, 32768, 18).0), (1, 13));
    let by_hand = [1, 1, 1, 2, 4, 8, 16, 32, 64, 128, 256, 512, 1024, 2048, 4096, 8192, 16384, 32768];
    for (i, needed) in by_hand.into_iter().enumerate() {
        let markers = "A1 marker\n".repeat(i);
        let text = format!("head 1 1 1\ninit at 0: 00\nA1 read sc at 0: 00\n{markers}row 1 0 0\n");
        let bytes = from_text(&text).unwrap();
        let (word, s, o) = run(&bytes, needed, i + 2);
        assert_eq!((word, s), (0x300_ffff_ffff, vec![0; needed]), "{text}");
        assert_eq!(o, (0..i as u8 + 2).collect::<Vec<u8>>(), "{text}");
        assert_eq!(run(&bytes, needed - 1, i + 2).0, 0x10c_0000_0000, "{text}");
        assert_eq!(run(&bytes, needed, i + 1).0, 0x10d_0000_0000, "{text}");
    }
    // one marker more
    let text = format!("head 1 1 1\ninit at 0: 00\nA1 read sc at 0: 00\n{}row 1 0 0\n", "A1 marker\n".repeat(18));
    assert_eq!(number(run(&from_text(&text).unwrap(), MAX_SCRATCH, MAX_EVENTS).0), (1, 9));
}

/// 22 events, the most, in buffers that are just enough: the order fills its buffer.
#[test]
fn four_inits_and_eighteen_others() {
    let inits: String = (0..4).map(|i| format!("init at {i}: 00\n")).collect();
    let reads: String = (0..18).map(|i| format!("A{} read sc at {}: 00\n", 1 + i % 8, i % 4)).collect();
    let rows: String = (0..18).map(|i| format!("row {} {} {}\n", 4 + i, i % 4, i % 4)).collect();
    let bytes = from_text(&format!("head 1 8 4\n{inits}{reads}{rows}")).unwrap();
    let (word, s, o) = run(&bytes, 32768, 22);
    assert_eq!((word, s, o), (0x300_ffff_ffff, vec![0; 32768], (0..22).collect()));
    assert_eq!(run(&bytes, 32767, 22).0, 0x10c_0000_0000);
    assert_eq!(run(&bytes, 32768, 21).0, 0x10d_0000_0000);
}

/// Every length of the two buffers from 0 up: 12 below what the scratch needs, then 13 below the number of events.
#[test]
fn lengths_from_0_up() {
    for (name, needed, events) in [
        ("01-example", 1, 2),
        ("09-store-buffering-one-sees", 2, 5),
        ("15-markers", 8, 7),
        ("07-store-buffering", 2, 5),
    ] {
        let bytes = sheet(name);
        let whole = run(&bytes, needed, events).0;
        for scratch in 0..needed + 4 {
            for order in 0..events + 4 {
                let (word, s, o) = run(&bytes, scratch, order);
                if scratch < needed {
                    assert_eq!(word, (1 << 40) + (12 << 32));
                } else if order < events {
                    assert_eq!(word, (1 << 40) + (13 << 32));
                } else {
                    assert_eq!(word, whole);
                    assert!(s[..needed].iter().all(|&b| b == 0) && s[needed..].iter().all(|&b| b == 9));
                    assert!(o[events..].iter().all(|&b| b == 9));
                    continue;
                }
                assert_eq!((s, o), (vec![9; scratch], vec![9; order]));
            }
        }
    }
    // the same for sheets of every size
    for index in 0..2000 {
        let c = case(31, index, second::sheet::MAX_OTHERS);
        let Ok(x) = second::read(&c.sheet) else { continue };
        let (needed, events) = (second::needed_scratch(&x), x.events.len());
        assert_eq!(number(run(&c.sheet, needed - 1, events).0), (1, 12));
        assert_eq!(number(run(&c.sheet, needed, events - 1).0), (1, 13));
        assert!(number(run(&c.sheet, needed, events).0).0 > 1);
    }
}

/// What the scratch holds on entry does not matter.
#[test]
fn the_scratchs_content_does_not_matter() {
    let mut rng = Rng::new(5);
    let mut scratch = vec![0; MAX_SCRATCH];
    for index in 0..3000 {
        let c = case(32, index, 9);
        let mut order = [255; MAX_EVENTS];
        let clean = judge_with(&c.sheet, &mut vec![0; MAX_SCRATCH], &mut order);
        scratch.iter_mut().for_each(|b| *b = rng.byte());
        let mut order2 = [255; MAX_EVENTS];
        let dirty = judge_with(&c.sheet, &mut scratch, &mut order2);
        assert_eq!((clean, order), (dirty, order2), "{}", c.name);
    }
}

/// Bytes of any kind get an answer: lengths 0 to 5,000, noise, and noise that looks like fields.
#[test]
fn arbitrary_bytes() {
    let mut rng = Rng::new(7);
    let mut judge = Judge::new();
    for length in 0..5000 {
        let noise: Vec<u8> = (0..length).map(|_| rng.byte()).collect();
        let zeros = vec![0; length];
        let fields: Vec<u8> = (0..length).map(|i| [2, 0, 6, 1, 2, 1, 0, 1, 0][i % 9]).collect();
        for bytes in [noise, zeros, fields] {
            let answer = judge.judge(&bytes);
            assert!(matches!(answer, Answer::Refused { .. }), "{answer}");
        }
    }
    // every single byte of a whole sheet, of either edition, changed to every value; every front part of it
    let names = ["15-markers", "14-two-read-modify-writes", "12-torn"];
    let of_2 = |sheet: &[u8]| from_text(&to_text(sheet).replacen("head 1", "head 2", 1)).unwrap();
    for whole in names.map(sheet).iter().flat_map(|one| [one.clone(), of_2(one)]) {
        for i in 0..whole.len() {
            judge.judge(&whole[..i]);
            let mut changed = whole.clone();
            for value in 0..=255 {
                changed[i] = value;
                let answer = judge.judge(&changed);
                assert_eq!(answer.to_string(), second::judge(&changed, MAX_SCRATCH, MAX_EVENTS).line());
            }
        }
    }
}

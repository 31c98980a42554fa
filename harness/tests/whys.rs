//! The bars that are kept of a sheet broken by 26 (02 §8): random sheets against the second program, and the lent buffers at
//! every length. More of them, with any seed: `cargo run --release --example compare -- --whys --seed S --count N`.

mod compare_whys;

use plimdrong::{judge_with, why_with, MAX_EVENTS, MAX_SCRATCH};
use second::random::{why_case, Rng};
use second::sheet::MAX_OTHERS;
use second::text::from_text;
use second::Why;

#[test]
fn random_whys() {
    let count = if cfg!(debug_assertions) { 20_000 } else { 150_000 };
    let tally = compare_whys::random_whys(1, count, 0).unwrap_or_else(|wrong| panic!("{wrong}"));
    println!("{count} random sheets, words, bars and scratches as the second program says\n{tally}");
    // 20,000 are too few for every length of a kept list
    let missing = tally.missing();
    assert!(missing.is_empty() || cfg!(debug_assertions), "never came: {}", missing.join(", "));
}

fn litmus(name: &str) -> Vec<u8> {
    std::fs::read(format!("{}/../examples/litmus/{name}.sheet", env!("CARGO_MANIFEST_DIR"))).unwrap()
}

/// The word, the scratch and the buffer for the bars, lent full of 9 and of 7.
fn run(sheet: &[u8], scratch: usize, bars: usize) -> (u64, Vec<u8>, Vec<u8>) {
    let (mut s, mut b) = (vec![9; scratch], vec![7; bars]);
    let word = why_with(sheet, &mut s, &mut b);
    (word, s, b)
}

const KEPT: u64 = 8 << 40 | 26 << 32;
const TWELVE: u64 = 1 << 40 | 12 << 32;
const SIXTEEN: u64 = 1 << 40 | 16 << 32;

/// Kept lists by hand: harness/second/tests/why.rs says how they come about.
#[test]
fn by_hand() {
    for (name, needed, kept) in [
        ("07-store-buffering", 2, &[2, 0, 3, 4, 0, 1][..]),
        ("14-two-read-modify-writes", 1, &[1, 0, 2, 2, 0, 1]),
        ("22-two-readers-disagree", 8, &[4, 2, 1, 6, 1, 2]),
    ] {
        let sheet = litmus(name);
        let (word, s, b) = run(&sheet, needed + 3, kept.len() + 5);
        assert_eq!(word, KEPT + kept.len() as u64 / 3, "{name}");
        assert_eq!(s, [vec![0; needed], vec![9; 3]].concat(), "{name}");
        assert_eq!(b, [kept, &[7; 5][..]].concat(), "{name}");
    }
}

/// Every length of the two buffers from 0 up, 12 before 16; after 16 the scratch is cleared and the buffer is as it was.
#[test]
fn lengths_from_0_up() {
    for (name, needed, kept) in
        [("07-store-buffering", 2, 2), ("14-two-read-modify-writes", 1, 2), ("22-two-readers-disagree", 8, 2)]
    {
        let sheet = litmus(name);
        for scratch in 0..needed + 4 {
            for bars in 0..3 * kept + 4 {
                let (word, s, b) = run(&sheet, scratch, bars);
                if scratch < needed {
                    assert_eq!((word, s, b), (TWELVE, vec![9; scratch], vec![7; bars]), "{name}");
                    continue;
                }
                assert_eq!(s, [vec![0; needed], vec![9; scratch - needed]].concat(), "{name}");
                if bars < 3 * kept {
                    assert_eq!((word, b), (SIXTEEN, vec![7; bars]), "{name}");
                } else {
                    assert_eq!(word, KEPT + kept as u64, "{name}");
                    assert_eq!(b[3 * kept..], vec![7; bars - 3 * kept], "{name}");
                }
            }
        }
    }
}

/// Sheets not broken by 26 get the judge's own word, with no buffer for the bars at all, and need no room for an order.
#[test]
fn the_judges_own_word() {
    let dir = concat!(env!("CARGO_MANIFEST_DIR"), "/../examples/litmus");
    let (mut others, mut kept) = (0, 0);
    for file in std::fs::read_dir(dir).unwrap().map(|f| f.unwrap().path()) {
        if file.extension().is_none_or(|e| e != "sheet") {
            continue;
        }
        let sheet = std::fs::read(&file).unwrap();
        let judged = judge_with(&sheet, &mut vec![0; MAX_SCRATCH], &mut [0; MAX_EVENTS]);
        let (word, _, b) = run(&sheet, MAX_SCRATCH, 0);
        assert_eq!(b, vec![]);
        if judged >> 32 == 2 << 8 | 26 {
            assert_eq!(word, SIXTEEN, "{}", file.display());
            kept += 1;
        } else {
            assert_eq!(word, judged, "{}", file.display());
            others += 1;
        }
        let (word, _, b) = run(&sheet, MAX_SCRATCH, 1000);
        let mut told = vec![7; 1000];
        let expected = second::why_into(&sheet, &mut vec![0; MAX_SCRATCH], &mut told);
        assert_eq!((word, b), (expected.word(), told), "{}", file.display());
    }
    println!("{others} stored sheets with the judge's own word, {kept} with a kept list");
    assert!(others > 60 && kept >= 5, "{others} {kept}");
}

/// What the scratch and the buffer hold on entry does not matter, and a second call says the same as the first.
#[test]
fn what_the_buffers_hold_does_not_matter() {
    let mut rng = Rng::new(6);
    let (mut scratch, mut bars) = (vec![0; MAX_SCRATCH], vec![0; 300]);
    for index in 0..3_000 {
        let c = why_case(33, index, if index % 10 == 0 { MAX_OTHERS } else { 7 });
        let clean = run(&c.sheet, MAX_SCRATCH, 300);
        let filled = if rng.percent(30) { 255 } else { rng.byte() };
        scratch.iter_mut().for_each(|b| *b = filled);
        bars.iter_mut().for_each(|b| *b = rng.byte());
        for _ in 0..2 {
            let word = why_with(&c.sheet, &mut scratch, &mut bars);
            assert_eq!(word, clean.0, "{}", c.name);
            let written = if word >> 40 == 8 { 3 * (word & 0xffff_ffff) as usize } else { 0 };
            assert_eq!(bars[..written], clean.2[..written], "{}", c.name);
        }
    }
}

/// Each number of events from 2 up, with the scratch that it needs and no byte less: two read-modify-writes and markers.
#[test]
fn scratch_by_the_number_of_events() {
    let by_hand = [1, 1, 2, 4, 8, 16, 32, 64, 128, 256, 512, 1024, 2048, 4096, 8192, 16384, 32768];
    for (i, needed) in by_hand.into_iter().enumerate() {
        let markers = "A2 marker\n".repeat(i);
        let text = format!(
            "head 2 2 1\ninit at 0: 00\nA1 rmw sc at 0: 00 -> 01\nA2 rmw sc at 0: 00 -> 02\n{markers}row 1 0 0\nrow 2 0 0\n"
        );
        let sheet = from_text(&text).unwrap();
        assert_eq!(run(&sheet, needed, 6), (KEPT + 2, vec![0; needed], vec![1, 0, 2, 2, 0, 1]), "{text}");
        assert_eq!(run(&sheet, needed, 5), (SIXTEEN, vec![0; needed], vec![7; 5]), "{text}");
        assert_eq!(run(&sheet, needed - 1, 0), (TWELVE, vec![9; needed - 1], vec![]), "{text}");
    }
}

/// Every byte of a whole sheet changed to every value, and every front part of it: an answer, as the second program gives it.
#[test]
fn arbitrary_bytes() {
    for name in ["07-store-buffering", "14-two-read-modify-writes"] {
        let whole = litmus(name);
        for i in 0..whole.len() {
            let mut changed = whole.clone();
            for value in 0..=255 {
                changed[i] = value;
                let mut told = vec![7; 12];
                let expected = second::why_into(&changed, &mut [9; 64], &mut told);
                let (word, _, b) = run(&changed, 64, 12);
                assert_eq!((word, b), (expected.word(), told), "{name}, byte {i} is {value}");
            }
            assert!(matches!(second::why(&whole[..i], 64, 12), Why::Sheet(_)));
            assert_eq!(run(&whole[..i], 64, 12).0 >> 40, 1, "{name}, {i} bytes");
        }
    }
}

//! Random sheets of both editions, whole in every verdict and damaged in every way, and every small event alone, against the
//! second program. More of them, with any seed: `cargo run --release --example compare -- --seed S --count N`.

mod compare;

use plimdrong::{judge_with, MAX_EVENTS, MAX_SCRATCH};

#[test]
fn random_sheets() {
    let count = if cfg!(debug_assertions) { 20_000 } else { 500_000 };
    let tally = compare::random_sheets(1, count, 0).unwrap_or_else(|wrong| panic!("{wrong}"));
    println!("{count} random sheets, answer, order and both buffers as the second program says\n{tally}");
    let missing = tally.missing();
    assert!(missing.is_empty(), "never came: {}", missing.join(", "));
}

/// Every small event as a sheet's only one, at both editions, with the right length, a byte less and up to two more: the
/// word that the second program says. How many pass was counted by hand.
#[test]
fn every_small_event() {
    let (mut scratch, mut order) = ([0; MAX_SCRATCH], [0; MAX_EVENTS]);
    for (edition, tears, by_hand) in [(1, &[0][..], 207), (2, &[0, 1, 2, 255], 243)] {
        let (mut passed, mut all) = (0, 0);
        for code in 0..3 * 6 * 4 * 10 * 9 {
            let (agent, kind, mode, start) = (code % 3, code / 3 % 6, code / 18 % 4, code / 72 % 10);
            let width = [0, 1, 2, 3, 4, 5, 8, 9, 16][code / 720];
            let exact = match kind {
                3 => 2 * width,
                4 => 0,
                _ => width,
            };
            for &tear in tears {
                for length in (exact.max(1) - 1..exact).chain(exact..=exact + 2) {
                    let mut value = vec![agent as u8, kind as u8, mode as u8, start as u8, width as u8];
                    value.extend((edition == 2).then_some(tear));
                    value.extend(vec![0; length]);
                    let sheet = [&[1, 0, 3, edition, 1, 16, 2, 0, value.len() as u8], &value[..]].concat();
                    let expected = second::judge(&sheet, MAX_SCRATCH, MAX_EVENTS);
                    assert_eq!(judge_with(&sheet, &mut scratch, &mut order), expected.word(), "{sheet:?}");
                    let second::Answer::Refused { number, .. } = expected else { panic!("{sheet:?}") };
                    assert!([4, 6, 10, 11].contains(&number), "{sheet:?}");
                    passed += u32::from(number >= 10);
                    all += 1;
                }
            }
        }
        println!("edition {edition}: {all} sheets of one event, {passed} events pass");
        assert_eq!(passed, by_hand);
    }
}

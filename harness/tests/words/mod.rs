//! Words to take apart, for the crate and for the header's macros: the same ones.

use plimdrong::{Answer, Checked, ListFault};

/// All 256 kinds, each with numbers and names at their ends, without bits from 48 up, with each of them alone and with
/// all; and 20,000 words of 64 random bits.
pub fn words() -> Vec<u64> {
    let above: Vec<u64> = [0, 0xffff].into_iter().chain((0..16).map(|bit| 1 << bit)).collect();
    let places = [0, 1, 255, 256, 4096];
    let names =
        [0xff00_ff00, 0x0102_0304, 0xffff_ffff, 0x01ff_ffff, 0xffff_ff01, 0x0100_ff00, 0x0102_03ff, 0x0102_ffff];
    let mut words = Vec::new();
    for kind in 0..256 {
        for number in (0..30).chain([254, 255]) {
            for rest in places.into_iter().chain(names) {
                words.extend(above.iter().map(|above| above << 48 | kind << 40 | number << 32 | rest));
            }
        }
    }
    let mut random = 0x9e37_79b9_7f4a_7c15u64;
    for _ in 0..20_000 {
        random ^= random << 13;
        random ^= random >> 7;
        random ^= random << 17;
        words.push(random);
    }
    words
}

/// Kind, number and the 32 bits of a word, as crates/answer/specs/Read.antt has them: `kindIn`, `numberIn`, `placeIn`.
pub fn parts(word: u64) -> (u64, u64, u64) {
    (word / 2u64.pow(40) % 256, word / 2u64.pow(32) % 256, word % 2u64.pow(32))
}

/// Kind, number and the 32 bits of an answer, by what it says itself.
pub fn parts_of(answer: &Answer) -> (u64, u64, u64) {
    let four = |names: [Option<u8>; 4]| names.iter().fold(0, |low, name| low * 256 + name.unwrap_or(255) as u64);
    match answer {
        Answer::Refused { number, place } => (1, *number as u64, *place as u64),
        Answer::Broken { rule } => (2, rule.number() as u64, four(rule.names())),
        Answer::Consistent { pair: None, .. } => (3, 0, four([None; 4])),
        Answer::Consistent { pair: Some((e, d)), .. } => (3, 1, four([Some(*e), Some(*d), None, None])),
    }
}

/// The same of a checker's answer.
pub fn parts_of_checked(checked: &Checked) -> (u64, u64, u64) {
    let Checked::NotAccepted { fault } = checked else {
        return checked.of_the_sheet().map_or((6, 0, 0), |answer| parts_of(&answer));
    };
    let low = match *fault {
        ListFault::WrongLength { length } => length,
        ListFault::BadNumber { index } | ListFault::TooEarly { index } => index,
        ListFault::Barred { reader, writer, between, address } => {
            u32::from_be_bytes([reader, writer, between, address])
        }
    };
    (7, fault.number() as u64, low as u64)
}

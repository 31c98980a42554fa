//! What comes back: the report line, the 64-bit word, and what both buffers hold.

use crate::judge::judge;
use crate::sheet::{read, Execution};

/// "An answer is one of three kinds, each with its own numbers."
#[derive(Clone, Debug, PartialEq, Eq)]
pub enum Answer {
    Refused {
        number: u8,
        place: usize,
    },
    /// The names are R, W, V, A (or E alone); `None` where 01 prints `-`.
    Broken {
        number: u8,
        names: [Option<u8>; 4],
    },
    Consistent {
        order: Vec<u8>,
        pair: Option<(u8, u8)>,
    },
}

/// "With n events that are not inits, the scratch needs the larger of 1 and 2^n / 8 bytes."
pub fn needed_scratch(x: &Execution) -> usize {
    ((1usize << x.others()) / 8).max(1)
}

impl Answer {
    /// "`refused N at P`, `broken N R W V A` (`-` for none), `consistent orderly then` or `consistent unsettled E D
    /// then` with the order, single spaces", without the newline.
    pub fn line(&self) -> String {
        match self {
            Answer::Refused { number, place } => format!("refused {number} at {place}"),
            Answer::Broken { number, names } => {
                let mut line = format!("broken {number}");
                for name in names {
                    match name {
                        Some(number) => line += &format!(" {number}"),
                        None => line += " -",
                    }
                }
                line
            }
            Answer::Consistent { order, pair } => {
                let mut line = match pair {
                    None => "consistent orderly then".to_string(),
                    Some((e, d)) => format!("consistent unsettled {e} {d} then"),
                };
                for event in order {
                    line += &format!(" {event}");
                }
                line
            }
        }
    }

    /// "kind (1, 2, 3) times 2^40, plus number times 2^32, plus the place, or the four names as bytes, the first most
    /// significant, 255 for none. For kind 3 the number is 0 orderly, 1 unsettled; the first two names are the pair,
    /// all others 255."
    pub fn word(&self) -> u64 {
        let names = |n: [u64; 4]| n[0] * (1 << 24) + n[1] * (1 << 16) + n[2] * (1 << 8) + n[3];
        let (kind, number, low) = match self {
            Answer::Refused { number, place } => (1u64, *number as u64, *place as u64),
            Answer::Broken { number, names: n } => (2, *number as u64, names(n.map(|n| n.map_or(255, u64::from)))),
            Answer::Consistent { pair: None, .. } => (3, 0, names([255; 4])),
            Answer::Consistent { pair: Some((e, d)), .. } => (3, 1, names([*e as u64, *d as u64, 255, 255])),
        };
        kind * (1 << 40) + number * (1 << 32) + low
    }
}

/// The answer, its word, and what it leaves in the buffers. "Refused: both buffers unchanged. Broken: the needed part
/// of the scratch is zero, the rest and the order buffer unchanged. Consistent: the same for the scratch, and the order
/// buffer's first bytes, one for each event, hold the order; its rest is unchanged."
pub fn judge_into(sheet: &[u8], scratch: &mut [u8], order: &mut [u8]) -> Answer {
    let answer = judge(sheet, scratch.len(), order.len());
    if !matches!(answer, Answer::Refused { .. }) {
        let x = read(sheet).expect("a sheet that was not refused is whole");
        scratch[..needed_scratch(&x)].fill(0);
    }
    if let Answer::Consistent { order: first, .. } = &answer {
        order[..first.len()].copy_from_slice(first);
    }
    answer
}

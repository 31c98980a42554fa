//! What an audit counts.

use crate::record::Class;
use std::collections::BTreeMap;

/// How many records got each kind of answer.
#[derive(Clone, Debug, Default, PartialEq, Eq)]
pub struct Counts(pub BTreeMap<Class, u64>);

/// What another judge said of a record.
#[derive(Clone, Copy, Debug, PartialEq, Eq, PartialOrd, Ord)]
pub enum Old {
    Pass,
    Fail,
}

/// Another judge's answers beside this one's.
#[derive(Clone, Debug, Default, PartialEq, Eq)]
pub struct Compared {
    /// The file of the other judge's answers, as it was named.
    pub file: String,
    /// Records that both speak of, by the two answers.
    pub both: BTreeMap<(Old, Class), u64>,
    /// Records of the archive of which the other said nothing.
    pub unsaid: u64,
    /// Names in the file that are no record of the archive.
    pub elsewhere: u64,
    /// Names that stand more than once in the file; the first counts.
    pub twice: u64,
}

/// All that the page and the report tell in numbers.
#[derive(Clone, Debug, Default, PartialEq, Eq)]
pub struct Summary {
    /// What was audited, as it was named.
    pub archives: Vec<String>,
    pub counts: Counts,
    /// Files that were left out, and by which ending of a name.
    pub left_out: Option<(String, u64)>,
    pub compared: Option<Compared>,
}

/// A number with commas between thousands.
pub fn grouped(number: u64) -> String {
    let digits = number.to_string();
    let comma = |i: usize| if i > 0 && (digits.len() - i).is_multiple_of(3) { "," } else { "" };
    digits.char_indices().map(|(i, digit)| format!("{}{digit}", comma(i))).collect()
}

impl Counts {
    pub fn add(&mut self, class: Class) {
        *self.0.entry(class).or_default() += 1;
    }

    pub fn add_all(&mut self, more: &Counts) {
        more.0.iter().for_each(|(class, n)| *self.0.entry(*class).or_default() += n);
    }

    pub fn of(&self, class: Class) -> u64 {
        self.0.get(&class).copied().unwrap_or(0)
    }

    pub fn sum(&self, asked: impl Fn(Class) -> bool) -> u64 {
        self.0.iter().filter(|(class, _)| asked(**class)).map(|(_, n)| n).sum()
    }

    pub fn all(&self) -> u64 {
        self.sum(|_| true)
    }

    pub fn consistent(&self) -> u64 {
        self.sum(|c| matches!(c, Class::Orderly | Class::Unsettled))
    }

    pub fn broken(&self) -> u64 {
        self.sum(|c| matches!(c, Class::Broken(_)))
    }

    pub fn refused(&self) -> u64 {
        self.sum(|c| matches!(c, Class::Refused(_)))
    }
}

impl Compared {
    pub fn sum(&self, asked: impl Fn(Old, Class) -> bool) -> u64 {
        self.both.iter().filter(|((old, class), _)| asked(*old, *class)).map(|(_, n)| n).sum()
    }
}

#[cfg(test)]
mod tests {
    #[test]
    fn numbers_are_grouped() {
        for (number, text) in [(0, "0"), (999, "999"), (1000, "1,000"), (12345, "12,345"), (1234567, "1,234,567")] {
            assert_eq!(super::grouped(number), text);
        }
    }
}

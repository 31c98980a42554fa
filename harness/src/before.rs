//! Happens-before of a sheet, as the proved checker has it.

use crate::check::placed_without;
use crate::{check, Table};

/// Which event of a sheet happens before which.
///
/// The checker says of a list whether an event stands before one that happens before it; this asks it of enough lists. So
/// there is no second happens-before.
///
/// ```
/// use plimdrong::{HappensBefore, Table};
///
/// let table = Table::parse(
///     "head 2 2 1
///      init at 0: 00
///      A1 write sc at 0: 01
///      A1 read sc at 0: 01
///      A2 read sc at 0: 00
///      row 2 0 1
///      row 3 0 0",
/// );
/// let before = HappensBefore::of(&table.unwrap().sheet().unwrap()).unwrap();
/// assert!(before.is(0, 3) && before.is(1, 2) && before.is(0, 2));
/// assert!(!before.is(1, 3) && !before.is(3, 1) && !before.is(2, 1) && !before.is(1, 1));
/// ```
#[derive(Clone, Debug, PartialEq, Eq)]
pub struct HappensBefore {
    /// For each event a bit for each event that it happens before.
    later: Vec<u32>,
}

impl HappensBefore {
    /// Nothing for a sheet that is refused or broken by 21 to 25, of which the checker does not say it.
    pub fn of(sheet: &[u8]) -> Option<HappensBefore> {
        let events = Table::of(sheet).ok()?.events.len() as u8;
        let listed: Vec<u8> = (0..events).collect();
        if check(sheet, &listed).of_the_sheet().is_some() {
            return None;
        }
        // an order that contains happens-before: with it each event below is tried once
        let order = placed_without(sheet, &listed, u8::MAX);
        let later = |held: u8| {
            let free = placed_without(sheet, &order, held);
            listed.iter().filter(|&e| *e != held && !free.contains(e)).fold(0, |mask, e| mask | 1 << e)
        };
        Some(HappensBefore { later: listed.iter().map(|&e| later(e)).collect() })
    }

    /// Whether the first happens before the second; numbers that are no events do not.
    pub fn is(&self, first: u8, second: u8) -> bool {
        second < 32 && self.later.get(usize::from(first)).is_some_and(|later| later >> second & 1 == 1)
    }

    /// How many events there are.
    pub fn events(&self) -> u8 {
        self.later.len() as u8
    }
}

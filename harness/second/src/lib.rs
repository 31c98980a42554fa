//! The second program: a judge of sheets written from documents 01 and 02 (and the readings noted beside them) and from
//! nothing else, by the plainest method. Speed is no aim; each loop stands beside the sentence it follows.
//!
//! - [`sheet`]: the format of editions 1 and 2, and refusals 1 to 11 and 14.
//! - [`judge`]: refusals 12 and 13, relations, rules 21 to 26, the first order, the unsettled pair.
//! - [`answer`]: the report line, the 64-bit word, and what both buffers hold afterwards.
//! - [`check`]: 02 §5, a list of event numbers against a sheet.
//! - [`why`]: 02 §8, the bars kept of a sheet that no order explains.
//! - [`table`]: 02 §2 and §4, a lent table to a sheet and back.
//! - [`text`]: a sheet as text for people, and back.
//! - [`random`]: random small sheets and tables, whole and damaged, by a seed.

#![allow(clippy::needless_range_loop)] // plain loops over event numbers are meant

pub mod answer;
pub mod check;
pub mod judge;
pub mod random;
pub mod sheet;
pub mod table;
pub mod text;
pub mod why;

pub use answer::{judge_into, needed_scratch, Answer};
pub use check::{check, Checked, Fault};
pub use judge::judge;
pub use sheet::{read, Access, Event, Execution, Kind, Mode, Row};
pub use why::{why, why_into, Why};

//! The judge's steps over tables, called through `crates/steps_c`, and random executions with one or two accesses an
//! event. A byte is numbered through the regions, region * 64 + address, as the second program has it.
//!
//! - [`doors`]: the two proved functions, and tables filled by their layout.
//! - [`random`]: executions by a seed.

pub mod doors;
pub mod random;

//! Cypher statements lowered to plans, from sheet to sheet, by proved code.
//!
//! A statement sheet has one record a line, fields parted by tabs; a plan
//! sheet likewise. docs/FORMAT.md of the repository describes both. What the
//! calls answer is proved for all inputs in the repository's Rattle crates;
//! this crate owns the memory they work in and gives their answers Rust types.
//!
//! ```
//! let mut planner = dresserhawk::Planner::new();
//! assert_eq!(planner.plan(b"stmt\t0\t0\n"), Ok(&b"plan\t0\t0\n"[..]));
//! assert_eq!(planner.plan(b""), Err(dresserhawk::Refusal::BadLine { line: 1 }));
//! ```
//!
//! [`Planner::plan_pair`] makes one plan of two sheets.
//!
//! [`sheet`] builds statement sheets; [`explain`] says what was due in a refused
//! one. Neither is proved, and no call rests on them.

mod answer;
pub mod explain;
pub mod grammar;
mod planner;
pub mod raw;
pub mod sheet;

pub use answer::{PairRefusal, Refusal, Side, Span, Undesugared};
pub use planner::Planner;

/// The example of the README.
#[cfg(doctest)]
#[doc = include_str!("../README.md")]
struct Readme;

/// The identity of the kit that proved the linked archive, as `rt version`
/// prints it; or `unknown` for an archive with no such file beside it.
pub const KIT: &str = env!("DRESSERHAWK_KIT");

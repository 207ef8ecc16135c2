//! A second reading of document 01, in Rust: it answers both calls for all
//! arguments, and in `pair` request F-1's call with two sheets.
//!
//! What the Rust has no word on, refusals 1 to 5 and the lines of 6 to 8
//! (`sheet`, `check`, `refusals`), was written by somebody who had been given
//! document 01 and the types of `sheet`, and nothing else of this project; how
//! `refusals` hands the records on was changed afterwards. The lowering is
//! held to the Rust, plan and count of variable numbers, on every sheet that can
//! be put to it; its author had seen `model/specs/Call.antt` and a part of the
//! check. Where the text leaves something open there the Rust settled it: the
//! props of a special shortest part's rel are lowered right after its number; the
//! keys of `agg` are expressions without names; those of `order` are `key`
//! records. The order of a pair's tests was written from the request and its
//! settled readings; its author had seen theorems about the definition and the
//! Rattle code of the call with one sheet, and not that of the pair.

pub mod branch;
pub mod check;
pub mod lowering;
pub mod pair;
pub mod refusals;
pub mod sheet;
#[cfg(test)]
mod worked;

use lowering::Lowered;
use refusals::{Refused, at_line, before_lowering};
use sheet::{Record, Why};

/// Number, line, start, end, kind and length.
pub type Answer = [usize; 6];

const PLAN_SIZE: usize = 2_048;

/// What the tests make of a sheet.
pub struct Verdict<'s> {
    /// The records, if the sheet is well-formed.
    pub records: Vec<Record<'s>>,
    /// The lowering, if the sheet passes tests 1 to 8.
    pub lowered: Option<Lowered>,
    /// What the lowering call answers if the plan slice is long enough.
    pub answer: Answer,
    /// Which test at a line gave refusal 3 or 4.
    pub why: Option<Why>,
}

/// Tests 1 to 9, with work slices of these lengths.
pub fn judge<'s>(sheet: &'s [u8], work: [usize; 4]) -> Verdict<'s> {
    let records = match before_lowering(sheet, work) {
        Ok(records) => records,
        Err(Refused { answer, why, records }) => {
            return Verdict { records, lowered: None, answer, why };
        }
    };
    let lowered = lowering::lower(&records);
    let answer = test_plan(&lowered);
    Verdict { records, lowered: Some(lowered), answer, why: None }
}

/// Test 9.
fn test_plan(lowered: &Lowered) -> Answer {
    let full = lowered.operators > PLAN_SIZE || lowered.numbers as usize > PLAN_SIZE;
    if full { at_line(9, 0) } else { [0, 0, 0, 0, 0, lowered.plan.len()] }
}

/// Test 10: what is left of an answer with a plan slice of this length.
fn test_room(answer: Answer, room: usize) -> Answer {
    if answer[0] == 0 && answer[5] > room { at_line(10, 0) } else { answer }
}

impl Verdict<'_> {
    /// The lowering call's answer with a plan slice of this length.
    pub fn with_room(&self, room: usize) -> Answer {
        test_room(self.answer, room)
    }

    /// Whether the sizing call may give this answer.
    pub fn may_size(&self, given: &Answer) -> bool {
        match &self.lowered {
            // Tests 1 to 8 are passed; the figure is free within its bounds.
            Some(lowered) => {
                let figures = lowered.operators..=4 * self.records.len();
                given[..5] == [0; 5] && figures.contains(&given[5])
            }
            None => *given == self.answer,
        }
    }
}

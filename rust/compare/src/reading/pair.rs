//! Request F-1: two sheets into one plan. Each test is made on the left, then on the right, before
//! the next one; 3 and 4 are one test, and 6 to 8 are one.

use super::check::first_fault;
use super::lowering::{LoweredPair, Variables, lower_pair};
use super::refusals::{LEAST_WORDS, MOST_BYTES, at_line, first_write};
use super::sheet::{Record, Why, read};
use super::{Answer, test_plan, test_room};

/// The sides, as an answer's kind tells them.
pub const LEFT: usize = 1;
pub const RIGHT: usize = 2;

/// What the tests make of a pair.
pub struct PairVerdict<'s> {
    /// The records of both sides, if both are well-formed and test 1 is passed.
    pub records: Option<[Vec<Record<'s>>; 2]>,
    /// The lowering, if tests 1 to 8 are passed on both sides.
    pub lowered: Option<LoweredPair>,
    /// What the call answers if the plan slice is long enough.
    pub answer: Answer,
    /// Which test at a line gave refusal 3 or 4.
    pub why: Option<Why>,
}

impl PairVerdict<'_> {
    /// The call's answer with a plan slice of this length.
    pub fn with_room(&self, room: usize) -> Answer {
        test_room(self.answer, room)
    }
}

/// A side's refusal: its kind tells the side, and in 7 ten times the side and the form.
pub fn on_side(side: usize, answer: Answer) -> Answer {
    let [number, line, start, end, kind, length] = answer;
    let kind = if number == 7 { 10 * side + kind } else { side };
    [number, line, start, end, kind, length]
}

/// Tests 1 to 9, with work slices of these lengths, the left's first.
pub fn judge_pair<'s>(
    left: &'s [u8],
    right: &'s [u8],
    all: bool,
    work: [usize; 8],
) -> PairVerdict<'s> {
    judge_pair_with(left, right, all, work, Variables::forget)
}

/// The same with something else between the sides, for a stand-in with a fault.
pub fn judge_pair_with<'s>(
    left: &'s [u8],
    right: &'s [u8],
    all: bool,
    work: [usize; 8],
    between: fn(&mut Variables),
) -> PairVerdict<'s> {
    let refused = |answer| PairVerdict { records: None, lowered: None, answer, why: None };
    let sides = [LEFT, RIGHT];
    if work.iter().any(|&words| words < LEAST_WORDS) {
        return refused(at_line(1, 0));
    }
    for (side, sheet) in sides.into_iter().zip([left, right]) {
        if sheet.len() > MOST_BYTES {
            return refused(on_side(side, at_line(2, 0)));
        }
    }
    let mut records = [Vec::new(), Vec::new()];
    for (place, sheet) in [left, right].into_iter().enumerate() {
        match read(sheet) {
            Ok(read) => records[place] = read,
            Err(fault) => {
                let answer = on_side(sides[place], at_line(fault.number, fault.line));
                return PairVerdict { why: Some(fault.why), ..refused(answer) };
            }
        }
    }
    let tests: [fn(&[Record]) -> Option<Answer>; 2] = [first_write, first_fault];
    for test in tests {
        for (side, records_of_side) in sides.into_iter().zip(&records) {
            if let Some(answer) = test(records_of_side) {
                let records = Some(records);
                return PairVerdict { records, ..refused(on_side(side, answer)) };
            }
        }
    }
    let lowered = lower_pair(&records[0], &records[1], all, between);
    let answer = test_plan(&lowered.whole);
    PairVerdict { records: Some(records), lowered: Some(lowered), answer, why: None }
}

#[cfg(test)]
mod by_hand {
    use super::*;
    use crate::reading::sheet::by_hand::sheet;

    const ENOUGH: [usize; 8] = [16_384; 8];
    const EMPTY: &str = "stmt 0 0";
    const NODE: &str = "stmt 1 0|match 0 1 0 1|part - 0 1|node 7 0 0 0 1";

    fn answer(left: &str, right: &str) -> Answer {
        judge_pair(&sheet(left), &sheet(right), false, ENOUGH).answer
    }

    fn plan(left: &str, right: &str, all: bool) -> String {
        let (left, right) = (sheet(left), sheet(right));
        let verdict = judge_pair(&left, &right, all, ENOUGH);
        let plan = verdict.lowered.expect("accepted").whole.plan;
        assert_eq!(verdict.answer, [0, 0, 0, 0, 0, plan.len()]);
        let text = String::from_utf8(plan).expect("UTF-8").replace('\t', " ");
        text.trim_end().replace('\n', "|")
    }

    #[test]
    fn plans_of_empty_sides() {
        assert_eq!(plan(EMPTY, EMPTY, false), "plan 3 0|source 0 0|source 0 0|union 0 1 0");
        assert_eq!(plan(EMPTY, NODE, true), "plan 3 1|source 0 0|source 1 0|union 1 0 1|v 0 7");
        assert_eq!(plan(NODE, EMPTY, false), "plan 3 0|source 0 0|source 1 0|union 0 1 0");
    }

    #[test]
    fn the_same_id_has_a_number_on_each_side() {
        assert_eq!(plan(NODE, NODE, false), "plan 3 1|source 0 0|source 1 0|union 0 1 0|v 1 7");
    }

    #[test]
    fn the_right_has_no_operator_before_it() {
        let optional = "stmt 1 0|match 1 1 0 1|part - 0 1|node 7 0 0 0 1";
        assert_eq!(plan(NODE, optional, true), "plan 3 1|source 0 0|source 1 0|union 0 1 1|v 1 7");
        let call = "stmt 1 0|call f 0 0 0 0 1";
        assert_eq!(plan(NODE, call, true), "plan 3 0|source 0 0|call - f 0 0 0|union 0 1 1");
    }

    /// A sheet that each test refuses first, the test's place in the order, and what it answers.
    fn refused() -> Vec<(usize, String, Answer)> {
        let deep = format!("stmt 1 0|where 0 0{}", "|un 0".repeat(63));
        vec![
            (2, "x".repeat(32_768), [2, 0, 0, 0, 0, 0]),
            (3, "stmt 1 0".into(), [3, 2, 0, 0, 0, 0]),
            (3, deep, [4, 65, 0, 0, 0, 0]),
            (5, "stmt 1 0|write 3 9".into(), [5, 2, 0, 0, 0, 0]),
            (6, "stmt 1 0|where 3 9|unres a".into(), [6, 3, 3, 9, 0, 0]),
            (6, "stmt 1 0|where 3 9|undes 2".into(), [7, 3, 3, 9, 2, 0]),
            (6, "stmt 1 0|match 0 1 3 9|part - 0 0".into(), [8, 3, 3, 9, 0, 0]),
        ]
    }

    #[test]
    fn the_earlier_test_wins_and_at_the_same_test_the_left() {
        let told = |side: usize, mut answer: Answer| {
            answer[4] += if answer[0] == 7 { 10 * side } else { side };
            answer
        };
        for (test, left, said) in refused() {
            assert_eq!(answer(&left, NODE), told(1, said));
            assert_eq!(answer(NODE, &left), told(2, said));
            for (other, right, other_said) in refused() {
                let due = if test <= other { told(1, said) } else { told(2, other_said) };
                assert_eq!(answer(&left, &right), due);
            }
        }
    }

    #[test]
    fn each_of_eight_slices() {
        for slice in 0..8 {
            let mut work = ENOUGH;
            work[slice] = 16_383;
            let long = sheet(&"x".repeat(32_768));
            assert_eq!(judge_pair(&long, b"x", true, work).answer, [1, 0, 0, 0, 0, 0]);
        }
    }

    #[test]
    fn nine_looks_at_both_sides_together() {
        let list = |count: usize, distinct: usize| {
            format!("stmt 1 0|return 1 {distinct} 0 0 0 0 1|item -|list {count}")
                + &"|pat 0".repeat(count)
        };
        // A side with n patterns has 2 n + 2 operators, and one more if it is distinct.
        assert_eq!(answer(&list(500, 1), &list(521, 0))[0], 0);
        assert_eq!(answer(&list(500, 0), &list(522, 0)), [9, 0, 0, 0, 0, 0]);
        let vars = |count: usize| {
            let ids: String = (0..count).map(|id| format!("|var {id}")).collect();
            format!("stmt 1 0|where 0 1|list {count}{ids}")
        };
        assert_eq!(answer(&vars(1_000), &vars(1_048))[0], 0);
        assert_eq!(answer(&vars(1_000), &vars(1_049)), [9, 0, 0, 0, 0, 0]);
    }
}

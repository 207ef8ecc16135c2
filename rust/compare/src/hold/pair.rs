//! One pair, all sides.

use super::{Asked, Bench, Case, Difference, differ, in_room, lent, rooms, with_lower, words};
use crate::calls::Calls;
use crate::original::{self, SaidOfPair};
use crate::reading;
use crate::reading::pair::{PairVerdict, judge_pair};

/// A pair and how it is handed over.
#[derive(Clone)]
pub struct PairCase {
    /// The left and the right.
    pub sheets: [Vec<u8>; 2],
    pub all: bool,
    /// Lengths of the work slices, the left's first.
    pub work: [usize; 8],
    /// The left gets the memory that the right has otherwise.
    pub exchanged: bool,
    /// A side whose sheet goes through the call with one sheet before, with the other side's
    /// slices.
    pub single: Option<usize>,
    /// Plan slices that are tried besides: so many bytes longer or shorter than the plan.
    pub rooms: [isize; 2],
}

impl PairCase {
    /// A pair with nothing special about it.
    pub fn plain(left: &[u8], right: &[u8], all: bool) -> Self {
        PairCase {
            sheets: [left.to_vec(), right.to_vec()],
            all,
            work: [16_384; 8],
            exchanged: false,
            single: None,
            rooms: [1, -2],
        }
    }

    pub fn judge(&self) -> PairVerdict<'_> {
        judge_pair(&self.sheets[0], &self.sheets[1], self.all, self.work)
    }
}

/// Compares all sides. What the second reading makes of the pair comes back in any case.
pub fn hold_pair<'c>(
    case: &'c PairCase,
    calls: &Calls,
    bench: &mut Bench,
) -> (PairVerdict<'c>, Result<Asked, Difference>) {
    let verdict = case.judge();
    let result = pair_with_rust(case, &verdict, &mut bench.printed)
        .and_then(|asked| with_single(case, calls, bench).map(|()| asked))
        .and_then(|asked| with_pair(case, &verdict, calls, bench).map(|()| asked));
    (verdict, result)
}

/// The second reading and the Rust: plans, and refusals 6 to 8. `printed` gets the Rust's plan
/// without the left's entries of its map, which is the one known difference.
pub fn pair_with_rust(
    case: &PairCase,
    verdict: &PairVerdict,
    printed: &mut Vec<u8>,
) -> Result<Asked, Difference> {
    let utf8 = case.sheets.iter().all(|sheet| std::str::from_utf8(sheet).is_ok());
    let (Some(records), false, true) = (&verdict.records, verdict.answer[0] == 5, utf8) else {
        return Ok(Asked::Nothing);
    };
    let [left, right] = records.each_ref().map(|side| original::statement(side));
    let [number, _, start, end, kind, _] = verdict.answer;
    match original::ask_pair(&left, &right, case.all) {
        SaidOfPair::Refused(said) if said == [number, start, end, kind] => Ok(Asked::Refusal),
        SaidOfPair::Refused(said) => differ(
            "refusal: reading and Rust",
            vec![("reading", words(&verdict.answer)), ("rust", words(&said))],
        ),
        SaidOfPair::OtherMap => differ("the Rust's map does not begin with the left's", vec![]),
        SaidOfPair::Plan(plan, lefts) => {
            printed.clear();
            original::print::plan_without(&plan, lefts, printed);
            let Some(lowered) = &verdict.lowered else {
                let said = vec![("reading", words(&verdict.answer)), ("rust", printed.clone())];
                return differ("the Rust lowers what the reading refuses", said);
            };
            if lowered.whole.plan != *printed {
                let said = vec![("reading", lowered.whole.plan.clone()), ("rust", printed.clone())];
                return differ("plan: reading and Rust", said);
            }
            let read = lowered.whole.numbers as usize;
            let issued = original::numbers_of_pair(&left, right, case.all);
            if issued != read {
                let said = vec![("reading", words(&[read])), ("rust", words(&[issued]))];
                return differ("variable numbers: reading and Rust", said);
            }
            Ok(Asked::Plan)
        }
    }
}

/// The call with one sheet, if the case asks for it, so that the two calls meet each other's words.
fn with_single(case: &PairCase, calls: &Calls, bench: &mut Bench) -> Result<(), Difference> {
    let Some(side) = case.single else { return Ok(()) };
    let single = Case { sheet: case.sheets[side].clone(), work: [16_384; 4], rooms: [0, 1] };
    let verdict = reading::judge(&single.sheet, single.work);
    with_lower(&single, 1 - side, &verdict, calls, bench)
}

/// The call with two sheets against the second reading.
fn with_pair(
    case: &PairCase,
    verdict: &PairVerdict,
    calls: &Calls,
    bench: &mut Bench,
) -> Result<(), Difference> {
    let plan: &[u8] = verdict.lowered.as_ref().map_or(&[], |lowered| &lowered.whole.plan);
    let [left, right] = &case.sheets;
    let Bench { work, plan: page, .. } = bench;
    let [first, second] = work;
    let (left_work, right_work) = if case.exchanged { (second, first) } else { (first, second) };
    let [a, b, c, d, e, f, g, h] = case.work;
    for room in rooms(&verdict.answer, case.rooms) {
        let (lefts, rights) = (lent(left_work, [a, b, c, d]), lent(right_work, [e, f, g, h]));
        let call = |page: &mut [u8], answer: &mut [usize]| {
            (calls.pair)(left, right, case.all, lefts, rights, page, answer)
        };
        in_room(room, &verdict.with_room(room), plan, page, call)?;
    }
    Ok(())
}

//! The calls that are held against the others.

use crate::reading;
use crate::reading::lowering::Variables;
use crate::reading::pair::{PairVerdict, judge_pair, judge_pair_with, on_side};

/// The four work slices of a sheet.
type Work<'w> = [&'w mut [u32]; 4];
/// The sizing call: sheet, work slices, answer.
pub type Size = fn(&[u8], Work, &mut [usize]) -> bool;
/// The lowering call: sheet, work slices, plan, answer.
pub type Lower = fn(&[u8], Work, &mut [u8], &mut [usize]) -> bool;

/// The call with two sheets: left, right, all, the work slices of each, plan, answer.
pub type Pair = fn(&[u8], &[u8], bool, Work, Work, &mut [u8], &mut [usize]) -> bool;

#[derive(Clone, Copy)]
pub struct Calls {
    pub size: Size,
    pub lower: Option<Lower>,
    pub pair: Pair,
}

/// The proved code.
pub const PROVED: Calls = Calls {
    size: dresserhawk::raw::size,
    lower: Some(dresserhawk::raw::lower),
    pair: dresserhawk::raw::lower_pair,
};

/// Stand-ins that try the comparison itself: the second reading in the place
/// of the proved code, right or with a fault that the comparison has to find.
pub fn stand_in(name: &str) -> Option<Calls> {
    let right = Calls { size: plain_size, lower: Some(plain_lower), pair: plain_pair };
    let lower = |lower: Lower| Some(Calls { lower: Some(lower), ..right });
    let pair = |pair: Pair| Some(Calls { pair, ..right });
    match name {
        "right" => Some(right),
        "late-line" => Some(Calls { size: late_line, ..right }),
        "writes-behind" => lower(writes_behind),
        "writes-when-refused" => lower(writes_when_refused),
        "wrong-byte" => lower(wrong_byte),
        "sides-exchanged" => pair(sides_exchanged),
        "variables-kept" => pair(variables_kept),
        "numbers-restarted" => pair(numbers_restarted),
        "no-side-in-7" => pair(no_side_in_7),
        "left-first" => pair(left_first),
        "right-source-first" => pair(right_source_first),
        "four-slices" => pair(four_slices),
        "full-by-side" => pair(full_by_side),
        "pair-writes-when-refused" => pair(pair_writes_when_refused),
        _ => None,
    }
}

fn plain_size(sheet: &[u8], work: Work, answer: &mut [usize]) -> bool {
    let Some(answer) = answer.first_chunk_mut() else { return false };
    let verdict = reading::judge(sheet, work.map(|words| words.len()));
    *answer = verdict.answer;
    if verdict.lowered.is_some() {
        *answer = [0, 0, 0, 0, 0, 4 * verdict.records.len()];
    }
    true
}

fn plain_lower(sheet: &[u8], work: Work, plan: &mut [u8], answer: &mut [usize]) -> bool {
    let Some(answer) = answer.first_chunk_mut() else { return false };
    let verdict = reading::judge(sheet, work.map(|words| words.len()));
    *answer = verdict.with_room(plan.len());
    if let (0, Some(lowered)) = (answer[0], verdict.lowered) {
        plan[..lowered.plan.len()].copy_from_slice(&lowered.plan);
    }
    true
}

fn late_line(sheet: &[u8], work: Work, answer: &mut [usize]) -> bool {
    let written = plain_size(sheet, work, answer);
    if written && answer[0] == 6 {
        answer[1] += 1;
    }
    written
}

fn writes_behind(sheet: &[u8], work: Work, plan: &mut [u8], answer: &mut [usize]) -> bool {
    let written = plain_lower(sheet, work, plan, answer);
    if written && answer[0] == 0 && answer[5] > 100 && plan.len() > answer[5] {
        plan[answer[5]] = b'\n';
    }
    written
}

fn writes_when_refused(sheet: &[u8], work: Work, plan: &mut [u8], answer: &mut [usize]) -> bool {
    let written = plain_lower(sheet, work, plan, answer);
    if written && answer[0] == 10 && plan.len() > 50 {
        plan[..4].copy_from_slice(b"plan");
    }
    written
}

fn wrong_byte(sheet: &[u8], work: Work, plan: &mut [u8], answer: &mut [usize]) -> bool {
    let written = plain_lower(sheet, work, plan, answer);
    if let Some(at) = plan.windows(8).position(|bytes| bytes == b"\nexists\n") {
        plan[at + 1] = b'E';
    }
    written
}

// ── calls with two sheets ──

/// All that a stand-in is handed.
struct Handed<'h> {
    left: &'h [u8],
    right: &'h [u8],
    all: bool,
    work: [usize; 8],
}

/// A call with two sheets that answers what `judge` says, changed by `change` before it is written.
fn pair_by<'h>(
    handed: Handed<'h>,
    plan: &mut [u8],
    answer: &mut [usize],
    judge: impl FnOnce(&Handed<'h>) -> PairVerdict<'h>,
    change: impl FnOnce(&mut PairVerdict<'h>),
) -> bool {
    let Some(answer) = answer.first_chunk_mut() else { return false };
    let mut verdict = judge(&handed);
    change(&mut verdict);
    *answer = verdict.with_room(plan.len());
    if let (0, Some(lowered)) = (answer[0], verdict.lowered) {
        plan[..lowered.whole.plan.len()].copy_from_slice(&lowered.whole.plan);
    }
    true
}

fn judged<'h>(handed: &Handed<'h>) -> PairVerdict<'h> {
    judge_pair(handed.left, handed.right, handed.all, handed.work)
}

/// A stand-in for the call with two sheets, by how it judges and what it changes then.
macro_rules! pair_stand_in {
    ($name:ident, $judge:expr, $change:expr) => {
        fn $name(
            left: &[u8],
            right: &[u8],
            all: bool,
            left_work: Work,
            right_work: Work,
            plan: &mut [u8],
            answer: &mut [usize],
        ) -> bool {
            let [a, b, c, d] = left_work.map(|words| words.len());
            let [e, f, g, h] = right_work.map(|words| words.len());
            let handed = Handed { left, right, all, work: [a, b, c, d, e, f, g, h] };
            pair_by(handed, plan, answer, $judge, $change)
        }
    };
}

pair_stand_in!(plain_pair, judged, |_| ());

pair_stand_in!(
    sides_exchanged,
    |handed| judge_pair(handed.right, handed.left, handed.all, handed.work),
    |_| ()
);

pair_stand_in!(
    variables_kept,
    |handed| judge_pair_with(handed.left, handed.right, handed.all, handed.work, |_| ()),
    |_| ()
);

pair_stand_in!(
    numbers_restarted,
    |handed| {
        let restart = |variables: &mut Variables| *variables = Variables::default();
        judge_pair_with(handed.left, handed.right, handed.all, handed.work, restart)
    },
    |_| ()
);

pair_stand_in!(no_side_in_7, judged, |verdict: &mut PairVerdict| {
    if verdict.answer[0] == 7 {
        verdict.answer[4] %= 10;
    }
});

// All tests of the left before those of the right.
pair_stand_in!(
    left_first,
    |handed| {
        let [a, b, c, d, ..] = handed.work;
        let alone = reading::judge(handed.left, [a, b, c, d]);
        let mut verdict = judged(handed);
        if alone.lowered.is_none() && verdict.answer[0] > 1 {
            verdict.answer = on_side(1, alone.answer);
        }
        verdict
    },
    |_| ()
);

// With two empty sides the sources stand in the other order.
pair_stand_in!(right_source_first, judged, |verdict: &mut PairVerdict| {
    if let Some(lowered) = &mut verdict.lowered {
        if lowered.missing == [true, true] {
            let end = lowered.whole.plan.len() - b"0\t1\t0\n".len();
            lowered.whole.plan[end] = b'1';
            lowered.whole.plan[end + 2] = b'0';
        }
    }
});

// Only the left's work slices are looked at.
pair_stand_in!(
    four_slices,
    |handed| {
        let [a, b, c, d, ..] = handed.work;
        let work = [a, b, c, d, 16_384, 16_384, 16_384, 16_384];
        judge_pair(handed.left, handed.right, handed.all, work)
    },
    |_| ()
);

// Test 9 is made on each side alone.
pair_stand_in!(full_by_side, judged, |verdict: &mut PairVerdict| {
    if let (9, Some(lowered)) = (verdict.answer[0], &verdict.lowered) {
        let operators = lowered.met.each_ref().map(|met| met.pushed.iter().sum::<u64>());
        if operators.iter().all(|&count| count <= 2_048)
            && lowered.numbers.iter().all(|&count| count <= 2_048)
        {
            verdict.answer = [0, 0, 0, 0, 0, lowered.whole.plan.len()];
        }
    }
});

fn pair_writes_when_refused(
    left: &[u8],
    right: &[u8],
    all: bool,
    left_work: Work,
    right_work: Work,
    plan: &mut [u8],
    answer: &mut [usize],
) -> bool {
    let written = plain_pair(left, right, all, left_work, right_work, plan, answer);
    if written && answer[0] == 10 && plan.len() > 50 {
        plan[..4].copy_from_slice(b"plan");
    }
    written
}

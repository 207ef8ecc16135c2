//! One sheet, all sides: the proved calls, the second reading, the Rust; and in
//! `pair` the same for a pair of sheets.

pub mod pair;

use crate::calls::Calls;
use crate::original::{self, Said};
use crate::reading::lowering::Lowered;
use crate::reading::{self, Answer, Verdict};
use cyrs_hir::Statement;

/// A sheet and how it is handed over.
#[derive(Clone)]
pub struct Case {
    pub sheet: Vec<u8>,
    /// Lengths of the work slices.
    pub work: [usize; 4],
    /// Plan slices that are tried besides: so many bytes longer or shorter
    /// than the plan.
    pub rooms: [isize; 2],
}

/// Two sides that differ.
pub struct Difference {
    pub what: &'static str,
    /// What each of them says.
    pub said: Vec<(&'static str, Vec<u8>)>,
}

/// What the Rust was asked, for the tally.
#[derive(Debug, Clone, Copy, PartialEq)]
pub enum Asked {
    Nothing,
    Plan,
    Refusal,
}

/// The memory lent to the calls. It is never cleared, so that each sheet meets
/// what an earlier one left. A call with one sheet gets four work slices of the
/// eight, a call with two all of them.
pub struct Bench {
    work: [[Vec<u32>; 4]; 2],
    plan: Vec<u8>,
    printed: Vec<u8>,
}

/// The longest work slice that is lent.
pub const MOST_WORDS: usize = 17_000;
/// Bytes on both sides of a plan slice that no call may touch.
const MARGIN: usize = 64;
/// A word that no answer holds.
const UNTOUCHED: usize = 0x5a5a_5a5a_5a5a_5a5a;

impl Bench {
    pub fn new() -> Self {
        let four = || std::array::from_fn(|_| vec![0xdead_beef; MOST_WORDS]);
        Bench { work: [four(), four()], plan: Vec::new(), printed: Vec::new() }
    }
}

/// Four work slices of these lengths.
fn lent(work: &mut [Vec<u32>; 4], lengths: [usize; 4]) -> [&mut [u32]; 4] {
    let mut lengths = lengths.into_iter();
    work.each_mut().map(|words| &mut words[..lengths.next().expect("four lengths")])
}

/// Compares all sides. What the second reading makes of the sheet comes back
/// in any case.
pub fn hold<'c>(
    case: &'c Case,
    calls: &Calls,
    bench: &mut Bench,
) -> (Verdict<'c>, Result<Asked, Difference>) {
    let verdict = reading::judge(&case.sheet, case.work);
    let result = with_rust(&case.sheet, &verdict, &mut bench.printed)
        .and_then(|asked| with_size(case, &verdict, calls, bench).map(|()| asked))
        .and_then(|asked| with_lower(case, 0, &verdict, calls, bench).map(|()| asked));
    (verdict, result)
}

fn words(answer: &[usize]) -> Vec<u8> {
    format!("{answer:?}\n").into_bytes()
}

fn differ<T>(what: &'static str, said: Vec<(&'static str, Vec<u8>)>) -> Result<T, Difference> {
    Err(Difference { what, said })
}

/// The second reading and the Rust: plans, and refusals 6 to 8; and the Rust's
/// tree as a sheet. `printed` gets the Rust's plan.
pub fn with_rust(
    sheet: &[u8],
    verdict: &Verdict,
    printed: &mut Vec<u8>,
) -> Result<Asked, Difference> {
    let well_formed = !verdict.records.is_empty() && verdict.answer[0] != 5;
    if !well_formed || std::str::from_utf8(sheet).is_err() {
        return Ok(Asked::Nothing);
    }
    let statement = original::statement(&verdict.records);
    encoded(sheet, &statement)?;
    let [number, _, start, end, kind, _] = verdict.answer;
    match original::ask(&statement) {
        Said::Refused(said) if said == [number, start, end, kind] => Ok(Asked::Refusal),
        Said::Refused(said) => differ(
            "refusal: reading and Rust",
            vec![("reading", words(&verdict.answer)), ("rust", words(&said))],
        ),
        Said::Plan(plan) => {
            printed.clear();
            original::print::plan(&plan, printed);
            match &verdict.lowered {
                Some(lowered) if lowered.plan == *printed => numbers_too(lowered, statement),
                Some(lowered) => differ(
                    "plan: reading and Rust",
                    vec![("reading", lowered.plan.clone()), ("rust", printed.clone())],
                ),
                None => differ(
                    "the Rust lowers what the reading refuses",
                    vec![("reading", words(&verdict.answer)), ("rust", printed.clone())],
                ),
            }
        }
    }
}

/// The tree as a sheet again. A sheet has one spelling, so it is the one that
/// the tree was made from.
fn encoded(sheet: &[u8], statement: &Statement) -> Result<(), Difference> {
    match cyrs_sheet::encode(statement) {
        Ok(encoded) if encoded == sheet => Ok(()),
        Ok(encoded) => differ(
            "sheet: cyrs-sheet and the one read",
            vec![("cyrs-sheet", encoded), ("read", sheet.to_vec())],
        ),
        Err(reason) => differ(
            "cyrs-sheet refuses what the sheet has",
            vec![("cyrs-sheet", reason.to_string().into_bytes())],
        ),
    }
}

/// The count of variable numbers, for refusal 9.
fn numbers_too(lowered: &Lowered, statement: Statement) -> Result<Asked, Difference> {
    let (read, issued) = (lowered.numbers as usize, original::numbers_issued(statement));
    if issued != read {
        let said = vec![("reading", words(&[read])), ("rust", words(&[issued]))];
        return differ("variable numbers: reading and Rust", said);
    }
    Ok(Asked::Plan)
}

/// The sizing call against the second reading.
fn with_size(
    case: &Case,
    verdict: &Verdict,
    calls: &Calls,
    bench: &mut Bench,
) -> Result<(), Difference> {
    let mut answer = [UNTOUCHED; 8];
    let work = lent(&mut bench.work[0], case.work);
    let written = (calls.size)(&case.sheet, work, &mut answer);
    let [given @ .., UNTOUCHED, UNTOUCHED] = answer else {
        return differ("the sizing call writes behind its answer", vec![("ours", words(&answer))]);
    };
    if !written || !verdict.may_size(&given) {
        let reading = sized(verdict);
        return differ(
            "sizing: ours and reading",
            vec![("ours", words(&given)), ("reading", reading)],
        );
    }
    Ok(())
}

fn sized(verdict: &Verdict) -> Vec<u8> {
    match &verdict.lowered {
        Some(lowered) => {
            let most = 4 * verdict.records.len();
            format!("0, with a figure from {} to {most}\n", lowered.operators).into_bytes()
        }
        None => words(&verdict.answer),
    }
}

/// The lowering call against the second reading: the plan slice exactly full,
/// one short, and two other lengths. The work slices are the first four of the
/// bench, or the others.
fn with_lower(
    case: &Case,
    slices: usize,
    verdict: &Verdict,
    calls: &Calls,
    bench: &mut Bench,
) -> Result<(), Difference> {
    let Some(lower) = calls.lower else { return Ok(()) };
    let plan: &[u8] = verdict.lowered.as_ref().map_or(&[], |lowered| &lowered.plan);
    let Bench { work, plan: page, .. } = bench;
    for room in rooms(&verdict.answer, case.rooms) {
        let work = lent(&mut work[slices], case.work);
        let call = |page: &mut [u8], answer: &mut [usize]| lower(&case.sheet, work, page, answer);
        in_room(room, &verdict.with_room(room), plan, page, call)?;
    }
    Ok(())
}

/// The lengths of the plan slices that are tried.
fn rooms(answer: &Answer, others: [isize; 2]) -> [usize; 4] {
    [0, -1, others[0], others[1]].map(|more| answer[5].saturating_add_signed(more))
}

/// One call with a plan slice of this length: its answer, and what stands in the
/// slice and around it afterwards, which is `plan` if the call is accepted.
fn in_room(
    room: usize,
    due: &Answer,
    plan: &[u8],
    page: &mut Vec<u8>,
    call: impl FnOnce(&mut [u8], &mut [usize]) -> bool,
) -> Result<(), Difference> {
    page.clear();
    page.extend((0..room + 2 * MARGIN).map(filler));
    let mut answer = [UNTOUCHED; 8];
    let written = call(&mut page[MARGIN..MARGIN + room], &mut answer);
    if !written || answer[..6] != *due || answer[6..] != [UNTOUCHED; 2] {
        let ours = format!("{answer:?} with a plan slice of {room} bytes\n").into_bytes();
        return differ("lowering: ours and reading", vec![("ours", ours), ("reading", words(due))]);
    }
    touched(room, if due[0] == 0 { plan } else { &[] }, page)
}

/// What the plan slice and its margins hold before a call.
fn filler(place: usize) -> u8 {
    (place % 251) as u8 ^ 0xa5
}

/// What stands in the plan slice and around it after a call.
fn touched(room: usize, plan: &[u8], page: &[u8]) -> Result<(), Difference> {
    let written = &page[MARGIN..MARGIN + plan.len()];
    if written != plan {
        let said = vec![("ours", written.to_vec()), ("reading", plan.to_vec())];
        return differ("plan: ours and reading", said);
    }
    let mut others = (0..MARGIN).chain(MARGIN + plan.len()..page.len());
    match others.find(|&place| page[place] != filler(place)) {
        Some(place) => {
            let place = place as isize - MARGIN as isize;
            let ours = format!("byte {place} of {room}, with a plan of {}\n", plan.len());
            differ("a byte of the plan slice is touched", vec![("ours", ours.into_bytes())])
        }
        None => Ok(()),
    }
}

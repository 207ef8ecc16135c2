//! The comparison tried on itself: with the second reading in the place of the
//! proved code it finds nothing; with a fault put in it finds that fault.

use crate::calls::{PROVED, stand_in};
use crate::hold::pair::{PairCase, hold_pair};
use crate::hold::{Bench, Case, hold};
use crate::original::{self, Said};
use crate::reading;
use crate::run::{Subject, case};
use dresserhawk::Refusal;

/// The first sheet or pair of a run that shows a difference, made small.
fn found<S: Subject>(name: &str, count: u64) -> Option<(S, &'static str)> {
    let calls = stand_in(name).expect("a stand-in");
    let mut bench = Bench::new();
    (0..count).find_map(|number| {
        let case = S::of(3, number);
        let what = case.hold(&calls, &mut bench, None).err()?.what;
        let same =
            |case: &S| case.hold(&calls, &mut bench, None).is_err_and(|found| found.what == what);
        Some((case.small(same), what))
    })
}

/// The sheets with blanks for tabs, one behind the other.
fn lines(small: &impl Subject) -> String {
    let sheets: Vec<u8> = small.sheets().iter().flat_map(|(_, sheet)| sheet.to_vec()).collect();
    String::from_utf8(sheets).expect("plain names").replace('\t', " ")
}

#[test]
fn nothing_is_found_where_nothing_is_wrong() {
    assert!(found::<Case>("right", 2_000).is_none());
    assert!(found::<PairCase>("right", 2_000).is_none());
}

#[test]
fn each_fault_is_found_and_made_small() {
    for (name, due) in [
        ("late-line", "sizing: ours and reading"),
        ("writes-behind", "a byte of the plan slice is touched"),
        ("writes-when-refused", "a byte of the plan slice is touched"),
        ("wrong-byte", "plan: ours and reading"),
    ] {
        let (small, what) = found::<Case>(name, 2_000).expect("the fault is found");
        assert_eq!(what, due, "{name}");
        let small = lines(&small);
        assert!(small.lines().count() <= 8, "{name}:\n{small}");
    }
}

#[test]
fn each_fault_of_a_pair_is_found_and_made_small() {
    let (answer, plan) = ("lowering: ours and reading", "plan: ours and reading");
    for (name, due, most) in [
        ("sides-exchanged", answer, 2),
        ("variables-kept", answer, 4),
        ("numbers-restarted", plan, 4),
        ("no-side-in-7", answer, 4),
        ("left-first", answer, 3),
        ("right-source-first", plan, 2),
        ("four-slices", answer, 2),
        ("pair-writes-when-refused", "a byte of the plan slice is touched", 4),
    ] {
        let (small, what) = found::<PairCase>(name, 2_000).expect("the fault is found");
        let small = lines(&small);
        assert_eq!(what, due, "{name}:\n{small}");
        assert!(small.lines().count() <= most, "{name}:\n{small}");
    }
}

/// Test 9 made on each side alone: the pairs that show it are long, and are not made small here.
#[test]
fn a_limit_tested_side_by_side_is_found() {
    let calls = stand_in("full-by-side").expect("a stand-in");
    let mut bench = Bench::new();
    let what = (0..2_000).find_map(|number| {
        let case = PairCase::of(3, number);
        hold_pair(&case, &calls, &mut bench).1.err().map(|difference| difference.what)
    });
    assert_eq!(what, Some("lowering: ours and reading"));
}

#[test]
fn the_proved_calls_agree() {
    let mut bench = Bench::new();
    for number in 0..2_000 {
        let case = case(4, number);
        let difference = hold(&case, &PROVED, &mut bench).1.err();
        assert_eq!(difference.map(|found| found.what), None, "sheet {number}");
    }
    for number in 0..2_000 {
        let case = PairCase::of(4, number);
        let difference = hold_pair(&case, &PROVED, &mut bench).1.err();
        assert_eq!(difference.map(|found| found.what), None, "pair {number}");
    }
}

/// The one difference from the Rust: its map keeps the left's entries. Here is the smallest pair
/// that shows it, as docs/DIFFERENCES.md has it, and one with the same id on both sides.
#[test]
fn the_rust_keeps_the_left_variables() {
    let left = "stmt 1 0|where 0 0|var 0";
    for (right, ours, kept) in [
        ("stmt 0 0", "plan 4 0|source 1 0|filter 0|var 0|source 1 0|union 1 2 0", "plan 4 1|v 0 0"),
        (
            left,
            "plan 5 1|source 1 0|filter 0|var 0|source 2 0|filter 2|var 1|union 1 3 0|v 1 0",
            "plan 5 2|v 0 0|v 1 0",
        ),
    ] {
        let [left, right] = [left, right].map(reading::sheet::by_hand::sheet);
        let case = PairCase::plain(&left, &right, false);
        let [l, r] =
            case.judge().records.expect("well-formed").map(|all| original::statement(&all));
        let original::SaidOfPair::Plan(plan, lefts) = original::ask_pair(&l, &r, false) else {
            panic!("a plan is due");
        };
        let text = |plan: Vec<u8>| {
            let text = String::from_utf8(plan).expect("UTF-8").replace('\t', " ");
            text.trim_end().replace('\n', "|")
        };
        let (mut whole, mut without) = (Vec::new(), Vec::new());
        original::print::plan(&plan, &mut whole);
        original::print::plan_without(&plan, lefts, &mut without);
        assert_eq!(text(without), ours);
        let first_and_variables: Vec<String> = text(whole)
            .split('|')
            .filter(|line| line.starts_with("plan ") || line.starts_with("v "))
            .map(str::to_string)
            .collect();
        assert_eq!(first_and_variables.join("|"), kept);
    }
}

/// Tree to sheet to tree, and the plan of that sheet, which is `lower_statement`'s.
#[test]
fn a_tree_goes_by_way_of_its_sheet() {
    let mut planner = dresserhawk::Planner::new();
    let (mut planned, mut refused) = (0, 0);
    for number in 0..4_000 {
        let case = case(5, number);
        let verdict = reading::judge(&case.sheet, [16_384; 4]);
        let well_formed = !verdict.records.is_empty() && verdict.answer[0] != 5;
        if !well_formed || std::str::from_utf8(&case.sheet).is_err() {
            continue;
        }
        let tree = original::statement(&verdict.records);
        let sheet = cyrs_sheet::encode(&tree).expect("a tree that came from a sheet");
        let records = reading::sheet::read(&sheet).expect("a sheet");
        assert_eq!(format!("{:?}", original::statement(&records)), format!("{tree:?}"));
        match (original::ask(&tree), planner.plan(&sheet)) {
            (Said::Plan(plan), Ok(ours)) => {
                let mut printed = Vec::new();
                original::print::plan(&plan, &mut printed);
                assert_eq!(ours, printed, "sheet {number}");
                planned += 1;
            }
            (Said::Plan(_), Err(refusal)) => assert_eq!(refusal, Refusal::PlanFull),
            (Said::Refused([due, ..]), ours) => {
                assert_eq!(ours.map_err(|refusal| refusal.number() as usize), Err(due));
                refused += 1;
            }
        }
    }
    assert!(planned > 1_000 && refused > 10, "{planned} plans, {refused} refusals");
}

/// What the command says of a refused sheet is said of the line that the call tells.
#[test]
fn a_fault_is_explained_at_its_line() {
    let (mut planner, mut faults) = (dresserhawk::Planner::new(), 0);
    for number in 0..4_000 {
        let case = case(6, number);
        let told = match planner.size(&case.sheet) {
            Err(Refusal::LongSheet) => continue,
            Err(Refusal::BadLine { line } | Refusal::BigTree { line }) => Some(line as usize),
            _ => None,
        };
        let said = dresserhawk::explain::fault(&case.sheet).map(|fault| fault.line);
        assert_eq!(said, told, "sheet {number}");
        faults += told.is_some() as usize;
    }
    assert!(faults > 500, "{faults}");
}

//! The lowering call from Rust.

use dresserhawk::{Planner, Refusal, raw};

/// M1 of document 01, and its plan.
const SHEET: &[u8] = include_bytes!("../../../searches/titles.sheet");
const PLAN: &[u8] =
    b"plan\t2\t1\nsource\t0\t1\nname\tBook\nproject\t0\t1\nitem\ttitle\nprop\ttitle\nvar\t0\nv\t0\t7\n";

#[test]
fn a_plan_is_printed() {
    assert_eq!(Planner::new().plan(SHEET), Ok(PLAN));
}

#[test]
fn a_slice_is_full_or_left_alone() {
    let mut planner = Planner::new();
    let mut plan = vec![b'#'; PLAN.len() + 3];
    assert_eq!(planner.lower(SHEET, &mut plan), Ok(PLAN.len()));
    assert_eq!(plan, [PLAN, b"###"].concat());
    let mut exact = vec![b'#'; PLAN.len()];
    assert_eq!(planner.lower(SHEET, &mut exact), Ok(PLAN.len()));
    assert_eq!(exact, PLAN);
    let mut short = vec![b'#'; PLAN.len() - 1];
    assert_eq!(planner.lower(SHEET, &mut short), Err(Refusal::NoRoom));
    assert!(short.iter().all(|&byte| byte == b'#'));
}

#[test]
fn a_planner_makes_room() {
    // Names of 32,000 bytes in all, lowered twice for a return and printed
    // thrice: keys of `agg`, items of `project`, and their aliases.
    let name = "n".repeat(15_900);
    let sheet = format!(
        "stmt\t1\t0\nreturn\t3\t0\t0\t0\t0\t0\t9\nitem\t-\nprop\t{name}\nnull\nitem\t-\nprop\t{name}\nnull\n\
         item\t-\nfn\tcount\t0\t0\n"
    );
    let mut planner = Planner::new();
    let plan = planner.plan(sheet.as_bytes()).expect("accepted");
    assert!(plan.len() > 6 * name.len());
    assert_eq!(planner.plan(SHEET), Ok(PLAN));
}

#[test]
fn a_plan_of_too_many_operators_is_refused() {
    for (count, due) in [(1_023, None), (1_024, Some(Refusal::PlanFull))] {
        let mut sheet =
            format!("stmt\t1\t0\nreturn\t1\t0\t0\t0\t0\t0\t9\nitem\t-\nlist\t{count}\n");
        sheet += &"pat\t0\n".repeat(count);
        assert_eq!(Planner::new().plan(sheet.as_bytes()).err(), due);
    }
}

#[test]
fn an_answer_without_room_is_not_written() {
    let (mut plan, mut answer) = ([7; 10], [7; 5]);
    let work: [&mut [u32]; 4] = [&mut [], &mut [], &mut [], &mut []];
    assert!(!raw::lower(SHEET, work, &mut plan, &mut answer));
    assert_eq!((plan, answer), ([7; 10], [7; 5]));
}

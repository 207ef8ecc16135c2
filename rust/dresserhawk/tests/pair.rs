//! Two sheets as one plan, from Rust.

use dresserhawk::raw::{self, WORK_WORDS};
use dresserhawk::{PairRefusal, Planner, Refusal, Side, Span, Undesugared as Form};

/// A sheet or a plan, written with blanks for tabs and bars between its lines.
fn sheet(text: &str) -> Vec<u8> {
    format!("{}\n", text.replace(' ', "\t").replace('|', "\n")).into_bytes()
}

const EMPTY: &str = "stmt 0 0";

/// Gives two operators and one variable number.
const UNWIND: &str = "stmt 1 0|unwind 7 0 9|param p";

/// A sheet that is refused: its place in the order of the tests (3 and 4 are one
/// test, 6 to 8 another), the refusal, and the call's words for it: number, line,
/// start, end and form.
struct Bad {
    sheet: Vec<u8>,
    test: u32,
    refusal: Refusal,
    words: [usize; 5],
}

fn bad() -> Vec<Bad> {
    use Refusal::*;
    let span = Span { start: 3, end: 9 };
    let deep = format!("stmt 1 0|where 0 1{}|null", "|list 1".repeat(62));
    let mut cases = vec![
        (2, "x".repeat(32_769).into_bytes(), LongSheet, [2, 0, 0, 0, 0]),
        (3, Vec::new(), BadLine { line: 1 }, [3, 1, 0, 0, 0]),
        (3, sheet("stmt 1 0"), BadLine { line: 2 }, [3, 2, 0, 0, 0]),
        (3, sheet(&deep), BigTree { line: 65 }, [4, 65, 0, 0, 0]),
        (5, sheet("stmt 1 0|write 3 9"), WriteClause { line: 2 }, [5, 2, 0, 0, 0]),
        (6, sheet("stmt 1 0|where 3 9|unres x"), Unresolved { line: 3, span }, [6, 3, 3, 9, 0]),
        (
            6,
            sheet("stmt 1 0|match 0 1 3 9|part - 0 0"),
            EmptyPart { line: 3, span },
            [8, 3, 3, 9, 0],
        ),
    ];
    let forms = [
        Form::ListComprehension,
        Form::PatternComprehension,
        Form::MapProjection,
        Form::ExistsSubqueryDeferred,
    ];
    for (number, kind) in forms.into_iter().enumerate() {
        let text = format!("stmt 1 0|where 3 9|undes {number}");
        cases.push((6, sheet(&text), Undesugared { line: 3, span, kind }, [7, 3, 3, 9, number]));
    }
    cases
        .into_iter()
        .map(|(test, sheet, refusal, words)| Bad { sheet, test, refusal, words })
        .collect()
}

impl Bad {
    fn on(&self, side: Side) -> PairRefusal {
        PairRefusal { side: Some(side), refusal: self.refusal }
    }

    /// The six words of the answer for this side.
    fn answer(&self, side: Side) -> [usize; 6] {
        let ([number, line, start, end, form], side) = (self.words, side as usize);
        [number, line, start, end, if number == 7 { 10 * side + form } else { side }, 0]
    }
}

/// The raw call with work slices of these lengths, the left's before the right's.
fn raw_call(
    [left, right]: [&[u8]; 2],
    work: [usize; 8],
    plan: &mut [u8],
    answer: &mut [usize],
) -> bool {
    let mut work = work.map(|words| vec![0x5a5a_5a5a; words]);
    let [a, b, c, d, e, f, g, h] = work.each_mut().map(|words| &mut words[..]);
    raw::lower_pair(left, right, false, [a, b, c, d], [e, f, g, h], plan, answer)
}

const ENOUGH: [usize; 8] = [WORK_WORDS; 8];

#[test]
fn a_pair_is_one_plan() {
    let node = "stmt 1 0|match 0 1 0 9|part - 0 1|node 7 1 0 0 9|name ";
    let (book, copy) = (format!("{node}Book"), format!("{node}Copy"));
    let cases = [
        (EMPTY, EMPTY, "plan 3 0|source 0 0|source 0 0|union 0 1 ALL"),
        // The source of a side without operators stands behind both sides, with the next number.
        (EMPTY, UNWIND, "plan 4 1|source 0 0|unwind 0 0|param p|source 1 0|union 2 1 ALL|v 0 7"),
        // The `v` lines are the right's, which has none.
        (UNWIND, EMPTY, "plan 4 0|source 0 0|unwind 0 0|param p|source 1 0|union 1 2 ALL"),
        // Id 7 is one variable on the left and another on the right.
        (&book, &copy, "plan 3 1|source 0 1|name Book|source 1 1|name Copy|union 0 1 ALL|v 1 7"),
        // Inputs on the right are numbers of the whole list.
        (
            UNWIND,
            UNWIND,
            "plan 5 1|source 0 0|unwind 0 0|param p|source 1 0|unwind 2 1|param p|union 1 3 ALL|v 1 7",
        ),
    ];
    let mut planner = Planner::new();
    for (left, right, plan) in cases {
        for (all, flag) in [(false, "0"), (true, "1")] {
            let due = sheet(&plan.replace("ALL", flag));
            assert_eq!(planner.plan_pair(&sheet(left), &sheet(right), all), Ok(&due[..]));
        }
    }
}

#[test]
fn the_two_searches_make_one_list() {
    let overdue = include_bytes!("../../../searches/overdue.sheet");
    let reserved = include_bytes!("../../../searches/reserved.sheet");
    let mut planner = Planner::new();
    let lines = |plan: &[u8]| -> Vec<String> {
        std::str::from_utf8(plan).expect("UTF-8").lines().map(str::to_string).collect()
    };
    let alone = lines(planner.plan(overdue).expect("accepted"));
    let both = lines(planner.plan_pair(overdue, reserved, false).expect("accepted"));
    // The left's operators are those of its own plan: all lines but the first and the `v` lines.
    let operators = &alone[1..alone.len() - 4];
    assert_eq!(&both[1..1 + operators.len()], operators);
    // Six operators of the right, source, expand, agg, project, order and limit: 10 to 15.
    let end = ["union\t9\t15\t0", "v\t5\t10", "v\t6\t11"];
    assert_eq!((&*both[0], &both[both.len() - 3..]), ("plan\t17\t2", &end.map(str::to_string)[..]));
}

#[test]
fn each_side_is_refused_by_each_test() {
    let mut planner = Planner::new();
    for bad in bad() {
        for good in [EMPTY, UNWIND].map(sheet) {
            let left = planner.plan_pair(&bad.sheet, &good, true);
            assert_eq!(left, Err(bad.on(Side::Left)));
            let right = planner.plan_pair(&good, &bad.sheet, true);
            assert_eq!(right, Err(bad.on(Side::Right)));
        }
        // By itself it is refused alike.
        assert_eq!(planner.plan(&bad.sheet), Err(bad.refusal));
    }
}

#[test]
fn the_earlier_test_wins_and_at_the_same_test_the_left() {
    let mut planner = Planner::new();
    for left in bad() {
        for right in bad() {
            let due =
                if right.test < left.test { right.on(Side::Right) } else { left.on(Side::Left) };
            assert_eq!(planner.plan_pair(&left.sheet, &right.sheet, false), Err(due));
        }
    }
}

#[test]
fn the_kind_has_the_side_and_the_form() {
    let good = sheet(UNWIND);
    for bad in bad() {
        for side in [Side::Left, Side::Right] {
            let sheets = match side {
                Side::Left => [&bad.sheet[..], &good],
                Side::Right => [&good[..], &bad.sheet],
            };
            let (mut plan, mut answer) = ([b'#'; 99], [7; 8]);
            assert!(raw_call(sheets, ENOUGH, &mut plan, &mut answer));
            assert_eq!((&answer[..6], &answer[6..]), (&bad.answer(side)[..], &[7, 7][..]));
            assert_eq!(plan, [b'#'; 99], "refused, the plan slice is as it was");
        }
    }
}

#[test]
fn each_of_the_eight_work_slices_is_looked_at_first() {
    let (long, good) = (vec![b'x'; 32_769], sheet(UNWIND));
    for sheets in [[&good[..], &good], [&long, &long]] {
        for short in 0..8 {
            let mut work = ENOUGH;
            work[short] -= 1;
            let (mut plan, mut answer) = ([b'#'; 99], [7; 8]);
            assert!(raw_call(sheets, work, &mut plan, &mut answer));
            assert_eq!((answer, plan), ([1, 0, 0, 0, 0, 0, 7, 7], [b'#'; 99]));
        }
    }
}

#[test]
fn an_answer_without_room_is_not_written() {
    let good = sheet(UNWIND);
    for words in [0, 5] {
        let (mut plan, mut answer) = ([b'#'; 99], [7; 5]);
        assert!(!raw_call([&good, &good], ENOUGH, &mut plan, &mut answer[..words]));
        assert_eq!((plan, answer), ([b'#'; 99], [7; 5]));
    }
}

/// So many filters behind a source: one operator more, and twice as many records and one.
fn filters(count: usize) -> Vec<u8> {
    sheet(&format!("stmt {count} 0{}", "|where 0 1|null".repeat(count)))
}

/// So many variables, the ids from 0 on.
fn variables(count: usize) -> Vec<u8> {
    let mut text = format!("stmt 1 0|where 0 1|list {count}");
    text.extend((0..count).map(|id| format!("|var {id}")));
    sheet(&text)
}

#[test]
fn both_sides_together_make_a_plan_too_large() {
    let full = PairRefusal { side: None, refusal: Refusal::PlanFull };
    let mut planner = Planner::new();
    // Either side has at most 1,024 operators, and the union is one more.
    for (left, right, due) in
        [(1_023, 1_022, None), (1_022, 1_023, None), (1_023, 1_023, Some(full))]
    {
        assert_eq!(planner.plan_pair(&filters(left), &filters(right), true).err(), due);
        assert_eq!(planner.plan(&filters(left)).err(), None);
    }
    // The right's numbers go on where the left's end.
    for (left, right, due) in
        [(1_024, 1_024, None), (1_025, 1_024, Some(full)), (8, 2_041, Some(full))]
    {
        assert_eq!(planner.plan_pair(&variables(left), &variables(right), true).err(), due);
        assert_eq!(planner.plan(&variables(left)).err(), None);
    }
    // The plan slice is not looked at then, nor written to.
    for room in [0, 99, 99_999] {
        let mut plan = vec![b'#'; room];
        let large = filters(1_023);
        assert_eq!(planner.lower_pair(&large, &large, true, &mut plan), Err(full));
        assert!(plan.iter().all(|&byte| byte == b'#'));
    }
}

#[test]
fn a_slice_is_full_or_left_alone() {
    let (left, right) = (sheet(UNWIND), sheet(EMPTY));
    let mut planner = Planner::new();
    let due = planner.plan_pair(&left, &right, false).expect("accepted").to_vec();
    let mut longer = vec![b'#'; due.len() + 3];
    assert_eq!(planner.lower_pair(&left, &right, false, &mut longer), Ok(due.len()));
    assert_eq!(longer, [&due[..], b"###"].concat());
    let mut exact = vec![b'#'; due.len()];
    assert_eq!(planner.lower_pair(&left, &right, false, &mut exact), Ok(due.len()));
    assert_eq!(exact, due);
    let no_room = PairRefusal { side: None, refusal: Refusal::NoRoom };
    for length in [0, 1, due.len() - 1] {
        let mut short = vec![b'#'; length];
        assert_eq!(planner.lower_pair(&left, &right, false, &mut short), Err(no_room));
        assert!(short.iter().all(|&byte| byte == b'#'));
    }
}

#[test]
fn a_planner_makes_room() {
    // Two texts of 30,000 bytes, and a third time for what the pattern copies.
    let text = "x".repeat(30_000);
    let long = sheet(&format!(
        "stmt 1 0|return 1 0 0 0 0 0 9|item -|pat 1|part - 0 1|node - 0 1 0 9|str {text}"
    ));
    let mut planner = Planner::new();
    let plan = planner.plan_pair(&long, &long, true).expect("accepted");
    assert!(plan.len() > 6 * text.len(), "{}", plan.len());
}

#[test]
fn memory_is_used_again_without_being_cleared() {
    let searches = ["titles", "recall", "overdue", "reserved"].map(|name| {
        let path = format!("{}/../../searches/{name}.sheet", env!("CARGO_MANIFEST_DIR"));
        std::fs::read(path).expect("a search")
    });
    let mut sheets: Vec<Vec<u8>> = searches.into();
    sheets.extend(bad().into_iter().map(|bad| bad.sheet));
    sheets.extend([sheet(EMPTY), sheet(UNWIND), filters(900), variables(1_500)]);
    let planner = &mut Planner::new();
    for left in &sheets {
        for right in &sheets {
            let fresh = &mut Planner::new();
            assert_eq!(planner.plan_pair(left, right, true), fresh.plan_pair(left, right, true));
            assert_eq!(planner.size(right), Planner::new().size(right));
            assert_eq!(planner.plan(left), Planner::new().plan(left));
        }
    }
}

#[test]
fn a_refusal_tells_its_side_in_words() {
    let refusal = Refusal::BadLine { line: 4 };
    for (side, due) in [
        (Some(Side::Left), "left sheet: line 4: not the record that is due"),
        (Some(Side::Right), "right sheet: line 4: not the record that is due"),
        (None, "line 4: not the record that is due"),
    ] {
        let refused = PairRefusal { side, refusal };
        assert_eq!((refused.to_string(), Refusal::from(refused)), (due.to_string(), refusal));
        let _: &dyn std::error::Error = &refused;
    }
}

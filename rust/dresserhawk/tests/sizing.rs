//! The sizing call from Rust: each refusal, and the raw call's own limits.

use dresserhawk::{Planner, Refusal, Span, Undesugared, raw};

/// A sheet written with spaces for tabs.
fn sheet(lines: &[&str]) -> Vec<u8> {
    lines.iter().flat_map(|line| format!("{}\n", line.replace(' ', "\t")).into_bytes()).collect()
}

fn size(lines: &[&str]) -> Result<usize, Refusal> {
    Planner::new().size(&sheet(lines))
}

#[test]
fn a_figure_is_within_its_bounds() {
    // Nine records, which give two operators.
    let sheet = include_bytes!("../../../searches/titles.sheet");
    let figure = Planner::new().size(sheet).unwrap();
    assert!((2..=4 * 9).contains(&figure), "{figure}");
}

#[test]
fn each_refusal_has_its_place() {
    let span = Span { start: 3, end: 9 };
    assert_eq!(Planner::new().size(&[b'x'; 32_769]), Err(Refusal::LongSheet));
    assert_eq!(size(&[]), Err(Refusal::BadLine { line: 1 }));
    assert_eq!(size(&["stmt 1 0", "write 3 9"]), Err(Refusal::WriteClause { line: 2 }));
    let unresolved = size(&["stmt 1 0", "where 3 9", "unres x"]);
    assert_eq!(unresolved, Err(Refusal::Unresolved { line: 3, span }));
    let kind = Undesugared::MapProjection;
    let undesugared = size(&["stmt 1 0", "where 3 9", "undes 2"]);
    assert_eq!(undesugared, Err(Refusal::Undesugared { line: 3, span, kind }));
    let empty = size(&["stmt 1 0", "match 0 1 3 9", "part - 0 0"]);
    assert_eq!(empty, Err(Refusal::EmptyPart { line: 3, span }));
}

#[test]
fn a_deep_sheet_is_refused_where_it_is_too_deep() {
    let mut lines = vec!["stmt 1 0", "where 0 1"];
    lines.extend(["list 1"; 62]);
    lines.push("null");
    assert_eq!(size(&lines), Err(Refusal::BigTree { line: 65 }));
}

#[test]
fn a_planner_forgets_the_sheet_before() {
    let mut planner = Planner::new();
    let good = sheet(&["stmt 1 0", "where 0 1", "null"]);
    let first = planner.size(&good);
    assert!(planner.size(b"stmt\t9\t9\n").is_err());
    assert_eq!(planner.size(&good), first);
}

#[test]
fn the_raw_call_takes_slices_of_any_length() {
    let mut words = vec![0; 4 * 16_384];
    for short in 0..4 {
        let mut rest = &mut words[..];
        let work = std::array::from_fn(|place| {
            let (taken, left) =
                std::mem::take(&mut rest).split_at_mut(16_384 - (place == short) as usize);
            rest = left;
            taken
        });
        let mut answer = [7; 8];
        assert!(raw::size(b"", work, &mut answer));
        assert_eq!(answer, [1, 0, 0, 0, 0, 0, 7, 7]);
    }
    let mut answer = [7; 5];
    assert!(!raw::size(b"", [&mut [], &mut [], &mut [], &mut []], &mut answer));
    assert_eq!(answer, [7; 5]);
}

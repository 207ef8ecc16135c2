//! Document 01's worked searches, M1 to M10, and its two sheets at the limit.

use super::{Answer, judge};

/// A sheet written with blanks for tabs.
fn sheet(lines: &[&str]) -> Vec<u8> {
    lines.iter().flat_map(|line| format!("{}\n", line.replace(' ', "\t")).into_bytes()).collect()
}

fn plan(lines: &[&str]) -> Vec<String> {
    let sheet = sheet(lines);
    let verdict = judge(&sheet, [16_384; 4]);
    assert_eq!(verdict.answer[0], 0);
    let plan = verdict.lowered.expect("accepted").plan;
    assert_eq!(verdict.answer[5], plan.len());
    let text = String::from_utf8(plan).expect("UTF-8 in, UTF-8 out").replace('\t', " ");
    text.lines().map(str::to_string).collect()
}

fn answer(lines: &[&str]) -> Answer {
    judge(&sheet(lines), [16_384; 4]).answer
}

const UNNAMED: [&str; 3] = ["pat 1", "part - 0 1", "node - 0 0 0 0"];

#[test]
fn m1_a_property_of_a_labelled_node() {
    let lines = [
        "stmt 2 0",
        "match 0 1 0 14",
        "part - 0 1",
        "node 7 1 0 6 14",
        "name Book",
        "return 1 0 0 0 0 15 29",
        "item -",
        "prop title",
        "var 7",
    ];
    let due = [
        "plan 2 1",
        "source 0 1",
        "name Book",
        "project 0 1",
        "item title",
        "prop title",
        "var 0",
        "v 0 7",
    ];
    assert_eq!(plan(&lines), due);
}

#[test]
fn m2_and_m3_nothing_and_an_empty_statement() {
    assert_eq!(answer(&[]), [3, 1, 0, 0, 0, 0]);
    assert_eq!(plan(&["stmt 0 0"]), ["plan 0 0"]);
}

#[test]
fn m4_the_far_node_is_numbered_before_the_rel() {
    let lines = [
        "stmt 1 0",
        "match 0 1 0 9",
        "part - 0 3",
        "node 1 0 0 0 1",
        "rel 2 0 0 one - - 0 2 3",
        "node 3 0 0 4 5",
    ];
    assert_eq!(plan(&lines)[1..3], ["source 0 0", "expand 0 0 2 1"]);
}

#[test]
fn m5_a_return_lowers_twice() {
    let mut lines = vec!["stmt 1 0", "return 1 0 0 0 0 0 9", "item -"];
    lines.extend(UNNAMED);
    let plan = plan(&lines);
    assert_eq!(plan[1..5], ["source 0 0", "source 0 0", "source 1 0", "project 0 1"]);
}

#[test]
fn m6_a_shortest_path() {
    let lines = [
        "stmt 1 0",
        "match 0 1 0 9",
        "part 40 1 3",
        "node 10 0 0 0 1",
        "rel 20 0 0 one - - 0 2 3",
        "node 30 0 0 4 5",
    ];
    let plan = plan(&lines);
    assert_eq!(plan[plan.len() - 4..], ["v 0 10", "v 1 20", "v 2 30", "v 3 40"]);
}

#[test]
fn m7_a_pattern_in_a_leading_where() {
    let mut lines = vec!["stmt 1 0", "where 0 9"];
    lines.extend(UNNAMED);
    assert_eq!(plan(&lines)[1..4], ["source 0 0", "source 1 0", "filter 1"]);
}

#[test]
fn m8_the_ends_of_an_int() {
    assert_eq!(answer(&["stmt 1 0", "where 0 1", "int -9223372036854775808"])[0], 0);
    let beyond = answer(&["stmt 1 0", "where 0 1", "int 9223372036854775808"]);
    assert_eq!(beyond, [3, 3, 0, 0, 0, 0]);
}

#[test]
fn m9_the_first_in_the_walk_is_reported() {
    let head = ["stmt 1 0", "where 3 9", "list 2"];
    let unresolved = answer(&[head[0], head[1], head[2], "unres x", "undes 0"]);
    assert_eq!(unresolved, [6, 4, 3, 9, 0, 0]);
    let undesugared = answer(&[head[0], head[1], head[2], "undes 0", "unres x"]);
    assert_eq!(undesugared, [7, 4, 3, 9, 0, 0]);
}

#[test]
fn m10_a_union_of_nothing() {
    let due = ["plan 3 0", "source 0 0", "source 0 0", "union 0 1 0"];
    assert_eq!(plan(&["stmt 0 1", "arm 0 0"]), due);
}

#[test]
fn a_plan_of_2048_operators_and_one_beyond() {
    for (count, due) in [(1_023, 0), (1_024, 9)] {
        let list = format!("list {count}");
        let mut lines = vec!["stmt 1 0", "return 1 0 0 0 0 0 9", "item -", &list];
        lines.extend(vec!["pat 0"; count]);
        assert_eq!(answer(&lines)[0], due);
    }
}

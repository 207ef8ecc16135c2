//! The table of records, held against the proved calls: what is said about a
//! refused sheet is said about the line that the calls tell.

use dresserhawk::explain::{Matter, fault};
use dresserhawk::grammar::{Form, RECORDS};
use dresserhawk::{Planner, Refusal};

/// The line and number that the proved call gives for refusals 3 and 4.
fn told(planner: &mut Planner, sheet: &[u8]) -> Option<(usize, u32)> {
    match planner.size(sheet) {
        Err(refusal @ (Refusal::BadLine { line } | Refusal::BigTree { line })) => {
            Some((line as usize, refusal.number()))
        }
        _ => None,
    }
}

fn held(planner: &mut Planner, sheet: &[u8]) {
    let said = fault(sheet).map(|fault| {
        let large = matches!(fault.matter, Matter::TooDeep | Matter::TooManyLines);
        (fault.line, if large { 4 } else { 3 })
    });
    assert_eq!(said, told(planner, sheet), "{}", sheet.escape_ascii());
}

#[test]
fn each_change_of_a_byte_is_found_at_the_line_that_the_call_tells() {
    let planner = &mut Planner::new();
    for sheet in [
        &include_bytes!("../../../searches/titles.sheet")[..],
        include_bytes!("../../../searches/recall.sheet"),
    ] {
        held(planner, sheet);
        for at in 0..sheet.len() {
            held(planner, &sheet[..at]);
            held(planner, &[&sheet[..at], &sheet[at + 1..]].concat());
            for byte in *b"\t\n\\ 0129-=\rx" {
                held(planner, &[&sheet[..at], &[byte], &sheet[at + 1..]].concat());
                held(planner, &[&sheet[..at], &[byte], &sheet[at..]].concat());
            }
        }
    }
}

/// Spellings of a field: each is right for some form, or for none.
const FIELDS: [&str; 26] = [
    "",
    "-",
    "0",
    "1",
    "2",
    "3",
    "19",
    "20",
    "00",
    "01",
    "+1",
    "-1",
    "-0",
    "4294967295",
    "4294967296",
    "18446744073709551615",
    "18446744073709551616",
    "9223372036854775807",
    "9223372036854775808",
    "-9223372036854775808",
    "-9223372036854775809",
    "=",
    "=a\\tb",
    "a\\x",
    "7ff0000000000000",
    "7FF0000000000000",
];

/// A sheet that ends with this line, of a record that may stand there.
fn ending_in(sort: &str, line: &str) -> String {
    let head = match sort {
        "statement" => "",
        "clause" => "stmt\t1\t0\n",
        "arm" => "stmt\t0\t1\n",
        "item" => "stmt\t1\t0\nreturn\t1\t0\t0\t0\t0\t0\t0\n",
        "key" => "stmt\t1\t0\nreturn\t0\t0\t1\t0\t0\t0\t0\n",
        "yield" => "stmt\t1\t0\ncall\tf\t0\t1\t0\t0\t0\n",
        "part" => "stmt\t1\t0\nmatch\t0\t1\t0\t0\n",
        "element" => "stmt\t1\t0\nmatch\t0\t1\t0\t0\npart\t-\t0\t1\n",
        "name" => "stmt\t1\t0\nmatch\t0\t1\t0\t0\npart\t-\t0\t1\nnode\t-\t1\t0\t0\t0\n",
        _ => "stmt\t1\t0\nwhere\t0\t0\n",
    };
    format!("{head}{line}\n")
}

#[test]
fn each_field_of_each_record_is_read_as_the_call_reads_it() {
    let planner = &mut Planner::new();
    for record in RECORDS {
        let mut right = vec![record.keyword];
        for field in record.fields {
            right.extend(match field.form {
                Form::Span => &["0", "4294967295"][..],
                Form::Length => &["var", "1", "-"],
                Form::Float => &["0000000000000000"],
                Form::Alias => &["=a"],
                _ => &["0"],
            });
        }
        let hold = |planner: &mut Planner, columns: &[&str]| {
            held(planner, ending_in(record.sort.name(), &columns.join("\t")).as_bytes());
        };
        hold(planner, &right);
        let sheet = ending_in(record.sort.name(), &right.join("\t"));
        let matter = fault(sheet.as_bytes()).map(|fault| fault.matter);
        assert!(matches!(matter, None | Some(Matter::Missing)), "{sheet}");
        for column in 0..right.len() {
            for field in FIELDS.iter().chain(&["one", "var", "null"]) {
                let mut changed = right.clone();
                changed[column] = field;
                hold(planner, &changed);
            }
            let mut less = right.clone();
            less.remove(column);
            hold(planner, &less);
        }
        for other in RECORDS {
            hold(planner, &[&[other.keyword], &right[1..]].concat());
        }
    }
}

#[test]
fn limits_are_found_where_the_call_finds_them() {
    let planner = &mut Planner::new();
    for nulls in [2_044, 2_045, 2_046, 2_047] {
        for count in [2_045, 2_046] {
            let sheet =
                format!("stmt\t1\t0\nwhere\t0\t1\nlist\t{count}\n{}", "null\n".repeat(nulls));
            held(planner, sheet.as_bytes());
        }
    }
    for deep in 60..64 {
        held(
            planner,
            format!("stmt\t1\t0\nwhere\t0\t1\n{}null\n", "list\t1\n".repeat(deep)).as_bytes(),
        );
        held(
            planner,
            format!("stmt\t1\t0\nwhere\t0\t1\n{}", "map\t1\nname\tk\n".repeat(deep)).as_bytes(),
        );
    }
}

//! The tests of the lowering call that come before the lowering: refusals 1 to 8 in order.

use super::Answer;
use super::check::first_fault;
use super::sheet::{Form, Record, Why, read};

pub const LEAST_WORDS: usize = 16_384;
pub const MOST_BYTES: usize = 32_768;

/// A refusal: for 3 and 4 with the test at a line that gave it, for 5 to 8 with the records.
pub struct Refused<'s> {
    pub answer: Answer,
    pub why: Option<Why>,
    pub records: Vec<Record<'s>>,
}

/// The records of a sheet that passes, for work slices of these lengths; or the refusal.
pub fn before_lowering(sheet: &[u8], work: [usize; 4]) -> Result<Vec<Record<'_>>, Refused<'_>> {
    let refused = |answer, why| Err(Refused { answer, why, records: Vec::new() });
    if work.iter().any(|&words| words < LEAST_WORDS) {
        return refused(at_line(1, 0), None);
    }
    if sheet.len() > MOST_BYTES {
        return refused(at_line(2, 0), None);
    }
    let records = match read(sheet) {
        Ok(records) => records,
        Err(fault) => return refused(at_line(fault.number, fault.line), Some(fault.why)),
    };
    match first_write(&records).or_else(|| first_fault(&records)) {
        Some(answer) => Err(Refused { answer, why: None, records }),
        None => Ok(records),
    }
}

/// A refusal that has no span and no kind.
pub fn at_line(number: usize, line: usize) -> Answer {
    [number, line, 0, 0, 0, 0]
}

pub fn first_write(records: &[Record]) -> Option<Answer> {
    let at = records.iter().position(|record| matches!(record.form, Form::Write { .. }))?;
    Some(at_line(5, at + 1))
}

#[cfg(test)]
mod by_hand {
    use super::*;
    use crate::reading::sheet::by_hand::sheet;

    const ENOUGH: [usize; 4] = [16_384; 4];

    fn refusal(bytes: &[u8], work: [usize; 4]) -> (Answer, Option<Why>) {
        let refused = before_lowering(bytes, work).err().expect("refused");
        (refused.answer, refused.why)
    }

    /// How many records an accepted sheet has.
    fn passed(bytes: &[u8], work: [usize; 4]) -> usize {
        before_lowering(bytes, work).ok().expect("accepted").len()
    }

    fn refused(lines: &str) -> (Answer, Option<Why>) {
        refusal(&sheet(lines), ENOUGH)
    }

    /// A sheet of just so many bytes: a return of one long text.
    fn long(bytes: usize) -> Vec<u8> {
        let head = "stmt 1 0|return 1 0 0 0 0 0 0|item -|str ";
        sheet(&format!("{head}{}", "a".repeat(bytes - head.len() - 1)))
    }

    #[test]
    fn accepted() {
        let bytes = sheet(
            "stmt 2 0|match 0 1 0 14|part - 0 1|node 7 1 0 6 14|name Book|\
             return 1 0 0 0 0 15 29|item -|prop title|var 7",
        );
        assert_eq!(passed(&bytes, ENOUGH), 9);
        assert_eq!(passed(b"stmt\t0\t0\n", [usize::MAX; 4]), 1);
    }

    #[test]
    fn each_refusal() {
        assert_eq!(refusal(b"stmt\t0\t0\n", [0; 4]), ([1, 0, 0, 0, 0, 0], None));
        assert_eq!(refusal(&long(32_769), ENOUGH), ([2, 0, 0, 0, 0, 0], None));
        assert_eq!(refusal(b"", ENOUGH), ([3, 1, 0, 0, 0, 0], Some(Why::Missing)));
        assert_eq!(refused("stmt 0 0|null"), ([3, 2, 0, 0, 0, 0], Some(Why::NothingDue)));
        assert_eq!(refusal(b"stmt", ENOUGH), ([3, 1, 0, 0, 0, 0], Some(Why::NoLineFeed)));
        assert_eq!(refused("null"), ([3, 1, 0, 0, 0, 0], Some(Why::Form)));
        let deep = format!("stmt 1 0|where 0 0{}", "|un 0".repeat(63));
        assert_eq!(refused(&deep), ([4, 65, 0, 0, 0, 0], Some(Why::Depth65)));
        let many = format!("stmt 1 0|where 0 0|list 2046{}", "|null".repeat(2046));
        assert_eq!(refused(&many), ([4, 2049, 0, 0, 0, 0], Some(Why::Line2049)));
        assert_eq!(refused("stmt 1 0|write 3 9"), ([5, 2, 0, 0, 0, 0], None));
        assert_eq!(refused("stmt 1 0|where 3 9|unres a"), ([6, 3, 3, 9, 0, 0], None));
        assert_eq!(refused("stmt 1 0|where 3 9|undes 2"), ([7, 3, 3, 9, 2, 0], None));
        assert_eq!(refused("stmt 1 0|match 0 1 3 9|part - 0 0"), ([8, 3, 3, 9, 0, 0], None));
    }

    #[test]
    fn each_slice_is_tested_at_its_limit() {
        for slice in 0..4 {
            let mut work = ENOUGH;
            work[slice] = 16_383;
            assert_eq!(refusal(b"stmt\t0\t0\n", work), ([1, 0, 0, 0, 0, 0], None));
        }
    }

    #[test]
    fn the_sheet_is_tested_at_its_limit() {
        assert_eq!(long(32_768).len(), 32_768);
        assert_eq!(passed(&long(32_768), ENOUGH), 4);
        assert_eq!(refusal(&[b'\n'; 32_769], ENOUGH).0[0], 2);
        assert_eq!(refusal(&[b'\n'; 32_768], ENOUGH).0[0], 3);
    }

    #[test]
    fn one_before_two_before_three() {
        assert_eq!(refusal(&[b'x'; 32_769], [0, 16_384, 16_384, 16_384]).0[0], 1);
        assert_eq!(refusal(&[b'x'; 32_769], ENOUGH).0[0], 2);
        assert_eq!(refusal(b"x", [16_383; 4]).0[0], 1);
    }

    #[test]
    fn a_bad_line_before_a_write_and_a_write_before_the_tree() {
        assert_eq!(refused("stmt 2 0|write 0 0|what").0, [3, 3, 0, 0, 0, 0]);
        let deep = format!("stmt 2 0|write 0 0|where 0 0{}", "|un 0".repeat(63));
        assert_eq!(refused(&deep).0, [4, 66, 0, 0, 0, 0]);
        let lines = "stmt 1 1|where 3 9|unres a|arm 0 2|write 1 2|write 3 4";
        assert_eq!(refused(lines), ([5, 5, 0, 0, 0, 0], None));
    }

    #[test]
    fn the_tree_comes_after_the_lines() {
        assert_eq!(refused("stmt 2 0|where 3 9|unres a").0, [3, 4, 0, 0, 0, 0]);
        assert_eq!(refused("stmt 1 0|match 0 1 3 9|part - 0 0|null").0, [3, 4, 0, 0, 0, 0]);
    }
}

//! Sheets at each limit and one beyond.

use crate::line;
use crate::rng::Rng;

/// A sheet at or near one of the limits.
pub fn sheet(rng: &mut Rng) -> Vec<u8> {
    match rng.below(8) {
        0 => bytes(rng.from(32_760, 32_770)),
        1 => lines(rng.from(2_045, 2_050)),
        2 => deep(rng.from(61, 66), rng.pick(&["null", "unres\tx", "pat\t0", "nil", "list\t1"])),
        3 => deep_pattern(rng.from(18, 22)),
        4 => operators(rng.from(1_021, 1_025), rng.flag()),
        5 => numbers(rng.from(338, 345)),
        6 => variables((0..rng.from(2_040, 2_047)).map(|place| 7 * place)),
        _ => unions(rng.from(1_021, 1_025)),
    }
}

/// A statement of one where; its expression is due.
fn one_where() -> Vec<u8> {
    let mut sheet = Vec::new();
    line!(&mut sheet, "stmt", 1u32, 0u32);
    line!(&mut sheet, "where", 0u32, 1u32);
    sheet
}

/// A statement of one return with one item; its expression is due.
fn one_return(distinct: bool) -> Vec<u8> {
    let mut sheet = Vec::new();
    line!(&mut sheet, "stmt", 1u32, 0u32);
    line!(&mut sheet, "return", 1u32, distinct, 0u32, false, false, 0u32, 1u32);
    line!(&mut sheet, "item", "-");
    sheet
}

/// So many bytes: one long string.
pub fn bytes(size: usize) -> Vec<u8> {
    let mut sheet = one_where();
    sheet.extend_from_slice(b"str\t");
    sheet.resize(size - 1, b'x');
    sheet.push(b'\n');
    sheet
}

/// So many lines: one long list.
pub fn lines(count: usize) -> Vec<u8> {
    let mut sheet = one_where();
    line!(&mut sheet, "list", count - 3);
    for _ in 0..count - 3 {
        line!(&mut sheet, "null");
    }
    sheet
}

/// A line at this depth.
fn deep(depth: usize, last: &str) -> Vec<u8> {
    let mut sheet = one_where();
    for _ in 0..depth - 3 {
        line!(&mut sheet, "list", 1u32);
    }
    line!(&mut sheet, last);
    sheet
}

/// Patterns in the props of patterns, three levels each.
fn deep_pattern(levels: usize) -> Vec<u8> {
    let mut sheet = one_return(false);
    for _ in 0..levels {
        line!(&mut sheet, "pat", 1u32);
        line!(&mut sheet, "part", "-", 0u32, 1u32);
        line!(&mut sheet, "node", "-", 0u32, true, 0u32, 1u32);
    }
    line!(&mut sheet, "null");
    sheet
}

/// A return of a list of patterns without parts: two operators each, and two more.
pub fn operators(count: usize, distinct: bool) -> Vec<u8> {
    let mut sheet = one_return(distinct);
    line!(&mut sheet, "list", count);
    for _ in 0..count {
        line!(&mut sheet, "pat", 0u32);
    }
    sheet
}

/// A return of a list of patterns of two unnamed nodes and a rel: six numbers
/// and four operators each.
pub fn numbers(count: usize) -> Vec<u8> {
    let mut sheet = one_return(false);
    line!(&mut sheet, "list", count);
    for _ in 0..count {
        line!(&mut sheet, "pat", 1u32);
        line!(&mut sheet, "part", "-", 0u32, 3u32);
        line!(&mut sheet, "node", "-", 0u32, false, 0u32, 0u32);
        line!(&mut sheet, "rel", "-", 0u32, 0u32, "one", "-", "-", false, 0u32, 0u32);
        line!(&mut sheet, "node", "-", 0u32, false, 0u32, 0u32);
    }
    sheet
}

/// A list of variables with these ids.
pub fn variables(ids: impl ExactSizeIterator<Item = usize>) -> Vec<u8> {
    let mut sheet = one_where();
    line!(&mut sheet, "list", ids.len());
    for id in ids {
        line!(&mut sheet, "var", id);
    }
    sheet
}

/// One part of so many relationships between unnamed nodes.
pub fn chain(rels: usize) -> Vec<u8> {
    let mut sheet = Vec::new();
    line!(&mut sheet, "stmt", 1u32, 0u32);
    line!(&mut sheet, "match", false, 1u32, 0u32, 1u32);
    line!(&mut sheet, "part", "-", 0u32, 2 * rels + 1);
    for rel in 0..=rels {
        if rel > 0 {
            line!(&mut sheet, "rel", "-", 0u32, 0u32, "one", "-", "-", false, 0u32, 0u32);
        }
        line!(&mut sheet, "node", "-", 0u32, false, 0u32, 0u32);
    }
    sheet
}

/// Empty arms: a source-all for each side that is missing, and a union.
fn unions(arms: usize) -> Vec<u8> {
    let mut sheet = Vec::new();
    line!(&mut sheet, "stmt", 0u32, arms);
    for arm in 0..arms {
        line!(&mut sheet, "arm", arm % 2 == 0, 0u32);
    }
    sheet
}

//! Damaged copies of good sheets: mostly one small change, so that the reader
//! gets far before it meets it.

use crate::rng::Rng;

/// Values at and beyond the edges of what a field may hold.
const FIELDS: [&str; 24] = [
    "",
    "-",
    "0",
    "1",
    "2",
    "3",
    "00",
    "01",
    "+1",
    "-1",
    "-0",
    "1 ",
    "4294967295",
    "4294967296",
    "18446744073709551615",
    "18446744073709551616",
    "9223372036854775807",
    "9223372036854775808",
    "-9223372036854775808",
    "-9223372036854775809",
    "99999999999999999999999",
    "=",
    "\\x",
    "\\",
];

const LINES: [&str; 12] = [
    "null",
    "name\tx",
    "item\t-",
    "key\t0",
    "arm\t0\t0",
    "part\t-\t0\t0",
    "node\t-\t0\t0\t0\t0",
    "write\t0\t0",
    "yield\tx\t0",
    "stmt\t0\t0",
    "",
    "nil",
];

/// One to three changes.
pub fn damage(rng: &mut Rng, sheet: &mut Vec<u8>) {
    for _ in 0..rng.pick(&[1, 1, 1, 2, 3]) {
        match rng.below(10) {
            0 => change_byte(rng, sheet),
            1 => insert_byte(rng, sheet),
            2 => delete_bytes(rng, sheet),
            3 => sheet.truncate(rng.below(sheet.len() + 1)),
            4 => drop_line(rng, sheet),
            5 => repeat_line(rng, sheet),
            6 => insert_line(rng, sheet),
            7 => swap_lines(rng, sheet),
            _ => change_field(rng, sheet),
        }
    }
}

fn byte(rng: &mut Rng) -> u8 {
    match rng.below(3) {
        0 => rng.below(256) as u8,
        1 => rng.pick(b"\t\n\\-=01"),
        _ => rng.from(b' ' as usize, b'~' as usize) as u8,
    }
}

fn change_byte(rng: &mut Rng, sheet: &mut [u8]) {
    if !sheet.is_empty() {
        sheet[rng.below(sheet.len())] = byte(rng);
    }
}

fn insert_byte(rng: &mut Rng, sheet: &mut Vec<u8>) {
    let place = rng.below(sheet.len() + 1);
    sheet.insert(place, byte(rng));
}

fn delete_bytes(rng: &mut Rng, sheet: &mut Vec<u8>) {
    let from = rng.below(sheet.len() + 1);
    let to = (from + rng.from(1, 3)).min(sheet.len());
    sheet.drain(from..to);
}

/// A line's bytes without its line feed.
fn line(rng: &mut Rng, sheet: &[u8]) -> std::ops::Range<usize> {
    let inside = rng.below(sheet.len() + 1);
    let start = sheet[..inside].iter().rposition(|&b| b == b'\n').map_or(0, |feed| feed + 1);
    let len = sheet[start..].iter().position(|&b| b == b'\n').unwrap_or(sheet.len() - start);
    start..start + len
}

fn with_feed(sheet: &[u8], line: std::ops::Range<usize>) -> std::ops::Range<usize> {
    line.start..(line.end + 1).min(sheet.len())
}

fn drop_line(rng: &mut Rng, sheet: &mut Vec<u8>) {
    let line = line(rng, sheet);
    sheet.drain(with_feed(sheet, line));
}

fn repeat_line(rng: &mut Rng, sheet: &mut Vec<u8>) {
    let line = line(rng, sheet);
    let copy = sheet[with_feed(sheet, line.clone())].to_vec();
    sheet.splice(line.start..line.start, copy);
}

fn insert_line(rng: &mut Rng, sheet: &mut Vec<u8>) {
    let start = line(rng, sheet).start;
    let mut new = rng.pick(&LINES).as_bytes().to_vec();
    new.push(b'\n');
    sheet.splice(start..start, new);
}

fn swap_lines(rng: &mut Rng, sheet: &mut Vec<u8>) {
    let (one, other) = (line(rng, sheet), line(rng, sheet));
    let (first, second) = if one.start < other.start { (one, other) } else { (other, one) };
    if first.start == second.start {
        return;
    }
    let late = sheet[second.clone()].to_vec();
    let early: Vec<u8> = sheet.splice(first.clone(), late).collect();
    let shift = second.len() as isize - first.len() as isize;
    let moved = |place: usize| (place as isize + shift) as usize;
    sheet.splice(moved(second.start)..moved(second.end), early);
}

/// Another value for a field, or one field more or less.
fn change_field(rng: &mut Rng, sheet: &mut Vec<u8>) {
    let line = line(rng, sheet);
    let mut fields: Vec<Vec<u8>> =
        sheet[line.clone()].split(|&b| b == b'\t').map(<[u8]>::to_vec).collect();
    let place = rng.below(fields.len());
    match rng.below(8) {
        0 => drop(fields.remove(place)),
        1 => fields.insert(place, rng.pick(&FIELDS).as_bytes().to_vec()),
        2 => fields.push(Vec::new()),
        _ => fields[place] = rng.pick(&FIELDS).as_bytes().to_vec(),
    }
    sheet.splice(line, fields.join(&b'\t'));
}

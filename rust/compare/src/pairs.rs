//! Random pairs of sheets: chosen by seed and number.

use crate::damage;
use crate::generate;
use crate::hold::MOST_WORDS;
use crate::hold::pair::PairCase;
use crate::limits;
use crate::line;
use crate::rng::Rng;
use crate::run::size;

/// The pair with this number, and how it is handed over.
pub fn case(seed: u64, number: u64) -> PairCase {
    let rng = &mut Rng::of(seed, number);
    let mut sheets = match rng.below(100) {
        0 | 1 => full(rng),
        2 => [limits::sheet(rng), ordinary(rng)],
        3 => [if rng.flag() { limits::bytes(32_768) } else { limits::lines(2_048) }, ordinary(rng)],
        4..=22 => [perhaps_refused(rng), perhaps_refused(rng)],
        23..=26 => same(rng),
        27 => [empty(), empty()],
        28..=31 => [empty(), ordinary(rng)],
        32..=64 => {
            let records = [size(rng), size(rng)];
            generate::two_sheets(rng, records)
        }
        _ => [ordinary(rng), ordinary(rng)],
    };
    if rng.flag() {
        sheets.swap(0, 1);
    }
    for sheet in &mut sheets {
        if rng.chance(150) {
            damage::damage(rng, sheet);
        }
    }
    let mut work = [16_384; 8];
    match rng.below(100) {
        0 | 1 => work[rng.below(8)] = rng.pick(&[0, 1, 16_000, 16_383]),
        2 => work = work.map(|_| rng.from(16_384, MOST_WORDS)),
        _ => {}
    }
    PairCase {
        sheets,
        all: rng.flag(),
        work,
        exchanged: rng.flag(),
        single: rng.chance(250).then(|| rng.below(2)),
        rooms: [rng.from(1, 300) as isize, -(rng.from(2, 40_000) as isize)],
    }
}

fn ordinary(rng: &mut Rng) -> Vec<u8> {
    let records = size(rng);
    generate::sheet(rng, records)
}

fn empty() -> Vec<u8> {
    b"stmt\t0\t0\n".to_vec()
}

/// One sheet on both sides.
fn same(rng: &mut Rng) -> [Vec<u8>; 2] {
    let sheet = ordinary(rng);
    [sheet.clone(), sheet]
}

/// Plans of about as many operators or variable numbers as there may be, over both sides.
fn full(rng: &mut Rng) -> [Vec<u8>; 2] {
    let wanted = rng.from(2_046, 2_050);
    match rng.below(4) {
        0 => {
            // An empty side gets a source; the pair's union is one more.
            let side = operators(wanted - 2);
            [empty(), side]
        }
        1 => {
            let first = rng.from(2, 2_000);
            [operators(first), operators(wanted - 1 - first)]
        }
        2 => {
            let first = rng.from(wanted - 2_045, 2_045);
            // The ids are the same on both sides, as far as they go.
            [limits::variables(0..first), limits::variables(0..wanted - first)]
        }
        _ => {
            let patterns = rng.from(1, 340);
            [limits::numbers(patterns), limits::variables(0..wanted - 6 * patterns)]
        }
    }
}

/// A sheet of exactly so many operators, which are at least two.
fn operators(count: usize) -> Vec<u8> {
    limits::operators((count - 2) / 2, count % 2 == 1)
}

/// A sheet that a test refuses, or one that none may refuse.
fn perhaps_refused(rng: &mut Rng) -> Vec<u8> {
    let records = rng.from(1, 20);
    let mut sheet = generate::sheet(rng, records);
    // Long sheets take time.
    let test = rng.pick(&[0, 2, 3, 3, 4, 5, 5, 5, 6, 7, 7, 8]);
    if test > 0 {
        let (clause, last) = (clause_at_fault(rng, test), rng.flag());
        add_clause(&mut sheet, &clause, last);
    }
    sheet
}

/// A clause that this test refuses, and no earlier one.
fn clause_at_fault(rng: &mut Rng, test: usize) -> Vec<u8> {
    let mut clause = Vec::new();
    let (start, end) = (rng.below(10), rng.from(10, 20));
    match test {
        5 => {
            line!(&mut clause, "write", start, end);
            return clause;
        }
        8 => {
            line!(&mut clause, "match", rng.flag(), 1u32, start, end);
            let elements = rng.below(2);
            line!(&mut clause, "part", "-", rng.below(3), elements);
            if elements > 0 {
                line!(&mut clause, "rel", 7u32, 0u32, 1u32, "one", "-", "-", false, 1u32, 2u32);
            }
            return clause;
        }
        _ => line!(&mut clause, "where", start, end),
    }
    match test {
        2 => {
            clause.extend_from_slice(b"str\t");
            clause.resize(clause.len() + rng.from(32_768, 32_800), b'x');
            clause.push(b'\n');
        }
        3 => line!(&mut clause, rng.pick(&["nil", "null\t", "var\t01", "name\tx", ""])),
        4 if rng.chance(100) => {
            line!(&mut clause, "list", 2_048u32);
            (0..2_048).for_each(|_| line!(&mut clause, "null"));
        }
        4 => {
            (0..62).for_each(|_| line!(&mut clause, "list", 1u32));
            line!(&mut clause, "null");
        }
        6 => line!(&mut clause, "unres", "x"),
        _ => line!(&mut clause, "undes", rng.below(4)),
    }
    clause
}

/// One clause more, the first, or the last where no arms come behind the clauses.
fn add_clause(sheet: &mut Vec<u8>, clause: &[u8], last: bool) {
    let head = sheet.iter().position(|&byte| byte == b'\n').expect("a first line") + 1;
    let line = std::str::from_utf8(&sheet[..head]).expect("a statement's line");
    let mut fields = line.trim_end().split('\t').skip(1);
    let mut number = || fields.next().and_then(|field| field.parse().ok()).expect("a count");
    let (clauses, arms): (usize, usize) = (number(), number());
    let at = if last && arms == 0 { sheet.len() } else { head };
    sheet.splice(at..at, clause.iter().copied());
    let mut new = Vec::new();
    line!(&mut new, "stmt", clauses + 1, arms);
    sheet.splice(..head, new);
}

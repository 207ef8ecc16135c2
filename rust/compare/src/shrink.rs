//! Makes a sheet, or a pair of them, on which two sides differ small, keeping the
//! difference.

use crate::hold::pair::PairCase;
use crate::reading::sheet::{self, Form, Record};
use std::time::{Duration, Instant};

/// How many smaller sheets are tried at most.
const TRIES: usize = 20_000;
/// No further step is made after so long: a sheet of two thousand records has a million steps.
const LONGEST: Duration = Duration::from_secs(20);

type Lines = Vec<Vec<Vec<u8>>>;

/// A sheet on which `differs` still holds and which no single step makes
/// smaller.
pub fn shrink(start: &[u8], mut differs: impl FnMut(&[u8]) -> bool) -> Vec<u8> {
    let mut best = start.to_vec();
    let (mut tries, begun) = (0, Instant::now());
    loop {
        let smaller = candidates(&best).into_iter().find(|candidate| {
            tries += 1;
            tries < TRIES && rank(candidate) < rank(&best) && differs(candidate)
        });
        match smaller {
            Some(candidate) if begun.elapsed() < LONGEST => best = candidate,
            Some(candidate) => return candidate,
            None => return best,
        }
    }
}

/// A pair on which `differs` still holds: handed over plainly if that shows it
/// too, and each sheet made small in turn until neither gets smaller.
pub fn shrink_pair(start: &PairCase, mut differs: impl FnMut(&PairCase) -> bool) -> PairCase {
    let mut best = start.clone();
    let plain = PairCase::plain(&best.sheets[0], &best.sheets[1], best.all);
    if differs(&plain) {
        best = plain;
    }
    // A side often matters little, and may be long.
    for side in 0..2 {
        let mut case = best.clone();
        case.sheets[side] = b"stmt\t0\t0\n".to_vec();
        if case.sheets[side].len() < best.sheets[side].len() && differs(&case) {
            best = case;
        }
    }
    let begun = Instant::now();
    loop {
        let before: usize = best.sheets.iter().map(Vec::len).sum();
        for side in 0..2 {
            let mut case = best.clone();
            best.sheets[side] = shrink(&best.sheets[side], |sheet| {
                case.sheets[side] = sheet.to_vec();
                differs(&case)
            });
        }
        let after: usize = best.sheets.iter().map(Vec::len).sum();
        if after == before || begun.elapsed() > LONGEST {
            return best;
        }
    }
}

/// Fewer bytes are smaller; at the same length, fewer that are neither 0, tab
/// nor line feed.
fn rank(sheet: &[u8]) -> (usize, usize) {
    (sheet.len(), sheet.iter().filter(|b| !b"0\t\n".contains(b)).count())
}

/// Smaller sheets, the boldest steps first.
fn candidates(sheet: &[u8]) -> Vec<Vec<u8>> {
    let mut all = Vec::new();
    let lines = split(sheet);
    if let Ok(records) = sheet::read(sheet) {
        by_tree(&lines, &records, &mut all);
    }
    by_line(&lines, &mut all);
    by_field(&lines, &mut all);
    by_byte(sheet, &mut all);
    all
}

fn split(sheet: &[u8]) -> Lines {
    let fields = |line: &[u8]| line.split(|&b| b == b'\t').map(<[u8]>::to_vec).collect();
    sheet.split(|&b| b == b'\n').map(fields).collect()
}

fn join(lines: &Lines) -> Vec<u8> {
    let joined: Vec<Vec<u8>> = lines.iter().map(|fields| fields.join(&b'\t')).collect();
    joined.join(&b'\n')
}

/// Groups of children that a field counts, in their order: the field with the
/// count or flag, how many there are, and how many records each counts for.
/// Children that are always there stand before them.
fn counted(form: &Form) -> Vec<(usize, u32, usize)> {
    let one = |field: usize, flag: bool| (field, flag as u32, 1);
    match *form {
        Form::Stmt { clauses, arms } => vec![(1, clauses, 1), (2, arms, 1)],
        Form::Arm { clauses: n, .. } | Form::Match { parts: n, .. } => vec![(2, n, 1)],
        Form::Pat(n) | Form::List(n) => vec![(1, n, 1)],
        Form::With { items, filter, keys, skip, limit, .. } => {
            vec![(1, items, 1), one(2, filter), (3, keys, 1), one(4, skip), one(5, limit)]
        }
        Form::Return { items, keys, skip, limit, .. } => {
            vec![(1, items, 1), (3, keys, 1), one(4, skip), one(5, limit)]
        }
        Form::Call { args, yields, .. } => vec![(2, args, 1), (3, yields, 1)],
        Form::Part { elements, .. } => vec![(3, elements, 1)],
        Form::Node { labels, props, .. } => vec![(2, labels, 1), one(3, props)],
        Form::Rel { types, props, .. } => vec![(2, types, 1), one(7, props)],
        Form::Slice { start, end } => vec![one(1, start), one(2, end)],
        Form::Map(n) => vec![(1, n, 2)],
        Form::Fn { args, .. } => vec![(2, args, 1)],
        Form::Case { scrutinee, arms, otherwise } => {
            vec![one(1, scrutinee), (2, arms, 2), one(3, otherwise)]
        }
        Form::Listp { pred, .. } => vec![one(3, pred)],
        _ => Vec::new(),
    }
}

fn is_expr(form: &Form) -> bool {
    !matches!(
        form,
        Form::Stmt { .. }
            | Form::Arm { .. }
            | Form::Match { .. }
            | Form::Where { .. }
            | Form::Write { .. }
            | Form::With { .. }
            | Form::Return { .. }
            | Form::Unwind { .. }
            | Form::Call { .. }
            | Form::Yield { .. }
            | Form::Item { .. }
            | Form::Key { .. }
            | Form::Part { .. }
            | Form::Node { .. }
            | Form::Rel { .. }
            | Form::Name(_)
    )
}

/// A child less, with its parent's count; an expression replaced by a child of
/// its own, or by null.
fn by_tree(lines: &Lines, records: &[Record], all: &mut Vec<Vec<u8>>) {
    let mut steps = Vec::new();
    for place in 0..records.len() {
        let starts = starts(records, place);
        fewer_children(lines, place, &counted(&records[place].form), &starts, &mut steps);
        if is_expr(&records[place].form) {
            simpler_expr(lines, records, place, &starts, &mut steps);
        }
    }
    steps.sort_by_key(|step| std::cmp::Reverse(step.0));
    all.extend(steps.into_iter().map(|step| step.1));
}

/// How many lines a step saves, and what it leaves.
type Step = (usize, Vec<u8>);

/// Where each child of the record at `place` begins, and where the last ends.
fn starts(records: &[Record], place: usize) -> Vec<usize> {
    let mut starts = vec![place + 1];
    let mut child = place + 1;
    while child < records[place].end {
        child = records[child].end;
        starts.push(child);
    }
    starts
}

fn fewer_children(
    lines: &Lines,
    place: usize,
    counted: &[(usize, u32, usize)],
    starts: &[usize],
    steps: &mut Vec<Step>,
) {
    let due: usize = counted.iter().map(|&(_, count, each)| count as usize * each).sum();
    let mut at = starts.len() - 1 - due;
    for &(field, count, each) in counted {
        for _ in 0..count {
            let mut less = lines.clone();
            less[place][field] = (count - 1).to_string().into_bytes();
            let child = starts[at]..starts[at + each];
            steps.push((child.len(), replaced(&less, child, Vec::new())));
            at += each;
        }
    }
}

fn simpler_expr(
    lines: &Lines,
    records: &[Record],
    place: usize,
    starts: &[usize],
    steps: &mut Vec<Step>,
) {
    let whole = place..records[place].end;
    let children = starts.windows(2).filter(|child| is_expr(&records[child[0]].form));
    let mut simpler: Vec<Lines> =
        children.map(|child| lines[child[0]..child[1]].to_vec()).collect();
    if records[place].form != Form::Null {
        simpler.push(vec![vec![b"null".to_vec()]]);
    }
    for kept in simpler {
        steps.push((whole.len() - kept.len(), replaced(lines, whole.clone(), kept)));
    }
}

fn replaced(lines: &Lines, range: std::ops::Range<usize>, new: Lines) -> Vec<u8> {
    let mut lines = lines.clone();
    lines.splice(range, new);
    join(&lines)
}

/// Runs of lines left out, long ones first.
fn by_line(lines: &Lines, all: &mut Vec<Vec<u8>>) {
    let mut run = lines.len() / 2;
    while run > 0 {
        for from in (0..lines.len()).step_by(run) {
            let to = (from + run).min(lines.len());
            all.push(replaced(lines, from..to, Vec::new()));
        }
        run /= 2;
    }
}

/// Fields made plain.
fn by_field(lines: &Lines, all: &mut Vec<Vec<u8>>) {
    for (row, fields) in lines.iter().enumerate() {
        for (column, field) in fields.iter().enumerate().skip(1) {
            for plain in ["", "0", "-", "1"] {
                if field != plain.as_bytes() {
                    let mut lines = lines.clone();
                    lines[row][column] = plain.into();
                    all.push(join(&lines));
                }
            }
        }
    }
}

/// Single bytes left out, if there are few.
fn by_byte(sheet: &[u8], all: &mut Vec<Vec<u8>>) {
    if sheet.len() <= 400 {
        for place in 0..sheet.len() {
            let mut less = sheet.to_vec();
            less.remove(place);
            all.push(less);
        }
    }
}

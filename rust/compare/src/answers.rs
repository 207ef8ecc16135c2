//! The Rust's answers as text: for the definitions, which are held against
//! them by oracle/compare.py, and for the gate's fixed lists.

use crate::generate;
use crate::hold::pair::{PairCase, pair_with_rust};
use crate::hold::{self, Asked};
use crate::line;
use crate::reading::{self, Answer};
use crate::rng::Rng;
use crate::tally::pair::PairCounts;
use crate::tally::{Counts, Tally};
use std::fs;
use std::path::Path;

/// An answer, and its plan if there is one.
type Said = (Answer, Vec<u8>);

/// What the Rust answers, and its plan if there is one. It gives no line with
/// a refusal and no refusal 9: these are the second reading's, which has to
/// agree in all that the Rust says. None if the sheet is not one that the Rust
/// can be asked about.
fn ask(sheet: &[u8]) -> Result<Option<Said>, String> {
    let verdict = reading::judge(sheet, [16_384; 4]);
    let mut plan = Vec::new();
    let asked = hold::with_rust(sheet, &verdict, &mut plan);
    if asked.map_err(|difference| difference.what)? == Asked::Nothing {
        return Ok(None);
    }
    if verdict.answer[0] != 0 {
        plan.clear();
    }
    Ok(Some((verdict.answer, plan)))
}

/// The same for a pair. The Rust's plan is without the left's entries of its map.
fn ask_pair(case: &PairCase) -> Result<Option<Said>, String> {
    let verdict = case.judge();
    let mut plan = Vec::new();
    let asked = pair_with_rust(case, &verdict, &mut plan);
    if asked.map_err(|difference| difference.what)? == Asked::Nothing {
        return Ok(None);
    }
    if verdict.answer[0] != 0 {
        plan.clear();
    }
    Ok(Some((verdict.answer, plan)))
}

/// The pair in a file: a line with 0 or 1 for all, the left sheet, an empty line, the right sheet,
/// an empty line. A well-formed sheet has no empty line.
fn pair_of(file: &[u8]) -> Option<PairCase> {
    let (all, sheets) = file.split_at_checked(2)?;
    let all = [b"0\n", b"1\n"].iter().position(|flag| *flag == all)? == 1;
    // An empty sheet's own empty line is the first.
    let split = |text: &[u8]| match text {
        [b'\n', ..] => Some(0),
        _ => text.windows(2).position(|two| two == b"\n\n").map(|at| at + 1),
    };
    let left = split(sheets)?;
    let rest = &sheets[left + 1..];
    let right = split(rest)?;
    (right + 1 == rest.len()).then(|| PairCase::plain(&sheets[..left], &rest[..right], all))
}

/// Writes NAME.answer beside each NAME.sheet and NAME.pair of a folder: the
/// plan sheet, or the line `refused`. How many there are of both.
pub fn folder(folder: &Path) -> Result<(usize, usize), String> {
    let told = |error: std::io::Error| format!("{}: {error}", folder.display());
    let (mut sheets, mut pairs) = (0, 0);
    for entry in fs::read_dir(folder).map_err(told)? {
        let path = entry.map_err(told)?.path();
        let said = match path.extension().and_then(|ending| ending.to_str()) {
            Some("sheet") => {
                sheets += 1;
                ask(&fs::read(&path).map_err(told)?)
            }
            Some("pair") => {
                pairs += 1;
                let file = fs::read(&path).map_err(told)?;
                pair_of(&file).ok_or("not a pair".to_string()).and_then(|pair| ask_pair(&pair))
            }
            _ => continue,
        };
        let (answer, mut text) = said
            .and_then(|said| {
                said.ok_or("not well-formed and read-only in UTF-8, or beyond a limit".to_string())
            })
            .map_err(|why| format!("{}: {why}", path.display()))?;
        if answer[0] != 0 {
            let [number, at, start, end, kind, _] = answer;
            line!(&mut text, "refused", number, at, start, end, kind);
        }
        fs::write(path.with_extension("answer"), text).map_err(told)?;
    }
    Ok((sheets, pairs))
}

/// Appends a line with the word `answer` and the six values, parted by blanks, and then the plan.
fn put_answer(said: &mut Vec<u8>, (answer, plan): &Said) {
    said.extend_from_slice(b"answer ");
    said.extend(answer.map(|value| value.to_string()).join(" ").into_bytes());
    said.push(b'\n');
    said.extend_from_slice(plan);
}

/// Whether `new` has something that was not reached before.
fn adds(reached: &Tally, new: &Tally) -> bool {
    new.0.iter().any(|(name, &count)| count > 0 && reached.get(name) == 0)
}

fn write(path: &Path, text: &[u8]) -> Result<(), String> {
    fs::write(path, text).map_err(|error| format!("{}: {error}", path.display()))
}

/// A fixed list of small sheets that reach every record, field value, operator
/// and branch, and the Rust's answers to them. In `sheets` an empty line
/// follows each sheet; `answers` has what [`put_answer`] writes for each.
pub fn sample(seed: u64, count: usize, sheets: &Path, answers: &Path) -> Result<bool, String> {
    let mut reached = Tally::default();
    let mut chosen: Vec<(Vec<u8>, Said)> = Vec::new();
    let mut number = 0;
    while chosen.len() < count {
        let rng = &mut Rng::of(seed, number);
        number += 1;
        let records = rng.from(1, 24);
        let sheet = generate::sheet(rng, records);
        let Some(said) = ask(&sheet)? else { continue };
        if sheet.len() > 350 || said.1.len() > 500 {
            continue;
        }
        let new = reach(&sheet);
        // At first only sheets that reach something new, then any.
        if adds(&reached, &new) || number > 20_000 {
            reached.add(&new);
            chosen.push((sheet, said));
        }
    }
    let (mut list, mut said) = (Vec::new(), Vec::new());
    for (sheet, answer) in &chosen {
        list.extend_from_slice(sheet);
        list.push(b'\n');
        put_answer(&mut said, answer);
    }
    write(sheets, &list)?;
    write(answers, &said)?;
    let missing = unreached(&reached);
    println!("{} sheets, {} bytes; answers of {} bytes", chosen.len(), list.len(), said.len());
    println!("not reached: {missing:?}");
    Ok(missing.is_empty())
}

fn reach(sheet: &[u8]) -> Tally {
    let verdict = reading::judge(sheet, [16_384; 4]);
    let case = hold::Case { sheet: sheet.to_vec(), work: [16_384; 4], rooms: [0; 2] };
    let mut counts = Counts::new();
    counts.count(&case, &verdict, Asked::Plan);
    counts.named()
}

/// What a sample can reach and has not: it has no refused sheets but 6 to 8.
fn unreached(reached: &Tally) -> Vec<&str> {
    let kinds = ["record ", "field ", "operator ", "branch "];
    let missing = reached.missing().into_iter();
    missing
        .filter(|name| kinds.iter().any(|kind| name.starts_with(kind)) && *name != "record write")
        .collect()
}

/// A fixed list of small pairs, in `pairs` each as [`pair_of`] reads it, and the
/// Rust's answers to them. There is no star in them, for which the reader of the
/// gate's list has a meaning of its own.
pub fn sample_pairs(seed: u64, count: usize, pairs: &Path, answers: &Path) -> Result<bool, String> {
    let mut reached = PairCounts::new().named();
    let mut chosen: Vec<(PairCase, Said)> = Vec::new();
    let mut number = 0;
    while chosen.len() < count {
        let rng = &mut Rng::of(seed, number);
        number += 1;
        let records = std::array::from_fn(|_| if rng.chance(60) { 1 } else { rng.from(1, 16) });
        let [left, right] = generate::two_sheets(rng, records);
        let case = PairCase::plain(&left, if rng.chance(30) { &left } else { &right }, rng.flag());
        let Some(said) = ask_pair(&case)? else { continue };
        let star = case.sheets.iter().any(|sheet| sheet.contains(&b'*'));
        if star || case.sheets.iter().any(|sheet| sheet.len() > 250) || said.1.len() > 500 {
            continue;
        }
        let mut counts = PairCounts::new();
        counts.count(&case, &case.judge(), Asked::Plan);
        let new = counts.named();
        // As for sheets.
        if adds(&reached, &new) || number > 10_000 {
            reached.add(&new);
            chosen.push((case, said));
        }
    }
    let (mut list, mut said) = (Vec::new(), Vec::new());
    for (case, answer) in &chosen {
        list.extend_from_slice(if case.all { b"1\n" } else { b"0\n" });
        for sheet in &case.sheets {
            list.extend_from_slice(sheet);
            list.push(b'\n');
        }
        put_answer(&mut said, answer);
    }
    write(pairs, &list)?;
    write(answers, &said)?;
    let missing = unreached_by_pairs(&reached);
    println!("{} pairs, {} bytes; answers of {} bytes", chosen.len(), list.len(), said.len());
    println!("not reached: {missing:?}");
    Ok(missing.is_empty())
}

/// What such a list can reach and has not: it has no limits, no refusals but 6 to 8, and plain
/// slices.
fn unreached_by_pairs(reached: &Tally) -> Vec<&str> {
    let kinds = ["record ", "field ", "operator ", "branch "];
    let can = |name: &str| {
        let of_side = name.strip_prefix("left ").or(name.strip_prefix("right "));
        match of_side {
            Some(name) => kinds.iter().any(|kind| name.starts_with(kind)) && name != "record write",
            None => ["answer 06", "answer 07", "answer 08", "no operator", "the same id", "all "]
                .iter()
                .any(|kind| name.starts_with(kind)),
        }
    };
    reached.missing().into_iter().filter(|name| can(name)).collect()
}

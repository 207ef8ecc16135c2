//! A run over many sheets, or pairs of them: chosen by seed and number, shared
//! out to threads, resumable, each difference kept in a folder.

use crate::calls::Calls;
use crate::damage;
use crate::generate;
use crate::hold::pair::{PairCase, hold_pair};
use crate::hold::{Asked, Bench, Case, Difference, MOST_WORDS, hold};
use crate::limits;
use crate::pairs;
use crate::rng::Rng;
use crate::shrink;
use crate::tally::pair::PairCounts;
use crate::tally::{Counts, Tally};
use std::fs;
use std::io::Write;
use std::path::{Path, PathBuf};
use std::sync::Mutex;
use std::sync::atomic::{AtomicU64, Ordering};
use std::time::{Duration, Instant};

pub struct Plan {
    pub calls: Calls,
    pub seed: u64,
    /// How many sheets or pairs.
    pub count: u64,
    pub threads: usize,
    /// Where state, summary and differences go.
    pub folder: PathBuf,
}

/// Sheets or pairs that are taken, counted and noted down together.
const BATCH: u64 = 1_000;
/// So many differences are kept; then a run stops with its batch.
const ENOUGH: u64 = 20;

/// What a run goes over.
pub trait Subject: Clone {
    /// What one of them is called.
    const NAME: &'static str;
    /// What a batch of them has reached.
    type Counts;

    /// The one with this number.
    fn of(seed: u64, number: u64) -> Self;
    fn no_counts() -> Self::Counts;
    fn named(counts: &Self::Counts) -> Tally;
    /// Compares all sides, and counts what was reached if that is wanted.
    fn hold(
        &self,
        calls: &Calls,
        bench: &mut Bench,
        counts: Option<&mut Self::Counts>,
    ) -> Result<(), Difference>;
    /// A smaller one on which `differs` holds.
    fn small(&self, differs: impl FnMut(&Self) -> bool) -> Self;
    /// The sheets, with the endings of the files that they are kept in.
    fn sheets(&self) -> Vec<(&'static str, &[u8])>;
    /// How they are handed over.
    fn handed(&self) -> String;
}

impl Subject for Case {
    const NAME: &'static str = "sheet";
    type Counts = Counts;

    fn of(seed: u64, number: u64) -> Self {
        case(seed, number)
    }

    fn no_counts() -> Counts {
        Counts::new()
    }

    fn named(counts: &Counts) -> Tally {
        counts.named()
    }

    fn hold(
        &self,
        calls: &Calls,
        bench: &mut Bench,
        counts: Option<&mut Counts>,
    ) -> Result<(), Difference> {
        let (verdict, result) = hold(self, calls, bench);
        if let Some(counts) = counts {
            counts.count(self, &verdict, *result.as_ref().unwrap_or(&Asked::Nothing));
        }
        result.map(|_| ())
    }

    fn small(&self, mut differs: impl FnMut(&Self) -> bool) -> Self {
        let with = |sheet: &[u8]| Case { sheet: sheet.to_vec(), ..self.clone() };
        with(&shrink::shrink(&self.sheet, |sheet| differs(&with(sheet))))
    }

    fn sheets(&self) -> Vec<(&'static str, &[u8])> {
        vec![("sheet", &self.sheet)]
    }

    fn handed(&self) -> String {
        format!("work slices of {:?} words", self.work)
    }
}

impl Subject for PairCase {
    const NAME: &'static str = "pair";
    type Counts = PairCounts;

    fn of(seed: u64, number: u64) -> Self {
        pairs::case(seed, number)
    }

    fn no_counts() -> PairCounts {
        PairCounts::new()
    }

    fn named(counts: &PairCounts) -> Tally {
        counts.named()
    }

    fn hold(
        &self,
        calls: &Calls,
        bench: &mut Bench,
        counts: Option<&mut PairCounts>,
    ) -> Result<(), Difference> {
        let (verdict, result) = hold_pair(self, calls, bench);
        if let Some(counts) = counts {
            counts.count(self, &verdict, *result.as_ref().unwrap_or(&Asked::Nothing));
        }
        result.map(|_| ())
    }

    fn small(&self, differs: impl FnMut(&Self) -> bool) -> Self {
        shrink::shrink_pair(self, differs)
    }

    fn sheets(&self) -> Vec<(&'static str, &[u8])> {
        vec![("left.sheet", &self.sheets[0]), ("right.sheet", &self.sheets[1])]
    }

    fn handed(&self) -> String {
        let PairCase { all, work, exchanged, single, .. } = self;
        format!(
            "all {}, work slices of {work:?} words, exchanged: {exchanged}, a single call before: {single:?}",
            *all as u8
        )
    }
}

/// The sheet with this number, and how it is handed over.
pub fn case(seed: u64, number: u64) -> Case {
    let rng = &mut Rng::of(seed, number);
    let mut sheet = match rng.below(100) {
        0 => limits::sheet(rng),
        _ => {
            let records = size(rng);
            generate::sheet(rng, records)
        }
    };
    if rng.chance(350) {
        damage::damage(rng, &mut sheet);
    }
    let mut work = [16_384; 4];
    match rng.below(100) {
        0 => work[rng.below(4)] = rng.pick(&[0, 1, 16_000, 16_383]),
        1 => work = work.map(|_| rng.from(16_384, MOST_WORDS)),
        _ => {}
    }
    let rooms = [rng.from(1, 300) as isize, -(rng.from(2, 40_000) as isize)];
    Case { sheet, work, rooms }
}

/// How many records: mostly few, and every number up to the limit and beyond.
pub fn size(rng: &mut Rng) -> usize {
    match rng.below(100) {
        0..=59 => rng.from(1, 40),
        60..=74 => rng.from(1, 150),
        75..=94 => 1 << rng.from(0, 10) | rng.below(1 << 10) >> rng.below(10),
        95..=98 => rng.from(1, 2_048),
        _ => rng.from(2_000, 2_060),
    }
}

/// What a run has done so far.
struct State {
    /// Batches before this one are done.
    next: u64,
    /// Batches done beyond it, with their tallies.
    ahead: Vec<(u64, Tally)>,
    tally: Tally,
    differences: u64,
}

pub fn run<S: Subject>(plan: &Plan) -> std::io::Result<bool> {
    fs::create_dir_all(plan.folder.join("differences"))?;
    let state = Mutex::new(load(plan)?);
    let batches = plan.count.div_ceil(BATCH);
    let first = state.lock().unwrap().next;
    if first > 0 {
        println!("resumed at {} {}", S::NAME, first * BATCH);
    }
    let (taken, started) = (AtomicU64::new(first), Instant::now());
    std::thread::scope(|scope| {
        for _ in 0..plan.threads {
            scope.spawn(|| {
                let mut bench = Bench::new();
                loop {
                    let batch = taken.fetch_add(1, Ordering::Relaxed);
                    let enough = state.lock().unwrap().differences >= ENOUGH;
                    if batch >= batches || enough {
                        break;
                    }
                    let tally = one_batch::<S>(plan, batch, &mut bench, &state);
                    let mut state = state.lock().unwrap();
                    settle(&mut state, batch, tally);
                    save(plan, &state).expect("the state can be written");
                    progress(S::NAME, &state, first, started.elapsed());
                }
            });
        }
    });
    println!();
    let state = state.into_inner().unwrap();
    summary(S::NAME, plan, &state, first, started.elapsed())
}

fn one_batch<S: Subject>(
    plan: &Plan,
    batch: u64,
    bench: &mut Bench,
    state: &Mutex<State>,
) -> Tally {
    let mut counts = S::no_counts();
    for number in batch * BATCH..((batch + 1) * BATCH).min(plan.count) {
        let case = S::of(plan.seed, number);
        if let Err(difference) = case.hold(&plan.calls, bench, Some(&mut counts)) {
            let found = {
                let mut state = state.lock().unwrap();
                state.differences += 1;
                state.differences
            };
            if found <= ENOUGH {
                keep(plan, number, &case, &difference, bench).expect("a difference can be kept");
            }
        }
    }
    S::named(&counts)
}

/// Shrinks a difference and writes all of it down.
fn keep<S: Subject>(
    plan: &Plan,
    number: u64,
    case: &S,
    first: &Difference,
    bench: &mut Bench,
) -> std::io::Result<()> {
    let folder = plan.folder.join("differences").join(format!("{number:09}"));
    fs::create_dir_all(&folder)?;
    for (ending, sheet) in case.sheets() {
        fs::write(folder.join(format!("found.{ending}")), sheet)?;
    }
    // Another difference may be smaller, but it is not the one that was found.
    let small = case.small(|case| {
        case.hold(&plan.calls, bench, None).is_err_and(|found| found.what == first.what)
    });
    for (ending, sheet) in small.sheets() {
        fs::write(folder.join(format!("small.{ending}")), sheet)?;
    }
    let last = small.hold(&plan.calls, bench, None).err();
    let last = last.as_ref().unwrap_or(first);
    for (side, said) in &last.said {
        fs::write(folder.join(format!("small.{side}")), said)?;
    }
    let note =
        format!("{}\nseed {} {} {number}, {}\n", last.what, plan.seed, S::NAME, small.handed());
    fs::write(folder.join("note"), &note)?;
    println!("\ndifference at {} {number}: {}", S::NAME, last.what);
    for (ending, sheet) in small.sheets() {
        println!("-- {ending}");
        println!("{}", sheet.escape_ascii().to_string().replace("\\t", "\t").replace("\\n", "\n"));
    }
    Ok(())
}

/// Adds a batch. Batches may end out of order; the state counts those without a gap.
fn settle(state: &mut State, batch: u64, tally: Tally) {
    state.ahead.push((batch, tally));
    while let Some(place) = state.ahead.iter().position(|(batch, _)| *batch == state.next) {
        let (_, tally) = state.ahead.swap_remove(place);
        state.tally.add(&tally);
        state.next += 1;
    }
}

fn progress(name: &str, state: &State, first: u64, elapsed: Duration) {
    let done = state.next * BATCH;
    let rate = (state.next - first) as f64 * BATCH as f64 / elapsed.as_secs_f64();
    let (records, missing) = (state.tally.get("all records"), state.tally.missing().len());
    print!(
        "\r{done} {name}s, {records} records, {rate:.0} {name}s/s, {} differences, {missing} not reached   ",
        state.differences
    );
    std::io::stdout().flush().expect("standard output is open");
}

fn state_file(folder: &Path) -> PathBuf {
    folder.join("state")
}

/// The state of an earlier run in the same folder, if it had the same seed.
fn load(plan: &Plan) -> std::io::Result<State> {
    let mut state = State { next: 0, ahead: Vec::new(), tally: Tally::default(), differences: 0 };
    let file = state_file(&plan.folder);
    if !file.exists() {
        return Ok(state);
    }
    let bad = || std::io::Error::other(format!("{}: not a state", file.display()));
    for (place, line) in fs::read_to_string(&file)?.lines().enumerate() {
        let (count, name) = line.split_once('\t').ok_or_else(bad)?;
        let count: u64 = count.parse().map_err(|_| bad())?;
        match (place, name) {
            (0, "seed") if count == plan.seed => {}
            (0, "seed") => return Err(std::io::Error::other("the folder has another seed's run")),
            (1, "batches") => state.next = count,
            (2, "differences") => state.differences = count,
            _ => {
                state.tally.0.insert(name.to_string(), count);
            }
        }
    }
    Ok(state)
}

fn save(plan: &Plan, state: &State) -> std::io::Result<()> {
    let mut text = format!("{}\tseed\n{}\tbatches\n", plan.seed, state.next);
    text += &format!("{}\tdifferences\n", state.differences);
    for (name, count) in &state.tally.0 {
        text += &format!("{count}\t{name}\n");
    }
    let new = plan.folder.join("state.new");
    fs::write(&new, text)?;
    fs::rename(new, state_file(&plan.folder))
}

fn summary(
    name: &str,
    plan: &Plan,
    state: &State,
    first: u64,
    elapsed: Duration,
) -> std::io::Result<bool> {
    let missing = state.tally.missing();
    let (sizes, others): (Vec<&str>, Vec<&str>) =
        missing.into_iter().partition(|name| name.starts_with("size "));
    let all = state.tally.get(&format!("all {name}s"));
    let mut text = format!("seed {}, {all} {name}s\n", plan.seed);
    text += &format!(
        "this time {} {name}s in {:.1} s\n",
        (state.next - first) * BATCH,
        elapsed.as_secs_f64()
    );
    text += &state.tally.lines();
    text += &format!("not reached: {} sizes, and {others:?}\n", sizes.len());
    text += &format!("{} differences\n", state.differences);
    fs::write(plan.folder.join("summary"), &text)?;
    print!("{text}");
    Ok(state.differences == 0 && others.is_empty())
}

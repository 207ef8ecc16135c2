//! What a run has reached, by name; and in `pair` what a run over pairs has.

pub mod pair;

use crate::hold::{Asked, Case};
use crate::reading::Verdict;
use crate::reading::branch::{Branches, OPERATORS, WHAT};
use crate::reading::sheet::{Form, Length, Record};
use std::collections::BTreeMap;

/// Counts by name. A name with 0 is one that should be reached and is not yet.
#[derive(Default, Clone)]
pub struct Tally(pub BTreeMap<String, u64>);

/// The keywords of records, in the order of [`word`].
const RECORDS: [&str; 38] = [
    "stmt", "arm", "match", "where", "write", "with", "return", "unwind", "call", "yield", "item",
    "key", "part", "node", "rel", "name", "null", "bool", "int", "float", "str", "var", "param",
    "prop", "index", "slice", "list", "map", "fn", "bin", "un", "case", "isnull", "in", "pat",
    "listp", "unres", "undes",
];

/// Fields whose every value is counted: the name and how many values.
const VALUES: [(&str, usize); 8] = [
    ("bin", 20),
    ("un", 2),
    ("listp kind", 4),
    ("undes", 4),
    ("dir", 3),
    ("shortest", 3),
    ("len var", 2),
    ("distinct fn", 2),
];

/// Counts of a run of sheets, kept in arrays while it goes.
pub struct Counts {
    records: [u64; RECORDS.len()],
    values: [[u64; 20]; VALUES.len()],
    branches: [u64; WHAT.len()],
    operators: [u64; OPERATORS.len()],
    answers: [u64; 11],
    why: BTreeMap<String, u64>,
    sizes: Vec<u64>,
    asked: [u64; 3],
    longer_work: u64,
    /// Sheets, records and bytes.
    whole: [u64; 3],
}

impl Counts {
    pub fn new() -> Self {
        Counts {
            records: [0; RECORDS.len()],
            values: [[0; 20]; VALUES.len()],
            branches: [0; WHAT.len()],
            operators: [0; OPERATORS.len()],
            answers: [0; 11],
            why: BTreeMap::new(),
            sizes: vec![0; 2_049],
            asked: [0; 3],
            longer_work: 0,
            whole: [0; 3],
        }
    }

    pub fn count(&mut self, case: &Case, verdict: &Verdict, asked: Asked) {
        self.whole[0] += 1;
        self.whole[1] += verdict.records.len() as u64;
        self.whole[2] += case.sheet.len() as u64;
        self.answers[verdict.answer[0]] += 1;
        self.asked[asked as usize] += 1;
        self.longer_work += case.work.iter().any(|&words| words > 16_384) as u64;
        if let Some(why) = verdict.why {
            *self.why.entry(format!("{why:?}")).or_default() += 1;
        }
        self.records(&verdict.records);
        if let Some(lowered) = &verdict.lowered {
            self.sizes[verdict.records.len()] += 1;
            self.met(&lowered.met);
        }
    }

    fn records(&mut self, records: &[Record]) {
        for record in records {
            self.record(&record.form);
        }
    }

    fn met(&mut self, met: &Branches) {
        for (sum, new) in self.branches.iter_mut().zip(met.taken) {
            *sum += new;
        }
        for (sum, new) in self.operators.iter_mut().zip(met.pushed) {
            *sum += new;
        }
    }

    fn record(&mut self, form: &Form) {
        self.records[word(form)] += 1;
        let mut value = |field: usize, value: u32| self.values[field][value as usize] += 1;
        match *form {
            Form::Bin(op) => value(0, op),
            Form::Un(op) => value(1, op),
            Form::Listp { kind, .. } => value(2, kind),
            Form::Undes(kind) => value(3, kind),
            Form::Rel { dir, len, .. } => {
                value(4, dir);
                value(6, (len != Length::One) as u32);
            }
            Form::Part { shortest, .. } => value(5, shortest),
            Form::Fn { distinct, .. } => value(7, distinct as u32),
            _ => {}
        }
    }

    /// What records, operators and branches were reached, and which tests at a line.
    fn of_sheets(&self) -> BTreeMap<String, u64> {
        let mut tally = BTreeMap::new();
        let mut put = |name: String, count: u64| {
            tally.insert(name, count);
        };
        for (word, count) in RECORDS.iter().zip(self.records) {
            put(format!("record {word}"), count);
        }
        for (&(name, many), counts) in VALUES.iter().zip(&self.values) {
            for (value, count) in counts[..many].iter().enumerate() {
                put(format!("field {name} {value:02}"), *count);
            }
        }
        for (what, count) in WHAT.iter().zip(self.branches) {
            put(format!("branch {what}"), count);
        }
        for (word, count) in OPERATORS.iter().zip(self.operators) {
            put(format!("operator {word}"), count);
        }
        for why in ["Missing", "NothingDue", "NoLineFeed", "Line2049", "Depth65", "Form"] {
            put(format!("line {why}"), self.why.get(why).copied().unwrap_or(0));
        }
        tally
    }

    /// The counts by name.
    pub fn named(&self) -> Tally {
        let mut tally = self.of_sheets();
        let mut put = |name: String, count: u64| {
            tally.insert(name, count);
        };
        for (what, count) in ["sheets", "records", "bytes"].iter().zip(self.whole) {
            put(format!("all {what}"), count);
        }
        for number in 0..10 {
            put(format!("answer {number:02}"), self.answers[number]);
        }
        for (size, count) in self.sizes.iter().enumerate().skip(1) {
            put(format!("size {size:04}"), *count);
        }
        for (what, count) in ["not asked", "plans", "refusals"].iter().zip(self.asked) {
            put(format!("rust {what}"), count);
        }
        put("work slices longer than needed".to_string(), self.longer_work);
        Tally(tally)
    }
}

impl Tally {
    pub fn add(&mut self, other: &Tally) {
        for (name, count) in &other.0 {
            *self.0.entry(name.clone()).or_default() += count;
        }
    }

    pub fn get(&self, name: &str) -> u64 {
        self.0.get(name).copied().unwrap_or(0)
    }

    /// What has not been reached.
    pub fn missing(&self) -> Vec<&str> {
        self.0.iter().filter(|entry| *entry.1 == 0).map(|entry| entry.0.as_str()).collect()
    }

    /// The counts in lines, the sizes as one.
    pub fn lines(&self) -> String {
        let mut text = String::new();
        let sizes = self.0.iter().filter(|entry| entry.0.starts_with("size "));
        if sizes.clone().next().is_some() {
            let accepted = sizes.filter(|entry| *entry.1 > 0).count();
            text += &format!("{accepted:>14}  sizes accepted, of 2,048\n");
        }
        for (name, count) in self.0.iter().filter(|entry| !entry.0.starts_with("size ")) {
            text += &format!("{count:>14}  {name}\n");
        }
        text
    }
}

/// A form's place in [`RECORDS`].
fn word(form: &Form) -> usize {
    match form {
        Form::Stmt { .. } => 0,
        Form::Arm { .. } => 1,
        Form::Match { .. } => 2,
        Form::Where { .. } => 3,
        Form::Write { .. } => 4,
        Form::With { .. } => 5,
        Form::Return { .. } => 6,
        Form::Unwind { .. } => 7,
        Form::Call { .. } => 8,
        Form::Yield { .. } => 9,
        Form::Item { .. } => 10,
        Form::Key { .. } => 11,
        Form::Part { .. } => 12,
        Form::Node { .. } => 13,
        Form::Rel { .. } => 14,
        Form::Name(_) => 15,
        Form::Null => 16,
        Form::Bool(_) => 17,
        Form::Int(_) => 18,
        Form::Float(_) => 19,
        Form::Str(_) => 20,
        Form::Var(_) => 21,
        Form::Param(_) => 22,
        Form::Prop(_) => 23,
        Form::Index => 24,
        Form::Slice { .. } => 25,
        Form::List(_) => 26,
        Form::Map(_) => 27,
        Form::Fn { .. } => 28,
        Form::Bin(_) => 29,
        Form::Un(_) => 30,
        Form::Case { .. } => 31,
        Form::IsNull { .. } => 32,
        Form::In => 33,
        Form::Pat(_) => 34,
        Form::Listp { .. } => 35,
        Form::Unres(_) => 36,
        Form::Undes(_) => 37,
    }
}

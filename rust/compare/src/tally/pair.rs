//! What a run over pairs has reached, by name.

use super::{Counts, Tally};
use crate::hold::Asked;
use crate::hold::pair::PairCase;
use crate::reading::pair::PairVerdict;
use crate::reading::refusals::before_lowering;
use std::collections::BTreeMap;

const SIDES: [&str; 2] = ["left", "right"];

/// The tests of a side, each by its first number; 0 is none.
const TESTS: [usize; 5] = [0, 2, 3, 5, 6];

pub struct PairCounts {
    /// The records, branches and operators of each side.
    sides: [Counts; 2],
    /// Everything else.
    reached: BTreeMap<String, u64>,
}

impl PairCounts {
    pub fn new() -> Self {
        let reached = names().into_iter().map(|name| (name, 0)).collect();
        PairCounts { sides: [Counts::new(), Counts::new()], reached }
    }

    fn add(&mut self, name: impl AsRef<str>, times: u64) {
        let name = name.as_ref();
        *self.reached.get_mut(name).unwrap_or_else(|| panic!("{name}: not in the list")) += times;
    }

    fn reach(&mut self, name: impl AsRef<str>) {
        self.add(name, 1);
    }

    fn reach_if(&mut self, reached: bool, name: impl AsRef<str>) {
        self.add(name, reached.into());
    }

    pub fn count(&mut self, case: &PairCase, verdict: &PairVerdict, asked: Asked) {
        self.reach("all pairs");
        self.add("all bytes", case.sheets.iter().map(|sheet| sheet.len() as u64).sum());
        self.reach(["rust not asked", "rust plans", "rust refusals"][asked as usize]);
        self.reach(if case.all { "all 1" } else { "all 0" });
        self.reach_if(case.work.iter().any(|&words| words > 16_384), "work slices longer");
        self.reach_if(case.exchanged, "work slices exchanged");
        if let Some(side) = case.single {
            self.reach(format!("a single call before, on the {}", SIDES[side]));
        }
        for (place, records) in verdict.records.iter().flatten().enumerate() {
            self.add("all records", records.len() as u64);
            self.sides[place].records(records);
        }
        self.answer(case, verdict);
        self.lowered(case, verdict);
    }

    fn answer(&mut self, case: &PairCase, verdict: &PairVerdict) {
        let [number, _, _, _, kind, _] = verdict.answer;
        match number {
            0 | 9 => {}
            1 => {
                for slice in (0..8).filter(|&slice| case.work[slice] < 16_384) {
                    self.reach(format!("answer 01 slice {}", slice + 1));
                }
            }
            7 => self.reach(format!("answer 07 {} kind {}", SIDES[kind / 10 - 1], kind % 10)),
            _ => self.reach(format!("answer {number:02} {}", SIDES[kind - 1])),
        }
        if let Some(why) = verdict.why {
            *self.sides[kind - 1].why.entry(format!("{why:?}")).or_default() += 1;
        }
        if (1..=8).contains(&number) {
            let tests = case.sheets.each_ref().map(|sheet| first_test(sheet));
            if number > 1 {
                self.reach(format!("refused left by {} right by {}", tests[0], tests[1]));
            } else {
                self.reach_if(tests != [0, 0], "answer 01 with a side refused");
            }
        }
    }

    fn lowered(&mut self, case: &PairCase, verdict: &PairVerdict) {
        let (Some(lowered), Some(records)) = (&verdict.lowered, &verdict.records) else { return };
        for (place, met) in lowered.met.iter().enumerate() {
            self.sides[place].met(met);
            let side = SIDES[place];
            self.reach_if(lowered.missing[place], format!("no operator on the {side}"));
            self.reach_if(records[place].len() == 2_048, format!("2,048 records on the {side}"));
            let full = case.sheets[place].len() == 32_768;
            self.reach_if(full, format!("32,768 bytes on the {side}"));
        }
        self.reach_if(lowered.missing == [true, true], "no operator on both sides");
        self.reach_if(lowered.same_id, "the same id on both sides");
        self.reach_if(case.sheets[0] == case.sheets[1], "the same sheet on both sides");
        let (operators, numbers) = (lowered.whole.operators, lowered.whole.numbers as usize);
        self.reach_if(operators == 2_048 && numbers < 2_048, "2,048 operators");
        self.reach_if(operators == 2_049 && numbers < 2_048, "2,049 operators");
        self.reach_if(numbers == 2_048 && operators < 2_048, "2,048 numbers");
        self.reach_if(numbers == 2_049 && operators < 2_048, "2,049 numbers");
        self.reach(if verdict.answer[0] == 0 { "answer 00" } else { "answer 09" });
        let alone = lowered.met.each_ref().map(|met| met.pushed.iter().sum::<u64>());
        let few = alone.iter().all(|&count| count <= 2_048)
            && lowered.numbers.iter().all(|&count| count <= 2_048);
        self.reach_if(verdict.answer[0] == 9 && few, "answer 09 by both sides together");
    }

    /// The counts by name.
    pub fn named(&self) -> Tally {
        let mut tally = self.reached.clone();
        for (side, counts) in SIDES.iter().zip(&self.sides) {
            for (name, count) in counts.of_sheets() {
                tally.insert(format!("{side} {name}"), count);
            }
        }
        Tally(tally)
    }
}

/// The first test that refuses this sheet, by its first number.
fn first_test(sheet: &[u8]) -> usize {
    match before_lowering(sheet, [16_384; 4]) {
        Ok(_) => 0,
        Err(refused) => match refused.answer[0] {
            3 | 4 => 3,
            6..=8 => 6,
            number => number,
        },
    }
}

/// All that a run should reach besides what each side has.
fn names() -> Vec<String> {
    let fixed = [
        "all pairs",
        "all records",
        "all bytes",
        "all 0",
        "all 1",
        "rust not asked",
        "rust plans",
        "rust refusals",
        "answer 00",
        "answer 01 with a side refused",
        "answer 09",
        "answer 09 by both sides together",
        "work slices longer",
        "work slices exchanged",
        "no operator on both sides",
        "the same id on both sides",
        "the same sheet on both sides",
        "2,048 operators",
        "2,049 operators",
        "2,048 numbers",
        "2,049 numbers",
    ];
    let mut names: Vec<String> = fixed.map(str::to_string).to_vec();
    names.extend((1..=8).map(|slice| format!("answer 01 slice {slice}")));
    for side in SIDES {
        names.extend([2, 3, 4, 5, 6, 8].map(|number| format!("answer {number:02} {side}")));
        names.extend((0..4).map(|kind| format!("answer 07 {side} kind {kind}")));
        names.push(format!("a single call before, on the {side}"));
        names.push(format!("no operator on the {side}"));
        names.push(format!("2,048 records on the {side}"));
        names.push(format!("32,768 bytes on the {side}"));
    }
    for left in TESTS {
        let rights = TESTS.iter().filter(|&&right| left + right > 0);
        names.extend(rights.map(|right| format!("refused left by {left} right by {right}")));
    }
    names
}

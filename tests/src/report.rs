//! What a test program prints: a line for each group of cases, the seed of the first difference,
//! and a last line `N passed, M failed`, where N counts cases and M groups that ended at a
//! difference.
//!
//! With a group and a seed as arguments a program runs that one case again. FIRST_SEED in the
//! environment moves the seeds of all groups.

use crate::forbidden::Search;
use crate::made::Generator;
use crate::reference::Refusal;
use std::env;
use std::fmt::Debug;
use std::panic::{catch_unwind, AssertUnwindSafe};
use std::process::ExitCode;
use std::time::Instant;

/// Nothing, or what differs.
pub type Outcome = Result<(), String>;

/// That what was found is what is expected.
pub fn same<T: PartialEq + Debug>(name: &str, found: T, expected: T) -> Outcome {
    if found == expected {
        return Ok(());
    }
    Err(format!("{name} is {found:?}, not {expected:?}"))
}

/// How often each answer came, by the number of the refusal; 0 for none.
#[derive(Default)]
pub struct AnswerCounts {
    counts: [u64; 10],
}

impl AnswerCounts {
    pub fn add<T>(&mut self, answer: &Result<T, Refusal>) {
        let number = answer.as_ref().err().map_or(0, |refusal| refusal.number);
        self.counts[usize::from(number)] += 1;
    }
}

pub struct Report {
    program: &'static str,
    only: Option<(String, u64)>,
    first_seed: u64,
    passed: u64,
    failed: u64,
}

impl Report {
    pub fn new(program: &'static str) -> Report {
        let arguments: Vec<String> = env::args().skip(1).collect();
        let only = match arguments.as_slice() {
            [group, seed] => Some((group.clone(), number(seed))),
            _ => None,
        };
        let first_seed = env::var("FIRST_SEED").map_or(0, |seed| number(&seed));
        Report {
            program,
            only,
            first_seed,
            passed: 0,
            failed: 0,
        }
    }

    /// A group of cases made from seeds.
    pub fn made(
        &mut self,
        group: &str,
        cases: u64,
        mut case: impl FnMut(&mut Generator) -> Outcome,
    ) {
        let seeds = match &self.only {
            None => self.first_seed..self.first_seed + cases,
            Some((only, seed)) if only == group => *seed..*seed + 1,
            Some(_) => return,
        };
        let start = Instant::now();
        for seed in seeds.clone() {
            if let Err(difference) = outcome(&mut case, seed) {
                let again = format!("run again: {} \"{group}\" {seed}", self.program);
                self.fail(group, &format!("seed {seed}: {difference} ({again})"));
                return;
            }
        }
        self.pass(group, seeds.end - seeds.start, start);
    }

    /// A group of cases that are written down; the name of a case stands in its difference.
    pub fn listed<T>(
        &mut self,
        group: &str,
        cases: impl IntoIterator<Item = T>,
        mut case: impl FnMut(T) -> Outcome,
    ) {
        if self.only.is_some() {
            return;
        }
        let start = Instant::now();
        let mut count = 0;
        for listed in cases {
            if let Err(difference) = case(listed) {
                self.fail(group, &format!("case {count}: {difference}"));
                return;
            }
            count += 1;
        }
        self.pass(group, count, start);
    }

    /// How often each answer came, and that each of the numbers named came at least `least` times;
    /// 0 stands for no refusal.
    pub fn answer_counts(&mut self, answers: &AnswerCounts, numbers: &[usize], least: u64) {
        if self.only.is_some() {
            return;
        }
        let counts = answers.counts;
        println!(
            "{}: no refusal, and refusals 1 to 9: {counts:?}",
            self.program
        );
        if numbers.iter().any(|&number| counts[number] < least) {
            self.fail(
                "every answer",
                &format!("one came fewer than {least} times"),
            );
        }
    }

    /// That no plan searched has layout 0 at an end of what a pair shares, or a pair of two windows, and
    /// that there were jobs to be wrongly paired, in every number of windows.
    pub fn nothing_forbidden(&mut self, search: &Search) {
        if self.only.is_some() {
            return;
        }
        let seen = search.seen();
        println!(
            "{}: a pair on layout 0 or of two windows: searched plans with 0 to 16 windows, {:?}, with {} pairs; {} jobs have top 0, {} are 0-0, {} solo",
            self.program, seen.plans, seen.pairs, seen.tops_0, seen.bare_jobs, seen.solo_jobs
        );
        for (group, found) in [
            ("a pair on layout 0", &seen.on_layout_0),
            ("a pair of two windows", &seen.across_windows),
        ] {
            if let Some(words) = found {
                self.fail(group, words);
            }
        }
        let counts = [seen.pairs, seen.tops_0, seen.bare_jobs, seen.solo_jobs];
        if counts.contains(&0) || seen.plans.contains(&0) {
            self.fail("pairs that no plan may have", "nothing to be found");
        }
    }

    /// What was found, in words, where all groups run.
    pub fn note(&self, words: &str) {
        if self.only.is_none() {
            println!("{}: {words}", self.program);
        }
    }

    pub fn finish(self) -> ExitCode {
        println!("{} passed, {} failed", self.passed, self.failed);
        if self.failed == 0 && self.passed > 0 {
            ExitCode::SUCCESS
        } else {
            ExitCode::FAILURE
        }
    }

    fn pass(&mut self, group: &str, cases: u64, start: Instant) {
        let seconds = start.elapsed().as_secs_f64();
        println!("{}: {group}: {cases} cases, {seconds:.1} s", self.program);
        self.passed += cases;
    }

    fn fail(&mut self, group: &str, difference: &str) {
        println!("{}: {group}: DIFFERS: {difference}", self.program);
        self.failed += 1;
    }
}

/// A case's outcome; a case that panics differs too, so that its seed is printed.
fn outcome(case: &mut impl FnMut(&mut Generator) -> Outcome, seed: u64) -> Outcome {
    let run = AssertUnwindSafe(|| case(&mut Generator::new(seed)));
    catch_unwind(run).unwrap_or_else(|_| Err("the case panicked".to_string()))
}

fn number(text: &str) -> u64 {
    text.parse().expect("a seed is a decimal number")
}

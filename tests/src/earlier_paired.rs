//! The earlier job gets the partner (2026-14), by definition and beside every rival plan: going down the
//! running order to the first job that one of two plans has paired and the other single, ours is the one
//! that has it paired; and any plan of which this holds beside every rival makes the fewest passes.

use crate::reference::plan::running_order;
use crate::reference::rivals::{every_rival, pairs_before_cuts, Pair};
use crate::reference::Table;
use crate::report::{same, Outcome};
use std::collections::BTreeSet;
use std::fmt;

/// Of each job whether a plan has it paired.
pub type Paired = Vec<bool>;

pub fn paired(table: &Table, pairs: &[Pair]) -> Paired {
    let has = |job: usize| {
        pairs
            .iter()
            .any(|&(one, other)| [one, other].contains(&job))
    };
    (0..table.jobs()).map(has).collect()
}

/// The first job, going down the running order, that one of two plans has paired and the other single.
pub fn first_difference(order: &[usize], one: &[bool], other: &[bool]) -> Option<usize> {
    order.iter().copied().find(|&job| one[job] != other[job])
}

/// The rival plans of a table, each by the jobs that it has paired: with whom makes no difference here.
pub struct Rivals {
    order: Vec<usize>,
    paired: BTreeSet<Paired>,
}

impl Rivals {
    pub fn new(table: &Table) -> Rivals {
        let rivals = every_rival(table);
        Rivals {
            order: running_order(table),
            paired: rivals.iter().map(|pairs| paired(table, pairs)).collect(),
        }
    }

    /// The first difference beside some rival that the plan leaves single.
    pub fn left_single(&self, plan: &[bool]) -> Option<usize> {
        let first = |rival: &Paired| first_difference(&self.order, plan, rival);
        let mut differences = self.paired.iter().filter_map(first);
        differences.find(|&job| !plan[job])
    }
}

/// Both sentences, of the pairs that a planner gives; and that a plan with the property pairs the same
/// jobs.
pub fn check(table: &Table, pairs: &[Pair]) -> Outcome {
    let rivals = Rivals::new(table);
    let ours = paired(table, pairs);
    same("an earlier job left", rivals.left_single(&ours), None)?;
    let fewest = rivals.paired.iter().map(|plan| passes(plan)).min();
    for plan in &rivals.paired {
        if rivals.left_single(plan).is_none() {
            same("passes of such a plan", Some(passes(plan)), fewest)?;
            same("jobs that it pairs", plan, &ours)?;
        }
    }
    same("our passes", Some(passes(&ours)), fewest)
}

/// Two jobs a pair, and the singles.
fn passes(plan: &[bool]) -> usize {
    let paired = plan.iter().filter(|&&paired| paired).count();
    paired / 2 + (plan.len() - paired)
}

/// How rivals were told from our plans, so that it shows whether there was anything to tell.
#[derive(Default)]
pub struct Told {
    rivals: u64,
    /// Other jobs are paired than in ours; and of these rivals, those with as many pairs in front of every
    /// cut.
    by_a_job: u64,
    by_no_cut: u64,
    /// The same jobs are paired, but there are fewer pairs in front of some cut.
    by_cuts_alone: u64,
}

impl Told {
    pub fn add(&mut self, table: &Table, pairs: &[Pair]) {
        let order = running_order(table);
        let ours = (paired(table, pairs), pairs_before_cuts(table, pairs));
        for rival in every_rival(table) {
            let first = first_difference(&order, &ours.0, &paired(table, &rival));
            let fewer = pairs_before_cuts(table, &rival) != ours.1;
            self.rivals += 1;
            self.by_a_job += u64::from(first.is_some());
            self.by_no_cut += u64::from(first.is_some() && !fewer);
            self.by_cuts_alone += u64::from(first.is_none() && fewer);
        }
    }

    /// That there were some of each kind.
    pub fn some_of_each(&self) -> Outcome {
        let kinds = [self.by_a_job, self.by_no_cut, self.by_cuts_alone];
        same("a kind of rival without a case", kinds.contains(&0), false)
    }
}

impl fmt::Display for Told {
    fn fmt(&self, text: &mut fmt::Formatter) -> fmt::Result {
        let Told {
            rivals,
            by_a_job,
            by_no_cut,
            by_cuts_alone,
        } = self;
        write!(
            text,
            "of {rivals} rivals {by_a_job} pair other jobs, {by_no_cut} of these with as many pairs in front of every cut; {by_cuts_alone} pair the same jobs, with fewer in front of a cut"
        )
    }
}

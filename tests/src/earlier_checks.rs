//! The check of 2026-14 itself, tried on rivals that are worked by hand, and on wrong planners: which of
//! them leave an earlier job single, and on which table.

use crate::earlier_paired::{check, first_difference, paired, Paired, Rivals};
use crate::examples::{named, Comparison};
use crate::reference::plan::{plan_of, running_order};
use crate::reference::rivals::{keeps_rules, most_before_cuts, pairs_before_cuts, pairs_of, Pair};
use crate::reference::Table;
use crate::report::{same, Outcome};
use crate::wrong_planners::wrong_planner;

/// A rival beside our plan: that it keeps the rules, and that the two compare as said.
pub fn compared_as_said(said: &Comparison) -> Outcome {
    let table = named(said.table)?.table;
    keeps_rules(&table, said.rival)?;
    let pairs = pairs_of(&plan_of(&table).partners);
    let in_front = |pairs: &[Pair]| pairs_before_cuts(&table, pairs);
    same(
        "ours in front",
        in_front(&pairs).as_slice(),
        said.ours_in_front,
    )?;
    same(
        "the rival's",
        in_front(said.rival).as_slice(),
        said.rivals_in_front,
    )?;
    let (ours, rivals) = (paired(&table, &pairs), paired(&table, said.rival));
    let first = first_difference(&running_order(&table), &ours, &rivals);
    same("first difference", first, said.first)?;
    same(
        "ours has it paired",
        first.is_none_or(|job| ours[job]),
        true,
    )
}

/// A wrong planner, a table, and the first difference beside our plan, which the planner leaves single there;
/// and whether it has fewer pairs in front of some cut as well.
pub struct EarlierLeft {
    planner: &'static str,
    table: &'static str,
    job: usize,
    fewer_at_a_cut: bool,
}

pub const EARLIER_LEFT: [EarlierLeft; 4] = [
    EarlierLeft {
        planner: "the shallowest first",
        table: "the earlier job",
        job: 0,
        fewer_at_a_cut: false,
    },
    EarlierLeft {
        planner: "the shallowest first",
        table: "two branches",
        job: 2,
        fewer_at_a_cut: true,
    },
    EarlierLeft {
        planner: "in the order of job numbers",
        table: "the earlier job numbered last",
        job: 2,
        fewer_at_a_cut: false,
    },
    EarlierLeft {
        planner: "a later partner",
        table: "the first partner",
        job: 3,
        fewer_at_a_cut: true,
    },
];

/// That the check of 2026-14 catches a wrong planner on the table, and whether the cuts do.
pub fn leaves_earlier(left: &EarlierLeft) -> Outcome {
    let table = named(left.table)?.table;
    let pairs = wrong_pairs(left.planner, &table)?;
    let (wrong, ours) = (paired(&table, &pairs), our_paired(&table));
    let first = first_difference(&running_order(&table), &ours, &wrong);
    same(left.planner, first, Some(left.job))?;
    same("ours has it paired", ours[left.job], true)?;
    let beaten = Rivals::new(&table).left_single(&wrong).is_some();
    let caught = beaten && check(&table, &pairs).is_err();
    same("caught", caught, true)?;
    let fewer = pairs_before_cuts(&table, &pairs) != most_before_cuts(&table);
    same("fewer pairs at a cut", fewer, left.fewer_at_a_cut)
}

/// It is caught beside some rival exactly where it pairs other jobs than ours does.
pub fn caught_where_other_jobs(left: &EarlierLeft, table: &Table) -> Outcome {
    let wrong = paired(table, &wrong_pairs(left.planner, table)?);
    let caught = Rivals::new(table).left_single(&wrong).is_some();
    same(left.planner, caught, wrong != our_paired(table))
}

fn our_paired(table: &Table) -> Paired {
    paired(table, &pairs_of(&plan_of(table).partners))
}

/// The pairs of a wrong planner, which keep the rules.
fn wrong_pairs(planner: &str, table: &Table) -> Result<Vec<Pair>, String> {
    let plan = (wrong_planner(planner)?.plan)(table);
    let plan = plan.map_err(|refusal| format!("refused: {refusal:?}"))?;
    let pairs = pairs_of(&plan.partners);
    keeps_rules(table, &pairs)?;
    Ok(pairs)
}

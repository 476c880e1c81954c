//! The planners that document 01 says must not get through ("Plans that look fine"), and those that
//! mistake layout 0, a solo mark, the order, a tie, an end of what a pair shares or a window, each with the
//! table that catches it.
//! The checks of *Plan* are tried on them: a check that accepts one of these checks nothing.

mod windows;

use crate::reference::paths::{
    depth_of_highest, highest, is_bare, own_paths, walk_of, whole_paths, BARE_SHEET,
};
use crate::reference::plan::{plan_of, running_order, with_totals, Plan, Totals};
use crate::reference::tree::{depth, settled};
use crate::reference::visits::{span_visits, LeafSpan, Slots};
use crate::reference::{Refusal, Table, ABSENT, WORK_CELLS};
use std::cmp::Reverse;
use std::mem::swap;

pub struct WrongPlanner {
    pub name: &'static str,
    /// The name of the example that it fails.
    pub fails: &'static str,
    pub plan: fn(&Table) -> Result<Plan, Refusal>,
    /// The order that it goes by.
    pub order: fn(&Table) -> Vec<usize>,
    pub writes: Writes,
    /// Whether its results are right, so that the cell count alone gives it away.
    pub count_alone: bool,
}

/// Which of its results a planner writes.
#[derive(Clone, Copy, PartialEq, Eq)]
pub enum Writes {
    All,
    AllButUppers,
    Nothing,
}

impl WrongPlanner {
    /// The wrong planner as a caller meets it.
    pub fn call(
        &self,
        table: &Table,
        partners: &mut [u16],
        uppers: &mut [u16],
        printed: &mut [u16],
        work: &mut [u16],
    ) -> Result<Totals, Refusal> {
        let plan = (self.plan)(table)?;
        if self.writes != Writes::Nothing {
            partners[..table.jobs()].copy_from_slice(&plan.partners);
            printed[..table.jobs()].copy_from_slice(&plan.printed);
        }
        if self.writes == Writes::All {
            uppers[..table.jobs()].copy_from_slice(&plan.uppers);
        }
        work[..WORK_CELLS].fill(0);
        Ok(plan.totals)
    }
}

fn wrong(
    name: &'static str,
    fails: &'static str,
    plan: fn(&Table) -> Result<Plan, Refusal>,
) -> WrongPlanner {
    WrongPlanner {
        name,
        fails,
        plan,
        order: running_order,
        writes: Writes::All,
        count_alone: false,
    }
}

/// One that pairs rightly and counts wrongly.
fn wrong_count(
    name: &'static str,
    fails: &'static str,
    plan: fn(&Table) -> Result<Plan, Refusal>,
) -> WrongPlanner {
    WrongPlanner {
        count_alone: true,
        ..wrong(name, fails, plan)
    }
}

/// One of the wrong planners by its name.
pub fn wrong_planner(name: &str) -> Result<WrongPlanner, String> {
    let found = wrong_planners()
        .into_iter()
        .find(|planner| planner.name == name);
    found.ok_or_else(|| format!("no wrong planner is named {name:?}"))
}

pub fn wrong_planners() -> Vec<WrongPlanner> {
    let mut planners = planners_of_document_01();
    planners.extend(planners_of_the_bare_sheet());
    planners.extend(planners_of_both_ends());
    planners.extend(windows::planners());
    planners.push(wrong(
        "marks ignored",
        "a solo job that could share",
        marks_ignored,
    ));
    planners.push(WrongPlanner {
        order: numbers_in_order,
        ..wrong(
            "in the order of job numbers",
            "the earlier job numbered last",
            by_job_number,
        )
    });
    planners.push(WrongPlanner {
        order: greater_numbers_first,
        ..wrong(
            "ties by the greater number",
            "a chain of two",
            ties_by_greater_number,
        )
    });
    planners
}

fn planners_of_document_01() -> Vec<WrongPlanner> {
    let two_jobs = "two jobs on layout 1";
    vec![
        WrongPlanner {
            order: shallowest_order,
            ..wrong("the shallowest first", "two branches", shallowest_first)
        },
        wrong("a later partner", "the first partner", last_partner),
        wrong(
            "spans without depths",
            "above the highest layout",
            spans_alone,
        ),
        wrong("the last job never offered", two_jobs, without_last),
        wrong("the opening job alone", "two leaves", opening_pair),
        wrong("all single", two_jobs, all_single),
        wrong_count("an invented count", two_jobs, invented_count),
        wrong("no lookup at all", two_jobs, no_lookup),
        wrong("refusing each table", "no jobs", refuse_all),
        WrongPlanner {
            writes: Writes::Nothing,
            ..wrong("results never written", "one job", |table| {
                Ok(plan_of(table))
            })
        },
    ]
}

/// Those that take layout 0 for a layout like the others.
fn planners_of_the_bare_sheet() -> Vec<WrongPlanner> {
    vec![
        wrong(
            "pairs on layout 0",
            "layout 0 alone in common",
            pairs_on_layout_0,
        ),
        WrongPlanner {
            order: order_by_tops,
            ..wrong(
                "the deepest tops first",
                "a top 0 beside tops 1",
                deepest_tops_first,
            )
        },
        wrong_count("the spans of the tops", "two leaves", spans_of_tops),
        wrong_count(
            "a lookup for a job 0-0",
            "jobs 0-0 with slots",
            lookups_of_bare_jobs,
        ),
        wrong_count(
            "no slot for a job 0-0",
            "jobs 0-0 with slots",
            no_slots_of_bare_jobs,
        ),
    ]
}

/// Those that pair rightly and mistake an end of what a pair shares.
fn planners_of_both_ends() -> Vec<WrongPlanner> {
    let two_layouts = "two shared layouts";
    let reaches_higher = "a later job that reaches higher";
    vec![
        wrong(
            "the highest shared layout printed",
            two_layouts,
            highest_shared_printed,
        ),
        wrong("the deepest for both ends", two_layouts, deepest_for_both),
        wrong("the ends exchanged", two_layouts, ends_exchanged),
        wrong("the upper end a top", two_layouts, upper_end_a_top),
        wrong(
            "the upper end of the later job",
            reaches_higher,
            upper_end_of_later,
        ),
        wrong("each job's own upper end", reaches_higher, own_upper_ends),
        wrong(
            "the upper end of the larger number",
            "an earlier job with the smaller number",
            upper_end_of_larger_number,
        ),
        WrongPlanner {
            writes: Writes::AllButUppers,
            ..wrong("the upper ends never written", two_layouts, |table| {
                Ok(plan_of(table))
            })
        },
    ]
}

/// A matching by the greedy rule over some order, sharing test and choice, with the right number
/// of visits.
fn greedy(
    table: &Table,
    order: &[usize],
    shares: &dyn Fn(usize, usize) -> bool,
    choose: fn(&[usize]) -> Option<&usize>,
) -> Plan {
    let mut partners = vec![None; table.jobs()];
    for (rank, &job) in order.iter().enumerate() {
        if table.solo(job) || partners[job].is_some() {
            continue;
        }
        let free = |other: usize| !table.solo(other) && partners[other].is_none();
        let fits = |&other: &usize| free(other) && shares(job, other);
        let candidates: Vec<usize> = order[rank + 1..].iter().copied().filter(fits).collect();
        if let Some(&other) = choose(&candidates) {
            partners[job] = Some(other);
            partners[other] = Some(job);
        }
    }
    with_totals(table, partners, plan_of(table).totals.visits)
}

/// The greedy rule by definition, but for the order and the choice.
fn greedy_by(table: &Table, order: &[usize], choose: fn(&[usize]) -> Option<&usize>) -> Plan {
    let paths = own_paths(table);
    let fits =
        |job: usize, other: usize| table.same_window(job, other) && paths[job].meets(&paths[other]);
    greedy(table, order, &fits, choose)
}

fn shallowest_order(table: &Table) -> Vec<usize> {
    let mut order: Vec<usize> = (0..table.jobs()).collect();
    order.sort_by_key(|&job| depth_of_highest(table, job));
    order
}

fn shallowest_first(table: &Table) -> Result<Plan, Refusal> {
    let order = shallowest_order(table);
    Ok(greedy_by(table, &order, |candidates| candidates.first()))
}

/// Equal depths by greater number.
fn greater_numbers_first(table: &Table) -> Vec<usize> {
    let mut order: Vec<usize> = (0..table.jobs()).collect();
    order.sort_by_key(|&job| Reverse((depth_of_highest(table, job), job)));
    order
}

fn ties_by_greater_number(table: &Table) -> Result<Plan, Refusal> {
    let order = greater_numbers_first(table);
    Ok(greedy_by(table, &order, |candidates| candidates.first()))
}

fn numbers_in_order(table: &Table) -> Vec<usize> {
    (0..table.jobs()).collect()
}

fn by_job_number(table: &Table) -> Result<Plan, Refusal> {
    let order = numbers_in_order(table);
    Ok(greedy_by(table, &order, |candidates| candidates.first()))
}

fn last_partner(table: &Table) -> Result<Plan, Refusal> {
    let order = running_order(table);
    Ok(greedy_by(table, &order, |candidates| candidates.last()))
}

fn spans_alone(table: &Table) -> Result<Plan, Refusal> {
    let firsts = settled(&table.parents).firsts;
    let spans = spans_of_highest(table);
    let in_span = |job: usize, other: usize| {
        let leaf = firsts[usize::from(table.bottoms[other])];
        let holds = |(first, last): LeafSpan| first <= leaf && leaf <= last;
        !is_bare(table, other) && spans[job].is_some_and(holds)
    };
    let order = running_order(table);
    Ok(greedy(table, &order, &in_span, |candidates| {
        candidates.first()
    }))
}

/// The loop that ends at count minus one.
fn without_last(table: &Table) -> Result<Plan, Refusal> {
    let order = running_order(table);
    let kept = order.len().saturating_sub(1);
    Ok(greedy_by(table, &order[..kept], |candidates| {
        candidates.first()
    }))
}

fn opening_pair(table: &Table) -> Result<Plan, Refusal> {
    let plan = plan_of(table);
    let mut partners = vec![None; table.jobs()];
    if let Some(&job) = running_order(table).first() {
        let other = usize::from(plan.partners[job]);
        if other < table.jobs() {
            partners[job] = Some(other);
            partners[other] = Some(job);
        }
    }
    Ok(with_totals(table, partners, plan.totals.visits))
}

fn all_single(table: &Table) -> Result<Plan, Refusal> {
    let visits = plan_of(table).totals.visits;
    Ok(with_totals(table, vec![None; table.jobs()], visits))
}

fn invented_count(table: &Table) -> Result<Plan, Refusal> {
    let mut plan = plan_of(table);
    plan.totals.visits = 7 * table.jobs() as u32;
    Ok(plan)
}

/// "No partner" reported at the root.
fn no_lookup(table: &Table) -> Result<Plan, Refusal> {
    let visits = (0..table.jobs()).filter(|&job| !table.solo(job)).count();
    Ok(with_totals(table, vec![None; table.jobs()], visits as u32))
}

fn refuse_all(_: &Table) -> Result<Plan, Refusal> {
    Err(Refusal {
        number: 3,
        place: 0,
    })
}

fn marks_ignored(table: &Table) -> Result<Plan, Refusal> {
    let mut unmarked = table.clone();
    unmarked.marks.fill(0);
    Ok(plan_of(&unmarked))
}

fn highest_shared_printed(table: &Table) -> Result<Plan, Refusal> {
    let mut plan = plan_of(table);
    plan.printed = plan.uppers.clone();
    Ok(plan)
}

fn deepest_for_both(table: &Table) -> Result<Plan, Refusal> {
    let mut plan = plan_of(table);
    plan.uppers = plan.printed.clone();
    Ok(plan)
}

fn ends_exchanged(table: &Table) -> Result<Plan, Refusal> {
    let mut plan = plan_of(table);
    swap(&mut plan.uppers, &mut plan.printed);
    Ok(plan)
}

/// The top of the earlier job, which may be layout 0.
fn upper_end_a_top(table: &Table) -> Result<Plan, Refusal> {
    Ok(with_uppers(table, &|earlier, _, _| table.tops[earlier]))
}

/// The highest layout of the later job, which may lie above all that they share.
fn upper_end_of_later(table: &Table) -> Result<Plan, Refusal> {
    let highest = |job: usize| highest(table, job).unwrap_or(ABSENT);
    Ok(with_uppers(table, &|_, later, _| highest(later)))
}

/// The highest layout of the one for the one, and of the other for the other.
fn own_upper_ends(table: &Table) -> Result<Plan, Refusal> {
    let highest = |job: usize| highest(table, job).unwrap_or(ABSENT);
    Ok(with_uppers(table, &|_, _, job| highest(job)))
}

/// The highest layout of the job with the larger number, whichever is the earlier.
fn upper_end_of_larger_number(table: &Table) -> Result<Plan, Refusal> {
    let highest = |job: usize| highest(table, job).unwrap_or(ABSENT);
    Ok(with_uppers(table, &|earlier, later, _| {
        highest(earlier.max(later))
    }))
}

/// The right plan, but for the upper ends of its pairs: these go by the earlier job, the later one,
/// and that of the two in whose cell they are written.
fn with_uppers(table: &Table, upper: &dyn Fn(usize, usize, usize) -> u16) -> Plan {
    let mut plan = plan_of(table);
    let order = running_order(table);
    for (rank, &earlier) in order.iter().enumerate() {
        let later = usize::from(plan.partners[earlier]);
        if order[rank + 1..].contains(&later) {
            for job in [earlier, later] {
                plan.uppers[job] = upper(earlier, later, job);
            }
        }
    }
    plan
}

/// Sharing by whole paths, so that jobs with layout 0 alone in common are paired on it.
fn pairs_on_layout_0(table: &Table) -> Result<Plan, Refusal> {
    let paths = whole_paths(table);
    let shares = |job: usize, other: usize| paths[job].meets(&paths[other]);
    let order = running_order(table);
    let mut plan = greedy(table, &order, &shares, |candidates| candidates.first());
    for job in 0..table.jobs() {
        if let Some(other) = paths.get(usize::from(plan.partners[job])) {
            let shared = |layout: &u16| other.contains(*layout);
            let layouts: Vec<u16> = walk_of(table, job).into_iter().filter(shared).collect();
            plan.printed[job] = layouts.first().copied().unwrap_or(ABSENT);
            plan.uppers[job] = layouts.last().copied().unwrap_or(ABSENT);
        }
    }
    Ok(plan)
}

fn order_by_tops(table: &Table) -> Vec<usize> {
    let mut order: Vec<usize> = (0..table.jobs()).collect();
    order.sort_by_key(|&job| Reverse(depth(&table.parents, table.tops[job])));
    order
}

fn deepest_tops_first(table: &Table) -> Result<Plan, Refusal> {
    let order = order_by_tops(table);
    Ok(greedy_by(table, &order, |candidates| candidates.first()))
}

fn spans_of_tops(table: &Table) -> Result<Plan, Refusal> {
    let top = |job: usize| highest(table, job).map(|_| table.tops[job]);
    Ok(counted_by_spans(table, &spans_of(table, &top)))
}

/// A job 0-0 asks for the span of layout 0.
fn lookups_of_bare_jobs(table: &Table) -> Result<Plan, Refusal> {
    let asked = |job: usize| highest(table, job).or(Some(BARE_SHEET));
    Ok(counted_by_spans(table, &spans_of(table, &asked)))
}

fn no_slots_of_bare_jobs(table: &Table) -> Result<Plan, Refusal> {
    Ok(with_slots_where(table, &|job| !is_bare(table, job)))
}

/// Slots for these jobs alone.
fn with_slots_where(table: &Table, has_slot: &dyn Fn(usize) -> bool) -> Plan {
    let jobs: Vec<usize> = (0..table.jobs()).filter(|&job| has_slot(job)).collect();
    let slots = Slots::new(table, &jobs);
    counted_by(table, &|job| slots.visits(job))
}

/// The visits of lookups for these spans, each over the slots of its window.
fn counted_by_spans(table: &Table, spans: &[Option<LeafSpan>]) -> Plan {
    let slots = slots_of(table);
    counted_by(table, &|job| {
        let leaves = slots.of_window(table.windows[job]);
        spans[job].map_or(0, |span| span_visits(leaves, span))
    })
}

fn slots_of(table: &Table) -> Slots {
    let jobs: Vec<usize> = (0..table.jobs()).collect();
    Slots::new(table, &jobs)
}

/// The right pairs, with these visits of each lookup.
fn counted_by(table: &Table, visits: &dyn Fn(usize) -> u32) -> Plan {
    let mut plan = plan_of(table);
    let mut taken = vec![false; table.jobs()];
    plan.totals.visits = 0;
    for job in running_order(table) {
        if let Some(later) = taken.get_mut(usize::from(plan.partners[job])) {
            *later = true;
        }
        if !table.solo(job) && !taken[job] {
            plan.totals.visits += visits(job);
        }
    }
    plan
}

fn spans_of_highest(table: &Table) -> Vec<Option<LeafSpan>> {
    spans_of(table, &|job| highest(table, job))
}

/// For each job the leaf span of a layout.
fn spans_of(table: &Table, layout: &dyn Fn(usize) -> Option<u16>) -> Vec<Option<LeafSpan>> {
    let tree = settled(&table.parents);
    let span = |layout: u16| {
        let layout = usize::from(layout);
        (tree.firsts[layout], tree.lasts[layout])
    };
    let jobs = 0..table.jobs();
    jobs.map(|job| layout(job).map(span)).collect()
}

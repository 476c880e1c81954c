//! The planners that mistake a window (2026-05): in the pairs, in the slots of a shelf or its width, or
//! in a refusal.

use super::{counted_by, greedy, slots_of, spans_of_highest, with_slots_where};
use super::{wrong, wrong_count, WrongPlanner};
use crate::reference::paths::{is_bare, own_paths};
use crate::reference::plan::{plan, plan_of, running_order, with_totals, Plan, Room};
use crate::reference::visits::{visits, LeafSpan};
use crate::reference::{refuse, Refusal, Table, WINDOW_LIMIT};

pub fn planners() -> Vec<WrongPlanner> {
    let mut planners = planners_of_pairs();
    planners.extend(planners_of_shelves());
    planners.extend(planners_of_refusals());
    planners
}

fn planners_of_pairs() -> Vec<WrongPlanner> {
    let by_turns = "windows by turns";
    vec![
        wrong("windows ignored", "two windows", windows_ignored),
        wrong("partners across windows", by_turns, partners_across_windows),
        wrong("the next job or nobody", by_turns, next_job_or_nobody),
    ]
}

fn planners_of_shelves() -> Vec<WrongPlanner> {
    let two_sizes = "shelves of two sizes";
    let solo_slot = "a solo job with a slot in its window";
    vec![
        wrong_count("the width of all jobs", two_sizes, width_of_all_jobs),
        wrong_count("slots of all windows", two_sizes, slots_of_all_windows),
        wrong_count("one array of slots", two_sizes, one_array_of_slots),
        wrong_count("no slot for a solo job", solo_slot, no_slots_of_solo_jobs),
        wrong_count(
            "a solo job's slot in window 0",
            solo_slot,
            solo_slots_in_window_0,
        ),
        wrong_count(
            "a solo job's slot in each window",
            "a solo job in window 0",
            solo_slots_in_each_window,
        ),
        wrong_count(
            "slots of jobs 0-0 in window 0",
            "jobs 0-0 in windows",
            bare_slots_in_window_0,
        ),
    ]
}

fn planners_of_refusals() -> Vec<WrongPlanner> {
    vec![
        wrong("fifteen windows", "the last window", fifteen_windows),
        wrong("seventeen windows", "a window too many", seventeen_windows),
        wrong(
            "windows of four bits",
            "the greatest window number",
            windows_of_four_bits,
        ),
        wrong(
            "solo jobs in any window",
            "a solo job beyond the windows",
            solo_windows_not_judged,
        ),
        wrong(
            "windows before layouts",
            "no layout and no window",
            windows_before_layouts,
        ),
        wrong(
            "windows after all jobs",
            "no window before no layout",
            windows_after_all_jobs,
        ),
    ]
}

/// The same table with the jobs in other windows.
fn in_windows(table: &Table, window: &dyn Fn(usize) -> u8) -> Table {
    Table {
        windows: (0..table.jobs()).map(window).collect(),
        ..table.clone()
    }
}

/// The same table with some jobs in this window.
fn moved(table: &Table, to: u8, is_moved: &dyn Fn(usize) -> bool) -> Table {
    in_windows(table, &|job| match is_moved(job) {
        true => to,
        false => table.windows[job],
    })
}

/// Pairs and visits from before there were windows.
fn windows_ignored(table: &Table) -> Result<Plan, Refusal> {
    Ok(plan_of(&in_windows(table, &|_| 0)))
}

/// The right visits, but pairs of any windows.
fn partners_across_windows(table: &Table) -> Result<Plan, Refusal> {
    let paths = own_paths(table);
    let shares = |job: usize, other: usize| paths[job].meets(&paths[other]);
    let order = running_order(table);
    Ok(greedy(table, &order, &shares, |candidates| {
        candidates.first()
    }))
}

/// Where the first later job that shares is of another window, nobody is taken.
fn next_job_or_nobody(table: &Table) -> Result<Plan, Refusal> {
    let across = partners_across_windows(table)?;
    let of_one_window = |job: usize| {
        let other = usize::from(across.partners[job]);
        Some(other).filter(|&other| other < table.jobs() && table.same_window(job, other))
    };
    let partners = (0..table.jobs()).map(of_one_window).collect();
    Ok(with_totals(table, partners, plan_of(table).totals.visits))
}

/// The slots of the window, but a shelf as wide as one for all jobs.
fn width_of_all_jobs(table: &Table) -> Result<Plan, Refusal> {
    let slots = slots_of(table);
    Ok(counted_by_slots(table, &|job, span| {
        let leaves = slots.of_window(table.windows[job]);
        let mut asked = in_span(leaves, span);
        asked.resize(table.jobs(), false);
        asked
    }))
}

/// One shelf for all jobs.
fn slots_of_all_windows(table: &Table) -> Result<Plan, Refusal> {
    Ok(with_slots_of(table, &in_windows(table, &|_| 0)))
}

/// The shelves of all windows one behind the other, taken for one.
fn one_array_of_slots(table: &Table) -> Result<Plan, Refusal> {
    let slots = slots_of(table);
    Ok(counted_by_slots(table, &|job, span| {
        let windows = table.windows_used().into_iter();
        let asked = |window: u8| {
            let leaves = slots.of_window(window);
            match window == table.windows[job] {
                true => in_span(leaves, span),
                false => vec![false; leaves.len()],
            }
        };
        windows.flat_map(asked).collect()
    }))
}

/// The visits of lookups for some slots, told by job and leaf span, over a shelf of so many.
fn counted_by_slots(table: &Table, asked: &dyn Fn(usize, LeafSpan) -> Vec<bool>) -> Plan {
    let spans = spans_of_highest(table);
    counted_by(table, &|job| {
        spans[job].map_or(0, |span| {
            let mut asked = asked(job, span);
            asked.resize(asked.len().next_power_of_two(), false);
            visits(&asked)
        })
    })
}

fn in_span(leaves: &[u16], (first, last): LeafSpan) -> Vec<bool> {
    let is_asked = |&leaf: &u16| first <= leaf && leaf <= last;
    leaves.iter().map(is_asked).collect()
}

fn no_slots_of_solo_jobs(table: &Table) -> Result<Plan, Refusal> {
    Ok(with_slots_where(table, &|job| !table.solo(job)))
}

/// A line 04 means window 0, but a solo job lent to *Plan* may be in any.
fn solo_slots_in_window_0(table: &Table) -> Result<Plan, Refusal> {
    let with_slots = moved(table, 0, &|job| table.solo(job));
    Ok(with_slots_of(table, &with_slots))
}

fn solo_slots_in_each_window(table: &Table) -> Result<Plan, Refusal> {
    Ok(counted_by(table, &|job| {
        let with_slots = moved(table, table.windows[job], &|other| table.solo(other));
        slots_of(&with_slots).visits(job)
    }))
}

fn bare_slots_in_window_0(table: &Table) -> Result<Plan, Refusal> {
    let with_slots = moved(table, 0, &|job| is_bare(table, job));
    Ok(with_slots_of(table, &with_slots))
}

/// The right pairs, with the visits of lookups over the slots that another table has.
fn with_slots_of(table: &Table, other: &Table) -> Plan {
    let slots = slots_of(other);
    counted_by(table, &|job| slots.visits(job))
}

fn fifteen_windows(table: &Table) -> Result<Plan, Refusal> {
    refused_from(table, WINDOW_LIMIT as u8 - 1)
}

fn seventeen_windows(table: &Table) -> Result<Plan, Refusal> {
    let is_next = |job: usize| usize::from(table.windows[job]) == WINDOW_LIMIT;
    right_plan(&moved(table, WINDOW_LIMIT as u8 - 1, &is_next))
}

/// What is above the lower four bits is lost.
fn windows_of_four_bits(table: &Table) -> Result<Plan, Refusal> {
    right_plan(&in_windows(table, &|job| table.windows[job] % 16))
}

fn solo_windows_not_judged(table: &Table) -> Result<Plan, Refusal> {
    right_plan(&moved(table, 0, &|job| table.solo(job)))
}

fn windows_before_layouts(table: &Table) -> Result<Plan, Refusal> {
    refused_from(table, WINDOW_LIMIT as u8)
}

/// Refuses the first job in such a window or a later one, before all else.
fn refused_from(table: &Table, least: u8) -> Result<Plan, Refusal> {
    match table.windows.iter().position(|&window| least <= window) {
        Some(job) => refuse(9, job),
        None => right_plan(table),
    }
}

/// Every other fault first, whichever job has it.
fn windows_after_all_jobs(table: &Table) -> Result<Plan, Refusal> {
    right_plan(&in_windows(table, &|_| 0))?;
    right_plan(table)
}

fn right_plan(table: &Table) -> Result<Plan, Refusal> {
    plan(table, Room::exact(table))
}

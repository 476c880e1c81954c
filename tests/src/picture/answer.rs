//! The product's answer to a table's bytes, as the static library gives it. Nothing is drawn where
//! the second implementation answers otherwise.

use super::planned::Planned;
use crate::library;
use crate::plan_checks::{plan_by, Planner};
use crate::reference::plan::{plan, running_order, with_totals, Room};
use crate::reference::rivals::{keeps_rules, pairs_of, Pair};
use crate::reference::run;
use crate::reference::table::read;
use crate::reference::{Refusal, Table, JOB_LIMIT, LAYOUT_LIMIT, OUTPUT_BYTES};
use crate::wrong_planners::wrong_planner;

pub enum Answer {
    Planned(Planned),
    Refused(Refusal),
}

/// What the product answers, or how the second implementation differs.
pub fn product_answer(bytes: &[u8]) -> Result<Answer, String> {
    let mut output = vec![0; OUTPUT_BYTES];
    let length = library::run(bytes, &mut output);
    agree("lines", &output[..length], &run::run(bytes)[..])?;
    let table = read_by_product(bytes);
    agree("table", &table, &read(bytes))?;
    match table {
        Ok(table) => planned(table, &library::plan).map(Answer::Planned),
        Err(refusal) => Ok(Answer::Refused(refusal)),
    }
}

/// A table with the plan of some planner, or how the second implementation differs.
pub fn planned(table: Table, planner: Planner) -> Result<Planned, String> {
    let answer = plan_by(planner, &table);
    agree("plan", &answer, &plan(&table, Room::exact(&table)))?;
    let plan = answer.map_err(in_words)?;
    let order = running_order(&table);
    Ok(Planned::new(table, plan, order))
}

/// A table with the plan of one of the wrong planners, in the order that it goes by. A plan that
/// breaks the rules of a plan cannot be drawn.
pub fn planned_wrongly(bytes: &[u8], name: &str) -> Result<Planned, String> {
    let planner = wrong_planner(name)?;
    let table = read(bytes).map_err(in_words)?;
    let plan = (planner.plan)(&table).map_err(in_words)?;
    keeps_rules(&table, &pairs_of(&plan.partners))?;
    let order = (planner.order)(&table);
    Ok(Planned::new(table, plan, order))
}

/// A table with a rival plan, in the running order. A rival makes no lookup, so it has no cell count.
pub fn planned_by_rival(bytes: &[u8], pairs: &[Pair]) -> Result<Planned, String> {
    let table = read(bytes).map_err(in_words)?;
    keeps_rules(&table, pairs)?;
    let mut partners = vec![None; table.jobs()];
    for &(job, other) in pairs {
        partners[job] = Some(other);
        partners[other] = Some(job);
    }
    let plan = with_totals(&table, partners, 0);
    let order = running_order(&table);
    Ok(Planned::new(table, plan, order))
}

fn in_words(refusal: Refusal) -> String {
    format!("refused: {refusal:?}")
}

fn read_by_product(bytes: &[u8]) -> Result<Table, Refusal> {
    let mut table = Table {
        parents: vec![0; LAYOUT_LIMIT],
        tops: vec![0; JOB_LIMIT],
        bottoms: vec![0; JOB_LIMIT],
        marks: vec![0; JOB_LIMIT],
        windows: vec![0; JOB_LIMIT],
    };
    let counts = library::read(
        bytes,
        &mut table.parents,
        &mut table.tops,
        &mut table.bottoms,
        &mut table.marks,
        &mut table.windows,
    )?;
    let (layouts, jobs) = (usize::from(counts.layouts), usize::from(counts.jobs));
    table.parents.truncate(layouts);
    table.tops.truncate(jobs);
    table.bottoms.truncate(jobs);
    table.marks.truncate(jobs);
    table.windows.truncate(jobs);
    Ok(table)
}

fn agree<T: PartialEq + ?Sized>(name: &str, product: &T, second: &T) -> Result<(), String> {
    if product == second {
        return Ok(());
    }
    Err(format!("the two implementations differ in the {name}"))
}

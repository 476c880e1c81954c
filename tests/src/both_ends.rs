//! What 2026-02 says of the pairs of a plan, beside the definition of their ends: the two are the first
//! and the last number of the shared stretch of the two paths, each written from top to bottom, and
//! the upper one is the highest layout other than 0 of the earlier job.

use crate::reference::paths::{highest, walk_of};
use crate::reference::plan::{running_order, Results};
use crate::reference::rivals::pairs_of;
use crate::reference::stretch::shared_stretch;
use crate::reference::{Table, ABSENT};
use crate::report::{same, Outcome};

/// That each pair has both ends of what it shares, the same in the cells of both jobs, and that every
/// other job has none.
pub fn check(table: &Table, results: Results) -> Outcome {
    let mut ends = vec![(ABSENT, ABSENT); table.jobs()];
    let mut places = vec![0; table.jobs()];
    for (place, job) in running_order(table).into_iter().enumerate() {
        places[job] = place;
    }
    for (job, other) in pairs_of(results.partners) {
        let earlier = if places[job] < places[other] {
            job
        } else {
            other
        };
        let shared = ends_of_stretch(table, job, other)?;
        same("upper end", Some(shared.0), highest(table, earlier))?;
        ends[job] = shared;
        ends[other] = shared;
    }
    let cells = results.uppers.iter().zip(results.printed);
    let found: Vec<(u16, u16)> = cells.map(|(&upper, &printed)| (upper, printed)).collect();
    same("upper and lower ends", found, ends)
}

/// The first and the last number of the shared stretch of two paths, from top to bottom.
fn ends_of_stretch(table: &Table, job: usize, other: usize) -> Result<(u16, u16), String> {
    let (path, other_path) = (downward(table, job), downward(table, other));
    match shared_stretch(&path, &other_path) {
        [] => Err(format!("jobs {job} and {other} share nothing")),
        [only] => Ok((*only, *only)),
        [first, .., last] => Ok((*first, *last)),
    }
}

/// A job's path from top to bottom.
pub fn downward(table: &Table, job: usize) -> Vec<u16> {
    let mut layouts = walk_of(table, job);
    layouts.reverse();
    layouts
}

//! Rival plans (document 01, "Rival plans and the cut"; 2026-05: they keep the windows too): their
//! rules, every one of them, and by exhaustive search how many pairs one can have in front of a cut.

use super::paths::{own_paths, Path};
use super::plan::running_order;
use super::Table;

/// A pair of job numbers.
pub type Pair = (usize, usize);

/// The pairs of a partner result, each read once: I and J, both below M, are a pair if cell I holds
/// J.
pub fn pairs_of(partners: &[u16]) -> Vec<Pair> {
    let jobs = partners.len();
    let pair = |job: usize| (job, usize::from(partners[job]));
    let mut pairs: Vec<Pair> = (0..jobs)
        .map(pair)
        .filter(|&(_, other)| other < jobs)
        .map(|(job, other)| (job.min(other), job.max(other)))
        .collect();
    pairs.sort();
    pairs.dedup();
    pairs
}

/// The rules of a rival plan, or which one is broken.
pub fn keeps_rules(table: &Table, pairs: &[Pair]) -> Result<(), String> {
    let paths = own_paths(table);
    let mut paired = vec![false; table.jobs()];
    for &(job, other) in pairs {
        if job == other {
            return Err(format!("job {job} is paired with itself"));
        }
        if !may_pair(table, &paths, job, other) {
            return Err(format!(
                "jobs {job} and {other} are solo, of two windows, or do not share"
            ));
        }
        for member in [job, other] {
            if std::mem::replace(&mut paired[member], true) {
                return Err(format!("job {member} stands in two pairs"));
            }
        }
    }
    Ok(())
}

/// Neither is solo, they are in one window, and they share: a rival's pairs do not print on layout 0
/// either.
fn may_pair(table: &Table, paths: &[Path], job: usize, other: usize) -> bool {
    let solo = table.solo(job) || table.solo(other);
    !solo && table.same_window(job, other) && paths[job].meets(&paths[other])
}

/// Every rival plan of a table, the empty one among them.
pub fn every_rival(table: &Table) -> Vec<Vec<Pair>> {
    let jobs: Vec<usize> = (0..table.jobs()).collect();
    let paths = own_paths(table);
    rivals_among(&jobs, &|job, other| may_pair(table, &paths, job, other))
}

/// Every set of pairs among some jobs: the first is alone, or with any of the others.
fn rivals_among(jobs: &[usize], may_pair: &dyn Fn(usize, usize) -> bool) -> Vec<Vec<Pair>> {
    let Some((&first, others)) = jobs.split_first() else {
        return vec![Vec::new()];
    };
    let mut rivals = rivals_among(others, may_pair);
    for (at, &other) in others.iter().enumerate() {
        if may_pair(first, other) {
            let rest = [&others[..at], &others[at + 1..]].concat();
            for mut pairs in rivals_among(&rest, may_pair) {
                pairs.push((first, other));
                rivals.push(pairs);
            }
        }
    }
    rivals
}

/// How many pairs lie in front of each cut, from cut 0 to cut M.
pub fn pairs_before_cuts(table: &Table, pairs: &[Pair]) -> Vec<usize> {
    let mut ranks = vec![0; table.jobs()];
    for (rank, job) in running_order(table).into_iter().enumerate() {
        ranks[job] = rank;
    }
    let in_front = |&(job, other): &Pair, cut: usize| ranks[job] < cut && ranks[other] < cut;
    (0..=table.jobs())
        .map(|cut| pairs.iter().filter(|pair| in_front(pair, cut)).count())
        .collect()
}

/// The most pairs that any rival plan has in front of each cut, from cut 0 to cut M.
pub fn most_before_cuts(table: &Table) -> Vec<usize> {
    let order = running_order(table);
    let paths = own_paths(table);
    let may_pair = |job: usize, other: usize| may_pair(table, &paths, job, other);
    let most = |cut: usize| {
        let rivals = rivals_among(&order[..cut], &may_pair);
        rivals.iter().map(Vec::len).max().unwrap_or(0)
    };
    (0..=table.jobs()).map(most).collect()
}

//! *Plan* by the quadratic greedy rule (document 01, "The tree and the running order" and "What
//! each operation turns away"; 2026-05, printing windows): in running order each free job takes the
//! first free later job of its window that shares with it.

use super::paths::{deepest_shared, depth_of_highest, highest_shared, is_bare, own_paths, Path};
use super::tree::{is_ancestor, refuse_wrong_parents};
use super::visits::Slots;
use super::{refuse, Refusal, Table, ABSENT, JOB_LIMIT, LAYOUT_LIMIT, WINDOW_LIMIT, WORK_CELLS};

/// What *Plan* gives back.
#[derive(Clone, Copy, Debug, PartialEq, Eq)]
pub struct Totals {
    pub pairs: u16,
    pub singles: u16,
    pub visits: u32,
}

/// A plan by job number, FFFF for none: the partner, and of the layouts that both accept, other than
/// 0, the highest and the deepest, which is printed.
#[derive(Clone, Debug, PartialEq, Eq)]
pub struct Plan {
    pub partners: Vec<u16>,
    pub uppers: Vec<u16>,
    pub printed: Vec<u16>,
    pub totals: Totals,
}

/// The results of *Plan*, a cell for each job.
#[derive(Clone, Copy, Debug)]
pub struct Results<'a> {
    pub partners: &'a [u16],
    pub uppers: &'a [u16],
    pub printed: &'a [u16],
}

impl Plan {
    pub fn results(&self) -> Results<'_> {
        Results {
            partners: &self.partners,
            uppers: &self.uppers,
            printed: &self.printed,
        }
    }
}

/// The lengths of the results and the work cells lent to *Plan*.
#[derive(Clone, Copy, Debug)]
pub struct Room {
    pub partners: usize,
    pub uppers: usize,
    pub printed: usize,
    pub work: usize,
}

impl Room {
    /// What *Plan* asks for.
    pub fn exact(table: &Table) -> Room {
        Room {
            partners: table.jobs(),
            uppers: table.jobs(),
            printed: table.jobs(),
            work: WORK_CELLS,
        }
    }
}

/// *Plan*, as to answer and numbers.
pub fn plan(table: &Table, room: Room) -> Result<Plan, Refusal> {
    refuse_lengths(table, room)?;
    if LAYOUT_LIMIT < table.layouts() || JOB_LIMIT < table.jobs() {
        return refuse(3, 0);
    }
    refuse_wrong_parents(&table.parents)?;
    for job in 0..table.jobs() {
        if let Some(number) = job_fault(table, job) {
            return refuse(number, job);
        }
    }
    Ok(plan_of(table))
}

/// Refusal 8: unequal lengths, short results, few work cells.
fn refuse_lengths(table: &Table, room: Room) -> Result<(), Refusal> {
    let jobs = table.tops.len();
    let columns = [table.bottoms.len(), table.marks.len(), table.windows.len()];
    let equal = columns.iter().all(|&column| column == jobs);
    let results = [room.partners, room.uppers, room.printed];
    let long = results.iter().all(|&result| jobs <= result);
    if equal && long && WORK_CELLS <= room.work {
        Ok(())
    } else {
        refuse(8, 0)
    }
}

/// The number of a job's refusal: 5, a top or bottom that is no layout; 6, a bottom not at or below its
/// top; 9, a window beyond the last one.
pub fn job_fault(table: &Table, job: usize) -> Option<u16> {
    let (top, bottom) = (table.tops[job], table.bottoms[job]);
    let is_layout = |number: u16| usize::from(number) < table.layouts();
    if !is_layout(top) || !is_layout(bottom) {
        return Some(5);
    }
    if !is_ancestor(&table.parents, top, bottom) {
        return Some(6);
    }
    (WINDOW_LIMIT <= usize::from(table.windows[job])).then_some(9)
}

/// The running order: the deeper highest layout first, equal depths by smaller job number. A bare
/// job has depth 0.
pub fn running_order(table: &Table) -> Vec<usize> {
    let jobs = 0..table.jobs();
    let depths: Vec<usize> = jobs.map(|job| depth_of_highest(table, job)).collect();
    let mut order: Vec<usize> = (0..table.jobs()).collect();
    order.sort_by(|&a, &b| depths[b].cmp(&depths[a]).then(a.cmp(&b)));
    order
}

/// Whether a job makes no lookup and always runs alone: a solo job, and a bare one.
pub fn asks_nobody(table: &Table, job: usize) -> bool {
    table.solo(job) || is_bare(table, job)
}

/// The plan of a table that is not refused.
pub fn plan_of(table: &Table) -> Plan {
    let order = running_order(table);
    let matching = greedy_matching(table, &order, &own_paths(table));
    let slots = Slots::new(table, &order);
    let lookups = matching.lookups.iter();
    let visits = lookups.map(|&job| slots.visits(job)).sum();
    with_totals(table, matching.partners, visits)
}

/// Who is paired with whom, and which jobs made a lookup.
struct Matching {
    partners: Vec<Option<usize>>,
    lookups: Vec<usize>,
}

fn greedy_matching(table: &Table, order: &[usize], paths: &[Path]) -> Matching {
    let mut partners = vec![None; table.jobs()];
    let mut lookups = Vec::new();
    for (rank, &job) in order.iter().enumerate() {
        if asks_nobody(table, job) || partners[job].is_some() {
            continue;
        }
        lookups.push(job);
        let free = |other: usize| !table.solo(other) && partners[other].is_none();
        let fits = |&other: &usize| {
            free(other) && table.same_window(job, other) && paths[job].meets(&paths[other])
        };
        let found = order[rank + 1..].iter().copied().find(fits);
        if let Some(other) = found {
            partners[job] = Some(other);
            partners[other] = Some(job);
        }
    }
    Matching { partners, lookups }
}

/// Of a job and the path of another, one of the layouts that are on both.
type Shared = fn(&Table, usize, &Path) -> Option<u16>;

/// A matching written as *Plan* writes it, each pair with both ends of what it shares, and its
/// totals.
pub fn with_totals(table: &Table, partners: Vec<Option<usize>>, visits: u32) -> Plan {
    let paths = own_paths(table);
    let of_pairs = |shared: Shared| {
        let cells = partners.iter().enumerate().map(|(job, partner)| {
            let layout = partner.and_then(|other| shared(table, job, &paths[other]));
            layout.unwrap_or(ABSENT)
        });
        cells.collect()
    };
    let paired = partners.iter().flatten().count();
    Plan {
        uppers: of_pairs(highest_shared),
        printed: of_pairs(deepest_shared),
        partners: partners.iter().map(as_cell).collect(),
        totals: Totals {
            pairs: (paired / 2) as u16,
            singles: (table.jobs() - paired) as u16,
            visits,
        },
    }
}

fn as_cell(partner: &Option<usize>) -> u16 {
    partner.map_or(ABSENT, |job| job as u16)
}

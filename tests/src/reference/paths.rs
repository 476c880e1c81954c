//! Paths of jobs and sharing by definition: two jobs share if some layout other than 0 is on both
//! paths.

use super::tree::{ancestors, depth};
use super::{Table, LAYOUT_LIMIT};

const WORDS: usize = LAYOUT_LIMIT / 64;

/// The layout on which no pair prints: the head of the tree.
pub const BARE_SHEET: u16 = 0;

/// The layouts of a path as a set, so that full tables can be compared pair by pair.
#[derive(Clone)]
pub struct Path {
    words: [u64; WORDS],
}

impl Path {
    fn of(layouts: Vec<u16>) -> Path {
        let mut path = Path { words: [0; WORDS] };
        for layout in layouts {
            let layout = usize::from(layout);
            path.words[layout / 64] |= 1 << (layout % 64);
        }
        path
    }

    pub fn contains(&self, layout: u16) -> bool {
        let layout = usize::from(layout);
        self.words[layout / 64] >> (layout % 64) & 1 == 1
    }

    pub fn meets(&self, other: &Path) -> bool {
        (0..WORDS).any(|at| self.words[at] & other.words[at] != 0)
    }
}

/// Every layout from bottom up to top, in this order.
pub fn walk(parents: &[u16], top: u16, bottom: u16) -> Vec<u16> {
    let mut layouts = ancestors(parents, bottom);
    let above = layouts.iter().position(|&layout| layout == top);
    layouts.truncate(above.expect("the bottom is at or below the top") + 1);
    layouts
}

/// A job's path, from bottom up to top.
pub fn walk_of(table: &Table, job: usize) -> Vec<u16> {
    walk(&table.parents, table.tops[job], table.bottoms[job])
}

/// A job's own path: its path without layout 0, from the bottom up.
pub fn own_walk(table: &Table, job: usize) -> Vec<u16> {
    let mut layouts = walk_of(table, job);
    layouts.retain(|&layout| layout != BARE_SHEET);
    layouts
}

/// The path of each job, layout 0 included.
pub fn whole_paths(table: &Table) -> Vec<Path> {
    let jobs = 0..table.jobs();
    jobs.map(|job| Path::of(walk_of(table, job))).collect()
}

/// The own path of each job: two jobs share if these meet.
pub fn own_paths(table: &Table) -> Vec<Path> {
    let jobs = 0..table.jobs();
    jobs.map(|job| Path::of(own_walk(table, job))).collect()
}

/// The highest layout other than 0 on a job's path; a job 0-0 has none.
pub fn highest(table: &Table, job: usize) -> Option<u16> {
    own_walk(table, job).last().copied()
}

/// Whether a job is bare: top and bottom are layout 0, on which no pair prints.
pub fn is_bare(table: &Table, job: usize) -> bool {
    own_walk(table, job).is_empty()
}

/// The depth that the running order goes by: that of the highest layout, 0 for a bare job.
pub fn depth_of_highest(table: &Table, job: usize) -> usize {
    highest(table, job).map_or(0, |layout| depth(&table.parents, layout))
}

/// The highest layout other than 0 on both paths: the first one met going down to the bottom of
/// `job`.
pub fn highest_shared(table: &Table, job: usize, other: &Path) -> Option<u16> {
    own_walk(table, job)
        .into_iter()
        .rev()
        .find(|&layout| other.contains(layout))
}

/// The deepest layout other than 0 on both paths: the first one met going up from the bottom of
/// `job`.
pub fn deepest_shared(table: &Table, job: usize, other: &Path) -> Option<u16> {
    own_walk(table, job)
        .into_iter()
        .find(|&layout| other.contains(layout))
}

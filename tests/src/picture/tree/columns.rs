//! Where the leaves of the tree and the bars of the jobs stand from left to right.

use super::{GAP, LABEL};
use crate::picture::planned::Planned;

/// The room at the right of a column.
const PAD: i32 = 2;
/// From bar to bar: as wide as the panel allows, within bounds.
const PITCH: (i32, i32) = (24, 64);
const WIDTH: i32 = 420;

pub struct Columns {
    /// Of each leaf the left end of its column; last the right end of the last.
    lefts: Vec<i32>,
    /// The middle of each job's bar, by job.
    pub bars: Vec<i32>,
    pub end: i32,
}

impl Columns {
    pub fn new(planned: &Planned, from: i32) -> Columns {
        let leaves = 1 + usize::from(planned.tree.lasts[0]);
        let mut columns = Columns {
            lefts: Vec::new(),
            bars: vec![0; planned.order.len()],
            end: from,
        };
        let pitch = pitch(leaves, planned.order.len());
        for leaf in 0..leaves {
            columns.add(planned, leaf, pitch);
        }
        columns.lefts.push(columns.end);
        columns.end -= GAP;
        columns
    }

    /// The column of one leaf, with the bars of the jobs there by place, whatever their window.
    fn add(&mut self, planned: &Planned, leaf: usize, pitch: i32) {
        self.lefts.push(self.end);
        self.end += LABEL;
        for &job in planned
            .order
            .iter()
            .filter(|&&job| planned.leaf(job) == leaf)
        {
            self.bars[job] = self.end + pitch / 2;
            self.end += pitch;
        }
        self.end += PAD + GAP;
    }

    /// The left end and the width of a layout's box.
    pub fn of_layout(&self, planned: &Planned, layout: usize) -> (i32, i32) {
        let left = self.lefts[usize::from(planned.tree.firsts[layout])];
        let right = self.lefts[usize::from(planned.tree.lasts[layout]) + 1] - GAP;
        (left, right - left)
    }
}

/// From bar to bar so that the panel gets its width.
fn pitch(leaves: usize, jobs: usize) -> i32 {
    let fixed = leaves as i32 * (LABEL + PAD + GAP);
    let wanted = (WIDTH - fixed) / (jobs as i32).max(1);
    wanted.clamp(PITCH.0, PITCH.1)
}

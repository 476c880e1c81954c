//! A second implementation of the planner, written from document 01's definitions, as document 02's
//! requests have changed them (2026-01, the bare sheet; 2026-02, both ends of what they share;
//! 2026-04, layouts after jobs; 2026-05, printing windows; 2026-07, rolls three and more across), and
//! compared with the proved one. It is slow on purpose: nothing that it plans with uses a sweep, a
//! segment tree, or Theorem 6. The module `sweep` tells the sweep's turns, with a shelf for each window,
//! and its plan is compared with the other.

pub mod full_groupings;
pub mod groups;
pub mod paths;
pub mod plan;
pub mod rivals;
pub mod run;
pub mod shelf;
pub mod stretch;
pub mod sweep;
pub mod table;
pub mod tree;
pub mod visits;

use std::collections::BTreeSet;

/// FFFF: no layout, no job.
pub const ABSENT: u16 = 0xFFFF;
pub const LAYOUT_LIMIT: usize = 1024;
pub const JOB_LIMIT: usize = 4096;
/// Windows are numbered from 0 to 15.
pub const WINDOW_LIMIT: usize = 16;
/// The work cells that *Plan* asks for.
pub const WORK_CELLS: usize = 32_768;
/// The output bytes that the whole run asks for.
pub const OUTPUT_BYTES: usize = 40_960;

/// Why an input is refused ("What each operation turns away").
#[derive(Clone, Copy, Debug, PartialEq, Eq)]
pub struct Refusal {
    pub number: u16,
    pub place: u16,
}

pub fn refuse<T>(number: u16, place: usize) -> Result<T, Refusal> {
    let place = u16::try_from(place).expect("a place fits 16 bits");
    Err(Refusal { number, place })
}

/// The numbers of a table: one parent a layout; one top, bottom, solo mark and window a job.
#[derive(Clone, Debug, Default, PartialEq, Eq)]
pub struct Table {
    pub parents: Vec<u16>,
    pub tops: Vec<u16>,
    pub bottoms: Vec<u16>,
    pub marks: Vec<u8>,
    pub windows: Vec<u8>,
}

impl Table {
    pub fn layouts(&self) -> usize {
        self.parents.len()
    }

    pub fn jobs(&self) -> usize {
        self.tops.len()
    }

    /// A job whose line names no window: that means window 0.
    pub fn add_job(&mut self, top: u16, bottom: u16, mark: u8) {
        self.add_job_in(0, top, bottom, mark);
    }

    pub fn add_job_in(&mut self, window: u8, top: u16, bottom: u16, mark: u8) {
        self.tops.push(top);
        self.bottoms.push(bottom);
        self.marks.push(mark);
        self.windows.push(window);
    }

    /// A mark other than 0 counts as solo.
    pub fn solo(&self, job: usize) -> bool {
        self.marks[job] != 0
    }

    /// Whether two jobs are in one window, as partners must be.
    pub fn same_window(&self, job: usize, other: usize) -> bool {
        self.windows[job] == self.windows[other]
    }

    /// The windows that have jobs, in order.
    pub fn windows_used(&self) -> BTreeSet<u8> {
        self.windows.iter().copied().collect()
    }
}

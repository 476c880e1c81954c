//! The search for what no plan may have, in every answer that is checked: layout 0 as the layout printed
//! or as the highest that two jobs share (2026-01, 2026-02), and a pair of two windows (2026-05). None
//! may be found. What was searched is counted, so that it shows whether a planner could have gone
//! wrong there.

use crate::reference::paths::BARE_SHEET;
use crate::reference::plan::Results;
use crate::reference::rivals::pairs_of;
use crate::reference::{Table, WINDOW_LIMIT};
use std::cell::RefCell;
use std::collections::BTreeSet;

#[derive(Default)]
pub struct Search {
    seen: RefCell<Seen>,
}

/// What a search has seen so far.
#[derive(Clone, Debug, Default)]
pub struct Seen {
    /// By the number of windows that have jobs.
    pub plans: [u64; WINDOW_LIMIT + 1],
    pub pairs: u64,
    /// Jobs whose top is layout 0, those whose bottom is too, and solo jobs.
    pub tops_0: u64,
    pub bare_jobs: u64,
    pub solo_jobs: u64,
    /// The first plan with layout 0 at either end of what a pair shares, and the first with a pair of
    /// two windows, in words.
    pub on_layout_0: Option<String>,
    pub across_windows: Option<String>,
}

impl Search {
    pub fn seen(&self) -> Seen {
        self.seen.borrow().clone()
    }

    /// Searches a plan as *Plan* gives it: partner, upper and printed layout by job.
    pub fn plan(&self, table: &Table, results: Results) {
        let mut seen = self.seen.borrow_mut();
        seen.add_plan(&table.windows);
        for job in 0..table.jobs() {
            let (top, bottom) = (table.tops[job], table.bottoms[job]);
            seen.add_job(top == BARE_SHEET, bottom == BARE_SHEET, table.solo(job));
        }
        for (job, other) in pairs_of(results.partners) {
            seen.add_pair(&table.windows, job, other);
        }
        for (name, cells) in [("upper", results.uppers), ("printed", results.printed)] {
            if let Some(job) = cells.iter().position(|&layout| layout == BARE_SHEET) {
                let (layouts, jobs) = (table.layouts(), table.jobs());
                let words = format!("{name}: job {job} of {jobs} on {layouts} layouts");
                seen.on_layout_0.get_or_insert(words);
            }
        }
    }

    /// Searches what a whole run writes for a table's bytes. A refusal is no plan.
    pub fn lines(&self, input: &[u8], output: &[u8]) {
        if !output.ends_with(b"\n") || output.starts_with(b"1E") {
            return;
        }
        let mut seen = self.seen.borrow_mut();
        let mut windows = Vec::new();
        for line in lines_of(input) {
            if let [b'0', kind @ (b'2' | b'4' | b'5'), fields @ ..] = line {
                let (path, window) = fields.split_at(8);
                seen.add_job(&path[..4] == b"0000", path == b"00000000", *kind == b'4');
                windows.push(number(window) as u8);
            }
        }
        seen.add_plan(&windows);
        for line in lines_of(output).filter(|line| line.starts_with(b"11")) {
            let field = |at: usize| line.get(at..at + 4).unwrap_or_default();
            seen.add_pair(&windows, number(field(2)), number(field(6)));
            if [field(10), field(14)].contains(&&b"0000"[..]) {
                let words = format!("the line {}", String::from_utf8_lossy(line));
                seen.on_layout_0.get_or_insert(words);
            }
        }
    }
}

impl Seen {
    fn add_plan(&mut self, windows: &[u8]) {
        let used: BTreeSet<&u8> = windows.iter().collect();
        self.plans[used.len()] += 1;
    }

    fn add_job(&mut self, top_is_0: bool, bare: bool, solo: bool) {
        self.tops_0 += u64::from(top_is_0);
        self.bare_jobs += u64::from(bare);
        self.solo_jobs += u64::from(solo);
    }

    fn add_pair(&mut self, windows: &[u8], job: usize, other: usize) {
        self.pairs += 1;
        if windows.get(job) != windows.get(other) {
            let words = format!("jobs {job} and {other} of {windows:?}");
            self.across_windows.get_or_insert(words);
        }
    }
}

/// The number of some digits; 0 for none.
fn number(digits: &[u8]) -> usize {
    let text = String::from_utf8_lossy(digits);
    usize::from_str_radix(&text, 16).unwrap_or(0)
}

fn lines_of(bytes: &[u8]) -> impl Iterator<Item = &[u8]> {
    bytes.split(|&byte| byte == b'\n')
}

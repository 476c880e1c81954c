//! A table's lines with layouts and jobs in any mixture (2026-04): each kind keeps its own order, so
//! that the numbers stay the same, and the end stands last. A job of window 0 may have its window
//! written or not (2026-05).

use super::Generator;
use crate::reference::table::{end_line, frame_line, job_frame, job_lines, layout_lines, Frame};
use crate::reference::Table;

/// What the next line holds.
#[derive(Clone, Copy, Debug, PartialEq, Eq)]
pub enum Kind {
    Layout,
    Job,
}

/// The table's lines, of the kinds given one by one.
pub fn lines_mixed(table: &Table, kinds: &[Kind]) -> Vec<Vec<u8>> {
    mixed(table, job_lines(table), kinds)
}

/// The same with the lines of the jobs given.
fn mixed(table: &Table, jobs: Vec<Vec<u8>>, kinds: &[Kind]) -> Vec<Vec<u8>> {
    let mut layouts = layout_lines(table).into_iter();
    let mut jobs = jobs.into_iter();
    let next = |kind: &Kind| match kind {
        Kind::Layout => layouts.next(),
        Kind::Job => jobs.next(),
    };
    let mut lines: Vec<Vec<u8>> = kinds.iter().filter_map(next).collect();
    lines.extend(layouts);
    lines.extend(jobs);
    lines.push(end_line(table));
    lines
}

/// The table's lines in some mixture: layouts first, jobs first, by turns, or in runs of any length.
pub fn any_lines(table: &Table, generator: &mut Generator) -> Vec<Vec<u8>> {
    let change_in = generator.choice(&[1, 2, 3, 16, 256, usize::MAX, usize::MAX]);
    let mut kind = generator.choice(&[Kind::Layout, Kind::Job]);
    let kinds = (0..table.layouts() + table.jobs()).map(|_| {
        if generator.one_in(change_in) {
            kind = other(kind);
        }
        kind
    });
    let kinds: Vec<Kind> = kinds.collect();
    mixed(table, any_job_lines(table, generator), &kinds)
}

/// The lines of the jobs: of window 0 with 05 where it is written, else with 02, all or some of them.
fn any_job_lines(table: &Table, generator: &mut Generator) -> Vec<Vec<u8>> {
    let written_in = generator.choice(&[1, 2, 16, usize::MAX, usize::MAX, usize::MAX]);
    let line = |job| match job_frame(table, job) {
        Frame::Job { top, bottom } if generator.one_in(written_in) => windowed_line(top, bottom, 0),
        frame => frame_line(frame),
    };
    (0..table.jobs()).map(line).collect()
}

/// A line 05.
pub fn windowed_line(top: u16, bottom: u16, window: u8) -> Vec<u8> {
    frame_line(Frame::Windowed {
        top,
        bottom,
        window,
    })
}

/// Every mixture of so many layouts and jobs.
pub fn mixtures(layouts: usize, jobs: usize) -> Vec<Vec<Kind>> {
    if layouts == 0 || jobs == 0 {
        let mut kinds = vec![Kind::Layout; layouts];
        kinds.resize(layouts + jobs, Kind::Job);
        return vec![kinds];
    }
    let ending = |kind: Kind, fronts: Vec<Vec<Kind>>| {
        let ended = move |front: Vec<Kind>| [front, vec![kind]].concat();
        fronts.into_iter().map(ended).collect::<Vec<_>>()
    };
    let mut all = ending(Kind::Layout, mixtures(layouts - 1, jobs));
    all.extend(ending(Kind::Job, mixtures(layouts, jobs - 1)));
    all
}

fn other(kind: Kind) -> Kind {
    match kind {
        Kind::Layout => Kind::Job,
        Kind::Job => Kind::Layout,
    }
}

//! Tables on both sides of the borders that the code has and document 01 and 02 have not: how far ahead
//! the next place of a window is told, in how many cells the slots are sorted, for how many slots places
//! are tried in turn and how many, what is reached, how many nodes of the segment tree stand side by
//! side, and how many bytes a run takes in which arrays.

use super::tables::{path, table_of_shape, Reach, Shape, Size};
use super::windows::{spread, Spread};
use super::Generator;
use crate::reference::{Table, ABSENT, LAYOUT_LIMIT, WINDOW_LIMIT};

/// The tables of all borders but that of bytes.
pub fn borders() -> Vec<Table> {
    [gaps(), keys(), spans(), reached(), widths()].concat()
}

fn with_parents(parents: &[u16]) -> Table {
    Table {
        parents: parents.to_vec(),
        ..Table::default()
    }
}

/// A gap of less than 256 is told. In window 1 three jobs, the second so many places behind the first, and
/// between these jobs of two other windows; the first takes the second, or, where this is on another
/// branch, the third.
fn gaps() -> Vec<Table> {
    let apart = |gap: usize, second: u16| {
        let mut table = with_parents(&[ABSENT, 0, 0]);
        table.add_job_in(1, 1, 1, 0);
        for job in 1..gap {
            table.add_job_in([0, 2][job % 2], 1, 1, 0);
        }
        table.add_job_in(1, second, second, 0);
        table.add_job_in(1, 1, 1, 0);
        table
    };
    let gaps = [1, 2, 254, 255, 256, 257, 301, 511, 512, 513, 4094];
    let tables = gaps.map(|gap| [apart(gap, 1), apart(gap, 2)]);
    tables.concat()
}

/// Windows × leaves + 1 keys, which are sorted in 1,025 cells where these are enough: 1,024 to 1,027, and
/// the most that there can be.
fn keys() -> Vec<Table> {
    let sizes = [
        [(1, 1_023), (3, 341), (11, 93)].as_slice(),
        &[(2, 512), (4, 256), (8, 128), (16, 64)],
        &[(5, 205)],
        &[(2, 513), (6, 171), (9, 114)],
        &[(WINDOW_LIMIT, LAYOUT_LIMIT - 1)],
    ];
    let tables = sizes.concat().into_iter();
    tables
        .map(|(windows, leaves)| of_keys(windows, leaves))
        .collect()
}

/// So many windows and leaves, all below one layout, where there may be one more. In each window two jobs are
/// on the first leaf and two on the last, others are anywhere.
fn of_keys(windows: usize, leaves: usize) -> Table {
    let generator = &mut Generator::new(1);
    let mut table = with_parents(&[ABSENT, 0]);
    table.parents.truncate(LAYOUT_LIMIT - leaves);
    let head = table.layouts() - 1;
    table.parents.resize(head + 1 + leaves, head as u16);
    let ends = [head + 1, head + leaves].map(|leaf| leaf as u16);
    for leaf in ends.repeat(2) {
        for window in 0..windows {
            table.add_job_in(window as u8, leaf, leaf, 0);
        }
    }
    for _ in 0..600 {
        let (top, bottom) = path(&table.parents, Reach::Any, generator);
        table.add_job_in(generator.below(windows) as u8, top, bottom, 0);
    }
    table
}

/// What stands between a job and the first that waits in its span.
#[derive(Clone, Copy)]
enum Between {
    /// Jobs of its window, on another branch.
    Apart,
    /// Jobs of another window.
    Other,
    /// One and the other by turns.
    Turns,
    /// Solo jobs in the span.
    Solo,
}

/// In a span of 256 slots or more eight places are tried. The first job asks for so many slots, and the
/// next that waits there is so many places behind it.
fn spans() -> Vec<Table> {
    use Between::{Apart, Other, Solo, Turns};
    let mut tables = Vec::new();
    for slots in [255, 256, 257, 1_000] {
        for behind in [1, 2, 7, 8, 9, 10, 11] {
            let table = |between| of_span(slots, behind, between);
            tables.extend([Apart, Other, Turns, Solo].map(table));
        }
    }
    tables
}

/// The highest layouts 1 and 3 are of one depth, so the running order is that of the numbers; all jobs with
/// bottom 2 are in the span of layout 1.
fn of_span(slots: usize, behind: usize, between: Between) -> Table {
    let mut table = with_parents(&[ABSENT, 0, 1, 0]);
    table.add_job_in(0, 1, 2, 0);
    for job in 1..behind {
        match between {
            Between::Apart => table.add_job_in(0, 3, 3, 0),
            Between::Other => table.add_job_in(1, 1, 2, 0),
            Between::Turns => table.add_job_in((job % 2) as u8, 3, 3, 0),
            Between::Solo => table.add_job_in(0, 1, 2, 1),
        }
    }
    let in_span = |table: &Table| {
        let jobs = table.bottoms.iter().zip(&table.windows);
        jobs.filter(|job| *job == (&2, &0)).count()
    };
    while in_span(&table) < slots {
        table.add_job_in(0, 1, 2, 0);
    }
    table
}

/// The first job asks before any other of its window is reached, or where one is; what was reached last, of
/// another window, stands before the next of its own or behind it. On a chain all slots are asked for,
/// few or many.
fn reached() -> Vec<Table> {
    let mut tables = Vec::new();
    for others in [0, 1, 2, 300] {
        for many in [1, 2, 254, 255, 256] {
            for (bottom, behind) in [(1, 0), (1, 1), (2, 0), (2, 1)] {
                let mut table = with_parents(&[ABSENT, 0, 1]);
                table.add_job_in(1, 2, 2, 0);
                (0..others).for_each(|_| table.add_job_in(0, 2, 2, 0));
                table.add_job_in(1, 1, bottom, 0);
                (0..behind).for_each(|_| table.add_job_in(0, 1, 2, 0));
                (0..many).for_each(|_| table.add_job_in(1, 1, 1, 0));
                tables.push(table);
            }
        }
    }
    tables
}

/// As many jobs as a level of the segment tree has nodes, and one more.
fn widths() -> Vec<Table> {
    let jobs = [256, 512, 1_024, 2_048].map(|jobs| [jobs, jobs + 1]);
    let of_jobs = |jobs: usize| {
        let generator = &mut Generator::new(1);
        let layouts = 300;
        let size = Size { layouts, jobs };
        let mut table = table_of_shape(Shape::Random, Reach::Any, size, generator);
        spread(&mut table, Spread::First(3), generator);
        table
    };
    jobs.concat().into_iter().map(of_jobs).collect()
}

/// A run of at most 1,408 bytes, and one of at most 11,264, goes in smaller arrays. Beside each border a
/// table of so many bytes, with a window on every line of a job and on none.
pub fn of_lengths() -> Vec<(usize, Table)> {
    let lengths = [1_407, 1_408, 1_409, 11_263, 11_264, 11_265];
    let of_length = |length| [true, false].map(|windows| (length, of_length(length, windows)));
    lengths.map(of_length).concat()
}

/// A line of a layout has 7 bytes, that of a job with its window 13, each other one 11.
fn of_length(length: usize, windows: bool) -> Table {
    let generator = &mut Generator::new(length as u64);
    let line = if windows { 13 } else { 11 };
    let bytes = |layouts: &usize| length - 11 - 7 * layouts;
    let layouts = (2..).find(|layouts| bytes(layouts) % line == 0);
    let layouts = layouts.expect("7 has no divisor in common with a line of a job");
    let jobs = bytes(&layouts) / line;
    let size = Size { layouts, jobs };
    let mut table = table_of_shape(Shape::Random, Reach::Any, size, generator);
    if windows {
        let window = |_| generator.between(1, WINDOW_LIMIT - 1) as u8;
        table.windows = (0..jobs).map(window).collect();
    }
    table
}

//! The tree with its jobs. A layout is a box over its leaves, and its children stand below it. A
//! job is a bar in the column of its bottom's first leaf: there the boxes from the depth of its
//! bottom up to that of its top are just its path. A pair is tied by a rung in the box of the
//! layout that it prints on, and by a dashed one in that of the barest layout that does, where that is
//! another. The box of layout 0, on which no pair prints, is white and dashed. Where the jobs are in
//! windows, each bar has a tag with its window.

mod columns;
mod rungs;

use super::chips::{below_plate, job_shape, tag, TAG};
use super::markup::Element;
use super::planned::Planned;
use super::shapes::{group, line, rectangle, text, text_width, Area, Panel, Point};
use columns::Columns;
use rungs::Rungs;

/// The room at the left of a column for the numbers of the layouts that begin there.
const LABEL: i32 = 24;
const BAR: i32 = 18;
/// The height of the panel's heading.
const HEADING: i32 = 26;
/// From row to row, where the edges of the tree are seen.
const GAP: i32 = 6;
/// The upper part of a row, with the layout's number and the numbers of the bars that begin there.
const HEAD: i32 = 24;
/// The part of a row for one rung.
const RUNG: i32 = 22;
const FOOT: i32 = 10;

/// The class of the box of layout 0.
pub const BARE_SHEET: &str = "box bare-sheet";

const HEADING_WORDS: &str = "layouts, and each job along its path";

/// The panel with its upper left corner at a point.
pub fn draw(planned: &Planned, at: Point) -> Panel {
    let columns = Columns::new(planned, at.x);
    let rungs = Rungs::new(planned, &columns);
    let rows = Rows::new(planned, &rungs, at.y + HEADING);
    let width = (columns.end - at.x).max(text_width(HEADING_WORDS));
    let height = rows.end - at.y;
    let drawing = group("tree")
        .holding(text("heading", at.shifted(0, 14), HEADING_WORDS))
        .holding(boxes(planned, &columns, &rows))
        .holding(rungs.lines(&columns, &rows))
        .holding(bars(planned, &columns, &rows))
        .holding(rungs.ends(&columns, &rows));
    Panel {
        drawing,
        width,
        height,
    }
}

/// Where the rows of the tree stand, by depth.
struct Rows {
    tops: Vec<i32>,
    /// The lower end of each row.
    feet: Vec<i32>,
    end: i32,
}

impl Rows {
    fn new(planned: &Planned, rungs: &Rungs, from: i32) -> Rows {
        let deepest = planned
            .tree
            .depths
            .iter()
            .max()
            .map_or(0, |&depth| usize::from(depth));
        let mut rows = Rows {
            tops: Vec::new(),
            feet: Vec::new(),
            end: from,
        };
        for depth in 0..=deepest {
            let height = head(planned) + rungs.in_row(depth) * RUNG + FOOT;
            rows.tops.push(rows.end);
            rows.feet.push(rows.end + height);
            rows.end += height + GAP;
        }
        rows.end -= GAP;
        rows
    }
}

/// The height of a row's upper part, with the tags of the bars too where there are any.
fn head(planned: &Planned) -> i32 {
    match planned.has_windows() {
        true => HEAD + TAG,
        false => HEAD,
    }
}

fn boxes(planned: &Planned, columns: &Columns, rows: &Rows) -> Element {
    let layouts = 0..planned.table.layouts();
    group("layouts").holding_all(layouts.map(|layout| layout_box(planned, columns, rows, layout)))
}

/// A layout's box with its number, and the edge up to its parent.
fn layout_box(planned: &Planned, columns: &Columns, rows: &Rows, layout: usize) -> Element {
    let depth = usize::from(planned.tree.depths[layout]);
    let (x, width) = columns.of_layout(planned, layout);
    let (y, foot) = (rows.tops[depth], rows.feet[depth]);
    let area = Area {
        x,
        y,
        width,
        height: foot - y,
    };
    let at = |right: i32, down: i32| Point { x, y }.shifted(right, down);
    let class = if layout == 0 { BARE_SHEET } else { "box" };
    let drawn = group("layout")
        .with("data-layout", layout)
        .holding(rectangle(class, area).with("rx", 3))
        .holding(text("number heading", at(6, 17), layout));
    match depth {
        0 => drawn,
        _ => drawn.holding(line("edge", at(LABEL / 2, -GAP), at(LABEL / 2, 0))),
    }
}

fn bars(planned: &Planned, columns: &Columns, rows: &Rows) -> Element {
    let jobs = 0..planned.order.len();
    group("bars").holding_all(jobs.map(|job| {
        let area = bar(planned, columns, rows, job);
        let tag = planned
            .window(job)
            .map(|window| tag(window, below_plate(area)));
        job_shape(planned, job, area, "job").holding_all(tag)
    }))
}

/// From the row of the job's top to that of its bottom.
fn bar(planned: &Planned, columns: &Columns, rows: &Rows, job: usize) -> Area {
    let (top, bottom) = (planned.table.tops[job], planned.table.bottoms[job]);
    let y = rows.tops[planned.depth(top)] + 4;
    let foot = rows.feet[planned.depth(bottom)] - 5;
    Area {
        x: columns.bars[job] - BAR / 2,
        y,
        width: BAR,
        height: foot - y,
    }
}

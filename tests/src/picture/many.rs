//! The passes alone, in columns, where the tree and its jobs would be too many to read.

use super::chips::{job_shape, CHIP_HEIGHT};
use super::markup::Element;
use super::planned::{Pass, Planned};
use super::shapes::{group, text, text_width, Area, Panel, Point};

const ROW: i32 = 24;
/// A column: the pass's number, two lanes and the layouts.
const NUMBER: i32 = 40;
const CHIP: i32 = 44;
const LAYOUTS: i32 = NUMBER + 2 * CHIP + 12;
/// The width of a column at least, and the room at its right.
const LEAST_COLUMN: i32 = 236;
const GAP: i32 = 8;

/// The panel with its upper left corner at a point.
pub fn draw(planned: &Planned, at: Point, cut: Option<usize>) -> Panel {
    let column = column(planned);
    let rows = rows(planned.passes.len(), column);
    let mut drawing = group("passes");
    for (place, pass) in planned.passes.iter().enumerate() {
        let corner = at.shifted((place / rows) as i32 * column, (place % rows) as i32 * ROW);
        let behind = cut.is_some_and(|cut| !planned.is_in_front(pass, cut));
        let mark = if behind { "pass behind" } else { "pass" };
        drawing.push(row(planned, pass, corner, mark));
    }
    Panel {
        drawing,
        width: planned.passes.len().div_ceil(rows) as i32 * column,
        height: rows.min(planned.passes.len()) as i32 * ROW,
    }
}

/// The width of a column: that of the longest row.
fn column(planned: &Planned) -> i32 {
    let words = planned.passes.iter().filter_map(|pass| planned.words(pass));
    let widths = words.map(|words| LAYOUTS + text_width(&words) + GAP);
    widths.max().unwrap_or(0).max(LEAST_COLUMN)
}

/// As many rows in a column that the sheet is about half as high again as a slide's 9 to 16.
fn rows(passes: usize, column: i32) -> usize {
    let per_column = f64::from(column) / f64::from(ROW) * 0.6 * passes as f64;
    (per_column.sqrt() as usize).max(1)
}

fn row(planned: &Planned, pass: &Pass, corner: Point, mark: &str) -> Element {
    let at = |right: i32| corner.shifted(right, 14);
    let lane = |job: usize, right: i32| {
        let area = Area {
            x: corner.x + right,
            y: corner.y,
            width: CHIP,
            height: CHIP_HEIGHT,
        };
        job_shape(planned, job, area, "job")
    };
    let row = group(mark)
        .with("data-pass", pass.number)
        .holding(text("number faint right", at(NUMBER - 8), pass.number))
        .holding(lane(pass.opener, NUMBER));
    let row = match pass.partner {
        Some(partner) => row
            .with("data-layout", partner.printed)
            .with("data-upper", partner.upper)
            .holding(lane(partner.job, NUMBER + CHIP + 4)),
        None => row,
    };
    let words = planned.words(pass);
    row.holding_all(words.map(|words| text("", at(LAYOUTS), words)))
}

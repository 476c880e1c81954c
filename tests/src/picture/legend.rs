//! What the shapes of a picture mean, in one or more lines under it. Only what the picture holds is
//! explained.

use super::chips::{badge, dashed_badge, sample, tag, CHIP_HEIGHT};
use super::markup::Element;
use super::planned::{Planned, Role};
use super::shapes::{circle, group, line, rectangle, text, Area, Panel, Point};
use super::tree::BARE_SHEET;

const LINE: i32 = 30;
/// The width of an entry, and of its sample.
const ENTRY: i32 = 330;
const SAMPLE: i32 = 36;

/// An entry: how its sample is drawn, the left end of its middle line given, and its words.
pub type Entry = (fn(Point) -> Element, &'static str);

const LAYOUT_0: Entry = (
    |at| box_sample(BARE_SHEET, at),
    "layout 0: no pair prints on it",
);
const LAYOUT: Entry = (
    |at| box_sample("box", at),
    "layout: its children stand below it",
);
const LANE_ONE: Entry = (
    |at| chip(Role::LaneOne, at),
    "lane 1: the earlier job of a pair",
);
const LANE_TWO: Entry = (
    |at| chip(Role::LaneTwo, at),
    "lane 2: the later job of a pair",
);
const SINGLE: Entry = (|at| chip(Role::Single, at), "alone: no partner");
const SOLO: Entry = (
    |at| chip(Role::Solo, at),
    "solo job: alone as the table asks",
);
const RUNG: Entry = (rung_sample, "pass with its number: layout printed");
const BAREST: Entry = (barest_sample, "dashed: the barest layout that does");
const WINDOW: Entry = (window_sample, "w1: the job is in window 1");

/// The entries of a picture with the tree, or of the passes alone.
pub fn entries(planned: &Planned, with_tree: bool) -> Vec<Entry> {
    let holds = |role: Role| (0..planned.order.len()).any(|job| planned.role(job) == role);
    let mut entries = Vec::new();
    if with_tree {
        entries.push(LAYOUT_0);
    }
    if with_tree && planned.table.layouts() > 1 {
        entries.push(LAYOUT);
    }
    let by_role = [
        (Role::LaneOne, LANE_ONE),
        (Role::LaneTwo, LANE_TWO),
        (Role::Single, SINGLE),
        (Role::Solo, SOLO),
    ];
    entries.extend(
        by_role
            .iter()
            .filter(|(role, _)| holds(*role))
            .map(|(_, entry)| *entry),
    );
    if with_tree && holds(Role::LaneOne) {
        entries.push(RUNG);
    }
    if with_tree && planned.has_barer() {
        entries.push(BAREST);
    }
    if with_tree && planned.has_windows() {
        entries.push(WINDOW);
    }
    entries
}

/// The entries in columns that are together no wider than given, the upper left corner at a point.
pub fn draw(entries: &[Entry], at: Point, width: i32) -> Panel {
    let columns = (width / ENTRY).max(1);
    let drawn = (0..).zip(entries).map(|(place, entry)| {
        let left = at.shifted(place % columns * ENTRY, place / columns * LINE + LINE / 2);
        explained(entry, left)
    });
    Panel {
        drawing: group("legend").holding_all(drawn),
        width,
        height: (entries.len() as i32 + columns - 1) / columns * LINE,
    }
}

fn explained((sample, words): &Entry, left: Point) -> Element {
    let said = left.shifted(SAMPLE + 10, 5);
    group("entry")
        .holding(sample(left))
        .holding(text("said", said, words))
}

fn sample_area(at: Point) -> Area {
    Area {
        x: at.x,
        y: at.y - CHIP_HEIGHT / 2,
        width: SAMPLE,
        height: CHIP_HEIGHT,
    }
}

fn chip(role: Role, at: Point) -> Element {
    sample(role, sample_area(at))
}

fn box_sample(class: &str, at: Point) -> Element {
    rectangle(class, sample_area(at)).with("rx", 3)
}

fn rung_sample(at: Point) -> Element {
    let point = |right: i32| at.shifted(right, 0);
    group("sample")
        .holding(line("rung", point(8), point(SAMPLE - 6)))
        .holding(circle("dot", point(SAMPLE - 6), 5))
        .holding_all(badge(1, point(9)))
}

fn window_sample(at: Point) -> Element {
    group("sample").holding(tag(1, at.shifted(SAMPLE / 2, -6)))
}

fn barest_sample(at: Point) -> Element {
    let point = |right: i32| at.shifted(right, 0);
    group("sample")
        .holding(line("rung dashed", point(8), point(SAMPLE - 6)))
        .holding(circle("dot hollow", point(SAMPLE - 6), 5))
        .holding_all(dashed_badge(1, point(9)))
}

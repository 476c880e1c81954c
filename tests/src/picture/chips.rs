//! Jobs and passes as they are drawn everywhere. No colour stands alone: lane 1 is solid and round,
//! lane 2 striped and square, a single is empty, and a solo job is dotted and carries a diamond.

use super::markup::{element, Element};
use super::planned::{Planned, Role};
use super::shapes::{circle, group, rectangle, text, Area, Point};

impl Role {
    pub fn class(self) -> &'static str {
        match self {
            Role::LaneOne => "lane-1",
            Role::LaneTwo => "lane-2",
            Role::Single => "single",
            Role::Solo => "solo",
        }
    }

    /// The rounding of its corners.
    fn radius(self) -> i32 {
        match self {
            Role::LaneOne | Role::Single => 8,
            Role::LaneTwo | Role::Solo => 0,
        }
    }
}

/// The body of a job's bar or chip.
fn body(role: Role, area: Area) -> Element {
    rectangle("body", area).with("rx", role.radius())
}

pub const CHIP_HEIGHT: i32 = 18;
/// The height of the plate that a number stands on.
const PLATE_HEIGHT: i32 = 14;
/// The width of a digit on a plate.
const DIGIT: i32 = 7;

/// A number on a white plate in the middle of an area's upper end, so that it is read on any
/// pattern.
fn plate(number: usize, area: Area) -> [Element; 2] {
    let digits = number.to_string().len() as i32;
    let width = (DIGIT * digits + 10).min(area.width - 2);
    let x = area.x + (area.width - width) / 2;
    let y = area.y + 2;
    let plate = Area {
        x,
        y,
        width,
        height: PLATE_HEIGHT,
    };
    let at = Point {
        x: area.x + area.width / 2,
        y: y + 11,
    };
    [
        rectangle("plate", plate).with("rx", 2),
        text("number small middle", at, number),
    ]
}

/// A job's bar or chip, in a group that is marked with the class given.
pub fn job_shape(planned: &Planned, job: usize, area: Area, mark: &str) -> Element {
    let role = planned.role(job);
    let shape = shape(role, area, mark)
        .with("data-job", job)
        .with("data-in", planned.pass_of(job).number);
    let shape = match planned.window(job) {
        Some(window) => shape.with("data-window", window),
        None => shape,
    };
    shape.holding_all(plate(job, area))
}

/// The height that a window's tag takes under the number of a job.
pub const TAG: i32 = 14;

/// The window of a job on a tag, the middle of its upper end given. It may be wider than a bar, but not
/// than from bar to bar.
pub fn tag(window: u8, at: Point) -> Element {
    let words = format!("w{window}");
    let width = DIGIT * words.len() as i32 + 1;
    let area = Area {
        x: at.x - width / 2,
        y: at.y,
        width,
        height: TAG - 1,
    };
    group("tag")
        .holding(
            rectangle("plate", area)
                .with("rx", 2)
                .with("stroke", "#595959"),
        )
        .holding(text("number small middle", at.shifted(0, 10), words))
}

/// Where the tag of a bar stands: under the plate of its number.
pub fn below_plate(area: Area) -> Point {
    Point {
        x: area.x + area.width / 2,
        y: area.y + PLATE_HEIGHT + 4,
    }
}

/// A chip without a number.
pub fn sample(role: Role, area: Area) -> Element {
    shape(role, area, "sample")
}

fn shape(role: Role, area: Area, mark: &str) -> Element {
    let shape = group(&format!("{mark} {}", role.class())).holding(body(role, area));
    match role {
        Role::Solo => shape.holding(diamond(area)),
        _ => shape,
    }
}

/// The mark of a solo job: at the lower end of a bar, at the right end of a chip.
fn diamond(area: Area) -> Element {
    let radius = 5;
    let (x, y) = if area.height > CHIP_HEIGHT {
        (area.x + area.width / 2, area.y + area.height)
    } else {
        (area.x + area.width, area.y + area.height / 2)
    };
    let corners = format!(
        "{x},{} {},{y} {x},{} {},{y}",
        y - radius,
        x + radius,
        y + radius,
        x - radius
    );
    element("polygon").class("diamond").with("points", corners)
}

/// The number of a pass in a circle.
pub fn badge(number: usize, at: Point) -> [Element; 2] {
    numbered("badge", number, at)
}

/// The number of a pass where it could print on the barest layout that does.
pub fn dashed_badge(number: usize, at: Point) -> [Element; 2] {
    numbered("badge dashed", number, at)
}

fn numbered(class: &str, number: usize, at: Point) -> [Element; 2] {
    [
        circle(class, at, BADGE),
        text("number small middle", at.shifted(0, 4), number),
    ]
}

/// The radius of a badge.
pub const BADGE: i32 = 9;

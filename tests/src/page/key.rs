//! What the shapes of the page mean: those of the picture, and the marks of a turn, as a list that
//! wraps where the window ends.

use crate::picture::chips::{sample, CHIP_HEIGHT};
use crate::picture::legend;
use crate::picture::markup::{element, Element};
use crate::picture::planned::{Planned, Role};
use crate::picture::shapes::{group, rectangle, Area, Point};
use crate::picture::sheet::svg;

/// The size of a drawing, and of the shape in it.
const WIDTH: i32 = 50;
const HEIGHT: i32 = 26;
const SHAPE: Area = Area {
    x: 7,
    y: (HEIGHT - CHIP_HEIGHT) / 2,
    width: 36,
    height: CHIP_HEIGHT,
};

pub fn list(planned: &Planned) -> Element {
    let middle = Point {
        x: SHAPE.x,
        y: HEIGHT / 2,
    };
    let shapes = legend::entries(planned, true)
        .into_iter()
        .map(|(sample, words)| entry("shapes", sample(middle), words));
    let marks = marks()
        .into_iter()
        .map(|(sample, words)| entry("marks", sample, words));
    element("ul")
        .with("id", "key")
        .with("aria-label", "What the shapes mean")
        .holding_all(shapes)
        .holding_all(marks)
}

fn entry(class: &str, sample: Element, words: &str) -> Element {
    element("li")
        .class(class)
        .holding(svg(WIDTH, HEIGHT, words).holding(sample))
        .holding(element("span").text(words))
}

/// The marks that the script gives, on shapes that carry them for good.
fn marks() -> [(Element, &'static str); 5] {
    let job = |mark: &str, role: Role| group(mark).holding(sample(role, SHAPE));
    [
        (job("placed turn", Role::Single), "whose turn it is"),
        (job("placed found", Role::Single), "found by the lookup"),
        (
            group("layout asked").holding(rectangle("box", SHAPE)),
            "the span asked for: bottoms in this box or below it",
        ),
        (
            job("job unreached", Role::LaneOne),
            "faint: bottom not reached yet",
        ),
        (job("undecided", Role::Single), "thin: not yet in a pass"),
    ]
}

//! How things look: the style of a picture and the patterns that it names. The colours are those of
//! Okabe and Ito, which the colour-blind tell apart.

use super::markup::{element, Element};

pub const STYLE: &str = include_str!("picture.css");

/// The patterns that the style names.
pub fn patterns() -> Element {
    let pattern = |name: &str, size: i32| {
        element("pattern")
            .with("id", name)
            .with("width", size)
            .with("height", size)
            .with("patternUnits", "userSpaceOnUse")
    };
    let ground = |size: i32, colour: &str| {
        element("rect")
            .with("width", size)
            .with("height", size)
            .with("fill", colour)
    };
    let stripe = element("rect")
        .with("width", 3)
        .with("height", 8)
        .with("fill", "#7A5400");
    let dot = element("circle")
        .with("cx", 3)
        .with("cy", 3)
        .with("r", "1.4")
        .with("fill", "#7D3B5E");
    let stripes = pattern("stripes", 8)
        .with("patternTransform", "rotate(45)")
        .holding(ground(8, "#E69F00"))
        .holding(stripe);
    let dots = pattern("dots", 6)
        .holding(ground(6, "#F3DCE8"))
        .holding(dot);
    element("defs").holding(stripes).holding(dots)
}

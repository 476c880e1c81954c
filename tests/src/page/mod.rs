//! A page of a table and its plan that stands alone: the picture, and the sweep turn by turn. The
//! turns are told by the second implementation, and nothing is written where they do not make the
//! product's plan. Without its script the page is the picture and the list of all turns; that is
//! also how it is printed.

mod key;
mod steps;

use crate::picture::answer::Answer;
use crate::picture::markup::{element, Element};
use crate::picture::planned::Planned;
use crate::picture::shapes::{Panel, Point};
use crate::picture::sheet::svg;
use crate::picture::style::{patterns, STYLE};
use crate::picture::{
    is_legible, order, picture, refuse_cut_beyond, refused_title, title, totals, tree, Options,
    JOBS_DRAWN, LAYOUTS_DRAWN,
};
use crate::reference::sweep::{plan_of_turns, turns};

const PAGE_STYLE: &str = include_str!("page.css");
const SCRIPT: &str = include_str!("page.js");
/// What stands before the page's one element.
pub const DOCTYPE: &str = "<!DOCTYPE html>\n";
/// Room around a panel, for lines that stand at its edge.
const EDGE: i32 = 6;

/// The page of a product's answer, or why there is none.
pub fn page(bytes: &[u8], answer: &Answer, options: &Options) -> Result<String, String> {
    let body = match answer {
        Answer::Planned(planned) if is_legible(planned) => stepping(planned, options)?,
        _ => still(picture(bytes, answer, options)?, answer),
    };
    let title = match answer {
        Answer::Planned(_) => title(options),
        Answer::Refused(_) => refused_title(options),
    };
    let head = element("head")
        .holding(element("meta").with("charset", "utf-8"))
        .holding(
            element("meta")
                .with("name", "viewport")
                .with("content", "width=device-width, initial-scale=1"),
        )
        .holding(element("title").text(title))
        .holding(element("style").raw(STYLE))
        .holding(element("style").raw(PAGE_STYLE));
    let html = element("html")
        .with("lang", "en")
        .holding(head)
        .holding(body);
    Ok(format!("{DOCTYPE}{}", html.written()))
}

/// The picture alone, of a refused table or of one that is too large to step through.
fn still(picture: Element, answer: &Answer) -> Element {
    let figure = element("figure").class("still").holding(picture);
    let body = element("body").holding(figure);
    match answer {
        Answer::Refused(_) => body,
        Answer::Planned(_) => body.holding(element("p").text(format!(
            "The turns of the sweep are told for at most {JOBS_DRAWN} jobs and {LAYOUTS_DRAWN} layouts."
        ))),
    }
}

fn stepping(planned: &Planned, options: &Options) -> Result<Element, String> {
    refuse_cut_beyond(planned, options)?;
    let turns = turns(&planned.table);
    if plan_of_turns(&planned.table, &turns) != planned.plan {
        return Err("the turns of the sweep do not make the plan".to_string());
    }
    let steps = match turns.is_empty() {
        true => element("p").text("No jobs: no turn."),
        false => steps::list(planned, &turns),
    };
    let sweep = element("section")
        .with("id", "sweep")
        .with("aria-label", "The sweep turn by turn")
        .holding(element("h2").text("The sweep, turn by turn"))
        .holding_all((!turns.is_empty()).then(controls))
        .holding(steps);
    Ok(element("body")
        .holding(element("h1").text(title(options)))
        .holding(element("p").text(totals(planned)))
        .holding(
            element("main")
                .holding(pictures(planned, options))
                .holding(sweep),
        )
        .holding(key::list(planned))
        .holding(shared_patterns())
        .holding(element("script").raw(SCRIPT)))
}

/// Buttons for the script; it shows them, so that none is there without it.
fn controls() -> Element {
    let button = |name: &'static str, words: &'static str| {
        element("button")
            .with("type", "button")
            .with("id", name)
            .text(words)
    };
    element("div")
        .with("id", "controls")
        .with("hidden", "hidden")
        .holding(button("first", "First"))
        .holding(button("back", "← Back"))
        .holding(button("next", "Next →"))
        .holding(button("last", "Last"))
        .holding(element("p").text(
            "Keys: ←, →, Home, End. With a finger: swipe here, or tap a place in the running order.",
        ))
}

/// The tree and the running order as two drawings, so that a narrow screen sets one below the
/// other.
fn pictures(planned: &Planned, options: &Options) -> Element {
    let corner = Point { x: EDGE, y: EDGE };
    let tree = tree::draw(planned, corner);
    let order = order::draw(planned, corner, options.cut);
    element("section")
        .with("id", "pictures")
        .with("aria-label", "The picture")
        .holding(figure(tree, "The layouts and the jobs"))
        .holding(figure(order, "The running order and the passes"))
}

/// The patterns of the style, once for all drawings of the page.
fn shared_patterns() -> Element {
    element("svg")
        .with("width", 0)
        .with("height", 0)
        .with("aria-hidden", "true")
        .holding(patterns())
}

/// A panel as a drawing of its own: as wide as the window allows, but no wider than it was drawn
/// and no narrower than can be read.
fn figure(panel: Panel, label: &str) -> Element {
    let (width, height) = (panel.width + 2 * EDGE, panel.height + 2 * EDGE);
    let widths = format!("max-width: {width}px; min-width: {}px", width * 2 / 3);
    let drawing = svg(width, height, label)
        .with("style", widths)
        .holding(panel.drawing);
    element("figure").holding(drawing)
}

//! The sheet that a picture stands on: its margins, its title and what is said under it.

use super::markup::{element, Element};
use super::shapes::{rectangle, text, text_width, Area, Panel, Point};
use super::style::{patterns, STYLE};

pub const MARGIN: i32 = 32;
/// The title's height, and that of a line said under it.
const TITLE: i32 = 36;
const LINE: i32 = 22;
const LEAST_WIDTH: i32 = 640;

/// A drawing that stands alone, its words for those who do not see it among it.
pub fn svg(width: i32, height: i32, label: &str) -> Element {
    element("svg")
        .with("xmlns", "http://www.w3.org/2000/svg")
        .with("width", width)
        .with("height", height)
        .with("viewBox", format!("0 0 {width} {height}"))
        .with("role", "img")
        .holding(element("title").text(label))
}

pub struct Sheet {
    title: String,
    said: Vec<String>,
    parts: Vec<Element>,
    width: i32,
    /// Where the next part begins.
    y: i32,
}

impl Sheet {
    pub fn new(title: &str, said: Vec<String>) -> Sheet {
        let longest = said.iter().map(|line| text_width(line)).max().unwrap_or(0);
        let title_width = text_width(title) * 2;
        Sheet {
            title: title.to_string(),
            y: MARGIN + TITLE + said.len() as i32 * LINE + 10,
            width: LEAST_WIDTH.max(longest).max(title_width),
            said,
            parts: Vec::new(),
        }
    }

    /// Where the next part has its upper left corner.
    pub fn corner(&self) -> Point {
        Point {
            x: MARGIN,
            y: self.y,
        }
    }

    /// Panels side by side, already drawn from the corner on, with room under them.
    pub fn add(&mut self, panels: Vec<Panel>, gap: i32) {
        let width: i32 = panels.iter().map(|panel| panel.width).sum();
        let gaps = gap * (panels.len() as i32 - 1);
        let height = panels.iter().map(|panel| panel.height).max().unwrap_or(0);
        self.width = self.width.max(width + gaps);
        self.y += height + MARGIN;
        self.parts
            .extend(panels.into_iter().map(|panel| panel.drawing));
    }

    pub fn width(&self) -> i32 {
        self.width
    }

    pub fn finish(self) -> Element {
        let (width, height) = (self.width + 2 * MARGIN, self.y);
        let paper = Area {
            x: 0,
            y: 0,
            width,
            height,
        };
        let label = format!("{}. {}", self.title, self.said.join(". "));
        svg(width, height, &label)
            .holding(element("style").raw(STYLE))
            .holding(patterns())
            .holding(rectangle("paper", paper))
            .holding(text("title", self.line(0), &self.title))
            .holding_all(
                (1..)
                    .zip(&self.said)
                    .map(|(line, words)| text("said", self.line(line), words)),
            )
            .holding_all(self.parts)
    }

    /// Where a line of the head stands; the title is line 0.
    fn line(&self, line: i32) -> Point {
        let down = if line == 0 {
            18
        } else {
            TITLE + line * LINE - 8
        };
        Point {
            x: MARGIN,
            y: MARGIN + down,
        }
    }
}

//! Points, areas and the plain shapes that everything is drawn with.

use super::markup::{element, Element};
use std::fmt::Display;

/// A point of the picture.
#[derive(Clone, Copy)]
pub struct Point {
    pub x: i32,
    pub y: i32,
}

impl Point {
    pub fn shifted(self, right: i32, down: i32) -> Point {
        Point {
            x: self.x + right,
            y: self.y + down,
        }
    }
}

/// A rectangle of the picture.
#[derive(Clone, Copy)]
pub struct Area {
    pub x: i32,
    pub y: i32,
    pub width: i32,
    pub height: i32,
}

/// A part of the picture that was drawn, and the room that it takes.
pub struct Panel {
    pub drawing: Element,
    pub width: i32,
    pub height: i32,
}

pub fn group(class: &str) -> Element {
    element("g").class(class)
}

pub fn text(class: &str, at: Point, words: impl Display) -> Element {
    element("text")
        .class(class)
        .with("x", at.x)
        .with("y", at.y)
        .text(words)
}

pub fn rectangle(class: &str, area: Area) -> Element {
    element("rect")
        .class(class)
        .with("x", area.x)
        .with("y", area.y)
        .with("width", area.width)
        .with("height", area.height)
}

pub fn line(class: &str, from: Point, to: Point) -> Element {
    element("line")
        .class(class)
        .with("x1", from.x)
        .with("y1", from.y)
        .with("x2", to.x)
        .with("y2", to.y)
}

pub fn circle(class: &str, at: Point, radius: i32) -> Element {
    element("circle")
        .class(class)
        .with("cx", at.x)
        .with("cy", at.y)
        .with("r", radius)
}

/// How wide a text of 13 pixels is at most, for layout: sans-serif faces differ.
pub fn text_width(words: &str) -> i32 {
    words.chars().count() as i32 * 8
}

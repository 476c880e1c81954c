//! A refused table: what is wrong, and the line that the refusal names among those beside it.

use super::markup::{element, Element};
use super::shapes::{group, rectangle, text, Area, Panel, Point};
use crate::reference::Refusal;

const ROW: i32 = 26;
const NUMBER: i32 = 64;
const WIDTH: i32 = 640;
/// How many lines are shown before and after the one named, and how many bytes of a line.
const BESIDE: usize = 3;
const BYTES: usize = 48;

/// What is wrong, in the words of docs/FORMAT.md.
pub fn words(refusal: Refusal) -> &'static str {
    match refusal.number {
        1 => "the line is no frame",
        2 => "a line after the end, or an end without a layout",
        3 => "too many layouts or jobs",
        4 => "a wrong parent",
        5 => "a top or bottom that is no layout",
        6 => "a bottom not at or below its top",
        7 => "wrong counts at the end, or no end",
        9 => "a window above 0F",
        _ => "a lent buffer is too small",
    }
}

/// The panel with its upper left corner at a point.
pub fn draw(bytes: &[u8], refusal: Refusal, at: Point) -> Panel {
    let lines: Vec<&[u8]> = bytes.split_inclusive(|&byte| byte == b'\n').collect();
    let named = usize::from(refusal.place);
    let first = named.saturating_sub(BESIDE).max(1);
    let last = (named + BESIDE).min(lines.len().max(named));
    let shown = (first..=last).enumerate().map(|(row, number)| {
        let corner = at.shifted(0, row as i32 * ROW);
        table_line(
            number,
            lines.get(number - 1).copied(),
            number == named,
            corner,
        )
    });
    Panel {
        drawing: group("lines").holding_all(shown),
        width: WIDTH,
        height: (last - first + 1) as i32 * ROW,
    }
}

/// A line with its number; the one that the refusal names stands in a frame.
fn table_line(number: usize, bytes: Option<&[u8]>, named: bool, corner: Point) -> Element {
    let at = |right: i32| corner.shifted(right, 18);
    let mark = if named { "line named" } else { "line" };
    let mut drawn = group(mark).with("data-line", number);
    if named {
        drawn.push(frame(corner));
        drawn.push(arrow(corner));
    }
    let said = match bytes {
        Some(bytes) => spelled(bytes, at(NUMBER)),
        None => text(
            "alarm",
            at(NUMBER),
            "the table stops here, without its end line",
        ),
    };
    drawn
        .holding(text("number faint right", at(NUMBER - 16), number))
        .holding(said)
}

fn frame(corner: Point) -> Element {
    let area = Area {
        x: corner.x,
        y: corner.y,
        width: WIDTH,
        height: ROW,
    };
    rectangle("wrong", area).with("rx", 3)
}

fn arrow(corner: Point) -> Element {
    let (x, y) = (corner.x + 6, corner.y + ROW / 2);
    element("polygon").class("foreign").with(
        "points",
        format!("{x},{} {},{y} {x},{}", y - 5, x + 8, y + 5),
    )
}

/// The bytes of a line: those that print as they are, the others as their number in brackets.
fn spelled(bytes: &[u8], at: Point) -> Element {
    let (content, ended) = match bytes.strip_suffix(b"\n") {
        Some(content) => (content, true),
        None => (bytes, false),
    };
    let mut spelled = element("text")
        .class("number said")
        .with("x", at.x)
        .with("y", at.y);
    for &byte in content.iter().take(BYTES) {
        spelled = match byte {
            b'!'..=b'~' => spelled.text(char::from(byte)),
            _ => spelled.holding(note(&format!("‹{byte:02X}›"))),
        };
    }
    for words in remarks(content, ended) {
        spelled = spelled.text(" ").holding(note(&words));
    }
    spelled
}

/// What cannot be seen of a line.
fn remarks(content: &[u8], ended: bool) -> Vec<String> {
    let mut remarks = Vec::new();
    if content.is_empty() {
        remarks.push("(empty)".to_string());
    }
    if content.len() > BYTES {
        remarks.push(format!("… {} bytes", content.len()));
    }
    if !ended {
        remarks.push("(no 0A at its end)".to_string());
    }
    remarks
}

fn note(words: &str) -> Element {
    element("tspan").class("foreign").text(words)
}

//! The page in a browser: driven by keys, buttons and finger in a narrow and a wide frame, and
//! printed. The pages stand in frames of one document, whose script acts on them and writes down what
//! they show.

use super::bakehouse::{MARKS, TURNS};
use super::{page_of, spaced, words_of_turns};
use crate::browser::Browser;
use crate::examples::{BAKEHOUSE_BYTES, BAKEHOUSE_ORDER};
use crate::made::tables::{table_of_size, Size};
use crate::made::Generator;
use crate::page::DOCTYPE;
use crate::picture::markup::element;
use crate::picture::JOBS_DRAWN;
use crate::reference::plan::running_order;
use crate::reference::table::table_lines;
use crate::reference::Table;
use crate::report::{same, Outcome};
use crate::well_formed::elements;

/// What is done in the browser, and the turn that it must then show, of a table with five jobs.
const ACTIONS: [(&str, usize); 28] = [
    ("open", 0),
    ("key ArrowRight", 1),
    ("key ArrowRight", 2),
    ("key ArrowRight", 3),
    ("key ArrowRight", 4),
    ("key ArrowRight", 4),
    ("key ArrowLeft", 3),
    ("key ArrowLeft", 2),
    ("key ArrowLeft", 1),
    ("key ArrowLeft", 0),
    ("key ArrowLeft", 0),
    ("key End", 4),
    ("key Home", 0),
    ("key a", 0),
    ("shift ArrowRight", 0),
    ("button next", 1),
    ("button last", 4),
    ("button next", 4),
    ("button back", 3),
    ("button first", 0),
    ("button back", 0),
    ("swipe -80 10", 1),
    ("swipe -30 0", 1),
    ("swipe -60 90", 1),
    ("swipe 80 -10", 0),
    ("tap 3", 3),
    ("tap 0", 0),
    ("key ArrowRight", 1),
];

const WIDTHS: [i32; 2] = [360, 1600];

/// A page in a frame of a window's width.
struct Frame {
    name: String,
    width: i32,
    page: String,
    actions: Vec<(&'static str, usize)>,
}

/// The bakehouse table by every action, and other tables from end to end, in windows of both
/// widths.
pub fn drive(browser: &Browser) -> Outcome {
    let frames = frames()?;
    let document = browser.document(&wrapper(&frames))?;
    let record = record_of(&document)?;
    let mut lines = record.lines();
    for frame in &frames {
        let words = words_of_turns(&frame.page)?;
        for &(action, turn) in &frame.actions {
            let line = lines.next().ok_or("the record ends early")?;
            shows(frame, action, turn, &words, line)?;
        }
        let focus = lines.next().ok_or("no focus recorded")?;
        same("focus", focus, &format!("{}\tfocus\tsolid", frame.name))?;
    }
    same("lines left", lines.next(), None)
}

fn frames() -> Result<Vec<Frame>, String> {
    let mut frames = Vec::new();
    for width in WIDTHS {
        frames.push(Frame {
            name: format!("bakehouse {width}"),
            width,
            page: page_of(BAKEHOUSE_BYTES)?,
            actions: ACTIONS.to_vec(),
        });
        for seed in 0..SEEDS {
            frames.push(made_frame(seed, width)?);
        }
    }
    Ok(frames)
}

/// A made table, from its first turn to its last and back, and on turn by turn.
fn made_frame(seed: u64, width: i32) -> Result<Frame, String> {
    let table = made_table(seed);
    let last = table.jobs() - 1;
    let mut actions = vec![("open", 0), ("key End", last), ("key Home", 0)];
    actions.extend((1..=last).map(|turn| ("key ArrowRight", turn)));
    Ok(Frame {
        name: format!("made {seed} {width}"),
        width,
        page: page_of(&table_lines(&table).concat())?,
        actions,
    })
}

/// The larger the seed, the larger the table: the last is as large as a page can show.
const SEEDS: u64 = 4;

fn made_table(seed: u64) -> Table {
    let count = JOBS_DRAWN * (seed as usize + 1) / SEEDS as usize;
    let size = Size {
        layouts: count,
        jobs: count,
    };
    table_of_size(size, &mut Generator::new(seed))
}

/// A document with a frame for each page, and the script that drives them.
fn wrapper(frames: &[Frame]) -> String {
    let frame = |frame: &Frame| {
        let actions: Vec<&str> = frame.actions.iter().map(|(action, _)| *action).collect();
        element("iframe")
            .with("name", &frame.name)
            .with("width", frame.width)
            .with("height", 900)
            .with("style", "border: 0")
            .with("data-actions", actions.join(","))
            .with("srcdoc", &frame.page)
            .text(" ")
    };
    let body = element("body")
        .holding_all(frames.iter().map(frame))
        .holding(element("pre").with("id", "record").text(" "))
        .holding(element("script").raw(include_str!("driver.js")));
    format!("{DOCTYPE}{}", element("html").holding(body).written())
}

/// What the script wrote down.
fn record_of(document: &str) -> Result<String, String> {
    let start = document.rfind("<pre id=\"record\">").ok_or("no record")?;
    let end = document[start..].find("</pre>").ok_or("no record's end")? + "</pre>".len();
    let read = elements(&document[start..start + end])?;
    Ok(read[0].text.clone())
}

/// One line of the record: the turn shown and no other, its marks in the picture, and a page that
/// is no wider than its window.
fn shows(frame: &Frame, action: &str, turn: usize, words: &[String], line: &str) -> Outcome {
    let fields: Vec<&str> = line.split('\t').collect();
    let [name, acted, width, fit, job, found, asked, reached, made, text] = fields[..] else {
        return Err(format!("{line:?} is no line of the record"));
    };
    same("frame", name, &frame.name)?;
    same("action", acted, action)?;
    let at = format!("{name}, {action}");
    same(&at, width, &frame.width.to_string())?;
    same(&at, fit, "fits")?;
    same(&at, text, &words[turn])?;
    if frame.name.starts_with("bakehouse") {
        same(&at, job, &BAKEHOUSE_ORDER[turn].to_string())?;
        same(&at, [found, asked, reached, made], MARKS[turn])?;
    }
    Ok(())
}

/// Printed, the page holds every turn and no button.
pub fn print(browser: &Browser) -> Outcome {
    let Some(text) = browser.printed_text(&page_of(BAKEHOUSE_BYTES)?)? else {
        println!("page: no pdftotext is installed; the text of the print is not read");
        return Ok(());
    };
    let text = spaced(&text);
    for line in TURNS.concat() {
        // A name and its words stand in columns of their own, and are read one after the other.
        let words = line.split_once(": ").map_or(line, |(_, words)| words);
        same(line, text.contains(words), true)?;
    }
    same("turns", text.matches("Turn ").count(), TURNS.len())?;
    same("a button", text.contains("Next →"), false)?;
    print_large(browser)
}

/// Of a large table each turn's heading is printed once.
fn print_large(browser: &Browser) -> Outcome {
    let table = made_table(SEEDS - 1);
    let page = page_of(&table_lines(&table).concat())?;
    let text = spaced(&browser.printed_text(&page)?.unwrap_or_default());
    for (place, job) in running_order(&table).into_iter().enumerate() {
        let heading = format!("Turn {} of {}: job {job} ", place + 1, table.jobs());
        same(&heading, text.matches(&heading).count(), 1)?;
    }
    Ok(())
}
